"""Decrypts under older versions of keys, in a replay: what each answers is compared with the answer while the version was current.

    python3 tests/materials.py PROGRAM FOLDER
"""

import os
import random
import subprocess
import sys

KEYS = 5
ROLLS = 60
QUESTIONS = 600
SENT = "0f0e0d0c0b0a09080706050403020100"
LISTS = "".join(f"default.key.acl.{it}=*\n" for it in ("MANAGEMENT", "DECRYPT_EEK", "READ"))


def sealed(bits):
    return bytes(range(bits // 8)).hex()


class Replay:
    """A replay whose lines are answered one by one."""

    def __init__(self, program, room):
        self.process = subprocess.Popen([program, "replay"], cwd=room, stdin=subprocess.PIPE, stdout=subprocess.PIPE,
                                        stderr=subprocess.PIPE, text=True, bufsize=1)

    def ask(self, line):
        self.process.stdin.write(line + "\n")
        return self.process.stdout.readline().rstrip("\n").split(" ", 1)[-1]

    def end(self):
        """Ends it. Returns its status and what it wrote to standard error."""
        _, errors = self.process.communicate()
        return self.process.returncode, errors


def fail(text):
    sys.exit(f"tests/materials.py: {text}")


def wanted(what, got, want):
    if got != want:
        fail(f"{what}: {got}, not {want}")


def decrypt(key, version):
    return f"kms a decrypt {key}@{version} {SENT} {sealed(BITS[key])}"


def question(chance, versions):
    key = chance.choice(sorted(versions))
    return key, chance.randrange(len(versions[key]))


def try_cache(program, room, size):
    """Rolls keys and decrypts under all their versions by chance, with a cache of this size."""
    with open(os.path.join(room, "kms-acls.properties"), "w", encoding="utf-8") as file:
        file.write(LISTS + f"hkms.cache={size}\n")
    chance = random.Random(size)
    versions = {}
    replay = Replay(program, room)
    for key in BITS:
        replay.ask(f"kms a create {key} {BITS[key]} -")
        versions[key] = [replay.ask(decrypt(key, 0))]
    for number in range(ROLLS):
        key = chance.choice(sorted(versions))
        wanted("a roll", replay.ask(f"kms a roll {key} -").split(" ")[1], f"{key}@{len(versions[key])}")
        versions[key].append(replay.ask(decrypt(key, len(versions[key]))))
        for _ in range(3):
            key, version = question(chance, versions)
            wanted(f"{key}@{version}", replay.ask(decrypt(key, version)), versions[key][version])
        if number == ROLLS // 2:
            wanted("a restart", replay.ask("restart kms"), "opened 2")
    wanted("the end", replay.end(), (0, ""))
    replay = Replay(program, room)
    for _ in range(QUESTIONS):
        key, version = question(chance, versions)
        wanted(f"{key}@{version} in a further run", replay.ask(decrypt(key, version)), versions[key][version])
    if len({it for all_of in versions.values() for it in all_of}) < ROLLS:
        fail("versions open to the same key")
    wanted("the further end", replay.end(), (0, ""))
    return versions


def try_short_log(program, room, versions):
    """Cuts the log below a running replay: what it reads from there is refused, and all else goes on."""
    log = os.path.join(room, "keys.log")
    key = max(sorted(versions), key=lambda it: len(versions[it]))
    last = len(versions[key]) - 1
    with open(log, "rb") as file:
        whole = file.read()
    replay = Replay(program, room)
    wanted("the current version", replay.ask(decrypt(key, last)), versions[key][last])
    os.truncate(log, 100)
    wanted("an older version of a log that was cut", replay.ask(decrypt(key, last - 1)), "refused K14 StoreFault")
    wanted("the current version of it", replay.ask(decrypt(key, last)), versions[key][last])
    with open(log, "r+b") as file:
        file.write(whole)
    wanted("the older version of the whole log", replay.ask(decrypt(key, last - 1)), versions[key][last - 1])
    status, errors = replay.end()
    if status != 0 or "keys.log: read failed" not in errors:
        fail(f"the replay over a log that was cut: status {status}, {errors!r}")


BITS = {f"key-{number}": (128, 192, 256)[number % 3] for number in range(KEYS)}


def main():
    program, folder = sys.argv[1:]
    for size in (1, 2, 7, 1000):
        room = os.path.join(folder, f"cache-{size}")
        os.mkdir(room)
        versions = try_cache(program, room, size)
    try_short_log(program, room, versions)


main()
