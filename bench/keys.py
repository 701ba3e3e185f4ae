"""Measures openings of key logs with many versions, and decrypts under current and older versions.

    python3 bench/keys.py PROGRAM FOLDER

It makes key logs in FOLDER from the bytes of their format (docs/logs.md) and runs `PROGRAM replay` on them. Memory is the most that
the process had once it answered a first line. A decrypt's time is processor time, without that of the same run with metadata in its
place.
"""

import os
import random
import struct
import subprocess
import sys
from collections import Counter

from rows import open_once

KEYS = 10_000
VERSIONS = 100
DECRYPTS = 100_000
MOST_MEMORY = 1.5
FIRST_BIRTH = (1 << 32) + 1
MATERIAL = bytes(range(16))
SENT = "0f0e0d0c0b0a09080706050403020100 874d6191b620e3261bef6864990db6ce"


def frame(payload):
    return b"\x01" + len(payload).to_bytes(4, "big") + payload


def key_log(keys, versions, is_shuffled=False):
    """A log of so many keys with so many versions each. The keys are rolled in turn, or in any order."""
    parts = [b"HKMSKEY1", frame(b"\x01" + struct.pack(">I", 1))]
    for number in range(keys):
        name = b"key-%05d" % number
        head = struct.pack(">BQB", 2, FIRST_BIRTH + number, len(name)) + name
        parts.append(frame(head + struct.pack(">HHQ", 128, 0, number) + MATERIAL))
    rolled = list(range(keys)) * (versions - 1)
    if is_shuffled:
        random.Random(1).shuffle(rolled)
    last = Counter()
    for number in rolled:
        last[number] += 1
        parts.append(frame(struct.pack(">BQH", 3, FIRST_BIRTH + number, last[number]) + MATERIAL))
    return b"".join(parts) + b"\x00"


def put_log(folder, log):
    for name in ("keys.log", "names.log"):
        if os.path.exists(os.path.join(folder, name)):
            os.remove(os.path.join(folder, name))
    with open(os.path.join(folder, "keys.log"), "wb") as file:
        file.write(log)


def opened(program, folder, log):
    """Opens a log. Returns the processor time of that, and the memory in MB."""
    put_log(folder, log)
    seconds, memory = open_once(program, folder, "kms a metadata no-key\n", "refused K4 NoSuchKey")
    return seconds, memory[0] / 1e6


def run(program, folder, log, lines):
    """Runs a replay on a log. Returns its processor time and its last line."""
    put_log(folder, log)
    with open(os.path.join(folder, "answers"), "wb") as answers:
        process = subprocess.Popen([program, "replay"], cwd=folder, stdin=subprocess.PIPE, stdout=answers)
        try:
            process.stdin.write(lines.encode())
            process.stdin.close()
        except BrokenPipeError:
            pass
        _, status, used = os.wait4(process.pid, 0)
    if status != 0:
        sys.exit(f"bench/keys.py: the replay ended with status {os.waitstatus_to_exitcode(status)}")
    with open(os.path.join(folder, "answers"), encoding="utf-8") as answers:
        last = answers.read().splitlines()[-1:]
    return used.ru_utime + used.ru_stime, last


def main():
    program, folder = os.path.abspath(sys.argv[1]), sys.argv[2]
    one = opened(program, folder, key_log(KEYS, 1))
    many = opened(program, folder, key_log(KEYS, VERSIONS))
    ratio = many[1] / one[1]
    shuffled = opened(program, folder, key_log(KEYS, VERSIONS, is_shuffled=True))
    print(f"{KEYS} keys, opened: with one version {one[0]:.2f} s and {one[1]:.1f} MB, with {VERSIONS} each {many[0]:.2f} s and "
          f"{many[1]:.1f} MB: {ratio:.2f} x the memory, at most {MOST_MEMORY} is wanted; if they are rolled in any order {shuffled[0]:.2f} s and "
          f"{shuffled[1]:.1f} MB")
    log = key_log(1, 10)
    base = run(program, folder, log, "kms a metadata key-00000\n" * DECRYPTS)[0]
    times = {}
    for version in (9, 3):
        seconds, last = run(program, folder, log, f"kms a decrypt key-00000@{version} {SENT}\n" * DECRYPTS)
        if not last or " key " not in last[0]:
            sys.exit(f"bench/keys.py: {last}")
        times[version] = (seconds - base) / DECRYPTS * 1e6
    print(f"a decrypt beside a call of metadata: {times[9]:.2f} us more under the current version, {times[3]:.2f} us more under an "
          "older one in the cache")


main()
