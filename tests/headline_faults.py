"""Copies of two logs with a fault in them, and what tests/headline.py says of each.

Run by headline.sh as: headline_faults.py FOLDER. The folder has the logs that examples/headline.sh leaves, in its folder crashed,
and the ledger. The copies are made in its folder copy.
"""

import os
import subprocess
import sys

FOLDER = sys.argv[1]
os.mkdir(f"{FOLDER}/copy")
CHECKER = os.path.join(os.path.dirname(os.path.abspath(__file__)), "headline.py")
MAGICS = {"keys.log": b"HKMSKEY1", "names.log": b"HKMSNAM1"}
FILE, UPDATE, COMPLETE = 3, 12, 14
failures = []


def records_of(name):
    """Returns the payloads of a log of the example, which is whole."""
    with open(f"{FOLDER}/crashed/{name}", "rb") as file:
        data, found = file.read()[8:], []
    while data[0] == 1:
        end = 5 + int.from_bytes(data[1:5], "big")
        found.append(data[5:end])
        data = data[end:]
    return found


def log(name, records):
    return MAGICS[name] + b"".join(b"\x01" + len(it).to_bytes(4, "big") + it for it in records) + b"\x00"


KEYS, NAMES = records_of("keys.log"), records_of("names.log")
with open(f"{FOLDER}/ledger", encoding="ascii") as ledger_file:
    LEDGER = ledger_file.read().splitlines()
IDS = [line.split()[0] for line in LEDGER]
DEKS = [line.split()[1] for line in LEDGER]


def check(keys, names, ledger):
    """Returns the status and the output of the checker for two logs of these bytes."""
    for name, text in (("keys.log", keys), ("names.log", names), ("ledger", "".join(f"{it}\n" for it in ledger).encode())):
        with open(f"{FOLDER}/copy/{name}", "wb") as file:
            file.write(text)
    command = [sys.executable, CHECKER, f"{FOLDER}/copy", "--ledger", f"{FOLDER}/copy/ledger"]
    ran = subprocess.run(command, stdout=subprocess.PIPE, check=False)
    return ran.returncode, ran.stdout.decode().removeprefix("tests/headline.py: ").rstrip("\n")


def expect(name, found, wanted):
    if not (found[0] == wanted[0] and found[1].startswith(wanted[1])):
        failures.append(f"{name}: {found} (wanted {wanted})")


def is_found(name, wanted, keys=None, names=None, ledger=None):
    """The checker says this of the logs, whose records are those of the example if they are not given."""
    keys = log("keys.log", KEYS if keys is None else keys)
    names = log("names.log", NAMES if names is None else names)
    expect(name, check(keys, names, LEDGER if ledger is None else ledger), (1, wanted))


def places(kind):
    return [place for place, it in enumerate(NAMES) if it[0] == kind]


def changed(records, place, *new):
    """Returns the records with other ones in one place, or none."""
    return records[:place] + list(new) + records[place + 1 :]


def flipped(record, at):
    """Returns a record with another byte; a negative offset counts from its end."""
    at %= len(record)
    return record[:at] + bytes([record[at] ^ 1]) + record[at + 1 :]


def edek_of(record):
    """The encrypted key at the end of a record: a name of one byte, the version in 2, the vector in 16, 16 sealed bytes."""
    return record[-37:]


def with_edek(record, edek):
    return record[:-37] + edek


def files_of(record):
    """The files of an update, each with its id and its new encrypted key."""
    count = int.from_bytes(record[9:13], "big")
    return [record[len(record) - 45 * it :][:45] for it in range(count, 0, -1)]


def update(record, files, failed=0):
    """An update of the same session and mark, of other files."""
    mark = record[17 : len(record) - 4 - 45 * len(files_of(record))]
    count = len(files).to_bytes(4, "big")
    return record[:9] + count + failed.to_bytes(4, "big") + mark + count + b"".join(files)


VERSION, VECTOR, SEALED = -35, -33, -16
A, B, C = places(FILE)
(FIRST, SECOND), (COMPLETED,) = places(UPDATE), places(COMPLETE)
OLD_A, OLD_B, OLD_C = (NAMES[it] for it in (A, B, C))
NEW_A, NEW_B = files_of(NAMES[FIRST])
(NEW_C,) = files_of(NAMES[SECOND])
DONE = "1 completed re-encryption, no file left behind\n"


def opens(path, file, version):
    return f"{path}: file {IDS[file]} opens under {version} to "


def behind(path):
    return f"{path}: on k@0 after a re-encryption to k@1"


whole = log("keys.log", KEYS), log("names.log", NAMES)
expect("the example", check(*whole, LEDGER), (0, DONE + "opens 3 files"))
expect("a ledger of two files", check(*whole, LEDGER[1:]), (0, DONE + "opens 2 files"))
expect("an empty ledger", check(*whole, []), (0, DONE + "opens 0 files"))
expect("two empty files", check(b"", b"", []), (0, "0 completed re-encryptions, no file left behind\nopens 0 files"))
expect("two files of 9 bytes", check(bytes(9), bytes(9), []), (0, "0 completed re-encryptions, no file left behind\nopens 0 files"))

# Encrypted keys, as the files were made and as they are now.
SNAPPED, LIVE = "/vault/.snapshot/monday", "/vault"
for name, at in (("the sealed bytes", SEALED), ("the last byte", -1), ("the vector", VECTOR)):
    is_found(f"{name} of a file", opens(SNAPPED + "/b", 1, "k@0"), names=changed(NAMES, B, flipped(OLD_B, at)))
    new = changed(NAMES, FIRST, update(NAMES[FIRST], [NEW_A, flipped(NEW_B, at)]))
    is_found(f"{name} of an update", opens(LIVE + "/b", 1, "k@1"), names=new)
new = changed(NAMES, B, with_edek(OLD_B, edek_of(OLD_A)))
is_found("the encrypted key of another file", opens(SNAPPED + "/b", 1, "k@0"), names=new)
new = changed(NAMES, FIRST, update(NAMES[FIRST], [with_edek(NEW_A, edek_of(NEW_B)), with_edek(NEW_B, edek_of(NEW_A))]))
is_found("the encrypted keys of two files exchanged", opens(LIVE + "/a", 0, "k@1"), names=new)
new = changed(NAMES, SECOND, update(NAMES[SECOND], [flipped(NEW_C, VERSION + 1)]))
is_found("another version", opens(LIVE + "/c", 2, "k@0"), names=new)
new = changed(NAMES, SECOND, update(NAMES[SECOND], [flipped(NEW_C, VERSION)]))
is_found("a version that the key lacks", opens(LIVE + "/c", 2, "k@257") + "nothing", names=new)
is_found("another ledger", opens(SNAPPED + "/a", 0, "k@0"), ledger=[f"{IDS[0]} {DEKS[1]}"])

# Files that are not there, or not apart.
new = [it for place, it in enumerate(NAMES) if place not in (C, SECOND)]
is_found("a file that was dropped", f"file {IDS[2]} is not in the log", names=new)
is_found("a log that was cut", f"file {IDS[2]} is not in the log", names=NAMES[:C])
new = changed(NAMES, B, with_edek(OLD_B, edek_of(OLD_A)))
ledger = [LEDGER[0], f"{IDS[1]} {DEKS[0]}", LEDGER[2]]
is_found("one key twice", f"the files {IDS[0]} and {IDS[1]} have one vector", names=new, ledger=ledger)
is_found("a file twice in the ledger", "the ledger has a file twice", ledger=LEDGER + LEDGER[:1])

# Re-encryptions that left a file behind, and others that may leave one.
new = changed(NAMES, FIRST, update(NAMES[FIRST], [NEW_A]))
is_found("a skipped file", behind("/vault/b"), names=new)
is_found("a skipped batch", behind("/vault/c"), names=changed(NAMES, SECOND))
is_found("an update without its files", behind("/vault/c"), names=changed(NAMES, SECOND, update(NAMES[SECOND], [])))
new = changed(NAMES, SECOND, update(NAMES[SECOND], [NEW_C[:8] + edek_of(OLD_C)]))
is_found("an update to the old version", behind("/vault/c"), names=new)
is_found("a completion that comes too early", behind("/vault/c"), names=NAMES[:SECOND] + NAMES[COMPLETED:])
NONE = "0 completed re-encryptions, no file left behind\n"
for name, new in {
    "a failed file": changed(NAMES, SECOND, update(NAMES[SECOND], [], 1)),
    "a cancelled re-encryption": changed(NAMES[:SECOND] + NAMES[COMPLETED:], SECOND, b"\x0d" + NAMES[COMPLETED][1:]),
    "a re-encryption that goes on": NAMES[:SECOND],
}.items():
    expect(name, check(whole[0], log("names.log", new), LEDGER), (0, NONE + "opens 3 files"))

# A file that was removed is still in the snapshot.
gone = b"\x04" + (8).to_bytes(2, "big") + b"/vault/c"
new = changed(NAMES[: SECOND + 1], SECOND, gone)
expect("a file that is only in a snapshot", check(whole[0], log("names.log", new), LEDGER), (0, NONE + "opens 3 files"))

# Keys.
CREATED, ROLLED = (next(place for place, it in enumerate(KEYS) if it[0] == kind) for kind in (2, 3))
is_found("another first material", opens(SNAPPED + "/a", 0, "k@0"), keys=changed(KEYS, CREATED, flipped(KEYS[CREATED], -1)))
is_found("another second material", opens(LIVE + "/a", 0, "k@1"), keys=changed(KEYS, ROLLED, flipped(KEYS[ROLLED], -1)))
is_found("a roll that was dropped", opens(LIVE + "/a", 0, "k@1") + "nothing", keys=changed(KEYS, ROLLED))
deleted = KEYS + [b"\x04" + KEYS[CREATED][1:9]]
again = deleted + [b"\x02" + bytes([0, 0, 0, len([it for it in KEYS if it[0] == 1]), 0, 0, 0, 9]) + flipped(KEYS[CREATED], -1)[9:]]
for name, keys in {"a deleted key": deleted, "a key that was made again": again}.items():
    wanted = NONE + "3 files lost their keys, which were deleted\nopens 0 files"
    expect(name, check(log("keys.log", keys), whole[1], LEDGER), (0, wanted))

# Bytes that are no log.
expect("another magic of keys", check(b"X" + whole[0][1:], whole[1], LEDGER), (1, "damaged keys.log 0: "))
twice = log("keys.log", KEYS + [KEYS[ROLLED]])
expect("a roll that comes twice", check(twice, whole[1], LEDGER), (1, f"damaged keys.log {len(whole[0]) - 1}: "))
for name, text, wanted in (
    ("another magic", b"X" + whole[1][1:], "damaged names.log 0: "),
    ("a length of 0", whole[1][:9] + bytes(4) + whole[1][13:], "damaged names.log 8: "),
    ("no end byte", whole[1][:-1], "damaged names.log "),
    ("an opening that comes twice", log("names.log", NAMES[:1] * 2), "damaged names.log 18: "),
):
    expect(name, check(whole[0], text, LEDGER), (1, wanted))
for end in (b"\x00", b"\x02", b"\xff", b"\x00\x01\x02"):
    expect("an end byte", check(whole[0], whole[1][:-1] + end, LEDGER), (0, DONE + "opens 3 files"))

print("\n".join(f"tests/headline_faults.py: {it}" for it in failures[:10]), end="\n" if failures else "")
sys.exit(1 if failures else 0)
