"""Edit logs that are built here, byte by byte from their format, and what the program makes of each: the records that it
reads, those that are out of form, and those that don't apply to the records before them.

Run by records.sh as: records.py PROGRAM FOLDER
"""
import os
import subprocess
import sys

PROGRAM, FOLDER = sys.argv[1:3]
MATERIAL = bytes.fromhex("2b7e151628aed2a6abf7158809cf4f3c")
failures = []
runs = 0


def path_bytes(path):
    return len(path).to_bytes(2, "big") + path


def opened(number):
    return b"\x01" + number.to_bytes(4, "big")


def row_id(counter, opening=1):
    return (opening << 32) + counter


def mkdir(number, path):
    return b"\x02" + number.to_bytes(8, "big") + path_bytes(path)


def edek(key, sealed=MATERIAL, number=0):
    return bytes([len(key)]) + key + number.to_bytes(2, "big") + bytes(16) + bytes([len(sealed)]) + sealed


def file(number, path, key=None):
    return b"\x03" + number.to_bytes(8, "big") + path_bytes(path) + (b"\x00" if key is None else b"\x01" + key)


def remove(path):
    return b"\x04" + path_bytes(path)


def rename(path, to):
    return b"\x05" + path_bytes(path) + path_bytes(to)


def zone(path, key):
    return b"\x06" + path_bytes(path) + bytes([len(key)]) + key


def submit(session, path, key, number=0):
    return b"\x0b" + session.to_bytes(8, "big") + path_bytes(path) + bytes([len(key)]) + key + number.to_bytes(2, "big")


def update(session, files, failed=0, mark=None, changed=None, count=None):
    """Returns the record of an update. Each of the files is an id and an encrypted key; the record has their number twice."""
    changed, count = (len(files) if it is None else it for it in (changed, count))
    text = b"\x0c" + session.to_bytes(8, "big") + changed.to_bytes(4, "big") + failed.to_bytes(4, "big")
    text += (b"\x00" if mark is None else b"\x01" + path_bytes(mark)) + count.to_bytes(4, "big")
    return text + b"".join(number.to_bytes(8, "big") + key for number, key in files)


def cancel(session):
    return b"\x0d" + session.to_bytes(8, "big")


def complete(session):
    return b"\x0e" + session.to_bytes(8, "big")


def log(records, gate=1, end=b"\x00"):
    """Returns the bytes of a log, the last record after this gate, and the offset of that gate."""
    text, at = b"HKMSNAM1", 8
    for place, record in enumerate(records):
        at = len(text)
        is_last = place + 1 == len(records)
        text += bytes([gate if is_last else 1]) + len(record).to_bytes(4, "big") + record
    return text + end, at


def run(text, events=b"nn a list /\n"):
    """Runs the events on an edit log of these bytes, and returns the status and the output."""
    global runs
    runs += 1
    for name in ("keys.log", "names.log"):
        if os.path.exists(f"{FOLDER}/{name}"):
            os.remove(f"{FOLDER}/{name}")
    with open(f"{FOLDER}/names.log", "wb") as it:
        it.write(text)
    ran = subprocess.run([PROGRAM, "replay"], cwd=FOLDER, input=events, stdout=subprocess.PIPE, check=False)
    return ran.returncode, ran.stdout.decode()


def expect(name, found, wanted):
    if found != wanted:
        failures.append(f"{name}: {found} (wanted {wanted})")


def is_damaged(name, records):
    text, at = log(records)
    expect(name, run(text), (4, f"damaged names {at}\n"))


# A directory, a file outside of zones, a zone of the key k, and a file in it.
BASE = [
    opened(1),
    mkdir(row_id(1), b"/d"),
    file(row_id(2), b"/f"),
    mkdir(row_id(3), b"/z"),
    zone(b"/z", b"k"),
    file(row_id(4), b"/z/g", edek(b"k")),
]
EVENTS = b"nn a list /\nnn a info /z/g\nnn a info /f\nnn hdfs zones\nnn a mkdir /n\nnn a info /n\n"
EDEK = "k@0:" + bytes(16).hex() + ":" + MATERIAL.hex()
expect(
    "records that apply",
    run(log(BASE)[0], EVENTS),
    (0, f"1 list d/ f z/\n2 file {row_id(4)} /z {EDEK}\n3 file {row_id(2)} - -\n4 zones /z:k\n5 done\n6 dir {row_id(1, 2)} - -\n"),
)

# A zone goes with its directory: a file of the same path has no key after it.
GONE = BASE + [remove(b"/z"), opened(2), mkdir(row_id(1, 2), b"/z"), file(row_id(2, 2), b"/z/g")]
expect(
    "a zone that went with its directory",
    run(log(GONE)[0], b"nn a info /z/g\nnn hdfs zones\n"),
    (0, f"1 file {row_id(2, 2)} - -\n2 zones\n"),
)

# A zone that moves keeps its mark and its files, and a file that moves its key.
MOVED = BASE + [rename(b"/z", b"/d/y"), rename(b"/d/y/g", b"/d/y/h"), rename(b"/d", b"/z"), rename(b"/z/y", b"/g")]
expect(
    "a zone that moved",
    run(log(MOVED)[0], b"nn a list /\nnn a info /g/h\nnn hdfs zones\nnn a info /g\n"),
    (0, f"1 list f g/ z/\n2 file {row_id(4)} /g {EDEK}\n3 zones /g:k\n4 dir {row_id(3)} /g k\n"),
)

# Sealed keys of each length, the highest version, and the longest name of a key.
for sealed in (bytes(16), bytes(range(24)), bytes(range(32))):
    for name in (b"k", b"a.b-c_D9", b"K" * 64):
        records = [opened(1), mkdir(row_id(1), b"/z"), zone(b"/z", name), file(row_id(2), b"/z/\xc3\xa4", edek(name, sealed, 65535))]
        wanted = f"{name.decode()}@65535:{bytes(16).hex()}:{sealed.hex()}"
        expect("an encrypted key", run(log(records)[0], b"nn a info /z/%C3%A4\n"), (0, f"1 file {row_id(2)} /z {wanted}\n"))

# A submission with the highest version and the longest name of a key, one that goes on and ones that ended.
for name in (b"k", b"a.b-c_D9", b"K" * 64):
    submitted = [opened(1), mkdir(row_id(1), b"/z"), zone(b"/z", name), submit(row_id(2), b"/z", name, 65535)]
    noted = f"{name.decode()}@65535"
    for records, wanted in (
        (submitted, f"Submitted {noted} 0 0 no -"),
        (submitted + [cancel(row_id(2))], f"Completed {noted} 0 0 yes -"),
        (submitted + [complete(row_id(2))], f"Completed {noted} 0 0 no -"),
    ):
        expect("a submission", run(log(records)[0], b"nn hdfs status /z\n"), (0, f"1 status {wanted}\n"))

# Updates: the files get their new keys, the counts add up, and the mark stays if it does not move. A mark may begin with .reserved.
SUBMITTED = BASE + [submit(row_id(5), b"/z", b"k", 1)]
NEW = edek(b"k", bytes(range(24)), 1)
NEW_EDEK = "k@1:" + bytes(16).hex() + ":" + bytes(range(24)).hex()
for updates, wanted_edek, wanted in (
    ([update(row_id(5), [(row_id(4), NEW)], 0, b"/g")], NEW_EDEK, "Processing k@1 1 0 no g"),
    ([update(row_id(5), [(row_id(4), NEW)], 7, b"/.reserved/g")], NEW_EDEK, "Processing k@1 1 7 no .reserved/g"),
    ([update(row_id(5), [], 3, b"/g")], EDEK, "Processing k@1 0 3 no g"),
    ([update(row_id(5), [], 2**32 - 1, b"/g"), update(row_id(5), [(row_id(4), NEW)], 1)], NEW_EDEK, f"Processing k@1 1 {2**32} no g"),
    (
        [update(row_id(5), [(row_id(4), NEW)], 0, b"/g"), update(row_id(5), [(row_id(4), edek(b"k"))], 0, b"/h/i")],
        EDEK,
        "Processing k@1 2 0 no h/i",
    ),
    ([update(row_id(5), [(row_id(4), NEW)], 0, b"/g"), cancel(row_id(5))], NEW_EDEK, "Completed k@1 1 0 yes g"),
    ([update(row_id(5), [(row_id(4), NEW)], 0, b"/g"), complete(row_id(5))], NEW_EDEK, "Completed k@1 1 0 no g"),
):
    expect(
        "an update",
        run(log(SUBMITTED + updates)[0], b"nn a info /z/g\nnn hdfs status /z\n"),
        (0, f"1 file {row_id(4)} /z {wanted_edek}\n2 status {wanted}\n"),
    )

# An update has at most 1,000 files.
MANY = [opened(1), mkdir(row_id(1), b"/z"), zone(b"/z", b"k")]
MANY += [file(row_id(2 + number), b"/z/%d" % number, edek(b"k")) for number in range(1001)]
MANY += [submit(row_id(2000), b"/z", b"k", 1)]
LAST = [(row_id(2 + number), NEW) for number in range(1, 1001)]
expect(
    "an update of 1,000 files",
    run(log(MANY + [update(row_id(2000), LAST, 0, b"/999")])[0], b"nn a info /z/1000\nnn a info /z/0\nnn hdfs status /z\n"),
    (0, f"1 file {row_id(1002)} /z {NEW_EDEK}\n2 file {row_id(2)} /z {EDEK}\n3 status Processing k@1 1000 0 no 999\n"),
)
is_damaged("an update of 1,001 files", MANY + [update(row_id(2000), [(row_id(2), NEW)] + LAST, 0, b"/999")])

# Only a gate of 1 opens a record.
for gate in range(256):
    wanted = "1 list d/\n" if gate == 1 else "1 list\n"
    expect(f"the gate {gate}", run(log(BASE[:2], gate)[0]), (0, wanted))
for end in (b"\x00", b"\x02", b"\xff"):
    expect("the end gate", run(log(BASE[:2], end=end)[0]), (0, "1 list d/\n"))

# A zone in a zone, of another key, with a file.
INNER = [mkdir(row_id(5), b"/z/s"), zone(b"/z/s", b"j"), file(row_id(6), b"/z/s/i", edek(b"j"))]
INNER_EDEK = EDEK.replace("k@", "j@")
expect(
    "a zone in a zone",
    run(log(BASE + INNER)[0], b"nn a info /z/s/i\nnn a info /z/g\nnn a info /z/s\nnn hdfs zones\n"),
    (0, f"1 file {row_id(6)} /z/s {INNER_EDEK}\n2 file {row_id(4)} /z {EDEK}\n3 dir {row_id(5)} /z/s j\n4 zones /z:k /z/s:j\n"),
)
INNER_MOVED = BASE + INNER + [rename(b"/z/s", b"/z/t"), rename(b"/z/t/i", b"/z/t/h"), rename(b"/z", b"/d/y")]
expect(
    "a zone in a zone that moved",
    run(log(INNER_MOVED)[0], b"nn a info /d/y/t/h\nnn hdfs zones\n"),
    (0, f"1 file {row_id(6)} /d/y/t {INNER_EDEK}\n2 zones /d/y:k /d/y/t:j\n"),
)
# Both are re-encrypted, and each takes updates of its own file.
BOTH = BASE + INNER + [submit(row_id(7), b"/z", b"k", 1), submit(row_id(8), b"/z/s", b"j", 2)]
BOTH += [update(row_id(8), [(row_id(6), edek(b"j", MATERIAL, 2))], 0, b"/i"), update(row_id(7), [(row_id(4), NEW)], 0, b"/g")]
expect(
    "updates of a zone and of a zone in it",
    run(log(BOTH)[0], b"nn a info /z/s/i\nnn a info /z/g\nnn hdfs status /z\nnn hdfs status /z/s\n"),
    (
        0,
        f"1 file {row_id(6)} /z/s {INNER_EDEK.replace('@0', '@2')}\n2 file {row_id(4)} /z {NEW_EDEK}\n"
        "3 status Processing k@1 1 0 no g\n4 status Processing j@2 1 0 no i\n",
    ),
)

# Records that don't apply.
for name, records in {
    "no parent": [mkdir(row_id(5), b"/x/y")],
    "a file for a parent": [mkdir(row_id(5), b"/f/y")],
    "a path that is taken": [mkdir(row_id(5), b"/d")],
    "the root": [mkdir(row_id(5), b"/")],
    "an id of another opening": [mkdir(row_id(1, 2), b"/e")],
    "an id in use": [mkdir(row_id(2), b"/e")],
    "the id of a row that was removed": [remove(b"/d"), mkdir(row_id(1), b"/e")],
    "the key of another zone": [file(row_id(5), b"/z/h", edek(b"other"))],
    "no key in a zone": [file(row_id(5), b"/z/h")],
    "a key outside of zones": [file(row_id(5), b"/e", edek(b"k"))],
    "a zone that is not empty": [mkdir(row_id(5), b"/d/c"), zone(b"/d", b"k")],
    "a zone in a zone that is one already": INNER + [remove(b"/z/s/i"), zone(b"/z/s", b"j")],
    "the key of the zone around the zone": INNER + [file(row_id(7), b"/z/s/h", edek(b"k"))],
    "a rename into a zone in the zone": INNER + [rename(b"/z/g", b"/z/s/h")],
    "a rename out of a zone in a zone": INNER + [rename(b"/z/s/i", b"/z/i")],
    "a rename of a zone in a zone out of it": INNER + [rename(b"/z/s", b"/s")],
    "a file for a zone": [zone(b"/f", b"k")],
    "a zone at no path": [zone(b"/x", b"k")],
    "a removal of the root": [remove(b"/")],
    "a removal at no path": [remove(b"/nothing")],
    "a rename of the root": [rename(b"/", b"/r")],
    "a rename of nothing": [rename(b"/x", b"/y")],
    "a rename below itself": [rename(b"/d", b"/d/e")],
    "a rename to a path that is taken": [rename(b"/d", b"/f")],
    "a rename below a file": [rename(b"/d", b"/f/d")],
    "a rename below nothing": [rename(b"/d", b"/x/d")],
    "a rename into a zone": [rename(b"/f", b"/z/f")],
    "a rename out of a zone": [rename(b"/z/g", b"/g")],
    "a rename of what was removed": [remove(b"/d"), rename(b"/d", b"/e")],
    "a removal of what was renamed": [rename(b"/d", b"/e"), remove(b"/d")],
    "an opening left out": [opened(3)],
    "the same opening": [opened(1)],
}.items():
    is_damaged(name, BASE + records)
# Updates that don't apply.
OTHER = [mkdir(row_id(6), b"/y"), zone(b"/y", b"k"), file(row_id(7), b"/y/g", edek(b"k"))]
INNER_OTHER = [mkdir(row_id(6), b"/z/s"), zone(b"/z/s", b"k"), file(row_id(7), b"/z/s/g", edek(b"k"))]
for name, records in {
    "an update of a session that was not submitted": [update(row_id(6), [(row_id(4), NEW)])],
    "an update of a session that was cancelled": [cancel(row_id(5)), update(row_id(5), [(row_id(4), NEW)])],
    "an update of a session that was completed": [complete(row_id(5)), update(row_id(5), [], 1)],
    "an update of a session before the last one": [cancel(row_id(5)), submit(row_id(6), b"/z", b"k"), update(row_id(5), [], 1)],
    "an update with a file twice": [update(row_id(5), [(row_id(4), NEW), (row_id(4), NEW)])],
    "an update of a directory": [update(row_id(5), [(row_id(3), NEW)])],
    "an update of a file outside of zones": [update(row_id(5), [(row_id(2), NEW)])],
    "an update of no file": [update(row_id(5), [(row_id(6), NEW)])],
    "an update of a file that was removed": [remove(b"/z/g"), update(row_id(5), [(row_id(4), NEW)])],
    "an update of a file of another zone": OTHER + [update(row_id(5), [(row_id(7), NEW)])],
    "an update of a file of another zone after one that applies": OTHER + [update(row_id(5), [(row_id(4), NEW), (row_id(7), NEW)])],
    "an update of a file of a zone in the zone": INNER_OTHER + [update(row_id(5), [(row_id(7), edek(b"k"))])],
    "a rename of a zone in a zone that is being re-encrypted": INNER_OTHER + [rename(b"/z/s", b"/z/t")],
    "an update with a key of another key": [update(row_id(5), [(row_id(4), edek(b"j"))])],
    "an update of a zone that was removed": [remove(b"/z"), update(row_id(5), [], 1)],
}.items():
    is_damaged(name, SUBMITTED + records)

is_damaged("a directory before the first opening", [mkdir(row_id(1), b"/z")])
is_damaged("a first opening of 2", [opened(2)])

# The first record that doesn't apply counts.
first, at = log(BASE + [mkdir(row_id(5), b"/d")])
expect("the first of two", run(log(BASE + [mkdir(row_id(5), b"/d"), opened(7)])[0]), (4, f"damaged names {at}\n"))

# Records that are cut short, that have a byte more, or that are out of form.
for record in (
    opened(2),
    mkdir(row_id(5), b"/y"),
    file(row_id(5), b"/y"),
    file(row_id(5), b"/z/y", edek(b"k")),
    remove(b"/d"),
    rename(b"/d", b"/y"),
    zone(b"/d", b"a.b"),
):
    for length in range(1, len(record)):
        is_damaged(f"{record.hex()} cut to {length} bytes", BASE + [record[:length]])
    is_damaged(f"{record.hex()} with a byte more", BASE + [record + b"\x00"])
for name, record in {
    "an unknown first byte": b"\x00",
    "an unknown record": b"\x0f\x00\x02/z\x00\x02/y",
    "a byte 2 for what may be absent": b"\x03" + row_id(5).to_bytes(8, "big") + path_bytes(b"/z/y") + b"\x02" + edek(b"k"),
    "sealed bytes of another length": file(row_id(5), b"/z/y", edek(b"k", bytes(17))),
    "a path without its slash": remove(b"d/"),
    "a path that begins with .reserved": remove(b"/.reserved"),
    "a rename to a path without its slash": rename(b"/d", b"d"),
    "a rename to a path that begins with .reserved": rename(b"/d", b"/.reserved/d"),
    "the name of a key that is none": zone(b"/d", b"/"),
    "the name of a key without bytes": zone(b"/d", b""),
    "a submission of a path without its slash": submit(row_id(5), b"z/", b"k"),
    "a submission of a path that begins with .reserved": submit(row_id(5), b"/.reserved", b"k"),
    "a submission with the name of a key that is none": submit(row_id(5), b"/z", b"/"),
}.items():
    is_damaged(name, BASE + [record])

submission = submit(row_id(5), b"/z", b"k")
for before, record in (
    (BASE, submission),
    (BASE + [submission], update(row_id(5), [], 1)),
    (BASE + [submission], update(row_id(5), [(row_id(4), NEW)], 0, b"/g")),
    (BASE + [submission], cancel(row_id(5))),
    (BASE + [submission], complete(row_id(5))),
):
    expect(f"{record.hex()} whole", run(log(before + [record])[0]), (0, "1 list d/ f z/\n"))
    for length in range(1, len(record)):
        is_damaged(f"{record.hex()} cut to {length} bytes", before + [record[:length]])
    is_damaged(f"{record.hex()} with a byte more", before + [record + b"\x00"])

for name, record in {
    "an update of fewer files than changed": update(row_id(5), [(row_id(4), NEW)], changed=2),
    "an update of more files than changed": update(row_id(5), [(row_id(4), NEW)], changed=0),
    "an update of no files where one changed": update(row_id(5), [], 1, changed=1),
    "an update with fewer files than it counts": update(row_id(5), [(row_id(4), NEW)], changed=2, count=2),
    "an update with more files than it counts": update(row_id(5), [(row_id(4), NEW)], changed=0, count=0),
    "an update with a mark without its slash": update(row_id(5), [(row_id(4), NEW)], 0, b"g"),
    "an update with a mark without bytes": update(row_id(5), [(row_id(4), NEW)], 0, b""),
    "an update with an empty name in its mark": update(row_id(5), [(row_id(4), NEW)], 0, b"/g//h"),
    "an update with .snapshot in its mark": update(row_id(5), [(row_id(4), NEW)], 0, b"/.snapshot"),
    "an update with a byte 2 for its mark": update(row_id(5), []).replace(bytes(8) + b"\x00", bytes(8) + b"\x02", 1),
    "an update with sealed bytes of another length": update(row_id(5), [(row_id(4), edek(b"k", bytes(17)))]),
    "an update with the name of a key that is none": update(row_id(5), [(row_id(4), edek(b"/"))]),
}.items():
    is_damaged(name, SUBMITTED + [record])

# Paths at their limits: 100 names and 8,000 bytes.
rows, above, longest = [opened(1)], b"", b"/" + b"a" * 79
for depth in range(1, 101):
    above += longest
    rows.append(mkdir(row_id(depth), above))
expect("a path of 8,000 bytes", run(log(rows)[0], b"nn a info " + above + b"\n"), (0, f"1 dir {row_id(100)} - -\n"))
is_damaged("a path of 8,001 bytes", rows[:-1] + [mkdir(row_id(100), above + b"a")])
is_damaged("a rename that makes a path of 8,001 bytes", rows + [rename(longest, longest + b"a")])
is_damaged("a rename that makes a path of 101 names", rows + [mkdir(row_id(101), b"/b"), rename(longest, b"/b/a")])
renamed = b"/" + b"b" * 79 + above[80:]
expect(
    "a rename that keeps a path of 8,000 bytes",
    run(log(rows + [rename(longest, renamed[:80])])[0], b"nn a info " + renamed + b"\n"),
    (0, f"1 dir {row_id(100)} - -\n"),
)

if runs < 400:
    failures.append(f"only {runs} runs")
print("\n".join(f"tests/records.py: {it}" for it in failures[:10]), end="\n" if failures else "")
sys.exit(1 if failures else 0)
