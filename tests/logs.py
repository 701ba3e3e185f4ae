"""Prints the records of a log: python3 tests/logs.py keys.log (or names.log). A line has the offset of the record's commit
byte, the kind of the record and its fields; bytes are in hex, paths and descriptions are quoted. The last line is
`end OFFSET`, or `damaged OFFSET` with exit status 1."""

import io
import sys

# The kinds of records by their first byte: the name, and the fields as `field` reads them.
KINDS = {
    b"HKMSKEY1": {1: ("opened", "4"), 2: ("create", "8n2t8r"), 3: ("roll", "82r"), 4: ("delete", "8")},
    b"HKMSNAM1": {
        1: ("opened", "4"),
        2: ("mkdir", "8t"),
        3: ("file", "8te"),
        4: ("remove", "t"),
        5: ("rename", "tt"),
        6: ("zone", "tn"),
        7: ("allow", "t"),
        8: ("disallow", "t"),
        9: ("snap", "tt"),
        10: ("unsnap", "tt"),
        11: ("submit", "8tn2"),
        12: ("update", "844mf"),
        13: ("cancel", "8"),
        14: ("complete", "8"),
    },
}


def take(record, count):
    taken = record.read(count)
    if len(taken) != count:
        raise ValueError("cut short")
    return taken


def number(record, count):
    return int.from_bytes(take(record, count), "big")


def field(record, kind):
    """A name, a text, the rest of the record, a text or an encrypted key that may be absent, files with encrypted keys, an
    encrypted key, or a number of 2, 4 or 8 bytes."""
    if kind == "n":
        return take(record, number(record, 1)).decode()
    if kind == "t":
        return repr(take(record, number(record, 2)).decode())
    if kind == "r":
        return record.read().hex()
    if kind in "em":
        return field(record, {"e": "k", "m": "t"}[kind]) if number(record, 1) else "none"
    if kind == "f":
        return " ".join(f"{number(record, 8)}:{field(record, 'k')}" for _ in range(number(record, 4))) or "none"
    if kind != "k":
        return str(number(record, int(kind)))
    name, version, vector = field(record, "n"), number(record, 2), take(record, 16).hex()
    return f"{name}@{version}:{vector}:{take(record, number(record, 1)).hex()}"


def print_record(data, at):
    """Prints the record at a commit byte, and returns the offset of the next commit byte."""
    end = at + 5 + int.from_bytes(data[at + 1 : at + 5], "big")
    record = io.BytesIO(data[at + 5 : end])
    name, fields = KINDS[data[:8]][number(record, 1)]
    texts = [field(record, kind) for kind in fields]
    if record.read() or end >= len(data) or end > at + 5 + 1_048_576:
        raise ValueError("a length is wrong")
    print(at, name, *texts)
    return end


log, place = open(sys.argv[1], "rb").read(), 8
try:
    while len(log) > 9 and (log[:8] not in KINDS or log[place] == 1):
        place = print_record(log, place)
    print("end", place)
except (ValueError, KeyError):
    sys.exit(f"damaged {place if log[:8] in KINDS else 0}")
