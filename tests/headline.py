"""Opens every file of the two logs of a folder by openssl: python3 tests/headline.py DIR [--ledger FILE]

The logs are read from their bytes, by the rules of docs/logs.md alone, and each record is applied by those of docs/kms.md and
docs/namesystem.md. Without a ledger each encrypted key whose key version exists is opened, and a line says: the path (or the path
in a snapshot), the id, the version, the data encryption key.

A ledger has a line `ID DATAKEYHEX` for each file that was made. The last line is then `opens N files`: as many files of the ledger
exist, and each of their encrypted keys, live and in snapshots, opens to the key of the ledger. If not, the last line says what is
wrong, and the status is 1. These are looked at too:

- each file of the ledger was made by a record of the edit log;
- no two files of the ledger have both the same initialization vector and the same data encryption key;
- each re-encryption that was completed, not cancelled and without failures left no file behind on a version before the noted one,
  if it was in the zone at the submission and still is.

The two logs have no common order, so they don't show which key a file had if several were made under one name. A file that opens
under a deleted one of that name has lost its key, and is counted apart. A re-encryption whose key name was ever deleted isn't
looked at.
"""

import argparse
import os
import re
import subprocess
import sys
from concurrent.futures import ThreadPoolExecutor
from dataclasses import dataclass, replace


class Wrong(Exception):
    """What is wrong with a log, or with its files."""


def need(holds, why):
    if not holds:
        raise Wrong(why)


# ---- the bytes of a log


def frames(data, magic):
    """Returns the payloads of a log, each with the offset of its commit byte; Wrong holds the offset of a damage."""
    if len(data) <= 9:
        return []
    need(data[:8] == magic, 0)
    found, at = [], 8
    while data[at] == 1:
        start, size = at + 5, int.from_bytes(data[at + 1 : at + 5], "big")
        need(1 <= size <= 1_048_576 and start + size < len(data), at)
        found.append((at, data[start : start + size]))
        at = start + size
    return found


@dataclass(frozen=True)
class Edek:
    """An encrypted data encryption key, with the version that it is sealed under."""

    name: str
    number: int
    vector: bytes
    sealed: bytes

    @property
    def version(self):
        return f"{self.name}@{self.number}"


class Reader:
    """The fields of one payload, one after another."""

    def __init__(self, data):
        self.data, self.at = data, 0

    def take(self, count):
        need(self.at + count <= len(self.data), "a record is cut short")
        self.at += count
        return self.data[self.at - count : self.at]

    def rest(self):
        return self.take(len(self.data) - self.at)

    def number(self, count):
        return int.from_bytes(self.take(count), "big")

    def key_name(self):
        name = self.take(self.number(1))
        need(re.fullmatch(rb"[A-Za-z0-9._-]{1,64}", name), "a key name is none")
        return name.decode()

    def component(self):
        name = self.take(self.number(2))
        need(is_component(name), "a snapshot's name is none")
        return name

    def path(self, is_from_root=True):
        """A path as a tuple of its names."""
        path = read_path(self.take(self.number(2)))
        need(not is_from_root or path[:1] != (b".reserved",), "a path is reserved")
        return path

    def maybe(self, read):
        has = self.number(1)
        need(has <= 1, "a mark of absence is neither 0 nor 1")
        return read() if has else None

    def edek(self):
        name, number, vector, size = self.key_name(), self.number(2), self.take(16), self.number(1)
        need(size in (16, 24, 32), "a sealed key is of no length")
        return Edek(name, number, vector, self.take(size))

    def end(self):
        need(self.at == len(self.data), "bytes follow a record")


def is_component(name):
    try:
        name.decode()
    except UnicodeDecodeError:
        return False
    return 1 <= len(name) <= 255 and name not in (b".", b"..", b".snapshot") and not set(name) & set(b"/:\0")


def is_short(path):
    return len(path) <= 100 and max(1, sum(1 + len(name) for name in path)) <= 8000


def read_path(text):
    need(text[:1] == b"/", "a path has no slash")
    path = () if text == b"/" else tuple(text[1:].split(b"/"))
    need(all(map(is_component, path)) and is_short(path), "a path is none")
    return path


# ---- the key log


@dataclass
class Key:
    """A key, with the materials of its versions; it stays in the table when it is deleted."""

    name: str
    bits: int
    materials: list
    is_deleted: bool = False


class Replayed:
    """What the records of a log make. `kinds` has the method for each kind of record."""

    def apply(self, payload):
        record = Reader(payload)
        kind = record.number(1)
        need(kind in self.kinds, "a record is of no kind")
        need(kind == 1 or self.opening > 0, "a record comes before the first opening")
        self.kinds[kind](record)
        record.end()


class Keys(Replayed):
    """The keys that were ever made, by birth."""

    def __init__(self):
        self.opening, self.last_birth, self.by_birth = 0, 0, {}
        self.kinds = {1: self.open, 2: self.create, 3: self.roll, 4: self.delete}

    def open(self, record):
        self.opening += 1
        need(record.number(4) == self.opening, "an opening is out of turn")

    def create(self, record):
        birth, name, bits = record.number(8), record.key_name(), record.number(2)
        record.take(record.number(2)).decode()
        record.number(8)
        key = Key(name, bits, [record.rest()])
        need(birth >> 32 == self.opening and birth > self.last_birth, "a birth is out of turn")
        need(bits in (128, 192, 256) and len(key.materials[0]) * 8 == bits, "a key has another length")
        need(self.now(name) is None, "a key exists")
        self.last_birth, self.by_birth[birth] = birth, key

    def living(self, record):
        key = self.by_birth.get(record.number(8))
        need(key and not key.is_deleted, "a key does not exist")
        return key

    def roll(self, record):
        key, number, material = self.living(record), record.number(2), record.rest()
        need(number == len(key.materials) < 65_535, "a version is out of turn")
        need(len(material) * 8 == key.bits, "a material has another length")
        key.materials.append(material)

    def delete(self, record):
        self.living(record).is_deleted = True

    def named(self, name):
        return [key for key in self.by_birth.values() if key.name == name]

    def now(self, name):
        """The key that has this name now, or none."""
        return next((key for key in self.named(name) if not key.is_deleted), None)


# ---- the edit log


@dataclass(frozen=True)
class Row:
    """An entry: a directory, with the name of the key that it is marked with, or a file, with its encrypted key."""

    id: int
    is_file: bool
    mark: str = None
    edek: Edek = None


@dataclass
class Status:
    """The last re-encryption of a zone, the ids of the files that were there when it was submitted, and the path up to which they are
    done."""

    session: int
    key: str
    noted: int
    there: set
    changed: int = 0
    failed: int = 0
    is_completed: bool = False
    is_cancelled: bool = False
    mark: tuple = None


def is_below(path, above):
    return path[: len(above)] == above


class Names(Replayed):
    """The rows by path, and by the id of a directory its snapshots, if they are allowed, and the status of its zone. Each snapshot
    has rows by their paths down from the directory. Besides: each file as it was made, by its id, and each re-encryption that was
    completed, with the files of its zone then."""

    def __init__(self):
        self.opening, self.used, self.made, self.completed = 0, set(), {}, []
        self.rows, self.snapshots, self.statuses = {(): Row(0, False)}, {}, {}
        self.kinds = {1: self.open, 2: self.mkdir, 3: self.file, 4: self.remove, 5: self.rename, 6: self.zone, 7: self.allow}
        self.kinds |= {8: self.disallow, 9: self.snap, 10: self.unsnap, 11: self.submit, 12: self.update}
        self.kinds |= {13: self.cancel, 14: self.complete}

    # What is asked of the rows.

    def zone_of(self, path):
        """The path of the deepest marked directory at or above a path, or none."""
        above = (path[:count] for count in range(len(path), -1, -1))
        return next((it for it in above if it in self.rows and self.rows[it].mark), None)

    def below(self, path):
        return [it for it in self.rows if is_below(it, path)]

    def files_of(self, zone):
        """The files of a zone. Those of a zone in it are of that one."""
        return [it for it in self.below(zone) if self.rows[it].is_file and self.zone_of(it) == zone]

    def directory(self, path):
        need(path in self.rows and not self.rows[path].is_file, "a directory does not exist")
        return self.rows[path].id

    def can_be_made(self, path):
        self.directory(path[:-1])
        need(path not in self.rows, "a path exists")
        need(len(self.rows) < 1_000_000, "there are too many rows")

    def fresh_id(self, record):
        number = record.number(8)
        need(number >> 32 == self.opening, "an id is of another opening")
        need(number not in self.used, "an id comes again")
        self.used.add(number)
        return number

    def has_snapshots(self, path):
        return any(self.snapshots.get(self.rows[it].id) for it in self.below(path))

    def allowed_below(self, path):
        return [it for it in self.below(path) if self.rows[it].id in self.snapshots]

    def allowed_above(self, path):
        return [path[:count] for count in range(len(path) + 1) if self.rows[path[:count]].id in self.snapshots]

    def going(self, session):
        """The path and the status of the re-encryption that has this session and goes on."""
        for path, row in self.rows.items():
            status = self.statuses.get(row.id)
            if status and status.session == session and not status.is_completed:
                return path, status
        raise Wrong("a re-encryption does not go on")

    # What the records do.

    def open(self, record):
        self.opening += 1
        need(record.number(4) == self.opening, "an opening is out of turn")

    def mkdir(self, record):
        number, path = self.fresh_id(record), record.path()
        self.can_be_made(path)
        self.rows[path] = Row(number, False)

    def file(self, record):
        number, path, edek = self.fresh_id(record), record.path(), record.maybe(record.edek)
        self.can_be_made(path)
        zone = self.zone_of(path)
        need((zone is None) == (edek is None), "a file has an encrypted key outside of zones, or none inside")
        need(edek is None or edek.name == self.rows[zone].mark, "a file has the key of another zone")
        self.rows[path] = self.made[number] = Row(number, True, edek=edek)

    def remove(self, record):
        path = record.path()
        need(path and path in self.rows, "a path does not exist")
        need(not self.has_snapshots(path), "a directory has snapshots")
        for it in self.below(path):
            gone = self.rows.pop(it).id
            self.snapshots.pop(gone, None)
            self.statuses.pop(gone, None)

    def rename(self, record):
        path, other = record.path(), record.path()
        need(path and path in self.rows and not is_below(other, path), "a path does not exist, or moves into itself")
        self.can_be_made(other)
        need(not self.has_snapshots(path), "a directory has snapshots")
        need(not (self.allowed_below(path) and self.allowed_above(other[:-1])), "snapshottable directories nest")
        zone = self.zone_of(path[:-1])
        need(zone == self.zone_of(other[:-1]), "a rename crosses zones")
        status = zone is not None and self.statuses.get(self.rows[zone].id)
        need(not status or status.is_completed, "a rename is in a re-encryption")
        moved = {other + it[len(path) :]: self.rows.pop(it) for it in self.below(path)}
        need(all(map(is_short, moved)), "a path gets too long")
        self.rows |= moved

    def zone(self, record):
        path, key = record.path(), record.key_name()
        self.directory(path)
        need(self.below(path) == [path] and self.rows[path].mark is None, "a zone is not empty, or is one already")
        self.rows[path] = replace(self.rows[path], mark=key)

    def allow(self, record):
        path = record.path()
        number = self.directory(path)
        need(set(self.allowed_above(path) + self.allowed_below(path)) <= {path}, "snapshottable directories nest")
        self.snapshots.setdefault(number, {})

    def disallow(self, record):
        number = self.directory(record.path())
        need(self.snapshots.get(number) == {}, "a directory is not snapshottable, or has snapshots")
        del self.snapshots[number]

    def snap(self, record):
        path, name = record.path(), record.component()
        snapshots = self.snapshots.get(self.directory(path))
        need(snapshots is not None and name not in snapshots and len(snapshots) < 65_536, "a snapshot cannot be taken")
        snapshots[name] = {it[len(path) :]: self.rows[it] for it in self.below(path)}

    def unsnap(self, record):
        path, name = record.path(), record.component()
        need(name in self.snapshots.get(self.directory(path), {}), "a snapshot does not exist")
        del self.snapshots[self.rows[path].id][name]

    def submit(self, record):
        session, path, key, noted = self.fresh_id(record), record.path(), record.key_name(), record.number(2)
        zone = self.directory(path)
        need(self.rows[path].mark == key, "a re-encryption is of another key")
        need(zone not in self.statuses or self.statuses[zone].is_completed, "a re-encryption goes on")
        there = {self.rows[it].id for it in self.files_of(path)}
        self.statuses[zone] = Status(session, key, noted, there)

    def update(self, record):
        session, changed, failed = record.number(8), record.number(4), record.number(4)
        mark = record.maybe(lambda: record.path(is_from_root=False))
        count = record.number(4)
        need(count == changed <= 1000, "an update has another number of files")
        new = [(record.number(8), record.edek()) for _ in range(count)]
        zone, status = self.going(session)
        files = {self.rows[it].id: it for it in self.files_of(zone)}
        need(len(dict(new)) == count, "an update has a file twice")
        for number, edek in new:
            need(number in files, "an update is of a file outside of its zone")
            row = self.rows[files[number]]
            need(edek.name == row.edek.name, "an update is of another key")
            self.rows[files[number]] = replace(row, edek=edek)
        status.changed += changed
        status.failed += failed
        status.mark = status.mark if mark is None else mark

    def cancel(self, record):
        status = self.going(record.number(8))[1]
        status.is_completed = status.is_cancelled = True

    def complete(self, record):
        zone, status = self.going(record.number(8))
        status.is_completed = True
        self.completed.append((status, self.files_there(zone, status)))

    # What is read of the table.

    def files_there(self, zone, status):
        """The files of a zone that were there when it was submitted, by path."""
        return {it: self.rows[it] for it in sorted(self.below(zone)) if self.rows[it].id in status.there}

    def statuses_now(self):
        """The completed statuses of zones, each with the files that were there when it was submitted."""
        zones = [(it, self.statuses[row.id]) for it, row in self.rows.items() if row.id in self.statuses]
        return [(status, self.files_there(zone, status)) for zone, status in zones if status.is_completed]

    def files(self):
        """Each file, live and in snapshots, that has an encrypted key: the text of its path, and its row."""
        for path, row in sorted(self.rows.items()):
            if row.edek:
                yield path_text(path), row
            for name, rows in sorted(self.snapshots.get(row.id, {}).items()):
                for rest, old in sorted(rows.items()):
                    if old.edek:
                        yield path_text(path + (b".snapshot", name) + rest), old


def path_text(path):
    """A path with the escapes of the event text."""
    is_plain = set(range(0x21, 0x7F)) - set(b"%,:")
    return "/" + "/".join("".join(chr(it) if it in is_plain else f"%{it:02X}" for it in name) for name in path)


# ---- both logs, and what opens


def read_log(folder, name, magic, table):
    """Applies the records of a log, one after another. A file that is not there is one without bytes."""
    at, path = 0, os.path.join(folder, name)
    data = b""
    if os.path.exists(path):
        with open(path, "rb") as file:
            data = file.read()
    try:
        for at, payload in frames(data, magic):
            table.apply(payload)
    except Wrong as wrong:
        where, why = (wrong.args[0], "no record") if isinstance(wrong.args[0], int) else (at, wrong.args[0])
        raise Wrong(f"damaged {name} {where}: {why}") from wrong
    except UnicodeDecodeError as wrong:
        raise Wrong(f"damaged {name} {at}: a text is no UTF-8") from wrong
    return table


def open_by(material, edek):
    """Opens an encrypted key under the material of a version: counter mode, from the vector with all bits flipped."""
    flipped = bytes(it ^ 0xFF for it in edek.vector)
    command = ["openssl", "enc", f"-aes-{8 * len(material)}-ctr", "-nosalt", "-K", material.hex(), "-iv", flipped.hex()]
    return subprocess.run(command, input=edek.sealed, stdout=subprocess.PIPE, check=True).stdout


class Opener:
    """Opens encrypted keys, many at a time, and each one once."""

    def __init__(self, keys):
        self.keys, self.found = keys, {}

    def materials(self, edek):
        """The materials of the version, of each key that ever had the name, and whether that key is deleted."""
        keys = [it for it in self.keys.named(edek.name) if edek.number < len(it.materials)]
        return [(it.is_deleted, it.materials[edek.number]) for it in keys]

    def prepare(self, edeks):
        wanted = {(material, edek) for edek in edeks for _, material in self.materials(edek)}
        wanted = [it for it in wanted if it not in self.found]
        with ThreadPoolExecutor() as pool:
            self.found |= zip(wanted, pool.map(lambda it: open_by(*it), wanted))

    def now(self, edek):
        """What an encrypted key opens to, or none if its version is gone."""
        return next((self.found[it, edek] for is_deleted, it in self.materials(edek) if not is_deleted), None)

    def is_lost(self, edek, wanted):
        """Whether an encrypted key would open to this one if its key were not deleted."""
        return any(is_deleted and self.found[it, edek] == wanted for is_deleted, it in self.materials(edek))


def read_ledger(name):
    with open(name, encoding="ascii") as file:
        lines = [line.split() for line in file]
    need(all(len(line) == 2 for line in lines), "the ledger has a line without two fields")
    ledger = {int(number): bytes.fromhex(key) for number, key in lines}
    need(len(ledger) == len(lines), "the ledger has a file twice")
    return ledger


def check_apart(names, ledger):
    """Each file of the ledger was made, and no two have one vector and one data encryption key."""
    pairs = {}
    for number, key in ledger.items():
        need(number in names.made, f"file {number} is not in the log")
        need(names.made[number].edek, f"file {number} was made without an encrypted key")
        pair = names.made[number].edek.vector, key
        need(pair not in pairs, f"the files {pairs.get(pair)} and {number} have one vector and one data encryption key")
        pairs[pair] = number


def count_completed(keys, names):
    """No re-encryption left a file behind, when it was completed and until now. Returns how many of them were looked at."""
    sessions = set()
    for status, files in names.completed + names.statuses_now():
        was_deleted = [it.is_deleted for it in keys.named(status.key)] != [False]
        if status.is_cancelled or status.failed or was_deleted:
            continue
        sessions.add(status.session)
        for path, row in files.items():
            is_new = row.edek.name == status.key and row.edek.number >= status.noted
            need(is_new, f"{path_text(path)}: on {row.edek.version} after a re-encryption to {status.key}@{status.noted}")
    return len(sessions)


def count_opened(keys, names, ledger):
    """Each file of the ledger opens to its key. Returns how many do, and how many do no longer since their key was deleted."""
    files = [(path, row) for path, row in names.files() if row.id in ledger]
    opener = Opener(keys)
    opener.prepare(row.edek for _, row in files)
    opened, lost = set(), set()
    for path, row in files:
        wanted, found = ledger[row.id], opener.now(row.edek)
        shown = "nothing" if found is None else found.hex()
        text = f"{path}: file {row.id} opens under {row.edek.version} to {shown}, and not to {wanted.hex()}"
        need(found == wanted or opener.is_lost(row.edek, wanted), text)
        (opened if found == wanted else lost).add(row.id)
    return len(opened - lost), len(lost)


def check_ledger(keys, names, ledger):
    check_apart(names, ledger)
    opened, lost = count_opened(keys, names, ledger)
    count = count_completed(keys, names)
    print(f"{count} completed re-encryption{'s' if count != 1 else ''}, no file left behind")
    if lost:
        print(f"{lost} files lost their keys, which were deleted")
    print(f"opens {opened} files")


def print_files(keys, names):
    files = list(names.files())
    opener = Opener(keys)
    opener.prepare(row.edek for _, row in files)
    for path, row in files:
        found = opener.now(row.edek)
        if found is not None:
            print(path, row.id, row.edek.version, found.hex())


def main():
    parser = argparse.ArgumentParser(prog="headline.py", description="Opens every file of the logs of a folder by openssl.")
    parser.add_argument("folder", metavar="DIR")
    parser.add_argument("--ledger", metavar="FILE", help="lines of ID DATAKEYHEX, to compare with")
    asked = parser.parse_args()
    try:
        need(os.path.isdir(asked.folder), f"{asked.folder} is no folder")
        keys = read_log(asked.folder, "keys.log", b"HKMSKEY1", Keys())
        names = read_log(asked.folder, "names.log", b"HKMSNAM1", Names())
        if asked.ledger is None:
            print_files(keys, names)
        else:
            check_ledger(keys, names, read_ledger(asked.ledger))
    except Wrong as wrong:
        print(f"tests/headline.py: {wrong}")
        return 1
    return 0


if __name__ == "__main__":
    sys.exit(main())
