"""Compares the program with a model of zones that lie in zones, over random events: inner_zones.py PROGRAM FOLDER EVENTS SEED..

The model keeps the rows by path, and finds the zone of a path by trying each of its prefixes. It answers each event as
docs/namesystem.md says, and the program must answer the same. Drawn bytes are compared as far as they are bound to repeat: the
encrypted key of a file has one text under each version, no two of them have the same, and the vector stays. So a file whose key
changed without a delivery for its own zone is seen. Once a re-encryption is completed all files below the directory of its zone are
asked for, and those of the zone itself must be on the noted version or a later one. In the end headline.py reads the logs by their
bytes: it must find the same rows, and no file that a completed re-encryption left behind.
"""

import os
import random
import re
import subprocess
import sys
from collections import Counter
from dataclasses import dataclass, field, replace

from headline import Keys, Names, Wrong, count_completed, path_text, read_log

DEPTH = 4
BATCH = 2
MATERIALS = {"k": "2b7e151628aed2a6abf7158809cf4f3c", "j": "000102030405060708090a0b0c0d0e0f"}
PROPERTIES = "".join(f"default.key.acl.{it}=*\n" for it in ("MANAGEMENT", "GENERATE_EEK", "DECRYPT_EEK", "READ"))
PROPERTIES += f"hkms.reencrypt.batch={BATCH}\n"
# What has to occur, so that the answers say something.
SEEN = ["N2", "N3", "N4", "N5", "N7", "N8", "N9", "N10", "N11", "N12", "N13", "N14", "N16", "N17", "N18", "N19", "N24", "N25"]
SEEN += ["an inner zone", "an inner zone in a walk", "a re-encryption beside inner files", "a rename of an inner zone"]
SEEN += ["an old zone shown"]


class Refused(Exception):
    """Why an event is refused."""


def need(holds, why):
    if not holds:
        raise Refused(why)


@dataclass(frozen=True)
class Edek:
    """An encrypted key: the draw that it was made by, and the version that it is sealed under."""

    draw: int
    key: str
    number: int

    @property
    def version(self):
        return f"{self.key}@{self.number}"


@dataclass(frozen=True)
class Row:
    """A directory, with the key that it is marked with, or a file, with its encrypted key."""

    id: int
    is_file: bool
    mark: str = None
    edek: Edek = None


@dataclass
class Status:
    """The last re-encryption of a zone, with the ids of the files that it had when it was submitted."""

    session: int
    noted: Edek
    there: set
    changed: int = 0
    failed: int = 0
    mark: tuple = None
    is_completed: bool = False
    is_cancelled: bool = False


@dataclass
class Walk:
    """A walk of this opening: the last path that was taken, and the batches that are not retired, in order."""

    cursor: tuple
    batches: list = field(default_factory=list)
    has_begun: bool = False


@dataclass
class Batch:
    zone: int
    session: int
    key: str
    files: list
    last: tuple
    is_done: bool = False


@dataclass
class Ask:
    id: int
    kind: str
    path: tuple
    zone: int
    key: str


def text_of(path):
    return "-" if path is None else "/" + "/".join(path)


def is_below(path, above):
    return path[: len(above)] == above


class Model:
    """What the namesystem keeps, and what was kept for later events. Each event is a method that gives the fields of its answer."""

    def __init__(self):
        self.opening, self.counter = 1, 0
        self.rows = {(): Row(0, False)}
        self.snapshots, self.statuses, self.walks, self.open = {}, {}, {}, {}
        self.asks, self.replies, self.batches = [], [], []
        self.versions = dict.fromkeys(MATERIALS, 1)
        self.seen = Counter()

    # What is asked of the rows.

    def zone_of(self, path):
        """The path of the zone of a path: its longest prefix that has a mark, or none."""
        marked = [path[:count] for count in range(len(path) + 1) if self.rows.get(path[:count], Row(0, False)).mark]
        return max(marked, key=len, default=None)

    def zone_id(self, path):
        zone = self.zone_of(path)
        return None if zone is None else self.rows[zone].id

    def below(self, path):
        return [it for it in self.rows if is_below(it, path)]

    def files_of(self, zone):
        """The files of a zone, those of zones in it left out, by their paths in the zone and in order."""
        files = [it for it in self.below(zone) if self.rows[it].is_file and self.zone_of(it) == zone]
        return sorted(it[len(zone) :] for it in files)

    def directory(self, path):
        need(path in self.rows, "N2 NoSuchPath")
        need(not self.rows[path].is_file, "N4 NotADirectory")
        return self.rows[path]

    def need_free(self, path):
        self.directory(path[:-1])
        need(path not in self.rows, "N3 Exists")

    def need_empty(self, path):
        need(len(self.below(path)) == 1, "N5 NotEmpty")

    def has_snapshots(self, path):
        return any(self.snapshots.get(self.rows[it].id) for it in self.below(path))

    def are_allowed(self, paths):
        return any(it in self.rows and self.rows[it].id in self.snapshots for it in paths)

    def goes_on(self, zone):
        """The status of a zone that is being re-encrypted, or none."""
        status = None if zone is None else self.statuses.get(self.rows[zone].id)
        return None if status is None or status.is_completed else status

    def next_id(self):
        self.counter += 1
        return (self.opening << 32) + self.counter

    # Directories, renames and snapshots.

    def mkdir(self, path):
        self.need_free(path)
        self.rows[path] = Row(self.next_id(), False)
        return ["done"]

    def delete(self, path, is_recursive):
        need(path, "N25 RootOrInside")
        need(path in self.rows, "N2 NoSuchPath")
        if not is_recursive:
            self.need_empty(path)
        need(not self.has_snapshots(path), "N11 HasSnapshots")
        for it in self.below(path):
            gone = self.rows.pop(it).id
            self.snapshots.pop(gone, None)
            self.statuses.pop(gone, None)
        return ["done"]

    def rename(self, path, to):
        need(path and not is_below(to, path), "N25 RootOrInside")
        need(path in self.rows, "N2 NoSuchPath")
        self.need_free(to)
        need(not self.has_snapshots(path), "N11 HasSnapshots")
        above = [to[:count] for count in range(len(to))]
        need(not (self.are_allowed(self.below(path)) and self.are_allowed(above)), "N24 NestedSnapshottable")
        need(self.zone_of(path[:-1]) == self.zone_of(to[:-1]), "N9 CrossZone")
        need(not self.goes_on(self.zone_of(path[:-1])), "N10 UnderReencryption")
        self.seen["a rename of an inner zone"] += bool(self.rows[path].mark and self.zone_of(path[:-1]) is not None)
        self.rows |= {to + it[len(path) :]: self.rows.pop(it) for it in self.below(path)}
        return ["done"]

    def allow(self, path):
        row = self.directory(path)
        others = [it for it in self.rows if it != path and (is_below(it, path) or is_below(path, it))]
        need(not self.are_allowed(others), "N24 NestedSnapshottable")
        self.snapshots.setdefault(row.id, {})
        return ["done"]

    def allowed(self, path):
        row = self.directory(path)
        need(row.id in self.snapshots, "N12 NotSnapshottable")
        return self.snapshots[row.id]

    def disallow(self, path):
        need(not self.allowed(path), "N11 HasSnapshots")
        del self.snapshots[self.rows[path].id]
        return ["done"]

    def snap(self, path, name):
        snapshots = self.allowed(path)
        need(name not in snapshots, "N13 SnapshotExists")
        snapshots[name] = {it[len(path) :]: self.rows[it] for it in self.below(path)}
        return ["done"]

    def unsnap(self, path, name):
        need(name in self.allowed(path), "N14 NoSuchSnapshot")
        del self.snapshots[self.rows[path].id][name]
        return ["done"]

    # What is shown.

    @staticmethod
    def shown(row, zone):
        value = (row.edek or "-") if row.is_file else (row.mark or "-")
        return ["file" if row.is_file else "dir", str(row.id), text_of(zone), value]

    def info(self, path):
        need(path in self.rows, "N2 NoSuchPath")
        return self.shown(self.rows[path], self.zone_of(path))

    def info_of_snapshot(self, path, name, rest):
        snapshots = self.allowed(path)
        need(name in snapshots, "N14 NoSuchSnapshot")
        rows = snapshots[name]
        need(rest in rows, "N2 NoSuchPath")
        marked = [rest[:count] for count in range(len(rest) + 1) if rows[rest[:count]].mark]
        if marked:
            zone = path + max(marked, key=len)
        else:
            zone = self.zone_of(path[:-1]) if path else None
        self.seen["an old zone shown"] += path in self.rows and self.zone_of(path) != zone and not marked
        return self.shown(rows[rest], zone)

    def zones(self):
        return ["zones"] + [f"{text_of(it)}:{row.mark}" for it, row in sorted(self.rows.items()) if row.mark]

    def status(self, path):
        need(self.directory(path).mark, "N8 NotAZoneRoot")
        status = self.statuses.get(self.rows[path].id)
        if status is None:
            return ["status", "None"]
        has_begun = status.session in self.walks and self.walks[status.session].has_begun
        is_fresh = not (has_begun or status.mark or status.changed or status.failed)
        state = "Completed" if status.is_completed else "Submitted" if is_fresh else "Processing"
        counts = [status.noted.version, str(status.changed), str(status.failed)]
        mark = "-" if status.mark is None else "/".join(status.mark)
        return ["status", state, *counts, "yes" if status.is_cancelled else "no", mark]

    # Asks and finishes.

    def ask(self, kind, path, key=None):
        if kind == "create":
            self.need_free(path)
        else:
            row = self.directory(path)
        if kind == "zone":
            self.need_empty(path)
            need(not row.mark, "N7 AlreadyInZone")
        if kind == "submit":
            need(row.mark, "N8 NotAZoneRoot")
            need(not self.goes_on(path), "N18 AlreadySubmitted")
        zone = self.zone_of(path)
        if kind != "zone" and zone is not None:
            key = self.rows[zone].mark
        ask = Ask(self.next_id(), kind, path, self.zone_id(path), key)
        self.asks.append(ask)
        self.open[ask.id] = ask
        wanted = ["none"] if key is None else ["metadata" if kind == "zone" else "generate", key]
        return ["ask", str(len(self.asks)), str(ask.id), *wanted]

    def draw(self, number):
        ask, reply = self.asks[number - 1], len(self.replies) + 1
        said, edek = ["nothing"], None
        if ask.kind == "zone":
            said = ["meta", ask.key, "128", str(self.versions[ask.key]), str(1 + list(MATERIALS).index(ask.key))]
        elif ask.key is not None:
            edek = Edek(reply, ask.key, self.versions[ask.key] - 1)
            said = ["ready", edek]
        self.replies.append((ask, edek))
        return ["reply", str(reply), *said]

    def finish(self, number):
        ask, edek = self.replies[number - 1]
        need(ask.id in self.open, f"N16 AskGone {self.opening} {self.counter + 1}")
        del self.open[ask.id]
        path = ask.path
        if ask.kind == "create":
            self.need_free(path)
        else:
            row = self.directory(path)
        if ask.kind == "zone":
            self.need_empty(path)
            need(not row.mark, "N7 AlreadyInZone")
        if ask.kind == "submit":
            need(row.mark, "N8 NotAZoneRoot")
        need(ask.zone == self.zone_id(path), "N17 ZoneChanged")
        if ask.kind == "create":
            self.rows[path] = Row(ask.id, True, edek=edek)
        elif ask.kind == "zone":
            self.make_zone(path, ask.key)
        else:
            need(not self.goes_on(path), "N18 AlreadySubmitted")
            there = {self.rows[path + it].id for it in self.files_of(path)}
            self.statuses[row.id] = Status(ask.id, edek, there)
        return ["done"]

    def make_zone(self, path, key):
        above = self.zone_of(path)
        self.seen["an inner zone"] += above is not None
        status = self.goes_on(above)
        self.seen["an inner zone in a walk"] += bool(status and status.session in self.walks)
        self.rows[path] = replace(self.rows[path], mark=key)

    # Re-encryptions.

    def going(self, path):
        need(self.directory(path).mark, "N8 NotAZoneRoot")
        status = self.goes_on(path)
        need(status, "N19 NotSubmitted")
        return status

    def cancel(self, path):
        status = self.going(path)
        status.is_completed = status.is_cancelled = True
        return ["done"]

    def walk(self, path):
        status = self.going(path)
        walk = self.walks.setdefault(status.session, Walk(status.mark))
        left = [it for it in self.files_of(path) if walk.cursor is None or it > walk.cursor][:BATCH]
        if left:
            rows = [self.rows[path + it] for it in left]
            files = [(it.id, it.edek) for it in rows]
            batch = Batch(self.rows[path].id, status.session, self.rows[path].mark, files, left[-1])
            walk.cursor, walk.has_begun = left[-1], True
            walk.batches.append(batch)
            self.batches.append(batch)
            return ["batch", str(len(self.batches)), str(len(left))]
        outstanding = sum(not it.is_done for it in walk.batches)
        if outstanding:
            return ["noneleft", str(outstanding)]
        status.is_completed = True
        return ["completed"]

    def serve(self, number):
        batch = self.batches[number - 1]
        served = [replace(edek, number=self.versions[batch.key] - 1) for _, edek in batch.files]
        self.replies.append((batch, served))
        return ["reply", str(len(self.replies)), "ready", *served]

    def deliver(self, number):
        batch, served = self.replies[number - 1]
        return self.bring_back(batch, served)

    def give_up(self, number):
        return self.bring_back(self.batches[number - 1], None)

    def bring_back(self, batch, served):
        """Applies what came back for a batch, or none if it is given up."""
        status = self.statuses.get(batch.zone)
        if status is None or status.is_completed or status.session != batch.session:
            return ["ignored", str(status.session if status else 0)]
        walk = self.walks.get(batch.session, Walk(None))
        sent = next((it for it in walk.batches if it.files == batch.files and not it.is_done), None)
        if sent is None:
            return ["ignored", str(status.session)]
        changed = 0 if served is None else sum(map(lambda it, new: self.change(batch.zone, *it, new), batch.files, served))
        failed = len(batch.files) if served is None else 0
        status.changed += changed
        status.failed += failed
        sent.is_done = True
        while walk.batches and walk.batches[0].is_done:
            status.mark = walk.batches.pop(0).last
        return ["applied", str(changed), str(len(batch.files) - changed - failed), str(failed)]

    def change(self, zone, number, sent, new):
        """Gives a file of a zone its new encrypted key, if it still has the one that was sent. Returns whether it did."""
        path = next((it for it, row in self.rows.items() if row.id == number), None)
        if path is None or self.zone_id(path) != zone or self.rows[path].edek != sent or new == sent:
            return False
        self.rows[path] = replace(self.rows[path], edek=new)
        return True

    # Keys and restarts.

    def roll(self, key, material):
        self.versions[key] += 1
        return ["version", f"{key}@{self.versions[key] - 1}", material]

    def restart(self):
        self.opening, self.counter = self.opening + 1, 0
        self.walks, self.open = {}, {}
        return ["opened", str(self.opening)]


class Script:
    """The events of a run, with the answers of the model. `least` is for events that ask for a file after a re-encryption of its zone:
    it has the zone, and the number of the least version that the file may be on."""

    names = "abc"

    def __init__(self, seed, model=None):
        self.random = random.Random(seed)
        self.model = model or Model()
        self.lines, self.answers, self.least = [], [], {}
        for key, material in MATERIALS.items():
            self.lines.append(f"kms a create {key} 128 {material}")
            self.answers.append(["version", f"{key}@0", material])

    def add(self, line, answer, *fields):
        """Adds an event, and returns whether the model refuses it."""
        self.lines.append(line)
        try:
            self.answers.append(answer(*fields))
            return True
        except Refused as refused:
            self.answers.append(["refused", *str(refused).split()])
            self.model.seen[str(refused).split()[0]] += 1
            return False

    # Paths that are likely to be of use.

    def pick(self, paths):
        """One of the paths, if there are any, or else any path."""
        return self.random.choice(paths) if paths else self.any_path()

    def any_path(self):
        return tuple(self.random.choice(self.names) for _ in range(self.random.randint(1, DEPTH)))

    def old_path(self, chance=0.9):
        return self.pick(list(self.model.rows)) if self.random.random() < chance else self.any_path()

    def new_path(self, beside=None):
        """A path that is often free, and often in the zone that the path `beside` lies in."""
        model, rows = self.model, self.model.rows
        above = [it for it, row in rows.items() if not row.is_file and len(it) < DEPTH]
        if beside is not None and self.random.random() < 0.7:
            zone = model.zone_of(beside[:-1])
            above = [it for it in above if model.zone_of(it) == zone]
        free = [it + (name,) for it in above for name in self.names if it + (name,) not in rows]
        return self.pick(free) if self.random.random() < 0.95 else self.any_path()

    def empty_directory(self):
        rows = self.model.rows
        found = [it for it, row in rows.items() if not row.is_file and not row.mark and len(self.model.below(it)) == 1]
        return self.pick(found) if self.random.random() < 0.8 else self.old_path()

    def zone(self):
        """The directory of a zone, often of one with files below it."""
        model = self.model
        found = [it for it, row in model.rows.items() if row.mark]
        full = [it for it in found if any(model.rows[below].is_file for below in model.below(it))]
        return self.pick(full if full and self.random.random() < 0.8 else found)

    def going_on(self):
        return [it for it, row in self.model.rows.items() if row.mark and self.model.goes_on(it)]

    def path_to_rename(self):
        """A zone, or a path below one that is being re-encrypted, or any other."""
        draw = self.random.random()
        if draw < 0.25:
            return self.zone()
        below = [it for zone in self.going_on() for it in self.model.below(zone)]
        return self.pick(below) if below and draw < 0.5 else self.old_path()

    # Events, with those that usually follow.

    def change_rows(self):
        model, draw = self.model, self.random.random()
        if draw < 0.5:
            path = self.new_path()
            self.add(f"nn a mkdir {text_of(path)}", model.mkdir, path)
        elif draw < 0.8:
            path = self.path_to_rename()
            to = self.new_path(beside=path)
            moved = self.add(f"nn a rename {text_of(path)} {text_of(to)}", model.rename, path, to)
            if moved:
                self.add(f"nn a info {text_of(to)}", model.info, to)
        else:
            # The deeper a path is, the likelier it is taken: so trees last.
            path = max(self.old_path(), self.old_path(), key=len)
            is_recursive = self.random.random() < 0.7
            self.add(f"nn a {'r' * is_recursive}delete {text_of(path)}", model.delete, path, is_recursive)

    def ask(self):
        model, draw = self.model, self.random.random()
        if draw < 0.5:
            path = self.new_path()
            kept = self.add(f"ask a create {text_of(path)}", model.ask, "create", path)
        elif draw < 0.8:
            path, key = self.empty_directory(), self.random.choice(list(MATERIALS))
            kept = self.add(f"ask hdfs zone {text_of(path)} {key}", model.ask, "zone", path, key)
        else:
            path = self.zone() if self.random.random() < 0.9 else self.old_path()
            kept = self.add(f"ask hdfs submit {text_of(path)}", model.ask, "submit", path)
        if kept and self.random.random() < 0.85:
            self.draw_and_finish(len(model.asks))

    def draw_and_finish(self, number):
        self.add(f"draw {number}", self.model.draw, number)
        self.finish(len(self.model.replies))

    def submit(self):
        """Rolls the key of a zone, and submits the zone."""
        path = self.zone()
        zone = self.model.zone_of(path)
        if zone is not None:
            self.roll(self.model.rows[zone].mark)
        if self.add(f"ask hdfs submit {text_of(path)}", self.model.ask, "submit", path):
            self.draw_and_finish(len(self.model.asks))

    def ask_across(self):
        """Asks for a file in an empty directory, which is a zone by the time of the finish."""
        model, path = self.model, self.empty_directory()
        if len(path) == DEPTH or not self.add(f"ask a create {text_of(path + ('a',))}", model.ask, "create", path + ("a",)):
            return
        number = len(model.asks)
        if self.add(f"ask hdfs zone {text_of(path)} j", model.ask, "zone", path, "j"):
            self.draw_and_finish(number + 1)
        self.draw_and_finish(number)

    def finish(self, number):
        ask = self.model.replies[number - 1][0]
        if self.add(f"finish {number}", self.model.finish, number):
            self.add(f"nn a info {text_of(ask.path)}", self.model.info, ask.path)

    def finish_late(self):
        model = self.model
        if not model.asks:
            return
        still_open = [place for place, it in enumerate(model.asks, 1) if it.id in model.open]
        number = self.random.randint(1, len(model.asks))
        self.draw_and_finish(self.random.choice(still_open) if still_open and self.random.random() < 0.7 else number)

    def reencrypt(self):
        model, going, draw = self.model, self.going_on(), self.random.random()
        if len(going) < 2 and draw < 0.3:
            self.submit()
            return
        path = self.pick(going) if self.random.random() < 0.95 else self.old_path()
        draw = self.random.random()
        if not going:
            self.submit()
        elif draw < 0.6:
            before = len(model.batches)
            walked = self.add(f"walk {text_of(path)}", model.walk, path)
            if len(model.batches) > before and self.random.random() < 0.8:
                self.bring_back(len(model.batches))
            elif walked and self.answers[-1] == ["completed"]:
                self.look_below(path)
        elif draw < 0.9 and model.batches:
            outstanding = [place for place, it in enumerate(model.batches, 1) if not it.is_done and it.session in model.walks]
            number = self.random.randint(1, len(model.batches))
            self.bring_back(self.random.choice(outstanding) if outstanding and self.random.random() < 0.8 else number)
        elif draw < 0.93:
            self.add(f"nn hdfs cancel {text_of(path)}", model.cancel, path)
        else:
            self.add(f"nn hdfs status {text_of(path)}", model.status, path)

    def bring_back(self, number):
        model = self.model
        if self.random.random() < 0.1:
            self.add(f"giveup {number}", model.give_up, number)
            return
        self.add(f"serve {number}", model.serve, number)
        times = self.random.choice((0, 1, 1, 1, 2))
        for _ in range(times):
            self.add(f"deliver {len(model.replies)}", model.deliver, len(model.replies))

    def look_below(self, zone):
        """Asks for all files below the directory of a zone whose re-encryption has just been completed."""
        model = self.model
        status = model.statuses[model.rows[zone].id]
        files = [it for it in model.below(zone) if model.rows[it].is_file]
        inner = [it for it in files if model.zone_of(it) != zone]
        model.seen["a re-encryption beside inner files"] += bool(inner and status.there)
        for path in files:
            if model.rows[path].id in status.there and not status.failed:
                self.least[len(self.lines)] = (text_of(zone), status.noted.number)
            self.add(f"nn a info {text_of(path)}", model.info, path)
        self.add(f"nn hdfs status {text_of(zone)}", model.status, zone)

    def snapshot(self):
        model, draw, name = self.model, self.random.random(), self.random.choice("st")
        allowed = [it for it, row in model.rows.items() if row.id in model.snapshots]
        path = self.pick(allowed) if allowed and self.random.random() < 0.8 else self.old_path()
        if draw < 0.15:
            path = self.old_path()
            self.add(f"nn hdfs allow {text_of(path)}", model.allow, path)
        elif draw < 0.3:
            self.add(f"nn hdfs disallow {text_of(path)}", model.disallow, path)
        elif draw < 0.45:
            self.add(f"nn a snap {text_of(path)} {name}", model.snap, path, name)
        elif draw < 0.65:
            self.add(f"nn a unsnap {text_of(path)} {name}", model.unsnap, path, name)
        else:
            self.look_in_snapshot(path, name)

    def snapshot_across(self):
        """Takes a snapshot of an empty directory, which is made a zone then, and looks into it."""
        model, path = self.model, self.empty_directory()
        self.add(f"nn hdfs allow {text_of(path)}", model.allow, path)
        self.add(f"nn a snap {text_of(path)} s", model.snap, path, "s")
        if self.add(f"ask hdfs zone {text_of(path)} k", model.ask, "zone", path, "k"):
            self.draw_and_finish(len(model.asks))
        self.look_in_snapshot(path, "s")
        if self.random.random() < 0.7:
            self.add(f"nn a unsnap {text_of(path)} s", model.unsnap, path, "s")
            self.add(f"nn hdfs disallow {text_of(path)}", model.disallow, path)

    def look_in_snapshot(self, path, name):
        model = self.model
        rows = model.snapshots.get(model.rows[path].id, {}).get(name, {}) if path in model.rows else {}
        rest = self.random.choice(list(rows)) if rows else ()
        text = f"{text_of(path)}/.snapshot/{name}".replace("//", "/") + "".join(f"/{it}" for it in rest)
        self.add(f"nn a info {text}", model.info_of_snapshot, path, name, rest)

    def roll(self, key):
        material = f"{self.random.getrandbits(128):032x}"
        self.add(f"kms a roll {key} {material}", self.model.roll, key, material)

    def other(self):
        model, draw = self.model, self.random.random()
        if draw < 0.5:
            self.add("nn hdfs zones", model.zones)
        elif draw < 0.8:
            self.roll(self.random.choice(list(MATERIALS)))
        elif draw < 0.95:
            path = self.old_path()
            self.add(f"nn a info {text_of(path)}", model.info, path)
        else:
            self.add("restart nn", model.restart)

    def grow(self, events):
        kinds = [self.change_rows, self.ask, self.ask_across, self.finish_late, self.reencrypt]
        kinds += [self.snapshot, self.snapshot_across, self.other]
        while len(self.lines) < events:
            self.random.choices(kinds, (30, 26, 1, 4, 30, 12, 1, 6))[0]()


class Comparison:
    """Compares answers field by field. Each encrypted key of the model stands for one text, and each draw for one vector."""

    def __init__(self):
        self.texts, self.keys, self.vectors, self.draws = {}, {}, {}, {}

    def is_text_of(self, edek, text):
        found = re.fullmatch(r"([kj])@(\d+):([0-9a-f]{32}):[0-9a-f]{32}", text)
        if not found or (found[1], int(found[2])) != (edek.key, edek.number):
            return False
        draw, vector = edek.draw, found[3]
        has_text = self.texts.setdefault(edek, text) == text and self.keys.setdefault(text, edek) == edek
        return has_text and self.vectors.setdefault(draw, vector) == vector and self.draws.setdefault(vector, draw) == draw

    def is_same(self, fields, text):
        words = text.split(" ")
        return len(words) == len(fields) and all(
            self.is_text_of(it, word) if isinstance(it, Edek) else it == word for it, word in zip(fields, words)
        )


def is_recent(text, zone, number):
    """Whether an info shows a file of this zone on a version of at least this number."""
    words = text.split(" ")
    return words[0] == "file" and words[2] == zone and int(words[3].split(":")[0].partition("@")[2]) >= number


def find_fault(script, found):
    """What is wrong with the answers of a program, or None."""
    if len(found) != len(script.lines):
        return f"{len(found)} answers to {len(script.lines)} events"
    comparison = Comparison()
    for place, (line, fields, text) in enumerate(zip(script.lines, script.answers, found)):
        number, _, answer = text.partition(" ")
        if number != str(place + 1) or not comparison.is_same(fields, answer):
            return f"event {place + 1}, {line}: {text}, and not {' '.join(map(str, fields))}"
        if place in script.least and not is_recent(answer, *script.least[place]):
            return f"event {place + 1}, {line}: {text} after a re-encryption of {script.least[place]}"
    return None


def find_log_fault(folder, model):
    """What is wrong with the logs of a run, or None."""
    try:
        keys = read_log(folder, "keys.log", b"HKMSKEY1", Keys())
        names = read_log(folder, "names.log", b"HKMSNAM1", Names())
        count_completed(keys, names)
    except Wrong as wrong:
        return str(wrong)
    found = {path_text(it): (row.id, row.is_file, row.mark, row.edek and row.edek.version) for it, row in names.rows.items()}
    wanted = {text_of(it): (row.id, row.is_file, row.mark, row.edek and row.edek.version) for it, row in model.rows.items()}
    return None if found == wanted else f"the logs have the rows {found}, and not {wanted}"


def run(program, folder, seed, events):
    """Runs a script of random events, and returns what is wrong, if anything is, and what occurred in it."""
    script = Script(seed)
    script.grow(events)
    for name in ("keys.log", "names.log"):
        if os.path.exists(f"{folder}/{name}"):
            os.remove(f"{folder}/{name}")
    text = "".join(f"{it}\n" for it in script.lines)
    ran = subprocess.run([program, "replay"], cwd=folder, input=text, stdout=subprocess.PIPE, encoding="ascii", check=False)
    fault = find_fault(script, ran.stdout.splitlines())
    if fault is None and ran.returncode != 0:
        fault = f"status {ran.returncode}"
    return fault or find_log_fault(folder, script.model), script.model.seen


def main():
    program, folder, events = sys.argv[1], sys.argv[2], int(sys.argv[3])
    with open(f"{folder}/kms-acls.properties", "w", encoding="ascii") as file:
        file.write(PROPERTIES)
    failures, seen = 0, Counter()
    for seed in sys.argv[4:]:
        fault, occurred = run(program, folder, int(seed), events)
        seen += occurred
        if fault is not None:
            print(f"tests/inner_zones.py: seed {seed}: {fault}")
            failures += 1
    unseen = [it for it in SEEN if not seen[it]]
    if unseen:
        print(f"tests/inner_zones.py: these did not occur: {', '.join(unseen)}")
    return 1 if failures or unseen else 0


if __name__ == "__main__":
    sys.exit(main())
