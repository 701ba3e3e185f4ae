"""Compares the program with a model that copies all rows at each snapshot, over random events: snapshots.py PROGRAM FOLDER EVENTS SEED..

Snapshots of two directories are taken, under short names and under one of 255 bytes, and removed in any order; in between files and
directories are made, renamed and deleted, and files get new encrypted keys. The namesystem starts again now and then, which takes all
snapshots anew from the log, and in the end another process does. What is in a snapshot is asked for row by row and directory by
directory, and also what is not in it. The model is that of inner_zones.py.
"""

import os
import random
import subprocess
import sys
from collections import Counter

import inner_zones
from inner_zones import MATERIALS, PROPERTIES, Refused, Script, find_fault, find_log_fault, need, text_of

ROOTS = (("a",), ("b",))
# The most rows of a snapshot that one look asks for.
LOOK = 12
# What has to occur, so that the answers say something.
SEEN = ["N2", "N3", "N4", "N5", "N11", "N12", "N13", "N14", "a snapshot without changes", "the oldest removed", "the newest removed"]
SEEN += ["the last one removed", "a row that is gone", "a row that came later", "a key that was another", "a row that was elsewhere"]


class Model(inner_zones.Model):
    def list_of_snapshot(self, path, name, rest):
        snapshots = self.allowed(path)
        need(name in snapshots, "N14 NoSuchSnapshot")
        rows = snapshots[name]
        need(rest in rows, "N2 NoSuchPath")
        need(not rows[rest].is_file, "N4 NotADirectory")
        children = sorted((it[-1], row.is_file) for it, row in rows.items() if it and it[:-1] == rest)
        return ["list"] + [child + ("" if is_file else "/") for child, is_file in children]


class Snapshots(Script):
    names = ("a", "b" * 31, "c" * 255, "d")

    def __init__(self, seed):
        super().__init__(seed, Model())
        for root in ROOTS:
            self.add(f"nn a mkdir {text_of(root)}", self.model.mkdir, root)
        self.add("ask hdfs zone /a k", self.model.ask, "zone", ("a",), "k")
        self.draw_and_finish(1)
        for root in ROOTS:
            self.add(f"nn hdfs allow {text_of(root)}", self.model.allow, root)
            for number in range(4):
                self.fill(root + (f"directory-{number}",))

    def fill(self, directory):
        self.add(f"nn a mkdir {text_of(directory)}", self.model.mkdir, directory)
        for number in range(5):
            self.make_file(directory + (f"file-{number}",))

    def make_file(self, path):
        if self.add(f"ask a create {text_of(path)}", self.model.ask, "create", path):
            self.draw_and_finish(len(self.model.asks))

    def taken(self):
        """The snapshots that there are, the oldest first, each by the path of its directory and its name."""
        model = self.model
        return [(root, name) for root in ROOTS if root in model.rows for name in model.snapshots.get(model.rows[root].id, {})]

    # Events, with those that usually follow.

    def make(self):
        path = self.new_path()
        if self.random.random() < 0.6:
            self.make_file(path)
        else:
            self.add(f"nn a mkdir {text_of(path)}", self.model.mkdir, path)

    def remove(self):
        path = max(self.old_path(), self.old_path(), key=len)
        if path not in ROOTS:
            is_recursive = self.random.random() < 0.3
            self.add(f"nn a {'r' * is_recursive}delete {text_of(path)}", self.model.delete, path, is_recursive)

    def rename(self):
        path = self.old_path()
        if path not in ROOTS:
            to = self.new_path(beside=path)
            self.add(f"nn a rename {text_of(path)} {text_of(to)}", self.model.rename, path, to)

    def take(self):
        root = self.random.choice(ROOTS) if self.random.random() < 0.95 else self.old_path()
        name = "s" * 255 if self.random.random() < 0.05 else f"s{self.random.randrange(100)}"
        before = list(self.model.snapshots.get(self.model.rows[root].id, {}).values()) if root in self.model.rows else []
        if self.add(f"nn a snap {text_of(root)} {name}", self.model.snap, root, name):
            rows = self.model.snapshots[self.model.rows[root].id][name]
            self.model.seen["a snapshot without changes"] += rows in before
            self.look(root, name)

    def drop(self):
        taken = self.taken()
        if not taken or self.random.random() < 0.05:
            self.add("nn a unsnap /a none", self.model.unsnap, ("a",), "none")
            return
        root, name = self.random.choice((taken[0], taken[-1], self.random.choice(taken)))
        left = [it for it in taken if it[0] == root]
        for what, place in (("the oldest removed", 0), ("the newest removed", -1)):
            self.model.seen[what] += len(left) > 1 and left[place] == (root, name)
        self.model.seen["the last one removed"] += len(taken) == 1
        self.add(f"nn a unsnap {text_of(root)} {name}", self.model.unsnap, root, name)
        self.add(f"nn a info {text_of(root)}/.snapshot/{name}", self.model.info_of_snapshot, root, name, ())
        for other in self.random.sample(self.taken(), min(2, len(self.taken()))):
            self.look(*other)

    def drop_all(self):
        for root, name in self.taken():
            self.add(f"nn a unsnap {text_of(root)} {name}", self.model.unsnap, root, name)
        for root in ROOTS:
            self.add(f"nn hdfs disallow {text_of(root)}", self.model.disallow, root)
            self.add(f"nn a snap {text_of(root)} s", self.model.snap, root, "s")
            self.add(f"nn hdfs allow {text_of(root)}", self.model.allow, root)

    def disallow(self):
        root = self.random.choice(ROOTS)
        if self.add(f"nn hdfs disallow {text_of(root)}", self.model.disallow, root):
            self.add(f"nn hdfs allow {text_of(root)}", self.model.allow, root)

    def look(self, root, name):
        """Asks for rows of a snapshot, and for live rows that it may not have."""
        model = self.model
        rows = model.snapshots[model.rows[root].id][name]
        live = {it[len(root) :]: model.rows[it] for it in model.below(root)}
        asked = self.random.sample(sorted(rows), min(LOOK, len(rows)))
        asked += self.random.sample(sorted(set(live) - set(rows)), min(3, len(set(live) - set(rows))))
        self.note(rows, live)
        for rest in asked:
            path = f"{text_of(root)}/.snapshot/{name}" + "".join(f"/{it}" for it in rest)
            self.add(f"nn a info {path}", model.info_of_snapshot, root, name, rest)
            if rest not in rows or not rows[rest].is_file or self.random.random() < 0.1:
                self.add(f"nn a list {path}", model.list_of_snapshot, root, name, rest)

    def note(self, rows, live):
        seen, places = self.model.seen, {row.id: it for it, row in live.items()}
        seen["a row that is gone"] += bool(set(rows) - set(live))
        seen["a row that came later"] += bool(set(live) - set(rows))
        seen["a key that was another"] += any(it in live and live[it].id == row.id and live[it].edek != row.edek for it, row in rows.items())
        seen["a row that was elsewhere"] += any(places.get(row.id, it) != it for it, row in rows.items())

    def restart(self):
        self.add("restart nn", self.model.restart)
        for other in self.taken():
            self.look(*other)

    def grow(self, events):
        kinds = [self.make, self.remove, self.rename, self.reencrypt, self.take, self.drop, self.drop_all, self.disallow, self.restart]
        while len(self.lines) < events:
            self.random.choices(kinds, (20, 16, 12, 16, 16, 12, 0.3, 1, 1))[0]()


class Later(Snapshots):
    """What another process is asked about the snapshots that are left."""

    def __init__(self, seed, model):
        Script.__init__(self, seed, model)
        self.lines, self.answers = [], []
        model.restart()
        for root, name in self.taken():
            self.look(root, name)


def answers_of(program, folder, script):
    text = "".join(f"{it}\n" for it in script.lines)
    ran = subprocess.run([program, "replay"], cwd=folder, input=text, stdout=subprocess.PIPE, encoding="ascii", check=False)
    fault = find_fault(script, ran.stdout.splitlines())
    return f"status {ran.returncode}" if fault is None and ran.returncode != 0 else fault


def run(program, folder, seed, events):
    """Runs a script of random events, and looks at what is left of it. Returns what is wrong, if anything is, and what occurred."""
    for name in ("keys.log", "names.log"):
        if os.path.exists(f"{folder}/{name}"):
            os.remove(f"{folder}/{name}")
    script = Snapshots(seed)
    script.grow(events)
    fault = answers_of(program, folder, script) or find_log_fault(folder, script.model)
    later = Later(seed, script.model)
    return fault or answers_of(program, folder, later), script.model.seen


def main():
    program, folder, events = sys.argv[1], sys.argv[2], int(sys.argv[3])
    with open(f"{folder}/kms-acls.properties", "w", encoding="ascii") as file:
        file.write(PROPERTIES)
    failures, seen = 0, Counter()
    for seed in map(int, sys.argv[4:]):
        fault, occurred = run(program, folder, seed, events)
        seen += occurred
        if fault is not None:
            print(f"tests/snapshots.py: seed {seed}: {fault}")
            failures += 1
    unseen = [it for it in SEEN if not seen[it]]
    if unseen:
        print(f"tests/snapshots.py: these did not occur: {', '.join(unseen)}")
    return 1 if failures or unseen else 0


if __name__ == "__main__":
    sys.exit(main())
