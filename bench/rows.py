"""Measures the namesystem with about a million rows, beside a dictionary of Python, and prints rows for the table of bench/run.

    python3 bench/rows.py PROGRAM FOLDER [FILES]

It makes edit logs in FOLDER from the bytes of their format (docs/logs.md) and runs `PROGRAM replay` on them. All times are
processor time, so other work on the machine disturbs them little; the best of some runs counts. An opening is the time until
the first line is answered, without that on empty logs. The dictionary has paths as keys, and a process of its own fills it
from the same file. An event's time is beside the same call of the root, so it leaves out reading and writing lines.

Not measured: names that collide in the index of names, which are hard to choose from outside.
"""

import os
import random
import struct
import subprocess
import sys
import time

FIRST_ID = (1 << 32) + 1
DIRECTORY, FILE, SUBMISSION = 2, 3, 11
SEALED = bytes(range(16))
# What follows the path in the record of a file: an encrypted key of version 0 of the key k.
EDEK = b"\x01\x01k" + bytes(2) + bytes(16) + b"\x10" + SEALED
EDEK_TEXT = "k@0:" + bytes(16).hex() + ":" + SEALED.hex()
# One line for the start; then so many calls of a kind.
ROOT_LINE = "nn a info /\n"
CALLS = 200_000
# The files of a batch, if no property says otherwise.
BATCH = 1000
IS_DEEP_AT = 18


# ---- logs


def frames(payloads):
    return b"".join([b"\x01" + len(it).to_bytes(4, "big") + it for it in payloads])


def row_records(kind, paths, first_id):
    """The records that make directories or files at these paths, which have the same length."""
    length, rest = len(paths[0]), EDEK if kind == FILE else b""
    record = struct.Struct(f">BIBQH{length}s{len(rest)}s")
    size = 11 + length + len(rest)
    return b"".join([record.pack(1, size, kind, number, length, path, rest) for number, path in enumerate(paths, first_id)])


def path_bytes(path):
    return len(path).to_bytes(2, "big") + path


def zone_records(paths):
    return frames([b"\x06" + path_bytes(it) + b"\x01k" for it in paths])


def removal_records(paths):
    length = len(paths[0])
    record = struct.Struct(f">BIBH{length}s")
    return b"".join([record.pack(1, 3 + length, 4, length, path) for path in paths])


def snapshot_record(number):
    name = str(number).encode()
    return b"\x09" + path_bytes(b"/zone") + path_bytes(name)


def renamed(path):
    """The other one of two paths that a file has in turn."""
    above, _, name = path.rpartition(b"/")
    return above + b"/" + (name[1:] if name.startswith(b"-") else b"-" + name)


class Rows:
    """What a log makes: the zone /zone, directories in it, and files in these. Directories come before what is in them. Those of the
    inner zones are among the directories."""

    def __init__(self, directories, files, removed=(), submitted=False, inner_zones=(), inner_files=()):
        self.directories = directories
        self.files = files
        self.removed = removed
        self.submitted = submitted
        self.inner_zones = inner_zones
        self.inner_files = inner_files

    def first_file(self):
        return FIRST_ID + 1 + len(self.directories)

    def log(self):
        zone, next_id = b"/zone", self.first_file() + len(self.files)
        parts = [frames([b"\x01" + (1).to_bytes(4, "big")]), row_records(DIRECTORY, [zone], FIRST_ID), zone_records([zone])]
        parts += [row_records(DIRECTORY, [it], number) for number, it in enumerate(self.directories, FIRST_ID + 1)]
        parts.append(zone_records(self.inner_zones))
        parts.append(row_records(FILE, self.files, self.first_file()))
        if self.inner_files:
            parts.append(row_records(FILE, self.inner_files, next_id))
        if self.removed:
            parts.append(removal_records(self.removed))
        if self.submitted:
            session = next_id + len(self.inner_files)
            parts.append(frames([bytes([SUBMISSION]) + session.to_bytes(8, "big") + path_bytes(zone) + b"\x01k" + bytes(2)]))
        return b"HKMSNAM1" + b"".join(parts) + b"\x00"


def rows_in(top, above, files, name="file-%09d"):
    """Files in directories of about 1,000 each, in path order. `above` lists the directories over `top` from the zone on."""
    count = max(1, files // 1000)
    directories = [f"{top}/dir-{it:03}".encode() for it in range(count)]
    paths = [directories[it * count // files] + b"/" + (name % it).encode() for it in range(files)]
    return Rows(above + directories, paths)


def with_inner_zones(rows, files):
    """The same rows with an inner zone in each directory, and so many files in these zones."""
    count = len(rows.directories)
    zones = [it + b"/inner" for it in rows.directories]
    paths = [zones[it * count // files] + b"/file-%09d" % it for it in range(files)]
    return Rows(rows.directories + zones, rows.files, inner_zones=zones, inner_files=paths)


def shuffled(items):
    copy = list(items)
    random.Random(len(copy)).shuffle(copy)
    return copy


def in_any_order(rows):
    return Rows(rows.directories, shuffled(rows.files))


def deep_rows(files):
    """Files whose paths have 20 names."""
    above = ["/zone"]
    for depth in range(1, IS_DEEP_AT):
        above.append(f"{above[-1]}/level-{depth:02}")
    return in_any_order(rows_in(above[-1], [it.encode() for it in above[1:]], files))


def removed_rows(files):
    """Half as many files, which are all removed in another order, so that there are as many records."""
    rows = in_any_order(rows_in("/zone", [], files // 2))
    return Rows(rows.directories, rows.files, shuffled(sorted(rows.files)))


# ---- the program


class Session:
    """The program as it runs in a folder, and answers the lines that it is given."""

    def __init__(self, program, folder):
        self.answers_path = os.path.join(folder, "answers")
        self.events = 0
        with open(self.answers_path, "wb") as answers:
            self.process = subprocess.Popen([program, "replay"], cwd=folder, stdin=subprocess.PIPE, stdout=answers)

    def seconds(self):
        """The processor time until now."""
        return time.clock_gettime(~self.process.pid << 3 | 2)

    def memory(self):
        """The most memory that it had, and the memory that it has, in bytes."""
        with open(f"/proc/{self.process.pid}/status", encoding="utf-8") as status:
            fields = dict(line.split(":", 1) for line in status)
        return [int(fields[it].split()[0]) * 1024 for it in ("VmHWM", "VmRSS")]

    def is_answered(self):
        with open(self.answers_path, "rb") as answers:
            end = answers.seek(0, os.SEEK_END)
            answers.seek(max(0, end - 1000))
            lines = answers.read().split(b"\n")
        return len(lines) > 1 and lines[-1] == b"" and lines[-2].startswith(b"%d " % self.events)

    def run(self, lines, answers):
        """Runs one line or more, and compares the answers. Returns the processor time that they took."""
        before, first = self.seconds() if self.events else 0, self.events
        self.process.stdin.write("".join(lines).encode())
        self.process.stdin.flush()
        self.events += len(lines)
        while not self.is_answered():
            if self.process.poll() is not None:
                sys.exit(f"bench/rows.py: the program ended with status {self.process.returncode}")
            time.sleep(0.01)
        seconds = self.seconds() - before
        with open(self.answers_path, encoding="utf-8") as found:
            texts = found.read().split("\n")[first:-1]
        if texts != [f"{number} {answer}" for number, answer in enumerate(answers, first + 1)]:
            sys.exit("bench/rows.py: an answer is wrong")
        return seconds

    def end(self):
        self.process.stdin.close()
        if self.process.wait() != 0:
            sys.exit(f"bench/rows.py: the program ended with status {self.process.returncode}")


def open_once(program, folder, ask, answer):
    """The processor time until a first line is answered, and the memory then."""
    session = Session(program, folder)
    seconds, memory = session.run([ask], [answer]), session.memory()
    session.end()
    return seconds, memory


# ---- the dictionary


def fill_dictionary(path):
    with open(path, "rb") as file:
        data = file.read()
    head, made = struct.Struct(">IB"), struct.Struct(">QH")
    rows, zones = {}, {}
    at = 8
    while data[at] == 1:
        size, kind = head.unpack_from(data, at + 1)
        start, at = at + 5, at + 5 + size
        if kind in (DIRECTORY, FILE):
            number, length = made.unpack_from(data, start + 1)
            begin = start + 11
            rows[data[begin : begin + length]] = (number, data[begin + length : at])
        elif kind == 4:
            del rows[data[start + 3 : at]]
        elif kind == 6:
            end = start + 3 + int.from_bytes(data[start + 1 : start + 3], "big")
            zones[data[start + 3 : end]] = data[end:at]
    return rows


def print_dictionary(path):
    """Prints the processor time that the dictionary takes, its rows, and the bytes of memory that it leaves."""

    def memory():
        with open("/proc/self/statm", encoding="utf-8") as statm:
            return int(statm.read().split()[1]) * os.sysconf("SC_PAGESIZE")

    held, begin = memory(), time.process_time()
    rows = fill_dictionary(path)
    seconds = time.process_time() - begin
    print(seconds, len(rows), memory() - held)


def dictionary_once(path):
    out = subprocess.run([sys.executable, __file__, "dictionary", path], stdout=subprocess.PIPE, check=True).stdout.split()
    return float(out[0]), int(out[1]), int(out[2])


# ---- the table


def print_row(what, ours, peer, theirs, digits=2, wanted=None):
    ratio = f"{ours / theirs:.2f}" + (f", at most {wanted:.2f} is wanted" if wanted else "")
    print(f"| {what} | {ours:.{digits}f} | {peer} | {theirs:.{digits}f} | {ratio} |", flush=True)


class Bench:
    def __init__(self, program, folder):
        self.program = os.path.abspath(program)
        self.folder = folder
        self.names = os.path.join(folder, "names.log")
        self.clear()
        tries = [open_once(self.program, folder, ROOT_LINE, "dir 0 - -") for _ in range(5)]
        self.start = min(seconds for seconds, _ in tries)
        self.least_memory = min(now for _, (_, now) in tries)

    def clear(self):
        for name in ("keys.log", "names.log", "answers"):
            if os.path.exists(os.path.join(self.folder, name)):
                os.remove(os.path.join(self.folder, name))

    def opening(self, what, rows, runs, wanted):
        """Measures and prints an opening. Returns the memory of the program, and that of the dictionary."""
        self.clear()
        with open(self.names, "wb") as file:
            file.write(rows.log())
        last = rows.files[-1].decode()
        answer = "refused N2 NoSuchPath" if rows.removed else f"file {rows.first_file() + len(rows.files) - 1} /zone {EDEK_TEXT}"
        ours, theirs = [], []
        for _ in range(runs):
            ours.append(open_once(self.program, self.folder, f"nn a info {last}\n", answer))
            theirs.append(dictionary_once(self.names))
        if any(count != 1 + len(rows.directories) + (0 if rows.removed else len(rows.files)) for _, count, _ in theirs):
            sys.exit("bench/rows.py: the dictionary has other rows")
        seconds = min(it for it, _ in ours) - self.start
        print_row(f"opening, {what}, s", seconds, "a dictionary of Python", min(it for it, _, _ in theirs), wanted=wanted)
        return min(it for _, it in ours), min(it for _, _, it in theirs)

    def print_memory(self, rows, memory, dictionary):
        """Prints what the rows take, which all have names of the same length but a few."""
        peak, held = memory
        count = len(rows.files) + len(rows.directories) + 2
        name = len(rows.files[0].rsplit(b"/", 1)[1])
        print_row("peak memory of that opening, MB", peak / 1e6, "memory after it", held / 1e6, 0, 1.4)
        beyond = (held - self.least_memory) / count - name
        print_row("memory of a row beyond its name, bytes", beyond, "the most that is wanted", 230, 0)
        print_row("the same", beyond, "a dictionary of Python", dictionary / count - name, 0)

    def print_calls(self, rows):
        """Measures calls at random paths, on the log that is there."""
        session = Session(self.program, self.folder)
        session.run([ROOT_LINE], ["dir 0 - -"])
        count = min(CALLS, 20 * len(rows.files))
        drawn = random.Random(1).choices(range(len(rows.files)), k=count)
        paths = [rows.files[it].decode() for it in drawn]
        infos = [f"nn a info {it}\n" for it in paths]
        found = [f"file {rows.first_file() + it} /zone {EDEK_TEXT}" for it in drawn]
        mkdirs, exists = [f"nn a mkdir {it}\n" for it in paths], ["refused N3 Exists"] * count
        best = {}
        for _ in range(3):
            for name, lines, answers in (
                ("root", [ROOT_LINE] * count, ["dir 0 - -"] * count),
                ("info", infos, found),
                ("mkdir of the root", ["nn a mkdir /\n"] * count, exists),
                ("mkdir", mkdirs, exists),
            ):
                best[name] = min(session.run(lines, answers), best.get(name, 1e9))
        session.end()

        def microseconds(name, beside):
            return (best[name] - best[beside]) / count * 1e6

        print_row("`info` of a random path, µs", microseconds("info", "root"), "the most that is wanted", 3)
        refused = "`mkdir` of a random path that exists, which finds it and its directory, µs"
        print_row(refused, microseconds("mkdir", "mkdir of the root"), "the most that is wanted for one find", 1.5)

    def print_snapshots(self, files):
        """Measures snapshots of a directory of so many rows: a first one, one more of the same rows, and its removal."""
        rows = in_any_order(rows_in("/zone", [], files))
        self.clear()
        with open(self.names, "wb") as file:
            file.write(rows.log())
        session = Session(self.program, self.folder)
        session.run([ROOT_LINE, "nn hdfs allow /zone\n"], ["dir 0 - -", "done"])
        first, again, removed = [], [], []
        for _ in range(5):
            first.append(session.run(["nn a snap /zone s\n"], ["done"]))
            again.append(session.run(["nn a snap /zone t\n"], ["done"]))
            removed.append(session.run(["nn a unsnap /zone t\n"], ["done"]))
            session.run(["nn a unsnap /zone s\n"], ["done"])
        session.end()
        most = "the most that is wanted"
        print_row(f"a first snapshot of {files:,} files, ms", min(first) * 1e3, most, 60, 0)
        print_row("another one, if nothing changed, ms", min(again) * 1e3, most, 15, 0)
        print_row("its removal, ms", min(removed) * 1e3, most, 10, 0)

    def open_snapshots(self, files, count):
        """Opens a log with so many snapshots of a zone, with 1 of 100 files renamed between two. Returns the seconds and the memory after it."""
        rows, renaming = rows_in("/zone", [], files), random.Random(count)
        paths = list(rows.files)
        self.clear()
        with open(self.names, "wb") as file:
            file.write(rows.log()[:-1] + frames([b"\x07" + path_bytes(b"/zone"), snapshot_record(0)]))
            for number in range(1, count):
                for at in renaming.sample(range(files), files // 100):
                    old, paths[at] = paths[at], renamed(paths[at])
                    file.write(frames([b"\x05" + path_bytes(old) + path_bytes(paths[at])]))
                file.write(frames([snapshot_record(number)]))
            file.write(b"\0")
        path = f"/zone/.snapshot/{count - 1}{paths[-1].decode()[5:]}"
        ids = rows.first_file() + files - 1
        seconds, (_, held) = open_once(self.program, self.folder, f"nn a info {path}\n", f"file {ids} /zone {EDEK_TEXT}")
        return seconds - self.start, held

    def print_many_snapshots(self, files, count):
        """Measures what many snapshots that differ a little take beyond one."""
        alone, one = self.open_snapshots(files, 1)
        seconds, many = self.open_snapshots(files, count)
        what = f"{count} snapshots of {files:,} files, 1 % renamed between two"
        print_row(f"memory of {what}, beyond one, MB", (many - one) / 1e6, "the most that is wanted", 400, 0)
        print_row("opening of that log, s", seconds, "the same with one snapshot", alone)

    def walk_seconds(self, rows, runs):
        """The processor time of a walk in the zone /zone, the mean of those that give a batch."""
        files = len(rows.files)
        rows.submitted = True
        self.clear()
        with open(self.names, "wb") as file:
            file.write(rows.log())
        batches = (files + BATCH - 1) // BATCH
        answers = [f"batch {it + 1} {min(BATCH, files - it * BATCH)}" for it in range(batches)]
        roots, walks = [], []
        for _ in range(runs):
            session = Session(self.program, self.folder)
            session.run([ROOT_LINE], ["dir 0 - -"])
            roots.append(session.run([ROOT_LINE] * batches, ["dir 0 - -"] * batches))
            walks.append(session.run(["walk /zone\n"] * batches, answers))
            session.run(["walk /zone\n"], [f"noneleft {batches}"])
            session.end()
        return (min(walks) - min(roots)) / batches

    def print_walks(self, files):
        """Measures walks in a zone of so many files, beside those in one of at most 10,000."""
        fewer = min(files, 10_000)
        ours, theirs = self.walk_seconds(rows_in("/zone", [], files), 3), self.walk_seconds(rows_in("/zone", [], fewer), 10)
        print_row(f"a batch of {BATCH:,} files of {files:,}, µs", ours * 1e6, f"the same of {fewer:,}", theirs * 1e6, 0, 2)

    def print_walks_beside_inner_zones(self, files):
        """Measures walks in a zone of so many files beside a fifth as many in inner zones, which the walks pass by."""
        rows, inner = rows_in("/zone", [], files), files // 5
        ours, theirs = self.walk_seconds(with_inner_zones(rows, inner), 5), self.walk_seconds(rows, 5)
        what = f"a batch of {BATCH:,} files of {files:,} beside {inner:,} in inner zones, µs"
        print_row(what, ours * 1e6, "the same without these", theirs * 1e6, 0, 1.3)

    def print_renames(self, files):
        """Measures renames of a directory with so many rows below it, there and back."""
        rows = in_any_order(rows_in("/zone/all", [b"/zone/all"], files))
        self.clear()
        with open(self.names, "wb") as file:
            file.write(rows.log())
        session = Session(self.program, self.folder)
        session.run([ROOT_LINE, "nn a mkdir /zone/in\n"], ["dir 0 - -", "done"])
        taken = []
        for _ in range(3):
            taken.append(session.run(["nn a rename /zone/all /zone/in/all\n"], ["done"]))
            taken.append(session.run(["nn a rename /zone/in/all /zone/all\n"], ["done"]))
        session.end()
        print_row(f"a rename of a directory of {files:,} files, ms", max(taken) * 1e3, "the most that is wanted", 250, 0)


def main():
    program, folder = sys.argv[1:3]
    files = int(sys.argv[3]) if len(sys.argv) > 3 else 990_000
    bench = Bench(program, folder)
    rows = rows_in("/zone", [], files)
    memory, dictionary = bench.opening(f"{files:,} files in path order", rows, 3, 1.2)
    bench.print_memory(rows, memory, dictionary)
    rows = in_any_order(rows)
    memory, _ = bench.opening(f"{files:,} files in random order", rows, 3, 3)
    bench.print_calls(rows)
    long_names = rows_in("/zone", [], files, "n" * 246 + "%09d")
    one_directory = Rows([b"/zone/dir"], [b"/zone/dir/file-%09d" % it for it in range(files)])
    for what, made in (
        (f"{files:,} files with names of 255 bytes in random order", in_any_order(long_names)),
        (f"{files:,} files of one directory in random order", in_any_order(one_directory)),
        (f"{files:,} files at paths of 20 names in random order", deep_rows(files)),
        (f"{files // 2:,} files and as many removals in random order", removed_rows(files)),
    ):
        bench.opening(what, made, 2, 3)
    bench.print_snapshots(min(files, 100_000))
    bench.print_many_snapshots(min(files, 500_000), 100)
    bench.print_renames(min(files, 500_000))
    bench.print_walks(files)
    bench.print_walks_beside_inner_zones(min(files, 500_000))
    bench.clear()


if __name__ == "__main__":
    if sys.argv[1] == "dictionary":
        print_dictionary(sys.argv[2])
    else:
        main()
