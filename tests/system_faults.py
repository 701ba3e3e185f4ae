"""A script of both services on real files, with a fault at each call on the logs in turn: system_faults.py PROGRAM LIBRARY FOLDER

The script is told line by line to a run in which one call fails, by the library of system_faults.c. If the disk fails in a change, the
next change settles that one, and the script goes on. If it fails as an older material is read, the line is told again. If the disk fails
as a change is settled too, or the run has ended, the program is started again without a fault. Each time all that was acknowledged must be
there, and at most the one change besides that got no answer. In the end the whole script is done, each file opens to the key that was
noted when it was made, and the re-encryption left none of them behind: through the program, and by headline.py from the bytes of both
logs.

The same is done with a folder in which the script was broken off, for the calls of the start and of both restarts.
"""

import contextlib
import io
import multiprocessing
import os
import re
import runpy
import shutil
import signal
import subprocess
import sys
from collections import Counter
from dataclasses import dataclass, field

import headline

PROGRAM, LIBRARY, FOLDER = sys.argv[1:4]
LOGS = os.path.join(os.path.dirname(os.path.abspath(__file__)), "logs.py")
MATERIALS = ["2b7e151628aed2a6abf7158809cf4f3c", "000102030405060708090a0b0c0d0e0f"]
PROPERTIES = "".join(f"default.key.acl.{it}=*\n" for it in ("MANAGEMENT", "GENERATE_EEK", "DECRYPT_EEK", "READ"))
PROPERTIES += "hkms.reencrypt.batch=2\n"

# The questions that show what is kept.
KEY, ZONE, STATUS = "kms a versions k", "nn a info /z", "nn hdfs status /z"
FILES = [f"nn a info /z/f{it}" for it in (1, 2, 3)]
SNAPSHOT = "nn a info /z/.snapshot/s"
SNAPPED = [it.replace("/z/", "/z/.snapshot/s/") for it in FILES]
SHOWN = [KEY, ZONE, STATUS, SNAPSHOT] + FILES + SNAPPED

SECONDS = 120
STORE_FAULT = r"refused (?:K14|N23) StoreFault"
READ_FAULT = r"(?:reply \d+ )?refused K14 StoreFault"
KILLS = ["stop", "power"]


class Wrong(Exception):
    """What the program did against its promises."""


class Failed(Exception):
    """A change was refused since the disk failed."""


class Ended(Exception):
    """A run goes no further: it has ended, or its log takes no more changes."""


def need(holds, why):
    if not holds:
        raise Wrong(why)


@dataclass(frozen=True)
class Fault:
    """Which call of a run fails, and how. The call 0 is none."""

    at: int = 0
    kind: str = "none"


@dataclass(frozen=True)
class Call:
    """A call on the logs, as the library reports it."""

    name: str
    file: str
    result: int
    is_fault: bool


class Run:
    """A run of the program that is told one line after another."""

    def __init__(self, folder, fault):
        self.report, self.messages = f"{folder}.report", f"{folder}.messages"
        self.number, self.last = 0, ""
        with contextlib.suppress(FileNotFoundError):
            os.remove(self.report)
        more = {"LD_PRELOAD": LIBRARY, "FAULT_AT": str(fault.at), "FAULT_KIND": fault.kind, "FAULT_REPORT": self.report}
        with open(self.messages, "wb") as messages:
            self.process = subprocess.Popen(
                [PROGRAM, "replay"],
                cwd=folder,
                env=dict(os.environ, **more),
                stdin=subprocess.PIPE,
                stdout=subprocess.PIPE,
                stderr=messages,
                bufsize=0,
            )

    def tell(self, line):
        """Returns the answer to a line, without its number."""
        self.number += 1
        with contextlib.suppress(BrokenPipeError):
            self.process.stdin.write(line.encode() + b"\n")
        answer = b""
        while not answer.endswith(b"\n") and (part := self.process.stdout.read(65536)):
            answer += part
        number, _, text = answer.decode().rstrip("\n").partition(" ")
        if number != str(self.number):
            self.last = answer.decode()
            raise Ended
        return text

    def end(self):
        """Ends the input, and returns the status and the last line."""
        with contextlib.suppress(BrokenPipeError):
            self.process.stdin.close()
        last = self.last + self.process.stdout.read().decode()
        self.process.stdout.close()
        return self.process.wait(), last.rstrip("\n")

    def calls(self):
        with open(self.report, encoding="ascii") as lines:
            fields = [line.split() for line in lines]
        return [Call(it[1], it[2], int(it[3]), len(it) > 4) for it in fields]


@dataclass
class Kept:
    """The answers to the questions by what was acknowledged, those that the one change without an answer would make other, and the
    data encryption keys by the ids of files."""

    rows: dict
    pending: dict = field(default_factory=dict)
    deks: dict = field(default_factory=dict)

    def adopt(self, found):
        """What is found is what was acknowledged, with or without the pending change. Returns whether it is with it."""
        with_pending = {**self.rows, **self.pending}
        wrong = [it for it in SHOWN if found[it] not in (self.rows[it], with_pending[it])]
        need(not wrong, f"{wrong} shows {[found[it] for it in wrong]}, acknowledged was {[self.rows[it] for it in wrong]}")
        need(found in (self.rows, with_pending), f"a part of a change is there: {self.pending}")
        is_kept = found == with_pending
        self.rows, self.pending = found, {}
        return is_kept


def nothing_kept():
    rows = {it: "refused N2 NoSuchPath" for it in SHOWN}
    return Kept({**rows, KEY: "refused K4 NoSuchKey"})


class Script:
    """The script over one folder. Its first run has a fault, and may begin with both restarts."""

    def __init__(self, folder, kept, fault=Fault(), restarts=False):
        self.folder, self.kept, self.fault, self.restarts = folder, kept, fault, restarts
        self.store_faults, self.runs, self.opening_calls = 0, 0, set()
        self.calls, self.ends, self.messages = [], [], ""
        self.run, self.replies = None, []

    # ---- telling lines

    def tell(self, line, wanted):
        answer = self.run.tell(line)
        if re.fullmatch(STORE_FAULT, answer):
            self.store_faults += 1
            raise Failed
        need(re.fullmatch(wanted, answer), f"the answer to {line} is {answer}")
        return answer

    def change(self, line, wanted, effect):
        """Tells a line that makes a change."""
        self.kept.pending = effect
        answer = self.tell(line, wanted)
        self.kept.rows.update(effect)
        self.kept.pending = {}
        return answer

    def read(self, line):
        """Returns the answer to a line that may read an older material. If the disk fails in that, the line is told once more."""
        answer = self.run.tell(line)
        if not re.fullmatch(READ_FAULT, answer):
            return answer
        self.store_faults += 1
        return self.run.tell(line)

    def look(self):
        """Asks all questions, and leaves out ids of directories, marks, and whether anything was done of a re-encryption."""
        found = {}
        for question in SHOWN:
            text = re.sub(r"^dir \d+ ", "dir ID ", self.read(question))
            text = re.sub(r"^(status .*) \S+ \S+$", r"\1", text)
            found[question] = re.sub(r"^status (Submitted|Processing) ", "status going ", text)
        return found

    def settle(self):
        """After a fault of the disk: the next change settles the pending one, whatever that is answered itself."""
        for line, wanted in (("kms a delete none", "refused K4 NoSuchKey"), ("nn a delete /none", "refused N2 NoSuchPath")):
            try:
                self.tell(line, wanted)
            except Failed as failed:
                raise Ended from failed
        if self.kept.adopt(self.look()) and self.replies:
            self.replies[0] = self.replies[0][0], {}

    # ---- the steps

    def ask_and_draw(self, line, wanted, reply):
        """Returns the number of the reply, its text, and the id of the ask."""
        _, ask, new_id, *_ = self.tell(line, rf"ask \d+ \d+ {wanted}").split()
        _, number, text = self.tell(f"draw {ask}", rf"reply \d+ {reply}").split(" ", 2)
        return number, text, new_id

    def make_key(self):
        self.change(f"kms a create k 128 {MATERIALS[0]}", f"version k@0 {MATERIALS[0]}", {KEY: f"versions k@0:{MATERIALS[0]}"})
        self.tell("kms a generate k 1", r"ready k@0:\S+")

    def make_directory(self):
        effect = {it: "refused N12 NotSnapshottable" for it in [SNAPSHOT] + SNAPPED}
        self.change("nn a mkdir /z", "done", {**effect, ZONE: "dir ID - -", STATUS: "refused N8 NotAZoneRoot"})

    def make_zone(self):
        number, *_ = self.ask_and_draw("ask hdfs zone /z k", "metadata k", r"meta k 128 1 \d+")
        self.change(f"finish {number}", "done", {ZONE: "dir ID /z k", STATUS: "status None"})

    def make_file(self, question):
        path = question.split()[-1]
        number, text, new_id = self.ask_and_draw(f"ask a create {path}", "generate k", r"ready k@0:\S+")
        edek = text.split()[1]
        self.kept.deks[new_id] = self.decrypt(edek)
        self.change(f"finish {number}", "done", {question: f"file {new_id} /z {edek}"})

    def decrypt(self, edek):
        return self.tell(f"kms hdfs decrypt {edek.replace(':', ' ')}", "key [0-9a-f]{32}").split()[1]

    def allow(self):
        self.change("nn hdfs allow /z", "done", {it: "refused N14 NoSuchSnapshot" for it in [SNAPSHOT] + SNAPPED})

    def snap(self):
        rows = self.kept.rows
        self.change("nn a snap /z s", "done", {SNAPSHOT: rows[ZONE], **{new: rows[it] for it, new in zip(FILES, SNAPPED)}})

    def roll(self):
        effect = {KEY: f"versions k@0:{MATERIALS[0]} k@1:{MATERIALS[1]}"}
        self.change(f"kms a roll k {MATERIALS[1]}", f"version k@1 {MATERIALS[1]}", effect)

    def submit(self):
        number, *_ = self.ask_and_draw("ask hdfs submit /z", "generate k", r"ready k@1:\S+")
        self.change(f"finish {number}", "done", {STATUS: "status going k@1 0 0"})

    def reencrypt(self):
        """Delivers a reply that is kept, or walks on and has the batch served."""
        if self.replies:
            number, effect = self.replies[0]
            self.change(f"deliver {number}", rf"applied {len(effect) - 1} 0 0" if effect else r"ignored \d+", effect)
            self.replies = []
            return
        batch = self.change("walk /z", r"batch \d+ [12]|completed", {STATUS: self.kept.rows[STATUS].replace("going", "Completed")})
        if batch == "completed":
            return
        self.kept.rows[STATUS] = self.kept.rows[STATUS].replace("Completed", "going")
        answer = self.read(f"serve {batch.split()[1]}")
        need(re.fullmatch(r"reply \d+ ready( k@1:\S+){1,2}", answer), f"the answer to the batch is {answer}")
        _, number, _, *edeks = answer.split()
        self.replies = [(number, self.delivery(edeks))]

    def delivery(self, edeks):
        """What changes if these encrypted keys are delivered. Their vectors say whose they are."""
        effect = {}
        for edek in edeks:
            vector = edek.split(":")[1]
            (question,) = [it for it in FILES if f":{vector}:" in self.kept.rows[it]]
            effect[question] = self.kept.rows[question].rsplit(" ", 1)[0] + " " + edek
        words = self.kept.rows[STATUS].split()
        return {**effect, STATUS: f"status going k@1 {int(words[3]) + len(effect)} 0"}

    def next_step(self):
        """The first step that is not done by what is kept, or None."""
        rows = self.kept.rows
        if rows[KEY].startswith("refused"):
            return self.make_key
        if rows[ZONE].startswith("refused"):
            return self.make_directory
        if rows[ZONE] == "dir ID - -":
            return self.make_zone
        for question in FILES:
            if rows[question].startswith("refused"):
                return lambda: self.make_file(question)
        steps = [
            (rows[SNAPSHOT].startswith("refused N12"), self.allow),
            (rows[SNAPSHOT].startswith("refused"), self.snap),
            ("k@1" not in rows[KEY], self.roll),
            (rows[STATUS] == "status None", self.submit),
            (rows[STATUS].startswith("status going"), self.reencrypt),
        ]
        return next((step for is_next, step in steps if is_next), None)

    # ---- runs

    def open(self, fault):
        self.run, self.replies = Run(self.folder, fault), []
        self.runs += 1
        # Once a question is answered that reads nothing, the start is over.
        self.run.tell(ZONE)
        self.note_opening(0)
        self.kept.adopt(self.look())
        for service in ("kms", "nn") if self.restarts and self.runs == 1 else ():
            before = len(self.run.calls())
            self.run.tell(f"restart {service}")
            self.note_opening(before)

    def note_opening(self, before):
        self.opening_calls |= set(range(before + 1, len(self.run.calls()) + 1))

    def play(self, until):
        """Goes on until all steps are done, or until this holds of what is kept."""
        while (step := self.next_step()) and not until(self.kept.rows):
            try:
                step()
            except Failed:
                self.settle()

    def finish(self, until=lambda rows: False):
        """Does the whole script, in as many runs as it takes."""
        try:
            self.open(self.fault)
            self.play(until)
        except Ended:
            self.close()
            self.open(Fault())
            self.play(until)
        self.close()

    def close(self):
        """Ends a run, and keeps its status, its last line, and of the first one the calls."""
        self.ends.append(self.run.end())
        if self.runs == 1:
            self.calls = self.run.calls()
            with open(self.run.messages, encoding="utf-8") as messages:
                self.messages = messages.read()


# ---- what is looked at in the end


def check_logs(folder, kept, most_completed=1):
    """Reads both logs: by logs.py, and by headline.py with the keys that were noted."""
    for name in ("keys.log", "names.log"):
        before, sys.argv[1:] = sys.argv[1:], [f"{folder}/{name}"]
        try:
            with contextlib.redirect_stdout(io.StringIO()) as out:
                runpy.run_path(LOGS, run_name="__main__")
        except SystemExit as end:
            raise Wrong(f"{name} by logs.py: {end}") from end
        finally:
            sys.argv[1:] = before
        need(out.getvalue().splitlines()[-1] == f"end {os.path.getsize(f'{folder}/{name}') - 1}", f"{name} does not end by logs.py")
    try:
        keys = headline.read_log(folder, "keys.log", b"HKMSKEY1", headline.Keys())
        names = headline.read_log(folder, "names.log", b"HKMSNAM1", headline.Names())
        ledger = {int(it): bytes.fromhex(kept.deks[it]) for it in (kept.rows[question].split()[1] for question in FILES)}
        headline.check_apart(names, ledger)
        opened, lost = headline.count_opened(keys, names, ledger)
        completed = headline.count_completed(keys, names)
    except headline.Wrong as wrong:
        raise Wrong(f"the logs by headline.py: {wrong}") from wrong
    is_whole = (opened, lost) == (3, 0) and 1 <= completed <= most_completed
    need(is_whole, f"headline.py opens {opened} files, and sees {completed} re-encryptions completed")


def check_answers(folder, kept):
    """Starts the program once more: it shows all, and each file opens to its key, live under the new version."""
    script = Script(folder, kept)
    script.open(Fault())
    need(script.next_step() is None, "the script is not done")
    for question in FILES + SNAPPED:
        _, number, _, edek = kept.rows[question].split()
        need(script.decrypt(edek) == kept.deks[number], f"{question} opens to another key")
        need(question in SNAPPED or edek.startswith("k@1:"), f"{question} is on {edek}")
    script.close()
    need(script.ends == [(0, "")], f"the last run ends with {script.ends}")


def is_absorbed(fault, call):
    """Whether a call that fails so is tried again, unseen."""
    return fault.kind == "EINTR" or fault.kind == "short" and call.result > 0


def check_ends(script, fault, call, is_opening):
    """How the run with the fault went: its end, what it answered, and what it said on standard error."""
    status, last = script.ends[0]
    need(script.ends[1:] in ([], [(0, "")]), f"the next run ends with {script.ends[1:]}")
    if fault.kind in KILLS:
        need((status, last) == (-9, ""), f"killed it ends with {status} and {last}")
        return
    if is_absorbed(fault, call):
        need((script.ends, script.store_faults) == ([(0, "")], 0), f"it ends with {script.ends} after {script.store_faults} store faults")
        return
    if is_opening:
        need((status, last, script.store_faults) == (5, "store fault", 0), f"it ends with {status} and {last}")
    else:
        need((status, last) == (0, "") and script.store_faults > 0, f"it ends with {status} and {last}")
    what = "" if call.name in ("open", "lock") or call.file == "." else f"{call.file}: {call.name} failed: "
    need(f"hkms: {what}" in script.messages, f"it says on standard error: {script.messages}")


def check_case(case):
    """Plays a script with a fault in a folder of its own. Returns what is wrong, or nothing."""
    name, base, fault, call, is_opening = case
    folder = f"{FOLDER}/{name}-{fault.kind}-{fault.at}"
    signal.alarm(SECONDS)
    try:
        kept = begin(folder, base)
        script = Script(folder, kept, fault, restarts=base is not None)
        script.finish()
        faults = [it for it, made in enumerate(script.calls, 1) if made.is_fault]
        need(faults == [fault.at], f"calls that failed: {faults}")
        check_ends(script, fault, call, is_opening)
        check_answers(folder, kept)
        check_logs(folder, kept)
    except (Wrong, Ended, Failed) as wrong:
        return f"{name}, {call.name} of {call.file} (call {fault.at}) with {fault.kind}: {wrong or type(wrong).__name__}"
    finally:
        signal.alarm(0)
    shutil.rmtree(folder)
    return ""


def is_late(*_):
    raise Wrong("it takes too long")


def begin(folder, base):
    """Makes a folder, as a copy if there is a base, and returns what is kept in it."""
    if base is None:
        os.mkdir(folder)
        with open(f"{folder}/kms-acls.properties", "w", encoding="ascii") as file:
            file.write(PROPERTIES)
        return nothing_kept()
    shutil.copytree(base[0], folder)
    return Kept(dict(base[1].rows), {}, dict(base[1].deks))


def faults_of(calls):
    """Each fault that a call can have."""
    for at, call in enumerate(calls, 1):
        is_log = call.file != "."
        kinds = {"EIO": True, "ENOSPC": True, "stop": True, "power": True}
        kinds["EINTR"] = is_log and call.name in ("read", "write", "sync", "cut")
        kinds["short"] = call.name == "write" or call.name == "read" and call.result > 1
        kinds["torn"] = call.name == "write"
        kinds["lost"] = is_log and call.name == "sync"
        yield from ((Fault(at, kind), call) for kind, is_one in kinds.items() if is_one)


def cases_of(name, base):
    """The cases of a script: those of each of its calls, and with a base those of the start and the restarts."""
    folder = f"{FOLDER}/{name}"
    script = Script(folder, begin(folder, base), restarts=base is not None)
    script.finish()
    need(script.ends == [(0, "")], f"without a fault it ends with {script.ends}")
    for fault, call in faults_of(script.calls):
        is_opening = fault.at in script.opening_calls
        if base is None or is_opening:
            yield name, base, fault, short_of(fault, call), is_opening


def short_of(fault, call):
    """The call as it is reported when it fails so."""
    return Call(call.name, call.file, call.result // 2, True) if fault.kind == "short" else call


def broken_off():
    """A folder in which the script was broken off after the first delivery, and what is kept in it."""
    folder = f"{FOLDER}/broken"
    script = Script(folder, begin(folder, None))
    script.finish(lambda rows: any("k@1" in rows[it] for it in FILES))
    return folder, script.kept


# ---- that the check can fail


def spoil(name, cut, folder, at):
    """Changes the byte of a log at an offset from its end, or cuts the log there."""
    with open(f"{folder}/{name}", "rb") as file:
        data = file.read()
    data = data[:at] + b"\x00" if cut else data[:at] + bytes([data[at] ^ 1]) + data[at + 1 :]
    with open(f"{folder}/{name}", "wb") as file:
        file.write(data)


def find_spoilt():
    """Copies of the logs of a whole script with a fault in them: each must be found. Returns those that are not."""
    folder, missed = f"{FOLDER}/whole", []
    script = Script(folder, begin(folder, None))
    script.finish()
    check_answers(folder, script.kept)
    check_logs(folder, script.kept)
    ends = {it: os.path.getsize(f"{folder}/{it}") for it in ("keys.log", "names.log")}
    # Before the last opening, of 10 bytes, and the end byte are the material of the roll, and a completion of 14 bytes after a delivery.
    keys_end, names_end = (ends[it] - 11 for it in ("keys.log", "names.log"))
    spoilt = [("keys.log", False, keys_end - 1), ("names.log", False, names_end - 15), ("names.log", True, names_end - 14)]
    for number, (name, cut, at) in enumerate(spoilt):
        copy = f"{FOLDER}/spoilt-{number}"
        for check in (check_answers, check_logs):
            kept = begin(copy, (folder, script.kept))
            spoil(name, cut, copy, at)
            try:
                check(copy, kept)
                missed.append(f"{name} spoilt at {at} is not found by {check.__name__}")
            except (Wrong, Ended):
                pass
            shutil.rmtree(copy)
    return missed


def main():
    signal.signal(signal.SIGALRM, is_late)
    failures = find_spoilt()
    cases = list(cases_of("new", None)) + list(cases_of("old", broken_off()))
    kinds = Counter(it[2].kind for it in cases)
    if len(cases) < 500 or len(kinds) < 8:
        failures.append(f"only {len(cases)} cases: {dict(kinds)}")
    with multiprocessing.Pool(os.cpu_count()) as pool:
        failures += [it for it in pool.imap_unordered(check_case, cases, chunksize=4) if it]
    for failure in failures[:10]:
        print(f"tests/system_faults.py: {failure}")
    return 1 if failures else 0


if __name__ == "__main__":
    sys.exit(main())
