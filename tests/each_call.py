"""One script of both services, stopped and failed at each call in turn: each_call.py PROGRAM FOLDER

PROGRAM is hkms_trial. The script makes a key, a directory, a zone and files, takes a snapshot, rolls the key and has the zone
re-encrypted, with a restart of both services between its batches; then it undoes things. Its draws are fixed. Four tables:

- stops: the disk stops at each call, and the program is started again on each image that a crash may leave;
- faults: each call of the disk fails once, and in a shorter script each two of them;
- sources: each read of the input and of the properties and each write of the output fails, under `replay` and under `pipe`;
- bytes: each of both logs cut at each length, and each byte of them set to 255.

What is expected is not the program's: world_model.py says what each event may be answered, and which states are possible then. Each image
must have one of these, by the answers of the program that is started on it and by headline.py from the bytes of both logs; and each file
in it, live or in a snapshot, must open to the key that was drawn for it when it was made, by the program and by the cipher of
ready_reports.py. Which changed logs are damaged, and where, says headline.py.
"""

import multiprocessing
import os
import sys
from functools import partial

import headline
import inner_zones
import world_model
from failing_ends import check_sources, outputs_of, transcript, try_sources
from possible_worlds import Moment, Wrong, answers_of, check_image, edek_text, is_fault, last_moment, mark_of, need, read_logs, there_by_bytes
from trial_runs import Report, Run, read_reports, run_trial, text_of
from whole_script import QUESTIONS, SHORT, WHOLE, events_of
from world_model import World


def check_report(report, events, kind, faults):
    """What is wrong with a report of stops or failures, or nothing."""
    try:
        moment = last_moment(report.first, events, kind, faults)
        need(report.images, "no image")
        for image in report.images:
            check_image(image, moment)
    except Wrong as wrong:
        return f"call {' and '.join(map(str, report.calls))}: {wrong}"
    return ""


# ---- stops and faults of the disk


def disk_trial(fault, call, script):
    """The report of a script with a stop or a failure at a call of the disk."""
    text = run_trial([f"{fault} disk {call}", "images"], text_of([*script.splitlines(), *QUESTIONS]), text_of(QUESTIONS))
    return read_reports(text.decode(), (call,))[0]


def count_calls(script):
    text = run_trial(["calls"], text_of([*script.splitlines(), *QUESTIONS]))
    return read_reports(text.decode(), ())[0].first.calls


def events_on_disk():
    """The events of the whole script, counted from 0, whose records are written if nothing fails, and those that read materials."""
    world, written, reading = World(), [], []
    for number, line in enumerate(events_of(WHOLE)):
        words = line.split(" ")
        reading += [number] * len(read := world.materials_read(words))
        after, _ = world.after_reads(read).answered(number + 1, words)
        if world.kept_on_disk() != after.kept_on_disk():
            written.append(number)
        world = after
    return written, reading


def try_call(fault, call):
    """Stops or fails a call of the disk in the whole script. Returns what is wrong, the answers and the number of images."""
    report = disk_trial(fault, call, WHOLE)
    return check_report(report, events_of(WHOLE) + QUESTIONS, fault, 1), report.first.answers, len(report.images)


# A start makes 16 calls of the disk, a change 4, and the read of a material one. A change whose last call fails is found in the log when it
# is settled.
START, CHANGE = 16, 4


def find_whole_wrong(fault, tried):
    """What is wrong with the stops or the failures of all calls: each change and each read must be refused by those of its own calls."""
    wrong = [it for it, *_ in tried if it]
    refused = {}
    for _, answers, _ in tried[START:]:
        first = next((place for place, it in enumerate(answers) if is_fault(it)), None)
        refused.setdefault(first, []).append(answers)
    if any(answers for _, answers, _ in tried[:START]) or [] in [it[1] for it in tried[START:]]:
        wrong.append(f"{fault}: a start does not make {START} calls")
    written, reading = events_on_disk()
    for event in reading:
        if (count := len(refused.pop(event, []))) != 1:
            wrong.append(f"{fault}: event {event + 1} is refused by {count} calls, and reads one material")
    if len(reading) < 2:
        wrong.append(f"{fault}: only {len(reading)} materials are read")
    for event in written:
        answers = refused.get(event, [])
        if len(answers) != CHANGE or fault == "fail" and not answers[0] == answers[1] == answers[2] != answers[3]:
            wrong.append(f"{fault}: event {event + 1} is refused by {len(answers)} calls, with {len(set(map(tuple, answers)))} ends")
    images = sum(it for *_, it in tried)
    if images < len(tried) * (2 if fault == "stop" else 1):
        wrong.append(f"{fault}: only {images} images")
    return wrong


def try_pairs(call):
    """Fails a call of the disk in the short script, and each later one beside it."""
    head = [f"fail disk {call}", "each fail disk", "images"]
    text = run_trial(head, text_of([*SHORT.splitlines(), *QUESTIONS]), text_of(QUESTIONS))
    reports = [it for it in read_reports(text.decode(), (call,)) if it.calls[1] > call]
    events = events_of(SHORT) + QUESTIONS
    return [it for it in (check_report(it, events, "fail", 2) for it in reports) if it], len(reports)


# ---- the bytes of both logs


class Found(World):
    """The world that both logs have."""

    def __init__(self, keys, names):
        super().__init__()
        self.keys = {it.name: world_model.Key(0, it.materials) for it in keys.by_birth.values() if not it.is_deleted}
        self.rows = {tuple(map(bytes.decode, path)): row for path, row in names.rows.items()}
        self.snapshots = {
            number: {name.decode(): {tuple(map(bytes.decode, path)): row for path, row in rows.items()} for name, rows in taken.items()}
            for number, taken in names.snapshots.items()
        }
        self.statuses = {zone: self.status_of(it) for zone, it in names.statuses.items()}

    @staticmethod
    def status_of(it):
        noted = world_model.Edek(0, it.key, it.noted)
        return inner_zones.Status(it.session, noted, it.there, it.changed, it.failed, mark_of(it), it.is_completed, it.is_cancelled)

    def shown_text(self, part):
        return edek_text(part) if isinstance(part, headline.Edek) else super().shown_text(part)


def with_end(log):
    """A log as a start leaves it that finds it damaged: its end byte may have been set to 0."""
    at = 8
    while at < len(log) and log[at] == 1:
        at += 5 + int.from_bytes(log[at + 1 : at + 5], "big")
    return log[:at] + b"\0" + log[at + 1 :]


def check_bytes(files, run):
    """What the program makes of two logs is what headline.py makes of them."""
    tables = read_logs(files)
    for place, (name, (_, damage)) in enumerate(zip(("keys", "names"), tables)):
        if damage is not None:
            need((run.status, run.lines) == (4, [f"damaged {name} {damage}"]), f"status {run.status} and {run.lines[-1:]}, and not {name} {damage}")
            need(run.files[place] in (files[place], with_end(files[place])), f"the damaged log of {name} was changed")
            return
    (keys, _), (names, _) = tables
    wanted = answers_of(Found(keys, names), QUESTIONS)
    need((run.status, run.answers) == (0, wanted), f"status {run.status} and {run.answers}, and not {wanted}")
    after = [table for table, damage in read_logs(run.files) if damage is None]
    need(len(after) == 2 and there_by_bytes(*after) == there_by_bytes(keys, names), "the logs have something else after a start")


def changed_logs(files):
    """Both logs, one of them cut or with a byte changed, and how."""
    for place, log in enumerate(files):
        for at, byte in enumerate(log):
            changes = {f"cut after {at} bytes": log[:at]}
            changes |= {f"{it} in place of {byte} at {at}": log[:at] + bytes([it]) + log[at + 1 :] for it in {255, byte ^ 1} - {byte}}
            for what, changed in changes.items():
                yield f"{('keys', 'names')[place]}.log, {what}", (changed, files[1]) if place == 0 else (files[0], changed)


def run_on(files):
    """A run over two logs that asks all questions."""
    head = [f"{name} {log.hex() or '-'}" for name, log in zip(("keys", "names"), files)]
    return read_reports(run_trial([*head, "files"], text_of(QUESTIONS)).decode(), ())[0].first


def try_bytes(case):
    what, files = case
    try:
        check_bytes(files, run_on(files))
    except Wrong as wrong:
        return f"{what}: {wrong}"
    return ""


def logs_of(script):
    """Both logs after a script."""
    return read_reports(run_trial(["files"], script).decode(), ())[0].first.files


# ---- that the checks can fail


def is_found(check, *arguments):
    """Whether a check finds something wrong."""
    try:
        return bool(check(*arguments))
    except Wrong:
        return True


def with_answer(run, place, answer):
    """A run with another answer, or without one."""
    lines = run.lines[:place] + ([f"{place + 1} {answer}"] if answer else []) + run.lines[place + 1 :]
    return Run(lines, run.status, run.calls, run.files)


def with_byte(log, at):
    return log[:at] + bytes([log[at] ^ 1]) + log[at + 1 :]


def with_other_key(moment, draw):
    """A moment whose ledgers have another key for the file of a draw."""
    key = world_model.key_of(draw)
    found = Moment(moment.worlds, "stop")
    found.left = [
        (answers, there, {number: with_byte(it, 0) if it == key else it for number, it in ledger.items()})
        for answers, there, ledger in moment.after_restart()
    ]
    return found


def spoilt_reports():
    """Reports of a stop that were changed in one place, each with what was changed."""
    events = events_of(WHOLE) + QUESTIONS
    calls = count_calls(WHOLE)
    report, early = disk_trial("stop", calls, WHOLE), disk_trial("stop", calls // 2, WHOLE)
    (image, *_), answers = report.images, report.first.answers
    acknowledged = max(it for it in events_on_disk()[0] if not is_fault(answers[it]))
    yield "an acknowledged line that is left out", Report(report.calls, with_answer(report.first, acknowledged, ""), report.images)
    yield "an event that is refused", Report(report.calls, with_answer(report.first, acknowledged, "refused N2 NoSuchPath"), report.images)
    yield "an image of before", Report(report.calls, report.first, early.images)
    yield "no image", Report(report.calls, report.first)
    place = next(it for it, line in enumerate(QUESTIONS) if image.answers[it].startswith("file "))
    opens = next(it for it, answer in enumerate(image.answers) if answer.startswith("key "))
    for name, at in (("a file of an image", place), ("a key of an image", opens)):
        digit = image.answers[at][-1]
        other = with_answer(image, at, image.answers[at][:-1] + ("0" if digit != "0" else "1"))
        yield name, Report(report.calls, report.first, [other])
    keys, names = image.files
    sealed = names.index(bytes.fromhex(image.answers[place].split(":")[2]))
    for name, files in (("a sealed key", (keys, with_byte(names, sealed))), ("a material", (with_byte(keys, len(keys) // 2), names))):
        yield f"{name} in a log of an image", Report(report.calls, report.first, [Run(image.lines, image.status, 0, files)])
    need(len(events) == len(answers), "the run is not whole")


def find_missed():
    """What must be found and is not."""
    events, missed = events_of(WHOLE) + QUESTIONS, []
    missed += [what for what, report in spoilt_reports() if not is_found(check_report, report, events, "stop", 1)]
    calls = count_calls(WHOLE)
    report = disk_trial("stop", calls, WHOLE)
    moment = last_moment(report.first, events, "stop", 1)
    check_image(report.images[0], moment)
    if not is_found(check_image, report.images[0], with_other_key(moment, 1)):
        missed.append("another key of a file")
    report = disk_trial("fail", calls, WHOLE)
    if not is_found(check_report, report, events, "fail", 0):
        missed.append("a refusal too many")
    outputs = outputs_of("replay", "input", transcript()[0])
    spoilt = [(status, output.replace(" done\n", " gone\n")) for status, output in outputs]
    for name, other in (("another answer", spoilt), ("another status", [(0, it) for _, it in outputs]), ("a read too few", outputs[1:])):
        if not is_found(check_sources, "replay", "input", other):
            missed.append(f"{name} before a read that fails")
    files = logs_of(WHOLE)
    run = run_on(files)
    check_bytes(files, run)
    for name, other in (("a damaged log", (files[0], files[1][:-1])), ("another log", logs_of(SHORT))):
        if not is_found(check_bytes, other, run):
            missed.append(f"{name} that is read as a whole one")
    return [f"{it} is not found to be wrong" for it in missed]


# ---- all tables


def find_wrong():
    """What is wrong in any of the tables."""
    wrong = find_missed()
    calls, pairs = count_calls(WHOLE), count_calls(SHORT)
    with multiprocessing.Pool(os.cpu_count()) as pool:
        for fault in ("stop", "fail"):
            wrong += find_whole_wrong(fault, pool.map(partial(try_call, fault), range(1, calls + 1)))
        tried = pool.map(try_pairs, range(1, pairs + 1), chunksize=1)
        wrong += [it for found, _ in tried for it in found]
        sources = [(command, part) for command in ("replay", "pipe") for part in ("input", "properties", "output")]
        wrong += [it for it in pool.starmap(try_sources, sources, chunksize=1) if it]
        cases = list(changed_logs(logs_of(WHOLE)))
        wrong += [it for it in pool.map(try_bytes, cases, chunksize=32) if it]
    count = sum(it for _, it in tried)
    if calls < 110 or count < 500 or len(cases) < 2000:
        wrong.append(f"only {calls} calls, {count} pairs and {len(cases)} changed logs")
    return wrong


def main():
    try:
        wrong = find_wrong()
    except Wrong as failed:
        wrong = [str(failed)]
    for it in wrong[:10]:
        print(f"tests/each_call.py: {it}")
    return 1 if wrong else 0


if __name__ == "__main__":
    sys.exit(main())
