"""Inputs cut short, at each STEP-th length: cuts.py PROGRAM FOLDER STEP

Scripts of tests/scripts are the inputs of `replay` and of `pipe`, and texts of `kms-acls.properties`. Each is given to the program up to
one of its bytes. The status and the last line are those of docs/event-text.md, docs/rest.md and docs/acls.md: by line_model.py, by the
ends of the requests, and by properties_model.py. The output before it is a prefix of what the whole input gives; but a line that is cut
short may be another event, and is answered then. Verdicts are those of the lists that are left. Afterwards both logs are whole by
headline.py, and the program opens them again.
"""

import multiprocessing
import os
import re
import shutil
import subprocess
import sys

import headline
import line_model
import properties_model

PROGRAM, FOLDER, STEP = *sys.argv[1:3], int(sys.argv[3])
SCRIPTS = os.path.join(os.path.dirname(os.path.abspath(__file__)), "scripts")
LINES = ["what-a-rename-takes-along", "a-zone-with-a-snapshot-is-re-encrypted"]
REQUESTS = ["http-each-route", "http-bodies-at-fault"]
LISTS = ["acls-users-and-groups", "tickets-are-for-the-queue-with-the-fewest-keys", "acl-group"]
PEOPLE = [b"alice", b"bob", b"carol", b"hdfs"]
TABLES = {"keys.log": (b"HKMSKEY1", headline.Keys), "names.log": (b"HKMSNAM1", headline.Names)}


class Wrong(Exception):
    """What the program did against the pages."""


def need(holds, why):
    if not holds:
        raise Wrong(why)


def read(name):
    with open(f"{SCRIPTS}/{name}", "rb") as file:
        return file.read()


def run(folder, command, data):
    """Runs the program. Returns its status and its output."""
    ran = subprocess.run([PROGRAM, command], cwd=folder, input=data, capture_output=True, check=False, timeout=60)
    need(not ran.stderr, f"it says on standard error: {ran.stderr[-200:]}")
    return ran.returncode, ran.stdout


def masked(text):
    return re.sub(rb"[0-9a-f]{32}", b"H", text)


def check_logs(folder):
    """Both logs are whole, and the program opens them again."""
    for name, (magic, table) in TABLES.items():
        try:
            headline.read_log(folder, name, magic, table())
        except headline.Wrong as wrong:
            raise Wrong(f"by headline.py: {wrong}") from wrong
    status, output = run(folder, "replay", b"kms hdfs names\nnn hdfs list /\n")
    need(status == 0 and output.count(b"\n") == 2, f"the next run ends with {status} and {output[-200:]}")


# ---- the three kinds of inputs. Each has what its whole input gives, and a check of a cut.


def whole_lines(name):
    data = read(f"{name}.events")
    answers = next(f"{name}.{it}" for it in ("answers", "masked") if os.path.exists(f"{SCRIPTS}/{name}.{it}"))
    *lines, end = read(answers).splitlines(keepends=True)
    need(end.strip() == b"status 0", f"{name} ends with {end}")
    return data, lines


def check_lines(folder, data, lines, size):
    """The first lines are answered as in the whole input, and one that is cut short by its form, if it is an event."""
    cut = data[:size]
    forms, bad = line_model.played(cut)
    status, output = run(folder, "replay", cut)
    answers = output.splitlines(keepends=True)
    if bad is not None:
        need(answers and answers.pop() == b"line %d refused\n" % bad, f"line {bad} should be refused: {output[-200:]}")
    need(status == (0 if bad is None else 3) and len(answers) == len(forms), f"status {status}, {len(answers)} answers")
    is_short = data[size - 1 : size + 1].count(b"\n") == 0 and 0 < size < len(data)
    same = len(answers) - (is_short and bad is None and not line_model.is_quiet(cut.split(b"\n")[-1]))
    need([masked(it) for it in answers[:same]] == [masked(it) for it in lines[:same]], f"the answers are {output[-200:]}")
    for answer, form in zip(answers[same:], forms[same:]):
        need(form.fullmatch(answer.strip().partition(b" ")[2]), f"no form of an answer: {answer}")


def whole_requests(name):
    """An input, with the ends of its requests and the responses."""
    data, output, ends, at = read(f"{name}.http"), read(f"{name}.responses"), [0], 0
    while at < len(data):
        head = re.search(rb"\n\r?\n", data[at:]).end()
        length = re.search(rb"(?i)\ncontent-length: *(\d+)", data[at : at + head])
        at += head + (int(length[1]) if length else 0)
        ends.append(at)
    responses = re.split(rb"(?=HTTP/1\.1 )", output.removesuffix(b"status 0\n"))[1:]
    need(ends[-1] == len(data) and len(responses) == len(ends) - 1, f"{name} has {len(ends) - 1} requests, {len(responses)} responses")
    return data, (ends, responses)


def check_requests(folder, data, whole, size):
    """Each whole request is answered, and what is left of the next one is not."""
    ends, responses = whole
    status, output = run(folder, "pipe", data[:size])
    count = sum(it <= size for it in ends) - 1
    wanted = b"".join(responses[:count])
    need(status == (0 if size in ends else 3), f"the status is {status}")
    need(masked(output).rstrip(b"\n") == masked(wanted).rstrip(b"\n"), f"the output is {output[-200:]} in place of {wanted[-200:]}")


def whole_lists(name):
    """A text, and users with whom they are judged to be."""
    return read(f"{name}.properties"), {it: it for it in PEOPLE}


def line_of(call, user):
    material = b"2b7e151628aed2a6abf7158809cf4f3c"
    forms = {"create": b"create k 128 -", "create with material": b"create k 128 " + material, "names": b"names"}
    forms |= {"roll": b"roll k -", "roll with material": b"roll k " + material, "generate": b"generate k 1"}
    forms |= {"decrypt": b"decrypt k@9 " + material + b" " + material}
    return b"kms " + user + b" " + forms.get(call, call.encode() + b" k") + b"\n"


def check_lists(folder, data, users, size):
    """The text is refused at its line, or its lists give the verdicts of each user that a line names."""
    with open(f"{folder}/kms-acls.properties", "wb") as file:
        file.write(data[:size])
    lists, refused = properties_model.read(data[:size])
    calls = [(call, user) for call in properties_model.CALLS for user in users]
    status, output = run(folder, "replay", b"".join(line_of(*it) for it in calls))
    os.remove(f"{folder}/kms-acls.properties")
    if refused is not None:
        need((status, output) == (3, refused.encode() + b"\n"), f"{status} and {output[-200:]} in place of {refused}")
        need(not any(os.path.getsize(f"{folder}/{it}") for it in os.listdir(folder)), "a log was written")
        return
    answers = output.decode().splitlines()
    need(status == 0 and len(answers) == len(calls), f"{status} and {output[-200:]}")
    for number, (answer, (call, user)) in enumerate(zip(answers, calls), 1):
        why = properties_model.denial(lists, users[user], call, "k")
        wanted = f"{number} refused K3 Denied {why}"
        need(answer == wanted if why else "K3" not in answer, f"{call} of {user} is answered {answer}, and the verdict is {why}")


# ---- cases

INPUTS = [(name, whole_lines, check_lines) for name in LINES]
INPUTS += [(name, whole_requests, check_requests) for name in REQUESTS]
INPUTS += [(name, whole_lists, check_lists) for name in LISTS]


def try_cut(place, size):
    """Gives the program an input up to a size. Returns what is wrong, or nothing."""
    name, make, check = INPUTS[place]
    folder = f"{FOLDER}/{place}-{size}"
    os.mkdir(folder)
    try:
        check(folder, *make(name), size)
        check_logs(folder)
    except (Wrong, subprocess.TimeoutExpired) as wrong:
        return f"{name} cut after {size} bytes: {wrong}"
    finally:
        shutil.rmtree(folder)
    return ""


def is_found(data, whole, check):
    """Whether a whole input is found to be wrong against this."""
    folder = f"{FOLDER}/changed"
    os.mkdir(folder)
    try:
        check(folder, data, whole, len(data))
    except Wrong:
        return True
    finally:
        shutil.rmtree(folder)
    return False


def find_missed():
    """What must be found and is not: another answer, another response, and the verdicts of other users."""
    changes = {
        check_lines: lambda lines: [lines[0].replace(b"version", b"done")] + lines[1:],
        check_requests: lambda whole: (whole[0], [whole[1][0].replace(b"201", b"200")] + whole[1][1:]),
        check_lists: lambda users: dict(zip(users, reversed(users))),
    }
    missed = []
    for name, make, check in {it[2]: it for it in reversed(INPUTS)}.values():
        data, whole = make(name)
        if not is_found(data, changes[check](whole), check):
            missed.append(f"{name} against something else is not found to be wrong")
    return missed


def main():
    failures = find_missed()
    cases = [(place, size) for place, (name, make, _) in enumerate(INPUTS) for size in range(len(make(name)[0]) + 1)]
    with multiprocessing.Pool(os.cpu_count()) as pool:
        failures += [it for it in pool.starmap(try_cut, cases[::STEP], chunksize=16) if it]
    for failure in failures[:10]:
        print(f"tests/cuts.py: {failure}")
    return 1 if failures else 0


if __name__ == "__main__":
    sys.exit(main())
