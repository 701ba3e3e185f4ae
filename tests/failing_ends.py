"""The input, the properties or the output fails at each call of the whole script, under `replay` and under `pipe`. What was answered
before is compared with the model of the world."""

import base64
import json
import re

from possible_worlds import Wrong, need
from trial_runs import run_trial, text_of
from whole_script import FILES, MATERIALS, PROPERTIES, QUESTIONS, WHOLE, events_of
from world_model import World

def letters(data):
    return base64.urlsafe_b64encode(data).decode().rstrip("=")


def shown_in_json(answer):
    """The body of a response to a call on keys, out of the answer of an event."""
    kind, *parts = answer.split(" ")
    if kind == "version":
        return {"material": letters(bytes.fromhex(parts[1])), "name": parts[0]}
    if kind == "key":
        return {"material": letters(bytes.fromhex(parts[0])), "name": "EK"}
    edeks = [it.split(":") for it in parts]
    sealed = [{"material": letters(bytes.fromhex(it[2])), "versionName": "EEK"} for it in edeks]
    return [
        {"encryptedKeyVersion": it, "iv": letters(bytes.fromhex(vector)), "versionName": version}
        for it, (version, vector, _) in zip(sealed, edeks)
    ]


def response_to(line, answer):
    """The bytes of the response to an event."""
    words = line.split(" ")
    is_made = words[1:3] in (["a", "create"],) or words[:2] == ["kms", "a"] and words[2] == "create"
    body = "" if answer == "done" else json.dumps(shown_in_json(answer) if words[0] == "kms" else {"answer": answer}, separators=(",", ":"))
    kind = "Content-Type: application/json\r\n" if body else ""
    return f"HTTP/1.1 {'201 Created' if is_made else '200 OK'}\r\n{kind}Content-Length: {len(body)}\r\n\r\n{body}"


ROUTES = {
    "create": "POST /kms/v1/keys?",
    "roll": "POST /kms/v1/key/k?",
    "generate": "GET /kms/v1/key/k/_eek?eek_op=generate&num_keys=1&",
    "mkdir": "POST /nn/v1/mkdir?path=%s&",
    "info": "GET /nn/v1/info?path=%s&",
    "status": "GET /nn/v1/status?path=%s&",
    "allow": "POST /nn/v1/allow?path=%s&",
    "snap": "POST /nn/v1/snapshot?path=%s&name=%s&",
    "ask create": "POST /nn/v1/create?path=%s&",
    "ask zone": "POST /nn/v1/zone?path=%s&key=%s&",
    "ask submit": "POST /nn/v1/reencrypt?path=%s&",
}


def request_of(line):
    """The bytes of the request that makes an event, or an ask with what follows it."""
    kind, user, verb, *rest = line.split(" ")
    body = ""
    if verb == "decrypt":
        route = f"POST /kms/v1/keyversion/{rest[0]}/_eek?eek_op=decrypt&"
        body = json.dumps({"name": "k", "iv": letters(bytes.fromhex(rest[1])), "material": letters(bytes.fromhex(rest[2]))})
    elif kind == "kms":
        route = ROUTES[verb]
        if verb != "generate":
            body = json.dumps({"name": "k", "length": 128, "material": letters(bytes.fromhex(rest[-1]))})
    else:
        route = ROUTES[f"ask {verb}" if kind == "ask" else verb] % tuple(rest)
    length = f"Content-Length: {len(body)}\r\n" if body else ""
    return f"{route}user.name={user} HTTP/1.1\r\n{length}\r\n{body}"


REQUESTS = [f"kms a create k 128 {MATERIALS[0]}", "kms a generate k 1", "nn a mkdir /z", "ask hdfs zone /z k"]
REQUESTS += [f"ask a create /z/{it}" for it in "abc"]
REQUESTS += ["nn hdfs allow /z", "nn a snap /z s", f"kms a roll k {MATERIALS[1]}", "ask hdfs submit /z", "nn hdfs status /z"]
REQUESTS += [it for it in FILES if not it.endswith("d")]


class Conversation:
    """The requests and the responses of a connection, by the model."""

    def __init__(self):
        self.world, self.requests, self.responses = World(), [], []

    def play(self, line):
        self.world, answer = self.world.answered(len(self.requests) + 1, line.split(" "))
        return answer

    def ask(self, line):
        """An ask with its draw and its finish, and of a submission all batches."""
        self.play(line)
        answer = [self.play(f"draw {len(self.world.asks)}"), self.play(f"finish {len(self.world.replies) + 1 - 1}")][-1]
        while " submit " in line and self.play("walk /z") != "completed":
            self.play(f"serve {len(self.world.batches)}")
            self.play(f"deliver {len(self.world.replies)}")
        return answer

    def add(self, line):
        answer = self.ask(line) if line.startswith("ask ") else self.play(line)
        self.requests.append(request_of(line))
        self.responses.append(response_to(line, answer))
        return answer


def conversation():
    talk = Conversation()
    edeks = [it.split(" ")[3] for it in map(talk.add, REQUESTS) if it.startswith("file ")]
    for edek in edeks:
        talk.add("kms a decrypt " + edek.replace(":", " "))
    return talk.requests, talk.responses


def transcript():
    """The lines of the whole script, and the answers after each of them."""
    world, answers, number = World(), [], 0
    lines = [*WHOLE.splitlines(), *QUESTIONS]
    for line in lines:
        text = ""
        if line in events_of(line):
            number += 1
            world, answer = world.answered(number, line.split(" "))
            text = f"{number} {answer}\n"
        answers.append(text)
    return [f"{it}\n" for it in lines], answers


READ, WRITE = 16, 24


def outputs_of(command, part, pieces):
    """The status and the output of each run of a sweep."""
    head = [f"command {command}", f"read {READ}", f"write {WRITE}", f"each fail {part}", *["calls"] * (part == "properties")]
    parts = re.split(rb"(?m)^call (\d+)\n", run_trial(head, "".join(pieces)))
    need(list(map(int, parts[1::2])) == list(range(1, len(parts) // 2 + 1)), "a call is left out")
    # No call of the disk is made before the properties are read.
    ends = [re.fullmatch(rb"(.*?)\n?status (\d)\n(calls 0\n)?", it, re.S) for it in parts[2::2]]
    need(all(ends), "the disk was used")
    return [(int(it[2]), it[1].decode()) for it in ends]


def written_before(pieces, answers, size):
    """What is answered if so many bytes of the input were read."""
    done, text = 0, ""
    for piece, answer in zip(pieces, answers):
        done += len(piece)
        text += answer if done <= size else ""
    return text


def written_before_each_write(answers):
    """What the output has before each write, of which none takes more than a piece of one answer."""
    written = ""
    for answer in answers:
        for start in range(0, len(answer), WRITE):
            yield written + answer[:start]
        written += answer


def wanted_outputs(command, part, pieces, answers):
    """The status and the output if each read or write fails in turn."""
    if part == "output":
        return [(8, it) for it in written_before_each_write(answers)]
    last = "read fault" if command == "replay" else ""
    size = len("".join(pieces) if part == "input" else text_of(PROPERTIES))
    # The last read finds the end.
    reads = -(-size // READ) + 1
    return [(7, (written_before(pieces, answers, call * READ) if part == "input" else "") + last) for call in range(reads)]


def check_sources(command, part, outputs):
    """What is wrong with the outputs of a sweep, or nothing."""
    pieces, answers = transcript() if command == "replay" else conversation()
    wanted = wanted_outputs(command, part, pieces, answers)
    if len(outputs) != len(wanted):
        return f"{command}: {len(outputs)} calls of the {part}, and not {len(wanted)}"
    for call, ((status, output), (other, text)) in enumerate(zip(outputs, wanted), 1):
        if (status, output.rstrip("\n")) != (other, text.rstrip("\n")):
            return f"{command}, call {call} of the {part}: {status} after {output[-200:]}, and not {other} after {text[-200:]}"
    return ""


def try_sources(command, part):
    pieces, _ = transcript() if command == "replay" else conversation()
    try:
        return check_sources(command, part, outputs_of(command, part, pieces))
    except Wrong as wrong:
        return f"{command}, {part}: {wrong}"
