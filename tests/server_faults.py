"""`hkms serve` with a fault at each call on the logs in turn: server_faults.py PROGRAM LIBRARY FOLDER

A client makes a key, a directory, a zone, three files, a snapshot and a roll, and has the zone re-encrypted, which the server
does in the background. A request that is answered by a StoreFault is made again. If the server serves on after the fault, the
re-encryption is completed, and no file has failed. Once the server has ended, with the status that docs/operations.md says, it is started
again without a fault. What was answered must be there, and the client goes on. In the end both logs are read as system_faults.py reads them.
"""

import base64
import contextlib
import http.client
import json
import multiprocessing
import os
import random
import shutil
import signal
import socket
import subprocess
import sys
import time
from collections import Counter
from urllib.parse import quote

import system_faults
from system_faults import FOLDER, KILLS, LIBRARY, MATERIALS, PROGRAM, SECONDS, Call, Fault, Kept, Wrong, need

FILES = ["/z/f1", "/z/f2", "/z/f3"]
KINDS = ["EIO", "torn", "lost", "stop", "power"]
COMPLETED = "status Completed k@1 3 0 no f3"
STEPS = {
    "key": ("/kms/v1/keys", "KeyExists"),
    "directory": ("/nn/v1/mkdir?path=/z", "Exists"),
    "zone": ("/nn/v1/zone?path=/z&key=k", "AlreadyInZone"),
    **{path: (f"/nn/v1/create?path={path}", "Exists") for path in FILES},
    "allow": ("/nn/v1/allow?path=/z", None),
    "snapshot": ("/nn/v1/snapshot?path=/z&name=s", "SnapshotExists"),
    "roll": ("/kms/v1/key/k", None),
    "re-encryption": ("/nn/v1/reencrypt?path=/z", "AlreadySubmitted"),
}


class Lost(Exception):
    """The server gave no answer, or takes no more changes."""


def free_port():
    """A port that nobody has, and that no client gets: those of clients are higher."""
    while True:
        port = random.randrange(10_000, 32_000)
        with socket.socket() as free, contextlib.suppress(OSError):
            free.bind(("127.0.0.1", port))
            return port


def base64_of(text):
    return base64.urlsafe_b64encode(bytes.fromhex(text)).decode().rstrip("=")


BODIES = {"key": {"name": "k", "length": 128, "material": base64_of(MATERIALS[0])}, "roll": {"material": base64_of(MATERIALS[1])}}


class Server:
    """A server for one connection, and the client of that."""

    def __init__(self, folder, fault):
        self.report = f"{folder}.report"
        if os.path.exists(self.report):
            os.remove(self.report)
        port = free_port()
        more = {"LD_PRELOAD": LIBRARY, "FAULT_AT": str(fault.at), "FAULT_KIND": fault.kind, "FAULT_REPORT": self.report}
        self.process = subprocess.Popen(
            [PROGRAM, "serve", "--port", str(port), "--conns", "1"],
            cwd=folder,
            env=dict(os.environ, **more),
            stdout=subprocess.PIPE,
            stderr=subprocess.PIPE,
            text=True,
        )
        self.messages = self.process.stderr.readline()
        self.is_listening = "listening" in self.messages
        self.opening = len(self.calls())
        self.connection = http.client.HTTPConnection("127.0.0.1", port, timeout=SECONDS)

    def calls(self):
        """The calls on the logs, by their numbers."""
        with open(self.report, encoding="ascii") as lines:
            fields = sorted((line.split() for line in lines), key=lambda it: int(it[0]))
        return [Call(it[1], it[2], int(it[3]), len(it) > 4) for it in fields]

    def ask(self, method, target, body=None):
        """Returns the status and the answer to a request."""
        try:
            path = f"{target}{'&' if '?' in target else '?'}user.name=hdfs"
            self.connection.request(method, path, None if body is None else json.dumps(body))
            response = self.connection.getresponse()
            text = response.read()
        except (OSError, http.client.HTTPException) as lost:
            raise Lost from lost
        return response.status, json.loads(text) if text else None

    def end(self):
        """Ends the connection, and so the server. Returns the status and the last line."""
        self.connection.close()
        last, messages = self.process.communicate()
        self.messages += messages
        return self.process.returncode, last.rstrip("\n")


class Script:
    """What was answered over all runs, and which steps may have been done without an answer."""

    def __init__(self, folder):
        self.folder, self.server = folder, None
        self.done, self.unsure, self.files, self.deks, self.shown = [], set(), {}, {}, ""

    def run(self, fault, seconds):
        """One run of the server, in which a re-encryption may take so many seconds. Returns its status and its last line."""
        self.server, self.shown = Server(self.folder, fault), ""
        try:
            if self.server.is_listening:
                self.look()
                for step in STEPS:
                    self.do(step)
                self.await_completion(seconds)
        except Lost:
            pass
        return self.server.end()

    def do(self, step):
        """Makes the request of a step, once more if the disk failed."""
        if step in self.done:
            return
        target, there = STEPS[step]
        for _ in range(2):
            was_unsure = step in self.unsure
            self.unsure.add(step)
            status, answer = self.server.ask("POST", target, BODIES.get(step))
            if status != 500:
                break
        if status == 500:
            raise Lost
        why = status >= 400 and answer["RemoteException"]["exception"]
        need(not why or was_unsure and why == there, f"{step} is answered {status} {answer}")
        self.unsure.discard(step)
        self.done.append(step)
        if step in FILES:
            self.compare(step)

    def info(self, path):
        _, answer = self.server.ask("GET", f"/nn/v1/info?path={path}")
        need("answer" in answer, f"{path} is answered {answer}")
        return answer["answer"].split()

    def compare(self, path, shown=None):
        """The file at a path, or shown at another one, has its id and opens to its key."""
        _, number, _, edek = self.info(shown or path)
        version, vector, sealed = edek.split(":")
        body = {"name": "k", "iv": base64_of(vector), "material": base64_of(sealed)}
        status, answer = self.server.ask("POST", f"/kms/v1/keyversion/{quote(version)}/_eek?eek_op=decrypt", body)
        need(status == 200, f"{path} does not open: {answer}")
        dek = base64.urlsafe_b64decode(answer["material"] + "==").hex()
        need((self.files.setdefault(path, number), self.deks.setdefault(number, dek)) == (number, dek), f"{path} is another file")

    def look(self):
        """What was answered in an earlier run is there."""
        if "key" in self.done:
            _, versions = self.server.ask("GET", "/kms/v1/key/k/_versions")
            found, wanted = [it["material"] for it in versions], [base64_of(it) for it in MATERIALS]
            is_there = found[:1] == wanted[:1] and ("roll" not in self.done or wanted[1] in found)
            need(is_there, f"the versions are {versions} after {self.done}")
        for path in FILES:
            if path in self.done:
                self.compare(path)
        if "snapshot" in self.done:
            for path in FILES:
                self.compare(path, path.replace("/z/", "/z/.snapshot/s/"))
        if "zone" in self.done:
            need(self.info("/z")[2:] == ["/z", "k"], "the zone is gone")
            _, answer = self.server.ask("GET", "/nn/v1/status?path=/z")
            need("re-encryption" not in self.done or answer["answer"] != "status None", "the submission is gone")

    def status(self):
        _, answer = self.server.ask("GET", "/nn/v1/status?path=/z")
        return answer["answer"]

    def await_completion(self, seconds):
        """Asks for the status until it shows that the re-encryption is completed, or the time is up."""
        end = time.monotonic() + seconds
        self.shown = self.status()
        while not self.shown.startswith("status Completed") and time.monotonic() < end:
            time.sleep(0.01)
            self.shown = self.status()


def begin(fault):
    """A script over a new folder."""
    folder = f"{FOLDER}/serve-{fault.kind}-{fault.at}"
    system_faults.begin(folder, None)
    return Script(folder)


def check_end(script, end, fault, is_opening):
    """How the run with the fault ended."""
    if fault.kind in KILLS:
        need(end == (-9, ""), f"killed it ends with {end}")
        return
    need(end == (5, "store fault"), f"it ends with {end}")
    need(script.server.is_listening != is_opening, f"it says {script.server.messages}")
    need("failed: " in script.server.messages or is_opening, f"it says {script.server.messages}")


def serves_on(fault, call, is_opening):
    """Whether the server takes changes after the fault."""
    return fault.kind not in KILLS and call.name != "sync" and not is_opening


def check_case(case):
    """Makes the requests with a fault. Returns what is wrong, or nothing."""
    fault, call, is_opening = case
    signal.alarm(SECONDS)
    script = begin(fault)
    try:
        is_serving = serves_on(*case)
        end = script.run(fault, 30 if is_serving else 0.5)
        need(not is_serving or script.shown == COMPLETED, f"the re-encryption is left at {script.shown}")
        faults = [it for it, made in enumerate(script.server.calls(), 1) if made.is_fault]
        need(faults == [fault.at], f"calls that failed: {faults}")
        check_end(script, end, fault, is_opening)
        check_rest(script)
    except Wrong as wrong:
        script.server.process.kill()
        return f"{call.name} of {call.file} (call {fault.at}) with {fault.kind}: {wrong}"
    finally:
        signal.alarm(0)
    shutil.rmtree(script.folder)
    return ""


def check_rest(script):
    """A run without a fault does the rest, and another one shows all of it. Then the logs are read."""
    for _ in range(2):
        end = script.run(Fault(), 60)
        need(end == (0, ""), f"the next run ends with {end}: {script.server.messages}")
    need(script.done == [it for it in STEPS if it in script.done] and len(script.done) == len(STEPS), f"done are {script.done}")
    rows = {question: f"file {script.files[path]}" for question, path in zip(system_faults.FILES, FILES)}
    # A submission that got no answer is made again, and the first one may have been completed by then.
    system_faults.check_logs(script.folder, Kept(rows, {}, script.deks), 2)


def cases():
    """The faults of each call of a run without one."""
    script = begin(Fault())
    end = script.run(Fault(), 60)
    need(end == (0, ""), f"without a fault it ends with {end}")
    for fault, call in system_faults.faults_of(script.server.calls()):
        if fault.kind in KINDS:
            yield fault, call, fault.at <= script.server.opening


def main():
    signal.signal(signal.SIGALRM, system_faults.is_late)
    all_cases = list(cases())
    kinds = Counter(fault.kind for fault, _, _ in all_cases)
    failures = [] if len(all_cases) >= 200 and len(kinds) == len(KINDS) else [f"only {dict(kinds)}"]
    with multiprocessing.Pool(os.cpu_count()) as pool:
        failures += [it for it in pool.imap_unordered(check_case, all_cases, chunksize=4) if it]
    for failure in failures[:10]:
        print(f"tests/server_faults.py: {failure}")
    return 1 if failures else 0


if __name__ == "__main__":
    sys.exit(main())
