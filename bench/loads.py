"""Loads on the servers of bench/serve and bench/beside: clients that send one kind of request."""

import os
import re
import shutil
import signal
import statistics
import subprocess
import sys
import tempfile
from typing import NamedTuple

from servers import give_up

HERE = os.path.dirname(os.path.realpath(__file__))


class Request(NamedTuple):
    """A kind of request. Each {n} in the target or the body is replaced by a text that no other request of a run has."""

    method: str
    target: str
    body: str = ""
    connection: str = "keep-alive"


class Figures(NamedTuple):
    """What was measured: responses a second, the median and the 99th percentile of the time to a response, and the processor
    time of the server for a response, in microseconds."""

    rate: float
    median: float
    late: float
    cost: float
    count: int


def median_of(runs):
    """The figures of several runs, each the median of theirs."""
    return Figures(*map(statistics.median, zip(*runs)))


def has(tool):
    return shutil.which(tool) is not None


def clients():
    """What the clients are, of kept connections and of new ones."""
    own = "a client of Python, which is slower than the servers"
    return f"{'wrk' if has('wrk') else own}, and for new connections {'ab' if has('ab') else own}"


def wrk_words(server, request, connections, seconds):
    threads = max(1, min(connections, os.cpu_count() // 2))
    shape = ["-t", str(threads), "-c", str(connections), "-d", f"{seconds}s"]
    return ["wrk", *shape, "-s", os.path.join(HERE, "load.lua"), f"http://127.0.0.1:{server.port}/", "--", *request]


def ab_words(server, request, connections, seconds, percentiles):
    # Without a number of requests, ab ends after 50,000.
    shape = ["-q", "-r", "-t", str(seconds), "-n", "5000000", "-c", str(connections), "-e", percentiles]
    return ["ab", *shape, f"http://127.0.0.1:{server.port}{request.target}"]


def own_words(server, request, connections, seconds):
    return [sys.executable, os.path.join(HERE, "client.py"), str(server.port), str(connections), str(seconds), *request]


def read_line(said):
    """The numbers of the line of load.lua and of client.py."""
    lines = [line.split() for line in said.splitlines() if line.startswith("measured ")]
    return list(map(int, lines[-1][1:])) if lines else [0] * 5


def read_ab(said, percentiles):
    """The same numbers of the report of ab and of its file of percentiles, which has milliseconds."""

    def field(name):
        found = re.search(rf"^{name}: +([0-9.]+)", said, re.M)
        return float(found[1]) if found else 0.0

    with open(percentiles, encoding="utf-8") as file:
        times = dict(line.strip().split(",") for line in file)
    failed = field("Failed requests") + field("Non-2xx responses")
    median, late = (float(times[it]) * 1e3 for it in ("50", "99"))
    return [field("Complete requests"), field("Time taken for tests") * 1e6, failed, median, late]


class Load:
    """Requests to a server on some connections, for some seconds or until it is ended early.

    The clients are those of wrk if connections are kept, and of ab if each has one request. wrk would send another request after a
    response that has no field `Connection: close`."""

    def __init__(self, server, request, connections, seconds):
        self.server, self.percentiles = server, None
        # So that the clients have all places for connections.
        server.hang_up()
        if request.connection == "close" and has("ab"):
            self.percentiles = tempfile.NamedTemporaryFile(prefix="hkms-serve-")
            words = ab_words(server, request, connections, seconds, self.percentiles.name)
        elif request.connection != "close" and has("wrk"):
            words = wrk_words(server, request, connections, seconds)
        else:
            words = own_words(server, request, connections, seconds)
        self.before = server.seconds()
        how = {"stdout": subprocess.PIPE, "stderr": subprocess.STDOUT, "text": True, "start_new_session": True}
        self.process = subprocess.Popen(words, **how)

    def end(self, early=False):
        """Waits for the clients. Returns the figures, and how many responses were no success."""
        if early:
            os.killpg(self.process.pid, signal.SIGINT)
        said = self.process.communicate()[0]
        spent = self.server.seconds() - self.before
        if self.process.returncode:
            give_up(f"a client failed: {said}")
        count, micros, failed, median, late = read_ab(said, self.percentiles.name) if self.percentiles else read_line(said)
        if not count:
            give_up(f"no response came in time, so more --seconds or a machine that does less are needed: {said}")
        return Figures(count * 1e6 / micros, median, late, spent * 1e6 / count, count), failed

    def __enter__(self):
        return self

    def __exit__(self, *_):
        if self.process.poll() is None:
            os.killpg(self.process.pid, signal.SIGKILL)
            self.process.wait()
