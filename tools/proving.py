"""Runs `rt ci`, and says how far it is."""

import queue
import re
import subprocess
import threading


def lines_of(stream):
    """The lines of the stream, and None for each minute in which it has none."""
    lines = queue.Queue()

    def read():
        for line in stream:
            lines.put(line)
        lines.put("")

    threading.Thread(target=read, daemon=True).start()
    while True:
        try:
            line = lines.get(timeout=60)
        except queue.Empty:
            yield None
            continue
        if not line:
            return
        yield line


def follow(lines, progress):
    """Tells how far the run is that writes these lines. Returns what it wrote, without what it wrote of crates that are proved."""
    said, block = [], []
    for line in lines:
        if line is None:
            progress.tell()
            continue
        if line.startswith("== "):
            said, block = said + block, []
        ended = re.fullmatch(r"rt: (\w+) (is kept: .*|proved)\n", line)
        if not ended:
            block.append(line)
            continue
        block = []
        if ended[2] == "proved":
            progress.end(ended[1])
        else:
            progress.take(ended[1])
    return "".join(said + block)


def prove(room, progress):
    """Runs `rt ci` in this folder. Returns whether it passed, and what it wrote."""
    how = {"stdin": subprocess.DEVNULL, "stdout": subprocess.PIPE, "stderr": subprocess.STDOUT}
    with subprocess.Popen(["rt", "ci"], cwd=room, text=True, errors="replace", **how) as run:
        try:
            said = follow(lines_of(run.stdout), progress)
        except BaseException:
            run.terminate()
            raise
    return run.returncode == 0, said
