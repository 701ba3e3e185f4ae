"""Runs trials by hkms_trial, and reads what it reports of them. The program and a folder for its files are the first two words of the
command line."""

import subprocess
import sys
import tempfile
from dataclasses import dataclass, field

from possible_worlds import need
from whole_script import PROPERTIES, WORDS
from world_model import words_at

PROGRAM, FOLDER = sys.argv[1:3]


@dataclass
class Run:
    """A run of the program: the lines that it wrote, its status, and how many calls of the disk it made. `files` are both logs: after the
    run, or if it was made on an image before it."""

    lines: list = field(default_factory=list)
    status: int = None
    calls: int = 0
    files: tuple = (b"", b"")

    @property
    def answers(self):
        """The answers without their numbers."""
        parts = [line.partition(" ") for line in self.lines]
        return [answer for number, _, answer in parts if number.isdigit()]


@dataclass
class Report:
    """The run of a trial, and those on the images that are left. The calls are those that failed."""

    calls: tuple
    first: Run = field(default_factory=Run)
    images: list = field(default_factory=list)


def bytes_of(digits):
    return b"" if digits == "-" else bytes.fromhex(digits)


def add_line(report, line):
    """Takes a line of a report."""
    run = report.images[-1] if report.images else report.first
    words = line.split(" ")
    if words[0] == "image":
        report.images.append(Run(files=(bytes_of(words[3]), bytes_of(words[5]))))
    elif run.status is None and words[0] != "status":
        run.lines.append(line)
    elif words[0] == "status":
        run.status = int(words[1])
    elif words[0] == "calls":
        run.calls = int(words[1])
    else:
        run.files = (bytes_of(words[1]), run.files[1]) if words[0] == "keys" else (run.files[0], bytes_of(words[1]))


def read_reports(text, calls):
    """The reports of a trial; of a sweep one for each call."""
    reports = [Report(calls)]
    for line in text.splitlines():
        if line.startswith("call "):
            reports.append(Report((*calls, int(line[5:]))))
        else:
            add_line(reports[-1], line)
    return [it for it in reports if it.first.status is not None]


def trial_of(head, inputs):
    """The text of a trial."""
    draws = " ".join(f"{words_at(it):x}" for it in range(WORDS))
    lines = [*(f"property {it}" for it in PROPERTIES), f"draw {draws}", *head, "input"]
    return text_of(lines) + "then\n".join(inputs)


def run_trial(head, *inputs):
    """Runs a trial, and returns its report."""
    with tempfile.NamedTemporaryFile("w", dir=FOLDER, suffix=".trial", newline="") as file:
        file.write(trial_of(head, inputs))
        file.flush()
        ran = subprocess.run([PROGRAM, file.name], capture_output=True, check=False)
    need((ran.returncode, ran.stderr) == (0, b""), f"hkms_trial ends with {ran.returncode} and {ran.stderr[-200:]}")
    return ran.stdout


def text_of(lines):
    return "".join(f"{it}\n" for it in lines)
