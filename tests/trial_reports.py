"""Reads the reports of trials in which a call fails in turn: runs, and the runs after each of them."""


class Part:
    """A run of the program: the lines that it wrote, and its status."""

    def __init__(self):
        self.lines = []
        self.status = None

    def add(self, line):
        if line.startswith('status '):
            self.status = int(line.split()[1])
        else:
            self.lines.append(line)

    @property
    def answers(self):
        """The lines without the numbers of their events."""
        parts = [line.partition(' ') for line in self.lines]
        return [answer if number.isdigit() else line for (number, _, answer), line in zip(parts, self.lines)]


class Run:
    """A run with a fault at a call, and the runs after it: further ones on its disk, or one on each image."""

    def __init__(self, title):
        self.title = title
        self.call = int(title.split()[1])
        self.parts = [Part()]

    @property
    def first(self):
        return self.parts[0]

    @property
    def images(self):
        return self.parts[1:]

    def add(self, line):
        # A part ends with its status, and an image begins with a line of its own.
        if line.startswith('image '):
            return
        if self.parts[-1].status is not None:
            self.parts.append(Part())
        self.parts[-1].add(line)


def read_runs(report):
    runs = []
    for line in report.read().splitlines():
        if line.startswith('call '):
            runs.append(Run(line))
        else:
            runs[-1].add(line)
    return runs
