"""How far a build is, and how long it may still take, as lines on standard error."""

import os
import sys
import time

from repository import all_below, count_lines


def guess_seconds(root, uses, names):
    """What the proof of each of these crates takes on one processor, guessed by its lines and those below it. Only the proportions
    count: the first crates that are proved tell the speed of the machine."""
    code = {name: count_lines(f"{root}/crates/{name}/src", ".rt") for name in uses}
    found = {}
    for name in names:
        proofs = sum(count_lines(f"{root}/crates/{name}/{part}", ".antt") for part in ("specs", "proofs"))
        below = sum(code[it] for it in all_below(uses, name)) - code[name]
        found[name] = 8 + 0.1 * code[name] + 0.015 * proofs + 0.006 * below
    return found


def plan_ends(seconds, uses, lanes):
    """When each of these crates ends if so many are proved at a time, each after those that it uses, and first those with the
    longest chain of crates above them. Returns pairs of a time and a name, in this order."""
    chains = {}

    def chain(name):
        if name not in chains:
            chains[name] = seconds[name] + max((chain(it) for it in seconds if name in uses[it]), default=0)
        return chains[name]

    left, running, ended, now = sorted(seconds, key=chain, reverse=True), [], [], 0
    while left or running:
        waiting = {*left, *(name for _, name in running)}
        ready = [name for name in left if waiting.isdisjoint(uses[name])]
        for name in ready[: lanes - len(running)]:
            left.remove(name)
            running.append((now + seconds[name], name))
        ended.append(min(running))
        running.remove(ended[-1])
        now = ended[-1][0]
    return ended


class Progress:
    """Counts the crates of a build that are done."""

    def __init__(self, root, uses, names):
        self.uses, self.count = uses, len(names)
        self.seconds = guess_seconds(root, uses, names)
        self.lanes = len(os.sched_getaffinity(0))
        self.proved = set()
        self.began = self.last = time.monotonic()

    def take(self, name):
        """An earlier run has proved this crate."""
        self.seconds.pop(name, None)

    def end(self, name):
        """This crate is proved now."""
        self.proved.add(name)
        self.last = time.monotonic()
        self.tell()

    def seconds_left(self):
        """Looks up where the plan is once as much is done, and takes the rest of it at the speed until then, or at that of now where
        the next crate is overdue."""
        ends, done, at = plan_ends(self.seconds, self.uses, self.lanes), sum(self.seconds[name] for name in self.proved), 0
        for end, name in ends:
            done -= self.seconds[name]
            if done < 0:
                break
            at = end
        now, whole = time.monotonic(), ends[-1][0]
        speed = max((self.last - self.began) / at if at else 1, (now - self.began) / end)
        return speed * (whole - min(at + (now - self.last) / speed, end))

    def tell(self):
        ended = self.count - len(self.seconds) + len(self.proved)
        took = round((time.monotonic() - self.began) / 60)
        left = f", about {max(1, round(self.seconds_left() / 60))} min left" if ended < self.count else ""
        print(f"hkms: {ended} of {self.count} crates are proved: {took} min so far{left}", file=sys.stderr, flush=True)
