"""A model of logs with an image, by docs/logs.md alone: what a file reads as, and the writes of a compaction and of an opening. Three
compactions of a small key log are stopped after each call of the disk, with each write since the last sync left as a crash may leave it.
Prints what was tried, or fails."""

import itertools
import random
import re
import sys

MAGIC = b"HKMSKEY1"
LONGEST = 1 << 20
MOVED, SELECTOR = 255, 17


def number(data, at, width=8):
    return int.from_bytes(data[at : at + width], "big")


def spelled(value, width=8):
    return value.to_bytes(width, "big")


def frame(payload):
    return b"\1" + spelled(len(payload), 4) + payload


class Damaged(Exception):
    """The file is no log, at this offset."""


def passed(data, at, stop_at_moved):
    """The payloads from the gate at an offset on, and where they end: at an end gate, or at a frame that moves the log."""
    payloads = []
    while at < len(data) and data[at] == 1:
        size = number(data, at + 1, 4)
        if at + 5 > len(data) or not 1 <= size <= LONGEST or at + 5 + size >= len(data):
            raise Damaged(at)
        payload = data[at + 5 : at + 5 + size]
        if stop_at_moved and size == 9 and payload[0] == MOVED:
            return payloads, at, number(payload, 1)
        payloads.append(payload)
        at += 5 + size
    if at >= len(data):
        raise Damaged(at)
    return payloads, at, None


def counting(data, first):
    """The offset of the selector that counts."""
    second = first + SELECTOR
    both = [at for at in (first, second) if data[at] == 1]
    if len(both) == 2:
        turns = number(data, first + 1), number(data, second + 1)
        newer = [at for at, own, other in ((second, turns[1], turns[0]), (first, turns[0], turns[1])) if own == (other + 1) % 2**64]
        return newer[0] if newer else None
    return both[0] if both else None


class Log:
    """What a file reads as: the image that it starts from, the payloads since, the end gate, and the selectors."""

    def __init__(self, data):
        self.image, self.payloads, self.end, self.selectors, self.chosen = None, [], None, None, None
        if len(data) <= 9:
            return
        if data[:8] != MAGIC:
            raise Damaged(0)
        self.payloads, self.end, first = passed(data, 8, True)
        if first is None:
            return
        gate = self.end
        if first != gate + 15 or data[first - 1] == 1:
            raise Damaged(gate)
        if first + 2 * SELECTOR > len(data) or (chosen := counting(data, first)) is None:
            raise Damaged(first)
        self.selectors, self.chosen = first, chosen
        self.area = number(data, chosen + 9)
        size = number(data, self.area)
        if self.area < first + 2 * SELECTOR or self.area + 8 + size >= len(data):
            raise Damaged(self.area)
        self.image = data[self.area + 8 : self.area + 8 + size]
        self.payloads, self.end, _ = passed(data, self.area + 8 + size, False)

    def content(self):
        return self.image, tuple(self.payloads)

    def gates(self):
        """The offsets of the gates that a crash may have torn."""
        own = [] if self.end is None else [self.end]
        return own if self.selectors is None else [self.selectors, self.selectors + SELECTOR, *own]


def changed(data, at, written):
    return data[:at] + written + data[at + len(written) :]


def readings(data):
    """All that a file may read as: as it is, or with gates that aren't 0 read as 1, and those that this reaches."""
    found, seen, waiting = set(), set(), [data]
    while waiting:
        now = waiting.pop()
        if now in seen:
            continue
        seen.add(now)
        try:
            log = Log(now)
        except Damaged as damaged:
            found.add(damaged.args[0])
            continue
        found.add(log.content())
        waiting += [changed(now, at, b"\1") for at in log.gates() if now[at] not in (0, 1)]
    return found


def added(data, payload):
    """The writes that add a payload, None for a sync."""
    end = Log(data).end
    return [(end + 1, frame(payload)[1:] + b"\0"), None, (end, b"\1"), None]


def compaction(data, image):
    """The writes of a compaction, None for a sync."""
    log = Log(data)
    area = spelled(len(image)) + image + b"\0"
    if log.selectors is None:
        first = log.end + 15
        head = bytes(14) + b"\1" + spelled(1) + spelled(first + 34) + bytes(SELECTOR)
        return [(log.end + 1, head), (first + 34, area), None, *added(data, bytes([MOVED]) + spelled(first))]
    first = log.selectors
    other = 2 * first + SELECTOR - log.chosen
    near = first + 34
    place = near if near + len(area) <= log.area else log.end + 1
    numbers = spelled((number(data, log.chosen + 1) + 1) % 2**64) + spelled(place)
    return [(place, area), (other + 1, numbers), None, (other, b"\1"), None, (log.chosen, b"\0"), None]


def opening(data):
    """The writes of an opening: the gate of the selector that doesn't count is shut, and then the end gate."""
    log = Log(data)
    other = [] if log.selectors is None else [2 * log.selectors + SELECTOR - log.chosen]
    return [call for at in [*other, log.end] if data[at] != 0 for call in ((at, b"\0"), None)]


def left(synced, writes, source):
    """Files that a crash may leave of some writes since the last sync: each whole, not begun, in part, or other bytes in its place."""
    ways = []
    for _, data in writes:
        noise = bytes(source.randrange(256) for _ in data)
        gate = [bytes([byte]) for byte in (0, 1, 2, 128, 255)]
        ways.append([b"", *gate] if len(data) == 1 else [b"", data, data[: len(data) // 2], noise, noise[:1] + data[1:]])
    for choice in itertools.product(*ways):
        now = synced
        for (at, _), piece in zip(writes, choice):
            now = changed(now + bytes(max(0, at - len(now))), at, piece)
        yield now
        yield now + bytes(source.randrange(256) for _ in range(source.randrange(1, 40)))


def run(data, calls):
    for call in calls:
        if call:
            data = changed(data, *call)
    return data


def try_stops(data, calls, allowed, source):
    """Stops before and after each call: each reading of what is left must be one of these. Returns how many files were tried."""
    tried, synced, pending = 0, data, []
    for call in [*calls, None]:
        for now in left(synced, pending, source):
            tried += 1
            found = readings(now)
            assert found <= allowed, (found, allowed)
            assert readings(run(now, opening(now))) <= found, "an opening adds a reading"
        if call:
            pending.append(call)
        else:
            synced, pending = run(synced, pending), []
    return tried


def worked_files(path):
    """The files that the definitions are computed on."""
    text = open(path, encoding="utf-8").read()
    return [bytes(int(byte) for byte in re.findall(r"(\d+) ∷", found)) for found in re.findall(r"^file_\d = (.*)$", text, re.M)]


def main():
    source = random.Random(1)
    key = bytes.fromhex("2b7e151628aed2a6abf7158809cf4f3c")
    birth = spelled((1 << 32) + 1)
    made = b"\1k" + spelled(128, 2) + spelled(0, 2) + spelled(1)
    data = MAGIC + frame(b"\1" + spelled(1, 4)) + frame(b"\2" + birth + made + key) + frame(b"\3" + birth + spelled(1, 2) + key) + b"\0"
    wanted, tried = worked_files(sys.argv[1]), 0
    assert len(wanted) == 3
    for opened in range(2, 5):
        opened_record = b"\1" + spelled(opened, 4)
        before = Log(data).content()
        tried += try_stops(data, added(data, opened_record), {before, (before[0], (*before[1], opened_record))}, source)
        data = run(data, added(data, opened_record))
        image = spelled(opened, 4) + birth + spelled(1, 4) + birth + made + spelled(2, 4) + key + key
        calls = compaction(data, image)
        tried += try_stops(data, calls, {Log(data).content(), (image, ())}, source)
        data = run(data, calls)
        assert data == wanted[opened - 2], f"the file of compaction {opened - 1}"
        assert Log(data).content() == (image, ())
    print(f"{tried} files of three compactions read as before or as the image alone")


main()
