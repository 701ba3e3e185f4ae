"""Prints the line of `hkms load N` for each N that is given, by a model of its own.

    python3 tests/load_model.py N ..

The model keeps of each of the four zones the version of its key and, of each file, the version that its encrypted key is of. What
the program does with keys, paths, records and snapshots is not in it.
"""

import sys

ZONES = 4
KINDS = 16
DELETE, ROLL, SNAPSHOT, GENERATE = 12, 13, 14, 15
MOST_GENERATED = 8


def choices(count):
    """For each step: its number, its kind, its zone, and the number that a deletion and a generation take."""
    x = count
    for step in range(1, count + 1):
        x = (x * 6364136223846793005 + 1442695040888963407) % 2**64
        bits = x // 2**32
        yield step, bits % KINDS, bits // KINDS % ZONES, bits // 256 % step


def load_line(count):
    versions = [0] * ZONES
    files = [{} for _ in range(ZONES)]
    created = deleted = rolled = ready = snapshots = refused = 0
    for step, kind, zone, other in choices(count):
        if kind < DELETE:
            files[zone][step] = versions[zone]
            created += 1
        elif kind == DELETE and other in files[zone]:
            del files[zone][other]
            deleted += 1
        elif kind == DELETE:
            refused += 1
        elif kind == ROLL:
            versions[zone] += 1
            rolled += 1
        elif kind == SNAPSHOT:
            snapshots += 1
        else:
            ready += 1 + other % MOST_GENERATED
    reencrypted = sum(version < versions[zone] for zone in range(ZONES) for version in files[zone].values())
    return (
        f"load events={count} created={created} deleted={deleted} rolled={rolled} ready={ready}"
        f" snapshots={snapshots} refused={refused} reencrypted={reencrypted}"
    )


if __name__ == "__main__":
    for argument in sys.argv[1:]:
        print(load_line(int(argument)))
