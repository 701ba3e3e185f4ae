"""The changes of the trials that make a zone in a zone: from the answers to their questions before each to those after it, or
None if it is refused. The questions are the directory and a file in it, at the paths before and after it is renamed, a file of the
outer zone, all zones, and what the encrypted key of the first file opens to. The trial with faults asks for the directory, the file of
the outer zone and the zones."""

ABSENT = 'refused N2 NoSuchPath'
FILE = 'file 8589934594 %s j@0:0f0e0d0c0b0a09080706050403020100:874d6191b620e3261bef6864990db6ce'
OUTER_FILE = 'file 4294967299 /z k@0:00000000000000000000000000000000:2b7e151628aed2a6abf7158809cf4f3c'
OPENED = 'key 6bc1bee22e409f96e93d7e117393172a'


def answers(path, is_zone, has_file):
    """The answers if the directory is at this path, a zone or not, with the file in it or without."""
    found = [f'dir 4294967298 {path} j' if is_zone else 'dir 4294967298 /z -', FILE % path if has_file else ABSENT]
    absent = [ABSENT, ABSENT]
    zones = f'zones /z:k {path}:j' if is_zone else 'zones /z:k'
    return (found + absent if path == '/z/s' else absent + found) + [OUTER_FILE, zones, OPENED]


def answers_without_file(path, is_zone, has_file):
    """The same for the trial with faults."""
    found = answers(path, is_zone, has_file)
    return [found[0], found[2], *found[4:6]]


STATES = [(path, is_zone, has_file) for path in ('/z/s', '/z/r') for is_zone in (False, True) for has_file in (False, True)]


def change(changed, shown=answers):
    """A change of answers, which gives None if it is refused."""

    def of_answers(state):
        after = changed(*next(it for it in STATES if shown(*it) == state))
        return None if after is None else shown(*after)

    return of_answers


def mark(path, is_zone, has_file):
    return None if is_zone else (path, True, has_file)


def make_file(path, is_zone, has_file):
    return (path, is_zone, True) if path == '/z/s' and is_zone and not has_file else None


def rename(path, is_zone, has_file):
    return ('/z/r', is_zone, has_file) if path == '/z/s' else None


def change_nothing(*_):
    return None


BEFORE = answers('/z/s', False, False)
# The ask for the file and its draw come before the file.
CHANGES = [change(it) for it in (mark, change_nothing, change_nothing, make_file, rename)]
BEFORE_FAULTS = answers_without_file('/z/s', False, False)
CHANGES_UNDER_FAULTS = [change(it, answers_without_file) for it in (mark, rename)]
