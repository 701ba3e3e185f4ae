"""The changes of the trials with renames: from the answers to their questions before each to those after it, or None if it is refused.
The questions are `list /`, `zones`, and `info` of the file at three of the paths where it may be."""

FILE = 'file 4294967300 %s k@0:00000000000000000000000000000000:2b7e151628aed2a6abf7158809cf4f3c'
PATHS = ['/z/g', '/d/z/h', '/y/z/h']


def answers(top, inside, name):
    """The answers where the directory is /top, the zone is in it or in the root, and the file of the zone has this name."""
    zone = f'/{top}/z' if inside else '/z'
    found = [top + '/', 'f'] + ([] if inside else ['z/'])
    infos = [FILE % zone if path == f'{zone}/{name}' else 'refused N2 NoSuchPath' for path in PATHS]
    return ['list ' + ' '.join(sorted(found)), f'zones {zone}:k'] + infos


STATES = [(top, inside, name) for top in 'dy' for inside in (False, True) for name in 'gh']


def change(rename):
    """A change of answers, from one of the three places, which gives None where it is refused."""

    def changed(state):
        after = rename(*next(it for it in STATES if answers(*it) == state))
        return None if after is None else answers(*after)

    return changed


def rename_file(top, inside, name):
    return (top, inside, 'h') if not inside and name == 'g' else None


def rename_zone(top, inside, name):
    return (top, True, name) if not inside and top == 'd' else None


def rename_directory(top, inside, name):
    return ('y', inside, name) if top == 'd' else None


def rename_zone_again(top, inside, name):
    return (top, False, name) if inside and top == 'y' else None


BEFORE = answers('d', False, 'g')
CHANGES = [change(it) for it in (rename_file, rename_zone, rename_directory, rename_zone_again)]
