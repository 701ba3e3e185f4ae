"""What a run of a script may leave: the worlds that its answers allow, by world_model.py, and what is found then, by the answers to
questions and by the bytes of both logs."""

from functools import lru_cache, partial

import headline
import world_model
from whole_script import QUESTIONS
from world_model import World

FAULTS = tuple(world_model.FAULTS.values())


def is_fault(answer):
    """Whether an event, or the batch that it serves, was refused since the disk failed."""
    return answer.endswith(FAULTS)


class Wrong(Exception):
    """What the program did against the pages."""


def need(holds, why):
    if not holds:
        raise Wrong(why)


# ---- what is there, by a model of the world and by the bytes of the logs


def row_of(row, text_of_edek):
    return row.id, row.is_file, row.mark, row.edek and text_of_edek(row.edek)


def names_there(table, name_text, text_of_edek):
    """The rows, the snapshots and the statuses of a namesystem, in a form of their own."""
    shown = partial(row_of, text_of_edek=text_of_edek)
    rows = {tuple(map(name_text, path)): shown(row) for path, row in table.rows.items()}
    snapshots = {
        number: {name_text(name): {tuple(map(name_text, path)): shown(row) for path, row in taken.items()} for name, taken in all_taken.items()}
        for number, all_taken in table.snapshots.items()
    }
    return rows, snapshots


def there_by_model(world):
    keys = {name: it.materials for name, it in world.keys.items()}
    statuses = {
        zone: (it.session, it.noted.version, it.changed, it.failed, it.is_completed, it.is_cancelled, it.mark)
        for zone, it in world.statuses.items()
    }
    return keys, *names_there(world, str, world.shown_text), statuses


def edek_text(edek):
    return f"{edek.version}:{edek.vector.hex()}:{edek.sealed.hex()}"


def mark_of(status):
    return None if status.mark is None else tuple(it.decode() for it in status.mark)


def there_by_bytes(keys, names):
    living = {it.name: it.materials for it in keys.by_birth.values() if not it.is_deleted}
    statuses = {
        zone: (it.session, f"{it.key}@{it.noted}", it.changed, it.failed, it.is_completed, it.is_cancelled, mark_of(it))
        for zone, it in names.statuses.items()
    }
    return living, *names_there(names, bytes.decode, edek_text), statuses


@lru_cache(None)
def read_table(data, magic, make):
    """The table of a log by headline.py, and the offset of the first record that is damaged, or none."""
    table, at = make(), 0
    try:
        for at, payload in headline.frames(data, magic):
            table.apply(payload)
    except headline.Wrong as wrong:
        return table, wrong.args[0] if isinstance(wrong.args[0], int) else at
    except UnicodeDecodeError:
        return table, at
    return table, None


def read_logs(files):
    """Both tables, and the damage of each."""
    return read_table(files[0], b"HKMSKEY1", headline.Keys), read_table(files[1], b"HKMSNAM1", headline.Names)


@lru_cache(None)
def look_at_bytes(files):
    """What both logs have, and of each file, live or in a snapshot, its encrypted key and what this opens to."""
    (keys, keys_damage), (names, names_damage) = read_logs(files)
    need(keys_damage is None and names_damage is None, f"a log is damaged: keys {keys_damage}, names {names_damage}")
    opens = []
    for path, row in names.files():
        key = keys.now(row.edek.name)
        need(key and row.edek.number < len(key.materials), f"the version of {path} is gone")
        opens.append((path, row, world_model.opened(key.materials[row.edek.number], row.edek.vector, row.edek.sealed)))
    return there_by_bytes(keys, names), opens


# ---- runs by the model


class Moment:
    """The worlds that are possible after some answers, and the moments after each further one. The kind is `stop` if the disk fails from
    some call on, and `fail` if single calls of it fail."""

    def __init__(self, worlds, kind, number=0, is_stopped=False):
        self.worlds, self.kind, self.number, self.is_stopped = worlds, kind, number, is_stopped
        self.later, self.left = {}, None

    def after(self, line, answer):
        """The moment after an event that was answered so."""
        if (line, answer) not in self.later:
            number, words = self.number + 1, line.split(" ")
            outcomes = [it for world in self.worlds for it in world.outcomes(number, words, self.is_stopped)]
            worlds = each_once(world for possible, world in outcomes if possible == answer)
            need(worlds, f"event {number}, {line}: {answer}, and not {' or '.join(sorted({it for it, _ in outcomes}))}")
            self.later[line, answer] = Moment(worlds, self.kind, number, self.is_stopped or self.kind == "stop" and is_fault(answer))
        return self.later[line, answer]

    def after_restart(self):
        """The worlds that a start may find after this moment: for each the answers to the questions, what is there, and the ledger."""
        if self.left is None:
            worlds = [later for it in self.worlds for later in it.restarted()]
            self.left = [(answers_of(it, QUESTIONS), there_by_model(it), it.ledger) for it in worlds]
        return self.left


def each_once(worlds):
    found = {}
    for world in worlds:
        found.setdefault(repr(world.kept()), world)
    return list(found.values())


def answers_of(world, lines):
    """The answers to questions, which change nothing."""
    return [world.answer(0, line.split(" ")) for line in lines]


# The first moments.
FIRST = {kind: Moment([World()], kind) for kind in ("stop", "fail")}


def last_moment(run, events, kind, faults):
    """The moment in which a run ended. Its answers must be those of the model, with at most so many store faults."""
    moment, answers = FIRST[kind], run.answers
    for line, answer in zip(events, answers):
        moment = moment.after(line, answer)
    store_faults = sum(map(is_fault, answers))
    if run.status == 5:
        need(len(answers) < len(events) and run.lines[len(answers) :] == ["store fault"], f"its last lines are {run.lines[-2:]}")
        need(not answers or events[len(answers)].startswith("restart "), f"it ends in {events[len(answers)]}")
    else:
        need(run.status == 0 and len(run.lines) == len(events), f"status {run.status} after {len(run.lines)} lines")
        need(store_faults or not faults, "no event was refused")
    need(kind == "stop" or store_faults <= faults, f"{store_faults} events were refused")
    return moment


def check_image(image, moment):
    """What is left is one of the states that the model has, and each file opens to the key that was drawn for it."""
    there, opens = look_at_bytes(image.files)
    need(image.status == 0, f"the start on an image ends with {image.status}")
    found = [ledger for answers, it, ledger in moment.after_restart() if it == there and answers == image.answers]
    if not found:
        wanted = [[(line, it) for line, it, other in zip(QUESTIONS, answers, image.answers) if it != other] for answers, *_ in moment.after_restart()]
        raise Wrong(f"an image answers {image.answers} and has {there}; other answers are {wanted}")
    for path, row, key in opens:
        need(key == found[0].get(row.id), f"{path} opens to {key.hex()} by its bytes")
        question = "kms a decrypt " + edek_text(row.edek).replace(":", " ")
        answer = image.answers[QUESTIONS.index(question)]
        need(answer == f"key {key.hex()}", f"{path} opens to {answer} by the program")
