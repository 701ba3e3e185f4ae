"""Both services over a disk that may fail, by the rules of docs/kms.md and docs/namesystem.md: what each event of a script may be answered,
to its bytes, and the world after each answer. It shares nothing with the program.

If the disk fails in a change, the answer is a store fault, and the change is pending: the log may or may not have it. So several worlds
are possible from then on. If it fails as an older material is read that memory does not have, the answer is a store fault too, and nothing
changes. The directories, files and re-encryptions are those of inner_zones.py, and the cipher is that of
ready_reports.py.
"""

import copy
from dataclasses import dataclass, field, replace
from functools import lru_cache

import inner_zones
from inner_zones import Ask, Edek, Refused, need
from ready_reports import sealed

FAULTS = {"keys": "refused K14 StoreFault", "names": "refused N23 StoreFault"}
REFUSED_READ = FAULTS["keys"].split()
# What an answer begins with if a record was written.
WRITTEN = ("done", "completed", "version ", "applied ")
ON_KEYS = ("create", "roll", "delete")
ON_NAMES = ("mkdir", "delete", "rdelete", "rename", "allow", "disallow", "snap", "unsnap", "cancel")


def words_at(number):
    """The words of the random source: any function without a short period does."""
    return (number * 0x9E3779B9 + 0x7F4A7C15) % 2**32


def drawn(first):
    """16 bytes of the random source, from a word on."""
    return b"".join(words_at(it).to_bytes(4, "little") for it in range(first, first + 4))


def vector_of(draw):
    """A draw takes eight words: an initialization vector, then a data encryption key."""
    return drawn(8 * draw)


def key_of(draw):
    return drawn(8 * draw + 4)


@lru_cache(None)
def opened(material, vector, data):
    """Opens sealed bytes, or seals a key."""
    return sealed(material, vector, data)


def sealed_text(name, number, material, draw):
    """The text of an encrypted key that seals a draw."""
    vector = vector_of(draw)
    return f"{name}@{number}:{vector.hex()}:{opened(material, vector, key_of(draw)).hex()}"


@dataclass
class Key:
    """A key: the number of the event that created it, and its materials."""

    created: int
    materials: list


@dataclass
class Pending:
    """What takes effect in a service if the log has the record of the change that the disk failed."""

    parts: dict = field(default_factory=dict)


class World(inner_zones.Model):
    """Both services, what was kept for later events, and what is pending. A ledger has the data encryption key that was drawn for each
    file, by the id that its ask gave it."""

    PARTS = {"keys": ("keys",), "names": ("rows", "snapshots", "statuses", "walks")}

    def __init__(self):
        super().__init__()
        self.keys, self.key_opening, self.draws = {}, 1, 0
        self.ledger, self.pending = {}, {}
        # The older materials that memory has: the event that created the key, and the number of the version.
        self.read = set()

    # ---- keys

    def key(self, name):
        need(name in self.keys, "K4 NoSuchKey")
        return self.keys[name]

    def material(self, name, number):
        materials = self.key(name).materials
        need(number < len(materials), "K5 NoSuchVersion")
        return materials[number]

    def draw_key(self, name):
        """An encrypted key under the current version."""
        number = len(self.key(name).materials) - 1
        self.draws += 1
        return Edek(self.draws - 1, name, number)

    def shown_text(self, part):
        """The text of a part of an answer."""
        if not isinstance(part, Edek):
            return str(part)
        return sealed_text(part.key, part.number, self.keys[part.key].materials[part.number], part.draw)

    def call_on_keys(self, moment, verb, name, *rest):
        """The answer to a call on keys, and its effect."""
        if verb == "create":
            need(name not in self.keys, "K6 KeyExists")
            self.keys[name] = Key(moment, [bytes.fromhex(rest[1])])
            return ["version", f"{name}@0", rest[1]]
        if verb == "roll":
            materials = self.key(name).materials
            materials.append(bytes.fromhex(rest[0]))
            return ["version", f"{name}@{len(materials) - 1}", rest[0]]
        if verb == "delete":
            self.key(name)
            del self.keys[name]
            return ["done"]
        if verb == "metadata":
            key = self.key(name)
            return ["meta", name, 8 * len(key.materials[0]), len(key.materials), key.created]
        if verb == "generate":
            return ["ready"] + [self.draw_key(name) for _ in range(int(rest[0]))]
        if verb == "versions":
            return ["versions"] + [f"{name}@{number}:{it.hex()}" for number, it in enumerate(self.key(name).materials)]
        if verb == "decrypt":
            name, _, number = name.partition("@")
            return ["key", opened(self.material(name, int(number)), *map(bytes.fromhex, rest)).hex()]
        raise ValueError(verb)

    # ---- directories, files and what is kept of them

    def call_on_names(self, verb, path, *rest):
        at = names_of(path)
        if verb in ("info", "list") and ".snapshot" in at:
            place = at.index(".snapshot")
            return self.info_of_snapshot(at[:place], at[place + 1], at[place + 2 :])
        if verb in ("delete", "rdelete"):
            return self.delete(at, verb == "rdelete")
        return getattr(self, verb)(at, *map(names_of, rest) if verb == "rename" else rest)

    def list(self, path):
        self.directory(path)
        children = sorted((it[-1], row.is_file) for it, row in self.rows.items() if it and it[:-1] == path)
        return ["list"] + [name + ("" if is_file else "/") for name, is_file in children]

    def draw_for(self, moment, number):
        """Makes the call on keys that an ask needs."""
        if number > len(self.asks):
            return ["unknown"]
        ask, said, reply = self.asks[number - 1], ["nothing"], None
        if ask.key is not None:
            try:
                said = self.call_on_keys(moment, "metadata" if ask.kind == "zone" else "generate", ask.key, "1")
                reply = said[1] if isinstance(said[1], Edek) else None
            except Refused as refused:
                said = reply = ["refused", *str(refused).split()]
        if ask.kind == "create" and isinstance(reply, Edek):
            self.ledger.setdefault(ask.id, key_of(reply.draw))
        self.replies.append((ask, reply))
        return ["reply", len(self.replies), *said]

    def serve(self, number):
        if number > len(self.batches):
            return ["unknown"]
        self.versions = {name: len(it.materials) for name, it in self.keys.items()}
        return super().serve(number)

    def deliver(self, number):
        """A reply that refuses counts the files of its batch as failed."""
        batch, served = self.replies[number - 1]
        return self.bring_back(batch, None if served == REFUSED_READ else served)

    # ---- older materials

    def versions_opened(self, words):
        """The versions whose materials an event uses, by their keys' names and their numbers."""
        if words[0] == "serve":
            batches = self.batches[int(words[1]) - 1 : int(words[1])]
            return [(edek.key, edek.number) for batch in batches for _, edek in batch.files]
        if words[0] == "kms" and words[2] == "versions":
            return [(words[3], number) for number in range(len(self.keys[words[3]].materials))] if words[3] in self.keys else []
        if words[0] == "kms" and words[2] == "decrypt":
            name, _, number = words[3].partition("@")
            return [(name, int(number))]
        return []

    def materials_read(self, words):
        """The older materials that an event reads from the log, in order."""
        versions = [(self.keys[name], number) for name, number in self.versions_opened(words) if name in self.keys]
        older = [(key.created, number) for key, number in versions if number + 1 < len(key.materials)]
        return [it for it in dict.fromkeys(older) if it not in self.read]

    def after_reads(self, read):
        """A copy of the world in which memory has these older materials too."""
        after = self.copied()
        after.read |= set(read)
        return after

    def refused_read(self, words):
        """The answer to an event whose read of a material failed, which has its effect."""
        if words[0] != "serve":
            return FAULTS["keys"]
        self.replies.append((self.batches[int(words[1]) - 1], REFUSED_READ))
        return " ".join(["reply", str(len(self.replies)), *REFUSED_READ])

    def ask_of(self, number):
        """The ask that a reply answers, and what the reply says, or none if no reply of the number answers one."""
        answered = self.replies[number - 1] if number <= len(self.replies) else (None, None)
        return answered if isinstance(answered[0], Ask) else (None, None)

    def is_settled_by(self, verb, number):
        """Whether a finish, a delivery or a giving up comes as far as settling what is pending."""
        if verb == "giveup":
            return number <= len(self.batches)
        if verb == "deliver":
            return number <= len(self.replies) and self.ask_of(number)[0] is None
        ask, reply = self.ask_of(number)
        return ask is not None and ask.id in self.open and not isinstance(reply, list)

    def close(self, verb, number):
        """A finish closes its ask, whatever it answers."""
        if verb == "finish":
            self.open.pop(self.ask_of(number)[0].id, None)

    def without_settling(self, verb, number):
        """The answer of a finish, a delivery or a giving up that does nothing."""
        ask, reply = self.ask_of(number)
        if verb != "finish" or ask is None:
            return ["unknown"]
        need(ask.id in self.open, f"N16 AskGone {self.opening} {self.counter + 1}")
        self.close(verb, number)
        return ["refused", "N21", "KeyRefused", *reply[1:]]

    # ---- events

    def play(self, moment, words):
        """The parts of the answer to an event while the disk works and nothing is pending."""
        kind, rest = words[0], words[1:]
        if kind == "kms":
            return self.call_on_keys(moment, *rest[1:])
        if kind == "nn":
            return self.zones() if rest[1] == "zones" else self.call_on_names(*rest[1:])
        if kind == "ask":
            return self.ask(rest[1], names_of(rest[2]), *rest[3:])
        if kind == "draw":
            return self.draw_for(moment, int(rest[0]))
        if kind == "walk":
            return self.walk(names_of(rest[0]))
        if words == ["restart", "kms"]:
            self.key_opening += 1
            self.read = set()
            return ["opened", self.key_opening]
        if words == ["restart", "nn"]:
            return self.restart()
        number = int(rest[0])
        if kind != "serve" and not self.is_settled_by(kind, number):
            return self.without_settling(kind, number)
        return {"serve": self.serve, "finish": self.finish, "deliver": self.deliver, "giveup": self.give_up}[kind](number)

    def answer(self, moment, words):
        """The text of the answer to an event, which has its effect."""
        try:
            parts = self.play(moment, words)
        except Refused as refused:
            parts = ["refused", str(refused)]
        return " ".join(map(self.shown_text, parts))

    def answered(self, moment, words):
        """A copy of the world after an event, and the text of the answer."""
        after = self.copied()
        return after, after.answer(moment, words)

    def settled(self, service):
        """The worlds after settling what is pending in a service: the log has it, or not."""
        if service not in self.pending:
            return [self]
        dropped = self.copied()
        pending = dropped.pending.pop(service)
        kept = dropped.copied()
        vars(kept).update(pending.parts)
        return [kept, dropped]

    def copied(self):
        """A copy with which nothing is shared that an event changes."""
        copied = copy.copy(self)
        for name in ("rows", "open", "asks", "replies", "batches", "ledger", "pending", "read"):
            setattr(copied, name, copy.copy(getattr(self, name)))
        copied.keys = {name: Key(it.created, it.materials.copy()) for name, it in self.keys.items()}
        copied.snapshots = {number: taken.copy() for number, taken in self.snapshots.items()}
        copied.statuses = {number: copy.copy(it) for number, it in self.statuses.items()}
        copied.walks = {
            session: replace(it, batches=[copy.copy(batch) for batch in it.batches]) for session, it in self.walks.items()
        }
        return copied

    def kept(self):
        """All that later answers depend on."""
        return {name: it for name, it in vars(self).items() if name != "seen"}

    def kept_on_disk(self):
        return self.keys, self.rows, self.snapshots, self.statuses

    def restarted(self):
        """The worlds after a start of the program on what is left of this one."""
        worlds = [it.copied() for keys in self.settled("keys") for it in keys.settled("names")]
        for world in worlds:
            world.restart()
            world.read = set()
        return worlds

    def service_of(self, words):
        """The service whose pending change an event settles, or none."""
        kind = words[0]
        if kind == "kms":
            return "keys" if words[2] in ON_KEYS else None
        if kind == "restart":
            return "keys" if words[1] == "kms" else "names"
        if kind == "nn":
            return "names" if words[2] in ON_NAMES else None
        if kind in ("finish", "deliver", "giveup"):
            return "names" if self.is_settled_by(kind, int(words[1])) else None
        return "names" if kind == "walk" else None

    def failed(self, service, after, words):
        """The world if the disk fails as the record of an event is written that leads to `after`."""
        failed = self.copied()
        failed.counter = after.counter
        if words[0] == "finish":
            failed.close("finish", int(words[1]))
        effects = after.copied()
        failed.pending[service] = Pending({it: getattr(effects, it) for it in self.PARTS[service]})
        return failed

    def outcomes(self, moment, words, is_stopped):
        """The answers that an event may have, each with the world after it. The disk may fail in it, and does as soon as it is used if it is
        stopped."""
        read = self.materials_read(words)
        for failing in range(len(read)):
            failed = self.after_reads(read[:failing])
            yield failed.refused_read(words), failed
        service = self.service_of(words)
        if service is None:
            if not (is_stopped and read):
                yield self.after_reads(read).answered(moment, words)[::-1]
            return
        is_pending = service in self.pending
        if is_pending and words[0] != "restart":
            failed = self.copied()
            if words[0] == "finish":
                failed.close("finish", int(words[1]))
            yield FAULTS[service], failed
        for world in [] if is_stopped and is_pending else self.settled(service):
            after, answer = world.answered(moment, words)
            is_written = answer.startswith(WRITTEN)
            if not (is_stopped and (is_written or words[0] == "restart")):
                yield answer, after
            if is_written:
                yield FAULTS[service], world.failed(service, after, words)


def names_of(path):
    return tuple(path[1:].split("/")) if path != "/" else ()
