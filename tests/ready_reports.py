"""Ready keys by their rules: a model of the key management service, and of files in zones, that says what each event of a trial
is answered, to its bytes. It shares nothing with the program. `check` compares it with the report of the trial."""
from itertools import chain, count
from struct import pack

SIZES = {'hkms.queue.size': 500, 'hkms.queue.watermark': 150}


# ---- the cipher

def doubled(byte):
    return byte << 1 ^ (0x11b if byte & 0x80 else 0)


def make_box():
    """The substitution of AES: the inverse in the field, then the affine map."""
    power, of_power = 1, []
    for _ in range(255):
        of_power.append(power)
        power ^= doubled(power)
    inverse = {of_power[n]: of_power[-n % 255] for n in range(255)}
    box = []
    for byte in range(256):
        b = inverse.get(byte, 0)
        box.append(b ^ (b << 1 | b >> 7) & 255 ^ (b << 2 | b >> 6) & 255 ^ (b << 3 | b >> 5) & 255 ^ (b << 4 | b >> 4) & 255 ^ 0x63)
    return box


BOX = make_box()


def round_keys(key):
    words = [list(key[i:i + 4]) for i in range(0, len(key), 4)]
    length, constant = len(words), 1
    while len(words) < 4 * (length + 7):
        word = words[-1]
        if len(words) % length == 0:
            word = [BOX[b] for b in word[1:] + word[:1]]
            word[0] ^= constant
            constant = doubled(constant)
        elif length == 8 and len(words) % 8 == 4:
            word = [BOX[b] for b in word]
        words.append([a ^ b for a, b in zip(word, words[-length])])
    return [list(chain(*words[i:i + 4])) for i in range(0, len(words), 4)]


def mixed(column):
    total = column[0] ^ column[1] ^ column[2] ^ column[3]
    return [column[i] ^ total ^ doubled(column[i] ^ column[(i + 1) % 4]) for i in range(4)]


def encrypted(key, block):
    keys = round_keys(key)
    state = [a ^ b for a, b in zip(block, keys[0])]
    for number, round_key in enumerate(keys[1:], 1):
        state = [BOX[state[(i + 4 * (i % 4)) % 16]] for i in range(16)]
        if number < len(keys) - 1:
            state = list(chain(*(mixed(state[i:i + 4]) for i in range(0, 16, 4))))
        state = [a ^ b for a, b in zip(state, round_key)]
    return bytes(state)


def sealed(material, iv, key):
    """Seals a data encryption key, or opens one: counter mode from the vector with all bits flipped."""
    first = int.from_bytes(iv, 'big') ^ (1 << 128) - 1
    stream = b''.join(encrypted(material, ((first + n) % (1 << 128)).to_bytes(16, 'big')) for n in range(-(-len(key) // 16)))
    return bytes(a ^ b for a, b in zip(key, stream))


# ---- the service of keys

class Refused(Exception):
    """A refusal of the key management service."""


class Key:
    def __init__(self, birth, material, created):
        self.birth, self.materials, self.created = birth, [material], created

    @property
    def last(self):
        return len(self.materials) - 1


class World:
    """Both services at work, and what is kept. `words` are the words to come."""

    def __init__(self, sizes, words):
        self.size, self.watermark = sizes['hkms.queue.size'], sizes['hkms.queue.watermark']
        self.words = words
        self.keys, self.queues = {}, {}
        self.opening, self.births = 1, count(1)
        self.name_opening, self.next_id = 1, 1
        self.rows, self.asks = {}, {}
        self.tickets, self.notes, self.replies = [], [], []

    def bytes_of(self, number):
        return b''.join(pack('<I', next(self.words)) for _ in range(number))

    def draw(self, name, number, material):
        """A key that is drawn and sealed."""
        iv = self.bytes_of(4)
        key = self.bytes_of(len(material) // 4)
        return name, number, iv, sealed(material, iv, key)

    def key(self, name):
        if name not in self.keys:
            raise Refused('K4 NoSuchKey')
        return self.keys[name]

    def version(self, name, number):
        key = self.key(name)
        if number > key.last:
            raise Refused('K5 NoSuchVersion')
        return key.materials[number]

    def generate(self, name, wanted):
        key = self.key(name)
        if wanted > 1000:
            raise Refused('K12 TooManyAsked')
        ready = self.queues.setdefault(key.birth, [])
        taken = ready[:wanted]
        del ready[:wanted]
        return taken + [self.draw(name, key.last, key.materials[-1]) for _ in range(wanted - len(taken))]

    def low(self):
        """The key whose queue comes first to be filled, or None."""
        limit = min(self.size, self.watermark)
        lengths = [(len(self.queues[key.birth]), key.birth, name) for name, key in self.keys.items() if key.birth in self.queues]
        return min((it for it in lengths if it[0] < limit), default=(0, 0, None))[2]


def named(text):
    name, _, number = text.partition('@')
    return name, int(number)


def shown(edek):
    return f'{edek[0]}@{edek[1]}:{edek[2].hex()}:{edek[3].hex()}'


def kms(world, moment, verb, *fields):
    """The answer to a call on keys."""
    name = fields[0]
    if verb == 'create':
        if name in world.keys:
            raise Refused('K6 KeyExists')
        material = world.bytes_of(int(fields[1]) // 32) if fields[2] == '-' else bytes.fromhex(fields[2])
        world.keys[name] = Key(world.opening << 32 | next(world.births), material, moment)
        return f'version {name}@0 {material.hex()}'
    if verb == 'roll':
        key = world.key(name)
        material = world.bytes_of(len(key.materials[0]) // 4) if fields[1] == '-' else bytes.fromhex(fields[1])
        key.materials.append(material)
        if key.birth in world.queues:
            world.queues[key.birth] = []
        return f'version {name}@{key.last} {material.hex()}'
    if verb == 'delete':
        world.queues.pop(world.key(name).birth, None)
        del world.keys[name]
        return 'done'
    if verb == 'invalidate':
        if world.key(name).birth in world.queues:
            world.queues[world.key(name).birth] = []
        return 'done'
    if verb == 'metadata':
        key = world.key(name)
        return f'meta {name} {8 * len(key.materials[0])} {len(key.materials)} {key.created}'
    if verb == 'generate':
        return ' '.join(['ready'] + [shown(it) for it in world.generate(name, int(fields[1]))])
    if verb == 'decrypt':
        material = world.version(*named(name))
        return 'key ' + sealed(material, bytes.fromhex(fields[1]), bytes.fromhex(fields[2])).hex()
    raise ValueError(verb)


def kms_answer(world, moment, *fields):
    try:
        return kms(world, moment, *fields)
    except Refused as why:
        return f'refused {why}'


# ---- tickets and deposits

def ticket(world):
    name = world.low()
    if name is None:
        return 'none'
    key = world.keys[name]
    wanted = world.size - len(world.queues[key.birth])
    world.tickets.append((world.opening, key.birth, name, key.last, key.materials[-1]))
    return f'ticket {len(world.tickets)} {name}@{key.last} {wanted}'


def deposit(world, number):
    if not 1 <= number <= len(world.tickets):
        return 'unknown'
    opening, birth, name, version, material = world.tickets[number - 1]
    edek = world.draw(name, version, material)
    key = world.keys.get(name)
    if key is None:
        return f'stale {world.opening} 0 0'
    if (opening, birth, version) != (world.opening, key.birth, key.last):
        return f'stale {world.opening} {key.birth} {key.last}'
    ready = world.queues.get(birth)
    if ready is None or len(ready) == world.size:
        return 'full'
    ready.append(edek)
    return 'kept'


# ---- the namesystem: directories of the root, and files in those that are zones

def new_id(world):
    world.next_id += 1
    return world.name_opening << 32 | world.next_id - 1


def ask(world, want, path, key=None):
    if want == 'create' and path in world.rows:
        return 'refused N3 Exists'
    call = ('metadata', key) if want == 'zone' else ('generate', world.rows[path.rpartition('/')[0]][1])
    note = new_id(world), call[0], call[1], path
    world.notes.append(note)
    world.asks[note[0]] = path
    return f'ask {len(world.notes)} {note[0]} {call[0]} {call[1]}'


def draw(world, moment, number):
    if not 1 <= number <= len(world.notes):
        return 'unknown'
    note = world.notes[number - 1]
    reply = kms_answer(world, moment, note[1], note[2], '1')
    world.replies.append((note, reply))
    return f'reply {len(world.replies)} {reply}'


def finish(world, number):
    if not 1 <= number <= len(world.replies):
        return 'unknown'
    (made, call, key, path), reply = world.replies[number - 1]
    if made not in world.asks:
        return f'refused N16 AskGone {world.name_opening} {world.next_id}'
    del world.asks[made]
    if reply.startswith('refused '):
        return 'refused N21 KeyRefused ' + reply[8:]
    if call == 'metadata':
        world.rows[path] = world.rows[path][0], key, None
        return 'done'
    if path in world.rows:
        return 'refused N3 Exists'
    world.rows[path] = made, None, reply[6:]
    return 'done'


def info(world, path):
    if path not in world.rows:
        return 'refused N2 NoSuchPath'
    made, key, edek = world.rows[path]
    if edek is None:
        return f'dir {made} {path if key else "-"} {key or "-"}'
    return f'file {made} {path.rpartition("/")[0]} {edek}'


def answer(world, moment, line):
    """The answer to the event of a line."""
    words = line.split(' ')
    if words[0] == 'kms':
        return kms_answer(world, moment, *words[2:])
    if words[0] == 'ticket':
        return ticket(world)
    if words[0] == 'deposit':
        return deposit(world, int(words[1]))
    if words == ['restart', 'kms']:
        world.opening += 1
        world.births = count(1)
        world.queues = {}
        return f'opened {world.opening}'
    if words == ['restart', 'nn']:
        world.name_opening += 1
        world.next_id = 1
        world.asks = {}
        return f'opened {world.name_opening}'
    if words[0] == 'ask':
        return ask(world, *words[2:])
    if words[0] == 'draw':
        return draw(world, moment, int(words[1]))
    if words[0] == 'finish':
        return finish(world, int(words[1]))
    if words[2] == 'mkdir':
        world.rows[words[3]] = new_id(world), None, None
        return 'done'
    if words[2] == 'info':
        return info(world, words[3])
    raise ValueError(line)


def read_trial(path):
    """The sizes, the words and the events of a trial."""
    sizes, words, events, inside = dict(SIZES), [], [], False
    with open(path, encoding='ascii') as file:
        for line in file.read().splitlines():
            if line == '' or line.startswith('#'):
                continue
            if inside:
                events.append(line)
            elif line == 'input':
                inside = True
            elif line.startswith('draw '):
                words += [int(word, 16) for word in line.split()[1:]]
            elif line.startswith('property '):
                name, _, value = line[9:].partition('=')
                if name in sizes:
                    sizes[name] = int(value)
    return sizes, words, events


def answers(path):
    """The lines that the trial at a path is to print."""
    sizes, words, events = read_trial(path)
    world = World(sizes, chain(words, (0 for _ in count())))
    return [f'{moment} {answer(world, moment, line)}' for moment, line in enumerate(events, 1)] + ['status 0']


def check(report, path):
    """Compares a report with the model's; the status of the check."""
    wanted, found = answers(path), report.read().splitlines()
    for line, other in zip(wanted, found):
        if line != other:
            print(f'{line} is expected, and this was printed: {other}')
            return 1
    if len(wanted) != len(found):
        print(f'{len(wanted)} lines are expected, and there are {len(found)}')
        return 1
    return 0
