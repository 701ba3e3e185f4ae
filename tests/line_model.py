"""The lines of docs/event-text.md: which are events, which are quiet and which are bad, and what an event can be answered.

Each form is a regular expression. Refusals for want of memory and for faults of the disk are left out: without them none comes.
"""

import re

LONGEST_LINE = 1_048_576

# A byte of a user or a path: printable and no `%`, `,` or `:`, or an escape.
BYTE = rb"(?:[!-$&-+\--9;-~]|%[0-9A-Fa-f]{2})"
USER = rb"(?P<user>" + BYTE + rb"+)"
PATH = BYTE + rb"*"
KEY = rb"[A-Za-z0-9._-]{1,64}"
NUMBER = rb"(?:0|[1-9][0-9]*)"
VERSION = KEY + rb"@" + NUMBER
BYTES = rb"(?:[0-9A-Fa-f]{2}){1,64}"
MATERIAL = rb"(?:-|" + BYTES + rb")"
TRIPLE = VERSION + rb":" + BYTES + rb":" + BYTES

# Answers have the same fields, in one spelling.
EDEK = VERSION + rb":[0-9a-f]{32}:(?:[0-9a-f]{32}|[0-9a-f]{48}|[0-9a-f]{64})"
HEX = rb"(?:[0-9a-f]{2})+"
SHOWN_PATH = rb"(?:/(?:[!-$&-+\-.0-9;-~/]|%[0-9A-F]{2})*)"
SHOWN_NAME = rb"(?:[!-$&-+\-.0-9;-~]|%[0-9A-F]{2})+"

TABLES = rb"(?:ServiceAcl|ServiceBlacklist|KeyAcl|DefaultAcl|NoAcl)"
OPERATIONS = (
    rb"(?:CREATE|DELETE|ROLLOVER|GET|GET_KEYS|GET_METADATA|SET_KEY_MATERIAL|GENERATE_EEK|DECRYPT_EEK|MANAGEMENT|READ)"
)
KEY_REFUSALS = (
    rb"(?:K3 Denied " + TABLES + rb" " + OPERATIONS + rb"|K4 NoSuchKey|K5 NoSuchVersion|K6 KeyExists|K7 WrongKey|K8 BadMaterial"
    rb"|K9 BadLength|K10 TooManyKeys|K11 TooManyVersions|K12 TooManyAsked)"
)
NAME_REFUSALS = (
    rb"(?:N1 BadPath|N2 NoSuchPath|N3 Exists|N4 NotADirectory|N5 NotEmpty|N6 NotSuperuser|N7 AlreadyInZone|N8 NotAZoneRoot"
    rb"|N9 CrossZone|N10 UnderReencryption|N11 HasSnapshots|N12 NotSnapshottable|N13 SnapshotExists|N14 NoSuchSnapshot"
    rb"|N15 TooManySnapshots|N16 AskGone \d+ \d+|N17 ZoneChanged|N18 AlreadySubmitted|N19 NotSubmitted|N20 TooManyInodes"
    rb"|N21 KeyRefused " + KEY_REFUSALS + rb"|N24 NestedSnapshottable|N25 RootOrInside)"
)

META = rb"meta " + KEY + rb" \d+ \d+ \d+"
READY = rb"ready(?: " + EDEK + rb")*"
STATUS = (
    rb"status (?:None|(?:Submitted|Processing|Completed) " + VERSION + rb" \d+ \d+ (?:yes|no) (?:-|[!-$&-+\-.0-9;-~/%]+))"
)
SHOWN_VERSION = rb"version " + VERSION + rb" (?:-|" + HEX + rb")"


def kms(rest, answer):
    return rb"kms " + USER + rb" " + rest, answer + rb"|refused " + KEY_REFUSALS


def nn(rest, answer):
    return rb"nn " + USER + rb" " + rest, answer + rb"|refused " + NAME_REFUSALS


def ask(rest, answer):
    return rb"ask " + USER + rb" " + rest, rb"ask \d+ \d+ " + answer + rb"|refused " + NAME_REFUSALS


def keep(rest, answer):
    """A line with the number of something that is kept."""
    return rest + rb" " + NUMBER, answer + rb"|unknown"


# Each form of an event, with the form of its answers.
FORMS = [
    kms(rb"create " + KEY + rb" " + NUMBER + rb" " + MATERIAL, SHOWN_VERSION),
    kms(rb"roll " + KEY + rb" " + MATERIAL, SHOWN_VERSION),
    kms(rb"metadata " + KEY, META),
    kms(rb"(?:delete|invalidate) " + KEY, rb"done"),
    kms(rb"metadatas " + KEY + rb"(?:," + KEY + rb")*", rb"metas(?: " + KEY + rb":\d+:\d+:\d+)+"),
    kms(rb"names", rb"names(?: " + KEY + rb")*"),
    kms(rb"current " + KEY, SHOWN_VERSION),
    kms(rb"versions " + KEY, rb"versions(?: " + VERSION + rb":" + HEX + rb")+"),
    kms(rb"version " + VERSION, SHOWN_VERSION),
    kms(rb"generate " + KEY + rb" " + NUMBER, READY),
    kms(rb"decrypt " + VERSION + rb" " + BYTES + rb" " + BYTES, rb"key " + HEX),
    kms(rb"reencrypt " + VERSION + rb" " + BYTES + rb" " + BYTES, rb"resealed " + EDEK),
    kms(rb"batch " + KEY + rb" " + TRIPLE + rb"(?:," + TRIPLE + rb")*", READY),
    (rb"ticket", rb"ticket \d+ " + VERSION + rb" \d+|none"),
    keep(rb"deposit", rb"kept|full|stale \d+ \d+ \d+"),
    (rb"restart (?:kms|nn)", rb"opened \d+"),
    nn(rb"(?:mkdir|delete|rdelete|allow|disallow|cancel) " + PATH, rb"done"),
    nn(rb"(?:rename|snap|unsnap) " + PATH + rb" " + PATH, rb"done"),
    nn(
        rb"info " + PATH,
        rb"dir \d+ (?:-|" + SHOWN_PATH + rb") (?:-|" + KEY + rb")|file \d+ (?:-|" + SHOWN_PATH + rb") (?:-|" + EDEK + rb")",
    ),
    nn(rb"list " + PATH, rb"list(?: " + SHOWN_NAME + rb"/?)*"),
    nn(rb"zones", rb"zones(?: " + SHOWN_PATH + rb":" + KEY + rb")*"),
    nn(rb"status " + PATH, STATUS),
    ask(rb"create " + PATH, rb"(?:none|generate " + KEY + rb")"),
    ask(rb"zone " + PATH + rb" " + KEY, rb"metadata " + KEY),
    ask(rb"submit " + PATH, rb"generate " + KEY),
    keep(rb"draw", rb"reply \d+ (?:nothing|" + META + rb"|" + READY + rb"|refused " + KEY_REFUSALS + rb")"),
    keep(rb"finish", rb"done|refused " + NAME_REFUSALS),
    (rb"walk " + PATH, rb"batch \d+ \d+|noneleft \d+|completed|refused " + NAME_REFUSALS),
    keep(rb"serve", rb"reply \d+ (?:" + READY + rb"|refused " + KEY_REFUSALS + rb")"),
    keep(rb"deliver", rb"applied \d+ \d+ \d+|ignored \d+"),
    keep(rb"giveup", rb"applied \d+ \d+ \d+|ignored \d+"),
]
FORMS = [(re.compile(line), re.compile(answer)) for line, answer in FORMS]


def unescaped(text):
    return re.sub(rb"%([0-9A-Fa-f]{2})", lambda it: bytes([int(it[1], 16)]), text)


def is_user(text):
    decoded = unescaped(text)
    try:
        decoded.decode()
    except UnicodeDecodeError:
        return False
    return len(decoded) <= 255


def are_numbers_in_range(line):
    """Whether the versions of a line that has a form are below 2^16, and its other numbers below 2^32."""
    fields = line.split(b" ")
    if fields[0] in (b"deposit", b"draw", b"finish", b"serve", b"deliver", b"giveup"):
        return int(fields[1]) < 2**32
    if fields[0] != b"kms":
        return True
    versions = re.findall(rb"@(\d+)", b" ".join(fields[3:]))
    is_counted = fields[2] in (b"create", b"generate")
    return all(int(it) < 2**16 for it in versions) and (not is_counted or int(fields[4]) < 2**32)


def answers_to(line):
    """The form of the answers to an event, or None if the line is no event."""
    if len(line) > LONGEST_LINE:
        return None
    for form, answer in FORMS:
        found = form.fullmatch(line)
        if found is None:
            continue
        user = found.groupdict().get("user")
        if (user is None or is_user(user)) and are_numbers_in_range(line):
            return answer
        return None
    return None


def is_quiet(line):
    return len(line) <= LONGEST_LINE and (line == b"" or line.startswith(b"#"))


def played(text):
    """The forms of the answers to a text, and the number of its first bad line, or None."""
    forms = []
    lines = text.split(b"\n")
    for number, line in enumerate(lines, 1):
        if is_quiet(line):
            continue
        form = answers_to(line)
        if form is None:
            return forms, number
        forms.append(form)
    return forms, None
