"""The script of each_call.py, a shorter one, and what is asked after them."""

from world_model import sealed_text

MATERIALS = ["2b7e151628aed2a6abf7158809cf4f3c", "000102030405060708090a0b0c0d0e0f"]
PROPERTIES = [f"default.key.acl.{it}=*" for it in ("MANAGEMENT", "GENERATE_EEK", "DECRYPT_EEK", "READ")] + ["hkms.reencrypt.batch=2"]
WORDS = 128

# Each change is told twice, except a roll: if the disk fails in the first one, the second one settles it, and makes it if the log does not
# have it; else it is refused, or changes nothing. What is asked in between does not show a change that is pending. An ask is made twice,
# since a finish closes it even if the disk fails.
KEY = f"""\
kms a create k 128 {MATERIALS[0]}
kms a versions k
kms a create k 128 {MATERIALS[0]}
kms a generate k 1
"""
ZONE = """\
nn a mkdir /z
nn a info /z
nn a mkdir /z
ask hdfs zone /z k
ask hdfs zone /z k
draw 1
draw 2
finish 1
nn hdfs zones
finish 2
"""
FILE = """\
ask a create /z/a
ask a create /z/a
draw 3
draw 4
finish 3
nn a info /z/a
finish 4
"""
WHOLE = f"""\
# A key, a directory, a zone and three files.
{KEY}{ZONE}{FILE}ask a create /z/b
ask a create /z/b
draw 5
draw 6
finish 5
finish 6
ask a create /z/c
ask a create /z/c
draw 7
draw 8
finish 7
finish 8
# A snapshot, a roll and a re-encryption. A directory that exists and a key that does not settle the changes before them.
nn hdfs allow /z
nn a mkdir /
nn a info /z/.snapshot/s/a
nn hdfs allow /z
nn a snap /z s
nn a info /z/.snapshot/s/a
nn a snap /z s
kms a roll k {MATERIALS[1]}
kms a versions k
kms a delete i
ask hdfs submit /z
ask hdfs submit /z
draw 9
draw 10
finish 9
nn hdfs status /z
finish 10
walk /z
serve 1
deliver 11
nn hdfs status /z
deliver 11

restart kms
restart nn
walk /z
serve 2
deliver 12
nn a info /z/c
deliver 12
walk /z
nn hdfs status /z
walk /z
# Another key, which is deleted, and a re-encryption that is given up and cancelled.
kms a create j 128 {MATERIALS[1]}
kms a create j 128 {MATERIALS[1]}
kms a delete j
kms a versions j
kms a delete j
ask hdfs submit /z
ask hdfs submit /z
draw 11
draw 12
finish 13
finish 14
walk /z
giveup 3
nn hdfs status /z
giveup 3
nn hdfs cancel /z
nn hdfs status /z
nn hdfs cancel /z
# A rename, and what was made is undone.
nn a rename /z/c /z/d
nn a list /z
nn a rename /z/c /z/d
nn a delete /z/b
nn a list /z
nn a delete /z/b
nn a unsnap /z s
nn a info /z/.snapshot/s/b
nn a unsnap /z s
nn hdfs disallow /z
nn a info /z/.snapshot/s/b
nn hdfs disallow /z
"""
SHORT = f"""\
{KEY}{ZONE}{FILE}kms a roll k {MATERIALS[1]}
kms a delete i
ask hdfs submit /z
ask hdfs submit /z
draw 5
draw 6
finish 5
finish 6
walk /z
serve 1
deliver 7
deliver 7
walk /z
walk /z
"""
# What is asked in the end and after each start. The encrypted keys are those that a draw for a file can have come to.
FILES = [f"nn a info /z/{above}{it}" for above in ("", ".snapshot/s/") for it in "abcd"]
DECRYPTS = [
    "kms a decrypt " + sealed_text("k", number, bytes.fromhex(material), draw).replace(":", " ")
    for draw in range(7)
    for number, material in enumerate(MATERIALS)
]
QUESTIONS = ["kms a versions k", "kms a versions j", "nn a list /", "nn a list /z", "nn a info /z", "nn hdfs zones", "nn hdfs status /z"]
QUESTIONS += FILES + DECRYPTS


def events_of(script):
    """The lines of a script that are events."""
    return [it for it in script.splitlines() if it and not it.startswith("#")]
