#!/usr/bin/env bash
# Clauses can be read: none has over 300 characters, and at most one in twenty has a line over 100 columns. What would be longer is
# named in specs/.
set -u
cd "$(dirname "${BASH_SOURCE[0]}")/.." || exit 1
command -v python3 >/dev/null || { echo "tests/lengths.sh: skipped, the command python3 is not here"; exit 0; }

python3 - <<'END'
import glob
import re
import sys

MOST, WIDE, SHARE = 300, 100, 0.05
START = re.compile(r"^ *(?:ensures|requires)(?: \w+)? \{|^ *ghost (?!use )[^{\n]*\{", re.M)


def clauses(text):
    """The clauses of a source, each with its braces, and the number of its first line."""
    for start in START.finditer(text):
        depth, at = 0, start.end() - 1
        while True:
            depth += {"{": 1, "}": -1}.get(text[at], 0)
            at += 1
            if depth == 0:
                break
        yield text.count("\n", 0, start.start()) + 1, text[start.start() : at]


count, wide, long = 0, 0, []
for file in sorted(glob.glob("crates/*/src/**/*.rt", recursive=True)):
    with open(file, encoding="utf-8") as source:
        for line, clause in clauses(source.read()):
            count += 1
            wide += any(len(it) > WIDE for it in clause.split("\n"))
            if len(" ".join(clause.split())) > MOST:
                long.append(f"{file}, line {line}: a clause of over {MOST} characters")
if not count:
    long.append("no clause was found")
if wide > count * SHARE:
    long.append(f"{wide} of {count} clauses have a line over {WIDE} columns")
for it in long:
    print(f"tests/lengths.sh: {it}")
sys.exit(bool(long))
END
