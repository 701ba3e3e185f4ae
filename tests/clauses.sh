#!/usr/bin/env bash
# The pages name what is there. In docs/proved.md each function, type and law of a first column is an item of a crate that its
# heading names, and each name in brackets after it a clause, or a field of a record of that crate. In docs/promises.md the same holds
# of each entry 'Stated in' and the crates that it names.
set -u
cd "$(dirname "${BASH_SOURCE[0]}")/.." || exit 1
command -v python3 >/dev/null || { echo "tests/clauses.sh: skipped, the command python3 is not here"; exit 0; }

python3 - <<'END'
import functools
import glob
import os
import re
import sys

PROVED, PROMISES = "docs/proved.md", "docs/promises.md"
CRATES = set(os.listdir("crates"))


@functools.cache
def text_of(crate, pattern):
    """All files of a crate that match, as one text."""
    files = glob.glob(f"crates/{crate}/{pattern}", recursive=True)
    return "\n".join(open(file, encoding="utf-8").read() for file in files)


def is_item(name, code, specs):
    item = rf"\b(fn|struct|enum|trait) {re.escape(name)}\b"
    definition = rf"^ *(abbrev )?pub (record |abbrev )?{re.escape(name)} [:({{]"
    return re.search(item, code) or re.search(definition, specs, re.M)


def is_clause(name, code, specs):
    clause = rf"\bensures {name}\b|\bghost {name} ="
    field = rf"\bpub (record |abbrev )?{name} [:({{]|\babbrev pub {name} :"
    return re.search(clause, code) or re.search(field, specs)


def names_in(text):
    """The items that a text names, and the clauses: those in brackets which are no links."""
    items = [item.split("::")[-1] for item in re.findall(r"`([^`]+)`", text) if "/" not in item]
    clauses = [name for group in re.findall(r"\[([a-zA-Z_,:\s]+)\](?!\()", text) for name in re.split(r"[,:\s]+", group)]
    return [item for item in items if item not in CRATES], clauses


def missing_of(text, crates):
    """The names of a text that none of these crates has, and how many names it has."""
    code = "\n".join(text_of(crate, "src/**/*.rt") for crate in crates)
    specs = "\n".join(text_of(crate, "*/**/*.antt") for crate in crates)
    items, clauses = names_in(text)
    missing = [name for name in items if not is_item(name, code, specs)]
    return missing + [name for name in clauses if not is_clause(name, code, specs)], len(items) + len(clauses)


def rows_of_proved():
    """The first cells of the tables, each with its line and the crates of its heading."""
    crates = []
    for number, line in enumerate(open(PROVED, encoding="utf-8"), 1):
        if line.startswith("## "):
            crates = [word for word in re.split(r"[ ,:]+", line[3:]) if word in CRATES]
        if crates and line.startswith("| "):
            yield f"{PROVED}, line {number}", line.split("|")[1], crates


def entries_of_promises():
    """The entries that say where a promise is stated, each with its line and the crates that it names."""
    text = open(PROMISES, encoding="utf-8").read()
    for entry in re.finditer(r"^- Stated in: (?s:.*?)(?=^- |^\n|\Z)|^\| \*\*.*\.\*\* .* (\| .* \|)$", text, re.M):
        crates = [word for word in re.findall(r"`(\w+)`", entry[0]) if word in CRATES]
        yield f"{PROMISES}, line {text.count(chr(10), 0, entry.start()) + 1}", entry[1] or entry[0], crates


seen = failures = 0
for place, text, crates in [*rows_of_proved(), *entries_of_promises()]:
    missing, count = missing_of(text, crates)
    for name in missing:
        print(f"tests/clauses.sh: {place}: {' and '.join(crates) or 'no crate'} has no {name}")
    failures += len(missing)
    seen += count
if seen < 300:
    print(f"tests/clauses.sh: only {seen} names were found")
    failures += 1
sys.exit(failures > 0)
END
