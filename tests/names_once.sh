#!/usr/bin/env bash
# Each predicate, record and data type of specs/ has a name of its own: a name that begins with a capital letter is defined, at the
# start of a line, in one crate only, or in crates that are made alike.
set -u
cd "$(dirname "${BASH_SOURCE[0]}")/.." || exit 1
command -v python3 >/dev/null || { echo "tests/names_once.sh: skipped, the command python3 is not here"; exit 0; }

python3 - <<'END'
import collections
import glob
import os
import re
import sys

# Crates that are made alike: whoever knows a name in one of them knows what it means in the others.
PARALLEL = [
    # the key management service and the namesystem: their states and calls
    {"kms_core", "name_core"},
    # what a log stands for, the logs of both services, and the tables that are made of them
    {"log_kinds", "kms_store", "edit_log", "name_store"},
    # the records of both logs
    {"key_rows", "edit_ops"},
    # the requests and responses of both services
    {"kms_rest", "name_rest"},
    # the histories of both behind a lock
    {"kms_cell", "name_history"},
    # the words of the programs hkms, hkfs and hkcopy
    {"command_line", "fs_command_line", "copy_command_line"},
    # the top calls of these programs
    {"hkms_commands", "data_stream", "copy_command"},
    # the commands that write a range of a body to the output
    {"copy_reads", "data_stream"},
]
DEFINITION = re.compile(r"^(?:abbrev pub|unfoldable pub|pub record|pub data) ([A-Z]\w*)", re.M)


def homes_of_names():
    """The crates that define a name, with the first line of it in each."""
    homes = collections.defaultdict(dict)
    for file in sorted(glob.glob("crates/*/specs/**/*.antt", recursive=True)):
        with open(file, encoding="utf-8") as source:
            text = source.read()
        for found in DEFINITION.finditer(text):
            line = text.count("\n", 0, found.start()) + 1
            homes[found[1]].setdefault(file.split("/")[1], f"{file}, line {line}")
    return homes


homes = homes_of_names()
faults = []
for name, places in sorted(homes.items()):
    if len(places) > 1 and not any(places.keys() <= group for group in PARALLEL):
        faults.append(f"{name} is defined in {len(places)} crates: {'; '.join(places.values())}")
for group in PARALLEL:
    faults += [f"there is no crate {crate}" for crate in sorted(group) if not os.path.isdir(f"crates/{crate}")]
if len(homes) < 1000:
    faults.append(f"only {len(homes)} names were found")
for fault in faults:
    print(f"tests/names_once.sh: {fault}")
sys.exit(bool(faults))
END
