#!/usr/bin/env bash
# crates.txt and docs/architecture.md agree: docs/crates.svg is the picture that tools/draw_crates makes of crates.txt, the table of
# the page has the same groups and crates in the same order, and each crate comes after those that it uses. Each folder of crates/
# has a line.
set -u
cd "$(dirname "${BASH_SOURCE[0]}")/.." || exit 1
command -v python3 >/dev/null || { echo "tests/crates.sh: skipped, the command python3 is not here"; exit 0; }

failures=0
tools/draw_crates | diff docs/crates.svg - || { echo 'tests/crates.sh: docs/crates.svg is old: tools/draw_crates draws it anew'; failures=1; }

python3 - <<'END' || failures=1
import os
import re
import sys

sys.dont_write_bytecode = True
sys.path.insert(0, "tools")
from repository import ROOT, read_groups, read_uses


def groups_of_page():
    """The groups of the page's table. A row without a group is of the group above it."""
    groups = {}
    for line in open(f"{ROOT}/docs/architecture.md", encoding="utf-8"):
        row = re.fullmatch(r"\| (?:([^|`]+) )?\| `(\w+)` \| [^|]+ \|\n", line)
        if row:
            group = row[1] or group
            groups.setdefault(group, []).append(row[2])
    return groups


groups, uses = read_groups(ROOT), read_uses(ROOT)
crates = [crate for names in groups.values() for crate in names]
faults = []
shown = groups_of_page()
if [*shown] != [*groups]:
    faults.append(f"docs/architecture.md has the groups {[*shown]}, and crates.txt {[*groups]}")
faults += [f"{name}: docs/architecture.md has {shown[name]}, and crates.txt {groups[name]}" for name in shown if shown[name] != groups.get(name)]
if sorted(crates) != sorted(os.listdir(f"{ROOT}/crates")):
    faults.append("crates.txt does not have the folders of crates/")
for place, crate in enumerate(crates):
    faults += [f"crates.txt has {crate} before {use}, which it uses" for use in uses[crate] if use not in crates[:place]]
for fault in faults:
    print(f"tests/crates.sh: {fault}")
sys.exit(len(faults) > 0)
END

exit "$failures"
