#!/usr/bin/env bash
# Each relative link in the pages at the top and in docs/*.md leads to a file of the repository, and each anchor to a heading of
# it. Each path of the repository that is named in them exists.
set -u
cd "$(dirname "${BASH_SOURCE[0]}")/.." || exit 1
command -v python3 >/dev/null || { echo "tests/links.sh: skipped, the command python3 is not here"; exit 0; }

python3 - ./*.md docs/*.md <<'END'
import os
import re
import sys

CODE = re.compile(r"^```.*?^```|^    .*?$", re.M | re.S)
LINK = re.compile(r"\[[^\]]*\]\(([^)\s]+)\)")
PATH = re.compile(r"`(?:\./)?((?:tests|examples|docs|bench|completions|packaging|tools|crates|[a-z_]+/(?:specs|src|proofs))/[\w./-]*)`")


def anchors(text):
    """The anchors of the headings, as GitHub makes them."""
    found = set()
    for heading in re.findall(r"^#+ (.*)$", text, re.M):
        name = re.sub(r"[^\w\- ]", "", heading.strip().lower()).replace(" ", "-")
        count = 0
        while (name if count == 0 else f"{name}-{count}") in found:
            count += 1
        found.add(name if count == 0 else f"{name}-{count}")
    return found


def fault(page, target):
    """Why a link does not resolve, or None."""
    path, _, anchor = target.partition("#")
    file = os.path.normpath(os.path.join(os.path.dirname(page), path)) if path else page
    if not os.path.exists(file):
        return "no such file"
    if anchor and anchor not in anchors(open(file, encoding="utf-8").read()):
        return "no such heading"
    return None


seen = failures = 0
for page in sys.argv[1:]:
    text = CODE.sub("", open(page, encoding="utf-8").read())
    for path in PATH.findall(text):
        made = "NAME" in path or "out" in path.split("/")
        if not made and not any(map(os.path.exists, [path, os.path.join("crates", path)])):
            print(f"tests/links.sh: {page}: {path}: no such path")
            failures += 1
    for target in LINK.findall(text):
        if "://" in target:
            continue
        seen += 1
        why = fault(page, target)
        if why:
            print(f"tests/links.sh: {page}: {target}: {why}")
            failures += 1
if seen < 50:
    print(f"tests/links.sh: only {seen} links were found")
    failures += 1
sys.exit(failures > 0)
END
