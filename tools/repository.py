"""The crates of this repository, as crates.txt lists them, for the scripts that build and measure them."""

import os
import shutil

ROOT = os.path.dirname(os.path.dirname(os.path.realpath(__file__)))

# What the proof of a crate reads, and the stored run of a program.
PARTS = ("src", "specs", "proofs", "data", "stdin", "stdout", "args", "status")


def read_uses(root):
    """The crates of the repository that each of its crates uses, by name."""
    with open(f"{root}/crates.txt", encoding="utf-8") as file:
        rows = [line.split(":") for line in file if ":" in line and not line.startswith("#")]
    names = [name.strip() for name, _ in rows]
    return {name: [use for use in words.split() if use in names] for name, (_, words) in zip(names, rows)}


def read_groups(root):
    """The crates of the repository by the groups of crates.txt, which begin with lines that begin with ##."""
    groups = {}
    with open(f"{root}/crates.txt", encoding="utf-8") as file:
        for line in file:
            if line.startswith("## "):
                crates = groups[line[3:].strip()] = []
            elif ":" in line and not line.startswith("#"):
                crates.append(line.split(":")[0].strip())
    return groups


def all_below(uses, name):
    """The crates below this one, and itself."""
    found, left = set(), [name]
    while left:
        crate = left.pop()
        if crate not in found:
            found.add(crate)
            left += uses[crate]
    return found


def copy_crates(root, names, room):
    """Copies to the folder `room` what the proofs of these crates read, with their lines of crates.txt, so that `rt ci` runs there."""
    # `rt ci` runs at the top of a repository alone.
    os.makedirs(f"{room}/.git", exist_ok=True)
    with open(f"{root}/crates.txt", encoding="utf-8") as file:
        rows = [line for line in file if line.split(":")[0].strip() in names]
    with open(f"{room}/crates.txt", "w", encoding="utf-8") as file:
        file.writelines(rows)
    shutil.copyfile(f"{root}/HANDLES", f"{room}/HANDLES")
    for name in names:
        if not os.path.isdir(f"{room}/crates/{name}"):
            copy_crate(f"{root}/crates/{name}", f"{room}/crates/{name}")


def copy_crate(crate, to):
    os.makedirs(to)
    for part in PARTS:
        if os.path.isdir(f"{crate}/{part}"):
            shutil.copytree(f"{crate}/{part}", f"{to}/{part}", symlinks=True)
        elif os.path.isfile(f"{crate}/{part}"):
            shutil.copyfile(f"{crate}/{part}", f"{to}/{part}")


def count_lines(crate, ending):
    """How many lines the files below this folder have whose names end so."""
    found = 0
    for at, _, names in os.walk(crate):
        for name in names:
            if name.endswith(ending):
                with open(f"{at}/{name}", "rb") as file:
                    found += file.read().count(b"\n")
    return found
