"""The mutants of a crate, which its edits.txt has; for tools/pages and bench/edits.

edits.txt has mutants with blank lines between, and comments, which begin with #. A mutant is a line with its name, or `gate: NAME` if
the gate tries it, and then `file: PATH`, and for each text of this file that becomes another one `old: TEXT` and `new: TEXT`."""

import collections
import os
import re

# A mutant, the file and the line that it begins at, its lines below the name, and whether the gate tries it.
Mutant = collections.namedtuple("Mutant", "name path line text in_gate")
# What each kind of line looks like, whole, and the kinds that may stand below it.
FORMS = {"name": r"(gate: )?[A-Za-z0-9_-]+", "file": r"file: \S+", "old": r"old: .+", "new": r"new:.*", "end": ""}
BELOW = {"begin": ["name"], "name": ["file"], "file": ["old"], "old": ["new"], "new": ["old", "file", "end"]}
SHOWN = {"name": "a mutant's name", "file": "`file: PATH`", "old": "`old: TEXT`", "new": "`new: TEXT`", "end": "a blank line"}


def read(path):
    with open(path, encoding="utf-8", errors="replace", newline="") as it:
        return it.read()


def blocks(text):
    """The lines between blank ones, but for comments, each with its number; behind the last of a block is an empty line."""
    block = []
    for number, line in enumerate([*text.split("\n"), ""], 1):
        if line.startswith("#"):
            continue
        if line.strip():
            block.append((number, line))
        elif block:
            yield [*block, (number, "")]
            block = []


def wrong_in(block):
    """The number of the first line of a block that can't stand where it does, with what can, or None."""
    above = "begin"
    for number, line in block:
        kind = next((it for it in BELOW[above] if re.fullmatch(FORMS[it], line)), None)
        if kind is None:
            return number, "here has to be " + " or ".join(SHOWN[it] for it in BELOW[above])
        above = kind
    return None


def of(folder):
    """The mutants of the crate in this folder, and what is wrong with its edits.txt, each with its path and line: blocks that aren't
    mutants, and names that were given before."""
    path, found, wrong = f"{folder}/edits.txt", [], []
    for block in blocks(read(path)) if os.path.exists(path) else []:
        said, (number, line) = wrong_in(block), block[0]
        name = line.removeprefix("gate: ")
        if not said and name in {it.name for it in found}:
            said = number, f"{name} is in {path} already"
        if said:
            wrong.append(f"{path}:{said[0]}: {said[1]}")
        else:
            found.append(Mutant(name, path, number, "".join(it + "\n" for _, it in block[1:-1]), name != line))
    return found, wrong
