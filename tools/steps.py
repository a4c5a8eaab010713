"""The steps of a thread, by the tables of docs/FORMATS.md; for tools/pages, tools/schemas and the benches."""

import collections
import os
import re

PAGE = os.path.join(os.path.dirname(os.path.dirname(os.path.abspath(__file__))), "docs/FORMATS.md")
# How a step is written in JSON, its keyword and what stands behind it there, its form in the language, what it does, the version that
# has it first, and what each of its refusals means.
Step = collections.namedtuple("Step", "json word parts form does version refusals")


def rows(head):
    """The cells of the rows of the table that begins so."""
    with open(PAGE, encoding="utf-8") as file:
        lines = file.read().split("\n| " + head)[1].split("\n\n")[0].splitlines()
    return [line.strip("| ").split(" | ") for line in lines[2:]]


def limits(version):
    """The most that each part of a step is in a version. Parts of one row of the table go by the name of the first."""
    return {names.split(", ")[0]: int(re.findall(r"\d+", most.replace("version 2", ""))[1 - version]) for names, most, _ in rows("Part |")}


def table():
    """The steps."""
    known, firsts = {}, {name: names.split(", ")[0] for names, *_ in rows("Part |") for name in names.split(", ")}
    for written, form, does, refused in rows("In JSON |"):
        word, *parts = re.findall(r"\w+", written)
        refusals = dict(re.findall(r"(?:^|; )(\d+) ?([^;]*)", refused))
        known.update((number, what) for number, what in refusals.items() if what)
        yield Step(written.strip("`"), word, [firsts[name] for name in parts], form.strip("`"), does, 2 if "version 2" in does else 1,
                   {int(number): known[number] for number in refusals})


def places():
    """How many variables may take the answer to a step, by its keyword, in version 3."""
    return {word: int(count[-1]) for names, count, _ in rows("Step | Places") if count[-1].isdigit() for word in re.findall(r"\w+", names)}
