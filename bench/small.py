"""Small scripts made at random, and what lwkt_explore finds of one; for bench/explored and bench/outcomes."""

import json
import random
import subprocess
import sys

from faults import PROGRAM, need_program
from steps import places, table

# The steps but for those that make sections, and those that would change little here.
FEW = {"get", "gets", "try", "read", "write", "rel", "swap", "add", "exit"}
OTHERS = [step for step in table() if step.version == 1 and step.word not in FEW]
# How many variables may take the answer to a step of version 3.
PLACES = places()


def is_third():
    """Whether scripts of version 3 are asked for."""
    return sys.argv[1:2] == ["--third"]


def seeds(text, count):
    """The seeds that the arguments ask for: COUNT, or this many, from SEED or 1 on. With --help the text is printed."""
    words = sys.argv[1 + is_third():]
    if words in (["--help"], ["-h"]):
        print(text.strip())
        sys.exit()
    if len(words) > 2 or not all(word.isdecimal() for word in words):
        sys.exit(text.strip())
    need_program()
    count, seed = (int(word) for word in words + [count, 1][len(words):])
    return range(seed, seed + count)


def steps_of(dice, cpu, cpus, count):
    """So many steps of a processor's one thread. Each processor has a message of its own number, and sends it to another."""
    other = (cpu + dice.randrange(1, cpus)) % cpus
    steps, held = [], []
    while len(steps) < count:
        kind = dice.randrange(12)
        if kind < 3:
            held.append(dice.randrange(2))
            steps.append([dice.choice(["get", "gets", "try"]), held[-1]])
        elif kind < 5 and held:
            steps.append(dice.choice([["read", held[-1], 0], ["write", held[-1], 0, dice.randrange(3)]]))
        elif kind < 7 and held:
            steps.append(["rel", held.pop()])
        else:
            step = dice.choice(OTHERS)
            numbers = {"t": dice.randrange(2), "m": other if step.word in ("reply", "isab") else cpu, "p": other, "op": dice.randrange(2),
                       "arg": dice.randrange(3), "flags": dice.randrange(4), "result": 5}
            steps.append([step.word, *(numbers.get(name, 0) for name in step.parts)])
    return steps


def expression(dice):
    """A number, a variable, or one operator between two of these."""
    leaves = [dice.choice([dice.randrange(3), f"v{dice.randrange(3)}"]) for _ in "xy"]
    return leaves[0] if dice.randrange(2) else [dice.choice("+-*/%"), *leaves]


def condition(dice):
    return [dice.choice(["=", "!=", "<", "<=", ">", ">="]), expression(dice), expression(dice)]


def computed(dice, step):
    """An ask, at times with a variable in place of its last number, and with variables that take its answer."""
    most = PLACES.get(step[0], 0)
    if most and dice.randrange(3):
        return [*step, {"to": [dice.randrange(3) for _ in range(dice.randrange(1, most + 1))]}]
    return [*step[:-1], f"v{dice.randrange(3)}"] if step[0] == "write" and dice.randrange(2) else step


def looped(dice, steps):
    """A loop that makes these steps, which begin with an ask, at most twice each time."""
    kind, rounds = dice.randrange(3), [["set", 7, ["+", "v7", 1]]]
    if kind == 0:
        return [["times", 2, steps]]
    if kind == 1:
        return [["set", 7, 0], ["while", ["<", "v7", 2], steps + rounds]]
    leave = ["if", ["or", condition(dice), [">", "v7", 0]], [["break"]]]
    return [["set", 7, 0], ["loop", steps[:1] + [leave] + rounds + steps[1:]]]


def decided(dice, asks):
    """The same asks in a program of version 3: what is computed, and one part of them in an `if`, a loop or both."""
    steps = [computed(dice, step) for step in asks]
    first = dice.randrange(len(steps))
    last = dice.randrange(first, len(steps)) + 1
    part = steps[first:last]
    if dice.randrange(2):
        part = looped(dice, part)
    if dice.randrange(2):
        part = [["if", condition(dice), part, *([[["fault", 0]]] if dice.randrange(2) else [])]]
    more = dice.choice([[], [["set", dice.randrange(3), expression(dice)]], [["assert", condition(dice), dice.randrange(9)]]])
    return steps[:first] + more + part + steps[last:]


def script_of(seed, cpus=2, most=3, version=1):
    """A script of so many processors with a thread each, of at most so many steps that ask. Its limits end no run that could go on."""
    dice = random.Random(seed)
    threads = [{"cpu": cpu, "repeat": 1, "steps": steps_of(dice, cpu, cpus, dice.randrange(1, most + 1))} for cpu in range(cpus)]
    token = {"cells": [1], "law": "any", "param": 0, "gen": 0}
    if version == 3:
        token["record"] = None
        for thread in threads:
            thread.update(vars=[dice.randrange(3) for _ in "xyz"], service=not dice.randrange(6), steps=decided(dice, thread["steps"]))
    messages = [{"of": [cpu, 0], "round": 0} for cpu in range(cpus)]
    return json.dumps({"version": version, "turns": 100, "idle": 100000000, "cpus": cpus, "tokens": [token, token],
                       "messages": messages, "threads": threads})


def call(words, script):
    return subprocess.run(words, input=script, capture_output=True, text=True, check=False)


def name_of(line):
    """What a message line is about: `message 0`."""
    return " ".join(line.split()[:2])


def otherwise(report, forms):
    """A report with other message lines, where these stand behind `or`, with semicolons between them."""
    other = {name_of(line): line for line in forms.split("; ")}
    return [other.get(name_of(line), line) for line in report]


class Search:
    """What lwkt_explore printed of a script: each report without its verdict, with the length of its order, and whether that is all."""

    def __init__(self, text):
        self.lengths, self.is_complete = {}, False
        report, length, is_noted = None, 0, True
        for line in text.splitlines() + ["end"]:
            body, _, order = line.partition(", order ")
            if line.startswith("or message "):
                self.note(report, length)
                is_noted = True
                self.note(otherwise(report, body[len("or "):]), self.turns(order))
            elif line.startswith(("token ", "tally ", "record ", "message ", "thread ")) and report is not None:
                report.append(line)
            else:
                if report is not None and not is_noted:
                    self.note(report, length)
                is_outcome = line.startswith("outcome ")
                report, is_noted = ([], False) if is_outcome else (None, True)
                length = self.turns(order)
                self.is_complete = self.is_complete or line.endswith("; complete")

    def note(self, report, length):
        self.lengths["\n".join(report)] = length

    @staticmethod
    def turns(order):
        return len(order.replace("-", "").split())


def explored(script, *words):
    """What a search of the script finds, its exit status, and what it says on standard error."""
    done = call([PROGRAM, "lwkt_explore", *words], script)
    return Search(done.stdout), done.returncode, done.stderr


def report_of(text):
    """The report of a run without its verdict, and the verdict."""
    lines = text.splitlines()
    return "\n".join(lines[:-1]), lines[-1] if lines else ""
