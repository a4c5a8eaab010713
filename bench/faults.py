"""The program for benches, and what bench/refused and bench/failing share: its names, and runs of it over bench/faults.c."""

import os
import subprocess
import sys

TOP = os.path.dirname(os.path.dirname(os.path.abspath(__file__)))
# For tools/steps.py.
sys.path.append(os.path.join(TOP, "tools"))
# The program that the environment names, or that was built or is shipped, whichever is newer, as ./lwkt chooses, or "".
PLACES = [os.path.join(TOP, place, "lwkt") for place in ("crates/lwkt/out", "dist/x86_64-linux")]
PROGRAM = os.environ.get("PROGRAM") or max(filter(os.path.exists, PLACES), key=os.path.getmtime, default="")
# Each name of the program, what is run, and whether its line about a failure goes to standard output.
RUN = ("lwkt_run", (PROGRAM, "lwkt_run"), True)
CHECK = ("lwkt_check", (PROGRAM, "lwkt_check"), False)
SHOW = ("lwkt_show", (PROGRAM, "lwkt_show"), False)
# How long a run may take, in seconds.
LONGEST = int(os.environ.get("LONGEST", "60"))


def fail(text):
    sys.exit("%s: %s" % (os.path.relpath(sys.argv[0], os.getcwd()), text))


def example(name):
    with open(os.path.join(TOP, "examples", name), "rb") as file:
        return file.read()


def need_program():
    if not PROGRAM:
        fail("there is no program; `make` builds it")


class Answer:
    """What a run came to: its status, or None where it didn't end in time, and what it wrote."""

    def __init__(self, status, out, err, calls):
        self.status, self.out, self.err, self.calls = status, out, err, calls

    def is_as(self, other):
        return (self.status, self.out, self.err) == (other.status, other.out, other.err)

    def text(self):
        if self.status is None:
            return "no end after %d s" % LONGEST
        return "status %d, %r, %r" % (self.status, self.out[:200], self.err[:200])


class Faults:
    """Runs in which some calls of a kind go wrong. `folder` is an empty one, for the library."""

    KINDS = ("alloc", "read", "write")

    def __init__(self, folder):
        self.library = os.path.join(folder, "faults.so")
        self.counts = os.path.join(folder, "counts")
        source = os.path.join(TOP, "bench/faults.c")
        words = [os.environ.get("CC", "cc"), "-O2", "-shared", "-fPIC", "-o", self.library, source, "-ldl"]
        try:
            built = subprocess.run(words).returncode == 0
        except FileNotFoundError:
            built = False
        if not built:
            fail("bench/faults.c couldn't be compiled")

    # A run in which the calls `first` to `last` of this kind go wrong; `last` is None for all from the first on. Its calls
    # are counted for each kind.
    def run(self, program, words, given, kind=None, how=None, first=None, last=None):
        faults = {"LD_PRELOAD": self.library, "COUNTS": self.counts}
        if kind:
            faults.update(FAULT=kind, HOW=str(how), FIRST=str(first))
        if last:
            faults.update(LAST=str(last))
        if os.path.exists(self.counts):
            os.remove(self.counts)
        command = [*program[1], *words]
        try:
            done = subprocess.run(command, input=given, capture_output=True, timeout=LONGEST, env=faults)
        except subprocess.TimeoutExpired:
            return Answer(None, b"", b"", None)
        except BrokenPipeError:
            fail("a run closed its input")
        # A run that was killed has left no counts.
        calls = None
        if os.path.exists(self.counts):
            with open(self.counts) as file:
                calls = dict(zip(self.KINDS, map(int, file.read().split())))
        return Answer(done.returncode, done.stdout, done.stderr, calls)
