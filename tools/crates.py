"""The crates of the tree, copies of them that `rt ci` has built, and checks over these; for bench/edits and tools/quick."""

import collections
import functools
import json
import os
import re
import shutil
import subprocess

TOP = os.path.dirname(os.path.dirname(os.path.abspath(__file__)))
# A crate: its kind as crates.txt has it, and what it uses, also from the kit.
Crate = collections.namedtuple("Crate", "name kind uses")
# How a command is run that reads nothing and whose output is looked at.
PIPED = {"stdin": subprocess.DEVNULL, "stdout": subprocess.PIPE, "stderr": subprocess.STDOUT, "errors": "replace"}


def read(file):
    with open(file, encoding="utf-8") as it:
        return it.read()


def write(file, text):
    with open(file, "w", encoding="utf-8") as it:
        it.write(text)


def listed(text=None):
    """Returns the crates that crates.txt, or this text in its place, lists, by their names."""
    lines = [re.match(r"(\w+)([^:#]*):([^#]*)", it) for it in (read(f"{TOP}/crates.txt") if text is None else text).split("\n")]
    return {it[1]: Crate(it[1], it[2].strip(), it[3].split()) for it in lines if it}


def below(crates, names):
    """Returns these crates and all crates of the tree that they stand on."""
    found = list(names)
    for name in found:
        found += [it for it in crates[name].uses if it in crates and it not in found]
    return found


def sources(name):
    """Returns the files that a proof of the crate reads, beside those of the crates below."""
    parts = [f"{TOP}/crates/{name}/{part}" for part in ("src", "specs", "proofs")]
    return sorted(f"{at}/{file}" for part in parts for at, _, files in os.walk(part) for file in files)


def copy_tree(crates, names, room):
    """Copies these crates, without their mutants and what was built of them, into the folder room."""
    # (rt wants its folder to be the top of a repository)
    os.mkdir(f"{room}/.git")
    shutil.copy(f"{TOP}/HANDLES", room)
    for name in names:
        shutil.copytree(f"{TOP}/crates/{name}", f"{room}/crates/{name}", ignore=shutil.ignore_patterns("out", "edits.txt"))
    write(f"{room}/crates.txt", "".join(f"{' '.join([it.name, *it.kind.split()])}: {' '.join(it.uses)}\n" for it in map(crates.get, names)))


def are_newer(crates, names):
    """Returns whether the libraries of these crates in the tree were built after the last change of their sources and of those below."""
    for name in names:
        built = f"{TOP}/crates/{name}/out/rlib/{name}.rlib"
        files = [file for it in below(crates, [name]) for file in sources(it)]
        if not os.path.isdir(built) or os.path.getmtime(built) < max(map(os.path.getmtime, files)):
            return False
    return True


def link(from_file, to_file):
    try:
        os.link(from_file, to_file)
    except OSError:
        shutil.copy2(from_file, to_file)


def take_built(names, room):
    """Gives the copies in the folder room the libraries of these crates that a run of `rt ci` has just built in the tree. Returns whether all
    were there."""
    for name in names:
        built = f"{TOP}/crates/{name}/out/rlib"
        if not os.path.isdir(f"{built}/{name}.rlib"):
            return False
        # (links, since the run that built them puts older ones in their place when it ends)
        shutil.copytree(built, f"{room}/crates/{name}/out/rlib", copy_function=link)
    return True


def take_modules(library, name, own, kept):
    """Gives a folder for --incremental what a library that was built of the crate in the folder own holds checked: what the crate states, and
    its lemmas. What isn't found is checked again, and so is what isn't up to date."""
    index = f"{library}/toolchain/checked.json"
    for module, at, size in map(json.loads, read(index).split("\n")[:-1]) if os.path.isfile(index) else []:
        is_lemma = os.path.isfile(f"{own}/proofs/{module.removeprefix(f'Rattle-{name}-proofs.').replace('.', '/')}.antt")
        if not is_lemma and not module.startswith(f"Rattle-{name}-specs"):
            continue
        with open(f"{library}/toolchain/checked.a", "rb") as it:
            it.seek(at)
            text = it.read(size)
        # (the folder in it has the name of the prover that checked the module, which is in the module's head)
        prover = re.search(r"--@ kernel (\S+)", text[:1000].decode(errors="replace"))
        if prover:
            folder = f"{kept}/{prover[1].replace('/', '_')}"
            os.makedirs(folder, exist_ok=True)
            with open(f"{folder}/{module}.oantt", "wb") as it:
                it.write(text)


def prove(room, seconds=None):
    """Has `rt ci` prove the crates in the folder room, or take what it proved of them on this machine before. Returns what is wrong, or None."""
    try:
        ran = subprocess.run(["rt", "ci"], cwd=room, timeout=seconds, **PIPED)
    except subprocess.TimeoutExpired:
        return f"not proved in {seconds} s"
    return "\n".join(ran.stdout.split("\n")[-5:]) if ran.returncode else None


@functools.lru_cache(maxsize=None)
def kit():
    """Returns the folder of the Rattle kit."""
    return os.path.dirname(subprocess.run(["rt", "doc"], stdout=subprocess.PIPE, text=True, check=True).stdout.strip())


def kit_text():
    """Returns what names the kit, and the size and the time of its compiler."""
    compiler = os.stat(f"{kit()}/bin/rattle")
    return subprocess.run(["rt", "version"], stdout=subprocess.PIPE, text=True).stdout, compiler.st_size, compiler.st_mtime_ns


def logic_words(crates, name):
    """Returns what each check of the crate has at the end of its words."""
    at = kit()
    words = ["--antt-project", f"{at}/rattle/logic/antt-project.json", "--logic-built", f"{at}/logic_built", "--links", f"{name}="]
    return words + (["--crate-type", "staticlib"] if "staticlib" in crates[name].kind.split() else [])


def start_words(folder, name):
    is_program = os.path.isfile(f"{folder}/src/main.rt")
    return [f"{kit()}/bin/rattle", "check", "--crate-name", name, "src/main.rt" if is_program else "src/lib.rt"]


def words_over_built(crates, name, folder, room):
    """Returns the command that checks the crate in this folder over the libraries that are built in the folder room."""
    at, words = kit(), start_words(folder, name)
    for it in ["std", *crates[name].uses]:
        words += ["--extern", f"{it}={room}/crates/{it}/out/rlib/{it}.rlib" if it in crates else f"{it}={at}/rlibs/{it}.rlib"]
    for it in [f"{at}/rlibs", *(f"{room}/crates/{it}/out/rlib" for it in below(crates, [name])[1:])]:
        words += ["-L", f"dependency={it}"]
    return words + logic_words(crates, name)


def words_over_sources(crates, name):
    """Returns the command that checks the crate, in its folder, over the sources of the crates below."""
    at, under = kit(), below(crates, [name])[1:]
    of_kit = {"core", "std", *(use for it in [name, *under] for use in crates[it].uses if use not in crates)}
    words = start_words(f"{TOP}/crates/{name}", name) + ["-L", f"dependency={at}/rlibs"]
    for it in sorted(of_kit):
        words += ["--extern", f"{it}={at}/rlibs/{it}.rlib"]
    for it in under:
        uses = dict.fromkeys(["core", "std", *crates[it].uses])
        words += ["--lib", f"{it}:{','.join(uses)}={TOP}/crates/{it}/src/lib.rt"]
    return words + logic_words(crates, name)


def run(words, folder):
    """Runs a check in this folder. Returns its status, what it said and the seconds of processor time that it took."""
    ran = subprocess.Popen(words, cwd=folder, **PIPED)
    said = ran.stdout.read()
    _, ended, used = os.wait4(ran.pid, 0)
    ran.returncode = os.waitstatus_to_exitcode(ended)
    ran.stdout.close()
    return ran.returncode, said, used.ru_utime + used.ru_stime
