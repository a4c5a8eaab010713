"""The functions of a crate's sources, which are laid out, and copies of a crate that have whole only some of them, or some more than once; for
bench/edits."""

import collections
import os
import re
import shutil

# A function's name at the start of an item, with what stands before `fn`.
FUNCTION = re.compile(r"^( *)((?:pub(?:\([a-z]+\))? +)?(?:const +)?(?:unsafe +)?)fn +(\w+)")
# A function: its file, or none if it stands in an impl block, the type of that block, with the trait's name behind it, and its name.
Function = collections.namedtuple("Function", "path of_type name")
# The proof of a function of which only the contract is left. What it stands on is one hole, which a check passes by with --allow-holes.
ASSUMED = "pub assumed {ℓ} : {A : Type ℓ} → A\nassumed = ?\n"
PROOF = "use Rattle.%s.Statement.{statement}\nuse Rattle.%s.proofs.Assumed.{assumed}\n\npub %s_spec : {M : Type 1} → statement M\n%s_spec = assumed\n"


def read(file):
    with open(file, encoding="utf-8") as it:
        return it.read()


def write(file, text):
    os.makedirs(os.path.dirname(file), exist_ok=True)
    with open(file, "w", encoding="utf-8") as it:
        it.write(text)


def last_name(text):
    return (re.findall(r"\w+", text) or [""])[-1]


def given_in(line):
    """Returns the names with which an impl block's type is written, by its first line, that aren't parameters of the block."""
    found = re.match(r"impl(<.*?>)? (?:.* for )?(\w.*)", line)
    names = re.findall(r"'?\w+", found[2])[1:] if found else []
    return [it for it in names if it not in re.findall(r"'?\w+", found[1] or "") and it != "'_"]


def type_of(line):
    """Returns the name of the type that an impl block is of, by its first line, with that of the trait behind it. Of a block for some of the
    type's parameters alone these are in the name."""
    depth, plain = 0, ""
    for letter in line[len("impl") :]:
        depth += (letter == "<") - (letter == ">")
        plain += letter if depth == 0 and letter not in "<>" else ""
    trait, _, of = plain.rpartition(" for ")
    return last_name(of) + last_name(trait) if trait else "+".join([last_name(of), *given_in(line)])


def function_at(text, place):
    """Returns the type of the impl block and the name of the function whose body or contract has this place in a laid out text, or None."""
    of_type, name, indent, is_body = "", None, "", False
    for line in text[:place].split("\n"):
        found = FUNCTION.match(line)
        if line.startswith("impl"):
            of_type = type_of(line)
        elif found and (name is None or not is_body or len(found[1]) <= len(indent)):
            name, indent, is_body = found[3], found[1], line.endswith("{")
        elif name and line == indent + "{":
            is_body = True
        elif name and (line == indent + "}" or not is_body and line.endswith(";")):
            name, is_body = None, False
        if line == "}":
            of_type, name = "", None
    return (of_type, name) if name else None


def module_of(path):
    """Returns the names of a file's module, below the crate."""
    inside = path.removeprefix("src/").removesuffix(".rt").removesuffix("/mod")
    return [] if inside in ("lib", "main") else inside.split("/")


def called(function):
    """Returns the end of the function's name, as a check takes it."""
    return "::".join([function.of_type] if function.of_type else module_of(function.path)) + f"::{function.name}"


def is_of(name, crate, function):
    """Returns whether a name that a check writes is that of the function, or of a closure in it. What stands in an impl block has the module
    of its type, wherever the block lies."""
    if function.of_type:
        parts = name.split("::")
        return function.of_type in parts and function.name in parts[parts.index(function.of_type) + 1 :]
    start = "::".join([crate, *module_of(function.path), ""])
    parts = name[len(start) :].split("::")
    return name.startswith(start) and function.name == (parts[1] if parts[0] == "fn" else parts[0])


# A crate's copies.


def files_of(folder):
    return sorted(os.path.relpath(f"{at}/{it}", folder) for at, _, names in os.walk(f"{folder}/src") for it in names if it.endswith(".rt"))


def homes_of(folder):
    """Returns of each type of the sources the module that it stands in, if it is one."""
    found = collections.defaultdict(set)
    for path in files_of(folder):
        for name in re.findall(r"(?m)^(?:pub(?:\([a-z]+\))? )?(?:struct|enum) (\w+)", read(f"{folder}/{path}")):
            found[name].add(tuple(module_of(path)))
    return {name: [*them][0] for name, them in found.items() if len(them) == 1}


def body_of(lines, at, indent):
    """Returns between which lines the body of the function stands whose head begins at this line, or None where it has none of its own lines."""
    for begin in range(at, len(lines)):
        line = lines[begin]
        if line.endswith((";", "{}")):
            return None
        if line == indent + "{" or line.endswith(" {") and (begin == at or line.startswith(indent + ")")):
            return begin + 1, lines.index(indent + "}", begin)
    return None


def functions_in(lines, path):
    """Yields the functions of a laid out file that have a body of their own lines and stand in a module or in a block that is of a whole
    type, each with the line of its head and between which lines its body stands."""
    of_type, is_type = "", True
    for at, line in enumerate(lines):
        found = FUNCTION.match(line)
        if line.startswith("impl"):
            of_type, is_type = type_of(line), " for " not in line and not given_in(line)
        elif re.match(r"(pub(\([a-z]+\))? )?trait ", line):
            is_type = False
        elif line == "}":
            of_type, is_type = "", True
        can_be = found and is_type and "const" not in found[2] and len(found[1]) == (4 if of_type else 0)
        body = body_of(lines, at, found[1]) if can_be else None
        if body:
            yield Function("" if of_type else path, of_type, found[3]), at, body


def begins_at(lines, at):
    """Returns the line at which what stands above a function's head begins: its attributes and comments."""
    while at and re.match(r" *(#\[|//[^!])", lines[at - 1]):
        at -= 1
    return at


def calls_itself(lines, function, at, body):
    """Returns whether a function calls itself or is in a circle of calls, so that its proof stands elsewhere. A call of its name on a field,
    as `self.seat.take(`, or at another type, as `Word::decide(`, is another function's."""
    own = "|".join(filter(None, ["Self", function.of_type]))
    text = re.sub(rf"(self\.\w+\.|\b(?!({own})\b)[A-Z]\w*::){function.name}\(", "", "\n".join(lines[slice(*body)]))
    return re.search(rf"\b{function.name}\(", text) or "#[cycle" in "".join(lines[begins_at(lines, at) : at])


def place_of(function, home):
    """Returns the names that lead to a function whose module, or that of its type, has the names home."""
    return [*home, *filter(None, [function.of_type]), function.name]


def without_bodies(text, path, whole, homes):
    """Returns the text of a file in which the functions but these have no body, as far as that can be, and where the proofs of those are, each
    with the names of its module."""
    lines, kept, places, done = text.split("\n"), [], [], 0
    for function, at, body in functions_in(lines, path):
        home = homes.get(function.of_type) if function.of_type else module_of(path)
        if function not in whole and home is not None and not calls_itself(lines, function, at, body):
            kept += [*lines[done : body[0]], FUNCTION.match(lines[at])[1] + "    loop {}"]
            places.append((place_of(function, home), home))
            done = body[1]
    return "\n".join(kept + lines[done:]), places


def folders_of(place, home):
    """Returns the folders of a function's proofs: its own, and that of its closures."""
    return ["/".join(it) for it in (place, [*place[: len(home)], "fn", *place[len(home) :]])]


def lines_of(text, path, function):
    """Returns between which lines a function stands, with what is above it, or None where no copy of it can stand beside it."""
    lines = text.split("\n")
    for it, at, body in functions_in(lines, path):
        if it == function and not calls_itself(lines, it, at, body):
            return begins_at(lines, at), body[1] + 1
    return None


def add_copy(folder, path, function, text, name):
    """Adds a function to a file of the crate in this folder, behind itself: as it stands in this text of the file, and with this name. It has
    a copy of the proofs."""
    lines, its = read(f"{folder}/{path}").split("\n"), text.split("\n")[slice(*lines_of(text, path, function))]
    behind = lines_of("\n".join(lines), path, function)[1]
    copy = re.sub(rf"(?m)^( *[a-z() ]*fn ){function.name}\b", rf"\g<1>{name}", "\n".join(its), count=1)
    write(f"{folder}/{path}", "\n".join([*lines[:behind], "", copy, *lines[behind:]]))
    home = homes_of(folder)[function.of_type] if function.of_type else module_of(path)
    places = [folders_of(place_of(it, home), home) for it in (function, function._replace(name=name))]
    for old, new in zip(*places):
        for at, _, files in os.walk(f"{folder}/proofs/{old}"):
            for file in files:
                proof = read(f"{at}/{file}").replace(f".{old.replace('/', '.')}.", f".{new.replace('/', '.')}.")
                to = at.replace(f"/proofs/{old}", f"/proofs/{new}")
                write(f"{to}/{file}", re.sub(rf"\b{function.name}_spec\b", f"{name}_spec", proof))


def leave_contracts(folder, crate, whole):
    """Takes away the bodies and the proofs of the crate in this folder, but for those of these functions: contracts are left, which a check
    with --allow-holes takes for met."""
    homes = homes_of(folder)
    for path in files_of(folder):
        text, places = without_bodies(read(f"{folder}/{path}"), path, whole, homes)
        write(f"{folder}/{path}", text)
        for place, home in places:
            for it in folders_of(place, home):
                shutil.rmtree(f"{folder}/proofs/{it}", ignore_errors=True)
            write(f"{folder}/proofs/{'/'.join(place)}/Proof.antt", PROOF % (".".join([crate, "proofs", *place]), crate, place[-1], place[-1]))
    listed = f"{folder}/proofs/Lib.antt"
    write(listed, (read(listed) if os.path.isfile(listed) else "") + "pub mod Assumed\n")
    write(f"{folder}/proofs/Assumed.antt", ASSUMED)
