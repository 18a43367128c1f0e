"""Counts the definitions of the repository that the contract of a function rests on, by crate: `python3 -B -m tools.gate.definitions er_cli run_from`, and
each clause alone.

A definition is an `abbrev`, an `unfoldable`, a record or a data type of a `specs/` file. It rests on each definition that its text names, by an import,
a module's short name or in its own file; a function's contract on those that its clauses name. What comes from source, as a struct, and what is the
kit's, is not counted. With `--names` each definition is named, with its lines. With `--twice` it names those that two modules call alike, and asks for
none.
"""
import argparse
import collections
import glob
import os
import re
import sys

from tools import TOP

HEAD = re.compile(r"^(  )*(?:abbrev |unfoldable )?(?:pub )?(?:(?:record|data) (\w+)(?! \{$)|([\w']+) *:)")
USE = re.compile(r"^(?:ghost )?use (?:Rattle|crate)\.([\w.]+?)(?:\.(\{.*\}))?(?: as (\w+))?;?$")
CLAUSE = re.compile(r"^ *(?:ensures|requires) *(\w*) *(?=\{)", re.M)
WORD = re.compile(r"[A-Za-z_][\w']*(?:\.[A-Za-z_][\w']*)*")


def listed(text):
    """The names of a list in braces, which may have lists of its own: each with the path before it."""
    depth, begun, text = 0, 0, text.strip()[1:-1]
    for at, letter in enumerate(text + ","):
        depth += (letter == "{") - (letter == "}")
        if letter == "," and depth == 0:
            part, begun = text[begun:at].strip(), at + 1
            if part.endswith("}"):
                path, inner = part.split(".{", 1)
                yield from (f"{path}.{name}" for name in listed("{" + inner))
            elif part:
                yield part


def imported(line, names):
    """Puts what a `use` line brings in into `names`: by its local name, the path of a definition or of a module."""
    found = USE.match(line.strip())
    if not found:
        return
    path, inner, alias = found.groups()
    for part in listed(inner) if inner else [""]:
        whole = f"{path}.{part}" if part else path
        whole, _, other = whole.partition(" as ")
        names[other or alias or whole.rsplit(".", 1)[-1]] = whole


def read_specs():
    """Each definition, by its path, as its lines and what its file brings in."""
    found = {}
    for path in sorted(glob.glob(f"{TOP}/crates/*/specs/**/*.antt", recursive=True)):
        crate, rest = os.path.relpath(path, f"{TOP}/crates").split("/specs/")
        module, names, at = f"{crate}.specs." + rest[: -len(".antt")].replace("/", "."), {}, None
        with open(path, encoding="utf-8") as it:
            for line in it.read().split("\n"):
                imported(line, names)
                head = HEAD.match(line)
                name = head and (head[2] or head[3])
                is_field = (
                    at
                    and found[at][2]
                    and line.startswith("  ")
                    and head
                    and not head[2]
                    and not line.lstrip().startswith("abbrev")
                )
                if name and not is_field and not line.lstrip().startswith(("--", "use")):
                    at = f"{module}.{name}"
                    found.setdefault(at, ([], names, bool(head[2])))
                if at and line.strip() and not line.lstrip().startswith(("--", "use ", "module ")):
                    found[at][0].append(line)
    return found


def named(text, names, module, found):
    """The definitions that a text names."""
    for word in WORD.findall(text):
        first, _, rest = word.partition(".")
        for path in (
            f"{module}.{first}",
            names.get(first, ""),
            f"{names.get(first, '')}.{rest.split('.')[0]}" if rest else "",
        ):
            if path in found:
                yield path
                break


def clauses_of(crate, function, found):
    """What each clause of a function's contract names, by the clause's name, or None if there is no such function. A method goes by its type too."""
    *owner, function = function.split("::")
    for path in sorted(glob.glob(f"{TOP}/crates/{crate}/src/**/*.rt", recursive=True)):
        with open(path, encoding="utf-8") as it:
            text = it.read()
        begun = re.search(rf"^impl\b[^\n]*\b{owner[-1]}\b[^\n]*\{{$", text, re.M) if owner else None
        head = re.compile(rf"^ *(?:pub )?fn {function}\b.*?^ *\{{$", re.M | re.S).search(
            text, begun.end() if begun else 0
        )
        if head and (begun or not owner):
            names = {}
            for line in re.sub(r"\{\n?(.*?)\}", lambda it: it[0].replace("\n", " "), text, flags=re.S).split(
                "\n"
            ):
                imported(line, names)
            _, *parts = CLAUSE.split(re.sub(r"//.*", "", head[0]))
            named_so = zip(parts[::2], parts[1::2])
            return {name or "its only one": set(named(clause, names, "", found)) for name, clause in named_so}
    return None


def reached_from(left, found):
    """These definitions, and all that they rest on."""
    left, reached = set(left), set()
    while left:
        at = left.pop()
        reached.add(at)
        lines, names, _ = found[at]
        left |= set(named("\n".join(lines), names, at.rsplit(".", 1)[0], found)) - reached
    return reached


def size_of(reached, found):
    return f"{len(reached)} definitions, {sum(len(found[at][0]) for at in reached)} lines"


def called_alike(found):
    """The names that two definitions of specs/ have, each with where they are."""
    places = collections.defaultdict(list)
    for at in found:
        places[at.rsplit(".", 1)[1]].append(at)
    return {name: at for name, at in sorted(places.items()) if len(at) > 1}


def main():
    words = argparse.ArgumentParser(
        description="Counts the definitions that the contract of a function rests on."
    )
    words.add_argument("crate", nargs="?")
    words.add_argument("function", nargs="?")
    words.add_argument("--clause", help="count what this clause rests on, in place of the whole contract")
    words.add_argument("--names", action="store_true", help="name each of them, with its lines")
    words.add_argument(
        "--twice",
        action="store_true",
        help="name the definitions that two modules call alike, in place of all that",
    )
    said = words.parse_args()
    found = read_specs()
    if said.twice:
        alike = called_alike(found)
        for name, at in alike.items():
            print(f"{name}: {', '.join(at)}")
        print(f"{len(found)} definitions of specs, {len(alike)} names stand for two")
        return 1 if alike else 0
    if not said.function:
        words.error("name a crate and a function of it, or --twice")
    clauses = clauses_of(said.crate, said.function, found)
    if clauses is None:
        words.error(f"crates/{said.crate}/src has no function {said.function}")
    if said.clause and said.clause not in clauses:
        words.error(f"{said.function} has the clauses {', '.join(clauses)}")
    asked = [clauses[said.clause]] if said.clause else clauses.values()
    reached = reached_from(set().union(*asked), found)
    if said.names:
        for at in sorted(reached):
            print(f"{len(found[at][0]):4} {at}")
    by_crate = collections.defaultdict(set)
    for at in reached:
        by_crate[at.split(".", 1)[0]].add(at)
    for crate in sorted(by_crate, key=lambda it: -len(by_crate[it])):
        print(f"{crate}: {size_of(by_crate[crate], found)}")
    if not said.clause:
        for name, it in clauses.items():
            print(f"clause {name}: {size_of(reached_from(it, found), found)}")
    print(f"all: {size_of(reached, found)}")
    return 0


if __name__ == "__main__":
    sys.exit(main())
