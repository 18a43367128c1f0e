"""Looks whether each name that docs/PROOF.md has in backticks is there, in a crate that its row, its line or its section names: a function,
a clause, a definition of specs/ or one of its fields, a type, a variant, a module, a file of specs/, or a wrong body. The comments of each crate's
specs/Lib.antt are read as a section of that crate. Names of the kit are looked up in its crates, and words of the program in its help.
`python3 -B -m tools.gate.proof_names` ends with status 1 if one is missing.
"""
import functools
import glob
import os
import re
import sys

from tools import TOP
from tools.gate import toolchain

PAGE = f"{TOP}/docs/PROOF.md"
CODE = re.compile(r"`([^`]+)`")
CRATE = re.compile(r"\ber_\w+\b|\bevent_reporter\b")
NAME = re.compile(r"[\w']+(?:(?:::|\.)[\w']+)*")
BEGINS = re.compile(r"#|\||\s*(?:[-*]|\d+\.) ")
COMMENT = re.compile(r"(?://|-- ).*")
RUST = [
    re.compile(r"\b(?:fn|struct|enum|trait|type|const|mod|ghost|impl) +(\w+)"),
    re.compile(r"^ *(?:ensures|requires) +(\w+) *\{", re.M),
    # a variant, and a field
    re.compile(r"^ +([A-Z]\w*) *(?:[{(,]|$)", re.M),
    re.compile(r"^ +(?:pub )?(\w+): ", re.M),
]
LOGIC = [
    re.compile(r"^ *(?:abbrev |unfoldable )?pub (?:record |data )?([\w']+) *[:({]", re.M),
    # a constructor
    re.compile(r"^  ([A-Z]\w*) : ", re.M),
]
# words that stand in backticks and are names of nothing
WORDS = {"main", "ok", "requires", "refused", "usage", "output"}
# pages, and how many of their names are missing: one that is there, one that is nowhere, one of another crate, and one whose crate stands a line above
CONTROLS = {
    "| er_desk | `HasMade` |": 0,
    "| er_desk | `no_such_name` |": 1,
    "### er_share\n\n| A share | `HasMade` |": 1,
    "### er_share\n\nA history of er_desk\nhas `HasMade`.": 0,
}


def names_in(paths, kinds):
    found = set()
    for path in paths:
        with open(path, encoding="utf-8") as it:
            text = COMMENT.sub("", it.read())
        for kind in kinds:
            found.update(kind.findall(text))
    return found


def files_of(folder, ending):
    return glob.glob(f"{folder}/**/*{ending}", recursive=True)


@functools.lru_cache(maxsize=None)
def defined_in(folder):
    """The names that a crate defines, with its modules."""
    code, specs = files_of(f"{folder}/src", ".rt"), files_of(f"{folder}/specs", ".antt")
    modules = {os.path.basename(it).rsplit(".", 1)[0] for it in code + specs}
    return names_in(code, RUST) | names_in(specs, LOGIC) | modules


@functools.lru_cache(maxsize=None)
def bodies_of(crate):
    return {os.path.basename(it)[: -len(".edit")] for it in glob.glob(f"{TOP}/crates/{crate}/*/*.edit")}


@functools.lru_cache(maxsize=None)
def kit_names():
    """The crates of the kit, and what those of the database define."""
    folders = glob.glob(f"{os.path.dirname(toolchain.load().rtlib.RATTLE)}/../rattle/*")
    of_it = (defined_in(it) for it in folders if os.path.basename(it).startswith(("sqlite", "std")))
    return set(map(os.path.basename, folders)).union(*of_it)


@functools.lru_cache(maxsize=None)
def words_of_the_program():
    """The words of its help, and the refusals."""
    with open(f"{TOP}/crates/er_cli/src/help.rt", encoding="utf-8") as it:
        words = re.findall(r"[a-z]+", it.read())
    with open(f"{TOP}/crates/er_event/src/refusals.rt", encoding="utf-8") as it:
        return {*words, *RUST[2].findall(it.read())}


def all_crates():
    return sorted(os.path.basename(it) for it in glob.glob(f"{TOP}/crates/*"))


def is_there(name, crates, is_body):
    """Whether a name is one of these crates, or of the kit or the program if it has one part."""
    if name.endswith(".antt") or name.startswith("specs/"):
        name = "specs/" + name.removeprefix("specs/")
        return any(glob.glob(f"{TOP}/crates/{it}/{name.removesuffix('.antt')}.antt") for it in crates)
    *path, last = re.split(r"::|\.", name)
    if path and path[0] in all_crates():
        crates, path = [path[0]], path[1:]
    if any({*path, last} <= defined_in(f"{TOP}/crates/{it}") for it in crates):
        return True
    if any(last in bodies_of(it) for it in crates):
        return True
    return {*path, last} <= kit_names() or name in words_of_the_program() or name in WORDS


def whole_lines(text):
    """The lines as they read before they were wrapped, each with its number: a paragraph, an item, a row or a heading."""
    whole = []
    for number, line in enumerate(text.split("\n"), 1):
        if (
            whole
            and line.strip()
            and whole[-1][1].strip()
            and not BEGINS.match(line)
            and whole[-1][1][0] not in "#|"
        ):
            whole[-1][1] += f" {line.strip()}"
        else:
            whole.append([number, line])
    return whole


def missing_in(text, section=None):
    """Each name of the page that is not there, with the number of its line. Before its first heading the page speaks of `section`, or of all."""
    section, is_body = section or all_crates(), False
    for number, line in whole_lines(text):
        if line.startswith("#"):
            section, is_body = CRATE.findall(line) or all_crates(), "rong bodies" in line or (
                is_body and line.startswith("###")
            )
        crates = CRATE.findall(line)
        for name in CODE.findall(line):
            asked = [*crates, *section] if not is_body else crates or all_crates()
            is_name = NAME.fullmatch(name) or re.fullmatch(r"specs/[\w/]+", name)
            if is_name and not name.isdigit() and not is_there(name, asked, is_body):
                yield number, name, asked


def comments_of(path):
    """The comments at the head of a file of specs/, each on the line that it has there."""
    with open(path, encoding="utf-8") as it:
        return "\n".join(line[3:].strip() if line.startswith("-- ") else "" for line in it)


def report(page, text, section):
    """Prints which names of a page are missing, and returns how many."""
    missing = list(missing_in(text, section))
    for number, name, crates in missing:
        where = "any crate" if len(crates) > 5 else " or ".join(sorted(set(crates)))
        print(f"{page}:{number}: `{name}` is not in {where}")
    print(f"{len(set(CODE.findall(text)))} names and words of {page}, {len(missing)} missing")
    return len(missing)


def main():
    for page, count in CONTROLS.items():
        if len(list(missing_in(page))) != count:
            print(f"of this page not {count} names are missing: {page!r}")
            return 1
    with open(PAGE, encoding="utf-8") as it:
        missing = report("docs/PROOF.md", it.read(), None)
    for crate in all_crates():
        path = f"crates/{crate}/specs/Lib.antt"
        if os.path.exists(f"{TOP}/{path}"):
            missing += report(path, comments_of(f"{TOP}/{path}"), [crate])
    return 1 if missing else 0


if __name__ == "__main__":
    sys.exit(main())
