"""Reports how long the contracts of the crates are, so that none grows unseen, and which lines are only read. It refuses nothing.

Of each crate: its functions, their clauses, the lines of these with what stands between them, the lines of bodies without comments and empty ones, and
the lines of `.rt` and `.antt` files that have too many characters. Then the longest contracts; the clauses that recur to the letter, whatever their
labels are; and the fields that records of specs share by name: a fifth copy of one is a missing definition, or a missing record.
"""
import argparse
import collections
import dataclasses
import glob
import os
import re
import subprocess

from tools import TOP

MOST_LINES, MOST_COPIES, MOST_CHARACTERS = 20, 4, 140
HEAD = re.compile(r"^( *)(?:pub(?:\([^)]*\))? )?(?:const )?fn (\w+)")
CLAUSE = re.compile(r"^ *(?:ensures|requires|decreases)\b")
LABEL = re.compile(r"^(ensures|requires|decreases) \w+ \{")
RECORD = re.compile(r"^(?:pub )?record (\w+)")
FIELD = re.compile(r"^  (?:pub )?(\w+) : ")
LABEL_OF = re.compile(r"^(ensures|requires|decreases)(?: (\w+) \{)?")
# What no clause ties to the system, so that docs/PROOF.md has it read: how each function or impl begins, by its file.
READ = {
    "event_reporter/src/main.rt": ["fn words(", "fn main("],
    "er_cli/src/lib.rt": ["pub fn run<", "pub fn run_from<"],
    "er_cli/src/host.rt": ["impl<'a, S: Start> System<", "impl<'a, S: Start> Host for System<"],
    "er_cli/src/logs.rt": [
        "fn log_path<",
        "fn is_nothing<",
        "impl<'a> SystemFolder<",
        "impl Folder for SystemFolder<",
    ],
    "er_cli/src/clients.rt": ["impl<'a> Listening<", "impl<'a> Clients for Listening<"],
    "er_cli/src/client.rt": [
        "impl Connection for TcpStream",
        "    fn time_for(",
        "    fn write_once(",
        "    fn read_rest(",
        "    pub fn end(",
    ],
    "er_cli/src/texts.rt": ["impl<W: Write> Print for W"],
    "er_desk/src/opening.rt": ["pub fn open_files<"],
}


@dataclasses.dataclass
class Function:
    crate: str
    place: str
    clauses: list
    lines: int
    body: int


def files_of(crate, *endings):
    """The files of a crate that a check reads, with what stands in them."""
    for path in sorted(glob.glob(f"{TOP}/crates/{crate}/*/**/*.*", recursive=True)):
        if path.endswith(endings) and f"/{crate}/out/" not in path:
            with open(path, encoding="utf-8") as it:
                yield os.path.relpath(path, f"{TOP}/crates"), it.read().split("\n")


def end_of_clause(lines, at):
    """The line after the clause that begins on this one."""
    depth = lines[at].count("{") - lines[at].count("}")
    while depth > 0:
        at += 1
        depth += lines[at].count("{") - lines[at].count("}")
    return at + 1


def read_contract(lines, at, indent):
    """The clauses of the function whose head begins here, the lines that they take, and the line that ends head and contract."""
    clauses, first, last = [], at, at
    while True:
        if CLAUSE.match(lines[at]):
            first = first if clauses else at
            end = end_of_clause(lines, at)
            clauses.append(" ".join(" ".join(lines[at:end]).split()))
            at = last = end
            if clauses[-1].endswith(";"):
                return clauses, last - first, at - 1
        elif re.match(rf"{indent}\S.*[{{}};]$|{indent}[{{;]", lines[at]):
            return clauses, last - first, at
        else:
            at += 1


def end_of_body(lines, at, indent):
    """The line that ends the body which is opened here; the same one if there is none."""
    if not lines[at].endswith("{"):
        return at
    return next(end for end in range(at + 1, len(lines)) if lines[end].startswith(indent + "}"))


def functions_in(crate, file, lines):
    at = 0
    while at < len(lines):
        head = HEAD.match(lines[at])
        if head:
            clauses, count, opened = read_contract(lines, at, head[1])
            closed = end_of_body(lines, opened, head[1])
            body = [it for it in lines[opened + 1 : closed] if it.strip() and not it.strip().startswith("//")]
            yield Function(crate, f"{file}:{at + 1} {head[2]}", clauses, count, len(body))
            at = closed
        at += 1


def functions_of(crate):
    for file, lines in files_of(crate, ".rt"):
        yield from functions_in(crate, file, lines)


def output(*words):
    return subprocess.run(
        words, cwd=TOP, stdout=subprocess.PIPE, stderr=subprocess.DEVNULL, encoding="utf-8"
    ).stdout


def clauses_of(file, lines):
    """Each clause by its function and its label, or its place where it has no label."""
    found = {}
    for function in functions_in("", file, lines):
        name = function.place.split(" ")[1]
        for at, clause in enumerate(function.clauses, 1):
            kind, label = LABEL_OF.match(clause).groups()
            key = f"{name}: {kind} {label or at}"
            # two types of a file may have functions of one name
            found[key if key not in found else f"{key}, another {name}"] = clause
    return found


def print_changed(commit):
    """The clauses that are new, gone or other than in the commit, as a message of the next one names them."""
    paths = output("git", "diff", "--name-only", commit, "--", "crates/*.rt").split()
    for path in (it for it in paths if it.endswith(".rt")):
        now = open(f"{TOP}/{path}", encoding="utf-8").read() if os.path.exists(f"{TOP}/{path}") else ""
        old, new = (
            clauses_of(path, text.split("\n")) for text in (output("git", "show", f"{commit}:{path}"), now)
        )
        changed = [name for name in sorted(old.keys() | new.keys()) if old.get(name) != new.get(name)]
        for name in changed:
            print(
                f"{path}  {name} {'is new' if name not in old else 'is gone' if name not in new else 'changed'}"
            )


def long_lines(crate):
    """The places of lines that have too many characters."""
    return [
        f"{file}:{at}"
        for file, lines in files_of(crate, ".rt", ".antt")
        for at, it in enumerate(lines, 1)
        if len(it) > MOST_CHARACTERS
    ]


def print_counts(crates, functions):
    print(
        f"{'crate':<15} functions  clauses  their lines  lines of bodies  lines of more than {MOST_CHARACTERS} characters"
    )
    for crate in crates:
        own = [it for it in functions if it.crate == crate]
        clauses, lines, body = (
            sum(len(it.clauses) for it in own),
            sum(it.lines for it in own),
            sum(it.body for it in own),
        )
        print(f"{crate:<15} {len(own):9} {clauses:8} {lines:12} {body:16} {len(long_lines(crate)):8}")


def print_long(functions):
    long = [it for it in functions if it.lines > MOST_LINES]
    print(f"\n{len(long)} contracts of more than {MOST_LINES} lines:")
    for it in sorted(long, key=lambda it: -it.lines):
        print(f"{it.lines:5} lines, {len(it.clauses)} clauses, over {it.body} lines of body: {it.place}")


def print_recurring(functions):
    shapes = collections.Counter(LABEL.sub(r"\1 {", clause) for it in functions for clause in it.clauses)
    often = [(times, shape) for shape, times in shapes.most_common() if times > MOST_COPIES]
    print(
        f"\n{len(often)} clauses that stand more than {MOST_COPIES} times to the letter, {sum(times for times, _ in often)} of {sum(shapes.values())}:"
    )
    for times, shape in often:
        print(f"{times:5}  {shape}")


def lines_that_are_read():
    """Each function and impl that is read, with its lines of code: without its clauses, comments and empty lines."""
    for file, beginnings in READ.items():
        with open(f"{TOP}/crates/{file}", encoding="utf-8") as text:
            lines = text.read().split("\n")
        for beginning in beginnings:
            (at,) = (at for at, line in enumerate(lines) if line.startswith(beginning))
            indent = " " * (len(beginning) - len(beginning.lstrip()))
            end = next(end for end in range(at + 1, len(lines)) if lines[end].startswith(indent + "}"))
            yield f"{file}:{at + 1} {beginning.strip()}", len(code_in(lines[at : end + 1]))


def code_in(lines):
    """These lines without clauses, comments and empty ones."""
    found, at = [], 0
    while at < len(lines):
        if CLAUSE.match(lines[at]):
            at = end_of_clause(lines, at)
        else:
            if lines[at].strip() and not lines[at].strip().startswith("//"):
                found.append(lines[at])
            at += 1
    return found


def print_read():
    places = [*lines_that_are_read()]
    for place, count in places:
        print(f"{count:5}  {place}")
    print(
        f"{sum(count for _place, count in places):5}  lines that are read: no clause ties what they do to the system"
    )


def fields_in(lines):
    """Each field of the records in these lines, after its record."""
    record = None
    for line in lines:
        begun, field = RECORD.match(line), FIELD.match(line)
        if begun:
            record = begun[1]
        elif record and field:
            yield record, field[1]
        elif re.match(r"\S", line) and not line.startswith("--"):
            record = None


def print_fields(crates):
    """The fields that more than so many records of specs have by one name."""
    having = collections.defaultdict(list)
    for crate in crates:
        for file, lines in files_of(crate, ".antt"):
            if file.startswith(f"{crate}/specs/"):
                for record, field in fields_in(lines):
                    having[field].append(record)
    often = sorted(
        ((len(records), field, records) for field, records in having.items() if len(records) > MOST_COPIES),
        key=lambda it: (-it[0], it[1]),
    )
    print(
        f"\n{len(often)} fields that more than {MOST_COPIES} records have by one name, {sum(times for times, *_ in often)} of {sum(map(len, having.values()))}:"
    )
    for times, field, records in often:
        print(f"{times:5}  {field}: {', '.join(records)}")


def main():
    words = argparse.ArgumentParser(
        prog="scripts/contracts",
        description="Reports how long the contracts of all crates are, or of those that are named, and which clauses recur.",
    )
    words.add_argument("names", nargs="*", metavar="NAME", help="a crate")
    words.add_argument(
        "--places",
        action="store_true",
        help=f"name each line of more than {MOST_CHARACTERS} characters, and nothing else",
    )
    words.add_argument(
        "--changed",
        metavar="COMMIT",
        help="name the clauses that are not as in this commit, and nothing else, as: --changed HEAD",
    )
    words.add_argument(
        "--read",
        action="store_true",
        help="count the lines that no clause ties to the system, and nothing else",
    )
    given = words.parse_args()
    if given.read:
        print_read()
        return
    if given.changed:
        print_changed(given.changed)
        return
    crates = given.names or sorted(os.listdir(f"{TOP}/crates"))
    if given.places:
        print("\n".join(it for crate in crates for it in long_lines(crate)))
        return
    functions = [it for crate in crates for it in functions_of(crate)]
    print_counts(crates, functions)
    print_long(functions)
    print_recurring(functions)
    print_fields(crates)


if __name__ == "__main__":
    main()
