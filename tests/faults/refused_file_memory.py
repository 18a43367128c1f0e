"""Runs command lines over a file, and a migration of one of version 1, with one allocation refused, each in turn. The answer is as ever, or
`refused 24 Memory` with status 4. The file then holds the event as it was, or as the command leaves it, and so where it was answered as ever. An import
for which memory ran out has enrolled as many names as it says, or one more. What the file holds then the program shows, once nothing is refused, and
after that the file alone holds it, without its log.

An opening by itself allocates thousands of times, so that of a command line's allocations each STRIDE-th is refused, and then each of the last 150.
"""
import concurrent.futures
import os
import subprocess
import sys
import tempfile

from tests.faults.refusing import chosen_allocations, no_cause_no_fault, refusing
from tests.support.event_files import (
    copied,
    due,
    event_of_four,
    make_old,
    rows_alone,
    rows_of,
    rows_of_copy,
)
from tests.support.plain_log import without_salts
from tests.support.words import LIBRARY, PROGRAM, Word, given_by

LAST = 150

ZERO = "0" * 64
# a command line, and whether its allocations are refused
COMMANDS = [
    (["init", "Friday", "2", "4"], True),
    *((["enrol", f"P{it}"], it == 6) for it in range(1, 7)),
    (["import", "names.csv"], True),
    (["export", "players"], True),
    (["start"], False),
    (["pair", "1", ZERO], True),
    # one who comes late, while the round is open
    (["enrol", "Late"], True),
    (["standings"], True),
    # a fault of usage, which is told in words
    (["pair", "1", "no key"], True),
]
# two new names before one that is there, and one after it
NAMES = ["Q1", "Q2", "P1", "Q3"]
MEMORY = 4, b"", b"refused 24 Memory\n"


def write_list(file, names, heading="name"):
    with open(file, "w", encoding="utf-8") as it:
        it.writelines(f"{name}\n" for name in [heading, *names])


def write_lists(room, names):
    """The list that is imported, and one with another heading."""
    write_list(f"{room}/names.csv", names)
    write_list(f"{room}/other.csv", names, "names")


def bytes_of(file):
    """The bytes of the file and of its log, or None if one isn't there. Logs are alike that differ in their salts alone."""
    data, log = (open(it, "rb").read() if os.path.exists(it) else None for it in (file, f"{file}-wal"))
    return data, log and without_salts(log)


class Line:
    """A command line over a file in which an event stands, or over none. Lists that are imported lie beside the file."""

    def __init__(self, program, library, file, words, names=()):
        self.program, self.library, self.file, self.words, self.names = (
            os.path.abspath(program),
            library,
            file,
            words,
            names,
        )
        self.seen = {}
        self.before = self.seen_of(file)
        with tempfile.TemporaryDirectory() as room:
            at = self.copy(room)
            self.due = self.run(at, words)
            self.after = self.seen_of(at)
        with tempfile.TemporaryDirectory() as room:
            self.count = int(self.run(self.copy(room), words, 0)[2].split()[-1])
        self.halves = self.half_done() if words == ["import", "names.csv"] else []

    def copy(self, room):
        write_lists(room, self.names)
        return copied(self.file, room)

    def run(self, file, words, nth=None):
        """What a command line is answered, with this allocation refused."""
        env = dict(os.environ) if nth is None else refusing(self.library, nth)
        ran = subprocess.run(
            [self.program, words[0], file, *words[1:]],
            stdin=subprocess.DEVNULL,
            capture_output=True,
            env=env,
            cwd=os.path.dirname(file),
            timeout=60,
        )
        return ran.returncode, ran.stdout, ran.stderr

    def seen_of(self, file):
        """The rows of a file, and what the program shows of it. A file with the same bytes is looked at once."""
        held = bytes_of(file)
        if held not in self.seen:
            with tempfile.TemporaryDirectory() as room:
                at, rows = copied(file, room), rows_of_copy(file)
                shown = self.run(at, ["players"]), self.run(at, ["standings"])
                alone = rows_alone(at)
                self.seen[held] = (
                    rows if alone == rows else f"{rows}, and then the file alone {alone}",
                    *shown,
                )
        return self.seen[held]

    def imported(self, count):
        """What importing the first names prints, and what the file holds then."""
        with tempfile.TemporaryDirectory() as room:
            at = self.copy(room)
            write_list(f"{room}/first.csv", self.names[:count])
            return self.run(at, ["import", "first.csv"])[1], self.seen_of(at)

    def half_done(self):
        """The answers of an import that was not ended, each with what the file may hold then."""
        steps = [self.imported(count) for count in range(len(self.names) + 1)]
        return [
            ((4, out, b"refused 24 Memory\n"), (held, later))
            for (out, held), (_, later) in zip(steps, steps[1:])
        ]

    def fault(self, nth):
        """What is wrong if this allocation is refused, or None."""
        with tempfile.TemporaryDirectory() as room:
            at = self.copy(room)
            got, held = self.run(at, self.words, nth), self.seen_of(at)
            is_half = any(got == answer and held in lawful for answer, lawful in self.halves)
            if (
                got == self.due
                and held == self.after
                or got == MEMORY
                and held in (self.before, self.after)
                or is_half
            ):
                return None
            return f"{self.words}, allocation {nth} of {self.count}: {got}, {held}"

    def faults(self, each, allocations):
        """What is wrong if these allocations are refused, which `each` goes through, as `map` does."""
        calm = [
            out
            for _, *shown in (self.before, self.after, [None, self.due])
            for answer in shown
            for out in answer[1:]
        ]
        wrong = [] if no_cause_no_fault(calm) else [f"{self.words}: a fault without a cause"]
        return wrong + [it for it in each(self.fault, allocations) if it]


def lines_of(program, library, room):
    """The command lines whose allocations are refused, each over the file as those before it have left it; and a migration."""
    file, old = f"{room}/e.event", f"{room}/old.event"
    for words, is_tried in COMMANDS:
        it = Line(program, library, file, words, NAMES)
        if is_tried:
            yield it
        write_lists(room, NAMES)
        it.run(file, words)
    make_old(old, event_of_four(1))
    it = Line(program, library, old, ["migrate"], NAMES)
    if (it.due, it.after[0]) != (due(["ok 6"]), rows_of(event_of_four())):
        sys.exit(f"the migration is answered {it.due}, and the file holds {it.after}")
    yield it


def main(program, library, stride):
    allocations, wrong = 0, []
    # a command line waits for the disk most of the time
    with tempfile.TemporaryDirectory() as room, concurrent.futures.ThreadPoolExecutor(
        len(os.sched_getaffinity(0))
    ) as pool:
        for it in lines_of(program, library, room):
            chosen = chosen_allocations(1, it.count, stride, LAST)
            allocations, wrong = allocations + len(chosen), wrong + it.faults(pool.map, chosen)
    print("\n".join(wrong), file=sys.stderr, end="\n" if wrong else "")
    print(f"refused memory in a file: {allocations} allocations, each refused once")
    print(f"{allocations - len(wrong)} passed, {len(wrong)} failed")
    return 1 if wrong else 0


if __name__ == "__main__":
    stride = Word(int, "of so many growths one is refused")
    sys.exit(main(**given_by(__doc__, program=PROGRAM, library=LIBRARY, stride=stride)))
