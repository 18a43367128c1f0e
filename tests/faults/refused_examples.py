"""Refuses each allocation of worked examples 1, 8, 9, 14, 17, 20, 21 and 48, one at a time: as scripts, as command lines over files, and as requests
while the program serves, its opening among them; and of the migrations of worked example 47. What is asked of each is what refused_memory.py,
refused_file_memory.py and refused_http_memory.py ask. What is due if nothing is refused is what the worked examples show, by a plain reading of
the rules.

A command line or a request that comes in two examples, on the same event, is tried in the first.
"""
import concurrent.futures
import os
import subprocess
import sys
import tempfile

from second_reading.plain_csv import imported, players_rows, results_rows, written
from second_reading.plain_event import Event
from tests.faults.refused_file_memory import MEMORY, Line, write_lists
from tests.faults.refused_http_memory import REQUESTS, SLIP, Request
from tests.faults.refused_memory import Script
from tests.faults.refusing import no_cause_no_fault, refusing
from tests.support.event_files import copied, due, make_old, rows_of, rows_of_copy
from tests.support.plain_http import served as served_plainly
from tests.support.program import Program
from tests.support.serving import Serving, served
from tests.support.words import LIBRARY, PROGRAM, Word, given_by

NAME, ZERO = "Friday", "0" * 64
FOUR = ["enrol\tAna", "enrol\tBo", "enrol\tCy", "enrol\tDi"]
PAIRED = [*FOUR, "start", f"pair\t1\t{ZERO}"]
SCORED = [*PAIRED, "result\t1\t1\t2\t0\t0", "result\t1\t2\t2\t1\t0"]
LATE = [*SCORED, "enrol\tEd", f"pair\t2\t{ZERO}", "result\t2\t1\t2\t0\t0", "result\t2\t2\t0\t2\t0"]
THREE = ["enrol\tAna", "enrol\tBo", "enrol\tCy", "start", f"pair\t1\t{ZERO}"]
SECOND = [*THREE, "result\t1\t1\t2\t0\t0", f"pair\t2\t{ZERO}"]
THIRD = [*SECOND, "result\t2\t1\t2\t0\t0", f"pair\t3\t{ZERO}"]
SIX = [*(f"enrol\tP{it}" for it in range(1, 7)), "start", f"pair\t1\t{ZERO}"]
DONE = [*SIX, *(f"result\t1\t{it}\t2\t0\t0" for it in (1, 2, 3)), "drop\t2"]
SCORES = [(1, 1, "1\t1\t0"), (1, 1, "2\t0\t0"), (1, 2, "1\t2\t0"), (2, 1, "0\t2\t0"), (2, 1, "0\t2\t0")]
WON = [
    *DONE,
    "standings",
    "cut",
    *(f"playoff\t{stage}\t{slot}\t{score}" for stage, slot, score in SCORES),
    "bracket",
]
NAMES = ["Ana", "Bo", "Ana"]

# the number of an example, its rounds, its cut, and its lines; if a list is imported, it has the names above
EXAMPLES = [
    (1, 3, 0, [*FOUR, "players"]),
    (8, 4, 0, [*THIRD, "result\t3\t1\t2\t0\t0", f"pair\t4\t{ZERO}"]),
    (9, 3, 0, [*SCORED, "standings"]),
    (17, 1, 4, WON),
    (20, 3, 0, ["import\tnames.csv", "import\tnames.csv", "import\tother.csv"]),
    (21, 3, 0, ["enrol\tAna", "enrol\tBo", "enrol\tLee, Jo", "export\tplayers"]),
    (21, 3, 0, [*SCORED, "export\tresults"]),
    (21, 3, 0, [*PAIRED, "export\tresults"]),
    (21, 3, 0, [*THREE, "export\tresults"]),
    (48, 3, 0, [*LATE[:9], "standings", *LATE[9:], "standings"]),
]
# in version 1 up to the migration, the first of two
MIGRATED = (47, 1, 4, [*DONE, "cut", "migrate", "migrate"])


def get(target):
    return f"GET {target} HTTP/1.1\r\n\r\n".encode()


def post(number, table, x, y, d):
    body = f'{{"a":{x},"b":{y},"d":{d}}}'
    return (
        f"POST /rounds/{number}/tables/{table} HTTP/1.1\r\nContent-Length: {len(body)}\r\n\r\n{body}".encode()
    )


STANDINGS, ROUND = get("/standings"), get("/rounds/1")
SERVED = [
    (1, 3, 0, FOUR, [STANDINGS, ROUND]),
    (8, 4, 0, THREE, [post(1, 1, 2, 0, 0)]),
    (8, 4, 0, SECOND, [post(2, 1, 2, 0, 0)]),
    (8, 4, 0, THIRD, [post(3, 1, 2, 0, 0)]),
    (8, 4, 0, [*THIRD, "result\t3\t1\t2\t0\t0"], [STANDINGS]),
    (9, 3, 0, PAIRED, [post(1, 1, 2, 0, 0)]),
    (9, 3, 0, SCORED[:-1], [post(1, 2, 2, 1, 0)]),
    (9, 3, 0, SCORED, [STANDINGS]),
    (14, 3, 0, PAIRED, REQUESTS),
    (14, 3, 0, [*PAIRED, "result\t1\t1\t2\t1\t0"], [post(1, 1, 2, 1, 0), SLIP]),
    (17, 1, 4, SIX, [post(1, 1, 2, 0, 0)]),
    (17, 1, 4, DONE[:-2], [post(1, 3, 2, 0, 0)]),
    (17, 1, 4, DONE, [STANDINGS]),
    (17, 1, 4, WON, [STANDINGS, post(1, 1, 2, 0, 0)]),
    (20, 3, 0, ["import\tnames.csv"], [STANDINGS]),
    (21, 3, 0, SCORED, [ROUND]),
    (21, 3, 0, THREE, [ROUND, get("/rounds/1/tables/0")]),
    (48, 3, 0, LATE[:-1], [post(2, 2, 0, 2, 0)]),
    (48, 3, 0, LATE, [STANDINGS]),
]


def rows_of_friday(event):
    """The rows of an event that is named Friday."""
    return rows_of(event, NAME)


def answer_of(event, line):
    """What a line is answered, which is done to the event."""
    name, *rest = line.split("\t")
    if name == "import":
        heading = "names" if rest == ["other.csv"] else "name"
        return imported(event, "".join(f"{it}\n" for it in [heading, *NAMES]).encode())
    if name == "export":
        return 0, written((players_rows if rest == ["players"] else results_rows)(event)), b""
    if name == "enrol":
        return due(event.enrol(*rest))
    if name == "pair":
        return due(event.pair(int(rest[0]), bytes.fromhex(rest[1])))
    numbers = [int(it) for it in rest]
    if name in ("result", "playoff"):
        one, other, *score = numbers
        return due(
            event.report(one, other, tuple(score), True)
            if name == "result"
            else event.play(one, other, tuple(score))
        )
    return due(getattr(event, {"cut": "end_rounds"}.get(name, name))(*numbers))


class Examples:
    def __init__(self, program, library, each):
        self.program, self.library, self.each = program, library, each
        self.allocations, self.wrong, self.seen = {"script": 0, "file": 0, "HTTP": 0}, [], set()

    def note(self, kind, what, allocations, wrong):
        self.allocations[kind] += allocations
        self.wrong.extend(wrong)
        print(f"{kind}, {what!r}: {allocations} allocations, {len(wrong)} wrong", file=sys.stderr, flush=True)

    def is_new(self, *what):
        is_new = what not in self.seen
        self.seen.add(what)
        return is_new

    def run_script(self, number, rounds, cut, lines):
        event = Event(rounds, cut)
        output = b"ok 0\n" + b"".join(out + err for _, out, err in [answer_of(event, line) for line in lines])
        it = Script(
            self.program,
            self.library,
            [f"{line}\n".encode() for line in [f"init\t{NAME}\t{rounds}\t{cut}", *lines]],
        )
        wrong = (
            it.faults(self.each)
            if it.output == output
            else [f"example {number}: {it.output}, and not {output}"]
        )
        self.note("script", f"example {number}", it.count, wrong)

    def run_lines(self, number, rounds, cut, lines):
        """An example by command lines, over one file."""
        with tempfile.TemporaryDirectory() as room:
            file, event, taken = f"{room}/e.event", Event(rounds, cut), ()
            write_lists(room, NAMES)
            for line in [f"init\t{NAME}\t{rounds}\t{cut}", *lines]:
                answer = due(["ok 0"]) if line.startswith("init") else answer_of(event, line)
                if self.is_new(taken, line):
                    self.run_line(file, line, answer, event)
                got = Program(self.program).run(*self.words(file, line))
                assert got == answer, (number, line, got)
                taken += (line,) if answer[1].startswith((b"ok ", b"added ")) else ()

    def run_migrations(self, number, rounds, cut, lines):
        """The migrations of an example by command lines, over a file that begins in version 1."""
        with tempfile.TemporaryDirectory() as room:
            file, event = f"{room}/e.event", Event(rounds, cut, 1)
            make_old(file, event, name=NAME)
            for line in lines:
                answer = answer_of(event, line)
                if line == "migrate":
                    self.run_line(file, line, answer, event)
                got = Program(self.program).run(*self.words(file, line))
                assert got == answer, (number, line, got)

    def words(self, file, line):
        """The words of a command line. Lists lie beside the file."""
        name, *rest = line.split("\t")
        return [name, file, *(f"{os.path.dirname(file)}/{it}" if it.endswith(".csv") else it for it in rest)]

    def run_line(self, file, line, answer, event):
        name, *rest = line.split("\t")
        it = Line(self.program, self.library, file, [name, *rest], NAMES)
        wrong = it.faults(self.each, range(1, it.count + 1))
        if (it.due, it.after[0]) != (answer, rows_of_friday(event)):
            wrong.append(f"{line!r}: {it.due}, {it.after[0]}, and not {answer}, {rows_of_friday(event)}")
        self.note("file", line, it.count, wrong)

    def template(self, room, rounds, cut, lines):
        """The file of an event, and the event."""
        file, event = f"{room}/e.event", Event(rounds, cut)
        write_lists(room, NAMES)
        Program(self.program).run("init", file, NAME, str(rounds), str(cut))
        for line in lines:
            got, answer = Program(self.program).run(*self.words(file, line)), answer_of(event, line)
            assert got == answer, (line, got, answer)
        return file, event

    def run_requests(self, _number, rounds, cut, lines, requests):
        with tempfile.TemporaryDirectory() as room:
            file, event = self.template(room, rounds, cut, lines)
            for sent in requests:
                if self.is_new(rounds, cut, tuple(lines), sent):
                    it = Request(self.program, self.library, file, event, sent, rows_of_friday)
                    _, wrong = it.faults(self.each, range(it.first, it.last + 1))
                    self.note("HTTP", sent, it.last + 1 - it.first, wrong)

    def run_opening(self, rounds, cut, lines):
        """Each allocation before `serve` listens: it is refused 24, or listens and answers as ever."""
        with tempfile.TemporaryDirectory() as room:
            file, event = self.template(room, rounds, cut, lines)
            slip, rows = served_plainly(event, SLIP)[0], rows_of_friday(event)
            count = Request(self.program, self.library, file, event, SLIP, rows_of_friday).first - 1
            wrong = self.each(lambda nth: self.opening_fault(file, slip, rows, nth), range(1, count + 1))
            self.note("HTTP", "serve", count, [it for it in wrong if it])

    def opening_fault(self, template, slip, rows, nth):
        with tempfile.TemporaryDirectory() as room:
            file = copied(template, room)
            try:
                with Serving(self.program, file, 1, env=refusing(self.library, nth)) as serving:
                    answers, end = [serving.ask(SLIP)], serving.end()
                is_lawful = (answers, end) == ([slip], served(1)) and no_cause_no_fault(answers)
            except OSError:
                # it didn't listen, so that what it says is asked for once more
                words = [self.program, "serve", file, "0", "1"]
                ran = subprocess.run(
                    words,
                    stdin=subprocess.DEVNULL,
                    capture_output=True,
                    env=refusing(self.library, nth),
                    timeout=60,
                )
                answers, end = [], (ran.returncode, ran.stdout, ran.stderr)
                is_lawful = end == MEMORY
            return (
                None
                if is_lawful and rows_of_copy(file) == rows
                else f"serve, allocation {nth}: {answers}, {end}"
            )


def main(program, library, jobs):
    with concurrent.futures.ThreadPoolExecutor(jobs) as pool:
        it = Examples(program, library, pool.map)
        for example in EXAMPLES:
            if example[0] != 20:
                it.run_script(*example)
        for example in SERVED:
            it.run_requests(*example)
        it.run_opening(3, 0, PAIRED)
        for example in EXAMPLES:
            it.run_lines(*example)
        it.run_migrations(*MIGRATED)
    print("\n".join(it.wrong), file=sys.stderr, end="\n" if it.wrong else "")
    count = sum(it.allocations.values())
    print(
        f"refused memory in worked examples: {count} allocations, each refused once: "
        + ", ".join(f"{number} by {kind}" for kind, number in it.allocations.items())
    )
    print(f"{count - len(it.wrong)} passed, {len(it.wrong)} failed")
    return 1 if it.wrong else 0


if __name__ == "__main__":
    sys.exit(main(**given_by(__doc__, program=PROGRAM, library=LIBRARY, jobs=Word(int, "how many at once"))))
