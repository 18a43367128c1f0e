"""Random lists and events, beside a plain reading of the rules. A list that Python's `csv` wrote is imported; the players are exported, read by
Python's `csv`, and imported into a second event. A random event's tables are exported at random instants of a script. And lists are damaged, by bytes
that are turned, cut out, doubled or put in: each is answered as the rules have it, and nobody else is enrolled. After each import the file alone holds
who is enrolled, without its log.
"""
import csv
import io
import random

import pytest

from second_reading.plain_csv import imported, players_rows, records, results_rows, written
from second_reading.plain_event import Event
from tests.support.event_files import rows_alone, rows_of
from tests.support.random_play import random_event

# how many of them are tried, and how many with --long; fifty damaged lists to a group
CASES = {"number": (40, 300), "group": (8, 40)}
PIECES = [
    "Ana",
    "Bo",
    "Lee",
    "Jo",
    "Zoë",
    "大会",
    "O'Neil",
    ",",
    '"',
    '""',
    ";",
    "-",
    "D",
    "no",
    "name",
    "=1+1",
    "#",
    "\u00a0",
    "🂡",
    "x" * 20,
]
TURNS = b'",;\r\n\t \0\xef\xbb\xbf\xff019a-'


def random_name(dice):
    name = "".join(dice.choice(PIECES) + " " * dice.randrange(2) for _ in range(dice.randint(1, 4))).strip(
        " "
    )
    return name.encode()[:60].decode(errors="ignore").strip(" ") or "Ana"


def random_list(dice, most):
    """The bytes of a list, as one program or another writes it. Some names stand twice."""
    names = [random_name(dice) for _ in range(dice.randint(0, most))]
    is_full = dice.random() < 0.4
    rows = (
        [["no", "name", "dropped"]] + [[str(at), it, dice.choice("01")] for at, it in enumerate(names, 1)]
        if is_full
        else [["name"]] + [[it] for it in names]
    )
    text = io.StringIO(newline="")
    writer = csv.writer(
        text,
        quoting=dice.choice((csv.QUOTE_MINIMAL, csv.QUOTE_ALL)),
        lineterminator=dice.choice(("\n", "\r\n")),
    )
    writer.writerows(rows)
    return b"\xef\xbb\xbf" * dice.choice((0, 0, 0, 1, 2)) + text.getvalue().encode()


def damaged(dice, data):
    data = bytearray(data)
    for _ in range(dice.randint(1, 4)):
        at, what = dice.randrange(len(data) + 1), dice.random()
        if what < 0.4 and at < len(data):
            data[at] = dice.choice(TURNS) if dice.random() < 0.8 else dice.randrange(256)
        elif what < 0.6:
            del data[at : at + dice.randint(1, 9)]
        elif what < 0.8:
            data[at:at] = data[at : at + dice.randint(1, 30)]
        else:
            data[at:at] = bytes([dice.choice(TURNS)])
    return bytes(data)


class Imports:
    """An event file and the plain event that it holds."""

    def __init__(self, program, room, name):
        self.program, self.file, self.list, self.event = (
            program,
            f"{room}/{name}",
            f"{room}/list.csv",
            Event(3, 0),
        )
        assert program.run("init", self.file, "E", "3", "0") == (0, b"ok 0\n", b"")

    def take(self, data):
        """Imports a list, and checks that it is answered as the rules have it."""
        with open(self.list, "wb") as it:
            it.write(data)
        assert self.program.run("import", self.file, self.list) == imported(self.event, data), data
        assert rows_alone(self.file) == rows_of(self.event), f"the file alone, after {data!r}"

    def exported(self):
        got = self.program.run("export", self.file, "players")
        assert got == (0, written(players_rows(self.event)), b"")
        return got[1]


@pytest.fixture
def imports(program, room):
    return lambda name: Imports(program, room, name)


def test_through(imports, dice, number):
    """A list into an event, and its export into a second one."""
    one, other = imports("one"), imports("other")
    one.take(random_list(dice, 40))
    out = one.exported()
    assert [[field.decode() for field in row] for row in records(out)] == players_rows(
        one.event
    ), "read by Python"
    other.take(out)
    assert other.event.names == one.event.names
    other.exported()


def test_exports_of_an_event(program, dice, number):
    """The tables of an event that is played, at random instants."""
    lines, answers = [], []

    def note(line, answer, event):
        lines.append(line)
        answers.append("".join(f"{text}\n" for text in answer).encode())
        if dice.random() < 0.1:
            kind, rows = dice.choice((("players", players_rows), ("results", results_rows)))
            lines.append(f"export\t{kind}")
            answers.append(written(rows(event)))

    random_event(note, random.Random(dice.random()), number)
    assert program.fed("".join(f"{line}\n" for line in lines).encode()) == (0, b"".join(answers), b"")


def test_damaged(imports, dice, group):
    """Fifty damaged lists into one event."""
    files = imports("e.event")
    for _ in range(50):
        files.take(damaged(dice, random_list(dice, 6)))
    files.exported()
