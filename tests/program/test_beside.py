"""Random events in files that have tables, indexes, views and rows of other programs, as C SQLite makes and changes them before, between and after the
commands. Half of the events begin in version 1 and are migrated on the way. A third of the commands are killed first, at a random instant. After each
command the rows of the event's tables are compared with a plain reading of the rules, and all that others have with what C SQLite left of it.
"""
import random
import sqlite3
import subprocess
import tempfile
import time

import pytest

from second_reading.plain_file import PLAYERS, tables_of
from tests.support.event_files import copied, due, make_old, rows_left, rows_of, rows_read, words_of
from tests.support.random_play import random_event, version_of

CASES = {"number": (100, 1_000)}

OURS = {*tables_of(1), *tables_of(2)}
# what a column may be declared as, and values of each kind
KINDS = ["", "INTEGER", "TEXT NOT NULL DEFAULT 'x'", "REAL", "BLOB"]
VALUES = [None, 0, -1, 2**63 - 1, 0.5, -1e300, "", "Ł Ø ' \" ;", "x" * 5000, b"", b"\x00\xff"]


class Others:
    """What other programs have in a file, and what they do there."""

    def __init__(self, dice):
        self.dice, self.made, self.tables = dice, 0, []

    def name(self, stem):
        self.made += 1
        return f"{stem}{self.made}"

    def table(self):
        """A table, which may count its rowids, or refer to one that was there."""
        name, columns = self.name("others_"), [f"c{at}" for at in range(self.dice.randint(1, 6))]
        key = self.dice.choice(["", "id INTEGER PRIMARY KEY, ", "id INTEGER PRIMARY KEY AUTOINCREMENT, "])
        unique = self.dice.choice(["", "", f", UNIQUE({columns[0]})"])
        parent = self.dice.choice(self.tables)[0] if self.tables and self.dice.random() < 0.3 else None
        refers = f", parent REFERENCES {parent}" if parent else ""
        self.tables.append((name, columns))
        return f"CREATE TABLE {name}({key}{', '.join(f'{it} {self.dice.choice(KINDS)}' for it in columns)}{refers}{unique})"

    def index(self):
        name, columns = self.dice.choice(self.tables)
        return f"CREATE {self.dice.choice(['', 'UNIQUE '])}INDEX {self.name('by_')} ON {name}({self.dice.choice(columns)})"

    def view(self):
        name, columns = self.dice.choice(self.tables)
        return f"CREATE VIEW {self.name('seen_')} AS SELECT {self.dice.choice(columns)} FROM {name}"

    def row(self):
        name, columns = self.dice.choice(self.tables)
        chosen = self.dice.sample(columns, self.dice.randint(1, len(columns)))
        return f"INSERT INTO {name}({', '.join(chosen)}) VALUES ({', '.join('?' * len(chosen))})", [
            self.dice.choice(VALUES) for _ in chosen
        ]

    def change(self):
        name, columns = self.dice.choice(self.tables)
        if self.dice.random() < 0.3:
            return f"DELETE FROM {name} WHERE rowid % 3 = ?", [self.dice.randrange(3)]
        return f"UPDATE {name} SET {self.dice.choice(columns)} = ? WHERE rowid % 2 = ?", [
            self.dice.choice(VALUES),
            self.dice.randrange(2),
        ]

    def make(self):
        """A few statements that make something."""
        return [
            self.table(),
            *(
                self.dice.choice([self.table, self.index, self.view])()
                for _ in range(self.dice.randint(0, 4))
            ),
        ]

    def act(self, base):
        """A few statements more. One that a rule of their own tables refuses does nothing."""
        for _ in range(self.dice.randint(1, 6)):
            what = self.dice.choices(
                [self.row, self.change, self.table, self.index, self.view], [8, 4, 1, 1, 1]
            )[0]()
            statement, values = what if isinstance(what, tuple) else (what, [])
            try:
                base.execute(statement, values)
            except sqlite3.IntegrityError:
                pass


def had_by_others(file):
    """Each table, index and view of others with its text, and the rows of each table, with the kind of each value; of a copy with its log."""
    with tempfile.TemporaryDirectory() as folder:
        base = sqlite3.connect(copied(file, folder))
        texts = base.execute("SELECT type, name, tbl_name, sql FROM sqlite_schema ORDER BY rowid").fetchall()
        texts = [it for it in texts if it[2] not in OURS and it[1] != "sqlite_sequence"]
        rows = {}
        for name in (name for kind, name, *_ in texts if kind == "table"):
            columns = [it[1] for it in base.execute(f"PRAGMA table_info({name})")]
            shown = ", ".join(f"typeof({it}), {it}" for it in columns)
            rows[name] = base.execute(f"SELECT rowid, {shown} FROM {name} ORDER BY rowid").fetchall()
        has_counts = base.execute("SELECT 1 FROM sqlite_schema WHERE name = 'sqlite_sequence'").fetchall()
        counts = (
            base.execute("SELECT name, seq FROM sqlite_sequence ORDER BY name").fetchall()
            if has_counts
            else []
        )
        base.close()
    return texts, rows, counts


class Beside:
    """An event that is played line by line in such a file."""

    def __init__(self, program, file, dice):
        self.program, self.file, self.dice, self.others = program, file, dice, Others(dice)
        self.kills, self.before = 0, None

    def begin(self, event):
        """What stands in the file before the event does. In version 1 that is made by SQL, among them."""
        front = self.others.make() if self.dice.random() < 0.8 else []
        if event.version == 1:
            make_old(
                self.file,
                event,
                others=(front, self.others.make() if self.dice.random() < 0.5 else []),
                has_log=self.dice.random() < 0.3,
            )
            return
        base = sqlite3.connect(self.file, isolation_level=None)
        base.execute(f"PRAGMA journal_mode = {self.dice.choice(['WAL', 'DELETE'])}").fetchall()
        for statement in front:
            base.execute(statement)
        if front:
            self.others.act(base)
        base.close()

    def meddle(self):
        """Others do something."""
        base = sqlite3.connect(self.file, isolation_level=None)
        for statement in [] if self.others.tables else self.others.make():
            base.execute(statement)
        self.others.act(base)
        base.close()

    def killed(self, words):
        with subprocess.Popen(
            [self.program.path, *words],
            stdin=subprocess.DEVNULL,
            stdout=subprocess.PIPE,
            stderr=subprocess.DEVNULL,
        ) as ran:
            time.sleep(self.dice.random() * 0.03)
            ran.kill()
            out = ran.stdout.read()
        return ran.returncode == -9, out

    def send(self, line, answer, event):
        words, after = words_of(line, self.file), rows_of(event)
        if self.before is None:
            self.begin(event)
        was = had_by_others(self.file)
        is_made = self.before is None and event.version == 1
        is_done = is_made
        if not is_made and self.dice.random() < 0.33:
            was_killed, out = self.killed(words)
            left = rows_left(self.file, self.before)
            assert left in (self.before, after), (line, "killed")
            assert left == after or not (out and out == due(answer)[1]), (line, "acknowledged, and not there")
            assert had_by_others(self.file) == was, (line, "killed, others")
            self.kills += was_killed
            is_done = left == after and after != self.before
        if not is_done:
            assert self.program.run(*words) == due(answer), line
        assert rows_left(self.file, self.before) == after, line
        assert had_by_others(self.file) == was, (line, "others")
        self.before = after
        if self.dice.random() < 0.3:
            self.meddle()
            assert rows_read(self.file) == after, (line, "others did something")


def test_event(program, room, dice, number):
    played = Beside(program, f"{room}/e.event", random.Random(dice.random()))
    random_event(played.send, dice, number, 12, version_of(number))


# ---- the controls: what these comparisons have to see

SEEN = [
    ("DELETE FROM others WHERE rowid = 1", "a row is gone"),
    ("UPDATE others SET c0 = '1' WHERE rowid = 1", "a number is a text"),
    ("DROP INDEX by_c0", "an index is gone"),
    ("DROP VIEW seen", "a view is gone"),
    ("ALTER TABLE others ADD COLUMN more", "a column comes"),
    ("UPDATE sqlite_sequence SET seq = 7", "the next rowid is another"),
]


@pytest.mark.parametrize("statement, what", SEEN, ids=[what for _, what in SEEN])
def test_others_are_compared(room, statement, what):
    file = f"{room}/e.event"
    base = sqlite3.connect(file, isolation_level=None)
    for it in (
        "CREATE TABLE others(id INTEGER PRIMARY KEY AUTOINCREMENT, c0)",
        "CREATE INDEX by_c0 ON others(c0)",
        "CREATE VIEW seen AS SELECT c0 FROM others",
    ):
        base.execute(it)
    base.execute("INSERT INTO others(c0) VALUES (1)")
    before = had_by_others(file)
    assert had_by_others(file) == before, "unchanged"
    base.execute(statement)
    base.close()
    assert had_by_others(file) != before, what


def test_our_tables_are_none_of_others(room):
    file = f"{room}/e.event"
    base = sqlite3.connect(file, isolation_level=None)
    for version in (1, 2):
        base.execute(f"CREATE TABLE {PLAYERS[version]}(no INTEGER PRIMARY KEY, name TEXT UNIQUE)")
    base.close()
    assert had_by_others(file) == ([], {}, [])
