"""The file of an event as command lines keep it, and as C SQLite reads it."""
import os
import shutil
import sqlite3
import tempfile

from second_reading.plain_event import Event
from second_reading.plain_file import PLAYERS, tables_of
from tests.support.program import Program
from tests.support.schema import TABLES

STATUSES = {24: 4, 25: 3, 26: 3}


def bytes_of(path):
    with open(path, "rb") as file:
        return file.read()


def bytes_in(room):
    """Of each file of a folder."""
    return {name: bytes_of(f"{room}/{name}") for name in os.listdir(room)}


def words_of(line, file):
    """The words of a command line: those of a line of a script, with FILE after the first."""
    name, *rest = line.split("\t")
    return [name, file, *rest]


def due(answer):
    """The status, the output and the errors of a command line that is answered so."""
    text = "".join(line + "\n" for line in answer).encode()
    if not answer[0].startswith("refused "):
        return 0, text, b""
    return STATUSES.get(int(answer[0].split()[1]), 1), b"", text


def by_sqlite(file, *statements):
    """The file, after these statements of SQL."""
    base = sqlite3.connect(file, isolation_level=None)
    for statement in statements:
        base.execute(statement).fetchall()
    base.close()
    return file


def as_nobody():
    """What a process does first that is to have no rights: the `preexec_fn` of root's."""
    os.setgroups([])
    os.setgid(65534)
    os.setuid(65534)


def make_old(file, event, others=((), ()), name="E", has_log=False):
    """Makes the file of an event in version 1 by SQL, since no program makes one any more; with statements of another program in front and behind. It
    has a log where it is as a program leaves it that was stopped, all of the event in it.
    """
    base = sqlite3.connect(file, isolation_level=None)
    base.execute("PRAGMA journal_mode = WAL").fetchall()
    base.execute("BEGIN")
    for statement in (*others[0], *TABLES[1], *others[1]):
        base.execute(statement)
    for table, rows in zip(tables_of(1), rows_of(event, name)):
        for row in rows:
            base.execute(f"INSERT INTO {table} VALUES ({', '.join('?' * len(row))})", row)
    base.execute("COMMIT")
    with tempfile.TemporaryDirectory() as room:
        copied(file, room)
        base.close()
        if has_log:
            copied(f"{room}/{os.path.basename(file)}", os.path.dirname(file))


def has_begun_old(line, answer, event, file):
    """Whether the line begins an event in version 1. Its file is made then."""
    is_old = event.version == 1 and line.startswith("init\t") and answer == ["ok 0"]
    if is_old:
        make_old(file, event)
    return is_old


def make_four(program, file):
    """Has the program make an event of four players, whose first round is paired."""
    enrolments = [["enrol", file, f"P{it}"] for it in range(1, 5)]
    for words in [["init", file, "E", "3", "0"], *enrolments, ["start", file], ["pair", file, "1", "0" * 64]]:
        Program(program).run(*words)


def event_of_four(version=2):
    """The same event."""
    event = Event(3, 0, version)
    for number in range(1, 5):
        event.enrol(f"P{number}")
    event.start()
    event.pair(1, bytes(32))
    return event


def play_rounds(sends, event):
    """Six players, one round and the cut to four of them, line by line, with what each is answered. Some lines are refused."""
    begin = f"init\tE\t{event.rounds}\t{event.cut}"
    sends(begin, ["ok 0"], event)
    for number in range(1, 7):
        sends(f"enrol\tP{number}", event.enrol(f"P{number}"), event)
    sends(begin, ["refused 28 EventExists"], event)
    sends("players", event.players(), event)
    sends("start", event.start(), event)
    sends(f"pair\t1\t{'0' * 64}", event.pair(1, bytes(32)), event)
    for table in (1, 2, 3):
        sends(f"result\t1\t{table}\t2\t0\t0", event.report(1, table, (2, 0, 0), True), event)
    sends("correct\t1\t1\t2\t0\t0", event.report(1, 1, (2, 0, 0), False), event)
    sends("drop\t2", event.drop(2), event)
    sends("standings", event.standings(), event)
    sends("cut", event.end_rounds(), event)


def play_stages(sends, event):
    """Their playoff."""
    for stage, slot, (x, y, d) in (
        (1, 1, (1, 1, 0)),
        (1, 1, (2, 0, 0)),
        (1, 2, (1, 2, 0)),
        (2, 1, (0, 2, 0)),
        (2, 1, (0, 2, 0)),
    ):
        sends(f"playoff\t{stage}\t{slot}\t{x}\t{y}\t{d}", event.play(stage, slot, (x, y, d)), event)


def play_playoff(sends):
    """An event of one round and a playoff of four."""
    event = Event(1, 4)
    play_rounds(sends, event)
    play_stages(sends, event)


def play_migration(sends):
    """The same, begun in version 1 and migrated after the cut, twice."""
    event = Event(1, 4, 1)
    play_rounds(sends, event)
    for _ in range(2):
        sends("migrate", event.migrate(), event)
        sends("standings", event.standings(), event)
        sends("bracket", event.bracket(), event)
    play_stages(sends, event)


def pairing_rows(event):
    for number, matches in enumerate(event.stored, 1):
        for place, (a, b, score) in enumerate(matches, 1):
            yield (
                number,
                place if b else 0,
                min(a, b),
                max(a, b),
                int(a > b),
                int(score is not None),
                *(score or (0, 0, 0)),
            )


def bracket_rows(event):
    for stage, matches in enumerate(event.stages, 1):
        for slot, (a, b, score) in enumerate(matches, 1):
            yield stage, slot, a, b, int(score is not None), *(score or (0, 0, 0))


def rows_of(event, name="E"):
    """The rows of the five tables that stand for an event of this name."""
    columns = 3 if event.version == 1 else 4
    players = [
        (it, event.names[it - 1], int(it in event.dropped), event.joined(it))[:columns]
        for it in event.numbers()
    ]
    first = (1, event.version, event.serial, name, event.rounds, event.cut, event.phase)
    tallies = [(it, *event.totals(it)) for it in event.numbers()]
    return [first], players, sorted(pairing_rows(event)), sorted(bracket_rows(event)), tallies


def has_table(base, name):
    return base.execute("SELECT 1 FROM sqlite_schema WHERE name = ?", (name,)).fetchall() != []


def rows_read(file):
    """The rows of the five tables, or None if there is no event. The database has to be whole, and to have no players in the other version's table."""
    base = sqlite3.connect(file)
    try:
        whole = base.execute("PRAGMA integrity_check").fetchall()
        if whole != [("ok",)]:
            raise ValueError(f"{file}: {whole}")
        if not has_table(base, "event"):
            return None
        (version,) = base.execute("SELECT version FROM event").fetchone()
        other = PLAYERS[3 - version]
        if has_table(base, other) and (version == 1 or base.execute(f"SELECT 1 FROM {other}").fetchall()):
            raise ValueError(f"{file}: version {version} with {other}")
        return tuple(
            sorted(base.execute(f"SELECT * FROM {table}").fetchall()) for table in tables_of(version)
        )
    finally:
        base.close()


def copied(file, folder):
    """A copy of the file in a folder, with its log, where they are there."""
    for name in (file, f"{file}-wal"):
        if os.path.exists(name):
            shutil.copy(name, folder)
    return f"{folder}/{os.path.basename(file)}"


def rows_of_copy(file):
    """The same of a copy with its log, so that the file itself stays as it is."""
    with tempfile.TemporaryDirectory() as folder:
        copy = copied(file, folder)
        return rows_read(copy) if os.path.exists(copy) else None


def rows_alone(file):
    """The same of a copy without its log, as somebody takes the one file along."""
    with tempfile.TemporaryDirectory() as folder:
        return rows_read(shutil.copy(file, folder)) if os.path.exists(file) else None


def rows_left(file, before):
    """The rows of a copy if the program was stopped. A file that isn't whole yet, and had no event before, has none."""
    try:
        return rows_of_copy(file)
    except sqlite3.DatabaseError:
        if before is None:
            return None
        raise
