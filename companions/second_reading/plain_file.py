"""A plain reading of an event's file (docs/FORMATS.md, sections 1 and 2): of the rows of the five tables, as C SQLite gives them, the event that
they stand for, or the first table at fault. Tables are of version 1 or 2, as the event's row says. It uses nothing of the program.
"""
import itertools
import re
import sqlite3

from second_reading.plain_event import (
    BYE,
    ENROLLING,
    FINISHED,
    LAST_SERIAL,
    MOST_PLAYERS,
    PLAYOFF,
    SLOTS,
    SWISS,
    Event,
    is_complete,
    is_lawful,
    of_playoff,
    swiss,
    winner,
)

# the columns of each table, and how many of the first make its key; all but the two names are whole numbers
COLUMNS = {
    "event": ("id version serial name rounds cut phase", 1),
    "player": ("no name dropped", 1),
    "player2": ("no name dropped joined", 1),
    "pairing": ("round tab lo hi swapped done x y d", 2),
    "bracket": ("stage slot a b done x y d", 2),
    "tally": ("no points rounds gamepoints games", 1),
}
# where each version has the players, and the most rounds that it has
PLAYERS, MOST_ROUNDS = {1: "player", 2: "player2"}, {1: 9, 2: 12}


def tables_of(version):
    """The tables in which an event of this version stands, in the order in which they are read and checked."""
    return "event", PLAYERS[version], "pairing", "bracket", "tally"


class NoEvent(Exception):
    """There is no table `event`, or it lacks a column."""


class Damaged(Exception):
    """What is wrong, with the table in front."""

    def __init__(self, table, what):
        super().__init__(f"{table}: {what}")
        self.table = table


def need(table, is_so, what):
    if not is_so:
        raise Damaged(table, what)


# ---- the rows


def has_kinds(columns, kinds):
    return all(kind == (b"text" if name == "name" else b"integer") for name, kind in zip(columns, kinds))


def rows_of_table(base, table):
    """The rows by their key. Names are bytes. What C SQLite can't read it answers with an error of its own."""
    columns = COLUMNS[table][0].split()
    values, kinds = ", ".join(columns), ", ".join(f"typeof({it})" for it in columns)
    try:
        found = base.execute(f"SELECT {values}, {kinds} FROM {table}").fetchall()
    except sqlite3.OperationalError as fault:
        if not re.match("no such (table|column):", str(fault)):
            raise
        if table == "event":
            raise NoEvent from None
        raise Damaged(table, str(fault)) from None
    except UnicodeDecodeError:
        # of the error itself, which names what is no text
        raise sqlite3.DatabaseError("an error that can't be told") from None
    need(table, all(has_kinds(columns, row[len(columns) :]) for row in found), "a value of another kind")
    return sorted(row[: len(columns)] for row in found)


def check_keys(table, rows):
    size = COLUMNS[table][1]
    need(table, all(a[:size] < b[:size] for a, b in zip(rows, rows[1:])), "a key comes twice")


def score_of(table, done, score):
    """The score of a row, or None if the match has none."""
    need(table, done in (0, 1), "done")
    need(table, min(score) >= 0, "games below 0")
    if done:
        return score
    need(table, score == (0, 0, 0), "a score of a match that is open")
    return None


# ---- the checks, a table each


def checked_event(rows):
    need("event", len(rows) == 1, "not one row")
    number, version, serial, name, rounds, cut, phase = rows[0]
    need("event", number == 1, "id")
    need("event", version in MOST_ROUNDS, "version")
    need("event", 0 <= serial <= LAST_SERIAL, "serial")
    need("event", is_lawful(name), "name")
    need("event", 1 <= rounds <= MOST_ROUNDS[version], "rounds")
    need("event", cut in (0, *SLOTS), "cut")
    need("event", ENROLLING <= phase <= FINISHED, "phase")
    event = Event(rounds, cut, version)
    event.serial, event.phase = serial, phase
    return event


def check_players(event, rows):
    table = PLAYERS[event.version]
    check_keys(table, rows)
    need(table, [it[0] for it in rows] == list(range(1, len(rows) + 1)), "numbers")
    need(table, len(rows) <= MOST_PLAYERS, "too many")
    need(table, all(is_lawful(it[1]) for it in rows), "name")
    need(table, len({it[1] for it in rows}) == len(rows), "a name comes twice")
    need(table, all(it[2] in (0, 1) for it in rows), "dropped")
    # only version 2 has the column `joined`
    most = 0 if event.phase == ENROLLING else event.rounds
    need(table, all(0 <= it <= most for row in rows for it in row[3:]), "joined")
    event.names = [it[1].decode() for it in rows]
    event.dropped = {it[0] for it in rows if it[2]}
    event.late = {row[0]: it for row in rows for it in row[3:] if it}
    need(table, event.phase != ENROLLING or not event.dropped, "one has dropped before the start")
    need(table, event.phase == ENROLLING or len(rows) >= 2, "too few")


def match_of(event, row):
    """First, second and score of a row of `pairing`."""
    _, table, lo, hi, swapped, done, *score = row
    need("pairing", swapped in (0, 1), "swapped")
    need("pairing", lo < hi, "lo and hi")
    score = score_of("pairing", done, tuple(score))
    if table == 0 or lo == 0:
        need("pairing", (table, lo, swapped, score) == (0, 0, 1, BYE), "a bye")
        need("pairing", hi in event.numbers(), "nobody has the bye")
    else:
        need("pairing", lo in event.numbers() and hi in event.numbers(), "no such player")
        need("pairing", score is None or swiss(score), "score")
    return [hi, lo, score] if swapped else [lo, hi, score]


def round_of(event, rows):
    """The matches of a round, the bye last."""
    matches = {row[1]: match_of(event, row) for row in rows}
    tables = sorted(set(matches) - {0})
    need("pairing", tables == list(range(1, len(tables) + 1)), "tables")
    sitting = [it for a, b, _ in matches.values() for it in (a, b) if it]
    need("pairing", len(set(sitting)) == len(sitting), "one stands twice in a round")
    return [matches[it] for it in tables] + [matches[it] for it in matches if it == 0]


def check_pairings(event, rows):
    check_keys("pairing", rows)
    rounds = [list(it) for _, it in itertools.groupby(rows, key=lambda it: it[0])]
    need("pairing", [it[0][0] for it in rounds] == list(range(1, len(rounds) + 1)), "rounds")
    need("pairing", len(rounds) <= event.rounds, "too many rounds")
    need("pairing", len({it[2:4] for it in rows}) == len(rows), "two meet twice, or one has two byes")
    event.stored = [round_of(event, it) for it in rounds]
    need("pairing", all(is_complete(it) for it in event.stored[:-1]), "an open round before the newest")
    need(
        "pairing",
        all(it <= len(event.stored) for it in event.late.values()),
        "one has missed a round that isn't stored",
    )
    sitting = [
        (number, it)
        for number, matches in enumerate(event.stored, 1)
        for match in matches
        for it in match[:2]
    ]
    need(
        "pairing",
        all(event.joined(it) < number for number, it in sitting),
        "one sits in a round that they missed",
    )
    need("pairing", event.phase != ENROLLING or not rows, "a round before the start")
    is_over = len(event.stored) == event.rounds and all(map(is_complete, event.stored))
    need("pairing", event.phase not in (PLAYOFF, FINISHED) or is_over, "a playoff before the rounds are done")


def stage_of(event, rows):
    """The matches of a stage by slot."""
    need("bracket", [it[1] for it in rows] == list(range(1, len(rows) + 1)), "slots")
    matches = [[a, b, score_of("bracket", done, tuple(score))] for _, _, a, b, done, *score in rows]
    need(
        "bracket", all(a in event.numbers() and b in event.numbers() for a, b, _ in matches), "no such player"
    )
    need("bracket", all(score is None or of_playoff(score) for _, _, score in matches), "score")
    return matches


def check_stages(event):
    first = [it for match in event.stages[0] for it in match[:2]]
    need("bracket", len(event.stages[0]) == event.cut // 2, "slots of the first stage")
    need("bracket", len(set(first)) == len(first), "one stands twice in the first stage")
    for before, after in itertools.zip_longest(event.stages, event.stages[1:], fillvalue=[]):
        on = [winner(it) for it in before] if is_complete(before) and len(before) > 1 else []
        need("bracket", [it for match in after for it in match[:2]] == on, "the next stage")
    last = event.stages[-1]
    need("bracket", (event.phase == FINISHED) == (len(last) == 1 and is_complete(last)), "the last match")


def check_bracket(event, rows):
    check_keys("bracket", rows)
    stages = [list(it) for _, it in itertools.groupby(rows, key=lambda it: it[0])]
    need("bracket", [it[0][0] for it in stages] == list(range(1, len(stages) + 1)), "stages")
    event.stages = [stage_of(event, it) for it in stages]
    if event.phase in (ENROLLING, SWISS):
        need("bracket", not rows, "a bracket before the cut")
    else:
        need("bracket", event.cut > 0 and rows, "no bracket")
        check_stages(event)


def check_tallies(event, rows):
    need("tally", rows == [(it, *event.totals(it)) for it in event.numbers()], "totals")


def check_seeds(event):
    """The first stage is what the standings give."""
    if event.stages:
        seeds = [it for it in event.merits() if it not in event.dropped][: event.cut]
        due = [[seeds[a - 1], seeds[b - 1]] for a, b in SLOTS[event.cut]] if len(seeds) == event.cut else None
        need("bracket", [it[:2] for it in event.stages[0]] == due, "seeds")


def event_of(rows):
    """The event that the rows of the five tables stand for; the first fault is raised."""
    event = checked_event(rows["event"])
    check_players(event, rows[PLAYERS[event.version]])
    check_pairings(event, rows["pairing"])
    check_bracket(event, rows["bracket"])
    check_tallies(event, rows["tally"])
    check_seeds(event)
    return event


def version_said(rows):
    """The version in whose tables the players are read: 2 where a row of the event says so, before any of them is checked."""
    return 2 if any(row[1] == 2 for row in rows) else 1


def read(file):
    """The event of a file. NoEvent or Damaged is raised if it holds none, and an error of C SQLite if that can't read it."""
    base = sqlite3.connect(file, isolation_level=None)
    base.text_factory = bytes
    try:
        tables = tables_of(version_said(rows_of_table(base, "event")))
        return event_of({table: rows_of_table(base, table) for table in tables})
    finally:
        base.close()
