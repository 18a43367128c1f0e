"""Damages to an event's file by plain SQL, as another program may do them: to rows, within what the tables let pass; to tables and columns; to rows
in tables that were made anew without keys and checks; and the rows of another event, sound or not. Some leave a sound event. What each comes
to is for a plain reading to say.
"""
import os
import sqlite3

from second_reading.plain_file import COLUMNS, PLAYERS, tables_of
from tests.faults.damaged_events import NAMES, NO_NAMES, changed
from tests.support.event_files import rows_of

NUMBERS = (
    -1,
    0,
    1,
    2,
    3,
    4,
    8,
    9,
    10,
    12,
    13,
    255,
    256,
    512,
    513,
    65_536,
    999_999,
    1_000_000,
    2**31,
    2**32,
    2**63 - 1,
    -(2**31),
    -(2**63),
)
# numbers that look like the old one where their high bits are lost are among the new ones
STEPS = (-2, -1, -1, 1, 1, 2, 256, -256, 65_536, 2**32, -(2**32), -(2**63))
TEXTS = ("5", " 5", "5x", "1.0", "0x1", "1e2", "9223372036854775808", "x")
NO_TEXTS = (b"\xff", b"Ana\xc3", b"\xed\xa0\x80", b"\xc0\xaf", b"\xf4\x90\x80\x80", b"An\xffa")
BLOBS = (b"", b"\0", b"\1", b"Ana", b"P1", b"\xff" * 70)
REALS = (0.0, 1.0, -1.0, 0.5, 2.5, 1e300, float("inf"), 4294967296.0)

PLAYER_TRICKS = (
    "dropped = 2 * dropped",
    "dropped = -dropped",
    "dropped = 1 - dropped",
    "no = no + 1",
    "no = no - 1",
    "name = name || ' '",
    "name = ' ' || name",
    "name = CAST(name || x'00' AS TEXT)",
    "name = CAST(name || x'ff' AS TEXT)",
    "name = ''",
)
# what breaks one rule of a row, and leaves the event, the player or the match to be guessed from it
TRICKS = {
    "event": (
        "id = 2",
        "version = 3 - version",
        "version = version + 2",
        "serial = serial + 1000000",
        "serial = -1 - serial",
        "serial = serial + 4294967296",
        "name = name || ' '",
        "phase = phase + 4",
        "phase = phase - 4",
        "rounds = 10",
        "rounds = 13",
        "rounds = rounds + 256",
        "cut = cut + 2",
    ),
    "player": PLAYER_TRICKS,
    "player2": (
        *PLAYER_TRICKS,
        "joined = 1 - joined",
        "joined = joined - 1",
        "joined = joined + 1",
        "joined = joined + 256",
        "joined = 0",
    ),
    "pairing": (
        "lo = hi, hi = lo, swapped = 1 - swapped",
        "swapped = 2 * swapped",
        "swapped = -swapped",
        "done = 2 * done",
        "done = -done",
        "round = round + 1",
        "tab = tab + 1",
        "x = x + 1 - done",
        "y = y - 1 + done",
        "d = d + 1 - done",
        "swapped = 1 - swapped, x = y, y = x",
        "tab = 0",
        "lo = 0",
    ),
    "bracket": (
        "stage = stage + 1",
        "slot = slot + 1",
        "done = 2 * done",
        "done = -done",
        "x = x + 1 - done",
        "d = d + 1 - done",
        "d = d + 4",
        "x = x + 4",
        "x = y, y = x",
        "a = b, b = a, x = y, y = x",
        "x = y",
        "a = 0",
        "b = a",
        "done = 0, x = 0, y = 0, d = 0",
    ),
    "tally": (
        "no = no + 1",
        "points = points + 1",
        "rounds = rounds + 1",
        "gamepoints = gamepoints + 1",
        "games = games + 1",
        "points = points + 256",
        "games = games + 65536",
    ),
}

# what changes the file, and none of our rows; some of it can't stand in a transaction. {player} is the table of the players
KEPT = (
    ("VACUUM",),
    ("REINDEX", "ANALYZE"),
    ("CREATE TABLE note(body TEXT)", "INSERT INTO note VALUES ('chairs')"),
    ("CREATE TABLE note(body TEXT PRIMARY KEY) WITHOUT ROWID",),
    ("CREATE TABLE note(body TEXT) STRICT", "CREATE TRIGGER noted AFTER INSERT ON note BEGIN SELECT 1; END"),
    ("CREATE INDEX by_state ON {player}(dropped, name)",),
    ("CREATE VIEW seats AS SELECT round, tab, name FROM pairing JOIN {player} ON no = hi",),
    ("ALTER TABLE {player} ADD COLUMN club TEXT",),
    ("PRAGMA user_version = 7", "PRAGMA application_id = 7"),
    ("PRAGMA journal_mode = DELETE",),
    ("PRAGMA journal_mode = DELETE", "PRAGMA page_size = 512", "VACUUM", "PRAGMA journal_mode = WAL"),
    ("PRAGMA journal_mode = DELETE", "PRAGMA page_size = 65536", "VACUUM"),
)
# the same, but what the storage crate does not read: the answer may be a refusal
UNREAD = (
    ("CREATE TRIGGER seen AFTER INSERT ON {player} BEGIN UPDATE event SET serial = 7; END",),
    ("CREATE TRIGGER seen BEFORE UPDATE ON event BEGIN SELECT 1; END",),
    ("ALTER TABLE event ADD COLUMN place TEXT DEFAULT 'hall'",),
    ("ALTER TABLE {player} ADD COLUMN shout TEXT GENERATED ALWAYS AS (upper(name)) VIRTUAL",),
    ("CREATE INDEX low ON {player}(lower(name))",),
    ("CREATE INDEX dropped ON {player}(name) WHERE dropped = 1",),
    ("PRAGMA auto_vacuum = FULL", "VACUUM"),
)
UNREAD_KIND = "what isn't read added"
MOST_TRIES = 1000
NO_TRANSACTION = {"our rows kept": KEPT, UNREAD_KIND: UNREAD}


def columns_of(table):
    return COLUMNS[table][0].split()


def places(values):
    return ", ".join("?" * len(values))


def any_table(dice, base, event):
    """A table that has a row, if one has."""
    tables = tables_of(event.version)
    return dice.choice([it for it in tables if base.execute(f"SELECT 1 FROM {it}").fetchone()] or tables)


def rowids_by_key(base, table):
    return [
        it for it, in base.execute(f"SELECT rowid FROM {table} ORDER BY {', '.join(columns_of(table)[:2])}")
    ]


def any_rowid(dice, base, table):
    rowids = rowids_by_key(base, table)
    return dice.choice(rowids) if rowids else None


def wrapped(number):
    return (number + 2**63) % 2**64 - 2**63


def random_value(dice, old):
    """An expression with one parameter, and the value of that."""
    what = dice.random()
    if what < 0.4 and isinstance(old, int):
        return "?", old ^ 1 if old in (0, 1) and dice.random() < 0.5 else wrapped(old + dice.choice(STEPS))
    if what < 0.6 and not isinstance(old, int):
        return "?", dice.choice(dice.choice((NAMES, NO_NAMES)))
    if what < 0.65:
        return "?", dice.choice(NUMBERS)
    kinds = (NAMES, NO_NAMES, TEXTS, BLOBS, REALS, (None,))
    return (
        ("CAST(? AS TEXT)", dice.choice(NO_TEXTS)) if what > 0.95 else ("?", dice.choice(dice.choice(kinds)))
    )


# ---- damages to rows


def set_value(dice, base, event):
    table = any_table(dice, base, event)
    rowid, column = any_rowid(dice, base, table), dice.choice(columns_of(table))
    old = base.execute(f"SELECT {column} FROM {table} WHERE rowid = ?", (rowid,)).fetchone()
    expression, value = random_value(dice, old[0] if old else 0)
    base.execute(f"UPDATE {table} SET {column} = {expression} WHERE rowid = ?", (value, rowid))


def set_values(dice, base, event):
    for _ in range(dice.randint(2, 4)):
        set_value(dice, base, event)


def set_column(dice, base, event):
    """One value, or a step, in all rows of a table."""
    table = any_table(dice, base, event)
    column = dice.choice(columns_of(table))
    if dice.random() < 0.5:
        expression, value = random_value(dice, 0)
        base.execute(f"UPDATE {table} SET {column} = {expression}", (value,))
    else:
        base.execute(f"UPDATE {table} SET {column} = {column} + ?", (dice.choice(STEPS),))


def delete_rows(dice, base, event):
    table = any_table(dice, base, event)
    for _ in range(dice.choice((1, 1, 1, 2, 1000))):
        base.execute(f"DELETE FROM {table} WHERE rowid = ?", (any_rowid(dice, base, table),))


def copy_row(dice, base, event):
    """A row once more, under another key."""
    table = any_table(dice, base, event)
    columns = columns_of(table)
    rows = base.execute(
        f"SELECT {', '.join(columns)} FROM {table} WHERE rowid = ?", (any_rowid(dice, base, table),)
    ).fetchall()
    row = list(rows[0]) if rows else [0] * len(columns)
    for at in (0, dice.randrange(len(row)), dice.randrange(len(row))):
        row[at] = random_value(dice, row[at])[1]
    base.execute(f"INSERT INTO {table}({', '.join(columns)}) VALUES ({places(row)})", row)


def insert_row(dice, base, event):
    """A row of numbers that are near those of the event, or far from them."""
    table, most = dice.choice(tables_of(event.version)), len(event.names) + 1
    row = [
        dice.choice(NAMES)
        if it == "name"
        else dice.choice((0, 1, 2, dice.randint(0, most), dice.choice(NUMBERS)))
        for it in columns_of(table)
    ]
    base.execute(f"INSERT INTO {table}({', '.join(columns_of(table))}) VALUES ({places(row)})", row)


def copy_or_insert(dice, base, event):
    """A copy; if nobody is enrolled a new row, since the table lets no second row of the event pass."""
    (copy_row if event.names else insert_row)(dice, base, event)


def leave(_dice, _base, _event):
    """No damage."""


# ---- damages to tables


def drop_table(dice, base, event):
    base.execute(f"DROP TABLE {dice.choice(tables_of(event.version))}")


def rename(dice, base, event):
    """A table, or a column, or the case of its letters, which makes no other name in SQL."""
    table = dice.choice(tables_of(event.version))
    column = dice.choice(columns_of(table))
    new = dice.choice((column + "2", "other", column.upper()))
    base.execute(
        f"ALTER TABLE {table} RENAME COLUMN {column} TO {new}"
        if dice.random() < 0.7
        else f"ALTER TABLE {table} RENAME TO {table}2"
    )


def players_of_other_version(dice, base, event):
    """The table that the other version has for players, with these players or without. Its version is set, or not."""
    table, version = PLAYERS[3 - event.version], 3 - event.version
    base.execute(f"DROP TABLE IF EXISTS {table}")
    base.execute(f"CREATE TABLE {table}({', '.join(columns_of(table))})")
    if dice.random() < 0.7:
        rows = base.execute(f"SELECT no, name, dropped FROM {PLAYERS[event.version]}").fetchall()
        joined = dice.choice(((0,), (0,), (0,), (1,)))[: version - 1]
        for row in rows:
            base.execute(f"INSERT INTO {table} VALUES ({places((*row, *joined))})", (*row, *joined))
    if dice.random() < 0.7:
        base.execute("UPDATE event SET version = ?", (version,))


def loosen(dice, base, table):
    """Makes a table anew without keys and checks, its rows in any order, and its columns with kinds or without."""
    columns, kinds = columns_of(table), dice.random() < 0.5
    words = [f"{it} {'TEXT' if it == 'name' else 'INTEGER'}" if kinds else it for it in columns]
    rows = base.execute(f"SELECT {', '.join(columns)} FROM {table}").fetchall()
    base.execute(f"DROP TABLE {table}")
    base.execute(f"CREATE TABLE {table}({', '.join(words)})")
    for row in dice.sample(rows, len(rows)):
        base.execute(f"INSERT INTO {table} VALUES ({places(row)})", row)


def set_loosely(dice, base, event):
    """Tables without keys and checks, and then nothing more or one damage to rows."""
    for table in dice.sample(tables_of(event.version), dice.choice((1, 1, 5))):
        loosen(dice, base, table)
    dice.choice((set_value, set_value, set_values, delete_rows, copy_row, insert_row, leave))(
        dice, base, event
    )


def trick(dice, base, event):
    """A trick in one row, in some that follow each other, or in all."""
    table = any_table(dice, base, event)
    loosen(dice, base, table)
    changes, rowids = dice.choice(TRICKS[table]), rowids_by_key(base, table)
    at = dice.randrange(len(rowids) or 1)
    for rowid in rowids[at : dice.choice((at + 1, at + 1, None))]:
        base.execute(f"UPDATE {table} SET {changes} WHERE rowid = ?", (rowid,))


def put_event(dice, base, event):
    """The rows of another event, sound or not, with the totals that it comes to."""
    for table, rows in zip(tables_of(event.version), rows_of(changed(dice, event))):
        loosen(dice, base, table)
        base.execute(f"DELETE FROM {table}")
        for row in rows:
            base.execute(f"INSERT INTO {table} VALUES ({places(row)})", row)


# ---- a damage as a whole

KINDS = {
    "a value set": set_value,
    "values set": set_values,
    "a column set": set_column,
    "rows deleted": delete_rows,
    "a row copied": copy_or_insert,
    "a row inserted": insert_row,
    "a table dropped": drop_table,
    "a name of SQL changed": rename,
    "players of the other version": players_of_other_version,
    "tables without keys": set_loosely,
    "a trick": trick,
    "rows of another event": put_event,
    **NO_TRANSACTION,
}


def damage_by(dice, base, change, event):
    """The change in one transaction. What the tables don't let pass is tried again in another way, a thousand times at most."""
    for _ in range(MOST_TRIES):
        base.execute("BEGIN")
        try:
            change(dice, base, event)
            base.execute("COMMIT")
            return
        except sqlite3.Error:
            base.execute("ROLLBACK")
    raise RuntimeError(f"the tables let no {change.__name__} pass")


def damage(dice, file, kind, event):
    """Damages the file, in which the event stands. What was written stays in its log, as when the other program was killed, or goes into the file."""
    base = sqlite3.connect(file, isolation_level=None)
    parts = [file, f"{file}-wal"] if dice.random() < 0.3 else []
    try:
        if kind in NO_TRANSACTION:
            for statement in dice.choice(NO_TRANSACTION[kind]):
                base.execute(statement.format(player=PLAYERS[event.version])).fetchall()
        else:
            damage_by(dice, base, KINDS[kind], event)
        kept = {it: open(it, "rb").read() for it in parts if os.path.exists(it)}
    finally:
        base.close()
    for name, data in kept.items():
        with open(name, "wb") as it:
            it.write(data)
