"""Edits good files by plain SQL, one edit each: those of worked example 43, and those that break one more rule of the rows each. The program
refuses each such file, for reading as for writing, and leaves it as it is. The same files without the edit open. Each edit is made through
Python's SQLite; and those of worked example 43, or `all`, through the command `sqlite3` too, if it is installed.

The files are old ones, of version 1, which SQL makes; new ones, of version 2; and old ones that were moved to version 2. Of these last only the edits are
made that come to different things in the three, or `all`. An event with a late entry has no old file.
"""
import collections
import copy
import os
import shutil
import sqlite3
import subprocess
import tempfile

from second_reading import plain_file
from second_reading.plain_event import Event
from tests.support.event_files import bytes_in, copied, due, make_old
from tests.support.program import Program
from tests.support.tally import check, end, left_out
from tests.support.words import PROGRAM, Word, given_by

ZERO, ALL = "0" * 64, "all"
OLD, NEW, MOVED = LAYOUTS = ("old", "new", "moved")
Good = collections.namedtuple("Good", "program file event writing")
# the table at fault, or None if there is no event at all; or that of each kind of file on which the edit is tried. {player} is the table of players
Edit = collections.namedtuple("Edit", "example table what sql")

# worked examples, and an event of nobody: number of rounds, cut, players, the lines after `start`, and a command for which it is time then
EXAMPLES = {
    0: (3, 0, (), None, "drop 1"),
    1: (3, 0, ("Ana", "Bo", "Cy", "Di"), None, "start"),
    4: (3, 0, ("Ana", "Bo", "Cy", "Di"), [], "result 1 1 2 0 0"),
    5: (3, 0, ("Ana", "Bo", "Cy"), [], "result 1 1 2 0 0"),
    9: (3, 0, ("Ana", "Bo", "Cy", "Di"), ["result 1 1 2 0 0", "result 1 2 2 1 0"], "correct 1 2 0 2 0"),
    48: (
        3,
        0,
        ("Ana", "Bo", "Cy", "Di"),
        ["result 1 1 2 0 0", "result 1 2 2 1 0", "enrol Ed"],
        "correct 1 2 0 2 0",
    ),
    17: (
        1,
        4,
        [f"P{it}" for it in range(1, 7)],
        [
            "result 1 1 2 0 0",
            "result 1 2 2 0 0",
            "result 1 3 2 0 0",
            "drop 2",
            "cut",
            "playoff 1 1 2 0 0",
            "playoff 1 2 1 2 0",
            "playoff 2 1 0 2 0",
        ],
        "playoff 2 1 0 2 0",
    ),
}

PAIRING = "round INTEGER NOT NULL, tab INTEGER NOT NULL, lo INTEGER NOT NULL, hi INTEGER NOT NULL, swapped INTEGER NOT NULL, done INTEGER NOT NULL, x INTEGER NOT NULL, y INTEGER NOT NULL, d INTEGER NOT NULL"
NO_KEYS = {
    "event": "id, version, serial, name, rounds, cut, phase",
    "player": "no, name, dropped",
    "player2": "no, name, dropped, joined",
    "pairing": PAIRING,
    "bracket": "stage, slot, a, b, done, x, y, d",
    "tally": "no, points, rounds, gamepoints, games",
}
UNCHECKED = "PRAGMA ignore_check_constraints = ON;"

# rows that break a CHECK of their table, so that C SQLite itself says that the database isn't whole: 25 is an answer to them too
UNWHOLE = [
    (1, "an id of 2", f"{UNCHECKED} UPDATE event SET id = 2"),
    (
        1,
        "two rows of event",
        f"{UNCHECKED} INSERT INTO event SELECT 2, version, serial, name, rounds, cut, phase FROM event",
    ),
    (4, "players the wrong way round", f"{UNCHECKED} UPDATE pairing SET lo = hi, hi = lo WHERE tab = 1"),
]


def loosely(table, statement):
    """The statement, of a table that was made anew without keys and checks."""
    copied_rows = (
        f"CREATE TABLE loose({NO_KEYS.get(table, '{columns}')}); INSERT INTO loose SELECT * FROM {table}"
    )
    return f"{copied_rows}; DROP TABLE {table}; ALTER TABLE loose RENAME TO {table}; {statement}"


# worked example 43
WORKED = [
    # players are looked for in the table of version 1 if no row says 2
    Edit(1, {OLD: "event", NEW: "player", MOVED: "event"}, "the event's row deleted", "DELETE FROM event"),
    Edit(1, {OLD: "player2"}, "version 2", "UPDATE event SET version = 2"),
    Edit(1, {OLD: "event", NEW: "player", MOVED: "event"}, "version 3", "UPDATE event SET version = 3"),
    Edit(1, "event", "serial 1000000", "UPDATE event SET serial = 1000000"),
    Edit(1, "event", "phase 4", "UPDATE event SET phase = 4"),
    Edit(1, "{player}", "player 2 deleted", "DELETE FROM {player} WHERE no = 2"),
    Edit(1, "{player}", "a name with a space in front", "UPDATE {player} SET name = ' Bo' WHERE no = 2"),
    Edit(1, "{player}", "dropped as a blob", "UPDATE {player} SET dropped = x'00' WHERE no = 2"),
    Edit(1, "{player}", "no table of players", "DROP TABLE {player}"),
    Edit(4, "pairing", "table 2 as table 3", "UPDATE pairing SET tab = 3 WHERE tab = 2"),
    Edit(4, "pairing", "a player who isn't there", "UPDATE pairing SET hi = 9 WHERE tab = 2"),
    Edit(4, "pairing", "a game in an open match", "UPDATE pairing SET x = 1 WHERE tab = 1"),
    Edit(5, "pairing", "a bye that isn't swapped", "UPDATE pairing SET swapped = 0 WHERE tab = 0"),
    Edit(17, "bracket", "stage 2 deleted", "DELETE FROM bracket WHERE stage = 2"),
    Edit(
        17,
        "bracket",
        "a playoff player who isn't there",
        "UPDATE bracket SET a = 9 WHERE stage = 1 AND slot = 2",
    ),
    Edit(
        17,
        "bracket",
        "other seeds, the same winners",
        "UPDATE bracket SET a = 3, b = 5, x = 0, y = 2, d = 0 WHERE stage = 1 AND slot = 1",
    ),
]

NO_UTF8, NO_UTF8_EVENT = (
    "UPDATE {player} SET name = CAST(x'ff' AS TEXT) WHERE no = 3",
    "UPDATE event SET name = CAST(x'ff' AS TEXT)",
)

# files of version 2
LATER = (NEW, MOVED)
# how many rounds were stored when a player came, and the totals of somebody who came late; worked example 49 is among them
JOINED = [
    Edit(
        9,
        dict.fromkeys(LATER, "pairing"),
        "one who sat in the round that they missed",
        "UPDATE {player} SET joined = 1 WHERE no = 2",
    ),
    Edit(
        9,
        dict.fromkeys(LATER, "pairing"),
        "one who came after round 3, of which one is stored",
        "UPDATE {player} SET joined = 3 WHERE no = 2",
    ),
    Edit(
        9,
        dict.fromkeys(LATER, "player2"),
        "one who came after round 4 of 3",
        "UPDATE {player} SET joined = 4 WHERE no = 2",
    ),
    Edit(
        9,
        dict.fromkeys(LATER, "player2"),
        "one who came after round 257",
        "UPDATE {player} SET joined = 257 WHERE no = 2",
    ),
    Edit(
        48,
        {NEW: "pairing"},
        "one who came late, after a round that isn't stored",
        "UPDATE {player} SET joined = 2 WHERE no = 5",
    ),
    Edit(
        48,
        {NEW: "player2"},
        "one who came late, after round 257",
        "UPDATE {player} SET joined = 257 WHERE no = 5",
    ),
    Edit(
        48,
        {NEW: "player2"},
        "one who came late, before any round",
        "UPDATE {player} SET joined = -1 WHERE no = 5",
    ),
    Edit(
        48,
        {NEW: "player2"},
        "one who came late, before the start",
        "DELETE FROM pairing; UPDATE tally SET points = 0, rounds = 0, gamepoints = 0, games = 0; UPDATE event SET phase = 0",
    ),
    Edit(
        48,
        {NEW: "tally"},
        "totals without the round that was missed",
        "UPDATE tally SET rounds = 0 WHERE no = 5",
    ),
    Edit(
        48,
        {NEW: "tally"},
        "a round that was missed twice in the totals",
        "UPDATE tally SET rounds = 2 WHERE no = 5",
    ),
    Edit(48, {NEW: "tally"}, "a round that was missed as a draw", "UPDATE tally SET points = 1 WHERE no = 5"),
    Edit(
        48,
        {NEW: "tally"},
        "one who came in time, with a round that was missed",
        "UPDATE {player} SET joined = 0 WHERE no = 5",
    ),
    Edit(
        48,
        {NEW: "tally"},
        "a round that was missed, and is open again",
        "UPDATE pairing SET done = 0, x = 0, y = 0, d = 0; UPDATE tally SET points = 0, rounds = 0, gamepoints = 0, games = 0 WHERE no < 5",
    ),
]

# worked examples 18 and 39, and others
EDITS = (
    WORKED
    + JOINED
    + [
        Edit(
            4,
            "pairing",
            "a pairing again",
            loosely(
                "pairing",
                "INSERT INTO pairing SELECT 2, tab, lo, hi, 1 - swapped, 0, 0, 0, 0 FROM pairing; UPDATE pairing SET done = 1, x = 2 WHERE round = 1; UPDATE tally SET rounds = 1, games = 2; UPDATE tally SET points = 3, gamepoints = 6 WHERE no IN (1, 4)",
            ),
        ),
        Edit(9, "tally", "points of player 4", "UPDATE tally SET points = 4 WHERE no = 4"),
        Edit(1, None, "no table event", "DROP TABLE event"),
        Edit(1, None, "no column of event", "ALTER TABLE event RENAME COLUMN cut TO cuts"),
        Edit(1, None, "no table event, nor of players", "DROP TABLE event; DROP TABLE {player}"),
        Edit(1, "event", "an id of 2", loosely("event", "UPDATE event SET id = 2")),
        Edit(
            1,
            "event",
            "two rows",
            loosely(
                "event", "INSERT INTO event SELECT 2, version, serial, name, rounds, cut, phase FROM event"
            ),
        ),
        Edit(1, "event", "a negative serial", "UPDATE event SET serial = -1"),
        Edit(1, "event", "a serial that is 4 above 2 to the 32", "UPDATE event SET serial = 4294967300"),
        Edit(
            1, "event", "the name of an event with a TAB", "UPDATE event SET name = 'Fri' || char(9) || 'day'"
        ),
        Edit(1, "event", "no rounds", "UPDATE event SET rounds = 0"),
        Edit(1, {OLD: "event"}, "ten rounds", "UPDATE event SET rounds = 10"),
        Edit(1, {OLD: "event"}, "twelve rounds", "UPDATE event SET rounds = 12"),
        Edit(1, "event", "thirteen rounds", "UPDATE event SET rounds = 13"),
        Edit(1, {NEW: "player", MOVED: "tally"}, "version 1", "UPDATE event SET version = 1"),
        Edit(
            4,
            {NEW: "player", MOVED: "player"},
            "version 1 in the Swiss rounds",
            "UPDATE event SET version = 1",
        ),
        Edit(1, "event", "a cut of 6", "UPDATE event SET cut = 6"),
        Edit(1, "event", "rounds as a fraction", "UPDATE event SET rounds = 2.5"),
        Edit(
            1, "{player}", "one who dropped before the start", "UPDATE {player} SET dropped = 1 WHERE no = 2"
        ),
        Edit(1, "{player}", "a name twice", loosely("{player}", "UPDATE {player} SET name = 'Ana'")),
        Edit(1, "{player}", "a number twice", loosely("{player}", "UPDATE {player} SET no = 1 WHERE no = 2")),
        Edit(1, "{player}", "no name", loosely("{player}", "UPDATE {player} SET name = NULL WHERE no = 3")),
        Edit(1, "{player}", "a name as a blob", "UPDATE {player} SET name = CAST(name AS BLOB) WHERE no = 3"),
        Edit(1, "{player}", "a name that is no UTF-8", NO_UTF8),
        Edit(1, "event", "the name of an event that is no UTF-8", NO_UTF8_EVENT),
        # a text is read, whatever its bytes are, and then checked with its table; a blob can't be read
        Edit(
            1,
            {OLD: "event", NEW: "player", MOVED: "event"},
            "a name that is no UTF-8 in version 3",
            f"{NO_UTF8}; UPDATE event SET version = 3",
        ),
        Edit(1, "pairing", "a name that is no UTF-8, and no table pairing", f"{NO_UTF8}; DROP TABLE pairing"),
        Edit(
            1,
            "{player}",
            "the name of an event that is no UTF-8, and no table of players",
            f"{NO_UTF8_EVENT}; DROP TABLE {{player}}",
        ),
        Edit(
            1,
            "{player}",
            "a name as a blob, and no table pairing",
            "UPDATE {player} SET name = x'ff' WHERE no = 3; DROP TABLE pairing",
        ),
        Edit(
            1,
            "event",
            "the name of an event as a blob, and no table of players",
            "UPDATE event SET name = x'ff'; DROP TABLE {player}",
        ),
        Edit(
            1,
            {NEW: "player2", MOVED: "player2"},
            "one who joined after round 1",
            "UPDATE {player} SET joined = 1 WHERE no = 2",
        ),
        Edit(
            4,
            {NEW: "player2", MOVED: "player2"},
            "one who joined before any round",
            "UPDATE {player} SET joined = -1 WHERE no = 2",
        ),
        Edit(
            1,
            {NEW: "player2", MOVED: "player2"},
            "joined as a blob",
            "UPDATE {player} SET joined = x'00' WHERE no = 2",
        ),
        Edit(4, "{player}", "dropped as 2", "UPDATE {player} SET dropped = 2 WHERE no = 3"),
        Edit(1, "pairing", "a column less", "ALTER TABLE pairing RENAME COLUMN x TO games"),
        Edit(1, "bracket", "no table bracket", "DROP TABLE bracket"),
        Edit(1, "tally", "no table tally", "DROP TABLE tally"),
        Edit(1, "tally", "a column less", "ALTER TABLE tally RENAME COLUMN games TO played"),
        Edit(1, "tally", "a row less", "DELETE FROM tally WHERE no = 4"),
        Edit(1, "tally", "a row more", "INSERT INTO tally VALUES (5, 0, 0, 0, 0)"),
        Edit(4, "pairing", "a round before the start", "UPDATE event SET phase = 0"),
        Edit(
            9,
            "pairing",
            "a round above the last",
            "INSERT INTO pairing VALUES (2, 1, 1, 4, 1, 0, 0, 0, 0), (2, 2, 2, 3, 0, 0, 0, 0, 0); UPDATE event SET rounds = 1",
        ),
        Edit(
            9,
            "pairing",
            "round 3 behind round 1",
            "INSERT INTO pairing VALUES (3, 1, 1, 4, 1, 0, 0, 0, 0), (3, 2, 2, 3, 0, 0, 0, 0, 0)",
        ),
        Edit(
            4,
            "pairing",
            "an open round before the newest",
            "INSERT INTO pairing VALUES (2, 1, 1, 4, 1, 0, 0, 0, 0), (2, 2, 2, 3, 0, 0, 0, 0, 0)",
        ),
        Edit(4, "pairing", "one who sits twice", "UPDATE pairing SET lo = 2, hi = 3 WHERE tab = 2"),
        Edit(
            9,
            "pairing",
            "a score with games below 0",
            "UPDATE pairing SET y = -1 WHERE tab = 2; UPDATE tally SET gamepoints = -3, games = 1 WHERE no = 3; UPDATE tally SET games = 1 WHERE no = 1",
        ),
        Edit(
            1,
            "{player}",
            "one player after the start",
            "DELETE FROM {player} WHERE no > 1; DELETE FROM tally WHERE no > 1; UPDATE event SET phase = 1",
        ),
        Edit(
            9,
            "pairing",
            "a score of 2-2-0",
            "UPDATE pairing SET y = 2 WHERE tab = 2; UPDATE tally SET points = 1, gamepoints = 6, games = 4 WHERE no IN (1, 3)",
        ),
        Edit(
            4,
            "pairing",
            "players the wrong way round",
            loosely("pairing", "UPDATE pairing SET lo = hi, hi = lo, swapped = 0 WHERE tab = 1"),
        ),
        Edit(
            5,
            "pairing",
            "two byes",
            loosely(
                "pairing", "UPDATE pairing SET tab = 0, lo = 0, swapped = 1, done = 1, x = 2 WHERE tab = 1"
            ),
        ),
        Edit(5, "pairing", "a bye at a table", "UPDATE pairing SET tab = 2 WHERE tab = 0"),
        Edit(9, "bracket", "a bracket before the cut", "INSERT INTO bracket VALUES (1, 1, 4, 1, 0, 0, 0, 0)"),
        Edit(
            17,
            "bracket",
            "a final that has no score",
            "UPDATE bracket SET done = 0, x = 0, y = 0, d = 0 WHERE stage = 2",
        ),
        Edit(17, "bracket", "a drawn match", "UPDATE bracket SET x = 2 WHERE stage = 2"),
        Edit(17, "bracket", "a winner who isn't in the final", "UPDATE bracket SET a = 3 WHERE stage = 2"),
        Edit(17, "bracket", "a bracket without a cut", "UPDATE event SET cut = 0"),
        Edit(17, "bracket", "the first stage alone, of a cut of 8", "UPDATE event SET cut = 8"),
        Edit(17, "bracket", "the final is still to be played", "UPDATE event SET phase = 2"),
    ]
)


# edits that leave an event, with the kinds of file on which they are tried: more rounds than version 1 has; a file that was moved to version 2 before
# anybody enrolled, with its first version again; another program's table where the other version has its players; and other rounds of one who came late
LAWFUL = [
    (1, (NEW, MOVED), "ten rounds of version 2", "UPDATE event SET rounds = 10"),
    (1, (NEW, MOVED), "twelve rounds of version 2", "UPDATE event SET rounds = 12"),
    (0, (MOVED,), "version 1 where nobody has enrolled", "UPDATE event SET version = 1"),
    (
        1,
        LAYOUTS,
        "another table of that name",
        "DROP TABLE IF EXISTS {other}; CREATE TABLE {other}(body TEXT)",
    ),
    (
        48,
        (NEW,),
        "one who sat out in place of coming late",
        "UPDATE {player} SET joined = 0 WHERE no = 5; UPDATE tally SET rounds = 0 WHERE no = 5",
    ),
    (
        48,
        (NEW,),
        "a round that was missed, and is open",
        "UPDATE pairing SET done = 0, x = 0, y = 0, d = 0; UPDATE tally SET points = 0, rounds = 0, gamepoints = 0, games = 0",
    ),
]


def command(event, words):
    """What the plain event is answered to a command line without its file."""
    name, *rest = words.split(" ")
    if name == "enrol":
        return event.enrol(*rest)
    numbers = [int(it) for it in rest]
    if name in ("result", "correct"):
        return event.report(*numbers[:2], tuple(numbers[2:]), name == "result")
    if name == "playoff":
        return event.play(*numbers[:2], tuple(numbers[2:]))
    return {"start": event.start, "drop": event.drop, "cut": event.end_rounds}[name](*numbers)


def with_file(words, file):
    name, *rest = words.split(" ")
    return [name, file, *rest]


def made(program, example, room):
    """The file of a worked example, made by command lines, and its event."""
    rounds, cut, names, lines, writing = EXAMPLES[example]
    file, event = f"{room}/{example}/e.event", Event(rounds, cut)
    os.mkdir(os.path.dirname(file))
    check(
        f"example {example}, init", program.run("init", file, "Friday", str(rounds), str(cut)), due(["ok 0"])
    )
    for name in names:
        check(f"example {example}, {name}", program.run("enrol", file, name), due(event.enrol(name)))
    if lines is not None:
        check(f"example {example}, start", program.run("start", file), due(event.start()))
        check(f"example {example}, pair", program.run("pair", file, "1", ZERO), due(event.pair(1, bytes(32))))
        for words in lines:
            check(
                f"example {example}, {words}",
                program.run(*with_file(words, file)),
                due(command(event, words)),
            )
    return Good(program, file, event, writing)


def old_and_moved(example, new, room):
    """The same event in version 1, and moved from there to version 2."""
    event = copy.deepcopy(new.event)
    event.version = 1
    files = [f"{room}/{example}-{layout}/e.event" for layout in (OLD, MOVED)]
    for file in files:
        os.mkdir(os.path.dirname(file))
        make_old(file, event, name="Friday")
    check(f"example {example}, migrate", new.program.run("migrate", files[1]), due([f"ok {event.serial}"]))
    return new._replace(file=files[0], event=event), new._replace(file=files[1])


def all_made(program, room):
    """The files of the worked examples, as each of the layouts has them."""
    goods = {}
    for example in EXAMPLES:
        goods[example, NEW] = made(program, example, room)
        if not goods[example, NEW].event.late:
            goods[example, OLD], goods[example, MOVED] = old_and_moved(example, goods[example, NEW], room)
    return goods


def check_good(name, good):
    """The file opens before any edit, and shows its event; and the command that is to be refused is answered by the rules."""
    with tempfile.TemporaryDirectory() as room:
        check(f"{name}, read plainly", vars(plain_file.read(copied(good.file, room))), vars(good.event))
    for text in ("players", "standings"):
        check(f"{name}, {text}", good.program.run(text, good.file), due(getattr(good.event, text)()))
    with tempfile.TemporaryDirectory() as room:
        answer = due(command(copy.deepcopy(good.event), good.writing))
        check(
            f"{name}, {good.writing}",
            good.program.run(*with_file(good.writing, copied(good.file, room))),
            answer,
        )


def by_python(file, sql):
    base = sqlite3.connect(file, isolation_level=None)
    base.executescript(sql)
    base.close()


def by_command(file, sql):
    subprocess.run(
        ["sqlite3", "-bail", file, sql],
        stdin=subprocess.DEVNULL,
        stdout=subprocess.DEVNULL,
        timeout=60,
        check=True,
    )


def table_at_fault(file):
    try:
        plain_file.read(file)
        return "none"
    except plain_file.NoEvent:
        return None
    except plain_file.Damaged as fault:
        return fault.table


def run_in_copy(name, how, sql, good, refusals):
    """Makes an edit in a copy, and asks the program to read it and to write it. It is refused in one of these ways, and stays as it is."""
    with tempfile.TemporaryDirectory() as room:
        file = copied(good.file, room)
        how(file, sql)
        before = bytes_in(room)
        for words in ("players", "standings", good.writing):
            got = good.program.run(*with_file(words, file))
            check(f"{name}, {words}", got in refusals or got, True)
        check(f"{name}, the file stays, and no log is left", bytes_in(room) == before, True)
        return table_at_fault(file)


def told_in(good, text):
    """A text with the table of players of this file, its columns, and the table of players that the other version has."""
    table, other = plain_file.PLAYERS[good.event.version], plain_file.PLAYERS[3 - good.event.version]
    return text.format(player=table, columns=NO_KEYS[table], other=other)


def run_edit(how, edit, layout, good):
    name, table = (
        f"{edit.what}, {layout}, {how.__name__}",
        edit.table[layout] if isinstance(edit.table, dict) else edit.table,
    )
    refusals = [due(["refused 29 Damaged" if table else "refused 27 NoEvent"])]
    found = run_in_copy(name, how, told_in(good, edit.sql), good, refusals)
    check(f"{name}, the table at fault", found, table and told_in(good, table))


def run_unwhole(how, what, sql, good):
    run_in_copy(
        f"{what}, unchecked, {how.__name__}",
        how,
        sql,
        good,
        [due(["refused 29 Damaged"]), due(["refused 25 Store"])],
    )


def run_lawful(what, sql, good):
    """An edit that leaves an event, which the program shows."""
    with tempfile.TemporaryDirectory() as room:
        file = copied(good.file, room)
        by_python(file, told_in(good, sql))
        event = plain_file.read(file)
        for text in ("players", "standings"):
            check(f"{what}, {text}", good.program.run(text, file), due(getattr(event, text)()))


def layouts_of(edit, takes_all):
    """The kinds of file on which an edit is tried."""
    if isinstance(edit.table, dict):
        return list(edit.table)
    return LAYOUTS if takes_all else (OLD, NEW)


def main(program, which):
    takes_all = which == ALL
    with tempfile.TemporaryDirectory() as room:
        goods = all_made(Program(program), room)
        for (example, layout), good in goods.items():
            check_good(f"example {example}, {layout}", good)
        for edit in EDITS:
            for layout in layouts_of(edit, takes_all):
                run_edit(by_python, edit, layout, goods[edit.example, layout])
        for example, what, sql in UNWHOLE:
            for layout in (OLD, NEW):
                run_unwhole(by_python, what, sql, goods[example, layout])
        for example, layouts, what, sql in LAWFUL:
            for layout in layouts:
                run_lawful(f"{what}, {layout}", sql, goods[example, layout])
        by_hand = (EDITS if takes_all else WORKED) if shutil.which("sqlite3") else []
        for edit in by_hand:
            for layout in layouts_of(edit, takes_all):
                run_edit(by_command, edit, layout, goods[edit.example, layout])
    if not by_hand:
        left_out("damages by the command sqlite3", "it is not installed")
    end(
        f"one edit in a good file: {len(EDITS)} edits, and {len(UNWHOLE)} that a CHECK forbids; by the command sqlite3 {len(by_hand)} of them"
    )


if __name__ == "__main__":
    which = Word(str, f"{ALL}: each edit by the command sqlite3 too, and on each kind of file", "?", "")
    main(**given_by(__doc__, program=PROGRAM, which=which))
