"""The program as it is built on files: each transcript of a folder as command lines, one process a line; then the files that a person may
hand in, each with a clear answer, nothing changed, and no litter beside it; copies, as a person makes them and goes back to them; files of
version 1, which are migrated; and late entries in files of either version.

An empty line of a transcript begins the next file. What a script is answered `usage` is a fault of usage here, whose text goes to the errors.
"""
import glob
import os
import pty
import shutil
import signal
import sqlite3
import subprocess
import tempfile

import pytest

from second_reading.plain_event import Event
from tests.support.event_files import (
    as_nobody,
    by_sqlite,
    bytes_in,
    bytes_of,
    copied,
    due,
    event_of_four,
    make_four,
    make_old,
    rows_alone,
    rows_of,
)
from tests.support.plain_log import committed
from tests.support.program import laid
from tests.support.schema import PLAYER2
from tests.support.serving import Serving, hear_interrupts, served
from tests.support.transcripts import parts_of
from tests.support.waiting import PATIENCE
from tools import TOP


def words_of(line, file):
    name, *rest = line.rstrip(b"\n").split(b"\t")
    return [name, file.encode(), *rest]


def is_line(line):
    """Whether it can be a command line."""
    return bool(line.strip(b"\n")) and b"\0" not in line


def check_line(program, name, line, answer, file):
    got = program.run(*words_of(line, file))
    if answer == ["usage"]:
        assert (got[0], got[1], got[2].startswith(b"event_reporter: ")) == (2, b"", True), name
    else:
        assert got == due(answer), name


TRANSCRIPTS = [
    pytest.param(lines, id=f"{os.path.basename(path)}:{at}")
    for path in sorted(glob.glob(f"{TOP}/examples/transcripts/*.txt"))
    for at, lines in parts_of(path)
    if any(is_line(line) for line, _ in lines)
]


@pytest.mark.parametrize("lines", TRANSCRIPTS)
def test_transcript(program, room, lines):
    for line, answer in lines:
        if is_line(line):
            check_line(program, line, line, answer, f"{room}/e.event")


SERVED = (0, b"  No D Name\n   1   Ana\n   2   Bo\n", b"")


def refused(number, name):
    return due([f"refused {number} {name}"])


def made(program, file):
    """An event of two players."""
    return program.played(file, [("enrol", "Ana"), ("enrol", "Bo")])


def log_of(file):
    return f"{file}-wal"


def test_paths(program, room):
    """Where FILE is, or is not."""
    assert program.run("players", f"{room}/none") == refused(27, "NoEvent"), "no such file"
    assert os.listdir(room) == [], "no such file, and none is made"
    assert program.run("init", f"{room}/none/e.event", "Friday", "3", "0") == refused(
        25, "Store"
    ), "no such folder"
    assert program.run("players", room) == refused(25, "Store"), "a folder"
    assert program.run("init", room, "Friday", "3", "0") == refused(25, "Store"), "an event in a folder"
    assert program.run("init", f"{room}/e.event", "Friday", "13", "0") == refused(
        30, "BadSetup"
    ), "an unlawful event"
    assert os.listdir(room) == [], "an unlawful event, and no file is made"
    for name in ("two words.event", 'it\'s "quoted".event', "Zürich – 大会.event"):
        assert program.run("players", made(program, f"{room}/{name}")) == SERVED, name
    assert program.run(b"\xff")[0] == 2, "no words at all"


def test_contents(program, room):
    """What FILE holds."""
    empty = f"{room}/empty"
    open(empty, "w").close()
    assert program.run("players", empty) == refused(27, "NoEvent"), "an empty file"
    assert program.run("players", made(program, empty)) == SERVED, "an event in an empty file"
    text = f"{room}/text"
    with open(text, "w") as it:
        it.write("Ana\nBo\n" * 200)
    assert program.run("players", text) == refused(25, "Store"), "a text"
    assert program.run("init", text, "Friday", "3", "0") == refused(25, "Store"), "an event in a text"
    assert bytes_of(text) == b"Ana\nBo\n" * 200, "a text stays"
    whole = by_sqlite(made(program, f"{room}/whole"), "PRAGMA wal_checkpoint(TRUNCATE)")
    cut = f"{room}/cut"
    with open(cut, "wb") as it:
        it.write(bytes_of(whole)[:100])
    got = program.run("players", cut)
    assert (got[1], got in (refused(25, "Store"), refused(27, "NoEvent"), refused(29, "Damaged"))) == (
        b"",
        True,
    ), "a file cut at 100 bytes"
    assert len(bytes_of(cut)) == 100, "a file cut at 100 bytes stays"
    other = by_sqlite(f"{room}/other", "CREATE TABLE note(body TEXT)", "INSERT INTO note VALUES ('chairs')")
    assert program.run("players", other) == refused(27, "NoEvent"), "another program's file"
    assert program.run("players", made(program, other)) == SERVED, "an event in another program's file"
    assert sqlite3.connect(other).execute("SELECT body FROM note").fetchall() == [
        ("chairs",)
    ], "its own table stays"
    assert program.run("init", whole, "Saturday", "3", "0") == refused(28, "EventExists"), "a second event"
    assert program.run("players", whole) == SERVED, "a second event changes nothing"


def without_log(file, *statements):
    """The file as another program leaves it, which has put the log into it and taken it away."""
    by_sqlite(file, *statements, "PRAGMA wal_checkpoint(TRUNCATE)")
    assert not os.path.exists(log_of(file)), f"{file} has no log"
    return file


def check_litter(program, what, answers, words, room):
    """A command that is refused, and leaves the folder as it is."""
    before = bytes_in(room)
    got = program.run(*words)
    assert (got in answers or got) is True, what
    after = bytes_in(room)
    assert sorted(after) == sorted(before), f"{what}, what lies there"
    assert [it for it in before if after.get(it) != before[it]] == [], f"{what}, the bytes"


INIT = ("init", "Friday", "3", "0")
# the command lines that open FILE
OPENING = [
    ("players",),
    ("standings",),
    ("enrol", "Cy"),
    ("export", "players"),
    ("serve", "0", "1"),
    ("import", "/dev/null"),
    ("migrate",),
]


def test_untold(program, room):
    """If the system can't tell whether FILE is there, it is no missing one: a name or a path that is too long, and a path through a file."""
    file = made(program, f"{room}/e.event")
    before = bytes_in(room)
    for what, path in (
        ("a name of 5,000 letters", "x" * 5_000),
        ("a path of 5,000 letters", "x/" * 2_500),
        ("a path through a file", "e.event/x"),
    ):
        for name, *rest in (*OPENING, INIT):
            assert program.run(name, f"{room}/{path}", *rest) == refused(25, "Store"), f"{what}, {name}"
    assert bytes_in(room) == before, "where it can't be told, nothing is changed"
    assert program.run("players", file) == SERVED, "where it can't be told, as ever"


def test_litter(program, room):
    """A file that is refused has no log beside it that wasn't there."""
    store, no_event, damaged, exists = (
        refused(*it) for it in ((25, "Store"), (27, "NoEvent"), (29, "Damaged"), (28, "EventExists"))
    )
    text, short = laid(room, "README.md", b"# A text\n" * 900), laid(room, "names.csv", b"name\nAna\n")
    other = by_sqlite(f"{room}/other", "CREATE TABLE note(body TEXT)")
    logged = by_sqlite(f"{room}/logged", "PRAGMA journal_mode = WAL", "CREATE TABLE note(body TEXT)")
    there = without_log(made(program, f"{room}/there"))
    wrong = without_log(shutil.copy(there, f"{room}/wrong"), "UPDATE player2 SET no = 7 WHERE no = 2")
    cut, torn = laid(room, "cut", bytes_of(there)[:100]), laid(room, "torn", bytes_of(there)[:6000])
    for what, file, answers, commands in (
        ("a text", text, [store], [*OPENING, INIT]),
        ("a short text", short, [store], [*OPENING, INIT]),
        ("another program's file", other, [no_event], OPENING),
        ("another program's file, which had a log", logged, [no_event], OPENING),
        ("a damaged event", wrong, [damaged], OPENING),
        ("an event that is there", there, [exists], [INIT]),
        ("an event cut at 100 bytes", cut, [store, no_event, damaged], OPENING),
        ("an event cut in its second page", torn, [store, no_event, damaged], OPENING),
    ):
        for name, *rest in commands:
            with tempfile.TemporaryDirectory() as folder:
                check_litter(program, f"{what}, {name}", answers, (name, copied(file, folder), *rest), folder)


@pytest.mark.parametrize("name, rest", [("players", ()), ("standings", ()), ("enrol", ("Cy",))])
def test_empty(program, room, name, rest):
    """An empty file becomes an empty database, and has no log beside it."""
    file = laid(room, "empty", b"")
    assert program.run(name, file, *rest) == refused(27, "NoEvent"), "an empty file"
    assert os.listdir(room) == ["empty"], "what lies there"
    base = sqlite3.connect(file)
    assert base.execute("SELECT * FROM sqlite_schema").fetchall() == [], "what is in it"
    base.close()
    assert program.run("players", made(program, file)) == SERVED, "and an event in it"


def with_log(file):
    """The file while another program has it open, and its log with it."""
    with tempfile.TemporaryDirectory() as room:
        base = sqlite3.connect(file, isolation_level=None)
        base.execute("CREATE TABLE note(body TEXT)")
        kept = copied(file, room)
        base.close()
        for more in ("", "-wal"):
            shutil.copy(kept + more, file + more)
    assert os.path.getsize(log_of(file)) > 4096, f"{file} has a log"
    return file


def test_logs(program, room):
    """A log that was there before stays, and keeps what is read of it, whatever is answered; and the file of an event that is refused stays as it is."""
    logs = [
        ("an empty log", b""),
        ("a log that is none", b"Ana\nBo\n" * 900),
        ("the log of an event", bytes_of(log_of(with_log(made(program, f"{room}/e"))))),
    ]
    for what, log in logs:
        for name, *rest in (("players",), INIT):
            with tempfile.TemporaryDirectory() as other:
                text = laid(other, "text", b"Ana\nBo\n" * 900)
                laid(other, "text-wal", log)
                check_litter(
                    program,
                    f"a text beside {what}, {name}",
                    [refused(25, "Store")],
                    (name, text, *rest),
                    other,
                )
    damaged = with_log(by_sqlite(made(program, f"{room}/damaged"), "UPDATE player2 SET no = 7 WHERE no = 2"))
    other = with_log(by_sqlite(f"{room}/other", "PRAGMA journal_mode = WAL"))
    there = with_log(made(program, f"{room}/there"))
    for what, file, (name, *rest), answer in (
        ("a damaged event", damaged, ("players",), refused(29, "Damaged")),
        ("another program's file", other, ("players",), refused(27, "NoEvent")),
        ("an event that is there", there, INIT, refused(28, "EventExists")),
    ):
        before, log = bytes_of(file), bytes_of(log_of(file))
        read = committed(log)
        assert program.run(name, file, *rest) == answer, f"{what} with a log"
        assert bytes_of(file) == before, f"{what} with a log, the file stays"
        assert (read > 4096, bytes_of(log_of(file))[:read] == log[:read]) == (
            True,
            True,
        ), f"{what} with a log, what is read of it stays"
    assert program.run("players", there) == SERVED, "the event that is there, with its log"


def test_links(program, room):
    """FILE is a link into another folder: the log lies beside the file that it leads to, and so does no litter."""
    away, here = f"{room}/away", f"{room}/here"
    os.mkdir(away)
    os.mkdir(here)
    file, link = made(program, f"{away}/friday.event"), f"{here}/e.event"
    os.symlink(file, link)
    assert program.run("enrol", link, "Cy") == due(["ok 3"]), "a link to an event"
    assert os.listdir(here) == ["e.event"], "a link to an event, what lies beside it"
    assert sorted(os.listdir(away)) == [
        "friday.event",
        "friday.event-wal",
    ], "a link to an event, what lies beside the file"
    assert program.run("players", file)[1].count(b"\n") == 4, "the event without the link"
    assert rows_alone(link) == rows_alone(file), "the event alone"
    os.remove(log_of(file))
    check_litter(
        program,
        "a link to an event that is there",
        [refused(28, "EventExists")],
        (INIT[0], link, *INIT[1:]),
        away,
    )
    text = f"{here}/text"
    os.symlink(laid(away, "README.md", b"# A text\n" * 900), text)
    for folder in (here, away):
        check_litter(program, "a link to a text", [refused(25, "Store")], ("players", text), folder)


def test_after_sqlite(program, room):
    """An event file that another program has read or written."""
    file = made(program, f"{room}/e.event")
    assert program.run("players", by_sqlite(file, "SELECT * FROM player2")) == SERVED, "read by SQLite"
    assert (
        program.run("players", by_sqlite(file, "CREATE TABLE note(body TEXT)")) == SERVED
    ), "with a table more"
    assert program.run("players", by_sqlite(file, "VACUUM")) == SERVED, "vacuumed"
    assert program.run("start", file) == (0, b"ok 3\n", b""), "goes on"
    full = by_sqlite(made(program, f"{room}/full"), "UPDATE event SET serial = 999999")
    assert program.run("enrol", full, "Ed") == refused(23, "SerialFull"), "the last serial"
    assert program.run("enrol", full, "Ana") == refused(2, "NameTaken"), "the rules come before it"
    pairing = "CREATE TABLE pairing(round INTEGER NOT NULL, tab INTEGER NOT NULL, lo INTEGER NOT NULL, hi INTEGER NOT NULL, swapped INTEGER NOT NULL, done INTEGER NOT NULL, x INTEGER NOT NULL, y INTEGER NOT NULL, d INTEGER NOT NULL)"
    four = made(program, f"{room}/four")
    for words in (("enrol", four, "Cy"), ("enrol", four, "Di"), ("start", four)):
        program.run(*words)
    again = by_sqlite(
        four,
        "DROP TABLE pairing",
        pairing,
        "INSERT INTO pairing VALUES (1, 1, 2, 4, 0, 1, 2, 0, 0), (2, 1, 2, 4, 1, 0, 0, 0, 0)",
    )
    for words in (("players", again), ("standings", again), ("pair", again, "3", "0" * 64)):
        assert program.run(*words) == refused(29, "Damaged"), f"a pairing again, {words[0]}"


def totals_in(file):
    base = sqlite3.connect(file)
    rows = base.execute("SELECT no, points, rounds, gamepoints, games FROM tally ORDER BY no").fetchall()
    base.close()
    return rows


def test_totals(program, room):
    """What players' matches come to, as another program reads it; and where that is not what it should be."""
    file = f"{room}/e.event"
    make_four(program.path, file)
    assert totals_in(file) == [(it, 0, 0, 0, 0) for it in range(1, 5)], "totals before a round is complete"
    program.run("result", file, "1", "1", "2", "0", "0")
    assert totals_in(file) == [(it, 0, 0, 0, 0) for it in range(1, 5)], "totals of an open round"
    program.run("result", file, "1", "2", "2", "1", "0")
    assert totals_in(file) == [
        (1, 3, 1, 6, 3),
        (2, 0, 1, 0, 2),
        (3, 0, 1, 3, 3),
        (4, 3, 1, 6, 2),
    ], "totals of a complete round"
    players = program.run("players", file)
    wrong = by_sqlite(shutil.copy(file, f"{room}/wrong"), "UPDATE tally SET points = 4 WHERE no = 4")
    older = by_sqlite(shutil.copy(file, f"{room}/older"), "DROP TABLE tally")
    for name, other in (("a wrong total", wrong), ("no totals", older)):
        rows = bytes_of(other)
        for words in (
            ("players", other),
            ("standings", other),
            ("correct", other, "1", "2", "0", "2", "0"),
            ("export", other, "results"),
        ):
            assert program.run(*words) == refused(29, "Damaged"), f"{name}, {words[0]}"
        assert bytes_of(other) == rows, f"{name}, the file stays"
    assert (
        program.run("players", by_sqlite(wrong, "UPDATE tally SET points = 3 WHERE no = 4")) == players
    ), "the right total again"
    program.run("correct", file, "1", "2", "0", "2", "0")
    assert totals_in(file) == [
        (1, 0, 1, 0, 2),
        (2, 0, 1, 0, 2),
        (3, 3, 1, 6, 2),
        (4, 3, 1, 6, 2),
    ], "totals after a correction"
    three = f"{room}/three.event"
    for words in (
        ("init", three, "Friday", "3", "0"),
        *(("enrol", three, it) for it in ("Ana", "Bo", "Cy")),
        ("start", three),
        ("pair", three, "1", "0" * 64),
    ):
        program.run(*words)
    assert totals_in(three) == [(it, 0, 0, 0, 0) for it in range(1, 4)], "totals with a bye in an open round"


def test_locked(program, room):
    """A file that another program holds, and commands that come at once."""
    file = made(program, f"{room}/e.event")
    base = sqlite3.connect(file, isolation_level=None)
    base.execute("BEGIN EXCLUSIVE")
    assert program.run("enrol", file, "Cy") == refused(25, "Store"), "held by another program"
    base.execute("COMMIT")
    base.close()
    assert program.run("players", file) == SERVED, "after it"
    at_once = [
        subprocess.Popen(
            [program.path, "enrol", file, f"P{it}"], stdout=subprocess.PIPE, stderr=subprocess.PIPE
        )
        for it in range(12)
    ]
    answers = [(*it.communicate(), it.returncode) for it in at_once]
    taken = sorted(out for out, _, status in answers if status == 0)
    assert all(
        err == b"refused 25 Store\n" and status == 3 for out, err, status in answers if status
    ), "at once"
    assert taken == sorted(b"ok %d\n" % it for it in range(3, 3 + len(taken))), "each has a serial"
    assert program.run("players", file)[1].count(b"\n") == 3 + len(taken), "each that was taken is there"
    without_log(file)
    inits = [("init", file, "Friday", "3", "0")] * 6
    lines = [*(("enrol", file, f"Q{it}") for it in range(6)), *inits]
    at_once = [
        subprocess.Popen([program.path, *words], stdout=subprocess.PIPE, stderr=subprocess.PIPE)
        for words in lines
    ]
    more = [it.communicate()[0] for it in at_once]
    assert [it for it in more[6:] if it] == [], "at once, where there is no log, with ones that are refused"
    assert program.run("players", file)[1].count(b"\n") == 3 + len(taken) + sum(
        it != b"" for it in more
    ), "each that was taken is there too"


def test_full_disk(program, room):
    """A disk on which nothing can be written, on which nothing can grow, and on which only the close finds no room."""
    file = made(program, f"{room}/e.event")
    log = os.path.getsize(log_of(file))
    # shorter, it would not count as a log, and each opening would make six syncs more
    assert log == 56, "the log of a closed file, its header and the head of a frame"
    assert program.narrowly(0, "enrol", file, "Cy") == refused(25, "Store"), "a disk that takes nothing"
    assert program.narrowly(log, "enrol", file, "Cy") == refused(25, "Store"), "a full disk"
    assert program.narrowly(log, "players", file) == SERVED, "a full disk, reading"
    assert program.run("players", file) == SERVED, "after a full disk"
    four, event = f"{room}/four.event", event_of_four()
    make_four(program.path, four)
    # the log has room for what a result writes, and the file takes a part of the page of its pairings
    assert program.narrowly(18_000, "result", four, "1", "1", "2", "1", "0") == due(
        event.report(1, 1, (2, 1, 0), True)
    ), "a close without room"
    assert os.path.getsize(log_of(four)) > log, "a close without room, the log keeps it"
    assert program.run("slips", four, "1") == due(event.slips(1)), "after a close without room"
    assert rows_alone(four) == rows_of(event), "after a close without room, the file alone"


def test_terminal(program):
    """With no words a terminal is told that a script is awaited, and anything else is not."""
    ours, its = pty.openpty()
    at_terminal = subprocess.Popen([program.path], stdin=its, stdout=subprocess.PIPE, stderr=subprocess.PIPE)
    os.write(ours, b"init\tFriday\t3\t0\nplayers\n\x04")
    out, err = at_terminal.communicate(timeout=PATIENCE)
    os.close(ours)
    os.close(its)
    assert (at_terminal.returncode, out) == (0, b"ok 0\n  No D Name\n"), "a script on a terminal"
    assert (err.startswith(b"event_reporter: "), b"--help" in err) == (True, True), "a terminal is told"
    ran = subprocess.run([program.path], input=b"players\n", capture_output=True, timeout=PATIENCE)
    assert (ran.returncode, ran.stdout, ran.stderr) == (0, b"refused 27 NoEvent\n", b""), "a pipe is not"


@pytest.mark.needs("a file that another user owns", root=True)
def test_rights(program, room):
    """A file that this user may not read, or not write; and one in a folder that this user may not go through, whether it is there or not."""
    os.chmod(room, 0o777)
    own = shutil.copy(program.path, f"{room}/event_reporter")

    def by_nobody(*words):
        return program.run(*words, path=own, preexec_fn=as_nobody)

    file = by_sqlite(made(program, f"{room}/e.event"), "PRAGMA wal_checkpoint(TRUNCATE)")
    before = bytes_of(file)
    for mode in (0o000, 0o444):
        os.chmod(file, mode)
        assert by_nobody("enrol", file, "Cy") == refused(25, "Store"), f"mode {mode:o}"
        assert bytes_of(file) == before, f"mode {mode:o}, and it stays"
    assert program.run("players", file) == SERVED, "as its owner"
    shut = f"{room}/shut"
    os.mkdir(shut, 0o700)
    made(program, f"{shut}/e.event")
    before = bytes_in(shut)
    for what, path in (("a file", f"{shut}/e.event"), ("no file", f"{shut}/none")):
        for name, *rest in (*OPENING, INIT):
            assert by_nobody(name, path, *rest) == refused(
                25, "Store"
            ), f"{what} in a folder that is shut, {name}"
    assert bytes_in(shut) == before, "in a folder that is shut, nothing is changed"


def test_alone(program, room, serve):
    """The file alone is the event, once a list is imported, and once `serve` has come to its end."""
    file, event = f"{room}/e.event", Event(3, 0)
    assert program.run("init", file, "E", "3", "0") == due(["ok 0"]), "alone, init"
    assert rows_alone(file) == rows_of(event), "alone, after init"
    names = laid(room, "names.csv", b"name\n" + b"".join(b"P%d\n" % it for it in range(1, 24)))
    for number in range(1, 24):
        event.enrol(f"P{number}")
    assert program.run("import", file, names) == due(["added 23 already 0"]), "alone, import"
    assert rows_alone(file) == rows_of(event), "alone, after import"
    assert program.run("import", file, names) == due(["added 0 already 23"]), "alone, import again"
    assert rows_alone(file) == rows_of(event), "alone, after import again"
    four, event = f"{room}/four.event", event_of_four()
    make_four(program.path, four)
    assert rows_alone(four) == rows_of(event), "alone, before it serves"
    serving = serve(four, 2)
    for table in (1, 2):
        serving.ask(slip(table))
        event.report(1, table, (2, 1, 0), True)
    assert serving.end() == served(2), "alone, it has served"
    assert rows_alone(four) == rows_of(event), "alone, after it has served"


def slip(table):
    return b'POST /rounds/1/tables/%d HTTP/1.1\r\nContent-Length: 19\r\n\r\n{"a":2,"b":1,"d":0}' % table


class Desk:
    """An event of four in a folder, `friday.event`, and what is typed there."""

    def __init__(self, program, room):
        self.program, self.room, self.file, self.event = (
            program,
            room,
            f"{room}/friday.event",
            event_of_four(),
        )
        os.symlink(program.path, f"{room}/event_reporter")
        make_four(program.path, self.file)

    def type(self, line):
        """What a line prints to a shell in the folder."""
        ran = subprocess.run(
            line,
            shell=True,
            cwd=self.room,
            stdin=subprocess.DEVNULL,
            stdout=subprocess.PIPE,
            stderr=subprocess.STDOUT,
            timeout=PATIENCE,
        )
        return ran.stdout

    def shows(self, what, file, event):
        """The event is in this file, as the program shows it."""
        for name in ("players", "standings"):
            assert (
                self.type(f"./event_reporter {name} {file}") == due(getattr(event, name)())[1]
            ), f"{what}, {name}"
        assert self.type(f"./event_reporter slips {file} 1") == due(event.slips(1))[1], f"{what}, slips"

    def result(self, table):
        answer = self.event.report(1, table, (2, 0, 0), True)
        assert (
            self.type(f"./event_reporter result friday.event 1 {table} 2 0 0") == due(answer)[1]
        ), f"result at table {table}"

    def serve_and_interrupt(self, table):
        """A score that was handed in, and then Ctrl-C."""
        with Serving(self.program.path, self.file, 100, preexec_fn=hear_interrupts) as serving:
            serving.ask(slip(table))
            self.event.report(1, table, (2, 1, 0), True)
            serving.process.send_signal(signal.SIGINT)
            assert serving.end()[:2] == (-signal.SIGINT, b""), "Ctrl-C"

    def goes_on(self, what, table, event):
        """The file takes the score of this table, and is the event with it then."""
        answer = event.report(1, table, (0, 2, 0), True)
        assert (
            self.type(f"./event_reporter result friday.event 1 {table} 0 2 0") == due(answer)[1]
        ), f"{what}, it goes on"
        self.shows(f"{what}, and after it", "friday.event", event)
        assert rows_alone(self.file) == rows_of(event), f"{what}, the file alone"


def typed(what, desk, *lines):
    """Lines that print nothing."""
    for line in lines:
        assert desk.type(line) == b"", f"{what}: {line}"


def test_a_copy_of_the_one_file(program, room):
    """While nothing runs."""
    desk = Desk(program, room)
    desk.result(1)
    typed("a copy", desk, "mkdir stick", "cp friday.event stick/")
    desk.shows("a copy of the one file", "stick/friday.event", desk.event)


def test_copies_after_ctrl_c(program, room):
    """Of both files, and of the one once a command has run."""
    desk = Desk(program, room)
    desk.serve_and_interrupt(1)
    typed("a copy of both", desk, "mkdir both one", "cp friday.event friday.event-wal both/")
    desk.type("./event_reporter players friday.event")
    typed("a copy after players", desk, "cp friday.event one/")
    desk.shows("a copy of both", "both/friday.event", desk.event)
    desk.shows("a copy after players", "one/friday.event", desk.event)
    desk.goes_on("after the copies", 2, desk.event)


# how an older copy is taken back: of both names, or of the file alone while the log of the newer event is put away
RESTORINGS = [
    ("both names", ["cp copies/friday.event copies/friday.event-wal ."]),
    ("the log removed", ["rm -f friday.event-wal", "cp copies/friday.event ."]),
    ("both moved", ["mkdir older", "mv friday.event friday.event-wal older/", "cp copies/friday.event ."]),
]


@pytest.mark.parametrize("is_closed", [True, False], ids=["closed", "after Ctrl-C"])
@pytest.mark.parametrize("what, lines", RESTORINGS, ids=[what for what, _ in RESTORINGS])
def test_restoring(program, room, what, lines, is_closed):
    """An older copy in place of a newer event, which was closed, or ended by Ctrl-C with scores in its log."""
    desk = Desk(program, room)
    typed(what, desk, "mkdir copies", "cp friday.event* copies/")
    if is_closed:
        desk.result(1)
    else:
        desk.serve_and_interrupt(1)
    typed(what, desk, *lines)
    older = event_of_four()
    desk.shows(what, "friday.event", older)
    desk.goes_on(what, 1, older)
    if os.path.exists(f"{room}/older"):
        desk.shows("the newer one", "older/friday.event", desk.event)


def query(file, statement):
    base = sqlite3.connect(file)
    found = base.execute(statement).fetchall()
    base.close()
    return found


def shows(program, what, file, event):
    """The program shows this event, and the file alone holds it."""
    for name in ("players", "standings", "bracket"):
        assert program.run(name, file) == due(getattr(event, name)()), f"{what}, {name}"
    assert rows_alone(file) == rows_of(event), f"{what}, the file alone"


def test_migration(program, room):
    """Worked example 47: worked example 17 in tables of version 1 up to the cut, a migration, and the rest."""
    file = f"{room}/e.event"
    make_old(file, Event(1, 4, 1), name="Friday")
    (lines,) = (
        lines
        for _, lines in parts_of(f"{TOP}/examples/transcripts/worked.txt")
        if (b"cut\n", ["ok 13"]) in lines
    )
    for line, answer in lines[1:]:
        check_line(program, f"worked example 47, {line!r}", line, answer, file)
        if line == b"cut\n" and answer == ["ok 13"]:
            texts = program.run("standings", file), program.run("bracket", file)
            assert query(file, "SELECT version, serial, (SELECT count(*) FROM player) FROM event") == [
                (1, 13, 6)
            ], "worked example 47, before"
            for _ in range(2):
                assert program.run("migrate", file) == due(["ok 13"]), "worked example 47, migrate"
                assert query(file, "SELECT version, serial, (SELECT count(*) FROM player) FROM event") == [
                    (2, 13, 0)
                ], "worked example 47, behind it"
                assert (
                    program.run("standings", file),
                    program.run("bracket", file),
                ) == texts, "worked example 47, the same texts"


@pytest.mark.parametrize(
    "what, has_log, journal",
    [("closed", False, "WAL"), ("with a log", True, "WAL"), ("of another journal", False, "DELETE")],
)
def test_versions(program, room, what, has_log, journal):
    """A file of version 1 goes on as it is, and is moved to version 2, whatever there is of it."""
    file, event = f"{room}/{what}", event_of_four(1)
    make_old(file, event, has_log=has_log)
    if journal == "DELETE":
        by_sqlite(file, "PRAGMA journal_mode = DELETE")
    assert program.run("result", file, "1", "1", "2", "0", "0") == due(
        event.report(1, 1, (2, 0, 0), True)
    ), f"version 1, {what}, result"
    shows(program, f"version 1, {what}", file, event)
    assert program.run("migrate", file) == due(event.migrate()), f"version 1, {what}, migrate"
    shows(program, f"version 1, {what}, migrated", file, event)
    assert program.run("drop", file, "3") == due(event.drop(3)), f"version 1, {what}, drop"
    assert program.run("result", file, "1", "2", "0", "2", "0") == due(
        event.report(1, 2, (0, 2, 0), True)
    ), f"version 1, {what}, result again"
    shows(program, f"version 1, {what}, goes on", file, event)


def test_version_1_with_nobody(program, room):
    empty, event = f"{room}/empty", Event(9, 8, 1)
    make_old(empty, event)
    assert program.run("migrate", empty) == due(event.migrate()), "version 1, nobody, migrate"
    assert program.run("enrol", empty, "P1") == due(event.enrol("P1")), "version 1, nobody, enrol"
    shows(program, "version 1, nobody, migrated", empty, event)


def test_version_1_with_512_players_and_the_last_serial(program, room):
    full, event = f"{room}/full", Event(9, 0, 1)
    for number in range(1, 513):
        event.enrol(f"P{number}")
    event.serial = 999_999
    make_old(full, event)
    assert program.run("migrate", full) == due(["ok 999999"]), "version 1, 512 players and the last serial"
    event.migrate()
    shows(program, "version 1, 512 players, migrated", full, event)


# what bears the name of the table that a migration makes
TAKEN = [
    ("a table", PLAYER2),
    ("another program's table", "CREATE TABLE Player2(body TEXT)"),
    ("a view", "CREATE VIEW player2 AS SELECT no, name, dropped, 0 AS joined FROM player"),
    ("an index", "CREATE INDEX player2 ON player(dropped)"),
]


@pytest.mark.parametrize("what, statement", TAKEN, ids=[what for what, _ in TAKEN])
def test_taken(program, room, what, statement):
    """A name that is taken stops a migration. It changes nothing then, and the event goes on in version 1."""
    file, event = f"{room}/{what}", event_of_four(1)
    make_old(file, event, others=((), (statement,)))
    before, name = bytes_of(file), f"player2 is {what}"
    assert program.run("migrate", file) == refused(25, "Store"), f"{name}, migrate"
    assert bytes_of(file) == before, f"{name}, the file stays"
    for text in ("players", "standings"):
        assert program.run(text, file) == due(getattr(event, text)()), f"{name}, {text}"
    assert program.run("result", file, "1", "1", "2", "0", "0") == due(
        event.report(1, 1, (2, 0, 0), True)
    ), f"{name}, it goes on"
    assert query(file, "SELECT version, serial FROM event") == [(1, event.serial)], f"{name}, version 1"
    assert (
        query(file, "SELECT no, name, dropped FROM player ORDER BY no") == rows_of(event)[1]
    ), f"{name}, its players"


def test_among_others(program, room):
    """A file with tables of another program in front and behind is migrated all the same, and these stay."""
    note = (
        "CREATE TABLE note(body TEXT)",
        "INSERT INTO note VALUES ('chairs')",
        "CREATE VIEW notes AS SELECT body FROM note",
    )
    badge = (
        "CREATE TABLE badge(no INTEGER PRIMARY KEY, body TEXT)",
        "CREATE INDEX by_body ON badge(body)",
        "INSERT INTO badge VALUES (7, 'red')",
    )
    seat = "CREATE TABLE seat(no INTEGER PRIMARY KEY, row TEXT UNIQUE)", "INSERT INTO seat VALUES (1, 'A')"
    file, event = f"{room}/e.event", event_of_four(1)
    make_old(file, event, others=((*note, *badge), seat))
    others = "SELECT note.body, badge.no, badge.body, seat.no, seat.row FROM note, badge, seat"
    texts = "SELECT type, name, sql FROM sqlite_schema WHERE name NOT LIKE '%player2%'"
    before = query(file, others), query(file, texts)
    assert before[0] == [("chairs", 7, "red", 1, "A")], "among others, before"
    assert program.run("migrate", file) == due(event.migrate()), "among others, migrate"
    shows(program, "among others, migrated", file, event)
    assert (query(file, others), query(file, texts)) == before, "among others, their tables stay"
    assert program.run("migrate", file) == due(event.migrate()), "among others, migrate again"
    for table in (1, 2):
        assert program.run("result", file, "1", str(table), "2", "1", "0") == due(
            event.report(1, table, (2, 1, 0), True)
        ), "among others, result"
    assert program.run("pair", file, "2", "0" * 64) == due(event.pair(2, bytes(32))), "among others, pair"
    assert program.run("slips", file, "2") == due(event.slips(2)), "among others, slips"
    shows(program, "among others, goes on", file, event)
    assert (query(file, others), query(file, texts)) == before, "among others, their tables stay behind that"


def test_no_migration(program, room):
    """What can't be migrated, and a disk on which it can't be written."""
    assert program.run("migrate", f"{room}/none") == refused(27, "NoEvent"), "migrate, no such file"
    assert os.listdir(room) == [], "migrate, and none is made"
    file, event = f"{room}/e.event", event_of_four(1)
    make_old(file, event)
    long = shutil.copy(file, f"{room}/long")
    by_sqlite(long, "UPDATE event SET rounds = 10")
    assert program.run("migrate", long) == refused(29, "Damaged"), "ten rounds in version 1"
    assert query(long, "SELECT version, rounds FROM event") == [(1, 10)], "ten rounds in version 1, it stays"
    before = bytes_of(file)
    assert program.narrowly(0, "migrate", file) == refused(
        25, "Store"
    ), "migrate on a disk that takes nothing"
    assert bytes_of(file) == before, "migrate on a disk that takes nothing, the file stays"
    shows(program, "migrate on a disk that takes nothing", file, event)
    assert program.run("migrate", file) == due(event.migrate()), "migrate once there is room"
    shows(program, "migrate once there is room", file, event)


def test_late(program, room):
    """Worked example 49, and a correction: the totals of one who enrols while a round is open, and so misses it."""
    file = f"{room}/e.event"
    make_four(program.path, file)
    assert program.run("enrol", file, "Ed") == due(["ok 7"]), "late, enrol"
    assert query(file, "SELECT no, joined FROM player2 ORDER BY no") == [
        (1, 0),
        (2, 0),
        (3, 0),
        (4, 0),
        (5, 1),
    ], "late, how many rounds were stored"
    assert totals_in(file) == [(it, 0, 0, 0, 0) for it in range(1, 6)], "late, totals while the round is open"
    program.run("result", file, "1", "1", "2", "0", "0")
    assert totals_in(file) == [(it, 0, 0, 0, 0) for it in range(1, 6)], "late, totals while it is open still"
    program.run("result", file, "1", "2", "2", "1", "0")
    assert totals_in(file) == [
        (1, 3, 1, 6, 3),
        (2, 0, 1, 0, 2),
        (3, 0, 1, 3, 3),
        (4, 3, 1, 6, 2),
        (5, 0, 1, 0, 0),
    ], "late, totals once it is complete"
    program.run("correct", file, "1", "2", "0", "2", "0")
    assert totals_in(file) == [
        (1, 0, 1, 0, 2),
        (2, 0, 1, 0, 2),
        (3, 3, 1, 6, 2),
        (4, 3, 1, 6, 2),
        (5, 0, 1, 0, 0),
    ], "late, totals after a correction"
    assert program.run("enrol", file, "Flo") == due(["ok 11"]), "late, enrol once more"
    assert totals_in(file)[5:] == [(6, 0, 1, 0, 0)], "late, totals of a round that was complete"
    program.run("pair", file, "2", "0" * 64)
    assert totals_in(file)[4:] == [
        (5, 0, 1, 0, 0),
        (6, 0, 1, 0, 0),
    ], "late, the round that is open has no place in them"


def event_begun(version):
    """An event of four before its first pairing."""
    event = Event(3, 0, version)
    for number in range(1, 5):
        event.enrol(f"P{number}")
    event.start()
    return event


def event_scored(version):
    """The same after its first round."""
    event = event_of_four(version)
    event.report(1, 1, (2, 0, 0), True)
    event.report(1, 2, (2, 1, 0), True)
    return event


@pytest.mark.parametrize(
    "what, so_far", [("no round", event_begun), ("an open round", event_of_four), ("a round", event_scored)]
)
def test_late_in_version_1(program, room, what, so_far):
    """Worked example 49: tables of version 1 take nobody late, whether a round is stored or not. The rules come before that, and so does the last serial."""
    event = so_far(1)
    file, name = f"{room}/{what}", f"late in version 1, {what}"
    make_old(file, event)
    assert program.run("enrol", file, "Ed") == refused(30, "BadSetup"), name
    assert program.run("enrol", file, "P1") == refused(2, "NameTaken"), f"{name}, a name that is taken"
    assert program.run("enrol", file, "Ed ") == refused(1, "BadName"), f"{name}, no name"
    shows(program, f"{name}, it stays", file, event)
    full = by_sqlite(shutil.copy(file, f"{file}, full"), "UPDATE event SET serial = 999999")
    assert program.run("enrol", full, "Ed") == refused(23, "SerialFull"), f"{name}, the last serial"
    assert program.run("enrol", full, "P1") == refused(
        2, "NameTaken"
    ), f"{name}, the last serial, a name that is taken"
    assert program.run("migrate", file) == due([f"ok {event.serial}"]), f"{name}, migrate"
    event.migrate()
    assert program.run("enrol", file, "Ed") == due(event.enrol("Ed")), f"{name}, once it is migrated"
    shows(program, f"{name}, with one who came late", file, event)
