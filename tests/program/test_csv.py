"""`import` and `export` of the program as it is built: the worked examples, and what a person hands in."""
import os
import shutil
import sqlite3
import subprocess

import pytest

from second_reading.plain_csv import MOST_BYTES
from tests.support.event_files import as_nobody, due, event_of_four, make_old
from tests.support.program import laid
from tests.support.waiting import PATIENCE

ZERO = "0" * 64
assert MOST_BYTES == 131_072


def tally(added, already, why=None):
    return (
        due([why])[0] if why else 0,
        b"added %d already %d\n" % (added, already),
        f"{why}\n".encode() if why else b"",
    )


def bad(what):
    return 1, b"", f"bad csv {what}\n".encode()


CANNOT_READ = 3, b"", b"cannot read\n"
ENROLLED = [["enrol", "Ana"], ["enrol", "Bo"]]
PAIRED = [*ENROLLED, ["enrol", "Cy"], ["enrol", "Di"], ["start"], ["pair", "1", ZERO]]
SCORED = PAIRED + [["result", "1", "1", "2", "0", "0"], ["result", "1", "2", "2", "1", "0"]]
# to the champion
ENDED = [
    *(["enrol", f"P{number}"] for number in range(1, 7)),
    ["start"],
    ["pair", "1", ZERO],
    *(["result", "1", table, "2", "0", "0"] for table in "123"),
    ["drop", "2"],
    ["cut"],
    ["playoff", "1", "1", "2", "0", "0"],
    ["playoff", "1", "2", "1", "2", "0"],
    ["playoff", "2", "1", "0", "2", "0"],
]


@pytest.fixture
def file(program, room):
    """An event without players."""
    return program.played(f"{room}/e.event")


@pytest.fixture
def takes(program, file, room):
    """What it answers to a list of these bytes."""
    return lambda data, into=file: program.run("import", into, laid(room, "list.csv", data))


# ---- the worked examples


def test_a_list_and_the_same_again(program, file, takes):
    assert takes(b"name\nAna\nBo\nAna\n") == tally(2, 1), "two names, one of them twice"
    assert takes(b"name\nAna\nBo\nAna\n") == tally(0, 3), "again"
    assert takes(b"names\nAna\n") == bad("heading"), "another heading"
    assert program.run("enrol", file, "Lee, Jo") == due(["ok 3"]), "the serial is 2"
    assert program.run("export", file, "players") == (
        0,
        b'no,name,dropped\n1,Ana,0\n2,Bo,0\n3,"Lee, Jo",0\n',
        b"",
    ), "a name with a comma"
    for what, data, want in (
        ("nothing", b"", "heading"),
        ("a number out of place", b"no,name,dropped\n2,Ana,0\n", "row 1"),
        ("513 names", b"name\n" + b"".join(b"P%d\n" % number for number in range(513)), "row 513"),
    ):
        assert takes(data) == bad(want), what
    assert program.run("enrol", file, "Eve") == due(["ok 4"]), "and nobody was enrolled"


@pytest.mark.parametrize(
    "lines, rows",
    [
        (PAIRED, b"1,1,4,2,,,\n1,2,1,3,,,\n"),
        (SCORED, b"1,1,4,2,2,0,0\n1,2,1,3,2,1,0\n"),
    ],
    ids=["open", "complete"],
)
def test_results_of_a_round(program, room, lines, rows):
    assert program.run("export", program.played(f"{room}/e", lines), "results") == (
        0,
        b"round,table,a,b,x,y,d\n" + rows,
        b"",
    )


def test_a_bye_stands_last(program, room):
    bye = program.played(f"{room}/bye", [*ENROLLED, ["enrol", "Cy"], ["start"], ["pair", "1", ZERO]])
    assert program.run("export", bye, "results")[1].splitlines()[-1] == b"1,0,3,0,2,0,0"


def test_after_the_end(program, room, takes):
    assert takes(b"name\nEd\n", program.played(f"{room}/ended", ENDED, rounds=1, cut=4)) == tally(
        0, 0, "refused 4 NotEnrolling"
    )


def test_a_byte_order_mark_and_cr_lf(program, file, takes):
    assert takes(b"\xef\xbb\xbfname\r\nAna\r\nBo\r\nAna\r\n") == tally(2, 1)
    assert program.run("export", file, "players") == (
        0,
        b"no,name,dropped\n1,Ana,0\n2,Bo,0\n",
        b"",
    ), "the same list"


# ---- lists as people and spreadsheets save them

LONG, P512 = b"N" * 60, b"name\n" + b"".join(b"P%d\n" % number for number in range(512))
LISTS = {
    "a heading alone": (b"name\n", tally(0, 0)),
    "a heading with no line feed": (b"name", tally(0, 0)),
    "the last line without one": (b"name\nAna", tally(1, 0)),
    "quotes in a name": (b'name\n"Jo ""Red"" Lee"\n', tally(1, 0)),
    "all in quotes": (b'"name"\n"Ana"\n"Bo"\n', tally(2, 0)),
    "a comma in a name": (b'name\n"Lee, Jo"\n', tally(1, 0)),
    "a comma that is not in quotes": (b"name\nLee, Jo\n", bad("row 1")),
    "a line break in a name": (b'name\nAna\n"Lee\nJo"\n', bad("row 2")),
    "semicolons": (b"no;name;dropped\r\n1;Ana;0\r\n", bad("heading")),
    "tabs": (b"no\tname\tdropped\n1\tAna\t0\n", bad("heading")),
    "capitals": (b"Name\nAna\n", bad("heading")),
    "a space after the comma": (b"no, name, dropped\n1, Ana, 0\n", bad("heading")),
    "UTF-16": ("\ufeffname\nAna\n".encode("utf-16-le"), bad("heading")),
    "Latin-1": ("name\nZoë\n".encode("latin-1"), bad("row 1")),
    "UTF-8": ("name\nZoë\n大会\n".encode(), tally(2, 0)),
    "two marks": (b"\xef\xbb\xbf" * 2 + b"name\nAna\n", tally(1, 0)),
    "three marks": (b"\xef\xbb\xbf" * 3 + b"name\nAna\n", bad("heading")),
    "empty lines": (b"\n\nname\n\nAna\n\r\n\nBo\n", tally(2, 0)),
    "an empty name": (b'name\nAna\n""\n', bad("row 2")),
    "a space at the end": (b"name\nAna \n", bad("row 1")),
    "60 bytes": (b"name\n" + LONG + b"\n", tally(1, 0)),
    "61 bytes": (b"name\n" + LONG + b"N\n", bad("row 1")),
    "a name with a hyphen in front": (b"name\n-Ana\n--help\n", tally(2, 0)),
    "numbers, names and drops": (b"no,name,dropped\n1,Ana,0\n2,Bo,1\n", tally(2, 0)),
    "zeros in front": (b"no,name,dropped\n01,Ana,0\n000002,Bo,01\n", tally(2, 0)),
    "seven digits": (b"no,name,dropped\n0000001,Ana,0\n", bad("row 1")),
    "a plus": (b"no,name,dropped\n+1,Ana,0\n", bad("row 1")),
    "dropped twice": (b"no,name,dropped\n1,Ana,2\n", bad("row 1")),
    "a field too few": (b"no,name,dropped\n1,Ana\n", bad("row 1")),
    "a field too many": (b"no,name,dropped\n1,Ana,0,\n", bad("row 1")),
    "the second of two bad rows is not named": (b"name\nAna\nBo \nCy \n", bad("row 2")),
    "512 names": (P512, tally(512, 0)),
}


@pytest.mark.parametrize("data, want", LISTS.values(), ids=LISTS)
def test_list(program, file, takes, data, want):
    assert takes(data) == want
    enrolled = int(want[1].split()[1]) if want[1] else 0
    assert program.did("players", file).count(b"\n") == 1 + enrolled, "that many are there"


def test_a_513th_player(takes):
    takes(P512)
    assert takes(b"name\nP0\nOne more\nP1\n") == tally(0, 1, "refused 3 PlayersFull")


def test_drops_are_not_taken_over(program, file, takes):
    takes(LISTS["numbers, names and drops"][0])
    assert b"D" not in program.did("players", file).partition(b"\n")[2]


@pytest.mark.parametrize(
    "size, want, there", [(MOST_BYTES, tally(1, 0), 1), (MOST_BYTES + 1, CANNOT_READ, 0)]
)
def test_131072_bytes_are_read_and_one_more_is_not(program, file, takes, size, want, there):
    assert takes(b"name\nAna" + b"\n" * (size - 8)) == want
    assert program.did("players", file).count(b"\n") == 1 + there


# ---- where the list is, or is not


@pytest.fixture
def names(room):
    return laid(room, "names.csv", b"name\nAna\n")


def test_paths(program, room, file, names):
    assert program.run("import", file, f"{room}/none.csv") == CANNOT_READ, "no such list"
    assert program.run("import", file, room) == CANNOT_READ, "a folder"
    assert program.run("import", f"{room}/none.event", f"{room}/none.csv") == due(
        ["refused 27 NoEvent"]
    ), "no such event comes first"
    assert not os.path.exists(f"{room}/none.event"), "no such event, and none is made"
    assert program.run("import", file, file) == bad("heading"), "the event is no list"
    assert program.run("import", names, names) == due(["refused 25 Store"]), "the list is no event"
    assert program.fed(b"name\nAna\n", "import", file, "/dev/stdin") == tally(1, 0), "a pipe"
    assert program.run("export", f"{room}/none.event", "players") == due(
        ["refused 27 NoEvent"]
    ), "no event to export"
    status, out, err = program.run("import", file, "-")
    assert (status, out, b"begins with `-`" in err) == (2, b"", True), "a hyphen"


@pytest.mark.parametrize("name", ["import", "export"])
def test_an_output_that_is_full(program, file, names, name):
    with open("/dev/full", "wb") as full:
        words = [program.path, name, file, names if name == "import" else "players"]
        ran = subprocess.run(
            words, stdin=subprocess.DEVNULL, stdout=full, stderr=subprocess.PIPE, timeout=PATIENCE
        )
    assert (ran.returncode, ran.stderr) == (3, b"")


@pytest.mark.parametrize(
    "words", ["import", "import NAMES NAMES", "export", "export Players", "export standings"]
)
def test_usage(program, file, names, words):
    name, *rest = words.split()
    status, out, err = program.run(name, file, *(names if word == "NAMES" else word for word in rest))
    assert (status, out, err.startswith(b"event_reporter: ")) == (2, b"", True)


def test_a_list_that_may_not_be_read(program, room, file, names):
    os.chmod(names, 0)
    if os.geteuid():
        assert program.run("import", file, names) == CANNOT_READ
        return
    os.chmod(room, 0o777)
    own = shutil.copy(program.path, f"{room}/event_reporter")
    for name in os.listdir(room):
        if name.startswith("e.event"):
            os.chmod(f"{room}/{name}", 0o666)
    assert program.run("import", file, names, path=own, preexec_fn=as_nobody) == CANNOT_READ


# ---- what ends an import, and who is there then


def test_a_full_disk(program, room, file):
    program.did("enrol", file, "Ana")
    # nothing can grow: the log of a file that is closed keeps some bytes, which are written anew
    most = os.path.getsize(f"{file}-wal")
    names = laid(room, "names.csv", b"name\nAna\nBo\nCy\n")
    assert program.narrowly(most, "import", file, names) == tally(0, 1, "refused 25 Store")
    assert program.did("players", file).count(b"\n") == 2, "who is there"


def test_the_last_serial(program, file, takes):
    base = sqlite3.connect(file, isolation_level=None)
    base.execute("UPDATE event SET serial = 999998")
    base.close()
    assert takes(b"name\nAna\nBo\nCy\n") == tally(1, 0, "refused 23 SerialFull")
    assert program.did("players", file) == b"  No D Name\n   1   Ana\n", "who is there"


# ---- a list in the Swiss rounds: those who are there are passed over, and others come late, until the last round is paired

LATE = b"name\nAna\nEd\nBo\nFlo\n"


def test_late(program, room, takes):
    open_round, scored = program.played(f"{room}/open", PAIRED), program.played(f"{room}/scored", SCORED)
    assert takes(LATE, open_round) == tally(2, 2), "while a round is open"
    assert takes(LATE, open_round) == tally(0, 4), "and again"
    assert takes(LATE, scored) == tally(2, 2), "once it is complete"
    assert (
        program.did("export", scored, "players")
        == b"no,name,dropped\n1,Ana,0\n2,Bo,0\n3,Cy,0\n4,Di,0\n5,Ed,0\n6,Flo,0\n"
    ), "who came"


@pytest.mark.parametrize("lines", [PAIRED, SCORED], ids=["open", "complete"])
def test_late_in_the_last_round(program, room, takes, lines):
    last = program.played(f"{room}/last", lines, rounds=1)
    assert takes(LATE, last) == tally(0, 0, "refused 9 AllRoundsPaired")
    assert takes(b"name\nAna\n", last) == tally(0, 0, "refused 9 AllRoundsPaired"), "where all are there"


def test_into_version_1(program, room, takes):
    old, event, four = f"{room}/old", event_of_four(1), b"name\nP1\nP4\nEd\nP2\n"
    make_old(old, event)
    assert takes(four, old) == tally(0, 2, "refused 30 BadSetup")
    assert takes(b"name\nP1\nP4\n", old) == tally(0, 2), "nobody new"
    assert program.did("players", old) == due(event.players())[1], "who is there"
    program.did("migrate", old)
    assert takes(four, old) == tally(1, 3), "once it is migrated"


# ---- a list of those who came first, and a second one with those who came late


def test_a_second_list(program, room, file, takes):
    assert takes(b"name\nAna\nBo\n") == tally(2, 0), "the first list"
    assert takes(b"name\nCy\nBo\nAna\nDi\n") == tally(2, 2), "the whole list"
    out = b"no,name,dropped\n1,Ana,0\n2,Bo,0\n3,Cy,0\n4,Di,0\n"
    assert program.run("export", file, "players") == (0, out, b""), "the export"
    assert takes(out) == tally(0, 4), "into its own event"
    assert takes(out, program.played(f"{room}/other")) == tally(4, 0), "into another"


def test_in_a_script(program):
    script = (
        b"init\tFriday\t3\t0\nenrol\tAna\nexport\tplayers\nexport\tresults\nimport\tnames.csv\nexport\tall\n"
    )
    assert (
        program.fed(script)[1]
        == b"ok 0\nok 1\nno,name,dropped\n1,Ana,0\nround,table,a,b,x,y,d\nusage\nusage\n"
    )
