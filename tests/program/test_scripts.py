"""The program as it is built, run on scripts: each transcript of a folder, each script beside that folder that has its answers, and then the program's edges:
sizes, words and devices.
"""
import glob
import os
import resource
import signal
import socket
import struct
import subprocess
import tempfile
import time

import pytest

from second_reading.chacha20 import words_of
from tests.support import subcommands
from tests.support.event_files import bytes_of
from tests.support.transcripts import parts_of
from tests.support.waiting import PATIENCE
from tools import TOP, version

VERSION = f"event_reporter {version()}\n".encode()

TRANSCRIPTS = [
    pytest.param(lines, id=f"{os.path.basename(path)}:{at}")
    for path in sorted(glob.glob(f"{TOP}/examples/transcripts/*.txt"))
    for at, lines in parts_of(path)
]


@pytest.mark.parametrize("lines", TRANSCRIPTS)
def test_transcript(program, lines):
    answers = "".join(f"{text}\n" for _, answer in lines for text in answer).encode()
    assert program.fed(b"".join(line for line, _ in lines)) == (0, answers, b"")


@pytest.mark.parametrize("path", sorted(glob.glob(f"{TOP}/examples/*.answers")), ids=os.path.basename)
def test_script(program, path):
    """The scripts that have their answers beside them."""
    assert program.fed(bytes_of(path.replace(".answers", ".txt"))) == (0, bytes_of(path), b"")


def test_first_example(program):
    """The one that the gate runs too, as each of two compilers makes the program."""
    assert program.fed(bytes_of(f"{TOP}/crates/event_reporter/stdin")) == (
        0,
        bytes_of(f"{TOP}/crates/event_reporter/stdout"),
        b"",
    )


@pytest.mark.parametrize("size", [65_535, 65_536, 65_537, 70_000])
def test_size(program, size):
    """A script is 65,536 bytes at most, of which the rest is empty lines here. Of a longer one nothing is run."""
    due = (0, b"refused 27 NoEvent\n", b"") if size <= 65_536 else (2, b"usage\n", b"")
    assert program.fed(b"players".ljust(size, b"\n")) == due


def test_full_event(program):
    """An event has 512 players at most, before the start and after it. A name that is taken comes first."""
    script, answers = b"init\tFriday\t3\t0\n", b"ok 0\n"
    for number in range(1, 513):
        script += b"enrol\tN%d\n" % number
        answers += b"ok %d\n" % number
    script += (
        b"enrol\tN1\nenrol\tN513\nenrol\t\nstart\npair\t1\t"
        + b"0" * 64
        + b"\nenrol\tN1\nenrol\tN513\nenrol\t\n"
    )
    turned_away = b"refused 2 NameTaken\nrefused 3 PlayersFull\nrefused 1 BadName\n"
    answers += turned_away + b"ok 513\nok 514\n" + turned_away
    assert program.fed(script) == (0, answers, b""), "512 players"


def test_vectors():
    # RFC 8439, A.1, test vectors 1 and 3: the first block of the key of zeros, and the second of the key that ends in 1
    assert struct.pack("<4I", *words_of(bytes(32), 4)).hex() == "76b8e0ada0f13d90405d6ae55386bd28", "vector 1"
    assert (
        struct.pack("<4I", *words_of(bytes(31) + b"\1", 20)[16:]).hex() == "3aeb5224ecf849929b9d828db1ced4dd"
    ), "vector 3"


@pytest.mark.parametrize(
    "seed", [bytes(range(32)), b"\xa1" + bytes(30) + b"\x0f", b"\xff" * 32], ids=bytes.hex
)
def test_seed(program, seed):
    """The first round follows the words of the seed, which is read from the left, the high half of each byte first. Capital digits are alike."""
    players = list(range(1, 38))
    words = words_of(seed, len(players))
    order = sorted(players, key=lambda it: (words[it - 1], it)) + [0]
    script = b"init\tFriday\t3\t0\n" + b"".join(b"enrol\tP%d\n" % it for it in players) + b"start\n"
    answers = b"".join(b"ok %d\n" % it for it in range(len(players) + 3)) + b" Tab    A    B Score Names\n"
    for table, (a, b) in enumerate(zip(order[::2], order[1::2]), 1):
        answers += (
            b"%4d %4d %4d -     P%d - P%d\n" % (table, a, b, a, b)
            if b
            else b"   0 %4d    0 2-0-0 P%d - bye\n" % (a, a)
        )
    for word in (seed.hex(), seed.hex().upper()):
        assert program.fed(script + b"pair\t1\t%s\nslips\t1\n" % word.encode()) == (
            0,
            answers,
            b"",
        ), f"seed {word}"


def wide_lines(text):
    """The lines of a text that a terminal of 80 columns breaks."""
    return [it for it in text.split(b"\n") if len(it) > 80]


COMPANIONS = "event-desk", "event-sheets", "event-phones", "event-check"


def test_help(program):
    """A text that is asked for goes to the output."""
    status, help_text, errors = program.run("--help")
    assert (status, help_text.startswith(b"usage: event_reporter SUBCOMMAND FILE WORDS\n"), errors) == (
        0,
        True,
        b"",
    ), "--help"
    assert program.run("-h") == (0, help_text, b""), "-h"
    assert wide_lines(help_text) == [], "--help fits 80 columns"
    for word in ("--version", "-V"):
        assert program.run(word) == (0, VERSION, b""), word
    listed = [name for name, _words in subcommands.listed(help_text.decode())]
    assert sorted(listed) == sorted(subcommands.read()), "--help lists what is read"
    assert help_text.count(b"\n") <= 2 * 24 - 2, "--help fits two screens"
    assert [it for it in COMPANIONS if it not in help_text.decode()] == [], "--help names the companions"
    assert program.fed(b"init\tFriday\t3\t0\nserve\t0\t1\nplayers\n") == (
        0,
        b"ok 0\nusage\n  No D Name\n",
        b"",
    ), "a script serves nobody"
    assert program.fed(b"init\tFriday\t3\t0\nimport\tnames.csv\nplayers\n") == (
        0,
        b"ok 0\nusage\n  No D Name\n",
        b"",
    ), "a script imports no list"


def seen_of(room):
    """The files of a folder, with their bytes and times."""
    return {it.name: (bytes_of(it.path), it.stat().st_mtime_ns) for it in os.scandir(room)}


TOUCH_NOTHING = [
    "enrol FILE",
    "enrol FILE --help",
    "start FILE now",
    "init FILE Friday 13 0",
    "init FILE Friday 3 5",
    "unknown FILE",
    "FILE enrol Ana",
]


@pytest.mark.parametrize("words", TOUCH_NOTHING)
def test_words_that_touch_no_file(program, room, words):
    """Words that are no command line, that ask for help, or that ask for an event beyond the limits. Words that are one show that it would be seen."""
    file = f"{room}/e.event"

    def run(words):
        return program.run(*(file if word == "FILE" else word for word in words.split()))

    run(words)
    assert seen_of(room) == {}, "no file is made"
    assert run("init FILE Friday 3 0") == (0, b"ok 0\n", b"")
    before = seen_of(room)
    run(words)
    assert seen_of(room) == before, "the file stays as it was"
    assert run("enrol FILE Ana") == (0, b"ok 1\n", b"")
    assert seen_of(room) != before, "the control"


@pytest.mark.parametrize("name", sorted(subcommands.read()))
def test_help_of(program, name):
    """Of each subcommand."""
    status, text, errors = program.run(name, "--help")
    assert (
        status,
        text.startswith(b"usage: event_reporter %s FILE" % name.encode()),
        b"\nExample: event_reporter " in text,
        errors,
    ) == (0, True, True, b""), f"{name} --help"
    assert program.run(name, "-h") == (0, text, b""), f"{name} -h"
    assert wide_lines(text) == [], f"{name} --help fits 80 columns"
    for word in ("--version", "-V"):
        assert program.run(name, word) == (0, VERSION, b""), f"{name} {word}"
    missing = b"event_reporter: a word is missing at the end\n" + text
    assert program.run(name) == (2, b"", missing), f"{name} alone"


def test_words_that_are_no_command_line(program):
    """They are named on the errors, above what is to be written."""
    export = program.run("export", "--help")[1]
    pair = program.run("pair", "--help")[1]
    serve = program.run("serve", "--help")[1]
    for words, told in (
        (["pair", "f", "1", "x"], b"`x` is not 64 hexadecimal digits\n" + pair),
        (["pair", "f", "+1", "0" * 64], b"`+1` is no whole number from 0 to 255\n" + pair),
        (["pair", "f", "256", "0" * 64], b"`256` is no whole number from 0 to 255\n" + pair),
        (["pair", "f", "1", "0" * 64, "2"], b"`2` is a word too many\n" + pair),
        (["pair", "f", "-1", "0" * 64], b"`-1` begins with `-`, which no word may\n" + pair),
        (
            ["drop", "f", "65536"],
            b"`65536` is no whole number from 0 to 65535\n" + program.run("drop", "-h")[1],
        ),
        (["serve", "f", "65536", "1"], b"`65536` is no whole number from 0 to 65535\n" + serve),
        (["serve", "f", "0", "0"], b"`0` is no whole number from 1 to 1000000\n" + serve),
        (["serve", "f", "0", "1000001"], b"`1000001` is no whole number from 1 to 1000000\n" + serve),
        (["export", "f", "standings"], b"`standings` is no kind of list: players or results\n" + export),
        (["export", "f", "Players"], b"`Players` is no kind of list: players or results\n" + export),
        (["export", "f"], b"a word is missing at the end\n" + export),
        (["migrate", "f", "2"], b"`2` is a word too many\n" + program.run("migrate", "-h")[1]),
        (
            ["help"],
            b"`help` is no subcommand\nusage: event_reporter SUBCOMMAND FILE WORDS\nTry: event_reporter --help\n",
        ),
        (
            [""],
            b"`` is no subcommand\nusage: event_reporter SUBCOMMAND FILE WORDS\nTry: event_reporter --help\n",
        ),
        (
            ["help", "--version"],
            b"`--version` begins with `-`, which no word may\nusage: event_reporter SUBCOMMAND FILE WORDS\nTry: event_reporter --help\n",
        ),
        (
            ["--help", "--help"],
            b"`--help` begins with `-`, which no word may\nusage: event_reporter SUBCOMMAND FILE WORDS\nTry: event_reporter --help\n",
        ),
        ([b"\xff"], b"the words are no UTF-8 text\nTry: event_reporter --help\n"),
    ):
        assert program.fed(b"players\n", *words) == (2, b"", b"event_reporter: " + told), f"words {words}"


FRIDAY = b"init\tFriday\t3\t0\nenrol\tAna\nenrol\tBo\nenrol\tCy\nenrol\tDi\nplayers\n"


def in_room(program, room):
    """Runs a script into a file that takes this many bytes, and then none."""

    def narrow():
        signal.signal(signal.SIGXFSZ, signal.SIG_IGN)
        resource.setrlimit(resource.RLIMIT_FSIZE, (room, room))

    with tempfile.TemporaryFile() as out:
        ran = subprocess.run(
            [program.path],
            input=FRIDAY,
            stdout=out,
            stderr=subprocess.PIPE,
            timeout=PATIENCE,
            preexec_fn=narrow,
            restore_signals=False,
        )
        out.seek(0)
        return ran.returncode, out.read(), ran.stderr


def test_in_writes(program):
    """Each answer goes out by one write, so that a program that is stopped leaves no half of one: what was acknowledged is there with its number."""
    ours, theirs = socket.socketpair(socket.AF_UNIX, socket.SOCK_DGRAM)
    with ours, theirs:
        ran = subprocess.run(
            [program.path],
            input=FRIDAY + b"enrol\tAna\nenrol\n",
            stdout=theirs,
            stderr=subprocess.PIPE,
            timeout=PATIENCE,
        )
        ours.setblocking(False)
        writes = []
        try:
            while True:
                writes.append(ours.recv(65_536))
        except BlockingIOError:
            pass
    players = b"  No D Name\n   1   Ana\n   2   Bo\n   3   Cy\n   4   Di\n"
    assert (ran.returncode, writes) == (
        0,
        [b"ok %d\n" % it for it in range(5)] + [players, b"refused 2 NameTaken\n", b"usage\n"],
    ), "one write an answer"


def test_slowly(program):
    """Input that comes a byte at a time is read to its end."""
    with subprocess.Popen([program.path], stdin=subprocess.PIPE, stdout=subprocess.PIPE, bufsize=0) as ran:
        for byte in FRIDAY:
            ran.stdin.write(bytes([byte]))
            time.sleep(0.001)
        ran.stdin.close()
        answers = ran.stdout.read()
    assert (ran.returncode, answers) == (0, program.fed(FRIDAY)[1]), "a slow input"


def into(program, out, data, *words):
    ran = subprocess.run(
        [program.path, *words], input=data, stdout=out, stderr=subprocess.PIPE, timeout=PATIENCE
    )
    return ran.returncode, ran.stderr


def test_devices(program):
    """An output that takes no byte and an input that gives none end the program with 3, and no words with them."""
    with open("/dev/full", "wb") as full:
        assert into(program, full, b"players\n") == (3, b""), "a full output"
        assert into(program, full, b"", "--help") == (3, b""), "a full output for the help"
    for room, taken in (
        (0, b""),
        (7, b"ok 0\nok"),
        (13, b"ok 0\nok 1\nok "),
        (30, b"ok 0\nok 1\nok 2\nok 3\nok 4\n  No "),
    ):
        assert in_room(program, room) == (3, taken, b""), f"an output with room for {room} bytes"
    directory = os.open("/", os.O_RDONLY)
    ran = subprocess.run([program.path], stdin=directory, capture_output=True, timeout=PATIENCE)
    os.close(directory)
    assert (ran.returncode, ran.stdout, ran.stderr) == (3, b"", b""), "an input that fails"
