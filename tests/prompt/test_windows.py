"""Several windows at one event: what another one did is told, a score that is typed goes to the round that was shown or is asked for, and the file is
never taken away under a program that has it.
"""
import os
import re
import subprocess
import time

import pytest

from second_reading.plain_event import Event
from second_reading.plain_file import read
from tests.support.prompt import check_said, unfilled
from tests.support.random_evenings import laid
from tests.support.waiting import PATIENCE
from tools import TOP

NAMES = "Ana Lima", "Bo Sato", "Cy Young", "Di Ito"
POST = b'POST /rounds/1/tables/2 HTTP/1.1\r\nContent-Length: 19\r\n\r\n{"a":2,"b":0,"d":0}'


def scores(file, number):
    return [score for _, _, score in read(file).stored[number - 1]]


def pairing(file):
    """Who meets whom in round 2, table by table."""
    return [(first, second) for first, second, _ in read(file).stored[1]]


def pairing_by(file, key):
    event = read(file)
    del event.stored[1:]
    event.pair(2, bytes.fromhex(key))
    return [(first, second) for first, second, _ in event.stored[1]]


@pytest.fixture
def begun(prompt, started):
    """The file of an event of four, whose first round is paired and has the score of table 1."""
    _, file = started(*NAMES)
    prompt.said(file, "pair", "1 2 0")
    return file


# ---- a slip of the round before


def test_a_slip_of_the_round_before_at_a_terminal(prompt, begun):
    """The news stands above the line, the prompt says the new round, and the score that was begun before it is asked for."""
    one = prompt.terminal(begun, reads_slowly=True)
    assert one.began.endswith("r1> ")
    one.keys("2 2")
    prompt.said(begun, "2 0 2", "pair")
    told = one.read_for(b"r2> ")
    assert re.search(r"Round 2 was paired, at \d\d:\d\d, in another window\.", told), told
    text = one.send(" 0")
    check_said(
        "it asks",
        text,
        "Round 2 was paired meanwhile, at ",
        "in another window.",
        "Round 2, table 2: ",
        " 2-0-0 ",
        "Is this a score of round 2? (y or n) ",
    )
    check_said(
        "no",
        one.send("n"),
        "Nothing was stored. Table 2 of round 1 has 0-2-0.",
        "To replace it: fix 1 2 X Y",
        "r2> ",
    )
    assert scores(begun, 2) == [None, None]
    check_said("what is typed beneath r2> is of round 2", one.send("2 2 1"), "Round 2, table 2: ", "ok ")
    assert scores(begun, 2) == [None, (2, 1, 0)]
    assert one.end()[0] == 0


def test_a_slip_of_the_round_before_right_after_the_news(prompt, begun):
    """Who types when the news comes hasn't read it yet, though nothing of the line was there."""
    one = prompt.terminal(begun, reads_slowly=True)
    prompt.said(begun, "2 0 2", "pair")
    assert "was paired, at " in one.read_for(b"r2> ")
    check_said(
        "it asks", one.send("2 2 0"), "Round 2 was paired meanwhile", "Is this a score of round 2? (y or n) "
    )
    check_said("yes", one.send("y"), "Round 2, table 2: ", "ok ", "r2> ")
    check_said("and then no more", one.send("1 2 0"), "Round 2, table 1: ", "ok ")
    assert scores(begun, 2) == [(2, 0, 0), (2, 0, 0)]
    assert one.end()[0] == 0


def test_lines_that_were_typed_ahead_are_of_the_round_that_was_shown(prompt, begun):
    """Two slips at once, of which the first is read while the other window pairs."""
    one = prompt.terminal(begun, reads_slowly=True)
    prompt.said(begun, "2 0 2", "pair")
    one.keys("1 0 2\r2 0 2\r")
    text = one.read_for(b"Round 2, table 2: ")
    check_said(
        "the first is asked for, and the second is no answer",
        text,
        "Round 2, table 1: ",
        "Is this a score of round 2?",
        "Table 1 of round 1 has 2-0-0.",
        "Round 2, table 2: ",
    )
    one.keys("n\r")
    assert "Nothing was stored. Table 2 of round 1 has 0-2-0." in one.read_for(
        b"r2> "
    ), "and so is the second"
    assert scores(begun, 2) == [None, None]
    assert one.end()[0] == 0


def test_a_slip_of_the_round_before_by_a_pipe(prompt, begun):
    one = prompt.piped(begun)
    check_said("what it shows", one.send("where"), "round 1, 1 table open: 2")
    prompt.said(begun, "2 0 2", "pair")
    one.process.stdin.write(b"2 2 0\nn\n")
    said = one.read_until(lambda text: b"To replace it" in text).decode()
    check_said(
        "it asks", said, "Round 2 was paired meanwhile", "Is this a score of round 2?", "Nothing was stored."
    )
    check_said("where shows the round", one.send("where"), "round 2, 2 tables open")
    check_said("which is then asked for no more", one.send("2 2 0"), "Round 2, table 2", "ok ")
    assert scores(begun, 2) == [None, (2, 0, 0)]
    one.end()


def test_a_round_that_another_window_paired_again(prompt, begun):
    """The number of the round is the same, and others sit at its tables."""
    prompt.said(begun, "2 0 2", "pair")
    one = prompt.terminal(begun, reads_slowly=True)
    assert one.began.endswith("r2> ")
    before = [match[:2] for match in read(begun).stored[1]]
    for _ in range(20):
        prompt.said(begun, "back 2", "y", "pair")
        if [match[:2] for match in read(begun).stored[1]] != before:
            break
    assert "Another window went back to a copy, or played the event again. This is round " in unfilled(
        one.read_for(b"where")
    )
    one.keys("1 2 0\r")
    check_said(
        "it asks",
        one.read_for(b"(y or n) "),
        "meanwhile",
        "Round 2, table 1: ",
        "Is this a score of round 2? (y or n) ",
    )
    one.send("n")
    assert scores(begun, 2) == [None, None]
    assert one.end()[0] == 0


def test_fix_without_a_round_is_of_the_round_that_was_shown(prompt, begun):
    one = prompt.terminal(begun, reads_slowly=True)
    prompt.said(begun, "2 0 2", "pair", "1 2 1", "2 2 1")
    one.read_for(b"r2> ")
    check_said("it asks", one.send("fix 2 1 2"), "Is this a score of round 2? (y or n) ")
    one.send("n")
    assert (scores(begun, 1), scores(begun, 2)) == ([(2, 0, 0), (0, 2, 0)], [(2, 1, 0), (2, 1, 0)])
    assert one.end()[0] == 0


def test_the_cut_in_another_window_is_told(prompt, started):
    _, file = started(*NAMES, rounds=1, cut=2)
    prompt.said(file, "pair", "1 2 0", "2 2 0")
    one = prompt.terminal(file)
    prompt.said(file, "cut", "y")
    assert "The playoff was begun in another window. See: bracket" in one.read_for(b"playoff> ")
    assert one.end()[0] == 0


def test_a_round_without_a_copy_is_told_at_once(prompt, program, begun):
    one = prompt.terminal(begun)
    prompt.said(begun, "2 0 2")
    program.did("pair", begun, "2", "0" * 64)
    told = unfilled(one.read_for(b"r2> "))
    assert (
        "Round 2 was paired in another window. Without a copy from before it, round 2 can't be played again."
        in told
    ), told
    assert one.end()[0] == 0


def test_the_event_that_another_window_makes_is_told(prompt, room):
    one = prompt.terminal(f"{room}/e.event")
    prompt.said(f"{room}/e.event", "init E 3 0")
    assert "The event was made in another window. See: where" in one.read_for(b"desk> ")
    check_said("it goes on", one.send("enrol Ana"), "Ana (1) is enrolled.")
    assert one.end()[0] == 0


def test_who_goes_home_has_a_name(prompt, begun):
    """Also if the prompt has shown no name yet."""
    from event_companions.beside.reports import TIME, Report, Reports
    from event_companions.core.score import Score

    one = prompt.terminal(begun)
    first, second, _ = read(begun).stored[0][0]
    Reports(begun).add(
        Report(
            time.strftime(TIME), 1, 1, first, second, Score(2, 0), "same", Score(2, 0), "10.0.0.7", (second,)
        )
    )
    told = one.read_for(b"drop ")
    assert f"{read(begun).names[second - 1]} ({second}) wants to go home after the round: drop" in told, told
    assert one.end()[0] == 0


# ---- back, while another program has the file


def test_back_is_declined_while_serve_has_the_file(prompt, begun, serve):
    """What a client hands in is in the event that is there."""
    served = serve(begun, 2)
    # the prompt was there first, and would have copied
    text = prompt.said(begun, "back 1", "y")
    assert "Go on from this copy?" not in text
    check_said(
        "declined", text, "Another program has", "most often `serve` in another window", "End it by Ctrl-C"
    )
    assert served.ask(POST).startswith(b"HTTP/1.1 200 ")
    served.kill()
    assert [
        name for name in os.listdir(os.path.dirname(begun)) if ".away-" in name or name.endswith(".back")
    ] == []
    assert scores(begun, 1) == [(2, 0, 0), (2, 0, 0)]
    check_said(
        "then it goes on",
        prompt.said(begun, "back 1", "y"),
        "The event that was in use is",
        "  1 2 0 0",
        "  2 2 0 0",
    )


def test_back_is_declined_if_serve_begins_while_it_asks(prompt, begun, serve):
    one = prompt.terminal(begun)
    check_said("it asks", one.send("back 1"), "Go on from this copy?")
    served = serve(begun, 1)
    check_said("declined", one.send("y"), "Another program has", "r1> ")
    served.kill()
    assert [name for name in os.listdir(os.path.dirname(begun)) if ".away-" in name] == []
    assert one.end()[0] == 0


def test_rename_before_the_start_is_declined_while_serve_has_the_file(prompt, program, room, serve):
    event = Event(3, 0)
    for name in NAMES:
        event.enrol(name)
    file = laid(program.path, f"{room}/e.event", event, "E")
    served = serve(file, 1)
    text = prompt.said(file, "rename 2 Bo Satoh")
    check_said(
        "declined", text, "Another program has", "most often `serve` in another window", "End it by Ctrl-C"
    )
    served.kill()
    assert read(file).names == list(NAMES)
    check_said("then it goes on", prompt.said(file, "rename 2 Bo Satoh"), "Bo Sato (2) is Bo Satoh now.")


def test_what_came_since_has_what_came_while_it_asked(prompt, begun):
    one = prompt.terminal(begun)
    check_said("it asks", one.send("back 1"), "Go on from this copy?")
    check_said("another window", prompt.said(begun, "2 2 1"), "ok ")
    check_said("what came since", one.send("y"), "Round 1 was paired since.", "1 2 0 0", "2 2 1 0")
    assert one.end()[0] == 0


def test_a_missing_and_a_damaged_file_do_not_stop_back(prompt, begun):
    with open(begun, "r+b") as it:
        it.truncate(5000)
    check_said(
        "a damaged one",
        prompt.said(begun, "back 1", "y"),
        "The event that was in use is",
        "no round is paired yet",
    )
    os.unlink(begun)
    for name in os.listdir(os.path.dirname(begun)):
        if name == f"{os.path.basename(begun)}-wal":
            os.unlink(f"{begun}-wal")
    check_said("a missing one", prompt.said(begun, "back 1", "y"), "no round is paired yet")


# ---- checks after `back`


def test_a_round_that_was_paired_again_is_checked_by_its_own_key(prompt, program, begun, room):
    """Each copy and each key that lies there is tried, at the prompt and by the second reading."""

    def checks():
        for kind in ("players", "results"):
            with open(f"{room}/{kind}.csv", "wb") as it:
                it.write(program.did("export", begun, kind))
        paths = [f"{room}/players.csv", f"{room}/results.csv", f"{begun}.keys"]
        ran = subprocess.run(["bash", f"{TOP}/scripts/check", *paths], capture_output=True, timeout=PATIENCE)
        return ran.returncode, ran.stdout.decode()

    good = (
        0,
        "round 1: as the rules pair it by its key\nround 2: as the rules pair it by its key\nChecked: 2 rounds. Nothing is wrong.\n",
    )
    prompt.said(begun, "2 0 2", "pair")
    prompt.said(begun, "back 2", "y", "pair")
    check_said("the newer pairing", prompt.said(begun, "check 2"), "Round 2 is what its key gives")
    assert checks() == good
    prompt.said(begun, "back 3", "y")
    check_said("the older one again", prompt.said(begun, "check 2"), "Round 2 is what its key gives")
    assert checks() == good
    other = next(
        key
        for key in (f"{number:064x}" for number in range(1000))
        if pairing_by(begun, key) != pairing(begun)
    )
    with open(f"{begun}.keys") as it:
        first = it.readline()
    with open(f"{begun}.keys", "w") as it:
        it.write(f"{first}round 2 {other}\n")
    check_said(
        "a key that is not its own",
        prompt.said(begun, "check 2"),
        "Round 2 is not what a copy made before it gives by a key of it.",
    )
    assert checks()[0] == 1
