"""The event played again: other rounds or another cut, and a score, a drop, a player or a name that is taken back. What comes out differs from what was
there in that alone, or nothing is done.
"""
import os
import shutil

import pytest

from second_reading.plain_event import Event
from second_reading.plain_file import read
from tests.support.event_files import make_old, rows_alone, rows_of
from tests.support.inside import exchange_is_killed
from tests.support.prompt import check_said, match_shown, unfilled

NAMES = tuple(f"P{number}" for number in range(1, 9))


def lists(program, file):
    """Players, results, standings and bracket, to the byte."""
    return [
        program.did(*words)
        for words in (
            ("export", file, "players"),
            ("export", file, "results"),
            ("standings", file),
            ("bracket", file),
        )
    ]


def is_as_it_was(file, rows):
    return rows_alone(file) == rows


@pytest.fixture
def played(prompt, started):
    """Two rounds of eight players, with a drop, a late entry and a correction; the second round is complete."""
    _, file = started(*NAMES, rounds=5, cut=4)
    prompt.said(
        file, "pair", "1 2 0", "2 2 1", "3 0 2", "4 1 1 1", "fix 1 0 2", "drop 8", "y", "enrol Late, Lou", "y"
    )
    prompt.said(file, "pair", "1 2 0", "2 2 0", "3 2 1", "4 2 0", "fix 1 2 1 0 2", "y")
    return file


# ---- other rounds, another cut


def test_plan_keeps_each_list(prompt, program, played):
    before = lists(program, played)
    text = prompt.said(played, "plan 4 2")
    check_said(
        "plan",
        text,
        "Round 1 of 2 is played again.",
        "Round 2 of 2 is played again.",
        "To have it as it was: back ",
        "Round 2 of 4, cut to 2",
    )
    assert lists(program, played) == before
    assert (read(played).rounds, read(played).cut) == (4, 2)
    text = prompt.said(played, "back")
    check_said("the copy from before it", text, "before the new plan")


def test_what_lies_beside_the_event_goes_along(prompt, program, played):
    """Keys, names, doubts, title, clock, codes and reports: each to the byte."""
    prompt.said(played, "doubt 1", "doubt 1 2", "rename 3 Pedro", "y", "title Friday", "clock 50")
    for kind, text in (
        ("phones", f"at http://192.168.1.10:8080\nkey {'ab' * 32}\nboth no\n"),
        ("reports", ""),
    ):
        with open(f"{played}.{kind}", "w") as it:
            it.write(text)
    kinds = "keys", "names", "doubts", "title", "clock", "phones", "reports"
    before = {kind: open(f"{played}.{kind}", "rb").read() for kind in kinds}
    os.chmod(played, 0o640)
    prompt.said(played, "plan 4 2", "take back 3", "y", "3 2 1")
    assert {kind: open(f"{played}.{kind}", "rb").read() for kind in kinds} == before
    assert os.stat(played).st_mode & 0o777 == 0o640, "and so does the mode"
    check_said(
        "the doubts stand",
        unfilled(prompt.said(played, "doubt")),
        "In doubt: round 1, table 2",
        "In doubt: round 2, table 1",
    )
    prompt.said(played, "take back 1", "y")
    check_said("one has ended", prompt.said(played, "doubt"), "In doubt: round 1, table 2")
    assert "round 2, table 1" not in prompt.said(played, "doubt")


def test_plan_before_the_start(prompt, program, room):
    file = f"{room}/e.event"
    text = prompt.said(
        file, "init E 5 4", "enrol Ana", "enrol Bo", "plan", "plan 3 0", "plan 0 4", "plan 3 5", "plan 13 0"
    )
    check_said(
        "plan",
        text,
        "5 rounds, cut to 4",
        "plan 5 4",
        "3 rounds, no cut",
        "There are 1 to 12 rounds here",
        "a cut of 0, 2, 4 or 8",
        "There are 1 to 12 rounds",
    )
    assert (read(file).rounds, read(file).cut, read(file).names) == (3, 0, ["Ana", "Bo"])
    prompt.said(file, "start", "plan 4 2")
    assert (read(file).rounds, read(file).phase) == (4, 1)


def test_plan_of_fewer_rounds_than_there_are(prompt, played):
    rows = rows_alone(played)
    check_said("plan", prompt.said(played, "plan 1 4"), "There are 2 to 12 rounds here")
    prompt.said(played, "enrol Later")
    rows = rows_alone(played)
    check_said(
        "nobody is left out",
        prompt.said(played, "plan 2 4"),
        "Somebody came after round 2 was paired, and would be in none.",
        "The event stays as it is.",
    )
    assert is_as_it_was(played, rows)


def test_plan_without_a_copy_of_a_round(prompt, played):
    """The event stays as it is."""
    rows = rows_alone(played)
    (copy,) = [name for name in os.listdir(f"{played}.copies") if "before-pair-1" in name]
    os.rename(f"{played}.copies/{copy}", f"{played}.copies/hidden")
    check_said(
        "plan", prompt.said(played, "plan 4 2"), "Round 1 can't be played again", "The event stays as it is."
    )
    assert is_as_it_was(played, rows)
    os.rename(f"{played}.copies/hidden", f"{played}.copies/{copy}")
    with open(f"{played}.copies/{copy}", "r+b") as it:
        it.truncate(4096)
    check_said("of a damaged one", prompt.said(played, "plan 4 2"), "Round 1 can't be played again")
    assert is_as_it_was(played, rows)


def test_the_dead_end_of_an_event_that_can_not_be_paired(prompt, started):
    """Four players who all have met, a fourth round due, and a cut: `pair`, `cut` and `where` name the way out."""
    _, file = started("Ana", "Bo", "Cy", "Di", rounds=4, cut=2)
    for _ in range(3):
        prompt.said(file, "pair", "1 2 0", "2 2 1")
    text = prompt.said(file, "pair", "cut", "where")
    way = "plan 3 2, and then cut"
    check_said(
        "the way out",
        unfilled(text),
        "two would meet again",
        way,
        "(refused 10 NoPairing)",
        "no further round can be. To end the rounds here: ",
        way,
        "(refused 19 RoundsNotDone)",
        "No further round can be paired. Next: plan 3 2",
    )
    check_said(
        "where knows it by itself",
        unfilled(prompt.said(file, "where")),
        "No further round can be paired. Next: plan 3 2",
    )
    check_said(
        "it leads to the playoff",
        prompt.said(file, "plan 3 2", "cut", "y", "where"),
        "The playoff would begin so:",
        "final",
    )


def test_the_dead_end_of_too_few_for_the_cut(prompt, started):
    _, file = started(*NAMES[:5], rounds=1, cut=4)
    prompt.said(file, "pair", "1 2 0", "2 2 0", "drop 1 2", "y")
    text = prompt.said(file, "where", "cut")
    check_said(
        "the way out",
        unfilled(text),
        "3 are left, too few for a cut to 4. Next: plan 1 2",
        "3 players are left, and the cut is to 4.",
        "plan 1 2, and then cut",
        "(refused 21 TooFewForCut)",
    )
    check_said(
        "it leads to the playoff", prompt.said(file, "plan 1 2", "cut", "y"), "The playoff would begin so:"
    )


def test_start_says_what_is_usual(prompt, room):
    file = f"{room}/e.event"
    prompt.said(file, "init E 6 8", *(f"enrol {name}" for name in NAMES))
    terminal = prompt.terminal(file)
    text = terminal.send("start")
    pieces = [
        "For 8 players 3 rounds are usual, and this event has 6.",
        "plan 3 8",
        "rounds after the 4th may not be found",
        "too few for a cut to 8",
        "Start all the same?",
    ]
    check_said("it asks", unfilled(text), *pieces)
    check_said("no", terminal.send("n"), "Nothing was started. As: plan 3 4, and then start")
    check_said("plan", terminal.send("plan 3 4"), "3 rounds, cut to 4")
    check_said("nothing is asked", terminal.send("start"), "ok ")
    assert terminal.end()[0] == 0
    assert read(file).phase == 1


def test_what_can_not_be_played_again_is_told(prompt, program, played):
    """When the prompt starts at a terminal, and by `copies`."""
    program.did("pair", played, "3", "0" * 64)
    text = prompt.said(played, "copies")
    check_said(
        "copies", text, " copies, 0.", "Round 3: no copy from before it is there. It can't be played again"
    )
    terminal = prompt.terminal(played)
    assert "Round 3: no copy from before it is there." in terminal.began
    assert terminal.end()[0] == 0
    (copy,) = [name for name in os.listdir(f"{played}.copies") if "before-pair-2" in name]
    with open(f"{played}.copies/{copy}", "r+b") as it:
        it.truncate(4096)
    check_said(
        "a damaged one", prompt.said(played, "copies"), "Round 2: copy ", "from before it, can't be opened"
    )
    os.unlink(f"{played}.keys")
    check_said("without keys", prompt.said(played, "copies"), "Round 1: its key is not in the list of keys")


def test_a_file_of_version_1_is_migrated_first(prompt, room):
    """It would come out in version 2."""
    file, old = f"{room}/old.event", Event(3, 2, 1)
    for name in NAMES[:4]:
        old.enrol(name)
    old.start()
    make_old(file, old)
    rows = rows_alone(file)
    prompt.said(file, "plan 2 0")
    check_said(
        "declined", prompt.said(file, "plan 2 0"), "The file is of version 1", "First move it: migrate"
    )
    assert is_as_it_was(file, rows)
    prompt.said(file, "pair", "1 2 0", "take back 1", "y")
    event = read(file)
    assert (event.version, event.stored[0][0][2]) == (1, None)
    prompt.said(file, "migrate", "plan 2 0")
    event = read(file)
    assert (event.version, event.rounds, event.cut, len(event.stored)) == (2, 2, 0, 1)


# ---- what came since a copy


def test_back_offers_to_type_again(prompt, program, played):
    """All but what is left out; what is refused is said, and the others go on."""
    prompt.said(played, "pair", "1 2 0", "fix 1 2 0 2 0", "y", "enrol -x", "drop 4", "y")
    before = read(played)
    prompt.said(played, "take back drop 4", "drop 4", "y")
    terminal = prompt.terminal(played)
    copies = terminal.send("back")
    number = next(line.split()[0] for line in copies.split("\n") if "before the drop of P4 (4)" in line)
    terminal.send(f"back {number}")
    text = terminal.send("y")
    check_said(
        "it offers",
        unfilled(text),
        "What came since:",
        "1. drop 4",
        "Type it again, or but 1 3 to leave some out? (y or n)",
    )
    check_said("there is no second line", terminal.send("but 2"), "Type it again, or but 1 3")
    check_said("yes", terminal.send("y"), "round 3, ", "r3> ")
    assert terminal.end()[0] == 0
    after = read(played)
    assert (after.stored, after.names, after.dropped) == (before.stored, before.names, before.dropped)


def test_back_leaves_out_what_is_named(prompt, played):
    prompt.said(played, "pair", "1 2 0", "2 2 1", "enrol Ed")
    text = prompt.said(played, "back")
    number = next(line.split()[0] for line in text.split("\n") if "before the pairing of round 2" in line)
    # a correction came since, in round 1
    terminal = prompt.terminal(played)
    terminal.send(f"back {number}")
    check_said(
        "it offers",
        unfilled(terminal.send("y")),
        "1. fix 1 2 1 0 2",
        "2. enrol Ed",
        "Type it again, or but 1 3",
    )
    text = terminal.send("but 1")
    check_said(
        "the rounds are said",
        text,
        "Round 2 was paired since. Its key, for: pair again",
        "Round 3 was paired since.",
    )
    assert terminal.end()[0] == 0
    event = read(played)
    assert (event.names[-1], event.stored[0][1][2], len(event.stored)) == ("Ed", (2, 1, 0), 1)


def test_a_round_that_is_paired_so_again_offers_its_scores(prompt, played):
    """Under a heading, with names."""
    before = read(played).stored[1]
    shown = [match_shown(read(played), match, match[2]) for match in before]
    number = next(
        line.split()[0]
        for line in prompt.said(played, "back").split("\n")
        if "before the pairing of round 2" in line
    )
    terminal = prompt.terminal(played)
    terminal.send(f"back {number}")
    # a correction of round 1 is offered first
    text = terminal.send("y") + terminal.send("n")
    check_said(
        "they are shown",
        text,
        "Its scores, to type once it is paired so again:",
        *shown,
        "Once a round is paired so again, its scores are offered.",
    )
    check_said(
        "they are offered",
        terminal.send("pair again"),
        "Scores that round 2 had before:",
        *shown,
        "Type it again, or but 1 3",
    )
    check_said("they are typed", terminal.send("but 3"), "round 2, 1 table open: 3", "r2> ")
    assert [match[2] for match in read(played).stored[1]] == [before[0][2], before[1][2], None, before[3][2]]
    assert terminal.end()[0] == 0


# ---- what is taken back


def test_a_score_is_taken_back(prompt, played):
    event = read(played)
    match = event.stored[1][2]
    text = prompt.said(played, "take back 3", "n", "take back 3", "y", "open")
    shown = f"Round 2, table 3: {match_shown(event, match, match[2])}"
    check_said(
        "it asks",
        unfilled(text),
        f"{shown}. Take this score back? (y or n) n",
        "Nothing was taken back.",
        "(y or n) y",
        "To have it as it was: back ",
        "is open again.",
        "   3  ".strip(),
    )
    event.stored[1][2][2] = None
    after = read(played)
    assert (after.stored, after.names, after.dropped) == (event.stored, event.names, event.dropped)
    prompt.said(played, "3 2 1")
    assert read(played).stored[1][2][2] == (2, 1, 0)


def test_a_score_that_is_entered_again_gives_the_old_lists(prompt, program, played):
    before = lists(program, played)
    prompt.said(played, "take back 2", "y", "2 2 0")
    assert lists(program, played) == before


def test_what_has_no_score_to_take_back(prompt, played):
    rows = rows_alone(played)
    text = prompt.said(
        played, "take back 9", "take back 0", "take back", "take", "take back x", "take back qf1"
    )
    check_said(
        "it says so",
        text,
        "Round 2 has no table 9",
        "Round 2 has no table 0",
        *["Type what is to be taken back:"] * 4,
    )
    assert is_as_it_was(played, rows)
    prompt.said(played, "take back 1", "y")
    check_said("an open one", prompt.said(played, "take back 1"), "Table 1 of round 2 is open")


def test_a_drop_is_taken_back(prompt, program, played):
    before = lists(program, played)
    prompt.said(played, "drop 1", "y")
    text = prompt.said(played, "take back drop 1", "take back drop 2", "take back drop 8")
    check_said("it is", text, "P1 (1) is in again.", "P2 (2) has not dropped", "The event stays as it is.")
    assert lists(program, played) == before


def test_a_player_is_removed(prompt, program, played):
    """One who came late and was not paired. Whoever came after has a number less, and keeps the name that is shown."""
    before = lists(program, played)
    text = prompt.said(
        played, "enrol Wrong", "enrol Right", "rename 11 Righter", "remove 10", "y", "remove 1", "remove 77"
    )
    check_said(
        "removed",
        text,
        "Remove Wrong (10), as if never enrolled? (y or n) y",
        "Wrong (10) is removed.",
        "P1 (1) was paired. Who goes home drops: drop 1",
        "No player has number 77",
    )
    assert read(played).names[9:] == ["Right"]
    check_said("the shown name", prompt.said(played, "players"), "  10   Righter")
    prompt.said(played, "remove 10", "y")
    assert lists(program, played) == before


def test_a_player_is_removed_before_the_start(prompt, room):
    file = f"{room}/e.event"
    prompt.said(
        file,
        "init E 3 0",
        *(f"enrol {name}" for name in ("Ana", "Bo", "-x", "Lima, Ed")),
        "y",
        "remove 2",
        "y",
    )
    assert read(file).names == ["Ana", "-x", "Lima, Ed"]


def test_scores_of_the_playoff_are_taken_back(prompt, program, played):
    prompt.said(played, "plan 2 4", "cut", "y", "play sf1 2 0", "play sf2 0 2")
    before = lists(program, played)
    prompt.said(played, "play final 2 1")
    check_said(
        "an earlier one",
        prompt.said(played, "take back sf1"),
        "A match of a later stage has its score already.",
    )
    text = prompt.said(played, "take back final", "y")
    check_said(
        "the final",
        text,
        "Take this score back? (y or n) y",
        "To have it as it was: back ",
        "Open: final. Next: play final 2 0",
    )
    assert lists(program, played) == before
    check_said(
        "a semifinal", prompt.said(played, "take back sf1", "y", "open"), "Open: semifinal 1", "semifinal 1  "
    )
    assert [score for _, _, score in read(played).stages[0]] == [None, (0, 2, 0)]
    prompt.said(played, "play sf1 2 0")
    assert lists(program, played) == before


# ---- killed in the middle of the exchange


def test_killed_at_each_call_of_the_exchange(program, prompt, played, room):
    """FILE is the old event or the new one, whole, and the next exchange works."""
    os.mkdir(f"{room}/new")
    new = f"{room}/new/e.event"
    program.played(new, [("enrol", "Only"), ("enrol", "Two")])
    old_rows, new_rows = rows_alone(played), rows_alone(new)
    was, stop = [], 0
    while True:
        stop += 1
        file = f"{room}/{stop}.event"
        shutil.copy(played, file)
        was_killed = exchange_is_killed(file, new, stop)
        rows = rows_alone(file)
        assert rows in (old_rows, new_rows), f"killed before call {stop}"
        assert program.run("players", file)[0] == 0, f"killed before call {stop}, it opens"
        was.append(rows == new_rows)
        if not was_killed:
            break
    # first the old one and then the new one
    assert was == sorted(was) and len(was) > 8 and was[-1] and not was[0]


def test_nothing_is_taken_back_while_serve_has_the_file(prompt, played, serve):
    rows = rows_of(read(played), "E")
    served = serve(played, 1)
    text = prompt.said(played, "plan 4 4")
    check_said(
        "declined", text, "Another program has", "most often `serve` in another window", "End it by Ctrl-C"
    )
    assert "is played again" not in text
    served.kill()
    assert is_as_it_was(played, rows)
