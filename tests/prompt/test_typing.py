"""What people type at a busy table: short forms, other spellings, slips of the finger; and that nothing is misplaced by them."""
import os
import re
import shutil
import subprocess
import time

import pytest

from second_reading.plain_file import read
from tests.support.event_files import as_nobody
from tests.support.prompt import LETTERS, PYTHON, check_said, keys_of, match_shown, player_shown, unfilled
from tests.support.waiting import PATIENCE

NAMES = "Ana Lima", "Bo Sato", "Cy Young", "Di Ito"


def scores(file, number=1):
    return [score for _, _, score in read(file).stored[number - 1]]


@pytest.fixture
def begun(prompt, started):
    _, file = started(*NAMES)
    prompt.said(file, "pair")
    return file


# ---- results and corrections


def test_scores_in_each_form(prompt, started):
    _, file = started(*(f"P{number}" for number in range(1, 13)))
    prompt.said(file, "pair", "1 21", "2 id", "3 201", "4 2-0", "RESULT 5 0 2", "6 0 0 3")
    assert scores(file) == [(2, 1, 0), (0, 0, 3), (2, 0, 1), (2, 0, 0), (0, 2, 0), (0, 0, 3)]


def test_fix_of_the_newest_round(prompt, begun):
    """Three numbers are a table and a score."""
    prompt.said(begun, "1 2 0", "2 2 0")
    match = read(begun).stored[0][0]
    text = prompt.said(begun, "fix 1 0 2")
    check_said(
        "fix",
        text,
        "ok ",
        f"Round 1, table 1: {match_shown(read(begun), match, (0, 2, 0))}, in place of 2-0-0",
    )
    prompt.said(begun, "fix 2 12")
    assert scores(begun) == [(0, 2, 0), (1, 2, 0)]


def test_four_numbers_ask_which_table_is_meant(prompt, begun):
    """`fix 1 2 1 0` may be round 1, table 2, and may be table 1 with no game drawn."""
    prompt.said(begun, "1 0 2", "2 0 2")
    shown = match_shown(read(begun), read(begun).stored[0][1], (1, 0, 0))
    text = prompt.said(begun, "fix 1 2 1 0", "n")
    check_said(
        "it asks",
        text,
        f"Round 1, table 2: {shown}, in place of 0-2-0",
        "Replace it? (y or n) n",
        "Nothing was replaced.",
        "For table 1 of round 1: fix 1 1 2 1 0",
    )
    assert scores(begun) == [(0, 2, 0), (0, 2, 0)]
    check_said(
        "no such round",
        prompt.said(begun, "fix 2 0 0 1"),
        "Round 2 has no table 0.\nFor table 2 of round 1: fix 1 2 0 0 1\n",
    )
    prompt.said(begun, "fix 1 1 2 1 0", "fix 1 2 1 0", "y")
    assert scores(begun) == [(2, 1, 0), (1, 0, 0)]


def test_an_older_round_asks(prompt, begun):
    prompt.said(begun, "1 2 0", "2 2 0", "pair")
    check_said(
        "it asks",
        prompt.said(begun, "fix 1 1 0 2 0", "n"),
        "in place of 2-0-0",
        "Replace it? (y or n) n",
        "Nothing was replaced.",
    )
    assert scores(begun) == [(2, 0, 0), (2, 0, 0)]
    check_said("yes", prompt.said(begun, "fix 1 1 0 2 0", "y"), "Replace it? (y or n) y", "ok ")
    assert scores(begun) == [(0, 2, 0), (2, 0, 0)]


def test_what_is_refused_does_not_read_as_done(prompt, started):
    _, file = started(*NAMES, rounds=1, cut=2)
    text = prompt.said(file, "pair", "1 2 0", "2 2 0", "fix 1 2 2")
    check_said("fix", text, "No match ends so", "(refused 13 BadScore)\n")
    assert "2-2-0" not in text
    prompt.said(file, "cut", "y")
    text = prompt.said(file, "play final 2 2")
    check_said(
        "play", text, "Not stored: final: ", "No match of the playoff ends so", "(refused 13 BadScore)\n"
    )
    prompt.said(file, "play final 2 0")
    text = prompt.said(file, "play final 0 2")
    check_said("play again", text, "Not stored: final: ", "(refused 22 NotPlayoff)\n")


# ---- the playoff


def test_stages_by_their_names(prompt, started):
    names = [f"P{number}" for number in range(1, 9)]
    event, file = started(*names, rounds=1, cut=8)
    prompt.said(file, "pair", *(f"{table} 2 0" for table in range(1, 5)))
    text = prompt.said(file, "cut", "y", "where", "open")
    check_said(
        "what is open",
        unfilled(text),
        "open: quarterfinal 1, quarterfinal 2, quarterfinal 3, quarterfinal 4. Next: play qf1 2 0",
        "quarterfinal 1 P",
    )
    text = prompt.said(file, "play qf2 2 1", "play QF 1 20", "play quarterfinal 3 0 2", "play 1 4 2 0")
    check_said(
        "quarterfinals",
        text,
        "Quarterfinal 2: ",
        "Quarterfinal 1: ",
        "Quarterfinal 3: ",
        "Quarterfinal 4: ",
        "Open: semifinal 1, semifinal 2. Next: play sf1 2 0",
    )
    assert [score for _, _, score in read(file).stages[0]] == [(2, 0, 0), (2, 1, 0), (0, 2, 0), (2, 0, 0)]
    text = prompt.said(
        file, "play sf1 2 0", "play semi 2 1 2", "play final 1 2 0", "n", "play final 1 2", "where"
    )
    check_said(
        "to the champion",
        unfilled(text),
        "Semifinal 1: ",
        "Semifinal 2: ",
        "Is this the score? (y or n) n",
        "Final: ",
        "The champion is ",
        ". See: final",
    )
    assert [score for _, _, score in read(file).stages[2]] == [(1, 2, 0)]
    text = prompt.said(file, "final 2", "final x")
    assert (
        re.findall(r"^ +\d+  P\d \(\d\)$", text, re.M) == re.findall(r"^ +[12]  P\d \(\d\)$", text, re.M)
        and "Type numbers, such as final 8" in text
    )
    text = prompt.said(file, f"who {read(file).stages[2][0][0]}")
    check_said("who", text, "quarterfinal ", "semifinal ", "final: ")
    assert text.count("table ") == 1, "a seat of the round before the playoff"
    check_said(
        "copies",
        prompt.said(file, "back"),
        "before the score of quarterfinal 2",
        "before the score of semifinal 1",
        "before the score of the final",
    )


def test_a_stage_that_the_playoff_has_not(prompt, started):
    _, file = started(*NAMES, rounds=1, cut=2)
    prompt.said(file, "pair", "1 2 0", "2 2 0", "cut", "y")
    check_said(
        "no quarterfinal",
        prompt.said(file, "play qf1 2 0"),
        "This playoff begins with the final. See: bracket",
    )
    assert read(file).stages[0][0][2] is None


# ---- lists that are longer than the screen


def test_what_is_out_of_sight_is_said_again(prompt, room):
    """At a terminal of 24 rows the last lines say what the first ones did; in a pipe nothing is out of sight."""
    file, names = f"{room}/e.event", [f"P{number}" for number in range(1, 51)]
    with open(f"{room}/fifty.csv", "w") as it:
        it.write("\n".join(["Name", *names, "P1"]) + "\n")
    prompt.said(file, "init Friday 3 2")
    terminal = prompt.terminal(file)
    said = terminal.send(f"import {room}/fifty.csv")
    check_said(
        "a list of players",
        unfilled(said),
        "Left out:",
        f"{room}/fifty.csv, UTF-8, the column Name: 50 to enrol, 1 left out Enrol 50 players?",
    )
    terminal.send("y")
    check_said("the players", terminal.send("players"), "  50   P50\n50 players. Some of them: who an\n")
    terminal.send("start")
    terminal.send("y")
    check_said(
        "a pairing",
        terminal.send("pair"),
        f"{keys_of(file)[-1][1].hex()}\nRound 1 is paired: 25 tables. All of it: round, or print names\n",
    )
    check_said(
        "a round", terminal.send("round 1"), "These are the tables of round 1. On paper: print tables\n"
    )
    check_said("what is open", terminal.send("open"), "  25  ", "Round 1, 25 tables open: 1-25\n")
    said = unfilled(terminal.send("standings"))
    check_said(
        "standings",
        said,
        "These are the standings before round 1 is complete. The first eight: standings top 8",
    )
    assert "These are" not in terminal.send("standings 8")
    prompt.said(
        file,
        *(f"{table} 2 0" for table in range(1, 26)),
        "drop 1",
        "y",
        "plan 1 2",
        "cut",
        "y",
        "play final 2 0",
    )
    # what another window did is told above the line, at any time, and is no answer to what is typed next
    assert "nother window" in unfilled(terminal.read_for(b"playoff> "))
    check_said(
        "standings after a round",
        unfilled(terminal.send("standings")),
        "These are the standings after round 1. The first eight: standings top 8",
    )
    champion = player_shown(read(file), read(file).stages[0][0][0])
    said = terminal.send("final")
    check_said(
        "the final ranking",
        unfilled(said),
        f"This is the final ranking. The champion is {champion}. The first eight: final 8",
    )
    assert "This is" not in terminal.send("final 8") and "These are" not in prompt.said(
        file, "standings", "final", "round 1"
    )
    assert terminal.end()[0] == 0


# ---- players


def test_names_are_tidied_and_found(prompt, room):
    file = f"{room}/e.event"
    text = prompt.said(
        file,
        "init E 3 0",
        "enrol Ann Two",
        "enrol Ann  Two",
        "enrol Ann\u00a0Two",
        "ENROLL Łukasz Nowak",
        "enrol Sean O’Brien",
    )
    assert text.count("(refused 2 NameTaken)") == 2
    assert read(file).names == ["Ann Two", "Łukasz Nowak", "Sean O’Brien"]
    for typed, name in (
        ("lukasz", "Łukasz Nowak"),
        ("nowak lukasz", "Łukasz Nowak"),
        ("obrien", "Sean O’Brien"),
        ("o'brien", "Sean O’Brien"),
    ):
        check_said(typed, prompt.said(file, f"who {typed}"), f"   {name}\n")


def test_several_names_in_a_line_are_asked_for(prompt, room):
    file = f"{room}/e.event"
    text = prompt.said(file, "init E 3 0", "enrol Ana, Bo, Cy", "n", "enrol Lima, Ed", "y")
    check_said(
        "it asks",
        text,
        "Is Ana, Bo, Cy one player",
        "(y or n) n",
        "Nobody was enrolled. Type one name a line, as: enrol Ana",
        "(y or n) y",
        "Lima, Ed (1) is enrolled.",
    )
    assert read(file).names == ["Lima, Ed"]


def test_rename_says_who_that_was(prompt, started):
    _, file = started("Björn Åström", "Łukasz Kovalski")
    check_said(
        "it asks",
        prompt.said(file, "rename 1 Łukasz Kowalski", "n"),
        "Number 1 is Björn Åström. Is Łukasz Kowalski the right name?",
        "(y or n) n",
        "Nobody was renamed.",
    )
    check_said(
        "a misspelt one",
        prompt.said(file, "rename 2 Łukasz Kowalski"),
        "Łukasz Kovalski (2) is shown as Łukasz Kowalski from now on.",
    )
    check_said("nobody", prompt.said(file, "rename 9 X"), "No player has number 9")


def test_several_drop(prompt, begun):
    check_said(
        "it asks once",
        prompt.said(begun, "1 2 0", "2 2 0", "drop 1 3, 4", "y"),
        "Drop Ana Lima (1), Cy Young (3), Di Ito (4)?",
        "Ana Lima (1) is dropped.",
        "Di Ito (4) is dropped.",
    )
    assert read(begun).dropped == {1, 3, 4}
    befores = [name for name in sorted(os.listdir(f"{begun}.copies")) if "drop" in name]
    assert [name.rsplit("-", 1)[1] for name in befores] == ["1.event", "3.event", "4.event"]


def test_who_finds_one_with_all_matches(prompt, begun):
    """And with rank and points, once a round is complete."""
    event = read(begun)
    table = next(place for place, match in enumerate(event.stored[0], 1) if 1 in match[:2])
    first, second = (player_shown(event, number) for number in event.stored[0][table - 1][:2])
    text = prompt.said(begun, "who lim")
    check_said("who", text, "   1   Ana Lima", f"  round 1, table {table}: {first} - {second}")
    assert "rank" not in text
    text = prompt.said(begun, "1 2 0", "2 0 2", "who lim")
    rank, _, points, *_ = next(line for line in read(begun).standings() if line.endswith("Ana Lima")).split()
    check_said("rank and points", text, f"  rank {rank} with {points} points\n  round 1, table {table}: ")


def test_drop_is_not_asked_for_what_is_refused(prompt, started):
    _, file = started(*NAMES, rounds=1, cut=2)
    prompt.said(file, "pair", "1 2 0", "2 2 0", "cut", "y")
    text = prompt.said(file, "drop 1")
    assert "(y or n)" not in text
    check_said("drop in the playoff", text, "nobody drops any more", "(refused 6 NotSwiss)")


def test_a_file_with_spaces_goes_into_quotes(prompt):
    ran = subprocess.run(
        [*PYTHON, prompt.desk, "my", "event.event"], capture_output=True, timeout=PATIENCE, env=LETTERS
    )
    assert (ran.returncode, b"event-desk 'my event.event'" in ran.stderr) == (2, True)


# ---- the clock


def kept_clock(file):
    """When it ends, in minutes from now, and how long it is."""
    if not os.path.exists(f"{file}.clock"):
        return None
    with open(f"{file}.clock") as it:
        until, minutes = re.fullmatch("until ([0-9]+) of ([0-9]+)\n", it.read()).groups()
    return round((int(until) - time.time()) / 60), int(minutes)


def test_the_clock_of_a_round_ends_with_the_next(prompt, begun):
    prompt.said(begun, "clock 50min", "clock +3")
    assert kept_clock(begun) == (53, 50)
    text = prompt.said(begun, "1 2 0", "2 2 0", "pair")
    check_said("pair ends it", text, "The clock of the round before is off. For this one: clock 50")
    assert kept_clock(begun) is None
    check_said("pair starts it", prompt.said(begun, "1 2 0", "2 2 0", "pair 45"), "The clock runs: 45 min")
    assert kept_clock(begun) == (45, 45)
    check_said("no clock", prompt.said(begun, "clock off", "clock +3"), "No clock runs.", "No clock runs.")
    check_said(
        "it asks for minutes",
        prompt.said(begun, "clock x", "clock 0"),
        "Type minutes, such as clock 50",
        "1 to 600 minutes",
    )


def test_the_clock_ends_with_the_cut(prompt, started):
    _, file = started(*NAMES, rounds=1, cut=2)
    prompt.said(file, "pair", "clock 50", "1 2 0", "2 2 0", "cut", "y")
    assert kept_clock(file) is None


def test_a_pairing_that_is_refused_leaves_the_clock(prompt, begun):
    prompt.said(begun, "clock 50", "pair 30")
    assert kept_clock(begun) == (50, 50)


# ---- words


def test_words_that_take_nothing(prompt, begun):
    words = (
        "players",
        "bracket",
        "cut",
        "start",
        "where",
        "migrate",
        "undo",
        "copies",
        "keys",
        "open",
        "phones",
        "quit",
    )
    text = prompt.said(begun, *(f"{word} 4" for word in words))
    check_said(
        "they say so", text, *(f"{word} takes nothing after it. To do it, type: {word}\n" for word in words)
    )
    assert read(begun).serial == 6


def test_standings_of_a_round_and_the_first(prompt, begun):
    prompt.said(begun, "1 2 0", "2 2 1")
    after_first = read(begun).standings()
    prompt.said(begun, "pair", "1 0 2", "2 0 2")
    check_said(
        "after round 1",
        prompt.said(begun, "standings 1"),
        "After round 1, as they stood when round 2 was paired (copy 2):\n",
        "\n".join(after_first),
    )
    check_said("the same", prompt.said(begun, "standings after 1"), "\n".join(after_first))
    now = read(begun).standings()
    check_said("after the last one", prompt.said(begun, "standings 2"), "After round 2:\n", "\n".join(now))
    text = prompt.said(begun, "standings 3", "standings top 2")
    check_said(
        "the first three",
        text,
        "The first 3 of 4:\n",
        "\n".join(now[:4]),
        "The first 2 of 4:\n",
        "\n".join(now[:3]),
    )
    assert text.count("\n".join(now)) == 0


def test_capitals_and_help_by_the_phase(prompt, room):
    file = f"{room}/friday.event"
    text = prompt.said(file, "help")
    check_said(
        "where there is none",
        text,
        f"{file} is new. Begin with its name, the rounds and the cut, as:\ninit Friday 6 8\n",
        "init NAME ROUNDS CUT",
    )
    text = prompt.said(
        file, "Init Friday 1 2", *(f"enrol {name}" for name in NAMES), "Help", "START", "Pair", "help"
    )
    check_said(
        "capitals",
        text,
        "ok 0",
        "import names.csv",
        "Next: pair",
        "Show it to the players",
        "17 2 1             the result of table 17",
    )
    check_said(
        "the playoff",
        prompt.said(file, "1 2 0", "2 2 0", "cut", "y", "help"),
        "play qf2 2 1       the score of quarterfinal 2",
    )
    assert len(keys_of(file)) == 1


def test_a_word_that_is_near_to_none(prompt, begun):
    text = prompt.said(begun, "timer", "next", "standing", "pairr")
    check_said(
        "guesses",
        text,
        "timer is no command. See: help",
        "next is no command. See: help",
        "Is it standings?",
        "Is it pair?",
    )


def test_a_folder_that_nobody_may_write(prompt, room):
    """It is not called another program's."""
    folder = f"{room}/no"
    os.mkdir(folder)
    os.chmod(room, 0o755)
    os.chmod(folder, 0o555)
    become = {"preexec_fn": as_nobody} if os.geteuid() == 0 else {}
    ran = subprocess.run(
        prompt.words(f"{folder}/e.event"),
        input=b"init A 1 0\n",
        capture_output=True,
        timeout=PATIENCE,
        env=LETTERS,
        **become,
    )
    text = ran.stdout.decode()
    check_said(
        "it says so", text, f"You may not write into the folder {folder}.", "event-desk ~/friday.event"
    )
    assert "another program" not in text


def test_the_name_of_an_event_whose_file_alone_was_copied(prompt, begun, room):
    prompt.said(begun, "where")
    shutil.copy(begun, f"{room}/other.event")
    check_said(
        "its name", prompt.said(f"{room}/other.event", "where"), f"E ({room}/other.event), Swiss rounds"
    )


# ---- copies


def test_copy_after_rename(prompt, begun):
    text = prompt.said(begun, "copy", "rename 1 Anna Lima", "copy")
    assert text.count("Copied, and opened: ") == 2, text


def beside(folder):
    return sorted(re.sub(r"^e\.event", "", name) for name in os.listdir(folder))


def test_copies_go_to_a_second_place(prompt, begun, room):
    """The one that is made now, and each that is made from then on, with what lies beside the event."""
    stick = f"{room}/stick"
    os.mkdir(stick)
    text = prompt.said(begun, f"copy {stick}", "1 2 0", "2 2 0", "pair", "drop 1", "y")
    check_said(
        "it says so",
        text,
        "Copied, and opened: ",
        f"Copied, and opened: {stick}/e.event.copies/0002-",
        "From now on each copy goes there too. To end that: copy off",
    )
    folders = sorted(os.listdir(f"{stick}/e.event.copies"))
    assert [re.sub(r"^(\d+)-\d+-\d+-", r"\1 ", name) for name in folders] == [
        "0002 copy",
        "0003 before-pair-2",
        "0004 before-drop-1",
    ]
    for folder, stored in zip(folders, (1, 1, 2)):
        assert len(read(f"{stick}/e.event.copies/{folder}/e.event").stored) == stored, folder
    last = f"{stick}/e.event.copies/{folders[-1]}"
    assert beside(last) == ["", ".keys"]
    with open(f"{last}/e.event.keys") as kept, open(f"{begun}.keys") as own:
        assert kept.read() == own.read()
    check_said("one goes on from it", prompt.said(f"{last}/e.event", "open"), "round 2, 2 tables open")
    # a refused command leaves none, and neither does `copy off`
    prompt.said(begun, "pair", "copy off", "drop 2", "y")
    assert len(os.listdir(f"{stick}/e.event.copies")) == 3


def test_a_second_place_that_is_gone_is_told_once_a_round(prompt, begun, room):
    stick = f"{room}/stick"
    os.mkdir(stick)
    prompt.said(begun, f"copy {stick}")
    os.rename(stick, f"{stick}.pulled")
    text = prompt.said(begun, "1 2 0", "2 2 0", "pair", "drop 1", "y", "drop 2", "y")
    assert text.count(f"No copy was made at {stick}: the disk is not there.") == 2, text
    check_said("the event goes on", text, "ok ", "is dropped.")
    check_said(
        "no such folder",
        prompt.said(begun, f"copy {room}/nowhere"),
        f"There is no folder {room}/nowhere.",
        "ls /media/*",
    )
