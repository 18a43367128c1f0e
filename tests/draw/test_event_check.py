"""`event-check`, a second reading of drawn rounds and of standings, which never calls the program: what it takes, what it finds, and what it says of an
evening on which nothing is wrong. What somebody might try at the table is tried here on the texts.
"""
import os
import subprocess
import sys

import pytest

from second_reading import event_check
from second_reading.plain_csv import players_rows, results_rows, written
from second_reading.plain_draw import (
    FIRST,
    TOLD,
    WRONG,
    NoText,
    Text,
    is_number,
    key_of,
    read_of,
    report,
    sha256,
)
from tests.support.drawn_evenings import begun, can_be_paired, changes, drawn_evening, text_bytes
from tests.support.prompt import unfilled
from tests.support.random_evenings import laid, report_round
from tests.support.waiting import PATIENCE
from tools import TOP

CASES = {"case": (25, 1000)}
SEVEN = [f"P{number}" for number in range(1, 8)]
NUMBER = "3 8 11 17"
CHANGES = 10_000


@pytest.fixture
def seven():
    return text_bytes(begun(SEVEN), 1, 1, FIRST, NUMBER)


@pytest.fixture
def evening(dice):
    """The texts of four rounds of seven players; the second round was drawn twice."""
    event, found, after = begun(SEVEN, 4), [], FIRST
    for number, drawing in ((1, 1), (2, 1), (2, 2), (3, 1), (4, 1)):
        drawn = f"{number} 8 11 17"
        found.append(text_bytes(event, number, drawing, after, drawn))
        after = sha256(found[-1])
        if (number, drawing) != (2, 1):
            assert event.pair(number, bytes.fromhex(key_of(number, drawn)))[0].startswith("ok ")
            report_round(dice, event)
    return found


def said_of(*texts, is_whole=True):
    return [line for _, said in report([Text(it) for it in texts], is_whole) for line in said]


def wrong_in(*texts, is_whole=True):
    return [words for kind, words in said_of(*texts, is_whole=is_whole) if kind == WRONG]


@pytest.fixture
def checked(capsys):
    """The status of the command, and what it says."""

    def check(*words):
        status = event_check.main([str(it) for it in words])
        said = capsys.readouterr()
        return status, said.out + said.err

    return check


@pytest.fixture
def files(room):
    """Texts as files of a folder."""

    def write(*texts):
        for number, text in enumerate(texts, 1):
            with open(f"{room}/{number}.txt", "wb") as it:
                it.write(text)
        return [f"{room}/{number}.txt" for number in range(1, len(texts) + 1)]

    return write


# ---- as the documents have it, to the byte


def test_keys():
    assert key_of(1, "1 1 1 1") == "57aa33b8c676ff7443a4f72446665cab0562c9678c3b68d8b73239823b71a776"
    assert key_of(3, NUMBER) == "5bafb8cd4c77e4ad54fb527649a9592acdc22a37c3de270d9743594c6cabf71b"
    assert key_of(12, "20 20 20 20") == "c7527eb8a2957183a08e48af68a9f4fb7114935c7686d6ab4b806f18e5b8d444"
    assert key_of(4, "815 4711") == "844f0cbd8d14ebba8077424461a570ce39ad89a55ecb0ace3e005e452b1fbd40"
    assert is_number("815 4711") and is_number(NUMBER) and is_number(" ".join(["1"] * 20))
    wrong = (
        "4711 815",
        "17 3 8 11",
        "0",
        "07",
        "1000000",
        "-1",
        "\u0661",
        " ".join(["1"] * 21),
        "",
        "1  2",
        " 1",
        "1 ",
    )
    assert [it for it in wrong if is_number(it)] == []


def test_the_text_of_seven_players(seven):
    text = Text(seven)
    assert (text.sum, text.mark) == (
        "5d014256fdbc02910c032a167689ab331067849aef87354364eb3751b54dde66",
        "63b9acf9fd09825e956fe9a626a5703aa4a3d003dc9ff309414f1ff866d28902",
    )
    assert text.seats == [[2, 3], [5, 1], [4, 7], [6, 0]]
    again = text_bytes(begun(SEVEN), 1, 2, text.sum, NUMBER)
    assert sha256(again) == "214aae08fca831125c52be78de8a715a51dd9869627c4ab839209364a7e90807"
    assert wrong_in(seven, again) == []
    assert (TOLD, "since drawing 1 nothing has changed in its lists") in said_of(seven, again)


@pytest.mark.parametrize(
    "word, mark, tables, told",
    [
        (
            "Al",
            "b6400c6d7f5e8dad3cc4715758add21a00e9379bf4db631b88af8e3645e9d406",
            [[2, 3], [5, 1], [4, 7], [6, 0]],
            "player 8 came, and dropped",
        ),
        (
            "",
            "53395867297d3bf14a10c3703f5d75e8bf7644431a0a61386d7666477fcfa629",
            [[2, 4], [6, 1], [5, 7]],
            "player 3 dropped",
        ),
    ],
)
def test_lists_that_changed_since_the_throw(seven, word, mark, tables, told):
    """The key is the same, and who is otherwise is named."""
    event = begun(SEVEN)
    if word:
        event.enrol(word)
    event.drop(8 if word else 3)
    text = Text(text_bytes(event, 1, 2, sha256(seven), NUMBER))
    assert (text.mark, text.key, text.seats) == (mark, Text(seven).key, tables)
    assert wrong_in(seven, text.data) == []
    assert (TOLD, f"since drawing 1 {told}") in said_of(seven, text.data)


def test_names_that_look_like_a_part_of_a_text():
    event = begun(["Bo\u20297,Zed", "results.csv", "Cy\u0085X", '"q"'])
    text = Text(text_bytes(event, 1, 1, FIRST, NUMBER))
    assert (len(text.seats), wrong_in(text.data)) == (2, [])


# ---- changed texts


def is_found(changed, following):
    """By its own reader, or by the text that follows on it."""
    try:
        text = Text(changed)
    except NoText:
        return "reader"
    return (
        "reader"
        if any(kind == WRONG for kind, _ in read_of(text))
        else "next"
        if Text(following).after != text.sum
        else ""
    )


def test_ten_thousand_single_changes_are_found(dice, evening):
    found = [
        is_found(changed, evening[at + 1])
        for at in (0, 2)
        for changed in changes(dice, evening[at], CHANGES // 2 + 300)
    ]
    assert len(found) >= CHANGES
    assert "" not in found
    # what stands for itself is found by the texts beside it: drawing, after, by, instead
    assert 0 < found.count("next") < len(found) // 50


def test_texts_that_are_exchanged_left_out_or_written_otherwise(evening):
    assert wrong_in(*evening) == []
    # the order in which they are named does not count
    assert wrong_in(*reversed(evening)) == []
    for at in range(len(evening) - 1):
        assert any(
            "it does not follow on the text before it" in it
            for it in wrong_in(*evening[:at], *evening[at + 1 :])
        )
    for wrong in (
        evening[0].replace(b"\n", b"\r\n"),
        b"\xef\xbb\xbf" + evening[0],
        evening[0] + b"end\n",
        evening[0] + b"\n",
        evening[0][:-1],
        b"",
        evening[0].upper(),
    ):
        with pytest.raises(NoText):
            Text(wrong)


def test_the_first_of_some_texts_may_follow_on_one_that_is_not_here(evening):
    assert wrong_in(*evening[1:], is_whole=False) == []
    assert (TOLD, f"it follows on a text that is not here, {Text(evening[1]).after[:16]}") in said_of(
        *evening[1:], is_whole=False
    )


# ---- what somebody might try


def forged(text, **head):
    """A text with other lines in its head, and with the mark, key and tables that they would give."""
    old = Text(text)
    words = {
        "after": old.after,
        "drawn": old.number,
        "by": old.by,
        "instead": old.instead,
        "drawing": old.drawing,
        **head,
    }
    return text_bytes(
        old.event, old.round, words["drawing"], words["after"], words["drawn"], words["by"], words["instead"]
    )


def test_another_number_for_a_second_drawing(seven):
    other = text_bytes(begun(SEVEN), 1, 2, sha256(seven), "5 5 5 5")
    assert wrong_in(seven, other) == [
        f"an earlier drawing of round 1 had the number {NUMBER}, and a number is for good"
    ]


def test_a_mistyped_number_is_asked_for(seven):
    other = text_bytes(begun(SEVEN), 1, 2, sha256(seven), "3 8 12 17", "-", NUMBER)
    assert wrong_in(seven, other) == []
    assert ("is that so?", f"{NUMBER} was mistyped, and never thrown for this round") in said_of(seven, other)


def test_a_number_that_was_not_thrown_can_only_be_asked_for(seven):
    """Whoever was there knows. That nobody looks isn't stopped."""
    assert wrong_in(forged(seven, drawn="5 5 5 5")) == []
    assert ("is that so?", "5 5 5 5 was thrown. Whoever was there knows") in said_of(
        forged(seven, drawn="5 5 5 5")
    )


def test_a_key_of_the_scorekeepers_own(seven):
    old = Text(seven)
    grown = seven.replace(old.key.encode(), b"ab" * 32)
    assert [it for it in wrong_in(grown) if "key" in it][
        0
    ] == f"its key does not follow from round 1 and the number {NUMBER}"
    assert any(
        "KEY CHOSEN BY THE SCOREKEEPER" in words
        for _, words in said_of(grown.replace(f"number {NUMBER}".encode(), b"number -"))
    )


def test_tables_that_the_scorekeeper_likes_better(seven):
    swapped = seven.replace(b"1,1,2,3,,,\n1,2,5,1,,,", b"1,1,2,1,,,\n1,2,5,3,,,")
    assert wrong_in(swapped) == ["its tables are not those that the rules give to its lists by its key"]


def test_lists_that_were_changed_under_their_mark(seven):
    assert "its lists are not those of its mark, 63b9acf9fd09825e" in wrong_in(
        seven.replace(b"3,P3,0", b"3,P3,1").replace(b"1,1,2,3,,,", b"1,1,2,3,,,")
    )


def test_a_round_that_was_played_at_other_tables(evening):
    """Text and event each make sense, and one of them isn't so."""
    old = Text(evening[3])
    one, other = old.event.stored[0][0], old.event.stored[0][1]
    one[1], other[1] = other[1], one[1]
    if can_be_paired(old.event, 3, old.number):
        changed = text_bytes(old.event, 3, 1, old.after, old.number)
        assert "round 1 was not played at the tables that were drawn" in wrong_in(*evening[:3], changed)


def test_a_folder_that_was_written_anew(evening):
    """Another number in the first text, and all that follows written anew: only somebody who has a digit of the last one can tell."""
    rewritten, after = [], FIRST
    for at, text in enumerate(evening[:1]):
        rewritten.append(forged(text, after=after, drawn="9 9 9 9"))
        after = sha256(rewritten[-1])
    assert wrong_in(*rewritten) == []
    assert any("does not follow" in it for it in wrong_in(*rewritten, evening[1]))
    assert sha256(rewritten[-1])[:16] != sha256(evening[0])[:16]


def test_a_correction_made_since_is_no_alarm(dice):
    event = begun(SEVEN, 3)
    one = text_bytes(event, 1, 1, FIRST, NUMBER)
    event.pair(1, bytes.fromhex(key_of(1, NUMBER)))
    for table in (1, 2, 3):
        event.report(1, table, (2, 0, 0), True)
    two = text_bytes(event, 2, 1, sha256(one), NUMBER)
    event.pair(2, bytes.fromhex(key_of(2, NUMBER)))
    for table in (1, 2, 3):
        event.report(2, table, (2, 1, 0), True)
    event.report(1, 2, (0, 2, 0), False)
    three = text_bytes(event, 3, 1, sha256(two), NUMBER)
    assert wrong_in(one, two, three) == []
    assert (TOLD, "since round 2 was drawn, round 1, table 2: 2-0-0 became 0-2-0") in said_of(one, two, three)


def test_an_honest_evening_gives_no_alarm(dice, case):
    texts = [text for text, _ in drawn_evening(dice, dice.randint(2, 33), dice.randint(1, 6))]
    assert wrong_in(*texts) == []
    assert wrong_in(*texts[dice.randrange(len(texts)) :], is_whole=False) == [] if texts else True


# ---- the command


def test_texts_as_files(checked, files, evening):
    paths = files(*evening)
    status, said = checked(*paths)
    assert (status, "WRONG" in said) == (0, False)
    assert (
        "round 2, drawing 2" in said and "is that so?: 1 8 11 17 was thrown. Whoever was there knows" in said
    )
    assert said.endswith(
        "\nChecked: 5 texts of rounds. Nothing is wrong.\n5 questions to those who were there: is that so?\n"
    )
    status, said = checked(paths[1], paths[0])
    assert (status, "round 2, drawing 1 (" in said) == (0, True)
    status, said = checked(paths[0], paths[3])
    assert (status, "WRONG: it does not follow on the text before it, round 1, drawing 1" in said) == (
        1,
        True,
    )
    assert "\nChecked: 2 texts of rounds. WRONG: round 3, drawing 1. See there.\n" in said


def test_what_is_no_text_is_never_silence(checked, room):
    for number, data in enumerate((b"", b"hello\n", b"event_reporter draw 2\n", b"\x00\xff")):
        path = f"{room}/{number}"
        with open(path, "wb") as it:
            it.write(data)
        status, said = checked(path)
        assert (status, f"{path}\n  WRONG: no text of a round: " in said) == (1, True)


def test_an_event_with_what_lies_beside_it(program, checked, room, evening):
    texts = [Text(it) for it in evening]
    event = texts[-1].event
    file = laid(program.path, f"{room}/e.event", event, "E")
    folder = f"{file}.draws"
    os.mkdir(folder)
    for text in texts:
        with open(f"{folder}/round-{text.round}-{text.drawing}.txt", "wb") as it:
            it.write(text.data)
        with open(f"{folder}/round-{text.round}-{text.drawing}.shut", "wb") as it:
            it.write(b"players.csv\n" + text.players + b"results.csv\n" + text.results)
    with open(f"{folder}/numbers", "w") as it:
        it.writelines(f"round {text.round} {text.number}\n" for text in texts if text.drawing == 1)
    with open(f"{folder}/rule", "w") as it:
        it.write("each 4d20\n")
    status, said = checked(file)
    assert (status, "WRONG" in said) == (0, False), said
    assert "round 3 in the event\n  right: it has the tables of round 3, drawing 1" in said
    assert checked(room)[0] == checked(folder)[0] == 0, "by its folder, and by FILE.draws alone"
    # the draw was ended after these rounds
    with open(f"{folder}/rule", "w") as it:
        it.write("off after each 4d20\n")
    assert checked(file)[0] == 0
    # a number that was not kept, an evening of another rule, a text that is gone
    for rule in ("off after each 5d10", "off after once 4d20"):
        with open(f"{folder}/rule", "w") as it:
            it.write(f"{rule}\n")
        assert checked(file)[0] == 1, rule
    with open(f"{folder}/rule", "w") as it:
        it.write("each 5d10\n")
    assert "WRONG: the number 1 8 11 17 is none by the rule of the evening, each 5d10" in checked(file)[1]
    with open(f"{folder}/rule", "w") as it:
        it.write("each 4d20\n")
    with open(f"{folder}/numbers", "w") as it:
        it.writelines(
            ["round 1 1 8 11 17\n", "round 2 2 8 11 17\n", "round 3 1 1 1 1\n", "round 3 3 8 11 17\n"]
        )
    status, said = checked(file)
    assert status == 1
    assert "WRONG: the number 4 8 11 17 was not kept before the key was made" in said
    assert "WRONG: an earlier number of the round is not told: 1 1 1 1" in said
    os.unlink(f"{folder}/round-2-1.txt")
    status, said = checked(file)
    assert "since drawing 1 nothing has changed" in said, "by the lists that were shut"
    assert "WRONG: it does not follow on the text before it, round 1, drawing 1" in said


def test_an_event_that_was_not_drawn(program, checked, room, dice):
    event = begun(SEVEN)
    event.pair(1, bytes(32))
    report_round(dice, event)
    file = laid(program.path, f"{room}/e.event", event, "E")
    with open(f"{file}.keys", "w") as it:
        it.write(f"round 1 {'0' * 64}\n")
    status, said = checked(file)
    assert (status, said) == (
        0,
        "round 1 in the event\n  told: KEY CHOSEN BY THE SCOREKEEPER: it has no text\n  right: as the rules pair it by its key\nChecked: 1 round in the event. Nothing is wrong.\n",
    )
    with open(f"{file}.keys", "w") as it:
        it.write("")
    status, said = checked(file)
    assert (
        status,
        unfilled(said).endswith(
            "Checked: 1 round in the event. Not shown to be right: round 1 in the event. See there."
        ),
    ) == (0, True)


def test_standings_and_the_working_behind_them(program, checked, room, dice):
    text, event = drawn_evening(dice, 12, 4)[-1]
    file = laid(program.path, f"{room}/e.event", event, "E")
    lists = {
        "players": written(players_rows(event)),
        "results": written(results_rows(event)),
        "standings": program.did("standings", file),
    }
    for kind, data in lists.items():
        with open(f"{room}/{kind}", "wb") as it:
            it.write(data)
    right = "right: they are those of the rules, by the results as they are now"
    said = checked(file, f"{room}/standings")[1]
    assert right in said and "\nChecked: 3 rounds in the event, 1 list of standings." in said
    status, said = checked(f"{room}/players", f"{room}/results", f"{room}/standings", "--who", "3")
    assert (status, right in said) == (0, True)
    row = next(line.split() for line in event.standings()[1:] if line.split()[1] == "3")
    assert f"(3): rank {row[0]}. Points: {row[2]}, rounds: " in said
    assert [said.count(f"= {share}") > 0 for share in row[3:6]] == [True] * 3
    assert said.endswith(
        "\n  no MWP or GWP counts as less than 33\nChecked: 1 list of standings. Nothing is wrong.\n"
    )
    with open(f"{room}/standings", "wb") as it:
        it.write(lists["standings"].replace(b"33.00", b"33.33", 1))
    status, said = checked(f"{room}/players", f"{room}/results", f"{room}/standings")
    assert (status, "WRONG: they are not those of the rules" in said) == (1, True)
    assert unfilled(said).endswith(f"WRONG: standings ({room}/standings). See there.")
    for words in (
        (f"{room}/standings",),
        (f"{room}/players",),
        (file, "--who", "99"),
        (f"{room}/players", f"{room}/results", "--who", "0x1"),
    ):
        if words[-1] == "0x1":
            continue
        assert checked(*words)[0] == 1


def test_words_that_are_not_understood(room):
    for words, status in (((), 2), ((f"{room}/none",), 2), (("--who", "x", room), 2), (("--help",), 0)):
        ran = subprocess.run(["bash", f"{TOP}/scripts/check", *words], capture_output=True, timeout=PATIENCE)
        assert (ran.returncode, b"Traceback" in ran.stderr) == (status, False)


def test_it_calls_nothing_and_needs_nothing_beside_the_standard_library(files, seven):
    """With nothing on the PATH, and without the folders of packages."""
    (path,) = files(seven)
    ran = subprocess.run(
        [sys.executable, "-S", "-B", f"{TOP}/companions/bin/event-check", path],
        capture_output=True,
        env={"PATH": "/nowhere"},
        timeout=PATIENCE,
    )
    assert (ran.returncode, ran.stderr) == (0, b"")
