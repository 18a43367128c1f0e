"""Rounds that are drawn, at the prompt: the bytes that docs/RULES.md has, what is declined, what is kept when the machine stops, and that nothing but
round and number ever chooses a key.
"""
import glob
import hashlib
import itertools
import os
import shutil

import pytest

from second_reading import event_check
from second_reading.plain_event import printed
from second_reading.plain_file import read
from tests.support.prompt import check_said, keys_of, unfilled
from tests.support.traced import can_trace, is_killed_in, killing, system_calls

pytestmark = pytest.mark.inside
SEVEN = tuple(f"P{number}" for number in range(1, 8))
FOUR = "Ana", "Bo", "Cy", "Di"
FIRST = "5d014256fdbc02910c032a167689ab331067849aef87354364eb3751b54dde66"
SECOND = "214aae08fca831125c52be78de8a715a51dd9869627c4ab839209364a7e90807"
MARK = "63b9acf9fd09825e956fe9a626a5703aa4a3d003dc9ff309414f1ff866d28902"
NUMBER = "3 8 11 17"


def text_of(file, number, drawing=1):
    with open(f"{file}.draws/round-{number}-{drawing}.txt", "rb") as kept:
        return kept.read()


def sum_of(file, number, drawing=1):
    return hashlib.sha256(text_of(file, number, drawing)).hexdigest()


def lines_of(text):
    """The head of a text, by the words of its lines."""
    return dict(line.split(" ", 1) for line in text.decode().split("\n")[1:9])


def numbers_of(file):
    if not os.path.exists(f"{file}.draws/numbers"):
        return []
    with open(f"{file}.draws/numbers") as kept:
        return kept.read().splitlines()


def key_of(number, drawn):
    return hashlib.sha256(f"event_reporter draw 2\nround {number}\nnumber {drawn}\n".encode()).hexdigest()


def seats(file, number):
    return [match[:2] for match in read(file).stored[number - 1]]


@pytest.fixture
def begin(prompt, room):
    """An event whose rounds are drawn, and that has begun."""

    def made(names=SEVEN, rounds=3, cut=0, rule="draw on"):
        file = f"{room}/e.event"
        prompt.said(file, f"init E {rounds} {cut}", *(f"enrol {name}" for name in names), rule, "start")
        return file

    return made


def scored(count):
    return [f"{table} 2 0" for table in range(1, count + 1)]


# ---- as the documents have it, to the byte


def test_seven_players(prompt, begin):
    file = begin()
    said = prompt.said(file, "pair")
    check_said(
        "shut",
        unfilled(said),
        "Round 1: the lists are shut, drawing 1. 7 players play.",
        f"Their mark: {MARK}",
        "Throw 4d20, all at once",
        "pair 17 3 8 11",
    )
    assert (read(file).stored, numbers_of(file)) == ([], [])
    said = prompt.said(file, "pair 17 3 8 11")
    tables = "   1    2    3 -     P2 - P3\n   2    5    1 -     P5 - P1\n   3    4    7 -     P4 - P7\n   0    6    0 2-0-0 P6 - bye\n"
    check_said(
        "paired",
        said,
        "The number of round 1 is 3 8 11 17, for good. Read it aloud.",
        tables,
        "Round 1: number 3 8 11 17, text 5d01 4256 fdbc 0291",
        f"{file}.draws/round-1-1.txt",
    )
    assert sum_of(file, 1) == FIRST
    assert numbers_of(file) == ["round 1 3 8 11 17"]
    assert keys_of(file) == [(1, bytes.fromhex(key_of(1, NUMBER)))]


def test_drawn_again_it_is_the_same(prompt, begin):
    file = begin()
    said = prompt.said(file, "pair", "pair 17 3 8 11", "back 1", "y")
    check_said("back", said, "Round 1 was paired since. To pair it by its number, 3 8 11 17: pair")
    assert "Its key, for" not in said
    check_said(
        "other dice",
        prompt.said(file, "pair 5 5 5 5"),
        "The number of round 1 is 3 8 11 17, for good.",
        "number 1 5 5 5 5",
    )
    assert read(file).stored == []
    check_said(
        "nothing is typed",
        prompt.said(file, "pair"),
        "Round 1 has its number: 3 8 11 17",
        "lists shut 2 times, text 214a ae08",
    )
    assert (sum_of(file, 1), sum_of(file, 1, 2)) == (FIRST, SECOND)
    assert numbers_of(file) == ["round 1 3 8 11 17"]
    # the very same one may be typed
    prompt.said(file, "back 1", "y", "pair 8 3 17 11")
    assert text_of(file, 1, 3).startswith(
        b"event_reporter draw 2\nround 1\ndrawing 3\nafter " + SECOND.encode()
    )


@pytest.mark.parametrize("word", ["pair", "pair again"])
def test_the_kept_number_needs_no_word(prompt, begin, word):
    file = begin()
    prompt.said(file, "pair", "pair 17 3 8 11")
    before = seats(file, 1)
    prompt.said(file, "back 1", "y", word)
    assert seats(file, 1) == before


def test_somebody_comes_and_drops_after_the_shutting(prompt, begin):
    file = begin()
    prompt.said(file, "pair")
    said = prompt.said(file, "enrol Al", "drop 8", "y", "pair 17 3 8 11")
    check_said(
        "it is told",
        unfilled(said),
        "for good",
        "Round 1, drawing 2: since the lists were shut before, 8 came",
        "Round 1: number 3 8 11 17, lists shut 2 times",
    )
    assert (
        lines_of(text_of(file, 1, 2))["mark"]
        == "b6400c6d7f5e8dad3cc4715758add21a00e9379bf4db631b88af8e3645e9d406"
    )
    assert lines_of(text_of(file, 1, 2))["key"] == key_of(1, NUMBER)
    assert seats(file, 1) == [[2, 3], [5, 1], [4, 7], [6, 0]]


def test_a_player_drops_after_the_shutting(prompt, begin):
    file = begin()
    prompt.said(file, "pair", "drop 3", "y", "pair 17 3 8 11")
    assert (
        lines_of(text_of(file, 1, 2))["mark"]
        == "53395867297d3bf14a10c3703f5d75e8bf7644431a0a61386d7666477fcfa629"
    )
    assert seats(file, 1) == [[2, 4], [6, 1], [5, 7]]


def test_another_game_score_after_the_shutting(prompt, begin):
    """It has the same winner, so that nothing but the mark would tell."""
    file = begin()
    prompt.said(file, "pair", "pair 17 3 8 11", *scored(3), "pair")
    said = prompt.said(file, "fix 1 1 2 1", "y", "pair 5 5 5 5")
    check_said(
        "it is told",
        unfilled(said),
        "Round 2, drawing 2: since the lists were shut before, round 1, table 1 is otherwise.",
    )
    there = text_of(file, 2, 2)
    prompt.said(file, "back 2", "y", "fix 1 1 2 0", "y", "pair")
    assert [lines_of(it)["key"] for it in (there, text_of(file, 2, 3))] == [key_of(2, "5 5 5 5")] * 2
    assert lines_of(there)["mark"] != lines_of(text_of(file, 2, 3))["mark"]
    assert there.split(b"drawn.csv\n")[1] == text_of(file, 2, 3).split(b"drawn.csv\n")[1]


# ---- what is typed


def test_nothing_counts_that_was_thrown_before(prompt, begin):
    file = begin()
    check_said(
        "declined",
        prompt.said(file, "pair 17 3 8 11"),
        "the lists are shut, drawing 1",
        "What was thrown before the lists were shut does not count.",
    )
    assert (numbers_of(file), read(file).stored) == ([], [])


def test_what_is_no_number(prompt, begin):
    file = begin()
    prompt.said(file, "pair")
    cases = {
        "pair 17 3 8": "The rule is each 4d20: 4 values or more, each from 1 to 20: pair 17 3 8 11",
        "pair 17 3 8 21": "The rule is each 4d20",
        "pair 17 3 8 0": "1 to 20 values, each from 1 to 999999",
        "pair 17 3 8 07": "1 to 20 values",
        f"pair {' '.join(['1'] * 21)}": "1 to 20 values",
        "pair 17 3 8 -1": "As: pair, pair 17 3 8 11",
        "pair 17 3 8 11 by 12": "No player has number 12.",
        "pair 50": "Rounds are drawn, and 50 alone is no throw.\nFor a clock of 50 minutes: pair 17 3 8 11 50min",
    }
    said = {line: prompt.said(file, line) for line in cases}
    assert [line for line, due in cases.items() if due not in said[line]] == []
    assert (numbers_of(file), read(file).stored) == ([], [])


def test_minutes_alone_are_no_throw(prompt, begin):
    """It is said how a clock is typed at each point, and nothing is shut or paired by it."""
    file = begin()
    check_said(
        "before the lists are shut",
        prompt.said(file, "pair 50"),
        "For a clock of 50 minutes: pair, and after the throw: pair 17 3 8 11 50min",
    )
    assert not os.path.exists(f"{file}.draws/round-1-1.shut")
    prompt.said(file, "pair", "pair 17 3 8 11", "back 1", "y")
    check_said(
        "once there is a number", prompt.said(file, "pair 50"), "For a clock of 50 minutes: pair 50min"
    )
    assert read(file).stored == []
    check_said(
        "as it says", prompt.said(file, "pair 50min"), "Round 1: number 3 8 11 17", "The clock runs: 50 min"
    )


def test_minutes_are_what_they_were_once_the_draw_is_ended(prompt, begin):
    file = begin(FOUR)
    check_said(
        "a clock",
        prompt.said(file, "draw off", "y", "pair 50"),
        "Round 1: KEY CHOSEN BY THE SCOREKEEPER",
        "The clock runs: 50 min",
    )


def test_a_throw_without_its_word(prompt, begin):
    """While the lists are shut; before that and after it, numbers are a score."""
    file = begin(FOUR)
    told = "What the dice showed: pair 17 3 8 11. Another score for a table: fix 17 0 2"
    assert told not in prompt.said(file, "17 3 8 11")
    prompt.said(file, "pair")
    check_said(
        "it is named",
        prompt.said(file, "17 3 8 11"),
        "The lists are shut for round 1, and no table waits for a score.",
        told,
    )
    check_said(
        "with those who threw",
        prompt.said(file, "17, 3, 8, 11 by 1 2"),
        "What the dice showed: pair 17, 3, 8, 11 by 1 2. ",
    )
    assert numbers_of(file) == []
    assert told not in prompt.said(file, "pair 17 3 8 11", "17 3 8 11")
    said = prompt.said(file, *scored(2), "pair", "take back 1", "y", "1 2 0 1")
    check_said(
        "a table that is open again takes its score", said, "is open again", "Round 1, table 1", "2-0-1"
    )


def test_lists_that_changed_while_they_were_shut(prompt, begin):
    """It is said once for each change that `pair` shuts them again, until they are as they were."""
    file = begin()
    told = "The lists of round 1 were shut before this. To shut them again: pair."
    assert told not in prompt.said(file, "drop 1", "y")
    prompt.said(file, "pair")
    assert told not in prompt.said(file, "where", "players")
    check_said(
        "a drop",
        unfilled(prompt.said(file, "drop 3", "y")),
        "P3 (3) is dropped.",
        f"{told} Throw after that.",
    )
    said = unfilled(prompt.said(file, "where", "who 4", "enrol Al", "where"))
    check_said("another change", said, told, "Al (8) is enrolled.", told)
    assert said.count(told) == 2
    check_said(
        "it does",
        unfilled(prompt.said(file, "pair", "where")),
        "Round 1: the lists are shut, drawing 2.",
        "8 came, 3 dropped",
    )
    assert told not in prompt.said(file, "where")


def test_lists_that_changed_before_the_round_got_its_number(prompt, begin):
    file = begin(FOUR)
    prompt.said(file, "pair", "pair 17 3 8 11", "back 1", "y", "pair 5 5 5 5")
    said = unfilled(prompt.said(file, "pair", *scored(2), "pair", "drop 1", "y"))
    check_said(
        "of the next round",
        said,
        "The lists of round 2 were shut before this. To shut them again: pair. Throw after that.",
    )


def test_more_dice_those_who_threw_and_a_clock(prompt, begin):
    file = begin()
    said = prompt.said(file, "pair", "pair 20, 1, 1, 20, 7 by 6 2 6 50min")
    check_said("taken", said, "The number of round 1 is 1 1 7 20 20", "The clock runs: 50 min")
    assert numbers_of(file) == ["round 1 1 1 7 20 20 by 2 6"]
    assert [lines_of(text_of(file, 1))[it] for it in ("number", "by", "instead")] == [
        "1 1 7 20 20",
        "2 6",
        "-",
    ]


def test_one_who_threw_and_is_gone_after_back(prompt, begin, capsys):
    """A latecomer, who was enrolled after the copy was made."""
    file = begin(FOUR)
    prompt.said(
        file,
        "pair",
        "pair 1 1 1 1",
        *scored(2),
        "enrol Late",
        "pair",
        "pair 2 2 2 2 by 5 2",
        "back 1",
        "y",
        "pair",
        *scored(2),
        "pair",
    )
    assert [lines_of(text_of(file, 2, drawing))["by"] for drawing in (1, 2)] == ["2 5", "2"]
    assert event_check.main([file]) == 0, capsys.readouterr().out


def test_a_mistyped_number_is_shown_for_ever(prompt, begin):
    file = begin(FOUR)
    check_said("there is none", prompt.said(file, "number 1 3 8 11 18"), "Round 1 has no number yet.")
    prompt.said(file, "pair", "pair 17 3 8 11")
    before = seats(file, 1)
    check_said("it is the same", prompt.said(file, "number 1 17 3 8 11"), "has this number already")
    check_said(
        "no",
        unfilled(prompt.said(file, "number 1 17 3 8 12", "n")),
        "3 8 12 17 in place of 3 8 11 17? Both are shown for ever. (y or n) n",
        "stays 3 8 11 17",
    )
    said = unfilled(prompt.said(file, "number 1 17 3 8 12", "y"))
    check_said(
        "yes",
        said,
        "The number of round 1 is 3 8 12 17.",
        "Round 1 stays as it was paired.",
        "back 1, and then pair",
    )
    assert seats(file, 1) == before
    check_said(
        "both are shown",
        prompt.said(file, "back 1", "y", "pair"),
        "number 3 8 12 17, lists shut 2 times",
        "in place of 3 8 11 17",
    )
    assert [lines_of(text_of(file, 1, 2))[it] for it in ("number", "instead", "key")] == [
        "3 8 12 17",
        "3 8 11 17",
        key_of(1, "3 8 12 17"),
    ]
    prompt.said(file, "number 1 1 1 1 1", "y", "back 1", "y", "pair")
    assert lines_of(text_of(file, 1, 3))["instead"] == "3 8 11 17; 3 8 12 17"
    # the first one was right after all
    prompt.said(file, "number 1 17 3 8 11", "y", "back 1", "y", "pair")
    assert [lines_of(text_of(file, 1, 4))[it] for it in ("number", "instead")] == [
        NUMBER,
        "3 8 12 17; 1 1 1 1",
    ]
    assert event_check.main([file]) == 0


def test_a_key_that_the_scorekeeper_chooses_is_told_for_ever(prompt, begin):
    file = begin(FOUR)
    prompt.said(file, "pair", "pair 17 3 8 11", "back 1", "y")
    said = prompt.said(file, "pair new")
    check_said(
        "pair new",
        said,
        "Round 1: KEY CHOSEN BY THE SCOREKEEPER, lists shut 2 times",
        "in place of 3 8 11 17",
    )
    head = lines_of(text_of(file, 1, 2))
    assert (head["number"], head["instead"], bytes.fromhex(head["key"])) == (
        "-",
        NUMBER,
        keys_of(file)[-1][1],
    )
    prompt.said(file, "back 1", "y", f"pair {'AB' * 32}")
    assert lines_of(text_of(file, 1, 3))["key"] == "ab" * 32
    # the number is still the round's
    prompt.said(file, "back 1", "y", "pair")
    assert lines_of(text_of(file, 1, 4))["key"] == key_of(1, NUMBER)


@pytest.mark.parametrize("lines", [("pair new",), ("draw off", "y", "pair")])
def test_a_chosen_key_is_taken_again(prompt, begin, lines):
    """As `back` says, and as somebody does who goes on with a copy."""
    file = begin()
    prompt.said(file, *lines)
    before, keys = seats(file, 1), keys_of(file)
    check_said("back", prompt.said(file, "back 1", "y"), f"Its key, for: pair again\n  {keys[0][1].hex()}")
    check_said(
        "again", prompt.said(file, "pair again"), "Round 1: KEY CHOSEN BY THE SCOREKEEPER, lists shut 2 times"
    )
    assert (seats(file, 1), keys_of(file)) == (before, keys)
    assert [lines_of(text_of(file, 1, 2))[it] for it in ("number", "key")] == ["-", keys[0][1].hex()]


def test_a_drawn_round_is_paired_again_once_the_draw_is_ended(prompt, begin, capsys):
    file = begin()
    said = prompt.said(file, "pair", "pair 17 3 8 11", "draw off", "y", "back 1", "y", "pair again")
    check_said("by its number", said, "Round 1: number 3 8 11 17, lists shut 2 times, text 214a")
    assert event_check.main([file]) == 0, capsys.readouterr().out
    check_said(
        "a round without a key",
        prompt.said(file, *scored(3), "pair again"),
        f"{file}.keys has no key for round 2. A new one: pair",
    )


def test_once_thrown_for_all_rounds(prompt, begin):
    file = begin(FOUR, rule="draw on once 4d20")
    prompt.said(file, "pair", "pair 17 3 8 11", *scored(2))
    check_said(
        "round 2", prompt.said(file, "pair"), "Round 2 has its number: 3 8 11 17", "Round 2: number 3 8 11 17"
    )
    assert lines_of(text_of(file, 2))["key"] == key_of(2, NUMBER)
    assert numbers_of(file) == ["round 1 3 8 11 17"]
    check_said("mistyped", prompt.said(file, "number 2 1 1 1 1"), "It was thrown once, for all rounds")


def test_papers(prompt, begin):
    file = begin(FOUR, rule="draw on papers")
    check_said(
        "shut",
        unfilled(prompt.said(file, "pair")),
        "Two or more write four digits each, hidden, and turn the papers over together.",
    )
    check_said("one alone", prompt.said(file, "pair 4711"), "The rule is each papers: 2 values or more")
    prompt.said(file, "pair 4711 815")
    assert lines_of(text_of(file, 1))["number"] == "815 4711"


def test_the_rule_is_made_before_the_start(prompt, room):
    file = f"{room}/e.event"
    check_said(
        "where says so",
        prompt.said(file, "init E 3 0", "where"),
        *["To have dice draw the rounds, before start: draw on\n"] * 2,
    )
    said = prompt.said(
        file,
        "enrol Ana",
        "enrol Bo",
        "draw",
        "draw on 1d20",
        "draw on once papers",
        "draw maybe",
        "draw on 8d6",
        "draw on",
        "draw",
    )
    check_said(
        "before",
        unfilled(said),
        "Nothing is drawn: each round has a key that the scorekeeper chooses",
        *["As: draw on, before the start"] * 3,
        "Rounds are drawn: each 8d6.",
        "Rounds are drawn: each 4d20.",
        "The rule of the evening: each 4d20",
    )
    check_said(
        "taken away",
        prompt.said(file, "draw off", "draw"),
        "Nothing is drawn.",
        "Nothing is drawn: each round",
    )
    other = prompt.said(f"{room}/other.event", "init E 3 0", "enrol Ana", "enrol Bo", "start", "where")
    check_said(
        "start without it",
        other,
        "Each round gets a key that the prompt makes. For draw on it is too late now.\n",
    )
    assert "too late" not in other.split("too late")[-1]
    said = prompt.said(file, "draw on", "where", "start", "draw on 5d10")
    check_said(
        "after it",
        said,
        "Dice draw the rounds: each 4d20\n",
        "no round is paired yet",
        "The rule of the evening is made before the start",
    )
    assert "too late" not in said
    said = prompt.said(file, "draw off", "y", "draw on", "pair")
    check_said(
        "ended",
        unfilled(said),
        "It can't be put on again.",
        "made before the start",
        "Round 1: KEY CHOSEN BY THE SCOREKEEPER",
    )
    assert lines_of(text_of(file, 1))["number"] == "-"


@pytest.mark.parametrize("rule", ["draw on", "draw on once 4d20"])
def test_what_was_drawn_stays_right_once_the_draw_is_ended(prompt, begin, rule, capsys):
    """Rounds that follow say that their key was chosen, and in place of which number if they had one."""
    file = begin(FOUR, rule=rule)
    prompt.said(
        file,
        "pair",
        "pair 17 3 8 11",
        *scored(2),
        "pair",
        "pair 17 3 8 11",
        *scored(2),
        "draw off",
        "y",
        "pair",
    )
    check_said(
        "again",
        prompt.said(file, "draw off", "draw"),
        "The draw was ended before",
        f"The rule of the evening: off after {rule.replace('draw on', '').strip() or 'each 4d20'}",
    )
    heads = [lines_of(text_of(file, number)) for number in (1, 2, 3)]
    assert [head["number"] for head in heads] == [NUMBER, NUMBER, "-"]
    assert heads[2]["instead"] == (NUMBER if "once" in rule else "-")
    status, said = event_check.main([file]), capsys.readouterr().out
    assert (status, "WRONG" in said) == (0, False), said
    check_said("it is told", said, "KEY CHOSEN BY THE SCOREKEEPER: no number was drawn")


def test_help_of_a_round_names_the_draw_while_it_is_on(prompt, begin, room):
    check_said(
        "before the start",
        prompt.said(f"{room}/new.event", "init E 3 0", "draw on", "help"),
        "  pair                 then: shuts the lists",
    )
    file = begin(FOUR)
    check_said("on", prompt.said(file, "help"), "  pair 17 3 8 11 ", "  draw ")
    said = prompt.said(file, "draw off", "y", "help")
    assert ("  pair, pair 50 " in said, "  pair 17 3 8 11 " in said) == (True, False)


def test_a_rule_that_can_not_be_read_is_not_passed_over(prompt, begin):
    file = begin(FOUR)
    with open(f"{file}.draws/rule", "w") as it:
        it.write("each 4d2O\n")
    check_said("declined", prompt.said(file, "pair"), "has no rule in it. Write the one that was shown")
    assert read(file).stored == []


def test_nothing_is_shut_that_would_be_refused(prompt, begin):
    file = begin(FOUR, rounds=1)
    said = prompt.said(file, "pair", "pair 17 3 8 11", *scored(2), "pair")
    check_said("all rounds are paired", said, "(refused 9 AllRoundsPaired)")
    assert sorted(os.listdir(f"{file}.draws")) == ["numbers", "round-1-1.shut", "round-1-1.txt", "rule"]


def test_an_open_round_is_named(prompt, begin):
    file = begin(FOUR)
    said = prompt.said(file, "pair", "pair 17 3 8 11", "1 2 0", "pair")
    check_said(
        "it says which",
        said,
        "A table of the newest round has no score.",
        "Round 1, 1 table open: 2",
        "(refused 8 RoundOpen)",
    )
    assert not os.path.exists(f"{file}.draws/round-2-1.shut")


# ---- an event that goes on elsewhere, or is played again


def test_texts_name_the_one_that_was_written_before(prompt, begin):
    file = begin(FOUR, rounds=3)
    prompt.said(
        file,
        "pair",
        "pair 1 1 1 1",
        *scored(2),
        "pair",
        "pair 2 2 2 2",
        *scored(2),
        "back 1",
        "y",
        "pair",
        *scored(2),
        "pair",
    )
    order = [(1, 1), (2, 1), (1, 2), (2, 2)]
    assert [lines_of(text_of(file, *it))["after"] for it in order] == [
        "0" * 64,
        *(sum_of(file, *it) for it in order[:-1]),
    ]


def test_played_again_the_texts_stay(prompt, begin):
    file = begin(FOUR, rounds=3)
    prompt.said(file, "pair", "pair 1 1 1 1", *scored(2), "pair", "pair 2 2 2 2", *scored(2))
    before = {name: open(f"{file}.draws/{name}", "rb").read() for name in os.listdir(f"{file}.draws")}
    tables = [seats(file, number) for number in (1, 2)]
    check_said(
        "plan",
        prompt.said(file, "plan 4 0"),
        "Round 1 of 2 is played again.",
        "Round 2 of 2 is played again.",
    )
    check_said("take back", prompt.said(file, "take back 1", "y"), "is open again")
    assert [seats(file, number) for number in (1, 2)] == tables
    assert {name: open(f"{file}.draws/{name}", "rb").read() for name in os.listdir(f"{file}.draws")} == before


def test_another_machine_goes_on_with_the_number(prompt, begin, room):
    file = begin(FOUR, rounds=3)
    os.mkdir(f"{room}/stick")
    prompt.said(file, f"copy {room}/stick", "pair", "pair 17 3 8 11")
    before = seats(file, 1)
    (name,) = [name for name in os.listdir(f"{room}/stick/e.event.copies") if "pair-1" in name]
    there = f"{room}/laptop"
    shutil.copytree(f"{room}/stick/e.event.copies/{name}", there)
    assert sorted(os.listdir(f"{there}/e.event.draws")) == [
        "numbers",
        "round-1-1.shut",
        "round-1-1.txt",
        "rule",
    ]
    said = prompt.said(f"{there}/e.event", "pair 5 5 5 5", "pair")
    check_said(
        "the number is kept",
        said,
        "Round 1 has its number, 3 8 11 17",
        "is 3 8 11 17, for good",
        "lists shut 2 times",
    )
    assert seats(f"{there}/e.event", 1) == before


def test_another_machine_that_has_only_the_copies_goes_on_with_the_number(prompt, begin, room):
    """It lost the event just after a round was drawn, and one of the copies is put into its place."""
    file = begin(FOUR, rounds=3)
    prompt.said(file, "pair", "pair 17 3 8 11", *scored(2), "pair", "pair 2 2 2 2")
    before = {name: open(f"{file}.draws/{name}", "rb").read() for name in os.listdir(f"{file}.draws")}
    tables = seats(file, 2)
    there = f"{room}/laptop/e.event"
    os.mkdir(f"{room}/laptop")
    shutil.copytree(f"{file}.copies", f"{there}.copies")
    said = prompt.said(there, "back 2", "y", "pair 5 5 5 5", "pair")
    check_said(
        "the number is kept",
        unfilled(said),
        f"What was drawn is in {there}.draws again, from the copies.",
        "The number of round 2 is 2 2 2 2, for good",
        "Round 2: number 2 2 2 2, lists shut 2 times",
    )
    assert seats(there, 2) == tables
    after = {name: open(f"{there}.draws/{name}", "rb").read() for name in os.listdir(f"{there}.draws")}
    assert {name: after.get(name) for name in before} == before


def test_a_copy_by_hand_has_what_was_drawn_beside_it(prompt, begin):
    file = begin(FOUR, rounds=3)
    prompt.said(file, "pair", "pair 17 3 8 11", "copy")
    (folder,) = [name for name in os.listdir(f"{file}.copies") if name.endswith("-copy")]
    there = f"{file}.copies/{folder}/e.event"
    check_said("it goes on", prompt.said(there, "draw"), "each 4d20", "Round 1: number 3 8 11 17")


def test_two_prompts(prompt, begin):
    """What the second one types is declined, and its `pair` pairs by the first one's number."""
    file = begin(FOUR)
    one, other = prompt.terminal(file), prompt.terminal(file)
    one.send("pair")
    check_said("it is the same drawing", other.send("pair"), "the lists are shut, drawing 1")
    one.send("pair 17 3 8 11")
    # the news comes by itself, and at any time
    assert "Round 1 was paired, at " in other.read_for(b"r1> ")
    check_said("declined", unfilled(other.send("pair 5 5 5 5")), "(refused 8 RoundOpen)")
    assert numbers_of(file) == ["round 1 3 8 11 17"]
    assert one.end()[0] == other.end()[0] == 0


def test_init_puts_the_draws_of_an_older_event_aside(prompt, begin, room):
    file = begin(FOUR)
    prompt.said(file, "pair", "pair 17 3 8 11")
    os.unlink(file)
    shutil.rmtree(f"{file}.copies")
    check_said("init", prompt.said(file, "init New 3 0"), f"{file}.draws was there before this event.")
    assert not os.path.exists(f"{file}.draws")
    assert [name for name in os.listdir(room) if name.startswith("e.event.draws.old-")] != []


def test_a_round_that_a_command_line_paired_has_no_text(prompt, program, begin):
    file = begin(FOUR)
    prompt.said(file, "pair")
    program.did("pair", file, "1", "0" * 64)
    prompt.said(file, "where", "draw")
    assert not os.path.exists(f"{file}.draws/round-1-1.txt")


# ---- killed at each call


@pytest.fixture
def elsewhere(room):
    """The event of a file in a folder of its own, as often as it is wanted."""
    made = itertools.count(1)

    def copied(file):
        folder = f"{room}/{next(made)}"
        os.mkdir(folder)
        for path in glob.glob(f"{file}*"):
            (shutil.copytree if os.path.isdir(path) else shutil.copy)(
                path, f"{folder}/{os.path.basename(path)}"
            )
        return f"{folder}/e.event"

    return copied


def test_killed_while_the_lists_are_shut(prompt, begin, elsewhere, request):
    """Before the number: whatever is there, the next `pair` shuts them, and what is typed then is the number."""
    file = begin()
    step = 1 if request.config.option.long else 8
    stop = 1 - step
    while True:
        stop += step
        there = elsewhere(file)
        was_stopped = prompt.is_killed(there, ["pair"], stop, "pair")
        assert (numbers_of(there), read(there).stored) == ([], []), f"killed before call {stop}"
        prompt.said(there, "pair", "pair 17 3 8 11")
        assert sum_of(there, 1) == FIRST, f"killed before call {stop}"
        # a second name of what was put in place may stay, which nobody reads
        kept = [name for name in sorted(os.listdir(f"{there}.draws")) if not name.endswith(".part")]
        assert kept == ["numbers", "round-1-1.shut", "round-1-1.txt", "rule"], f"killed before call {stop}"
        if not was_stopped:
            break
    assert stop > 8


def test_killed_at_each_call(prompt, begin, elsewhere, request):
    """From the number on, calls that open, write, sync, link or rename, and each call of the program; every seventh of them, or with --long each. Other
    dice are typed afterwards: a number that was kept is never another one, the round is its, and each text is whole.
    """
    file = begin()
    prompt.said(file, "pair")
    step = 1 if request.config.option.long else 7
    stages, stop = [], 1 - step
    while True:
        stop += step
        there = elsewhere(file)
        was_stopped = prompt.is_killed(there, ["pair 17 3 8 11"], stop, "has_number")
        was_kept, was_paired = numbers_of(there), bool(read(there).stored)
        has_text = os.path.exists(f"{there}.draws/round-1-1.txt")
        prompt.said(there, "pair 5 5 5 5", "pair")
        number = NUMBER if was_kept else "5 5 5 5"
        text = text_of(there, 1)
        assert numbers_of(there) == [f"round 1 {number}"], f"killed before call {stop}"
        assert (lines_of(text)["number"], lines_of(text)["key"]) == (
            number,
            key_of(1, number),
        ), f"killed before call {stop}"
        assert not was_kept or hashlib.sha256(text).hexdigest() == FIRST, f"killed before call {stop}"
        stages.append((bool(was_kept), was_paired, has_text))
        if not was_stopped:
            break
    # in this order, each of them several times
    assert stages == sorted(stages)
    assert {(False, False, False), (True, False, False), (True, True, False), (True, True, True)} == set(
        stages
    )


# what is typed before each step of a draw, and for the step; the text that is missing is made as the prompt begins
STEPS = {
    "shut": ((), ("pair",)),
    "number": (("pair",), ("pair 17 3 8 11",)),
    "mistyped": (("pair", "pair 17 3 8 11"), ("number 1 17 3 8 12", "y")),
    "again": (("pair", "pair 17 3 8 11", "back 1", "y"), ("pair",)),
    "text": (("pair", "pair 17 3 8 11"), ()),
}
TRACED = pytest.mark.needs("kills at each system call", command="strace")


@pytest.fixture
def goes_on(prompt, capsys):
    """Other dice are typed after a kill: what was kept stays, each round has the number that it was given, and a second reading finds nothing wrong."""

    def check(file, name):
        before, is_shut = numbers_of(file), glob.glob(f"{file}.draws/*.shut")
        # nothing counts that was thrown before the lists were shut
        prompt.said(file, *(("pair 5 5 5 5", "pair") if is_shut else ("pair", "pair 5 5 5 5")))
        after = numbers_of(file)
        assert after == (before or ["round 1 5 5 5 5"]), f"{name}, the numbers"
        with open(sorted(glob.glob(f"{file}.draws/round-1-*.txt"))[-1], "rb") as kept:
            head = lines_of(kept.read())
        # a round stays as it was paired, also if another number was typed for it then
        drawn = {it.split(" ", 2)[2] for it in after}
        assert (head["number"] in drawn, head["key"]) == (
            True,
            key_of(1, head["number"]),
        ), f"{name}, the text"
        assert event_check.main([file]) == 0, f"{name}: {capsys.readouterr().out}"

    return check


@pytest.fixture
def points(dice, request):
    """Of the places for a kill a few, which differ from commit to commit; all of them with --long."""
    if not can_trace():
        pytest.skip("kills at each system call, as strace may look at no process here")
    return (
        lambda found, count: found
        if request.config.option.long
        else dice.sample(found, min(count, len(found)))
    )


@TRACED
@pytest.mark.parametrize("step", STEPS)
def test_killed_at_each_system_call(prompt, begin, elsewhere, goes_on, points, room, step):
    """Of the prompt, those that write."""
    file, (before, lines) = begin(FOUR), STEPS[step]
    if before:
        prompt.said(file, *before)
    if step == "text":
        os.unlink(f"{file}.draws/round-1-1.txt")
    typed = "".join(f"{line}\n" for line in lines).encode()
    found = system_calls(prompt.words(elsewhere(file)), typed, f"{room}/calls")
    assert len(found) > 8
    for call in points(found, 1):
        there = elsewhere(file)
        assert is_killed_in(call, prompt.words(there), typed), f"{step}, {call}"
        goes_on(there, f"{step}, killed at {call}")


@TRACED
def test_the_program_is_killed_at_each_system_call(
    program, prompt, begin, elsewhere, goes_on, points, room, stand_in
):
    """While it pairs a round by its number."""
    file = begin(FOUR)
    prompt.said(file, "pair")
    found = system_calls(
        [program.path, "pair", elsewhere(file), "1", key_of(1, NUMBER)], b"", f"{room}/calls"
    )
    assert len(found) > 3
    for call in points(found, 2):
        there = elsewhere(file)
        killed = stand_in(
            f'case "$1 $2" in "pair {there}") exec {" ".join(killing(*call))} "$REAL" "$@";; esac\nexec "$REAL" "$@"'
        )
        said = prompt.said(there, "pair 17 3 8 11", by=killed)
        assert "No answer came." in said, f"{call}: {said}"
        goes_on(there, f"the program, killed at {call}")
        assert numbers_of(there) == ["round 1 3 8 11 17"]


# ---- how tiebreakers come about


def test_who_shows_how_tiebreakers_come_about(prompt, begin):
    file = begin(FOUR)
    check_said("no round yet", prompt.said(file, "who 1"), "Ana")
    prompt.said(file, "pair", "pair 17 3 8 11", "1 2 0", "2 1 1 1", "pair", "pair 17 3 8 11", *scored(2))
    event = read(file)
    said, merits = prompt.said(file, "who 1"), event.merits()[1]
    shares = {
        name: f"{it.numerator}/{it.denominator} = {printed(it)}"
        for name, it in zip(("OMW", "GWP", "OGW"), merits[1:])
    }
    _, _, points, games = event.totals(1)
    check_said(
        "each opponent, and the averages",
        said,
        f"GWP {points}/{3 * games} -> {shares['GWP']}",
        "round 1, ",
        "    MWP ",
        "    GWP ",
        "round 2, ",
        f"OMW, the average of their MWP: {shares['OMW']}",
        f"OGW, the average of their GWP: {shares['OGW']}",
    )
    assert "WRONG" not in said


def test_standings_that_are_no_standings_of_the_rules_are_told(prompt, program, begin, room):
    """By a program whose standings print another number."""
    file = begin(FOUR)
    prompt.said(file, "pair", "pair 17 3 8 11", *scored(2))
    with open(f"{room}/program", "w") as it:
        it.write(
            f"#!/bin/sh\nif [ \"$1\" = standings ]; then '{program.path}' \"$@\" | sed 's/ 33\\.00 / 33.01 /'; else exec '{program.path}' \"$@\"; fi\n"
        )
    os.chmod(f"{room}/program", 0o755)
    check_said(
        "loudly",
        prompt.said(file, "who 1", by=f"{room}/program"),
        "WRONG: the standings print ",
        " 33.01, and by the results it is 33.00.",
        "That is a fault of ours.",
    )
