import pytest
from event_companions.core.event import Progress
from event_companions.core.program import Declined, Refusal
from event_companions.core.score import Score
from event_companions.core.wording import ranges
from event_companions.prompt.desk import only
from event_companions.prompt.lines import Input, minutes_in, minutes_of, numbers_in, score_in, with_score
from event_companions.prompt.players import have_a_word_in_common
from event_companions.prompt.rounds import word_and_minutes
from event_companions.prompt.session import prompt_at, why_not_used
from event_companions.prompt.texts import (
    ALL_COMMANDS,
    BEGINNING,
    COMMANDS,
    FIRST_PAIR,
    FIRST_PAIR_BY_DICE,
    PAIR,
    PAIR_BY_DICE,
    PLAYOFF,
    REFUSALS,
)


def test_numbers():
    assert numbers_in("017 2 1", 3, 4, "17 2 1") == ["17", "2", "1"]
    for line in ("17 2", "17 2 1 1 1", "1 2 x", "1 -2 0", "1 2 1234567890"):
        with pytest.raises(Declined):
            numbers_in(line, 3, 4, "17 2 1")


@pytest.mark.parametrize(
    "line",
    [
        "7 2 1",
        "7 2-1",
        "7 2:1",
        "7,2,1",
        "7\t2\t1",
        "7 2 - 1",
        "7; 2; 1",
        "7 2\u20131",
        " 7  2 , 1 ",
        "07 2-1",
    ],
)
def test_results_as_people_type_them(line):
    assert numbers_in(line, 3, 4, "17 2 1") == ["7", "2", "1"]


@pytest.mark.parametrize("line", ["7 -2 1", "7 2 -1", "7 2--1", "7 2.5 1", "7 2-", "-7 2 1", "7 2/1"])
def test_what_is_no_result(line):
    with pytest.raises(Declined):
        numbers_in(line, 3, 4, "17 2 1")


@pytest.mark.parametrize(
    "line, score",
    [
        ("7 20", "7 2 0"),
        ("7 201", "7 2 0 1"),
        ("17 id", "17 0 0 3"),
        ("17 ID", "17 0 0 3"),
        ("3 17 id", "3 17 0 0 3"),
        ("7 2 0", "7 2 0"),
        ("7 2-1", "7 2-1"),
        ("7 45", "7 45"),
        ("7 2", "7 2"),
        ("20", "20"),
        ("id", "id"),
    ],
)
def test_scores_without_spaces_and_intended_draws(line, score):
    assert with_score(line) == score


@pytest.mark.parametrize(
    "text, minutes",
    [
        ("50", 50),
        ("50min", 50),
        ("50 min", 50),
        ("50 Minutes", 50),
        ("5m", 5),
        ("x", None),
        ("", None),
        ("-3", None),
    ],
)
def test_minutes(text, minutes):
    assert minutes_in(text) == minutes


def test_minutes_of_a_clock():
    assert minutes_of("600", "clock 50") == 600
    for text in ("0", "601", "x"):
        with pytest.raises(Declined):
            minutes_of(text, "clock 50")


@pytest.mark.parametrize(
    "rest, found",
    [
        ("", ("", None)),
        ("50", ("", 50)),
        ("50min", ("", 50)),
        ("again", ("again", None)),
        ("again 45", ("again", 45)),
        ("12" * 32, ("12" * 32, None)),
        (f"{'12' * 32} 50", ("12" * 32, 50)),
        ("xyz", ("xyz", None)),
    ],
)
def test_what_follows_pair(rest, found):
    assert word_and_minutes(rest) == found


def test_the_prompt_says_which_round_it_is_in():
    assert [prompt_at(it) for it in (Progress(), Progress(1), Progress(12), Progress(6, is_cut=True))] == [
        "desk> ",
        "r1> ",
        "r12> ",
        "playoff> ",
    ]


def test_a_word_that_takes_nothing():
    only("cut", "")
    with pytest.raises(Declined, match="cut takes nothing after it. To do it, type: cut"):
        only("cut", "4")


@pytest.mark.parametrize(
    "one, other, have",
    [
        ("Petr Mayer", "Peter Meyer", True),
        ("Ana", "Anna", True),
        ("Cy", "Cyril", True),
        ("Łukasz Kowalski", "Lukasz Nowak", True),
        ("Björn Åström", "Łukasz Kowalski", False),
        ("Bo", "Anna", False),
    ],
)
def test_names_with_a_word_in_common(one, other, have):
    assert have_a_word_in_common(one, other) == have


def test_why_a_file_is_not_used(tmp_path):
    assert why_not_used(f"{tmp_path}/e.event") == ""
    assert why_not_used(f"{tmp_path}/none/e.event").startswith("There is no folder")
    assert "is a folder" in why_not_used(f"{tmp_path}")


def test_help_fits_a_terminal_of_24_lines():
    # the line that was typed stands above it, and the prompt beneath
    drawn = COMMANDS.replace(PAIR, PAIR_BY_DICE)
    begins = BEGINNING.replace(FIRST_PAIR, FIRST_PAIR_BY_DICE)
    assert COMMANDS.count(PAIR) == drawn.count(PAIR_BY_DICE) == 1
    assert BEGINNING.count(FIRST_PAIR) == begins.count(FIRST_PAIR_BY_DICE) == 1
    assert max(text.count("\n") for text in (COMMANDS, drawn, BEGINNING, PLAYOFF)) <= 22
    assert [
        line for line in (ALL_COMMANDS + drawn + BEGINNING + begins + PLAYOFF).split("\n") if len(line) > 80
    ] == []


def test_a_count_of_drawn_games_that_is_not_there_is_0():
    assert score_in(["2", "1"]) == Score(2, 1, 0)
    assert score_in(["1", "1", "1"]) == Score(1, 1, 1)


def test_runs_of_numbers():
    assert ranges([4, 7, 8, 9, 10]) == "4, 7-10"
    assert ranges([1, 2]) == "1, 2"
    assert ranges([]) == ""


def test_each_refusal_has_words():
    assert sorted(REFUSALS) == [number.value for number in Refusal] == list(range(1, 31))


class Typed:
    """A terminal at which these lines are typed."""

    def __init__(self, *lines):
        self.lines = list(lines)

    def line(self, _prompt):
        return self.lines.pop(0)

    answer = line


def at_terminal(*lines):
    input_ = Input(lambda text: [], lambda line: line[:1].isdecimal())
    input_.typing = Typed(*lines)
    return input_


def test_a_question_is_not_answered_by_the_lines_after_it():
    lines = at_terminal("1 2 0\n2 2 1\n3 0 2")
    assert not lines.says_yes("Drop Ana (1)?")
    assert [lines.line("desk> ") for _ in range(3)] == ["1 2 0", "2 2 1", "3 0 2"]


def test_what_is_no_answer_is_asked_again():
    assert at_terminal("", "hm", "y").says_yes("Drop Ana (1)?")
    assert not at_terminal("maybe", "No").says_yes("Drop Ana (1)?")


def test_a_question_stays_within_a_line(capsys):
    """With a long name most of it stands above, since a plain terminal moves a line that is too long."""
    asked = []

    class Asking(Typed):
        def answer(self, question):
            asked.append(question)
            return "y"

    lines = at_terminal()
    lines.typing = Asking()
    short, long = "Drop Ana (1)?", f"Drop {'Anna-Lena ' * 8}(1)? It can be taken back until the next pairing."
    assert lines.says_yes(short) and lines.says_yes(long)
    assert asked == [f"{short} (y or n) ", "(y or n) "]
    told = capsys.readouterr().out
    assert told.split() == long.split() and max(map(len, told.split("\n"))) <= 79
