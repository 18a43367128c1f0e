"""What a change makes of the lists of an event, and the advice on rounds and cut."""
import pytest

from event_companions.core.handing_in import Answer
from event_companions.core.lists import Bracket, Match, Player
from event_companions.core.plan import Plan, ordinal, usual_rounds
from event_companions.core.score import Score
from event_companions.prompt import replaying as module
from event_companions.prompt.replaying import Change, Replay

PLAYERS = {number: Player(number, f"P{number}", number == 3) for number in range(1, 5)}
ROUNDS = [
    [Match(1, 1, 2, Score(2, 0)), Match(2, 3, 4, Score(0, 2))],
    [Match(1, 1, 4, Score(2, 1)), Match(2, 2, 3, Score(1, 1, 1))],
]
FINAL = Match(1, 1, 3, Score(2, 0))
BRACKET = Bracket([[Match(1, 1, 4, Score(2, 0)), Match(2, 2, 3, Score(0, 2))], [FINAL]], 1)


def test_nothing_changes():
    change = Change()
    assert change.players(PLAYERS) == PLAYERS
    assert change.matches(ROUNDS) == ROUNDS
    assert change.stages(BRACKET) == BRACKET
    assert change.plan(Plan("E", 5, 4)) == Plan("E", 5, 4)


def test_other_rounds_and_another_cut():
    assert Change(rounds=4, cut=0).plan(Plan("E", 5, 4)) == Plan("E", 4, 0)
    assert Change(rounds=4).plan(Plan("E", 5, 4)) == Plan("E", 4, 4)


def test_a_score_of_the_newest_round_is_taken_back():
    rounds = Change(table=2).matches(ROUNDS)
    assert rounds == [ROUNDS[0], [ROUNDS[1][0], Match(2, 2, 3)]]


def test_a_drop_is_taken_back():
    assert Change(back_in=3).players(PLAYERS)[3] == Player(3, "P3", False)


def test_who_came_after_a_player_who_is_removed_has_a_number_less():
    assert Change(removed=2).players(PLAYERS) == {
        1: Player(1, "P1", False),
        2: Player(2, "P3", True),
        3: Player(3, "P4", False),
    }


def test_another_name():
    assert Change(renamed=(2, "Bo")).players(PLAYERS)[2] == Player(2, "Bo", False)


def test_a_score_of_the_playoff_is_taken_back():
    assert Change(slot=(2, 1)).stages(BRACKET) == Bracket([BRACKET.stages[0], [Match(1, 1, 3)]], None)
    # with the later stages, which come of it
    assert Change(slot=(1, 2)).stages(BRACKET) == Bracket([[BRACKET.stages[0][0], Match(2, 2, 3)]], None)


def test_the_name_of_the_copy_from_before():
    assert [
        it.name for it in (Change(rounds=3), Change(back_in=7), Change(removed=38), Change(slot=(1, 2)))
    ] == ["plan", "undrop-7", "remove-38", "unplay-1-2"]
    assert Change(renamed=(4, "Bo")).name == "rename-4"


def test_rounds_that_are_usual():
    due = {1: 3, 8: 3, 9: 4, 16: 4, 17: 5, 32: 5, 33: 6, 64: 6, 65: 7, 128: 7, 129: 8, 226: 8, 227: 9, 512: 9}
    assert {players: usual_rounds(players) for players in due} == due


def test_what_may_not_work_out():
    assert Plan("E", 4, 4).doubts(8) == []
    assert Plan("E", 5, 0).doubts(8) == ["With 8 players, rounds after the 4th may not be found."]
    assert Plan("E", 4, 8).doubts(8) == ["If some of the 8 players leave, there are too few for a cut to 8."]
    assert Plan("E", 6, 8).doubts(37) == []
    assert [ordinal(number) for number in (1, 2, 3, 4, 11, 12)] == [
        "1st",
        "2nd",
        "3rd",
        "4th",
        "11th",
        "12th",
    ]


def test_the_greatest_cut_for_which_there_are_enough():
    assert [Plan("E", 5, 8).cut_for(left) for left in (9, 8, 7, 4, 3, 2, 1)] == [8, 8, 4, 4, 2, 2, 0]
    assert Plan("E", 5, 0).cut_for(30) == 0


# ---- scores that are handed in again

ROUND = [
    Match(1, 1, 2, Score(2, 0)),
    Match(2, 3, 4, Score(1, 2)),
    Match(3, 5, 6, Score(0, 2)),
    Match(0, 7, 0),
]


class Made:
    """A new file, of which each command line is remembered."""

    program, file = "none", "none"

    def __init__(self):
        self.asked = []

    def ask(self, *words):
        self.asked.append(words)
        return "ok 1\n"


@pytest.fixture
def serves(monkeypatch):
    """One run of `serve` that takes each score but that of table 2, and the tables of each such run."""
    runs = []

    def hand_in(program, file, wanted):
        runs.append([entered.table for entered in wanted])
        for entered in wanted:
            entered.end(None if entered.table == 2 else Answer(serial=entered.table))

    monkeypatch.setattr(module, "hand_in", hand_in)
    monkeypatch.setattr(module, "ends_with_us", lambda: ["setpriv"])
    return runs


def test_the_scores_of_a_round_are_handed_in_together_and_what_has_no_answer_by_a_line(serves):
    made = Made()
    Replay(made).bring_to({}, [ROUND])
    assert serves == [[1, 2, 3]]
    assert made.asked == [("result", "1", "2", "1", "2", "0")]


def test_few_scores_are_a_line_each(serves):
    made = Made()
    Replay(made).bring_to({}, [ROUND[1:]])
    assert not serves and [words[2] for words in made.asked] == ["2", "3"]


def test_where_serve_would_not_end_with_the_prompt_each_score_is_a_line(serves, monkeypatch):
    monkeypatch.setattr(module, "ends_with_us", lambda: [])
    made = Made()
    Replay(made).bring_to({}, [ROUND])
    assert not serves and [words[2] for words in made.asked] == ["1", "2", "3"]


def test_a_score_that_is_known_is_corrected_by_a_line(serves):
    made = Made()
    replay = Replay(made)
    replay.scores = {(1, match.place): Score(2, 0) for match in ROUND[:3]}
    replay.bring_to({}, [ROUND])
    assert not serves and made.asked == [
        ("correct", "1", "2", "1", "2", "0"),
        ("correct", "1", "3", "0", "2", "0"),
    ]
