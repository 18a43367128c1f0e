from event_companions.beside.doubts import Doubt, Doubts, with_doubts
from event_companions.core.lists import Match
from event_companions.core.score import Score

ROUNDS = [
    [Match(1, 4, 2, Score(2, 0)), Match(2, 1, 3, Score(2, 1))],
    [Match(1, 4, 1, Score(0, 2)), Match(2, 3, 2)],
]


def test_a_doubt_is_kept_until_it_is_ended(tmp_path):
    doubts = Doubts(f"{tmp_path}/e.event")
    assert doubts.all() == []
    doubts.add(Doubt(1, 2, Score(2, 1)))
    doubts.add(Doubt(2, 1, Score(0, 2)))
    doubts.add(Doubt(1, 2, Score(2, 1)))
    assert open(doubts.path).read() == "round 1 table 2 score 2-1-0\nround 2 table 1 score 0-2-0\n"
    doubts.end(1, 2)
    doubts.end(1, 1)
    assert Doubts(f"{tmp_path}/e.event").all() == [Doubt(2, 1, Score(0, 2))]


def test_a_doubt_stands_while_its_match_has_that_score(tmp_path):
    doubts = Doubts(f"{tmp_path}/e.event")
    doubts.add(Doubt(1, 2, Score(2, 1)))
    for number, table in ((2, 1), (2, 2), (3, 1)):
        doubts.add(Doubt(number, table, Score(2, 0)))
    assert doubts.standing(ROUNDS) == [Doubt(1, 2, Score(2, 1))]


def test_a_match_in_doubt_is_shown_as_open():
    shown = with_doubts(ROUNDS, [Doubt(1, 2, Score(2, 1)), Doubt(2, 1, Score(2, 0))])
    assert shown == [[ROUNDS[0][0], Match(2, 1, 3)], ROUNDS[1]]


def test_lines_that_are_broken_off_are_passed_over(tmp_path):
    with open(f"{tmp_path}/e.event.doubts", "w") as written:
        written.write("round 1 table 2 score 2-1-0\nround 1 tab")
    assert Doubts(f"{tmp_path}/e.event").all() == [Doubt(1, 2, Score(2, 1))]
