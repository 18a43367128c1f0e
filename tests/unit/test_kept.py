"""What the program said is kept while no command came."""
from event_companions.core.lists import Match
from event_companions.core.program import PLAYERS, RESULTS, Kept, Stamp
from event_companions.core.score import Score

ONE, TWO, THREE = (Stamp(7, 4096, 1_000_000_001 + at, 41) for at in range(3))
WHOLE = Stamp(7, 4096, 5_000_000_000, 41)
ROUNDS = [[Match(1, 4, 2, Score(2, 0))]]
NEWEST = [Match(1, 4, 3), Match(2, 1, 2), Match(0, 5, 0)]


def kept_at(stamp, serial=6):
    kept = Kept()
    kept.forget(serial)
    kept.keep(PLAYERS, stamp, "players")
    kept.keep(RESULTS, stamp, "results")
    kept.older = stamp, ROUNDS
    kept.newest = stamp, NEWEST
    return kept


def test_a_text_is_kept_while_the_stamp_stays():
    kept = kept_at(ONE)
    assert kept.text(PLAYERS, ONE) == "players" and kept.older_rounds(ONE) == ROUNDS
    assert kept.text(PLAYERS, TWO) is None and kept.older_rounds(TWO) is None
    assert kept.text(("bracket",), ONE) is None
    assert kept.text(PLAYERS, None) is None
    assert kept.newest_round(ONE) == NEWEST
    assert kept.newest_round(TWO) is None and kept.newest_round(None) is None


def test_a_stamp_of_whole_seconds_keeps_nothing():
    kept = kept_at(WHOLE)
    assert kept.text(PLAYERS, WHOLE) is None and kept.older_rounds(WHOLE) is None
    assert kept.newest_round(WHOLE) is None


def test_the_next_result_keeps_players_and_rounds_and_puts_its_score_in():
    kept = kept_at(ONE)
    kept.carry(7, ONE, TWO, 2, 1, Score(2, 1))
    assert kept.text(PLAYERS, TWO) == "players" and kept.older_rounds(TWO) == ROUNDS
    assert kept.newest_round(TWO) == [Match(1, 4, 3, Score(2, 1)), *NEWEST[1:]]
    assert kept.newest_round(ONE) is None
    assert kept.text(RESULTS, TWO) is None and kept.text(RESULTS, ONE) is None
    kept.carry(8, TWO, THREE, 2, 2, Score(0, 2))
    assert kept.text(PLAYERS, THREE) == "players" and kept.older_rounds(THREE) == ROUNDS
    assert kept.newest_round(THREE) == [Match(1, 4, 3, Score(2, 1)), Match(2, 1, 2, Score(0, 2)), NEWEST[2]]


def test_a_result_of_an_older_round_keeps_no_newest_one():
    kept = kept_at(ONE)
    kept.carry(7, ONE, TWO, 1, 1, Score(2, 1))
    assert kept.newest_round(TWO) is None and kept.newest_round(ONE) is None


def test_where_somebody_came_in_between_nothing_is_kept():
    for serial, before in ((8, ONE), (7, TWO), (-1, ONE)):
        kept = kept_at(ONE)
        kept.carry(serial, before, THREE, 2, 1, Score(2, 1))
        assert kept.text(PLAYERS, THREE) is None and kept.older_rounds(THREE) is None
        assert kept.newest_round(THREE) is None


def test_a_command_forgets_all():
    kept = kept_at(ONE)
    kept.forget()
    assert kept.text(PLAYERS, ONE) is None and kept.older_rounds(ONE) is None
    assert kept.newest_round(ONE) is None
