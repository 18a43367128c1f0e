"""How tiebreakers come about, beside the plain reading, and an example worked by hand in docs/RULES.md."""
from dataclasses import replace

import pytest

from event_companions.core.event import Event
from event_companions.core.working import percent, share_shown, working_of
from event_companions.prompt.players import working_lines
from second_reading.plain_event import Event as Plain
from tests.support.from_model import FromModel
from tests.support.random_evenings import COMPLETE, OPEN, evening


def event_of(plain):
    return Event(FromModel(plain))


@pytest.fixture
def three():
    """Ana, Bo and Cy of the example: each of them has the bye once."""
    plain = Plain(3, 0)
    for name in ("Ana", "Bo", "Cy"):
        plain.enrol(name)
    plain.start()
    bye = (2, 0, 0)
    plain.stored = [
        [[2, 1, (2, 0, 0)], [3, 0, bye]],
        [[2, 3, (2, 0, 0)], [1, 0, bye]],
        [[1, 3, (2, 0, 0)], [2, 0, bye]],
    ]
    return event_of(plain)


def test_by_hand(three):
    ana = working_of(three, 1)
    assert (ana.totals.points, ana.totals.rounds, ana.totals.game_points, ana.totals.games) == (6, 3, 12, 6)
    met = [(it.round, it.opponent.name if it.opponent else "", it.score) for it in ana.met]
    assert met == [(1, "Bo", "0-2-0"), (2, "", "2-0-0"), (3, "Cy", "2-0-0")]
    assert [share_shown(it.totals.match_wins) for it in ana.opponents] == ["1/1 = 100.00", "1/3 = 33.33"]
    assert share_shown(ana.opponents_match_wins) == share_shown(ana.opponents_game_wins) == "2/3 = 66.67"
    assert ana.differing == []
    assert working_of(three, 4) is None


def test_the_least_that_counts_is_said(three):
    lines = working_lines(working_of(three, 2))
    assert lines[-1] == "  No MWP or GWP counts as less than 33."


@pytest.mark.parametrize("way", [OPEN, COMPLETE])
def test_as_the_plain_reading_has_it(dice, way):
    compared = 0
    for _ in range(12):
        plain = evening(dice, dice.randint(2, 24), way, 4, 0)
        merits, event = plain.merits(), event_of(plain)
        for number in plain.numbers():
            found = working_of(event, number)
            if found is None:
                assert event.complete_rounds() == 0
                continue
            totals = found.totals
            # no list says what somebody has missed who has not sat anywhere yet; no percentage depends on it
            rounds = totals.rounds if list(plain.played(number)) else plain.missed(number)
            assert (totals.points, rounds, totals.game_points, totals.games) == plain.totals(number)
            due = (found.opponents_match_wins, totals.game_wins, found.opponents_game_wins)
            assert (totals.points, *due) == merits[number]
            assert found.differing == []
            compared += 1
    assert compared > 50


def test_what_the_program_prints_otherwise_is_named(three):
    lines = three.listed
    three.listed = [replace(line, game_wins="66.66", points="7") for line in lines]
    assert working_of(three, 1).differing == [("points", "7", "6"), ("GWP", "66.66", "66.67")]


def test_a_percentage_is_rounded_half_up():
    from fractions import Fraction

    assert [percent(Fraction(*it)) for it in ((1, 3), (2, 3), (1, 80000), (1, 1))] == [
        "33.33",
        "66.67",
        "0.00",
        "100.00",
    ]
    assert percent(Fraction(1, 20000)) == "0.01"
