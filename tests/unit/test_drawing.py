"""The bracket as it is drawn, beside the stages of the plain reading."""
import pytest
from event_companions.core.event import Event
from event_companions.languages import say_in
from event_companions.sheets.bracket import Tree, lines_for
from tests.support.from_model import FromModel
from tests.support.plain_page import bracket_due
from tests.support.random_evenings import ENDED, IN_PLAYOFF, evening


def drawn(event):
    return Tree(Event(FromModel(event)), say_in("en")).drawn()


@pytest.mark.parametrize("cut", [2, 4, 8])
@pytest.mark.parametrize("way", [IN_PLAYOFF, ENDED])
def test_each_match_has_a_box_and_each_player_a_seat(dice, cut, way):
    event = evening(dice, 11, way, 3, cut, True)
    drawing = drawn(event)
    stages, seats, boxes, drawn_games = bracket_due(event)
    assert [it.text for it in drawing.headings] == stages
    shown = [(it.player.name, it.games, "through" in it.kind) for it in drawing.seats]
    assert shown == seats
    assert len(drawing.boxes) == boxes
    assert [it.text for it in drawing.drawn_games] == drawn_games


@pytest.mark.parametrize("cut", [2, 4, 8])
def test_nothing_lies_outside_or_on_something_else(dice, cut):
    drawing = drawn(evening(dice, 11, ENDED, 3, cut, True))
    boxes = [(it.x, it.y, it.x + it.width, it.y + it.height) for it in drawing.boxes]
    assert all(
        0 <= x and 0 <= y and right <= drawing.width and bottom <= drawing.height
        for x, y, right, bottom in boxes
    )
    for at, one in enumerate(boxes):
        for other in boxes[at + 1 :]:
            assert one[2] <= other[0] or other[2] <= one[0] or one[3] <= other[1] or other[3] <= one[1]


def test_a_long_name_takes_more_lines():
    assert lines_for("Ana") == lines_for("") == 1
    lines = [lines_for("W" * size) for size in range(1, 61)]
    assert lines == sorted(lines) and lines[-1] > lines[0]


def test_seeds_stand_where_the_rules_put_them(dice):
    """RULES, Playoff: the slots of stage 1 by seed; the plain reading's standings give the seeds."""
    for cut in (2, 4, 8):
        event = evening(dice, 11, ENDED, 3, cut)
        seeds = [number for number in event.merits() if number not in event.dropped][:cut]
        due = {number: seed for seed, number in enumerate(seeds, 1)}
        assert {it.player.number: it.seed for it in drawn(event).seats} == due


@pytest.mark.parametrize("cut", [2, 4, 8])
def test_the_final_and_the_champion_are_the_largest(dice, cut):
    drawing = drawn(evening(dice, 11, ENDED, 3, cut))
    *before, final, champion = [it.scale for it in drawing.seats[:-1]] + [drawing.seats[-1].scale]
    assert champion > final and all(it <= final for it in before)
    widths = [it.width for it in drawing.boxes]
    assert widths == sorted(widths) and widths[-1] > widths[-2]


def test_who_has_won_stands_in_the_next_stage_at_once(dice):
    """One quarterfinal is played: its winner stands in a semifinal, without a score."""
    event = evening(dice, 11, IN_PLAYOFF, 3, 8)
    event.stages = [[[a, b, None] for a, b, _ in event.stages[0]]]
    a, b, _ = event.stages[0][2]
    event.stages[0][2][2] = (1, 2, 0)
    drawing = drawn(event)
    (seat,) = [it for it in drawing.seats if it.box.x > drawing.seats[0].box.x]
    assert (seat.player.number, seat.games, seat.kind) == (b, "", "seat")
    assert [it.player.number for it in drawing.seats if "through" in it.kind] == [b]
