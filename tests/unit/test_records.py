"""What players have won, lost and drawn, beside the plain reading."""
import pytest

from event_companions.core.event import Event
from event_companions.core.records import Record, records_of
from second_reading.plain_event import Event as Plain
from tests.support.from_model import FromModel
from tests.support.plain_page import record_due
from tests.support.random_evenings import COMPLETE, OPEN, evening


def test_by_hand():
    """A bye is won; a round before the first one in which a player sits is lost; an open round counts not yet."""
    plain = Plain(4, 0)
    for name in ("Ana", "Bo", "Cy", "Di"):
        plain.enrol(name)
    plain.start()
    plain.stored = [
        [[2, 1, (2, 0, 0)], [3, 0, (2, 0, 0)]],
        [[2, 3, (1, 1, 1)], [4, 1, (0, 2, 0)]],
        [[2, 4, None], [1, 3, (2, 0, 0)]],
    ]
    found = records_of(Event(FromModel(plain)).rounds)
    assert found == {1: Record(1, 1, 0), 2: Record(1, 0, 1), 3: Record(1, 0, 1), 4: Record(0, 2, 0)}
    assert (str(found[2]), found[2].points) == ("1-0-1", 4)
    # as Di comes into round 2
    assert records_of(Event(FromModel(plain)).rounds[:2], 1)[4] == Record(0, 1, 0)


@pytest.mark.parametrize("way", [OPEN, COMPLETE])
def test_as_the_plain_reading_has_them(dice, way):
    for _ in range(12):
        plain = evening(dice, dice.randint(2, 24), way, 4, 0)
        found = records_of(Event(FromModel(plain)).rounds)
        assert {number: str(it) for number, it in found.items()} == {
            number: record_due(plain, number) for number in found
        }
        assert all(it.points == plain.points(number) for number, it in found.items())
