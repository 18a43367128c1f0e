"""CSV and the final ranking, beside the plain reading."""
import csv
import io

import pytest
from event_companions.core.event import Event
from event_companions.core.exports import final_csv, final_ranking, playoff_csv, results_csv, standings_csv
from second_reading.plain_event import Event as Played
from second_reading.plain_event import winner
from tests.support.from_model import FromModel
from tests.support.plain_page import final_rows, standings_due
from tests.support.random_evenings import ENDED, IN_PLAYOFF, evening


def rows(text):
    return list(csv.reader(io.StringIO(text, newline="")))


def test_standings(dice):
    event = evening(dice, 24, ENDED, 3, 8, True)
    heading, *found = rows(standings_csv(Event(FromModel(event))))
    assert heading == ["rank", "no", "points", "omw", "gwp", "ogw", "dropped", "name"]
    assert found == [
        [rank, number, points, *shares, str(int(dropped == "D")), name]
        for rank, number, name, dropped, points, *shares in standings_due(event)
    ]


def test_playoff(dice):
    event = evening(dice, 24, IN_PLAYOFF, 3, 8, True)
    heading, *found = rows(playoff_csv(Event(FromModel(event))))
    assert heading == ["stage", "slot", "a", "b", "x", "y", "d"]
    assert found == [
        [str(it) for it in (stage, slot, a, b, *(score or ("", "", "")))]
        for stage, matches in enumerate(event.stages, 1)
        for slot, (a, b, score) in enumerate(matches, 1)
    ]


def test_results_and_playoff_with_names(dice):
    event = evening(dice, 23, ENDED, 3, 8, True)
    read = Event(FromModel(event))
    for text, lists, first in (
        (results_csv(read), event.stored, ["round", "table"]),
        (playoff_csv(read, has_names=True), event.stages, ["stage", "slot"]),
    ):
        heading, *found = rows(text)
        assert heading == [*first, "a", "b", "x", "y", "d", "name_a", "name_b"]
        assert found == [
            [
                *map(str, (number, place if b else 0, a, b, *(score or ("", "", "")))),
                event.names[a - 1],
                event.names[b - 1] if b else "",
            ]
            for number, matches in enumerate(lists, 1)
            for place, (a, b, score) in enumerate(matches, 1)
        ]


def test_the_final_ranking_with_points_and_records(dice):
    event = evening(dice, 13, ENDED, 3, 4, True)
    heading, *found = rows(final_csv(Event(FromModel(event))))
    assert heading == ["rank", "no", "points", "won", "lost", "drawn", "name"]
    due = [
        (rank, number, points, *(record.split("-") if record else ["", "", ""]), name)
        for rank, number, name, record, points in final_rows(event)
    ]
    assert [tuple(row) for row in found] == due


def others_ranked(event, cut):
    """The ranks of those who were not in the playoff: after the cut, and after each of them who is better."""
    merits = event.merits()
    seeded = {one for match in event.stages[0] for one in match[:2]}
    others = [merits[it] for it in merits if it not in seeded]
    return [cut + 1 + sum(other > merit for other in others) for merit in others]


@pytest.mark.parametrize("cut, ranks", [(2, [1, 2]), (4, [1, 2, 3, 3]), (8, [1, 2, 3, 3, 5, 5, 5, 5])])
def test_final_ranking(dice, cut, ranks):
    event = evening(dice, 13, ENDED, 3, cut)
    found = final_ranking(Event(FromModel(event)))
    assert [it.rank for it in found][:cut] == ranks
    assert [it.rank for it in found][cut:] == others_ranked(event, cut)
    numbers = [it.player.number for it in found]
    assert sorted(numbers) == list(event.numbers())
    assert numbers[0] == winner(event.stages[-1][0])
    order = list(event.merits())
    # who is out in a stage comes after all who are out in a later one, and before all who are out earlier
    at = 1
    for matches in reversed(event.stages):
        out = [a if winner(match) == b else b for match in matches for a, b in [match[:2]]]
        assert numbers[at : at + len(out)] == sorted(out, key=order.index)
        at += len(out)
    assert numbers[at:] == [it for it in order if it not in numbers[:at]]


def test_whom_the_standings_do_not_part_shares_a_rank():
    """After one round those who won by the same score are equal, and so are those who lost by it."""
    event = Played(1, 2)
    for number in range(1, 13):
        event.enrol(f"P{number}")
    event.start()
    event.pair(1, bytes(32))
    for table, score in enumerate([(2, 0, 0), (2, 0, 0), (2, 0, 0), (2, 1, 0), (2, 1, 0), (1, 1, 1)], 1):
        event.report(1, table, score, True)
    event.end_rounds()
    event.play(1, 1, (2, 0, 0))
    found = final_ranking(Event(FromModel(event)))
    # one of the three with 2-0 is left out; then two with 2-1, two drawn, two lost 1-2, three lost 0-2
    assert [it.rank for it in found] == [1, 2, 3, 4, 4, 6, 6, 8, 8, 10, 10, 10]
    assert [it.rank for it in found][2:] == others_ranked(event, 2)


def test_no_ranking_without_a_champion(dice):
    event = evening(dice, 13, ENDED, 3, 0)
    assert final_ranking(Event(FromModel(event))) == []
