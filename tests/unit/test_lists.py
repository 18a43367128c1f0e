import csv
import io

import pytest
from event_companions.core.lists import (
    Match,
    Unreadable,
    bracket_of,
    pairings_of,
    players_of,
    rounds_of,
    standings_of,
)
from event_companions.core.score import Score
from tests.support.random_evenings import WAYS, evening


def text_of(lines):
    return "".join(f"{line}\n" for line in lines)


def csv_of(*rows):
    written = io.StringIO()
    csv.writer(written, lineterminator="\n").writerows(rows)
    return written.getvalue()


@pytest.fixture
def events(dice):
    return [evening(dice, players, way, 3, cut, True) for way in WAYS for players, cut in ((9, 8), (24, 4))]


def test_standings(events):
    for event in events:
        merits = event.merits()
        read = standings_of(text_of(event.standings()))
        assert [(it.player.number, it.player.name, it.player.has_dropped, it.points) for it in read] == [
            (number, event.names[number - 1], number in event.dropped, str(merits[number][0]))
            for number in merits
        ]


def test_pairings(events):
    for event in events:
        for number, matches in enumerate(event.stored, 1):
            assert pairings_of(text_of(event.slips(number))) == [
                Match(place if b else 0, a, b, score and Score(*score))
                for place, (a, b, score) in enumerate(matches, 1)
            ]


def test_bracket(events):
    for event in events:
        read = bracket_of(text_of(event.bracket()))
        assert read.stages == [
            [Match(slot, a, b, score and Score(*score)) for slot, (a, b, score) in enumerate(it, 1)]
            for it in event.stages
        ]
        last = event.bracket()[-1]
        assert read.champion == (int(last.split()[1]) if last.startswith("Champion ") else None)


def test_lists(events):
    for event in events:
        rows = [[number, event.names[number - 1], int(number in event.dropped)] for number in event.numbers()]
        read = players_of(csv_of(["no", "name", "dropped"], *rows))
        assert [[it.number, it.name, int(it.has_dropped)] for it in read.values()] == rows
        rows = [
            [number, place if b else 0, a, b, *(score or ("", "", ""))]
            for number, matches in enumerate(event.stored, 1)
            for place, (a, b, score) in enumerate(matches, 1)
        ]
        assert rounds_of(csv_of(["round", "table", "a", "b", "x", "y", "d"], *rows)) == [
            [
                Match(place if b else 0, a, b, score and Score(*score))
                for place, (a, b, score) in enumerate(it, 1)
            ]
            for it in event.stored
        ]


def test_a_name_is_found_by_the_heading_wherever_it_stands():
    assert (
        standings_of(
            "Rank    No Pts    OMW    GWP    OGW D Name\n   1     7   3  33.00 100.00  33.00 D Ana - Bo\n"
        )[0].player.name
        == "Ana - Bo"
    )


@pytest.mark.parametrize(
    "reader, text",
    [
        (standings_of, "<html>\n"),
        (standings_of, ""),
        (pairings_of, " Tab    A    B Score Names\n   1    1    2 -     An"),
        (pairings_of, " Tab    A    B Score Names\nxxxx    1    2 -     Ana\n"),
        (bracket_of, "Champion 3 Cy\n"),
        (players_of, 'no,name,dropped\n1,Ana,0\n2,"Li'),
        (players_of, "no,name,dropped\n1,Ana\n"),
        (players_of, 'no,name,dropped\n1,"Ana,0\n'),
        (players_of, "name\nAna\n"),
        (rounds_of, "round,table,a,b,x,y,d\n2,1,1,2,2,0,0\n"),
    ],
)
def test_what_is_no_list_or_ends_in_the_middle_is_not_read(reader, text):
    with pytest.raises(Unreadable):
        reader(text)
