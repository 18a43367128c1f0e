"""FILE.notes, a line for each table of which the scorekeeper notes something."""
import os

import pytest
from event_companions.beside.notes import MOST_LETTERS, Note, Notes, note_of
from event_companions.core.lists import Match

AT_9, AT_4 = Match(9, 1, 2), Match(4, 3, 5)


@pytest.fixture
def notes(tmp_path):
    return Notes(f"{tmp_path}/e.event")


def test_a_table_has_one_note_at_a_time(notes):
    notes.put(3, AT_9, "+5 min")
    notes.put(3, AT_4, "Zoë is late")
    notes.put(3, AT_9, "+10 min")
    assert (
        open(notes.path).read()
        == "round 3 table 4 players 3 5 Zoë is late\nround 3 table 9 players 1 2 +10 min\n"
    )
    assert notes.of_match(3, AT_9) == "+10 min"
    assert notes.of_round(3, [AT_9, AT_4]) == [Note(3, 4, 3, 5, "Zoë is late"), Note(3, 9, 1, 2, "+10 min")]
    notes.put(3, AT_9, "")
    notes.put(3, AT_4, "")
    assert notes.all() == [] and not os.path.exists(notes.path)


def test_a_note_is_of_those_who_sit_there(notes):
    notes.put(3, AT_9, "+5 min")
    assert notes.of_round(3, [Match(9, 2, 1)]) == notes.of_round(2, [AT_9]) == []
    assert notes.of_match(3, Match(8, 1, 2)) == ""


def test_what_is_no_note_is_passed_over(notes):
    with open(notes.path, "wb") as written:
        written.write(b"round 3\n\xff\nround 3 table 9 players 1 2 +5\nround 3 table x players 1 2 a\n")
    assert notes.all() == [Note(3, 9, 1, 2, "+5")]


@pytest.mark.parametrize(
    "typed, note",
    [
        (" +5   min ", "+5 min"),
        ("", None),
        ("a" * MOST_LETTERS, "a" * MOST_LETTERS),
        ("a" * (MOST_LETTERS + 1), None),
        ("a\x1b[2J", None),
    ],
)
def test_a_note_as_it_is_typed(typed, note):
    assert note_of(typed) == note
