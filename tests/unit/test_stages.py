"""The stages of a playoff by their names."""
import pytest
from event_companions.core.stages import slot_shown, slot_typed, stage_name, words_of_slot


def test_the_names_by_how_many_matches_the_first_stage_has():
    assert [stage_name(stage, 4) for stage in (1, 2, 3)] == ["quarterfinal", "semifinal", "final"]
    assert [stage_name(stage, 2) for stage in (1, 2)] == ["semifinal", "final"]
    assert stage_name(1, 1) == "final"
    # where it isn't known how many there are
    assert stage_name(2, 0) == "stage 2"


def test_a_match_as_it_is_shown_and_typed():
    assert [slot_shown(*it, 4) for it in ((1, 3), (2, 2), (3, 1))] == [
        "quarterfinal 3",
        "semifinal 2",
        "final",
    ]
    assert [slot_typed(*it, 4) for it in ((1, 3), (2, 2), (3, 1))] == ["qf3", "sf2", "final"]
    assert slot_shown(1, 2, 0) == "stage 1, slot 2"
    assert slot_typed(1, 2, 0) == "1 2"


@pytest.mark.parametrize(
    "text, found",
    [
        ("qf2 2 1", (1, 2, "2 1")),
        ("QF 2 2-1", (1, 2, "2-1")),
        ("quarterfinal 4 0 2", (1, 4, "0 2")),
        ("quarterfinals 1 2 0 1", (1, 1, "2 0 1")),
        ("sf1 2 0", (2, 1, "2 0")),
        ("semi 2 20", (2, 2, "20")),
        ("final 2 1", (3, 1, "2 1")),
        ("f 2 0", (3, 1, "2 0")),
        ("final", (3, 1, "")),
        ("1 2 2 1", None),
        ("finale 2 0", None),
        ("qf5 2 0", None),
        ("", None),
    ],
)
def test_words_that_name_a_match(text, found):
    assert words_of_slot(text, 4) == found


def test_a_stage_that_this_playoff_has_not():
    stage, slot, _ = words_of_slot("qf1 2 0", 2)
    assert stage < 1 and slot == 1
