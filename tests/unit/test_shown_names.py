"""Names that are shown in place of the enrolled ones."""
from dataclasses import replace

import pytest
from event_companions.beside.shown_names import ShownName, ShownNames, with_shown_names
from event_companions.core.lists import Player
from event_companions.core.names import compared
from tests.support.from_model import FromModel
from tests.support.random_evenings import ENDED, evening

PLAYERS = {1: Player(1, "Ana", False), 4: Player(4, "Petr - Mayer", True)}


def test_a_name_counts_while_the_player_is_enrolled_so(tmp_path):
    names = ShownNames(f"{tmp_path}/e.event")
    assert names.shown(PLAYERS) == PLAYERS
    names.keep(ShownName(4, "Petr - Mayer", "Peter Meyer"))
    names.keep(ShownName(1, "Bo", "Cy"))
    assert open(names.path).read() == "1\tBo\tCy\n4\tPetr - Mayer\tPeter Meyer\n"
    assert names.shown(PLAYERS) == {1: PLAYERS[1], 4: Player(4, "Peter Meyer", True)}
    names.keep(ShownName(4, "Petr - Mayer", "Petr - Mayer"))
    assert names.shown(PLAYERS) == PLAYERS


def test_a_broken_line_is_passed_over(tmp_path):
    with open(f"{tmp_path}/e.event.names", "w") as written:
        written.write("x\tAna\tBo\n1\tAna\n1\tAna\tAnna\n4")
    assert ShownNames(f"{tmp_path}/e.event").all() == [ShownName(1, "Ana", "Anna")]


def test_texts_of_the_program_get_the_names(dice):
    """They are the texts of the plain reading of an event in which the players are enrolled so."""
    event = evening(dice, 9, ENDED, 3, 4, True)
    enrolled = FromModel(event).players()
    texts = lambda: [
        event.players(),
        event.standings(),
        event.bracket(),
        *(event.slips(number) for number in (1, 2, 3)),
    ]
    joined = lambda lines: "".join(f"{line}\n" for line in lines)
    before = [joined(lines) for lines in texts()]
    changed = [
        event.stages[-1][0][0],
        event.stored[0][0][0],
        event.stored[0][-1][0],
        *event.stages[-1][0][:2],
    ]
    for number in changed:
        event.names[number - 1] = f"N{number} - \u5927"
    shown = {number: replace(player, name=event.names[number - 1]) for number, player in enrolled.items()}
    assert [with_shown_names(text, enrolled, shown) for text in before] == [
        joined(lines) for lines in texts()
    ]


@pytest.mark.parametrize(
    "one, other, is_alike",
    [
        ("Zo\u00eb", "Zoe\u0308", True),
        ("ana lima", "Ana Lima", True),
        ("STRASSE", "stra\u00dfe", True),
        ("Zoe", "Zo\u00eb", False),
        ("Ana", "Anna", False),
    ],
)
def test_names_that_look_alike(one, other, is_alike):
    assert (compared(one) == compared(other)) == is_alike


def test_a_last_name_that_a_list_has_told_is_kept(tmp_path):
    names = ShownNames(f"{tmp_path}/e.event")
    players = {1: Player(1, "Jo van der Berg", False), 2: Player(2, "Ana Lima", False)}
    names.keep(ShownName(1, "Jo van der Berg", "Jo van der Berg", "van der Berg"))
    assert open(names.path).read() == "1\tJo van der Berg\tJo van der Berg\tvan der Berg\n"
    assert names.shown(players) == {1: replace(players[1], last="van der Berg"), 2: players[2]}
    # it stays with a name that has it still
    names.rename(1, "Jo van der Berg", "Joanna van der Berg")
    assert names.all() == [ShownName(1, "Jo van der Berg", "Joanna van der Berg", "van der Berg")]
    names.rename(1, "Jo van der Berg", "Jo Meyer")
    assert names.all() == [ShownName(1, "Jo van der Berg", "Jo Meyer")]
    names.rename(1, "Jo van der Berg", "Jo van der Berg")
    assert names.all() == []
