"""How large the letters of a board are."""
from dataclasses import replace

from event_companions.core.lists import Player
from event_companions.sheets.board import (
    AROUND,
    FOOT,
    HEIGHT,
    LINE,
    SIZE_OF_SEVERAL,
    SIZES,
    WIDTH,
    Layout,
    filled,
    in_columns,
    layout_of,
    lines_in,
)
from event_companions.sheets.parts import Part, name_rows
from event_companions.sheets.widths import width_of


def by_name(names):
    players = [Player(at, name, False) for at, name in enumerate(names, 1)]
    rows = [replace(row, table="1", opponent=players[0]) for row in name_rows(players, False)]
    return Part("names", names=tuple(rows))


def test_more_players_have_smaller_letters():
    sizes = [
        layout_of(by_name([f"Ana Lima {at}" for at in range(count)])).size for count in (8, 37, 64, 128, 512)
    ]
    assert sizes[0] == SIZES[0] and sizes == sorted(sizes, reverse=True) and sizes[-1] == SIZE_OF_SEVERAL


def test_all_rows_have_room():
    for count in (8, 37, 64):
        layout = layout_of(by_name([f"Ana Lima {at}" for at in range(count)]))
        assert layout.rows == (-(-count // layout.columns),) * layout.columns
        assert (layout.rows[0] * (LINE + AROUND) + LINE) * layout.size <= HEIGHT
        assert layout.columns * layout.size < WIDTH


def test_where_there_is_no_foot_letters_are_larger():
    part = by_name([f"Ana Lima {at}" for at in range(37)])
    layout = layout_of(part, HEIGHT + FOOT)
    assert layout.size > layout_of(part).size
    assert (layout.rows[0] * (LINE + AROUND) + LINE) * layout.size <= HEIGHT + FOOT


def test_a_list_that_is_too_long_takes_several_looks():
    layout = layout_of(by_name([f"Ana Lima {at}" for at in range(512)]))
    # a line has the headings
    rows = int((HEIGHT / layout.size - LINE) / (LINE + AROUND))
    assert not layout.is_whole and layout.rows == (rows,) * (512 // rows) + (512 % rows,) * (512 % rows > 0)


def test_columns_are_filled_one_after_the_other():
    assert filled([1, 1, 2, 1, 3, 9, 1], 4) == (3, 2, 1, 1)
    assert in_columns("abcdefg", Layout(1, 3, rows=(3, 2, 1, 1))) == ["abc", "de", "f", "g"]
    assert in_columns("abcde", Layout(1, 3, rows=(2, 2, 2))) == ["ab", "cd", "e"]
    assert in_columns("abcd", Layout(1, 3, rows=(2, 2, 2))) == ["ab", "cd"]


def test_a_name_is_broken_between_words():
    assert lines_in("Ana Lima", 100) == (1, False)
    assert lines_in("Ana Lima", width_of("Lima")) == (2, False)
    assert lines_in("Maximiliane", width_of("Maxi"))[1]
    assert lines_in("", 1) == (1, False)


def test_a_name_without_a_place_to_break_is_shown_all_the_same():
    layout = layout_of(by_name(["W" * 60] * 400))
    assert (layout.size, layout.columns) == (SIZE_OF_SEVERAL, 1)
