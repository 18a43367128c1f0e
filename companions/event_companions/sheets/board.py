"""How large the letters of a board are, and in how many columns a list stands: a wall shows all of it in one
look, unless letters would be too small for a wall.
"""
from __future__ import annotations

import itertools
import math
from dataclasses import dataclass, replace
from typing import Iterator, Optional, Sequence, Tuple, TypeVar

from event_companions.sheets.parts import Part
from event_companions.sheets.widths import width_of

# a screen of 16 by 9, in hundredths of its width, without the margins, the band and the foot, and with room for
# columns that a browser fills unevenly; and the foot, whose room a list takes where there is none
WIDTH, HEIGHT, FOOT = 96.0, 39.5, 6.5
# of the room for a name, what is counted on: letters are a little wider than estimated here and there
FILLED = 0.95
# in heights of a letter: between two columns, of a line, around a row
GAP, LINE, AROUND = 2.2, 1.15, 0.22
SIZES = (2.4, 2.2, 2.05, 1.9, 1.75, 1.6, 1.45, 1.3, 1.2, 1.1, 1.0, 0.9)
# of a list for which these are too large, so that it takes several looks
SIZE_OF_SEVERAL = SIZES[-1]
MOST_COLUMNS = 6
# of a row: the room that is not for names, and how many names stand side by side; an opponent's is smaller
ROOMS = {
    "players": (4.2, 1),
    "names": (6.3, 1.8),
    "tables": (13.0, 2),
    "standings": (9.8, 1),
    "seats": (7.6, 1),
    "final": (8.6, 1),
}
# and for the record beside a name, and for percentages, which are as large as names or are left out
RECORD, SHARES = 3.2, 12.3
# as small as the letters of standings may be for the sake of percentages
LEAST_WITH_SHARES = 1.1

Names = Tuple[str, ...]
Row = TypeVar("Row")


@dataclass(frozen=True)
class Layout:
    """The size of the letters, in hundredths of the screen's width, the number of columns, and how many rows
    each has; of standings, whether there is room for the percentages; whether one look shows all; and how high
    a look is.
    """

    size: float
    columns: int
    has_shares: bool = True
    rows: tuple[int, ...] = ()
    is_whole: bool = True
    height: float = HEIGHT


def rows_of(part: Part) -> list[Names]:
    """The names in each row."""
    rows: list[Names] = [(row.first.name, row.second.name if row.second else "") for row in part.tables]
    rows += [(ranked.player.name,) for ranked in part.ranking]
    # a comma stands after the last name
    rows += [(f"{row.player.name},", row.opponent.name if row.opponent else "") for row in part.names]
    # the word `dropped` is in smaller letters
    rows += [(it.player.name + " drop" * it.player.has_dropped,) for it in part.standings]
    return rows


def lines_in(name: str, room: float) -> tuple[int, bool]:
    """How many lines a name takes, and whether one of its words has to be broken."""
    lines, filled, is_broken = 1, 0.0, False
    for word in name.split():
        width = width_of(word)
        if filled and filled + width_of(" ") + width > room:
            lines, filled = lines + 1, 0.0
        if width > room:
            is_broken = True
            lines += math.ceil(width / room) - 1
        filled += width + (width_of(" ") if filled else 0.0)
    return lines, is_broken


def heights_of(rows: list[Names], room: float, may_break: bool) -> Optional[list[float]]:
    """Of each row; None if a word would be broken."""
    heights = []
    for names in rows:
        found = [lines_in(name, room) for name in names]
        if not may_break and any(is_broken for _, is_broken in found):
            return None
        heights.append(max(lines for lines, _ in found) * LINE + AROUND)
    return heights


def room_for(part: Part, layout: Layout) -> float:
    """For each name of a row."""
    others, side_by_side = ROOMS[part.kind]
    others += side_by_side * RECORD if part.records else 0.0
    others += SHARES if part.standings and layout.has_shares else 0.0
    width = WIDTH / layout.size
    return ((width - (layout.columns - 1) * GAP) / layout.columns - others) / side_by_side * FILLED


def height_for(layout: Layout) -> float:
    """For the rows of a column."""
    # a line above it has the headings
    return layout.height / layout.size - LINE


def heights_in(rows: list[Names], part: Part, layout: Layout, may_break: bool) -> Optional[list[float]]:
    room = room_for(part, layout)
    return heights_of(rows, room, may_break) if room > 0 else None


def fits(rows: list[Names], part: Part, layout: Layout, may_break: bool) -> bool:
    if len(rows) * (LINE + AROUND) / layout.columns > height_for(layout):
        # also if each name takes one line, so that no name has to be looked at
        return False
    heights = heights_in(rows, part, layout, may_break)
    if heights is None:
        return False
    # columns are of rows that stay whole, so one may be a row longer than the others
    tallest = sum(heights) / layout.columns + (max(heights) if layout.columns > 1 else 0.0)
    return tallest <= height_for(layout)


def layout_of(part: Part, height: float = HEIGHT) -> Optional[Layout]:
    """The largest letters with which all of a list is seen in one look; else those of several looks."""
    rows = rows_of(part)
    if part.kind not in ROOMS or not rows:
        return None
    for may_break in (False, True):
        found = next((it for it in choices_for(part, height) if fits(rows, part, it, may_break)), None)
        if found:
            in_each = math.ceil(len(rows) / found.columns)
            return replace(found, rows=(in_each,) * found.columns)
    return layout_of_several(rows, part, height)


def layout_of_several(rows: list[Names], part: Part, height: float) -> Layout:
    """As many columns as show the most in a look."""
    has_shares, columns = not part.standings, range(1, MOST_COLUMNS + 1)
    layouts = [Layout(SIZE_OF_SEVERAL, it, has_shares, height=height) for it in columns]
    found = [(layout, heights_in(rows, part, layout, layout.columns == 1)) for layout in layouts]
    whole = [(layout, heights) for layout, heights in found if heights]
    layout, heights = max(
        whole, key=lambda it: it[0].columns / sum(it[1]), default=(layouts[0], [LINE + AROUND])
    )
    return replace(layout, rows=filled(heights, height_for(layout)), is_whole=False)


def filled(heights: list[float], room: float) -> tuple[int, ...]:
    """How many rows each column has, one after the other."""
    counts, used = [0], 0.0
    for height in heights:
        if counts[-1] and used + height > room:
            counts, used = [*counts, 0], 0.0
        counts[-1] += 1
        used += height
    return tuple(counts)


def in_columns(rows: Sequence[Row], layout: Layout) -> list[Sequence[Row]]:
    ends = list(itertools.accumulate(layout.rows))
    return [rows[begin:end] for begin, end in zip([0, *ends], ends) if rows[begin:end]]


def choices_for(part: Part, height: float) -> Iterator[Layout]:
    """The best first."""
    columns = range(1, MOST_COLUMNS + 1)
    if part.standings:
        with_shares = (size for size in SIZES if size >= LEAST_WITH_SHARES)
        yield from (Layout(size, it, height=height) for size in with_shares for it in columns)
    yield from (Layout(size, it, not part.standings, height=height) for size in SIZES for it in columns)
