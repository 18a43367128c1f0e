"""How much room a name takes, before a browser lays it out."""
from __future__ import annotations

import unicodedata
from functools import lru_cache

MILLIMETRES_A_POINT = 0.3528
# words aren't filled up to the edge
FILLED = 0.85
# of letters that are narrower or wider than others, in the widest typeface that pages take
ROOMS = {"iIjJl.,:;'\u2019|!": 0.38, "ftr() -": 0.45, "mwMW@%": 1.0}


def room_of(letter: str) -> float:
    """About how wide a letter is, beside its height; rather too much than too little."""
    if unicodedata.combining(letter):
        return 0.0
    if unicodedata.east_asian_width(letter) in "WF" or ord(letter) > 0xFFFF:
        return 1.25
    return next(
        (room for letters, room in ROOMS.items() if letter in letters), 0.82 if letter.isupper() else 0.65
    )


@lru_cache(maxsize=4096)
def width_of(name: str) -> float:
    """In heights of a letter."""
    return sum(map(room_of, name))


def size_for(name: str, size: float, room: float, lines: int) -> float:
    """The size in points at which the name takes this many lines at most, in a room of this many millimetres."""
    width = width_of(name) * MILLIMETRES_A_POINT
    return size if not width else min(size, round(lines * room * FILLED / width, 1))
