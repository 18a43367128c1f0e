"""FILE.notes: what the scorekeeper notes of a table, such as minutes more, for its two players and the board:
a line `round 3 table 9 players 4 2 +5 min` for each. It is a note and no rule.
"""
from __future__ import annotations

import re
from dataclasses import dataclass
from typing import Optional

from event_companions.core.files import write_whole
from event_companions.core.lists import Match, Matches
from event_companions.core.names import visible

LINE = re.compile(r"^round (\d{1,2}) table (\d{1,3}) players (\d{1,3}) (\d{1,3}) (.*)$", re.M)
MOST_LETTERS = 60


@dataclass(frozen=True)
class Note:
    """Who sits there is kept too: after `back` others may."""

    number: int
    table: int
    first: int
    second: int
    text: str

    def line(self) -> str:
        return f"round {self.number} table {self.table} players {self.first} {self.second} {self.text}\n"

    def is_of(self, number: int, match: Match) -> bool:
        return (self.number, self.table, self.first, self.second) == (number, *match.seats)


class Notes:
    def __init__(self, file: str):
        self.path = f"{file}.notes"

    def all(self) -> list[Note]:
        try:
            with open(self.path, encoding="utf-8", errors="replace") as notes:
                lines = LINE.findall(notes.read())
        except OSError:
            return []
        return [Note(int(it[0]), int(it[1]), int(it[2]), int(it[3]), it[4]) for it in lines]

    def of_match(self, number: int, match: Match) -> str:
        return next((note.text for note in self.all() if note.is_of(number, match)), "")

    def of_round(self, number: int, matches: Matches) -> list[Note]:
        """Those of the round whose players sit there still, by table."""
        found = [note for note in self.all() if any(note.is_of(number, match) for match in matches)]
        return sorted(found, key=lambda note: note.table)

    def put(self, number: int, match: Match, text: str) -> None:
        """A table has one note at a time. Without a text it has none."""
        others = [note for note in self.all() if (note.number, note.table) != (number, match.place)]
        new = [Note(number, *match.seats, text)] if text else []
        write_whole(self.path, "".join(note.line() for note in [*others, *new]))


def note_of(typed: str) -> Optional[str]:
    """A note as it is typed, or None if no page shows it so."""
    text = " ".join(typed.split())
    return text if text == visible(text) and 0 < len(text) <= MOST_LETTERS else None
