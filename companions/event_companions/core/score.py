"""A score: the games that each of the two players of a match has won, and the drawn ones."""
from __future__ import annotations

import re
from typing import NamedTuple


class Score(NamedTuple):
    first: int
    second: int
    drawn: int = 0

    @classmethod
    def parse(cls, text: str) -> Score:
        """Of 2-1-0. A ValueError, if it is no score."""
        found = re.fullmatch("([0-9]{1,9})-([0-9]{1,9})-([0-9]{1,9})", text)
        if not found:
            raise ValueError(f"{text[:20]!r} is no score")
        return cls(*map(int, found.groups()))

    def __str__(self) -> str:
        return "-".join(self.words)

    @property
    def words(self) -> tuple[str, ...]:
        """As the program takes it."""
        return tuple(map(str, self))

    @property
    def typed(self) -> str:
        """As it is typed at the prompt."""
        return " ".join(self.words)

    @property
    def short(self) -> str:
        """Without drawn games, if there are none: 2-1, and 1-1-1."""
        return str(self) if self.drawn else "-".join(self.words[:2])
