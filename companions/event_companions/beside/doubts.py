"""FILE.doubts: scores that are wrong and can't be withdrawn, a line `round 3 table 9 score 2-0-0` for each.

A doubt ends when its match gets another score, or when the same one is entered again.
"""
from __future__ import annotations

import re
from dataclasses import dataclass, replace

from event_companions.core.files import kept_text, write_whole
from event_companions.core.lists import Match, Rounds
from event_companions.core.score import Score

LINE = re.compile(r"^round (\d+) table (\d+) score ([0-9]{1,9}-[0-9]{1,9}-[0-9]{1,9})$", re.M)


@dataclass(frozen=True, order=True)
class Doubt:
    number: int
    table: int
    score: Score

    def line(self) -> str:
        return f"round {self.number} table {self.table} score {self.score}\n"

    def stands(self, rounds: Rounds) -> bool:
        """Whether the match still has the score that is in doubt."""
        matches = rounds[self.number - 1] if 1 <= self.number <= len(rounds) else []
        return any(match.place == self.table and match.score == self.score for match in matches)


class Doubts:
    def __init__(self, file: str):
        self.path = f"{file}.doubts"

    def all(self) -> list[Doubt]:
        lines = LINE.findall(kept_text(self.path))
        return sorted({Doubt(int(number), int(table), Score.parse(score)) for number, table, score in lines})

    def standing(self, rounds: Rounds) -> list[Doubt]:
        return [doubt for doubt in self.all() if doubt.stands(rounds)]

    def add(self, doubt: Doubt) -> None:
        self.write([*self.without(doubt.number, doubt.table), doubt])

    def end(self, number: int, table: int) -> None:
        """Of a match that got a score, the same one or another."""
        if self.without(number, table) != self.all():
            self.write(self.without(number, table))

    def without(self, number: int, table: int) -> list[Doubt]:
        return [doubt for doubt in self.all() if (doubt.number, doubt.table) != (number, table)]

    def write(self, doubts: list[Doubt]) -> None:
        write_whole(self.path, "".join(doubt.line() for doubt in sorted(doubts)))


def with_doubts(rounds: Rounds, doubts: list[Doubt]) -> Rounds:
    """The rounds, in which a match whose score is in doubt stands as open."""
    doubted = {(doubt.number, doubt.table) for doubt in doubts if doubt.stands(rounds)}

    def shown(number: int, match: Match) -> Match:
        return replace(match, score=None) if (number, match.place) in doubted else match

    return [[shown(number, match) for match in matches] for number, matches in enumerate(rounds, 1)]
