"""How many matches a player has won, lost and drawn: what players look for beside a name."""
from __future__ import annotations

from dataclasses import dataclass
from typing import Iterator, Optional

from event_companions.core.event import Event
from event_companions.core.lists import Match, Rounds
from event_companions.core.working import DRAWN, WON, is_complete, seen_by


@dataclass(frozen=True)
class Record:
    won: int = 0
    lost: int = 0
    drawn: int = 0

    @property
    def points(self) -> int:
        return WON * self.won + DRAWN * self.drawn

    def __str__(self) -> str:
        return f"{self.won}-{self.lost}-{self.drawn}"

    def after(self, match: Match, number: int) -> Record:
        mine, others, _ = seen_by(match, number)
        return Record(self.won + (mine > others), self.lost + (mine < others), self.drawn + (mine == others))


def records_of(rounds: Rounds, counted: Optional[int] = None) -> dict[int, Record]:
    """By the complete rounds, or those of the first ones. One that came before the first in which a player
    sits is lost. Who never sat has no record, since no list tells when they came.
    """
    found: dict[int, Record] = {}
    complete = 0
    for at, matches in enumerate(rounds):
        counts = is_complete(matches) and (counted is None or at < counted)
        for match in matches:
            for number in seats_of(match):
                record = found.get(number, Record(lost=complete))
                found[number] = record.after(match, number) if counts else record
        complete += counts
    return found


def records_now(event: Event) -> dict[int, Record]:
    """Those of the standings, once a round is complete."""
    return records_of(event.rounds) if event.complete_rounds() else {}


def seats_of(match: Match) -> Iterator[int]:
    yield match.first
    if not match.is_bye:
        yield match.second
