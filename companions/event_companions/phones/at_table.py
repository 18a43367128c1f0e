"""Who asks at a table, and for whom: by the code of a slip, of a seat, or by a player's own page."""
from __future__ import annotations

import re
from dataclasses import dataclass
from typing import Optional

from event_companions.beside.codes import FIRST_SEAT, SECOND_SEAT
from event_companions.beside.reports import CALLS, CALLS_OFF, HOME, STAYS, WRONG
from event_companions.core.lists import Match, Player
from event_companions.phones.asked import Asked, Fields
from event_companions.phones.cache import Snapshot


@dataclass(frozen=True)
class Typed:
    """A code that is right or wrong, and of which table it is to be."""

    round: int
    table: int
    code: str


def typed_in(path: str) -> Optional[Typed]:
    found = re.fullmatch(r"/[tT]/([0-9]{1,3})/([0-9]{1,3})/([A-Za-z-]{8,12})", path)
    return Typed(int(found[1]), int(found[2]), found[3]) if found else None


@dataclass(frozen=True)
class Link:
    """A player's own page, or what it hands in: of which match, so that nothing goes to a later one."""

    number: int
    code: str
    # round, table, and who sits there
    place: Optional[tuple[int, int, int, int]] = None


def link_in(path: str) -> Optional[Link]:
    place = "/([0-9]{1,2})-([0-9]{1,3})-([0-9]{1,3})-([0-9]{1,3})"
    found = re.fullmatch(f"/[pP]/([0-9]{{1,3}})/([A-Za-z-]{{12,16}})(?:{place})?", path)
    if not found:
        return None
    seats = (int(found[3]), int(found[4]), int(found[5]), int(found[6])) if found[3] else None
    return Link(int(found[1]), found[2], seats)


@dataclass(frozen=True)
class AtTable:
    """A request at a table with its code: who asks, and what was known then."""

    asked: Asked
    snapshot: Snapshot
    number: int
    match: Match
    seat: int
    target: str
    # who goes home after the round, as it was said by now
    going: tuple[Player, ...] = ()
    # the page of the player whose link it is
    me: str = ""

    @property
    def note(self) -> str:
        """What the scorekeeper notes of the table."""
        notes = self.snapshot.notes
        return next((note.text for note in notes if note.is_of(self.number, self.match)), "")

    @property
    def done(self) -> str:
        """Where it goes on once something was handed in."""
        return self.me or self.target

    @property
    def seats(self) -> tuple[int, int]:
        return self.match.first, self.match.second

    @property
    def speaks_for(self) -> tuple[int, ...]:
        """For whom it may say that they go home: of a seat oneself alone."""
        return (self.you.number,) if self.you else self.seats

    @property
    def may_go(self) -> list[Player]:
        """Of whom it can be said still."""
        players = [self.snapshot.players[number] for number in self.speaks_for]
        return [player for player in players if not player.has_dropped and player not in self.going]

    @property
    def you(self) -> Optional[Player]:
        """Whose seat it is, or None if the code is the table's."""
        number = {FIRST_SEAT: self.match.first, SECOND_SEAT: self.match.second}.get(self.seat)
        return self.snapshot.players[number] if number else None

    @property
    def opponent(self) -> Optional[Player]:
        return self.snapshot.players[self.match.opponent_of(self.you.number)] if self.you else None


def drops_in(form: Fields, speaks_for: tuple[int, ...]) -> tuple[int, ...]:
    return tuple(number for number in speaks_for if form.get(f"drop{number}") == "1")


def said_in(at: AtTable) -> tuple[()] | tuple[str, tuple[int, ...]]:
    """What is said without a score: that the stored one is wrong; that somebody goes home, or stays after all;
    and on a player's own page that a judge is to come, or need not.
    """
    form = at.asked.form
    if form.get(WRONG) == "1" and at.match.score:
        return WRONG, ()
    for outcome in (HOME, STAYS):
        if form.get(outcome, "") in map(str, at.speaks_for):
            return outcome, (int(form[outcome]),)
    judge = form.get("judge", "")
    return (judge, ()) if at.me and judge in (CALLS, CALLS_OFF) else ()
