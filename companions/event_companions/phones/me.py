"""A player's own page: what stands on it, of a snapshot."""
from __future__ import annotations

from dataclasses import dataclass
from typing import Optional

from event_companions.core.event import Event
from event_companions.core.lists import Match, Player, Standing
from event_companions.core.working import Totals, seen_by, totals_of
from event_companions.phones.cache import Snapshot

# this many lines of the standings above and below the player's own
LINES_AROUND = 2


@dataclass(frozen=True)
class Record:
    """A player, with what the complete rounds come to."""

    player: Player
    totals: Totals
    standing: Optional[Standing]

    @property
    def shown(self) -> str:
        """Won, lost and drawn matches; drawn ones if there are any."""
        counts = [self.totals.won, self.totals.lost, *[self.totals.drawn] * bool(self.totals.drawn)]
        return "-".join(map(str, counts))


@dataclass(frozen=True)
class Played:
    """A match as the player sees it. Of a bye there is no opponent."""

    # or the stage of the playoff, and its match
    round: int
    opponent: Optional[Player]
    score: str
    points: str = ""


@dataclass(frozen=True)
class InPlayoff:
    """The match that a player has to play in the playoff, or played last; `said` is the text of how it stands."""

    stage: int
    match: Match
    opponent: Player
    said: str


@dataclass(frozen=True)
class Me:
    own: Record
    number: int
    # of the newest round, or None if the player isn't in it
    match: Optional[Match]
    opponent: Optional[Record]
    in_playoff: Optional[InPlayoff]
    is_playoff: bool
    played: tuple[Played, ...]
    # the same of the playoff
    stages_played: tuple[Played, ...]
    around: tuple[Standing, ...]

    @property
    def player(self) -> Player:
        return self.own.player


def record_of(snapshot: Snapshot, number: int) -> Record:
    standing = next((it for it in snapshot.standings if it.player.number == number), None)
    return Record(snapshot.players[number], totals_of(number, snapshot.event.rounds), standing)


def played_by(snapshot: Snapshot, number: int) -> tuple[Played, ...]:
    found = []
    for at, matches in enumerate(snapshot.event.rounds, 1):
        match = next((it for it in matches if it.has(number)), None)
        if match and match.score:
            won, lost, _ = score = seen_by(match, number)
            opponent = snapshot.players.get(match.opponent_of(number))
            points = "3" if won > lost else "1" if won == lost else "0"
            found.append(Played(at, opponent, "" if match.is_bye else score.short, points))
    return tuple(found)


def stages_played_by(snapshot: Snapshot, number: int) -> tuple[Played, ...]:
    return tuple(
        Played(stage, snapshot.players[match.opponent_of(number)], seen_by(match, number).short)
        for stage, matches in enumerate(snapshot.event.stages, 1)
        for match in matches
        if match.has(number) and match.score
    )


def in_playoff_of(event: Event, number: int) -> Optional[InPlayoff]:
    """None for who isn't in it."""
    matches = [(stage, it) for stage, found in enumerate(event.stages, 1) for it in found if it.has(number)]
    if not matches:
        return None
    stage, match = matches[-1]
    return InPlayoff(stage, match, event.players[match.opponent_of(number)], said_of(event, match, number))


def said_of(event: Event, match: Match, number: int) -> str:
    if not match.score:
        return "playoff_now"
    if event.champion and event.champion.number == number:
        return "playoff_won"
    won, lost, _ = seen_by(match, number)
    return "playoff_waits" if won > lost else "playoff_out"


def lines_around(standings: list[Standing], number: int) -> tuple[Standing, ...]:
    at = next((place for place, line in enumerate(standings) if line.player.number == number), None)
    return () if at is None else tuple(standings[max(0, at - LINES_AROUND) : at + LINES_AROUND + 1])


def me_of(snapshot: Snapshot, number: int) -> Me:
    event = snapshot.event
    match = snapshot.matches.get(number)
    if match and not match.is_bye:
        # with the score that came since the event was read
        match = snapshot.match(snapshot.number, match.place)
    opponent = match.opponent_of(number) if match else 0
    is_playoff = bool(event.stages)
    return Me(
        record_of(snapshot, number),
        snapshot.number,
        match,
        record_of(snapshot, opponent) if opponent else None,
        in_playoff_of(event, number),
        is_playoff,
        played_by(snapshot, number),
        stages_played_by(snapshot, number),
        lines_around(snapshot.standings, number) if event.complete_rounds() else (),
    )
