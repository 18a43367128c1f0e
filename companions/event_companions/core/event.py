"""What the program says of an event at one time."""
from __future__ import annotations

import enum
from dataclasses import dataclass, replace
from functools import cached_property
from typing import Optional

from event_companions.beside.doubts import Doubts, with_doubts
from event_companions.beside.shown_names import ShownNames
from event_companions.core.lists import Bracket, Match, Matches, Player, Players, Rounds, Standing
from event_companions.core.names import sort_key, visible
from event_companions.core.plan import Plan, plan_of
from event_companions.core.program import FAULTS, Source
from event_companions.core.score import Score


class Phase(enum.Enum):
    ENROLLING = "enrolling"
    SWISS = "Swiss rounds"
    PLAYOFF = "playoff"
    FINISHED = "finished"


def shown_player(player: Player) -> str:
    return f"{visible(player.name)} ({player.number})"


@dataclass(frozen=True)
class Progress:
    """How far an event is: the newest round, who sits at its tables, whether the playoff has begun, and in
    which file it is, since `back` puts another one in place.
    """

    number: int = 0
    seats: tuple[tuple[int, int, int], ...] = ()
    is_cut: bool = False
    inode: int = 0


class Event:
    """Each part is asked once, when it is needed. What lies beside FILE is asked if a file is given."""

    def __init__(self, source: Source, file: str = ""):
        self.source, self.file = source, file

    @cached_property
    def enrolled(self) -> Players:
        """The players under the names that the program has."""
        return self.source.players()

    @cached_property
    def players(self) -> Players:
        """The same under the names by which they are shown."""
        return ShownNames(self.file).shown(self.enrolled) if self.file else self.enrolled

    @cached_property
    def by_name(self) -> list[Player]:
        """The players as people look them up."""
        return sorted(self.players.values(), key=lambda player: sort_key(player.name))

    @cached_property
    def rounds(self) -> Rounds:
        return self.source.rounds()

    @cached_property
    def shown_rounds(self) -> Rounds:
        """The rounds for the wall, on which a score in doubt counts as missing."""
        return with_doubts(self.rounds, Doubts(self.file).all()) if self.file else self.rounds

    @cached_property
    def bracket(self) -> Bracket:
        return self.source.bracket()

    @cached_property
    def listed(self) -> list[Standing]:
        """The standings as the program lists them."""
        return self.source.standings()

    @cached_property
    def standings(self) -> list[Standing]:
        players = self.players
        return [replace(standing, player=players[standing.player.number]) for standing in self.listed]

    @cached_property
    def plan(self) -> Optional[Plan]:
        """How many rounds there are, and how many go on to the playoff; None if that can't be read."""
        return plan_of(self.file, self.source.turn) if self.file else None

    @property
    def stages(self) -> Rounds:
        return self.bracket.stages

    @property
    def champion(self) -> Optional[Player]:
        number = self.bracket.champion
        return None if number is None else self.players[number]

    @cached_property
    def phase(self) -> Phase:
        # nobody goes on to the playoff while a table is open
        if self.open_tables():
            return Phase.SWISS
        if self.champion:
            return Phase.FINISHED
        if self.stages:
            return Phase.PLAYOFF
        # a round without a bracket is of the Swiss rounds
        return Phase.SWISS if self.rounds or self.source.is_swiss() else Phase.ENROLLING

    @cached_property
    def is_all_paired(self) -> bool:
        return self.source.is_all_paired()

    @property
    def progress(self) -> Progress:
        stamp = self.source.stamp()
        seats = tuple(match.seats for match in self.newest())
        is_cut = not self.open_tables() and bool(self.stages)
        return Progress(len(self.rounds), seats, is_cut, stamp.inode if stamp else 0)

    def read(self) -> tuple[Players, Rounds, Bracket]:
        """All that the file has, asked now: the enrolled names, as a copy has no others."""
        return self.enrolled, self.rounds, self.bracket

    @property
    def first_stage(self) -> int:
        """How many matches the first stage of the playoff has, or 0."""
        return len(self.stages[0]) if self.stages else 0

    def newest(self) -> Matches:
        return self.rounds[-1] if self.rounds else []

    def open_tables(self) -> Matches:
        return [match for match in self.newest() if match.is_open]

    def complete_rounds(self) -> int:
        return sum(not any(match.is_open for match in matches) for matches in self.rounds)

    def match(self, number: int, table: str) -> Optional[Match]:
        return found_in(self.rounds, number, table)

    def slot(self, stage: int, slot: str) -> Optional[Match]:
        return found_in(self.stages, stage, slot)

    def score_at(self, number: int, table: str) -> Optional[Score]:
        found = self.match(number, table)
        return found.score if found else None

    def score_in(self, stage: int, slot: str) -> Optional[Score]:
        found = self.slot(stage, slot)
        return found.score if found else None

    def named(self, name: str) -> Optional[Player]:
        """The player who was enrolled so."""
        return next((player for player in self.enrolled.values() if player.name == name), None)

    def shown(self, match: Match, score: Optional[Score] = None) -> str:
        """Both names, and the score between them, or a hyphen."""
        second = "bye" if match.is_bye else shown_player(self.players[match.second])
        return f"{shown_player(self.players[match.first])} {score or match.score or '-'} {second}"


def found_in(lists: Rounds, number: int, place: str) -> Optional[Match]:
    if not 1 <= number <= len(lists):
        return None
    return next((match for match in lists[number - 1] if match.place == int(place)), None)


def read_or_none(source: Source, file: str = "") -> Optional[Event]:
    """The event with all that is asked of it later, or None if it can't be read."""
    event = Event(source, file)
    try:
        event.read()
    except FAULTS:
        return None
    return event
