"""What is shown: the event as it was last read, and the scores that were answered since."""
from __future__ import annotations

import os
import threading
import time
from dataclasses import dataclass, field, replace
from typing import Optional, Tuple

from event_companions.beside.clock import Clock, kept_clock
from event_companions.beside.look import Look, look_of
from event_companions.beside.notes import Note, Notes
from event_companions.beside.title import shown_text, title_of
from event_companions.beside.troubles import Troubles
from event_companions.core.event import Event
from event_companions.core.lists import Match, Matches, Player, Players, Rounds, Standing, matches_by_player
from event_companions.core.program import FAULTS, Source, Stamp
from event_companions.core.reading import Unread, read_whole
from event_companions.core.score import Score
from event_companions.core.turn import Turn
from event_companions.phones.kept_codes import KeptCodes
from event_companions.phones.running import Running

SECONDS_BETWEEN_LOOKS = 0.5
SECONDS_BETWEEN_READINGS = 2.0
# what goes wrong with reading, among the troubles
EVENT = "event"

NEW_EVENT = """\
The codes are put away: a new event began here. Start event-phones again, and
print slips again."""

# a match: its round, its table, and who sits there
Place = Tuple[int, int, int, int]


def place_of(number: int, match: Match) -> Place:
    return (number, *match.seats)


def with_scores(rounds: Rounds, stored: dict[Place, Score]) -> Rounds:
    """The rounds, with the scores that the program took since they were read."""

    def shown(number: int, match: Match) -> Match:
        return replace(match, score=match.score or stored.get(place_of(number, match)))

    newest = len(rounds)
    return [*rounds[:-1], [shown(newest, match) for match in rounds[-1]]] if rounds else []


class ReadEvent(Event):
    """An event that was read whole, with the scores that came since."""

    def __init__(self, read: Event, stored: dict[Place, Score]):
        super().__init__(read.source, read.file)
        rounds, shown = with_scores(read.rounds, stored), with_scores(read.shown_rounds, stored)
        vars(self).update(vars(read), rounds=rounds, shown_rounds=shown)


@dataclass(frozen=True)
class Snapshot:
    """An event at one time. Each snapshot has another version."""

    event: ReadEvent
    title: str
    version: int
    # by name
    by_name: list[Player]
    # the match of each player who sits in the newest round
    matches: dict[int, Match]
    # what the scorekeeper notes of tables of the newest round
    notes: tuple[Note, ...] = ()
    # of the file that was read: after `back` there is another one
    inode: Optional[int] = None
    # how the board looks, and in which language the room is
    look: Look = Look()

    @property
    def number(self) -> int:
        return len(self.event.rounds)

    @property
    def pairing(self) -> tuple[Optional[int], int, int]:
        """What changes with each round and stage, and when another file is put in place."""
        return self.inode, self.number, len(self.event.stages)

    @property
    def players(self) -> Players:
        return self.event.players

    @property
    def standings(self) -> list[Standing]:
        return self.event.standings

    @property
    def newest(self) -> Matches:
        return self.event.newest()

    def match(self, number: int, table: int) -> Optional[Match]:
        found = self.event.match(number, str(table))
        return None if found is None or found.is_bye else found


@dataclass(frozen=True)
class Answered:
    """A score that the program took, and when: a reading that began later has it."""

    at: float
    place: Place
    score: Score


@dataclass
class EventCache:
    """Keeps a snapshot of the event: read when the file has changed, and at most every two seconds."""

    program: str
    file: str
    title: Optional[str] = None
    fault: str = ""
    snapshot: Optional[Snapshot] = None
    answered: list[Answered] = field(default_factory=list)
    running: Running = field(default_factory=Running)
    troubles: Troubles = field(default_factory=Troubles)
    codes: Optional[KeptCodes] = None

    def __post_init__(self) -> None:
        # one thread reads at a time, by a turn of its own
        self.reading, self.lock = threading.Lock(), threading.Lock()
        self.source = Source(self.program, self.file, Turn(self.file, makes_file=True), most_tries=1)
        self.base: Optional[Snapshot] = None
        self.stamp: tuple[Optional[Stamp], tuple[float, ...]] = None, ()

    @property
    def now(self) -> Snapshot:
        assert self.snapshot, "it is read before it is shown"
        return self.snapshot

    @property
    def clock(self) -> Optional[Clock]:
        return kept_clock(self.file)

    def read(self) -> bool:
        """Whether it was read. If it wasn't, what was read before stays."""
        with self.reading:
            of_event, beside = self.stamp_now()
            begun = time.monotonic()
            try:
                event, title = read_whole(self.source, self.file, self.read_all)
            except Unread as fault:
                return self.failed(str(fault))
            except OSError as fault:
                return self.failed(f"{fault.filename or self.file}: {fault.strerror}")
            self.fault = ""
            self.troubles.over(EVENT)
            with self.lock:
                self.stamp = of_event, beside
                self.answered = [answer for answer in self.answered if answer.at >= begun]
                self.keep(event, title, of_event.inode if of_event else None)
            return True

    def failed(self, fault: str) -> bool:
        self.fault = fault
        self.troubles.tell(EVENT, f"The event can't be read now: {fault}")
        return False

    def read_if_changed(self) -> None:
        """At once, if somebody is told what is stored."""
        if self.stamp_now() != self.stamp:
            self.read()

    def read_all(self, event: Event) -> tuple[Event, str]:
        """All that is shown, so that nothing is asked later, for a request least of all."""
        event.read()
        event.standings
        event.shown_rounds
        event.plan
        return event, shown_text(self.title) if self.title else title_of(self.file, self.source.turn)

    def keep(self, event: Event, title: str, inode: Optional[int] = None) -> None:
        """An event that was read, with what is made of it once."""
        read = ReadEvent(event, {})
        matches = read.newest()
        notes = tuple(Notes(self.file).of_round(len(read.rounds), matches))
        look = look_of(self.file)
        self.base = Snapshot(read, title, 0, read.by_name, matches_by_player(matches), notes, inode, look)
        self.show()

    def stamp_now(self) -> tuple[Optional[Stamp], tuple[float, ...]]:
        """What changes with each command, and with what lies beside FILE and is shown."""
        endings = ".doubts", ".names", ".title", ".notes", ".draws", ".look"
        return self.source.stamp(), tuple(time_of(f"{self.file}{ending}") for ending in endings)

    def show(self) -> None:
        """The snapshot with the scores that were answered since it was read."""
        assert self.base
        event = ReadEvent(self.base.event, {answer.place: answer.score for answer in self.answered})
        version = self.snapshot.version + 1 if self.snapshot else 1
        self.snapshot = replace(self.base, event=event, version=version)

    def store(self, number: int, match: Match, score: Score) -> None:
        """A score that the program took. It is shown from now on, whatever is being read meanwhile."""
        with self.lock:
            self.answered.append(Answered(time.monotonic(), place_of(number, match), score))
            self.show()

    def go_on(self) -> None:
        while not self.running.is_over.wait(SECONDS_BETWEEN_LOOKS):
            try:
                self.look()
            except Exception as fault:
                self.failed(f"{type(fault).__name__}: {fault}")

    def look(self) -> None:
        if self.codes and not self.codes.are_good(self.is_same_event):
            self.running.end(NEW_EVENT)
        elif self.stamp_now() != self.stamp or self.fault or self.answered:
            self.read()
            self.running.is_over.wait(SECONDS_BETWEEN_READINGS)

    def is_same_event(self) -> Optional[bool]:
        """Whether the file has the players and the rounds that were read last, as far as it has any. None
        while it can't be read.
        """
        now, before = Event(self.source), self.now.event
        try:
            players, rounds = now.enrolled, now.rounds
        except FAULTS:
            return None
        has_players = bool(players) and all(
            players[number].name == before.enrolled[number].name
            for number in players.keys() & before.enrolled.keys()
        )
        common = list(zip(rounds, before.rounds))
        has_rounds = bool(common) or not before.rounds
        return (
            has_players
            and has_rounds
            and all([it.seats for it in one] == [it.seats for it in other] for one, other in common)
        )


def time_of(path: str) -> float:
    """When it was changed last, or none if it isn't there."""
    try:
        return os.stat(path).st_mtime
    except OSError:
        return 0.0
