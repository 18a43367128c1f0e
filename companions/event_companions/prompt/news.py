"""What came in since the prompt said it last: from phones, and from other windows at the same file."""
from __future__ import annotations

import textwrap
import threading
import time
from typing import Iterable, Optional

from event_companions.beside.codes import FIRST_SEAT, SECOND_SEAT
from event_companions.beside.entries import Entries
from event_companions.beside.reports import (
    CALLS,
    CALLS_OFF,
    OTHER,
    STAYS,
    STORED,
    WAITS,
    WRONG,
    Report,
    words_to_mend,
    words_to_store,
)
from event_companions.beside.troubles import ENDED, Told, kept_troubles
from event_companions.core.event import Event, Progress, shown_player
from event_companions.core.lists import Match, Players
from event_companions.core.program import FAULTS, Source, Stamp
from event_companions.core.turn import Turn
from event_companions.core.wording import counted, ranges
from event_companions.prompt.lines import WIDTH
from event_companions.prompt.session import Session, own_fault, prompt_at

SECONDS_BETWEEN_NEWS = 1.0
SECONDS_TO_END = 2.0


class News:
    """Lines that are told before a line is asked for, or above it while it is typed.

    Two threads use it. The one that tells while a line is typed asks the program by a source of its own,
    since a turn is one thread's.
    """

    def __init__(self, session: Session):
        self.session, self.reports = session, session.reports
        self.lock = threading.Lock()
        self.told = len(self.reports.all)
        # what came, and could not be told
        self.untold: list[Report] = []
        # of these news themselves, as it was told last
        self.fault = ""
        self.troubles = Told()
        self.entries = Entries(session.file)
        self.entered = len(self.entries.all())
        self.players: Players = {}
        self.own = Source(session.source.program, session.file, Turn(session.file), most_tries=1)
        self.seen: Optional[Stamp] = None
        self.is_over = threading.Event()
        self.thread = threading.Thread(target=self.go_on, daemon=True)

    def begin(self) -> None:
        self.thread.start()

    def end(self) -> None:
        """No command line of it goes on after the prompt."""
        self.is_over.set()
        if self.thread.is_alive():
            self.thread.join(SECONDS_TO_END)

    def came(self) -> list[Report]:
        with self.lock:
            self.reports.more()
            self.told = min(self.told, len(self.reports.all))
            came = [*self.untold, *self.reports.all[self.told :]]
            self.untold, self.told = [], len(self.reports.all)
            return came

    def lines(self) -> list[str]:
        """Told before a line is asked for: what phones handed in, and what other windows did."""
        session = self.session
        came = self.came()
        self.names_for(came, session.event)
        told = [*self.new_troubles(), *lines_of(came, self.players), *self.new_entries()]
        return [*told, *session.moved_by_others()]

    def new_troubles(self) -> list[str]:
        """What goes wrong with the phones that wasn't told yet, and what is over."""
        with self.lock:
            before, self.troubles = self.troubles, kept_troubles(self.session.file)
            return troubles_told(before, self.troubles, self.session.file)

    def new_entries(self) -> list[str]:
        """How many names players entered since."""
        with self.lock:
            before, self.entered = self.entered, len(self.entries.all())
            count = self.entered - before
            return [f"Entered by phone: {counted(count, 'name')}. See: entries"] if count > 0 else []

    def names_for(self, came: list[Report], event: Event) -> None:
        if all(number in self.players for report in came for number in numbers_in(report)):
            return
        try:
            self.players = event.players
        except (*FAULTS, OSError):
            # the numbers are said then
            pass

    def go_on(self) -> None:
        """Tells what comes in while a line is typed, above it."""
        while not self.is_over.wait(SECONDS_BETWEEN_NEWS):
            if self.session.lines.is_asking:
                try:
                    self.tell()
                except Exception as fault:
                    self.tell_own(own_fault(fault))

    def tell_own(self, fault: str) -> None:
        """A fault of the news, once. What comes after it is told as ever."""
        if fault != self.fault:
            self.fault = fault
            self.session.lines.say_above([fault], self.session.lines.asked)

    def tell(self) -> None:
        """What is found out while a line is typed is told above that line. If it was entered meanwhile, what
        was found may be no longer so, and is told before the next one.
        """
        lines = self.session.lines
        asked, came = lines.asked, self.came()
        self.names_for(came, Event(self.own, self.session.file))
        troubles, entered = self.troubles, self.entered
        told = [*self.new_troubles(), *lines_of(came, self.players), *self.new_entries()]
        if told and lines.say_above(told, asked) is None:
            with self.lock:
                self.untold = [*came, *self.untold]
                self.troubles, self.entered = troubles, entered
        moved = self.moved()
        if moved:
            self.tell_moved(moved, asked)

    def moved(self) -> Optional[Progress]:
        """How far another window has brought the event, if that wasn't told yet."""
        stamp = self.own.stamp()
        if stamp == self.seen:
            return None
        try:
            now = Event(self.own).progress
        except (*FAULTS, OSError):
            return None
        self.seen = stamp
        return now if now != self.session.known else None

    def tell_moved(self, now: Progress, asked: int) -> None:
        session = self.session
        typed = session.lines.say_above(session.differences(now), asked, prompt_at(now))
        if typed is not None:
            session.known = now
        if typed == "":
            # the line is begun beneath it
            session.show_progress(now, time.monotonic())


def troubles_told(before: Told, now: Told, file: str) -> list[str]:
    """Lines for what has changed. That nothing is served any more is told where it was served before."""
    if now.is_there and not now.is_served:
        ended = [line for line in now.lines if line.startswith(ENDED)] or [f"{ENDED}."]
        again = f"Until it is started again no phone can hand in: event-phones {file}"
        return wrapped([*ended, again]) if before.is_served else []
    if before.lines and now.is_served and not now.lines:
        return ["Phones go on: what was wrong is over."]
    return wrapped([line for line in now.lines if line not in before.lines])


def wrapped(lines: list[str]) -> list[str]:
    fill = textwrap.TextWrapper(WIDTH, break_long_words=False, break_on_hyphens=False)
    return [part for line in lines for part in fill.wrap(line)]


def numbers_in(report: Report) -> list[int]:
    seated = [report.first, report.second] if report.outcome in (WAITS, CALLS) else []
    return [*seated, *report.drops]


def name_of(number: int, players: Players) -> str:
    return shown_player(players[number]) if number in players else f"player {number}"


def home_said(table: int, name: str, number: int) -> str:
    return f"Table {table}: {name} wants to go home after the round: drop {number}"


def judge_said(table: int, name: str, report: Report) -> str:
    return f"Table {table}: {name} calls a judge, {report.at[11:16]}. Once one has been there: judge {table}"


def lines_of(came: Iterable[Report], players: Players) -> list[str]:
    """The tables whose scores came in, in a line; and each that a phone contradicts, waits or wants."""
    came = list(came)
    tables = sorted({report.table for report in came if report.outcome == STORED})
    told = []
    if tables:
        where = f"table{'s' if len(tables) > 1 else ''} {ranges(tables)}"
        told.append(f"From phones: {counted(len(tables), 'score')}, {where}")
    for report in came:
        match = Match(report.table, report.first, report.second, report.stored)
        if report.outcome == OTHER and report.stored:
            words = words_to_store(report.round, match, report.score)
            told.append(
                f"Table {report.table}: stored is {report.stored.short}, and a phone says "
                f"{report.score.short}. If that is right: {words}"
            )
        if report.outcome == WRONG and report.stored:
            words = words_to_mend(report.round, match, report)
            stored = f"Table {report.table}: a phone says that the stored {report.stored.short} is wrong"
            told.append(f"{stored}. If so: {words}")
        if report.outcome == WAITS:
            who = name_of(report.first if report.seat == FIRST_SEAT else report.second, players)
            told.append(
                f"Table {report.table}: {who} says {report.score.short}. The other seat is to say it."
            )
        if report.outcome == CALLS:
            caller = name_of(report.second if report.seat == SECOND_SEAT else report.first, players)
            told.append(judge_said(report.table, caller, report))
        if report.outcome == CALLS_OFF:
            told.append(f"Table {report.table}: no judge is needed any more")
        for number in report.drops:
            name = name_of(number, players)
            stays = f"Table {report.table}: {name} stays after all"
            told.append(stays if report.outcome == STAYS else home_said(report.table, name, number))
    return told
