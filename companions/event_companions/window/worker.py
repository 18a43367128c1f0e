"""The thread that does lines: one after the other, as the prompt does, and in between it looks what others did."""
from __future__ import annotations

import contextlib
import os
import queue
import threading
import time
from dataclasses import replace
from typing import Callable, Iterator, Optional

from event_companions.core.event import Progress
from event_companions.core.names import visible
from event_companions.core.program import FAULTS, Source
from event_companions.prompt.desk import Desk
from event_companions.sheets.main import BESIDE
from event_companions.window.clicks import Clicks, Entry, Over
from event_companions.window.views import View, view_of

SECONDS_BETWEEN_TICKS = 0.5
# a click is answered in so long, or its page says that it goes on
SECONDS_FOR_A_LINE = 60.0
MOST_ENTRIES = 400
# while the event can't be read, it is tried again so often
SECONDS_BETWEEN_FAULTS = 1.5
MORE_BESIDE = (".reports", ".copies", ".entries.csv", ".troubles", ".keys")


class Worker:
    """It runs in the main thread: a line that must not be broken off sets what Ctrl-C does, which no other
    thread may.
    """

    def __init__(self, source: Source, file: str):
        self.changed = threading.Condition(threading.RLock())
        self.clicks = Clicks(self.changed)
        self.file = file
        self.desk = Desk(source, file, self.clicks)
        self.clicks.is_command = self.desk.is_command
        self.lines: queue.Queue[Entry] = queue.Queue()
        self.wanted: queue.Queue[tuple[Callable[[], str], list[object], threading.Event]] = queue.Queue()
        self.log: list[Entry] = []
        self.shown: dict[int, Progress] = {}
        self.version = 0
        self.stamp: object = object()
        self.is_over = False
        self.entries = 0
        self.looked_at = 0.0
        self.view = View(file)

    # ---- for the threads that serve

    def send(self, line: str, version: int) -> Optional[Entry]:
        """A line, once it is done or asks; None if a question stands, which has to be answered first."""
        with self.changed:
            if self.clicks.question:
                return None
            self.entries += 1
            entry = Entry(self.entries, line, self.shown.get(version, Progress()))
            self.lines.put(entry)
            self.wait_for(entry)
            return entry

    def answer(self, number: int, text: str) -> bool:
        with self.changed:
            entry = self.clicks.entry
            if not self.clicks.give(number, text):
                return False
            self.wait_for(entry, number)
            return True

    def wait_for(self, entry: Entry, answered: int = 0) -> None:
        until = time.monotonic() + SECONDS_FOR_A_LINE
        while not entry.is_done and not self.is_over and time.monotonic() < until:
            question = self.clicks.question
            if question and question.number != answered:
                return
            self.changed.wait(SECONDS_BETWEEN_TICKS)

    def made(self, make: Callable[[], str]) -> object:
        """What is made of the event by the thread that may ask of it: a page to print, or its fault."""
        if self.clicks.question:
            return TimeoutError("A question stands")
        found: list[object] = []
        is_made = threading.Event()
        self.wanted.put((make, found, is_made))
        is_made.wait(SECONDS_FOR_A_LINE)
        return found[0] if found else TimeoutError("No answer came")

    # ---- the thread

    def go_on(self) -> None:
        is_there = not self.desk.session.is_new()
        with self.entry_of("where" if is_there else "") as entry:
            self.desk.begin()
        # its last line is of typing
        entry.said[:] = [line for line in entry.said if not line.startswith("Type help")]
        self.log[:] = [entry] if entry.text else []
        self.look()
        while not self.is_over:
            with contextlib.suppress(queue.Empty):
                self.do(
                    self.lines.get(timeout=0.05 if not self.wanted.empty() else SECONDS_BETWEEN_TICKS / 5)
                )
                continue
            while not self.wanted.empty():
                self.make(*self.wanted.get())
            self.tick()

    def end(self) -> None:
        with self.changed:
            self.is_over = self.clicks.is_over = True
            self.changed.notify_all()

    @contextlib.contextmanager
    def entry_of(self, line: str, entry: Optional[Entry] = None) -> Iterator[Entry]:
        entry = entry or Entry(0, line)
        self.clicks.entry = entry
        self.desk.session.has_failed = False
        began = time.monotonic()
        try:
            yield entry
        finally:
            entry.seconds = time.monotonic() - began
            entry.has_failed = self.desk.session.has_failed

    def do(self, entry: Entry) -> None:
        """A line, as if it was typed by somebody who has seen what its page showed."""
        session = self.desk.session
        if entry.shown is not None:
            session.show_progress(entry.shown)
        self.log.append(entry)
        del self.log[:-MOST_ENTRIES]
        is_end = False
        with self.entry_of(entry.line, entry):
            try:
                is_end = self.desk.done(entry.line)
            except Over:
                is_end = True
        self.look()
        with self.changed:
            entry.is_done = True
            self.changed.notify_all()
        if is_end:
            self.end()

    def make(self, make: Callable[[], str], found: list[object], is_made: threading.Event) -> None:
        try:
            self.desk.session.look_again()
            found.append(make())
        except Exception as fault:
            found.append(fault)
        is_made.set()

    def tick(self) -> None:
        """What other windows and phones did, told as the prompt tells it before it asks for a line."""
        is_due = self.view.fault and time.monotonic() > self.looked_at + SECONDS_BETWEEN_FAULTS
        if self.stamp_now() == self.stamp and not is_due:
            return
        try:
            told = self.desk.news.lines()
        except (*FAULTS, OSError):
            told = []
        with self.entry_of(""):
            pass
        if told:
            self.log.append(Entry(0, "", said=[f"{visible(line)}\n" for line in told], is_done=True))
        self.look()

    def stamp_now(self) -> object:
        found: list[object] = [self.desk.session.source.stamp()]
        for ending in (*BESIDE, *MORE_BESIDE):
            with contextlib.suppress(OSError):
                status = os.stat(f"{self.file}{ending}")
                found.append((ending, status.st_mtime_ns, status.st_size))
        return found

    def look(self) -> None:
        """What pages show from here on."""
        self.stamp = self.stamp_now()
        session = self.desk.session
        session.look_again()
        with self.entry_of("look"):
            view = view_of(self.desk)
        self.looked_at = time.monotonic()
        if view.fault and view.may_pass and self.version:
            view = replace(self.view, fault=view.fault, may_pass=True)
        if view.fault and view.fault == self.view.fault:
            return
        with self.changed:
            self.version += 1
            self.view = view
            self.view.version = self.version
            self.shown[self.version] = view.progress
            self.shown.pop(self.version - 1000, None)
            self.changed.notify_all()
        session.known = view.progress
