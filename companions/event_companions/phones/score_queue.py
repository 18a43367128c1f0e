"""The queue of scores: hands them to the program in the order in which they come, by a command line each, or
if several wait, by one run of `serve` for them all.
"""
from __future__ import annotations

import contextlib
import os
import queue
import sys
import threading
import time
from dataclasses import dataclass, field
from typing import Optional

from event_companions.beside.troubles import Troubles
from event_companions.core.event import found_in
from event_companions.core.handing_in import LEAST_AT_ONCE, Answer, ends_with_us, hand_in
from event_companions.core.lists import Rounds, rounds_of
from event_companions.core.program import (
    FAULTS,
    RESULTS,
    Declined,
    NoAnswer,
    Refused,
    Source,
    Stamp,
    serial_in,
)
from event_companions.core.score import Score
from event_companions.core.turn import Turn
from event_companions.phones.running import Running

SECONDS_FOR_A_SCORE = 15.0
SECONDS_BETWEEN_TRIES = 0.1
# after each use the file is left alone for so long, so that a command line comes between
SECONDS_LEFT_TO_OTHERS = 0.008
# a score that waits so long is told to the scorekeeper, until one is stored, or for so long
SECONDS_UNTIL_TOLD, SECONDS_OF_A_TROUBLE = 3.0, 60.0
# a disk with less room is full
LEAST_ROOM = 1_000_000
# what goes wrong with storing, among the troubles
SCORES = "scores"
MOST_WAITING = 256
# no more than this many are handed in together
MOST_AT_ONCE = 32


class NotNow(Exception):
    """The file was not free in time: nothing was handed in, or nobody knows."""


@dataclass(eq=False)
class Waiting:
    """A score that waits for its answer. After `until` nobody waits for it any more. It is of these two
    players: where the scorekeeper puts another file in place, others may sit at the table.
    """

    number: int
    table: int
    score: Score
    seats: Optional[tuple[int, int]]
    until: float
    # by which address and seat it came
    phone: str = ""
    answer: Optional[Answer] = None
    is_done: threading.Event = field(default_factory=threading.Event)

    @property
    def is_wanted(self) -> bool:
        return not self.answer and time.monotonic() < self.until

    def replaces(self, other: Waiting) -> bool:
        """Whether it is what the same phone says of the same match now."""
        of_match = (self.number, self.table, self.seats) == (other.number, other.table, other.seats)
        return of_match and bool(self.phone) and self.phone == other.phone and self.score != other.score

    def end(self, answer: Optional[Answer]) -> None:
        self.answer = answer
        self.is_done.set()


class Seats:
    """Who sits at the tables, asked within a turn: what was read counts while nothing came to the file but
    results of this queue, each with the next serial.
    """

    def __init__(self, source: Source):
        self.source = source
        self.stamp: Optional[Stamp] = None
        self.serial = -1
        self.rounds: Rounds = []

    def at(self, number: int, table: int) -> Optional[tuple[int, int]]:
        stamp = self.source.stamp()
        if stamp is None or not stamp.is_exact or stamp != self.stamp:
            self.rounds = self.source.understood(rounds_of, self.source.ask(*RESULTS))
            self.stamp = stamp
        match = found_in(self.rounds, number, str(table))
        return (match.first, match.second) if match else None

    def carry(self, serials: list[int]) -> None:
        """These results were taken. If their serials are the next ones, nobody else changed anything."""
        if not serials:
            return
        is_next = self.serial >= 0 and serials == [self.serial + at for at in range(1, len(serials) + 1)]
        self.stamp = self.source.stamp() if is_next else None
        self.serial = serials[-1]


class ScoreQueue:
    """It sends the program results, and nothing else. A score that was taken is not taken twice, so whatever
    has no answer is sent again.
    """

    def __init__(
        self,
        program: str,
        file: str,
        running: Optional[Running] = None,
        troubles: Optional[Troubles] = None,
    ):
        self.file, self.troubles = file, troubles or Troubles()
        # why the last score had no answer
        self.why = ""
        self.source = Source(program, file, Turn(file, makes_file=True), most_tries=1)
        self.seats = Seats(self.source)
        self.ends_with_us = ends_with_us()
        self.line: queue.Queue[Waiting] = queue.Queue(MOST_WAITING)
        # those whose phones wait for an answer
        self.waiting: list[Waiting] = []
        self.lock = threading.Lock()
        (running or Running()).begin("hands in scores", self.go_on)

    def report(
        self,
        number: int,
        table: int,
        score: Score,
        seats: Optional[tuple[int, int]] = None,
        phone: str = "",
    ) -> Answer:
        """The program's answer. NotNow: whether it is stored isn't known, and it may be handed in again. What the
        same phone said before, and which still waits, is not sent any more.
        """
        waiting = Waiting(number, table, score, seats, time.monotonic() + SECONDS_FOR_A_SCORE, phone)
        with self.lock:
            for other in filter(waiting.replaces, self.waiting):
                other.until = 0.0
            self.waiting.append(waiting)
        try:
            self.line.put_nowait(waiting)
            waiting.is_done.wait(SECONDS_FOR_A_SCORE + 1)
        except queue.Full:
            raise NotNow from None
        finally:
            with self.lock:
                self.waiting.remove(waiting)
        if not waiting.answer:
            raise NotNow
        return waiting.answer

    # ---- its own thread

    def go_on(self) -> None:
        while True:
            try:
                waiting = [self.line.get(timeout=SECONDS_OF_A_TROUBLE)]
            except queue.Empty:
                # nobody hands in, so nothing fails now
                self.troubles.over(SCORES)
                continue
            while len(waiting) < MOST_AT_ONCE and not self.line.empty():
                waiting.append(self.line.get())
            try:
                self.hand_on(waiting)
            except Exception as fault:
                self.why = f"{type(fault).__name__}: {fault}"
                self.tell(waiting[0])
                print(f"event-phones: {ascii(self.why)[1:-1][:200]}", file=sys.stderr, flush=True)
            for score in waiting:
                score.end(score.answer)
            with contextlib.suppress(Exception):
                time.sleep(SECONDS_LEFT_TO_OTHERS)

    def tell(self, score: Waiting) -> None:
        """What the scorekeeper has to know, within some seconds."""
        told = f"Scores from phones can't be stored, such as that of table {score.table}: {self.why}."
        self.troubles.tell(SCORES, f"{told} {self.advice()}")

    def advice(self) -> str:
        try:
            room = os.statvfs(os.path.dirname(os.path.abspath(self.file)))
        except OSError:
            return "Look at the disk."
        if room.f_bavail * room.f_frsize < LEAST_ROOM:
            return "The disk is full: make room."
        return "Most often another program has the event open, such as `serve`: end that."

    def hand_on(self, waiting: list[Waiting]) -> None:
        if len(waiting) >= LEAST_AT_ONCE and self.ends_with_us:
            self.by_serve(waiting)
            if any(score.answer for score in waiting):
                self.troubles.over(SCORES)
        for score in waiting:
            begun = time.monotonic()
            while score.is_wanted:
                answer = self.by_line(score)
                if answer:
                    self.troubles.over(SCORES)
                    score.end(answer)
                    continue
                if time.monotonic() - begun >= SECONDS_UNTIL_TOLD:
                    self.tell(score)
                time.sleep(SECONDS_BETWEEN_TRIES)

    def is_seated(self, score: Waiting) -> bool:
        """Asked within a turn. If others sit at the table, nobody waits any more."""
        try:
            is_there = score.seats is None or self.seats.at(score.number, score.table) == score.seats
        except FAULTS as fault:
            # it is tried again
            self.why = str(fault) or "the program gave no answer"
            return False
        if not is_there:
            score.until = 0.0
        return score.is_wanted

    def by_line(self, score: Waiting) -> Optional[Answer]:
        """None if the file was not free, or the program ended without an answer."""
        with self.source.turn.taken():
            if not self.is_seated(score):
                return None
            try:
                said = self.source.ask("result", str(score.number), str(score.table), *score.score.words)
            except Refused as refused:
                self.why = str(refused)
                return None if refused.is_unsure else Answer(refused=refused.number)
            except (NoAnswer, Declined) as fault:
                self.why = str(fault) or "the program gave no answer"
                return None
            serial = serial_in(said)
            self.seats.carry([serial])
        if serial < 0:
            self.why = "the program's answer was none"
        return Answer(serial) if serial >= 0 else None

    def by_serve(self, waiting: list[Waiting]) -> None:
        """As far as it comes. What goes wrong leaves scores without an answer, and they are sent again."""
        with self.source.turn.taken() as held:
            wanted = [score for score in waiting if self.is_seated(score)]
            if not wanted:
                return
            hand_in(self.source.program, self.source.file, wanted, held)
            taken = [score.answer for score in wanted if score.answer and score.answer.is_taken]
            self.seats.carry([answer.serial for answer in taken])
