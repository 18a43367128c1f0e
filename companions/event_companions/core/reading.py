"""An event between two commands, so that no sheet differs from the next by one."""
from __future__ import annotations

import time
from typing import Callable, TypeVar

from event_companions.core.event import Event
from event_companions.core.program import (
    FAULTS,
    SECONDS_BETWEEN_TRIES,
    Fault,
    NoAnswer,
    Refusal,
    Refused,
    Source,
)

Made = TypeVar("Made")
# a reading is done again if a command came in its middle, or another program had the file for a moment
MOST_READINGS = 6

WORDS = {
    Refusal.MEMORY: "The machine had no memory left. Close something, and try again.",
    Refusal.STORE: "It was not read. Most often another program has it open, such as `serve`.\n"
    "End that first.",
    Refusal.NO_EVENT: "There is no event. Look at the path.",
    Refusal.DAMAGED: "It holds what no event can be. Go on from a copy.",
}
STATUSES = {Refusal.MEMORY: 4, Refusal.STORE: 3, Refusal.NEEDS_REOPEN: 3}


class Unread(Exception):
    """The event was not read: what is said, and the status to end with."""

    def __init__(self, message: str, status: int = 1, may_pass: bool = False):
        super().__init__(message)
        self.status, self.may_pass = status, may_pass


class NoRound(Unread):
    """There is no round of the number that was asked for."""


def unread(fault: Fault, file: str) -> Unread:
    if isinstance(fault, Refused):
        words = next((text for number, text in WORDS.items() if number == fault.number), "")
        status = next((it for number, it in STATUSES.items() if number == fault.number), 1)
        return Unread(f"{file}: {fault}\n{words}".strip(), status, fault.is_unsure)
    if isinstance(fault, NoAnswer):
        return Unread(f"{file}: no answer came", 3, True)
    return Unread(str(fault), 3)


def read_once(source: Source, file: str, make: Callable[[Event], Made]) -> Made:
    stamp, event = source.stamp(), Event(source, file)
    try:
        made = make(event)
        if source.stamp() != stamp:
            raise Unread("Commands came while the event was read. Try again.", 3, True)
    except FAULTS as fault:
        raise unread(fault, file) from None
    return made


def read_whole(source: Source, file: str, make: Callable[[Event], Made]) -> Made:
    """What is made of the event as it is at one time. Only what is needed for it is asked."""
    for _ in range(MOST_READINGS - 1):
        try:
            with source.turn.taken():
                return read_once(source, file, make)
        except Unread as fault:
            if not fault.may_pass:
                raise
        time.sleep(SECONDS_BETWEEN_TRIES)
    with source.turn.taken():
        return read_once(source, file, make)
