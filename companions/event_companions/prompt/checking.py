"""Whether a round is the one that its key gives: the program pairs a copy, and the tables are compared. And
what the copies say of earlier rounds.
"""
from __future__ import annotations

import contextlib
import os
import shutil
import tempfile
from dataclasses import dataclass
from typing import Iterator, Optional

from event_companions.beside.copies import Copies, Copy
from event_companions.beside.keys import Keys
from event_companions.core.lists import Matches, Rounds, pairings_of
from event_companions.core.program import FAULTS, Source


@contextlib.contextmanager
def opened(source: Source, copy: Copy) -> Iterator[Source]:
    """The copy under another name, so that no log is left beside it, and nothing that is done changes it."""
    with tempfile.TemporaryDirectory() as room:
        path = os.path.join(room, "copy.event")
        for log in ("-wal", ""):
            if os.path.exists(copy.path + log):
                shutil.copyfile(copy.path + log, path + log)
        yield Source(source.program, path)


def paired_copy(source: Source, copy: Copy, number: int, key: str) -> Matches:
    """The round that the copy made before it gives by the key."""
    with opened(source, copy) as program:
        program.ask("pair", str(number), key)
        return program.understood(pairings_of, program.read("slips", str(number)))


@dataclass(frozen=True)
class Found:
    """How near a copy and a key come to a round: the tables that differ. None do, if they give it."""

    key: str
    differing: list[int]


def nearest(
    source: Source, copies: list[Copy], keys: list[str], number: int, stored: Matches
) -> Optional[Found]:
    """The newest copy and key that give the round, each with each, since after `back` a round may be of an
    earlier one; or else the newest that can be paired.
    """
    found = None
    for copy in reversed(copies):
        for key in reversed(keys):
            try:
                differing = differing_tables(stored, paired_copy(source, copy, number, key))
            except FAULTS:
                # a copy that can't be opened, or that is of another course of the event
                continue
            if not differing:
                return Found(key, [])
            found = found or Found(key, differing)
    return found


def copies_before(copies: Copies, number: int) -> list[Copy]:
    return [copy for copy in copies.all() if copy.what == f"before-pair-{number}"]


def fault_of(source: Source, copies: Copies, keys: Keys, number: int) -> str:
    """Why a round could not be played again, as far as that is seen without playing it; or nothing."""
    made = copies_before(copies, number)
    if not made:
        return "no copy from before it is there"
    if not keys_of(keys, number):
        return "its key is not in the list of keys"
    try:
        with opened(source, made[-1]) as program:
            program.players()
    except FAULTS:
        return f"copy {made[-1].number}, from before it, can't be opened"
    return ""


def keys_of(keys: Keys, number: int) -> list[str]:
    return [key for of, key in keys.all() if of == number]


def seats_of(rounds: Rounds) -> list[list[tuple[int, int, int]]]:
    return [[match.seats for match in matches] for matches in rounds]


def standings_after(
    source: Source, copies: Copies, number: int, rounds: Rounds
) -> Optional[tuple[Copy, str]]:
    """The standings as they were when the next round was paired: those of the newest copy from before it that
    has the same rounds.
    """
    for copy in reversed(copies_before(copies, number + 1)):
        try:
            with opened(source, copy) as program:
                if seats_of(program.rounds()) == seats_of(rounds[:number]):
                    return copy, program.text("standings")
        except FAULTS:
            continue
    return None


def differing_tables(stored: Matches, due: Matches) -> list[int]:
    """The tables at which others sit, or in another order; 0 is the bye."""

    def seats(matches: Matches) -> dict[int, tuple[int, int]]:
        return {match.place: (match.first, match.second) for match in matches}

    one, other = seats(stored), seats(due)
    return [place for place in sorted({*one, *other}) if one.get(place) != other.get(place)]
