"""What an event was made with: no text of the program says it, so it is read from a copy of the file, and
never from FILE.
"""
from __future__ import annotations

import contextlib
import os
import shutil
import tempfile
from dataclasses import dataclass
from typing import Optional

from event_companions.core.turn import Turn


# up to this many players this many rounds are usual; above, one more than the last
USUAL_ROUNDS = ((8, 3), (16, 4), (32, 5), (64, 6), (128, 7), (226, 8))
CUTS = (8, 4, 2, 0)


@dataclass(frozen=True)
class Plan:
    """The name, how many rounds there are, and how many players go on to the playoff, or 0."""

    name: str
    rounds: int
    cut: int
    # of the tables: an older program makes version 1
    version: int = 2

    def shown(self, number: int = 0) -> str:
        rounds = f"{self.rounds} round{'s' if self.rounds > 1 else ''}"
        cut = f"cut to {self.cut}" if self.cut else "no cut"
        return f"Round {number} of {self.rounds}, {cut}" if number else f"{rounds}, {cut}"

    def cut_for(self, players: int) -> int:
        """The greatest cut, up to the one of the plan, for which there are enough players."""
        return next(cut for cut in CUTS if cut <= min(self.cut, players))

    def doubts(self, players: int) -> list[str]:
        """What may go wrong with this many players: nobody meets twice, and some go home."""
        told = []
        half = (players + 1) // 2
        if self.rounds > half:
            told.append(f"With {players} players, rounds after the {ordinal(half)} may not be found.")
        if self.cut > players - -(-players // 10):
            told.append(f"If some of the {players} players leave, there are too few for a cut to {self.cut}.")
        return told


def usual_rounds(players: int) -> int:
    """By the usual table; it is advice and no rule."""
    return next((rounds for most, rounds in USUAL_ROUNDS if players <= most), USUAL_ROUNDS[-1][1] + 1)


def ordinal(number: int) -> str:
    ending = {1: "st", 2: "nd", 3: "rd"}.get(number if number < 20 else number % 10, "th")
    return f"{number}{ending}"


def plan_of(file: str, turn: Turn) -> Optional[Plan]:
    """None if the file can't be read, or this Python has no SQLite."""
    with contextlib.suppress(OSError), tempfile.TemporaryDirectory() as room:
        path = os.path.join(room, "copy.event")
        with turn.taken():
            for log in ("-wal", ""):
                if os.path.exists(file + log):
                    shutil.copyfile(file + log, path + log)
        return read_plan(path)
    return None


def read_plan(copy: str) -> Optional[Plan]:
    try:
        import sqlite3
    except ImportError:
        return None
    base = sqlite3.connect(copy)
    try:
        name, *numbers = base.execute("SELECT name, rounds, cut, version FROM event").fetchone()
        return Plan(str(name), *map(int, numbers))
    except (sqlite3.Error, TypeError, ValueError):
        return None
    finally:
        base.close()
