"""FILE.clock: until when a round is played, a line `until SECONDS of MINUTES`, in seconds since 1970."""
from __future__ import annotations

import contextlib
import os
import re
import time
from dataclasses import dataclass
from typing import Optional

MOST_MINUTES = 600


@dataclass(frozen=True)
class Clock:
    until: int
    minutes: int

    def left(self, now: float) -> int:
        """Minutes that are left, the one that has begun among them; 0 once time is over."""
        return max(0, -int(-(self.until - now) // 60))

    def ends_at(self) -> str:
        return time.strftime("%H:%M", time.localtime(self.until))

    def shown(self, now: float) -> str:
        left = self.left(now)
        return f"{left} min, until {self.ends_at()}" if left else f"Time is over, since {self.ends_at()}"


def kept_clock(file: str) -> Optional[Clock]:
    try:
        with open(f"{file}.clock", encoding="utf-8", errors="replace") as kept:
            found = re.match(r"until (\d{1,12}) of (\d{1,4})\n", kept.read(100))
    except OSError:
        return None
    return Clock(int(found[1]), int(found[2])) if found else None


def keep_clock(file: str, clock: Clock) -> None:
    beside = f"{file}.clock.part"
    with open(beside, "w", encoding="utf-8") as kept:
        kept.write(f"until {clock.until} of {clock.minutes}\n")
    os.replace(beside, f"{file}.clock")


def start_clock(file: str, minutes: int) -> None:
    keep_clock(file, Clock(int(time.time()) + 60 * minutes, minutes))


def stop_clock(file: str) -> None:
    with contextlib.suppress(FileNotFoundError):
        os.unlink(f"{file}.clock")
