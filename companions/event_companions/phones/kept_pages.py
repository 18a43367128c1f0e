"""Pages that are the same for all who ask: one thread makes them, at most every few seconds, and meanwhile
everybody gets the last ones.
"""
from __future__ import annotations

import gzip
import threading
import time
from dataclasses import dataclass
from typing import Callable, Hashable, Optional

SECONDS_BETWEEN_MAKINGS = 5.0


@dataclass(frozen=True)
class Shown:
    """What a page shows. One of another pairing is made anew at once."""

    pairing: Hashable
    details: Hashable


@dataclass(frozen=True)
class KeptPage:
    shown: Shown
    made_at: float
    body: bytes
    # the same, for those who take it (RFC 1952)
    gzipped: bytes


class KeptPages:
    def __init__(self, now: Callable[[], float] = time.monotonic):
        """Now: the seconds of a clock that nobody sets."""
        self.now = now
        self.pages: dict[Hashable, KeptPage] = {}
        self.making = threading.Lock()

    def is_due(self, kept: Optional[KeptPage], shown: Shown) -> bool:
        if kept is None or kept.shown.pairing != shown.pairing:
            return True
        return kept.shown != shown and self.now() - kept.made_at >= SECONDS_BETWEEN_MAKINGS

    def page(self, name: Hashable, shown: Callable[[], Shown], make: Callable[[], bytes]) -> KeptPage:
        """The page of this name. Nobody waits for it but for the first one."""
        kept = self.pages.get(name)
        if kept and not self.is_due(kept, shown()):
            return kept
        if not self.making.acquire(blocking=kept is None):
            assert kept
            return kept
        try:
            kept, now_shown = self.pages.get(name), shown()
            if kept is None or self.is_due(kept, now_shown):
                body = make()
                kept = KeptPage(now_shown, self.now(), body, gzip.compress(body, mtime=0))
                self.pages[name] = kept
            return kept
        finally:
            self.making.release()
