"""FILE.troubles: what goes wrong with the phones now, a line each, so that the prompt can tell it. While
phones are served the file is locked, and it always has as many bytes: a full disk has room for what is
written over them.
"""
from __future__ import annotations

import contextlib
import fcntl
import os
import threading
from dataclasses import dataclass
from typing import Optional

BYTES = 2048
# how the line begins that says that nothing is served any more
ENDED = "event-phones has ended"


def path_of(file: str) -> str:
    return f"{file}.troubles"


class Troubles:
    """What goes wrong, by its place: whoever meets it tells it, and tells when it is over."""

    def __init__(self, file: str = ""):
        """Without a file nobody but this process knows them."""
        self.path = path_of(file) if file else ""
        self.lock = threading.Lock()
        self.lines: dict[str, str] = {}
        self.handle = self.opened() if file else None

    def opened(self) -> Optional[int]:
        try:
            handle = os.open(self.path, os.O_RDWR | os.O_CREAT, 0o600)
        except OSError:
            return None
        with contextlib.suppress(OSError):
            # what an earlier one said is over before this one holds it
            os.pwrite(handle, b" " * BYTES, 0)
            os.fsync(handle)
            # the prompt has it for a moment, to look whether phones are served
            fcntl.flock(handle, fcntl.LOCK_EX)
        return handle

    def tell(self, place: str, text: str) -> None:
        self.change(place, " ".join(text.split()))

    def over(self, place: str) -> None:
        self.change(place, "")

    def change(self, place: str, text: str) -> None:
        with self.lock:
            if self.lines.get(place, "") == text:
                return
            self.lines.pop(place, None)
            if text:
                self.lines[place] = text
            self.write()

    def write(self) -> None:
        if self.handle is None:
            return
        text = "".join(f"{line}\n" for line in self.lines.values()).encode("utf-8", "replace")[: BYTES - 1]
        with contextlib.suppress(OSError):
            os.pwrite(self.handle, text.ljust(BYTES - 1) + b"\n", 0)

    def all(self) -> list[str]:
        with self.lock:
            return list(self.lines.values())

    def end(self) -> None:
        """Nothing is served any more, and nothing went wrong."""
        if self.handle is not None:
            with contextlib.suppress(OSError):
                os.unlink(self.path)
            os.close(self.handle)
            self.handle = None


# ---- as the prompt reads it


@dataclass(frozen=True)
class Told:
    """What FILE.troubles says. After an end that nobody asked for, nobody holds it and it is still there."""

    lines: tuple[str, ...] = ()
    is_there: bool = False
    is_served: bool = False


def kept_troubles(file: str) -> Told:
    try:
        with open(path_of(file), "rb") as kept:
            text = kept.read(BYTES).decode("utf-8", "replace")
            is_served = is_locked(kept.fileno())
    except OSError:
        return Told()
    return Told(tuple(line.strip() for line in text.split("\n") if line.strip()), True, is_served)


def is_locked(handle: int) -> bool:
    try:
        fcntl.flock(handle, fcntl.LOCK_SH | fcntl.LOCK_NB)
    except BlockingIOError:
        return True
    except OSError:
        # a file system without locks
        return False
    return False
