"""FILE.turn: an empty file that is locked by each companion while it uses FILE, so that two of them don't
meet there.
"""
from __future__ import annotations

import contextlib
import fcntl
import os
import threading
from typing import Iterator, Optional

# the lock of a companion that hangs is passed over in the end; the program still takes one command at a time
MOST_SECONDS = 40


class Turn:
    """The turn of this process. It may be taken again while it is held. Without a file there is nothing to
    wait for.
    """

    def __init__(self, file: str = "", makes_file: bool = False):
        self.file, self.path, self.makes_file = file, f"{file}.turn", makes_file
        self.depth = 0
        self.handle: Optional[int] = None

    @contextlib.contextmanager
    def taken(self) -> Iterator[tuple[int, ...]]:
        """The handle that holds the lock, for a program that is called meanwhile: a turn lasts until that
        ends, also if the companion is killed. None if there is no FILE.turn and none can be made.
        """
        if self.depth == 0:
            self.handle = self.locked()
        self.depth += 1
        try:
            yield () if self.handle is None else (self.handle,)
        finally:
            self.depth -= 1
            if self.depth == 0 and self.handle is not None:
                os.close(self.handle)
                self.handle = None

    def locked(self) -> Optional[int]:
        if not self.file:
            return None
        # if there is no event yet, nobody else uses it
        makes_file = self.makes_file and os.path.exists(self.file)
        try:
            handle = os.open(self.path, os.O_RDWR | (os.O_CREAT if makes_file else 0), 0o600)
        except OSError:
            return None
        try:
            fcntl.flock(handle, fcntl.LOCK_EX | fcntl.LOCK_NB)
            return handle
        except BlockingIOError:
            return handle if Waiting(handle).has_lock_within(MOST_SECONDS) else None
        except OSError:
            # a file system without locks
            os.close(handle)
            return None


class Waiting(threading.Thread):
    """Waits for a lock in the order in which it is asked for, which trying again and again would not do; and
    not for ever.
    """

    def __init__(self, handle: int):
        super().__init__(daemon=True)
        self.handle = handle
        self.lock = threading.Lock()
        self.has_lock = self.is_given_up = False

    def run(self) -> None:
        fcntl.flock(self.handle, fcntl.LOCK_EX)
        with self.lock:
            self.has_lock = True
            if self.is_given_up:
                os.close(self.handle)

    def has_lock_within(self, seconds: float) -> bool:
        self.start()
        try:
            self.join(seconds)
        except BaseException:
            if not self.give_up():
                os.close(self.handle)
            raise
        return self.has_lock or not self.give_up()

    def give_up(self) -> bool:
        """Whether the lock was given up before it came. What comes later is let go at once."""
        with self.lock:
            self.is_given_up = not self.has_lock
        return self.is_given_up
