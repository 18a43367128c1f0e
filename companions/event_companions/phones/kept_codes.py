"""FILE.phones while phones are served: locked, and written again if it was lost."""
from __future__ import annotations

import fcntl
import os
from typing import IO, Callable, Optional

from event_companions.beside.codes import Secret, keep_secret, kept_secret, path_of
from event_companions.core.program import Declined

STARTED = "Another event-phones serves {file} already. End it by Ctrl-C in its window first."


def locked(file: str) -> IO[bytes]:
    """FILE.phones, locked for as long as this process serves the file."""
    kept = open(path_of(file), "rb")
    try:
        fcntl.flock(kept, fcntl.LOCK_EX | fcntl.LOCK_NB)
    except BlockingIOError:
        kept.close()
        raise Declined(STARTED.format(file=file)) from None
    except OSError:
        # a file system without locks
        pass
    return kept


def must_be_alone(file: str) -> None:
    """Another one that serves would be ended by another address or switch. What lies beside a symbolic link
    is not what lies beside the event, so that two would not find each other.
    """
    if os.path.islink(file):
        its_own = os.path.realpath(file)
        raise Declined(f"{file} is a symbolic link. Name the file itself: event-phones {its_own}")
    if os.path.exists(path_of(file)):
        locked(file).close()


class KeptCodes:
    """Codes count as long as nothing else stands in FILE.phones: a new event puts it away."""

    def __init__(self, file: str, secret: Secret):
        self.file, self.secret = file, secret
        if kept_secret(file) != secret:
            keep_secret(file, secret)
        self.lock = locked(file)
        self.stamp = self.stamp_now()

    def stamp_now(self) -> Optional[tuple[int, int]]:
        try:
            status = os.stat(path_of(self.file))
        except OSError:
            return None
        return status.st_ino, status.st_mtime_ns

    def are_good(self, is_same_event: Callable[[], Optional[bool]]) -> bool:
        """Whether they count still. None is said of the event while it can't be read."""
        if self.stamp_now() == self.stamp is not None:
            return True
        try:
            kept = kept_secret(self.file)
        except Declined:
            return False
        if kept is None:
            is_same = is_same_event()
            if not is_same:
                return is_same is None
            keep_secret(self.file, self.secret)
        elif kept != self.secret:
            return False
        self.lock.close()
        self.lock = locked(self.file)
        self.stamp = self.stamp_now()
        return True

    def close(self) -> None:
        self.lock.close()
