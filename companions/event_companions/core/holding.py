"""Whether another program has FILE open: event_reporter locks the same bytes of it as SQLite does, until it
closes it.
"""
from __future__ import annotations

import contextlib
import errno
import fcntl
import os
import time
from typing import Iterator, Optional

from event_companions.core.program import MOST_TRIES, SECONDS_BETWEEN_TRIES, Declined

# SQLite's pending, reserved and shared locks
FIRST_BYTE, BYTES = 1 << 30, 512
HELD = """\
Another program has the event open, most often `serve` in another window. What
it stores from now on would go into the file that is put away. End it by Ctrl-C
in its window, and type this again."""


@contextlib.contextmanager
def held_by_nobody(file: str) -> Iterator[None]:
    """From here to its end no other program has the file open. If one has, and not for a moment only, it is
    declined.
    """
    handle = opened_to_lock(file)
    try:
        if handle is not None:
            lock(handle)
        yield
    finally:
        if handle is not None:
            os.close(handle)


def opened_to_lock(file: str) -> Optional[int]:
    """None if nothing is there, or nothing that can be opened and so be held."""
    for how in (os.O_RDWR, os.O_RDONLY):
        try:
            return os.open(file, how)
        except OSError as fault:
            if fault.errno not in (errno.EACCES, errno.EPERM, errno.EROFS):
                return None
    return None


def lock(handle: int) -> None:
    """A command line has the file for a moment, so that it is tried again."""
    for _ in range(MOST_TRIES - 1):
        if has_lock(handle):
            return
        time.sleep(SECONDS_BETWEEN_TRIES)
    if not has_lock(handle):
        raise Declined(HELD)


def has_lock(handle: int) -> bool:
    is_writable = fcntl.fcntl(handle, fcntl.F_GETFL) & os.O_ACCMODE == os.O_RDWR
    kind = fcntl.LOCK_EX if is_writable else fcntl.LOCK_SH
    try:
        fcntl.lockf(handle, kind | fcntl.LOCK_NB, BYTES, FIRST_BYTE)
    except OSError as fault:
        # a file system may have no locks, and then nobody holds one
        return fault.errno not in (errno.EACCES, errno.EAGAIN)
    return True
