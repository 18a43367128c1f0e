"""FILE.entries: names that players entered by phone, for the scorekeeper to take. It is a list as `import`
takes it: a row for each, with when and from where. It is there while entering is switched on.
"""
from __future__ import annotations

import csv
import errno
import io
import os
import time
from dataclasses import dataclass

from event_companions.core.names import compared
from event_companions.core.rosters import why_not

HEADING = "name,at,from\n"
MOST_BYTES = 100_000


class NotEntered(Exception):
    """Why a name was not entered: what players are told by."""

    def __init__(self, key: str):
        super().__init__(key)
        self.key = key


@dataclass(frozen=True)
class Entry:
    """A row, as a spreadsheet counts it: the heading is row 1."""

    row: int
    name: str


class Entries:
    def __init__(self, file: str):
        self.path = f"{file}.entries"

    @property
    def is_on(self) -> bool:
        return os.path.exists(self.path)

    def begin(self) -> None:
        if not self.is_on:
            with open(os.open(self.path, os.O_WRONLY | os.O_CREAT | os.O_EXCL, 0o600), "w") as entries:
                entries.write(HEADING)

    def all(self) -> list[Entry]:
        try:
            with open(self.path, encoding="utf-8", errors="replace", newline="") as entries:
                rows = list(csv.reader(entries))
        except (OSError, csv.Error):
            return []
        return [Entry(at, row[0]) for at, row in enumerate(rows[1:], 2) if row and row[0].strip()]

    def add(self, name: str, origin: str) -> None:
        """The name is on the disk when this returns. Whoever is there already is not entered twice."""
        if why_not(name) or not name.isprintable():
            raise NotEntered("no_name_is_so")
        if any(compared(entry.name) == compared(name) for entry in self.all()):
            return
        line = io.StringIO()
        csv.writer(line, lineterminator="\n").writerow([name, time.strftime("%H:%M:%S"), origin])
        data = line.getvalue().encode("utf-8")
        handle = os.open(self.path, os.O_RDWR | os.O_APPEND)
        with open(handle, "rb+", buffering=0) as entries:
            size = os.fstat(handle).st_size
            if size and os.pread(handle, 1, size - 1) != b"\n":
                # a line that was broken off stays alone
                data = b"\n" + data
            if size + len(data) > MOST_BYTES:
                raise NotEntered("list_is_full")
            if entries.write(data) != len(data):
                raise OSError(errno.ENOSPC, "no room is left on the disk")
            os.fsync(handle)

    def strike(self, row: int) -> bool:
        """Whether there was such a row. It is written over by blanks, while phones may write at the end."""
        if row not in {entry.row for entry in self.all()}:
            return False
        with open(self.path, "rb+") as entries:
            lines = entries.read().split(b"\n")
            entries.seek(sum(len(line) + 1 for line in lines[: row - 1]))
            entries.write(b" " * len(lines[row - 1]))
        return True

    def end(self) -> None:
        os.unlink(self.path)
