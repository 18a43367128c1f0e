"""FILE.keys: a line `round 3 KEY` for each key that was made. The last line of a round has the key by which
it was paired, but for those that a line `round 3 KEY unused` names.
"""
from __future__ import annotations

import os
import re
from typing import Optional

from event_companions.core.files import kept_text, sync_folder

LINE = re.compile(r"^round (\d+) ([0-9A-Fa-f]{64})( unused)?$", re.M)


class Keys:
    def __init__(self, file: str):
        self.path = f"{file}.keys"

    def text(self) -> str:
        return kept_text(self.path)

    def append(self, number: int, key: str) -> None:
        self.write(f"round {number} {key}\n")

    def mark_unused(self, number: int, key: str) -> None:
        """Of a key by which the round was not paired: it could be read meanwhile, so it is never taken again."""
        self.write(f"round {number} {key} unused\n")

    def write(self, line: str) -> None:
        """The line is on the disk when this returns. A line that was broken off before it stays alone.
        Any user who may log in could read a key before its round is paired, so the file is for its owner.
        """
        before = self.text()
        handle = os.open(self.path, os.O_WRONLY | os.O_APPEND | os.O_CREAT, 0o600)
        with open(handle, "ab") as keys:
            keys.write((line if not before or before.endswith("\n") else f"\n{line}").encode())
            keys.flush()
            os.fsync(keys.fileno())
        sync_folder(os.path.dirname(os.path.abspath(self.path)))

    def all(self) -> list[tuple[int, str]]:
        """The rounds and keys, without those that were not used."""
        lines = LINE.findall(self.text())
        unused = {(number, key) for number, key, mark in lines if mark}
        return [(int(number), key) for number, key, mark in lines if not mark and (number, key) not in unused]

    def last(self, number: int) -> Optional[str]:
        return dict(self.all()).get(number)
