"""FILE.copies-to: a folder, as of a stick, to which each copy goes too, with what lies beside the event.

The first line has the folder; the second one says whether it is on another disk than the event.
"""
from __future__ import annotations

import contextlib
import os
import shutil
from dataclasses import dataclass
from typing import Optional

from event_companions.beside.copies import Copy
from event_companions.core.files import copy_folder_synced, copy_synced, sync_folder

# what the companions keep beside an event, and what a scorekeeper needs to go on from a copy
BESIDE = ("keys", "names", "doubts", "title", "look", "clock", "phones", "reports", "notes", "draws")
ANOTHER_DISK, SAME_DISK = "another disk", "the same disk"


@dataclass(frozen=True)
class Kept:
    folder: str
    is_another_disk: bool


class SecondPlace:
    def __init__(self, file: str):
        self.file, self.path = file, f"{file}.copies-to"

    def kept(self) -> Optional[Kept]:
        try:
            with open(self.path, encoding="utf-8", errors="surrogateescape") as kept:
                folder, disk, *_ = [*kept.read().split("\n"), "", ""]
        except OSError:
            return None
        return Kept(folder, disk == ANOTHER_DISK) if folder else None

    def folder(self) -> str:
        kept = self.kept()
        return kept.folder if kept else ""

    def keep(self, folder: str) -> None:
        """From now on each copy goes there too."""
        beside = f"{self.path}.part"
        with open(beside, "w", encoding="utf-8", errors="surrogateescape") as kept:
            kept.write(f"{folder}\n{ANOTHER_DISK if self.is_another_disk(folder) else SAME_DISK}\n")
        os.replace(beside, self.path)

    def forget(self) -> None:
        with contextlib.suppress(FileNotFoundError):
            os.unlink(self.path)

    def is_another_disk(self, folder: str) -> bool:
        return os.stat(folder).st_dev != os.stat(os.path.dirname(os.path.abspath(self.file))).st_dev

    def copy(self, copy: Copy) -> str:
        """Copies the copy there, if there is such a place. Why it can't be done, or nothing."""
        kept = self.kept()
        if not kept:
            return ""
        try:
            # a stick that was pulled out may leave an empty folder, which is on the event's own disk
            is_gone = kept.is_another_disk and not self.is_another_disk(kept.folder)
            if not os.path.isdir(kept.folder) or is_gone:
                return "the disk is not there"
            self.copy_to(kept.folder, copy)
        except OSError as fault:
            return fault.strerror or str(fault)
        return ""

    def copy_to(self, folder: str, copy: Copy) -> Copy:
        """A folder of its own there, whole or not at all: the event, with what lies beside it."""
        name = os.path.basename(self.file)
        copies = os.path.join(folder, f"{name}.copies")
        whole = os.path.join(copies, f"{copy.number:04}-{copy.when}-{copy.what}")
        part = f"{whole}.part"
        shutil.rmtree(part, ignore_errors=True)
        os.makedirs(part)
        for log in ("-wal", ""):
            if os.path.exists(copy.path + log):
                copy_synced(copy.path + log, os.path.join(part, name + log))
        for kind in BESIDE:
            if os.path.isdir(f"{self.file}.{kind}"):
                copy_folder_synced(f"{self.file}.{kind}", os.path.join(part, f"{name}.{kind}"))
            elif os.path.exists(f"{self.file}.{kind}"):
                copy_synced(f"{self.file}.{kind}", os.path.join(part, f"{name}.{kind}"))
        sync_folder(part)
        os.rename(part, whole)
        sync_folder(copies)
        return Copy(copy.number, copy.when, copy.what, os.path.join(whole, name))
