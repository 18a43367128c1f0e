"""Files that are written so that a stop leaves them whole."""
from __future__ import annotations

import contextlib
import ctypes
import os
import shutil
import time

# a log that has no room for its header and for a page with the page's own header holds nothing
LEAST_LOG = 32 + 24 + 512
# a file system in memory, where nothing waits for a disk
IN_MEMORY = "/dev/shm"
# Linux's: names are taken from this folder on, and are exchanged
HERE, EXCHANGE = -100, 2


def time_stamp() -> str:
    return time.strftime("%Y%m%d-%H%M%S")


def sync_folder(folder: str) -> None:
    """What has a name in the folder keeps it when the machine stops. Not each system can do so."""
    with contextlib.suppress(OSError):
        handle = os.open(folder or ".", os.O_RDONLY)
        try:
            os.fsync(handle)
        finally:
            os.close(handle)


def kept_text(path: str) -> str:
    """What a file beside the event has, or nothing if it isn't there."""
    try:
        with open(path, encoding="utf-8", errors="replace") as kept:
            return kept.read()
    except FileNotFoundError:
        return ""


def write_whole(path: str, text: str) -> None:
    """What has the name is the old text or the new one. Without a text the file goes."""
    beside = f"{path}.part"
    with open(beside, "w", encoding="utf-8") as written:
        written.write(text)
        written.flush()
        os.fsync(written.fileno())
    os.replace(beside, path)
    if not text:
        os.unlink(path)
    sync_folder(os.path.dirname(os.path.abspath(path)))


def copy_synced(source: str, target: str) -> None:
    """Copies a file. What has the target's name is whole and on the disk."""
    move(part_synced(source, target), target)


def replace_synced(source: str, target: str) -> None:
    """The same where a file may have the target's name already: it is the old one or the new one."""
    os.replace(part_synced(source, target), target)
    sync_folder(os.path.dirname(target))


def part_synced(source: str, target: str) -> str:
    part = f"{target}.part"
    with open(source, "rb") as read, open(part, "wb") as written:
        shutil.copyfileobj(read, written)
        written.flush()
        os.fsync(written.fileno())
    return part


def copy_folder_synced(source: str, target: str) -> None:
    """Copies the files of a folder, but for those that are just being written."""
    os.makedirs(target)
    for name in sorted(os.listdir(source)):
        if not name.endswith(".part"):
            copy_synced(os.path.join(source, name), os.path.join(target, name))
    sync_folder(target)


def move(source: str, target: str) -> None:
    if os.path.lexists(target):
        raise FileExistsError(17, "there is a file of that name", target)
    os.rename(source, target)
    sync_folder(os.path.dirname(target))


def exchange(one: str, other: str) -> bool:
    """Each file has the other one's name, in one step. False, if the system or the disk has no such step."""
    try:
        renameat2 = ctypes.CDLL(None, use_errno=True).renameat2
    except (OSError, AttributeError):
        return False
    if renameat2(HERE, os.fsencode(one), HERE, os.fsencode(other), EXCHANGE) != 0:
        return False
    sync_folder(os.path.dirname(other))
    return True


def remove_with_log(file: str) -> None:
    """Takes a copy away that the companions made."""
    for path in (f"{file}-wal", file):
        with contextlib.suppress(FileNotFoundError):
            os.unlink(path)


def has_log(file: str) -> bool:
    """Whether the log beside the file holds anything."""
    try:
        return os.path.getsize(f"{file}-wal") >= LEAST_LOG
    except OSError:
        return False
