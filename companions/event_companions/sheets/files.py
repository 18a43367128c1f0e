"""Pages as files: a page is made whole, and only then put in place of what was there."""
from __future__ import annotations

import contextlib
import os
import tempfile

from event_companions.core.names import visible
from event_companions.core.program import Declined

BEGINNING_OF_A_DATABASE = b"SQLite format 3\0"
NEXT_OF_SHEETS = "Open it in a browser, and print it there: each part begins a page of its own."
NEXT_OF_BOARD = "Open it in a browser. It stays as it is; --watch keeps a board up to date."


def page_beside(file: str, is_board: bool = False) -> str:
    """Where a page of the event goes, unless another place is named."""
    return f"{file}.{'board' if is_board else 'sheets'}.html"


def must_be_for_pages(path: str, file: str) -> None:
    """Declines to put a page in place of an event, or of what is kept beside this one."""
    page, event = os.path.realpath(path), os.path.realpath(file)
    is_kept = page.startswith((f"{event}-", f"{event}.")) and not page.endswith((".html", ".htm"))
    if page == event or is_kept or begins_as_a_database(page):
        raise Declined(f"{visible(path)} is no page. Name one, as: page.html")


def begins_as_a_database(path: str) -> bool:
    with contextlib.suppress(OSError):
        # a pipe would be waited for
        if os.path.isfile(path):
            with open(path, "rb") as read:
                return read.read(len(BEGINNING_OF_A_DATABASE)) == BEGINNING_OF_A_DATABASE
    return False


def write_page(path: str, text: str) -> None:
    """Writes a page, so that nobody reads half of it, and what was there stays if it fails."""
    if os.path.exists(path) and not os.path.isfile(path):
        # a device, or a pipe
        with open(path, "w", encoding="utf-8", newline="\n") as page:
            page.write(text)
    else:
        replace(os.path.realpath(path), text)


def must_write(path: str, text: str) -> None:
    """The same, or it is declined: the file that is written beside says nothing to anybody."""
    try:
        write_page(path, text)
    except OSError as fault:
        raise Declined(f"{visible(path)} was not written: {fault.strerror}.") from None


def replace(path: str, text: str) -> None:
    """Writes a file beside and renames it."""
    handle, beside = tempfile.mkstemp(prefix=".sheets-", suffix=".html", dir=os.path.dirname(path))
    try:
        with os.fdopen(handle, "w", encoding="utf-8", newline="\n") as page:
            page.write(text)
        # mkstemp makes files for one user alone; a web server or another log-in may have to read this one
        mask = os.umask(0)
        os.umask(mask)
        os.chmod(beside, 0o666 & ~mask)
        os.replace(beside, path)
    except BaseException:
        # Ctrl-C may also come after the renaming
        with contextlib.suppress(FileNotFoundError):
            os.unlink(beside)
        raise
