"""What an event is called: no text of the program has its name. FILE.title has it, and so has the file."""
from __future__ import annotations

import os

from event_companions.core.plan import plan_of
from event_companions.core.turn import Turn


def title_of(file: str, turn: Turn) -> str:
    """What sheets, board and phones are headed with: the event's name, or else the file's. If there is no
    FILE.title, as beside a copy, FILE is copied for it: so it is asked once for each reading.
    """
    return event_name(file, turn) or file_name(file)


def event_name(file: str, turn: Turn) -> str:
    """The name in FILE.title, or else in FILE, or nothing."""
    kept = kept_title(file)
    plan = None if kept else plan_of(file, turn)
    return plan.name if plan else kept


def file_name(file: str) -> str:
    """The name of the file, which may have letters that no page has."""
    name = shown_text(os.path.basename(file))
    return name[: -len(".event")] if name.endswith(".event") and name != ".event" else name


def shown_text(text: str) -> str:
    """A word of the command line, without what no page can have."""
    return text.encode("utf-8", "replace").decode("utf-8")


def kept_title(file: str) -> str:
    """The first line of FILE.title, or nothing."""
    try:
        with open(f"{file}.title", encoding="utf-8") as title:
            return title.readline().strip()
    except (OSError, UnicodeDecodeError):
        return ""


def keep_title(file: str, text: str) -> None:
    beside = f"{file}.title.part"
    with open(beside, "w", encoding="utf-8", errors="surrogateescape") as title:
        title.write(f"{text}\n")
    os.replace(beside, f"{file}.title")
