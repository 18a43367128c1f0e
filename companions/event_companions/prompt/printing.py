"""The word `print`: sheets of the event as it is now, as a page that is opened where there is a desktop."""
from __future__ import annotations

import os
import re
import shutil
import subprocess

from event_companions.beside.look import look_of
from event_companions.core.names import visible
from event_companions.core.program import Declined
from event_companions.core.reading import Unread, read_whole
from event_companions.prompt.session import Session
from event_companions.sheets.files import NEXT_OF_SHEETS, must_write, page_beside
from event_companions.sheets.making import PACKAGE, Wanted, page_maker
from event_companions.sheets.parts import PARTS

NO_JINJA = f"Pages are made by Jinja2, which is not installed here. On Debian:\n{PACKAGE}"
OPENED = "It opens in the browser. Print it there: each part begins a page of its own."
NUMBERS = """\
Tables are named for slips, and players for links, as: print slips 4 17
print links 38"""
# what people say for parts that have other names
OTHER_WORDS: dict[str, tuple[str, ...]] = {
    "pairings": ("tables", "names"),
    "ranking": ("final",),
    "all": (),
    **{kind[:-1]: (kind,) for kind in PARTS if kind.endswith("s")},
}


def wanted_by(file: str, rest: str) -> Wanted:
    """What a line asks for: parts, and of slips the tables."""
    words = re.split(r"[\s,]+", rest.strip().lower()) if rest.strip() else []
    kinds: list[str] = []
    for word in words:
        if not re.fullmatch("[0-9]{1,3}", word):
            kinds += kinds_named(word)
    numbers = frozenset(int(word) for word in words if word.isdecimal()) or None
    if numbers and kinds not in (["slips"], ["links"]):
        raise Declined(NUMBERS)
    tables, players = (numbers, None) if kinds == ["slips"] else (None, numbers)
    return Wanted(file, kinds or None, tables=tables, players=players, may_be_empty=False)


def kinds_named(word: str) -> tuple[str, ...]:
    if word in PARTS:
        return (word,)
    if word in OTHER_WORDS:
        return OTHER_WORDS[word]
    there = ", ".join(PARTS)
    raise Declined(f"There is no {visible(word)[:40]} to print. As: print slips. There are\n{there}.")


def opens(path: str) -> bool:
    """Whether a desktop opens it. That is begun, and not waited for."""
    opener = shutil.which("xdg-open")
    if not opener or not (os.environ.get("DISPLAY") or os.environ.get("WAYLAND_DISPLAY")):
        return False
    nothing = subprocess.DEVNULL
    try:
        subprocess.Popen(
            [opener, os.path.abspath(path)],
            stdin=nothing,
            stdout=nothing,
            stderr=nothing,
            start_new_session=True,
        )
    except OSError:
        return False
    return True


class Printing:
    def __init__(self, session: Session):
        self.session = session

    def print(self, rest: str) -> None:
        session = self.session
        wanted, path = wanted_by(session.file, rest), page_beside(session.file)
        must_write(path, self.page_of(wanted))
        session.say(f"Written: {visible(path)}", OPENED if opens(path) else NEXT_OF_SHEETS)
        session.say(*look_of(session.file).faults)

    def page_of(self, wanted: Wanted) -> str:
        session = self.session
        # a refusal is explained as one
        session.event.read()
        try:
            return read_whole(session.source, session.file, page_maker(wanted))
        except ImportError:
            raise Declined(NO_JINJA) from None
        except Unread as fault:
            raise Declined(str(fault)) from None
