"""The command line of the sheets."""
from __future__ import annotations

import argparse
import os
import sys
import time
from typing import Callable, Optional

from event_companions.beside.look import look_of
from event_companions.core.arguments import add_program, status_of, tables_word
from event_companions.core.event import Event
from event_companions.core.names import visible
from event_companions.core.program import Declined, Source, ready
from event_companions.core.reading import NoRound, Unread, read_whole
from event_companions.core.turn import Turn
from event_companions.sheets.files import (
    NEXT_OF_BOARD,
    NEXT_OF_SHEETS,
    must_be_for_pages,
    must_write,
    page_beside,
)
from event_companions.sheets.making import PACKAGE, Wanted, page_maker
from event_companions.sheets.parts import PARTS

COMMAND = "event-sheets"
PURPOSE = "sheets for the wall and a board for the screen, of an event of event_reporter"

SECONDS_BETWEEN_LOOKS = 1.0
# what lies beside FILE and shows on a page
BESIDE = (".doubts", ".title", ".clock", ".names", ".phones", ".notes", ".draws", ".look")

HELP = """\
Writes one HTML page with the sheets of an event: pairings by table and by name,
result slips to cut for the tables that have no score yet, standings, the
bracket, and the final ranking. Open it in a browser and print it: each part
begins a page of its own. At a terminal it goes into FILE.sheets.html, or with
--board into FILE.board.html; into a pipe or a file it is printed. If phones
hand in (event-phones), each slip of the newest round has its code. FILE.look
may give a subtitle, an accent colour, a logo, and the language of the room.
"""

EXAMPLES = """\
parts: players (until a round is paired), draw (if rounds are drawn), tables,
names, slips, standings, bracket, final. All that are of use now, unless
--parts names some: standings once a round is complete; tables and names until
the playoff begins, or by --round. Three more are made if they are named:
seats, two players a table by name, for a players' meeting; links, a strip for
each player with the address of the player's page (event-phones); and champion.

examples:
  event-sheets friday.event
      writes friday.event.sheets.html, as `print` does at the prompt
  event-sheets friday.event --parts slips -o slips.html
  event-sheets friday.event --board --watch board.html
      the board for the screen: open board.html in a browser and leave it open.
      Ctrl-C ends the watching
"""

NO_JINJA = f"""\
{COMMAND}: its pages are made by Jinja2, which is not installed here.
On Debian: {PACKAGE}"""


def stamps_beside(file: str) -> list[float]:
    """What changes where something that the page shows is kept beside FILE."""
    return [
        os.stat(path).st_mtime for path in (f"{file}{ending}" for ending in BESIDE) if os.path.exists(path)
    ]


class Watch:
    """Writes the page whenever what it shows may have changed, until Ctrl-C."""

    def __init__(self, source: Source, file: str, page: str, make: Callable[[Event], str]):
        self.source, self.file, self.page, self.make = source, file, page, make
        self.stamp: object = object()
        self.written: Optional[str] = None
        self.said = ""

    def go_on(self) -> None:
        while True:
            now = self.source.stamp(), stamps_beside(self.file)
            if now != self.stamp:
                self.look(now)
            time.sleep(SECONDS_BETWEEN_LOOKS)

    def look(self, stamp: object) -> None:
        try:
            text = read_whole(self.source, self.file, self.make)
        except Unread as fault:
            if self.written is None and not fault.may_pass and not isinstance(fault, NoRound):
                raise
            self.say_once(str(fault))
            return
        try:
            if text != self.written:
                must_write(self.page, text)
        except Declined as fault:
            if self.written is None:
                raise
            # as when the disk is full for a moment
            self.say_once(str(fault))
            return
        self.stamp, self.written, self.said = stamp, text, ""

    def say_once(self, text: str) -> None:
        if text != self.said:
            self.said = text
            print(f"{COMMAND}: {text}\nThe page stays as it is. It goes on looking.", file=sys.stderr)


def parts_word(text: str) -> list[str]:
    parts = [part.strip() for part in text.split(",")]
    unknown = [part for part in parts if part not in PARTS]
    if unknown:
        raise argparse.ArgumentTypeError(f"there is no part {unknown[0]!r}; there are {', '.join(PARTS)}")
    return parts


def parser() -> argparse.ArgumentParser:
    as_it_is = argparse.RawDescriptionHelpFormatter
    words = argparse.ArgumentParser(prog=COMMAND, description=HELP, epilog=EXAMPLES, formatter_class=as_it_is)
    add = words.add_argument
    add("file", metavar="FILE", help="the event's file")
    add("--round", type=int, metavar="N", help="the round of the pairings and slips; without it the newest")
    add(
        "--board",
        action="store_true",
        help="for a screen: large, with a clock that counts down; it shows its parts in turn",
    )
    add("--dark", action="store_true", help="a dark board, as in a dark room")
    where = words.add_mutually_exclusive_group()
    where.add_argument(
        "-o",
        "--output",
        metavar="PAGE",
        help="write the page to this file, once it is whole; - prints it",
    )
    where.add_argument(
        "--watch",
        metavar="PAGE",
        help="write the page to this file, again whenever the event has taken a command",
    )
    add("--parts", type=parts_word, metavar="LIST", help="these parts alone, with commas between them")
    add("--tables", type=tables_word, metavar="LIST", help="slips of these tables alone, as 4 or 4,17")
    add("--players", type=tables_word, metavar="LIST", help="links of these players alone, as 4 or 4,17")
    by = "lists by name: by the last or the first name"
    add("--by", choices=("last", "first"), default="last", help=by)
    title = "the heading; without it FILE.title, which the prompt writes, or else the name in FILE"
    add("--title", metavar="TEXT", help=title)
    add_program(words)
    return words


def write_out(text: str) -> None:
    try:
        sys.stdout.buffer.write(text.encode("utf-8"))
        sys.stdout.buffer.flush()
    except BrokenPipeError:
        raise
    except OSError as fault:
        raise Declined(f"the page was not written: {fault.strerror}") from None


def source_for(words: argparse.Namespace) -> Source:
    # a reading is tried again as a whole, so no call is tried again alone
    return Source(ready(words.program), words.file, Turn(words.file), most_tries=1)


def wanted_by(words: argparse.Namespace) -> Wanted:
    which = words.parts, words.round, words.tables, words.players
    return Wanted(words.file, *which, words.title, words.by == "first", words.board, words.dark)


def page_for(words: argparse.Namespace) -> str:
    """The file that the page goes into, or nothing if it is printed."""
    if words.output == "-":
        return ""
    beside = page_beside(words.file, words.board) if sys.stdout.isatty() else ""
    return str(words.watch or words.output or beside)


def run(words: argparse.Namespace) -> int:
    try:
        make = page_maker(wanted_by(words))
    except ImportError:
        print(NO_JINJA, file=sys.stderr)
        return 3
    source, page = source_for(words), page_for(words)
    if page:
        must_be_for_pages(page, words.file)
    for fault in look_of(words.file).faults:
        print(f"{COMMAND}: {fault}", file=sys.stderr)
    if words.watch:
        Watch(source, words.file, page, make).go_on()
    text = read_whole(source, words.file, make)
    if page:
        must_write(page, text)
        print(f"Written: {visible(page)}", NEXT_OF_BOARD if words.board else NEXT_OF_SHEETS, sep="\n")
    else:
        write_out(text)
    return 0


def main(arguments: Optional[list[str]] = None) -> int:
    words = parser().parse_args(arguments)
    return status_of(COMMAND, lambda: run(words))
