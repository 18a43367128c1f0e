"""The command line of the prompt."""
from __future__ import annotations

import argparse
import io
import sys
from typing import NoReturn, Optional

from event_companions.core.arguments import add_program, port_word, status_of
from event_companions.core.program import Declined, Source, ready
from event_companions.core.turn import Turn
from event_companions.prompt.desk import Desk
from event_companions.prompt.texts import ALL_COMMANDS

COMMAND = "event-desk"
PURPOSE = "a prompt for the scorekeeper of a Magic Swiss tournament"

DESCRIPTION = """\
A prompt for the scorekeeper: an evening from the first player to the champion,
with a few keys for each result. FILE is the event's file; where there is none
yet, `init` at the prompt makes it. Ctrl-D ends. Fed from a pipe it does line by
line what the pipe says; a question is answered there by a line y or n.
"""

EXAMPLE = """\
example:
  event-desk friday.event
  desk> init Friday Night 3 0
  desk> import names.csv
  desk> start
  desk> pair
  desk> 1 2 0
  desk> standings

Beside FILE it keeps FILE.keys, the key of each round, FILE.copies, the copies
that it makes before what can't be taken back, and FILE.title, the event's name.
"""

NO_WINDOW = """\
The window is made by Jinja2 and served by waitress. On Debian:
sudo apt-get install python3-jinja2 python3-waitress"""


class Words(argparse.ArgumentParser):
    def error(self, message: str) -> NoReturn:
        if message.startswith("unrecognized arguments"):
            message += ". A FILE with spaces goes into quotes: event-desk 'my event.event'"
        super().error(message)


def parser() -> argparse.ArgumentParser:
    below = f"at the prompt:\n{ALL_COMMANDS}\n{EXAMPLE}"
    as_it_is = argparse.RawDescriptionHelpFormatter
    words = Words(prog=COMMAND, description=DESCRIPTION, epilog=below, formatter_class=as_it_is)
    words.add_argument("file", metavar="FILE", help="the event's file")
    # a prototype, of which nobody is told yet: the same by clicks, in a browser on this machine
    words.add_argument("--window", action="store_true", help=argparse.SUPPRESS)
    words.add_argument("--port", type=port_word, default=0, metavar="N", help=argparse.SUPPRESS)
    add_program(words)
    return words


def prepare_streams() -> None:
    """Names come in and go out as UTF-8, also if the machine says nothing of letters."""
    for stream, errors in ((sys.stdin, "surrogateescape"), (sys.stdout, "backslashreplace")):
        assert isinstance(stream, io.TextIOWrapper)
        stream.reconfigure(encoding=None if stream.isatty() else "utf-8", errors=errors)
        if stream is sys.stdout:
            stream.reconfigure(line_buffering=True)


def run(words: argparse.Namespace) -> int:
    source = Source(ready(words.program), words.file, Turn(words.file, makes_file=True))
    if words.window:
        return served(source, words)
    return Desk(source, words.file).go()


def served(source: Source, words: argparse.Namespace) -> int:
    try:
        from event_companions.window.main import serve
    except ImportError:
        raise Declined(NO_WINDOW) from None
    return serve(source, words.file, words.port)


def main(arguments: Optional[list[str]] = None) -> int:
    words = parser().parse_args(arguments)
    prepare_streams()
    return status_of(COMMAND, lambda: run(words), when_interrupted=130)
