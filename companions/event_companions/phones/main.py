"""The command line of the phones."""
from __future__ import annotations

import argparse
import importlib.util
import os
import sys
import time
from typing import Optional

from event_companions.beside.clock import Clock, keep_clock
from event_companions.beside.codes import kept_secret, secret_for
from event_companions.core.arguments import (
    add_program,
    address_word,
    count_word,
    minutes_word,
    place_word,
    port_word,
)
from event_companions.core.program import Declined, ready

COMMAND = "event-phones"
PURPOSE = "scores from the players' phones, for an event of event_reporter"

MOST_CONNECTIONS_OF_ONE = 24

HELP = """\
Takes scores from the players' phones. A player scans the code on the result
slip, taps the score, and looks at it once more; or scans once a page of his
own, which shows each round's table and takes its score. The scorekeeper goes on
at the prompt (event-desk) meanwhile, and sees there what came in. FILE is the
event's file. It listens in the room's network, and needs no other.
"""

EXAMPLES = """\
an evening:
  event-phones friday.event --at http://192.168.1.10:8080
      serves the phones at this machine's address (hostname -I says it), and the
      scorekeeper's page on this machine alone. Ctrl-C ends it, and nothing that
      was answered is lost. The next time: event-phones friday.event
  event-sheets friday.event --parts slips
      the slips of the open tables, with their codes: print them
  event-sheets friday.event --parts links
      a strip for each player, with the player's page: print once, and cut
  event-phones friday.event --clock 50
      starts a clock of 50 minutes on phones and board, as the prompt's clock 50

Beside FILE it keeps FILE.phones, the address and the key of the codes;
FILE.reports, a line for each score that was handed in, with the phone's
address: delete it after the event; and FILE.troubles while it serves.
"""

# what it is served and shown by, and the packages that have them
NEEDED = (("waitress", "python3-waitress"), ("jinja2", "python3-jinja2"))
# what draws the codes on the slips; without it they are typed
USEFUL = (("segno", "python3-segno"),)
PYTHON_OF_DEBIAN = "/usr/bin/python3"


def parser() -> argparse.ArgumentParser:
    as_it_is = argparse.RawDescriptionHelpFormatter
    words = argparse.ArgumentParser(prog=COMMAND, description=HELP, epilog=EXAMPLES, formatter_class=as_it_is)
    add = words.add_argument
    add("file", metavar="FILE", help="the event's file")
    at = "the address that stands on the slips, as http://192.168.1.10:8080; FILE.phones keeps it"
    add("--at", type=address_word, metavar="ADDRESS", help=at)
    listen = "where to listen, if that is another place, as behind a proxy: 127.0.0.1:8080"
    add("--listen", type=place_word, metavar="HOST:PORT", help=listen)
    add("--behind-proxy", action="store_true", help="a proxy on this machine hands requests on")
    both = words.add_mutually_exclusive_group()
    both.add_argument(
        "--both",
        action="store_true",
        default=None,
        help="a score is stored once both seats say it: a slip has a code for each; FILE.phones keeps it",
    )
    both.add_argument(
        "--one", action="store_false", dest="both", help="a score is stored once a phone says it, as ever"
    )
    of_one = f"connections of one address ({MOST_CONNECTIONS_OF_ONE}); 500 where a router gives all the same"
    add("--from-one", type=count_word, default=MOST_CONNECTIONS_OF_ONE, metavar="N", help=of_one)
    add(
        "--desk",
        type=port_word,
        default=8081,
        metavar="PORT",
        help="the port of the scorekeeper's page (8081)",
    )
    clock = "start a clock of this many minutes, and end"
    add("--clock", type=minutes_word, metavar="MINUTES", help=clock)
    title = "the heading; without it FILE.title, which the prompt writes, or else the name in FILE"
    add("--title", metavar="TEXT", help=title)
    add_program(words)
    return words


def start_clock(file: str, minutes: int) -> None:
    clock = Clock(int(time.time()) + 60 * minutes, minutes)
    keep_clock(file, clock)
    print(clock.shown(time.time()))


def missing_packages() -> list[str]:
    """What has to be installed, with what is useful beside it; nothing if it goes on without."""

    def missing(packages: tuple[tuple[str, str], ...]) -> list[str]:
        return [package for module, package in packages if importlib.util.find_spec(module) is None]

    return missing(NEEDED + USEFUL) if missing(NEEDED) else []


def not_installed(packages: list[str]) -> str:
    """What Debian installs is for Debian's Python, and another one may come first on the path."""
    line = f"sudo apt-get install {' '.join(packages)}"
    told = f"It needs what is not installed for {sys.executable}. On Debian:\n{line}"
    if os.path.realpath(sys.executable) == os.path.realpath(PYTHON_OF_DEBIAN):
        return told
    return f"{told}\nand then by Debian's Python: {PYTHON_OF_DEBIAN} {sys.argv[0]} .."


def run(words: argparse.Namespace) -> int:
    if words.clock:
        start_clock(words.file, words.clock)
        return 0
    missing = missing_packages()
    if missing:
        raise Declined(not_installed(missing))
    from event_companions.phones.addresses import NOT_KNOWN, address_chosen
    from event_companions.phones.kept_codes import must_be_alone
    from event_companions.phones.serving import serve

    program = ready(words.program)
    must_be_alone(words.file)
    kept = kept_secret(words.file)
    at = words.at or (kept.at if kept else address_chosen(NOT_KNOWN))
    return serve(words, program, secret_for(words.file, at, words.both))


def main(arguments: Optional[list[str]] = None) -> int:
    words = parser().parse_args(arguments)
    try:
        return run(words)
    except Declined as fault:
        print(f"{COMMAND}: {fault}", file=sys.stderr)
        return 3
    except OSError as fault:
        print(f"{COMMAND}: {fault.filename or words.file}: {fault.strerror}", file=sys.stderr)
        return 3
    except KeyboardInterrupt:
        return 0
