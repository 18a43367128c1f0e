"""Words of the command lines of several companions, and what they end with."""
from __future__ import annotations

import argparse
import os
import re
import subprocess
import sys
from typing import Any, Callable

from event_companions.beside.clock import MOST_MINUTES
from event_companions.core.program import Declined, program_beside
from event_companions.core.reading import Unread


def port_word(text: str) -> int:
    if not re.fullmatch("[0-9]{1,5}", text) or not 1 <= int(text) <= 65535:
        raise argparse.ArgumentTypeError(f"{text!r} is no port from 1 to 65535")
    return int(text)


class Version(argparse.Action):
    """Prints the version of the program that is called. A companion has none of its own: it comes with it."""

    def __call__(self, parser: argparse.ArgumentParser, words: argparse.Namespace, *_rest: Any) -> None:
        try:
            asked = subprocess.run(
                [words.program, "--version"], stdin=subprocess.DEVNULL, stdout=subprocess.PIPE, text=True
            )
        except OSError as fault:
            why = f"{words.program} does not run: {fault.strerror}. Name the program by --program PATH."
            parser.exit(3, f"{parser.prog}: {why}\n")
        package, _, number = asked.stdout.strip().partition(" ")
        if asked.returncode or not number:
            # it has said why
            parser.exit(3)
        print(f"{parser.prog} ({package}) {number}")
        parser.exit()


def add_program(parser: argparse.ArgumentParser) -> None:
    """The words about the program that is called, the last ones of each companion."""
    parser.add_argument(
        "--program", metavar="PATH", default=program_beside(), help="the event_reporter to call"
    )
    parser.add_argument(
        "--version", action=Version, nargs=0, help="print the version of the event_reporter that is called"
    )


def status_of(command: str, run: Callable[[], int], when_interrupted: int = 0) -> int:
    """Of a command line. What was declined, and what the system refused, is said in a line."""
    try:
        return run()
    except Declined as fault:
        print(f"{command}: {fault}", file=sys.stderr)
        return 3
    except Unread as fault:
        print(f"{command}: {fault}", file=sys.stderr)
        return fault.status
    except KeyboardInterrupt:
        return when_interrupted
    except BrokenPipeError:
        # nobody reads on, and what is left would be written at the end
        os.dup2(os.open(os.devnull, os.O_WRONLY), 1)
        return 3
    except OSError as fault:
        print(
            f"{command}: {f'{fault.filename}: ' if fault.filename else ''}{fault.strerror}", file=sys.stderr
        )
        return 3


def count_word(text: str) -> int:
    if not re.fullmatch("[1-9][0-9]{0,5}", text):
        raise argparse.ArgumentTypeError(f"{text!r} is no count from 1 to 999999")
    return int(text)


def minutes_word(text: str) -> int:
    if not re.fullmatch("[0-9]{1,3}", text) or not 1 <= int(text) <= MOST_MINUTES:
        raise argparse.ArgumentTypeError(f"{text!r} are no minutes from 1 to {MOST_MINUTES}")
    return int(text)


def address_word(text: str) -> str:
    """An address as it stands on the slips: http:// is put before it if no scheme is named."""
    address = text if "://" in text else f"http://{text}"
    found = re.fullmatch(r"(https?://([A-Za-z0-9.-]+|\[[0-9A-Fa-f:.]+\])(:[0-9]{1,5})?)/?", address)
    if not found:
        raise argparse.ArgumentTypeError(
            f"{text!r} is no address, as http://192.168.1.10:8080 or https://scores.example.org"
        )
    if found[3]:
        port_word(found[3][1:])
    if found[2] in ("0.0.0.0", "[::]"):
        raise argparse.ArgumentTypeError(f"{found[2]} is all addresses at once: name the one of the phones")
    return found[1]


def place_word(text: str) -> str:
    """Where to listen: a host, and a port if there is one. An address of IPv6 has it only after its brackets."""
    port = re.search(r"(?:^[^:]*|\]):([0-9]+)$", text)
    if port:
        port_word(port[1])
    return text


def tables_word(text: str) -> frozenset[int]:
    if not re.fullmatch("[0-9]{1,3}(,[0-9]{1,3})*", text):
        raise argparse.ArgumentTypeError(f"{text!r} are no tables, as 4 or 4,17")
    return frozenset(map(int, text.split(",")))
