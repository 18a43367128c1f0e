"""Lines that are typed: where they come from, and the numbers in them."""
from __future__ import annotations

import contextlib
import os
import re
import select
import signal
import sys
import textwrap
import threading
from typing import Callable, Iterator, Optional, Protocol

from event_companions.beside.clock import MOST_MINUTES
from event_companions.core.names import visible
from event_companions.core.program import Declined
from event_companions.core.score import Score
from event_companions.prompt.offers import Offers

try:
    import readline
except ImportError:
    readline = None  # type: ignore[assignment]


# of a line of text, on a terminal of 80 columns
WIDTH, ROOM_FOR_AN_ANSWER = 79, 10
# terminals that can't move the cursor
PLAIN_TERMINALS = ("dumb", "unknown", "")
YES_OR_NO = "(y or n) "
NEW_LINE, LINE_AWAY = "\n", "\r\x1b[K"


@contextlib.contextmanager
def unbroken() -> Iterator[None]:
    """Ctrl-C waits until what is begun is done."""
    before = signal.signal(signal.SIGINT, lambda *_: None)
    try:
        yield
    finally:
        signal.signal(signal.SIGINT, before)


class OutOfStep(Exception):
    """A pipe answers a question with what is no answer."""


class Typing(Protocol):
    """A terminal at which lines are typed."""

    def line(self, prompt: str) -> str:
        ...

    def answer(self, question: str) -> str:
        ...

    def say_above(self, prompt: str, text: str) -> None:
        """Says what came in above the line that is being typed, which stays as it is, behind this prompt."""

    def typed(self) -> str:
        """What is typed of the line so far."""

    def is_ahead(self) -> bool:
        """Whether keys were pressed before the line is asked for."""


class Readline:
    """By the standard library: the TAB key completes where there is readline."""

    def __init__(self, offers: Offers):
        self.offers = offers
        self.offered: list[str] = []
        if readline:
            readline.set_completer(self.completed)
            readline.set_completer_delims("")
            readline.parse_and_bind(
                "bind ^I rl_complete" if "libedit" in (readline.__doc__ or "") else "tab: complete"
            )

    def completed(self, text: str, state: int) -> Optional[str]:
        """The whole line, since readline replaces all that is typed, by what begins so."""
        if state == 0:
            offers = [offer for offer in self.offers(text) if offer.begins_so]
            self.offered = [text[: len(text) - len(offer.typed)] + offer.text for offer in offers]
        return self.offered[state] if state < len(self.offered) else None

    def line(self, prompt: str) -> str:
        return input(prompt)

    def answer(self, question: str) -> str:
        return input(question)

    def typed(self) -> str:
        return readline.get_line_buffer() if readline else ""

    def is_ahead(self) -> bool:
        return bool(select.select([sys.stdin], [], [], 0)[0])

    def say_above(self, prompt: str, text: str) -> None:
        is_plain = os.environ.get("TERM", "dumb") in PLAIN_TERMINALS
        # the line is taken away and comes again; if a terminal can't take it away, a new one is begun
        print(f"{NEW_LINE if is_plain else LINE_AWAY}{text}\n{prompt}{self.typed()}", end="", flush=True)


def typing_at_terminal(offers: Offers) -> Typing:
    """By prompt_toolkit, if it is installed and the terminal can show menus."""
    if os.environ.get("TERM", "dumb") not in PLAIN_TERMINALS:
        with contextlib.suppress(ImportError):
            from event_companions.prompt.menus import Menus

            return Menus(offers)
    return Readline(offers)


class Input:
    """Lines from a terminal, with a prompt, or from a pipe, without."""

    # whether the head of a long list goes out of sight
    scrolls = True

    def __init__(self, offers: Offers, is_command: Callable[[str], bool]):
        self.is_command = is_command
        self.typing = typing_at_terminal(offers) if sys.stdin.isatty() else None
        # lines that came with one that was asked for, as they do when several are pasted
        self.ahead: list[str] = []
        # the prompt at which a line is being typed, and how many lines were asked for by then
        self.asking: Optional[str] = None
        self.asked = 0
        self.screen = threading.Lock()

    @property
    def is_asking(self) -> bool:
        return self.asking is not None

    def say_above(self, lines: list[str], asked: int, prompt: Optional[str] = None) -> Optional[str]:
        """What was typed of the line by then, or None if nothing was said, as when the line for which it was
        found out was entered meanwhile. The prompt may change with it.
        """
        with self.screen:
            if not lines or not self.typing or self.asking is None or self.asked != asked:
                return None
            self.asking = prompt or self.asking
            typed = self.typing.typed()
            self.typing.say_above(self.asking, visible("\n".join(lines)))
            return typed

    @property
    def is_ahead(self) -> bool:
        """Whether the next line was typed, or begun, before it is asked for. A pipe's always are."""
        return not self.typing or bool(self.ahead) or self.typing.is_ahead()

    @property
    def is_terminal(self) -> bool:
        """Whether somebody is there who sees each question, and answers it."""
        return self.typing is not None

    def write(self, text: str) -> None:
        """What is said."""
        print(text, end="")

    def line(self, prompt: str) -> str:
        if self.typing:
            return self.typed_line(self.typing, prompt)
        line = sys.stdin.readline()
        if not line:
            raise EOFError
        return line.rstrip("\r\n")

    def typed_line(self, typing: Typing, prompt: str) -> str:
        with self.screen:
            self.asked += 1
            self.asking = prompt
        try:
            return self.first_of(typing.line, prompt)
        finally:
            with self.screen:
                self.asking = None

    def first_of(self, typed: Callable[[str], str], prompt: str) -> str:
        """The next line: one that came before, or else what is typed now."""
        if self.ahead:
            print(f"{prompt}{visible(self.ahead[0])}")
        else:
            self.ahead = typed(prompt).split("\n")
        return self.ahead.pop(0)

    def says_yes(self, question: str) -> bool:
        """Whether the answer is yes. The end of the input, Ctrl-C, and a command in place of an answer are a
        no.
        """
        question = self.within_a_line(f"{question} (y or n) ")
        while True:
            try:
                line = self.first_of(self.typing.answer, question) if self.typing else self.line(question)
            except (EOFError, KeyboardInterrupt):
                print("" if self.is_terminal else question[: -len(YES_OR_NO)].rstrip())
                return False
            if not self.is_terminal:
                print(question + visible(line.strip().lower()))
            answer = line.strip().lower()
            if answer in ("y", "yes", "n", "no"):
                return answer.startswith("y")
            if not self.is_terminal:
                raise OutOfStep("The line after a question has to be y or n. Nothing more is done.")
            if self.is_command(line):
                # it was typed for the prompt, as when lines are pasted, and is done next
                self.ahead.insert(0, line)
                return False

    def within_a_line(self, question: str) -> str:
        """A plain terminal moves a line that is as long as it is wide, so a long question stands above it."""
        if len(question) <= WIDTH - ROOM_FOR_AN_ANSWER:
            return question
        asked = question[: -len(YES_OR_NO)]
        print(textwrap.fill(asked, WIDTH, break_long_words=False, break_on_hyphens=False))
        return YES_OR_NO

    def reply(self, question: str, is_answer: Callable[[str], bool]) -> str:
        """What is answered at a terminal. The end of the input, Ctrl-C, and a command in place of an answer
        are a no.
        """
        assert self.typing
        while True:
            try:
                line = self.first_of(self.typing.answer, f"{question} ").strip()
            except (EOFError, KeyboardInterrupt):
                print()
                return "n"
            if is_answer(line):
                return line
            if self.is_command(line):
                self.ahead.insert(0, line)
                return "n"


def spread(text: str) -> str:
    """The same with spaces between numbers, however they were parted: 7 2-1, 7 2:1, 7,2,1, or TABs of a
    spreadsheet.
    """
    text = re.sub(r"(?<=\d)\s*[,;:]\s*(?=\d)", " ", text)
    # a hyphen before a number alone would be a minus
    return re.sub(r"(?<=\d)(?:[-\u2013]|\s+[-\u2013]\s+)(?=\d)", " ", text)


def numbers_in(text: str, least: int, most: int, example: str) -> list[str]:
    """The numbers of a line."""
    words = spread(text).split()
    if not least <= len(words) <= most or not all(re.fullmatch("[0-9]{1,9}", word) for word in words):
        raise Declined(f"Type numbers, such as {example}")
    return [str(int(word)) for word in words]


def with_score(text: str) -> str:
    """A line whose score may be typed without spaces: 7 20 for 7 2 0, and 7 id for an intended draw."""
    words = spread(text).split()
    if len(words) > 1 and words[-1].lower() == "id":
        return " ".join([*words[:-1], "0", "0", "3"])
    if len(words) == 2 and re.fullmatch("[0-3]{2,3}", words[1]):
        return " ".join([words[0], *words[1]])
    return text


def score_in(words: list[str]) -> Score:
    """Of two or three counts, without or with drawn games."""
    return Score(*map(int, words))


def minutes_in(text: str) -> Optional[int]:
    """Minutes, as 50, 50min or 50 minutes; None if it isn't that."""
    found = re.fullmatch(r"([0-9]{1,4})\s*(?:m|min|mins|minutes)?", text.strip(), re.I)
    return int(found[1]) if found else None


def minutes_of(text: str, example: str) -> int:
    minutes = minutes_in(text)
    if minutes is None:
        raise Declined(f"Type minutes, such as {example}")
    if not 1 <= minutes <= MOST_MINUTES:
        raise Declined(f"A clock runs for 1 to {MOST_MINUTES} minutes, such as {example}")
    return minutes
