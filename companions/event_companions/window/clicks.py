"""What takes the place of a terminal: lines that are clicked, and questions as values, which wait for a click."""
from __future__ import annotations

import re
import threading
import time
from dataclasses import dataclass, field
from typing import Callable, Optional

from event_companions.core.event import Progress
from event_companions.prompt.lines import Input

SECONDS_BETWEEN_LOOKS = 0.5


@dataclass(frozen=True)
class Question:
    """What has to be answered before a line goes on: by yes or no, or by `but 1 3` too. Said: what the line had
    said by then.
    """

    number: int
    line: str
    text: str
    said: str
    is_answer: Callable[[str], bool]
    may_choose: bool = False


@dataclass
class Entry:
    """A line that was clicked, and what it came to."""

    number: int
    line: str
    # as far as its page had shown the event; None if that isn't known
    shown: Optional[Progress] = None
    at: str = field(default_factory=lambda: time.strftime("%H:%M:%S"))
    said: list[str] = field(default_factory=list)
    has_failed: bool = False
    is_done: bool = False
    seconds: float = 0.0

    @property
    def text(self) -> str:
        return "".join(self.said)

    @property
    def lines(self) -> list[str]:
        """Without the program's serials, which say nothing to people."""
        found = [re.sub(r"^ok \d+(: |$)", "", line).strip() for line in self.text.split("\n")]
        return [line for line in found if line]

    @property
    def back(self) -> str:
        """What takes it back, if it was a score and was stored."""
        found = re.match(r"(?:play +)?([0-9]{1,3}|(?:qf|sf)[1-4]|final) +[0-9]", self.line)
        return f"take back {found[1]}" if found and self.is_done and not self.has_failed else ""

    @property
    def short(self) -> str:
        """What is said of it at the foot of a page: why it was refused, or else what it came to."""
        lines = self.lines
        answers = [at for at, line in enumerate(lines) if re.search(r"\(y or n\) \S.*$", line)]
        # what was said before an answer was read then
        lines = lines[answers[-1] + 1 :] or lines[-1:] if answers else lines
        if self.has_failed or len(lines) < 4:
            return " ".join(lines[:2])
        return lines[0] if answers else lines[-1]


@dataclass(frozen=True)
class Said:
    """Lines as they are, or the names of a list, which stand in columns."""

    lines: tuple[str, ...]
    is_list: bool = False


def parted(question: Question) -> list[Said]:
    """What stands above a question. Of a list that would be enrolled the names stand in columns."""
    lines = question.said.rstrip("\n").split("\n")
    if not question.line.startswith(("import", "entries take")):
        return [Said(tuple(lines))] if question.said.strip() else []
    found: list[Said] = []
    for line in lines:
        is_list = line.startswith("  ")
        if is_list and line.startswith("   ") and found and found[-1].is_list:
            # it goes on
            found[-1] = Said((*found[-1].lines[:-1], f"{found[-1].lines[-1]} {line.strip()}"), True)
            continue
        if found and found[-1].is_list == is_list:
            found[-1] = Said((*found[-1].lines, line), is_list)
        else:
            found.append(Said((line,), is_list))
    return found


def yes_or_no(answer: str) -> bool:
    return answer in ("y", "yes", "n", "no")


class Over(Exception):
    """The window ends while a question stands."""


class Clicks(Input):
    """Questions stand until they are answered. The thread that does lines waits meanwhile, and holds no turn:
    no word asks while it holds one.
    """

    def __init__(self, changed: threading.Condition):
        super().__init__(lambda text: [], lambda line: False)
        self.typing = None
        self.changed = changed
        self.entry = Entry(0, "")
        self.question: Optional[Question] = None
        self.answered: Optional[str] = None
        self.asked_so_far = 0
        self.is_over = False

    @property
    def is_terminal(self) -> bool:
        return True

    # nothing that was said is out of sight
    scrolls = False

    @property
    def is_ahead(self) -> bool:
        # what a page has shown comes with its line
        return True

    def write(self, text: str) -> None:
        self.entry.said.append(text)

    def says_yes(self, question: str) -> bool:
        return self.answer_to(question, yes_or_no).startswith("y")

    def reply(self, question: str, is_answer: Callable[[str], bool]) -> str:
        return self.answer_to(question, is_answer, may_choose=True)

    def answer_to(self, text: str, is_answer: Callable[[str], bool], may_choose: bool = False) -> str:
        with self.changed:
            self.asked_so_far += 1
            so_far = self.entry.text
            self.question = Question(self.asked_so_far, self.entry.line, text, so_far, is_answer, may_choose)
            self.answered = None
            self.changed.notify_all()
            try:
                while self.answered is None:
                    self.changed.wait(SECONDS_BETWEEN_LOOKS)
                    if self.is_over:
                        raise Over
                answer = self.answered
            finally:
                self.question = None
        self.write(f"{text} (y or n) {answer}\n")
        return answer

    def give(self, number: int, answer: str) -> bool:
        """Whether this was the question that stands, and this an answer to it."""
        answer = answer.strip().lower()
        with self.changed:
            question = self.question
            if not question or question.number != number or self.answered is not None:
                return False
            if not question.is_answer(answer):
                return False
            self.answered = answer
            self.changed.notify_all()
            return True
