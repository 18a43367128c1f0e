"""The draw of a round: what dice show is its number, the key follows from round and number and from nothing
else, and a text has all that anybody needs to work the round out again.
"""
from __future__ import annotations

import hashlib
import re
from dataclasses import dataclass
from typing import Iterable, Optional, Sequence

from event_companions.languages import DEFAULT, Say, say_in

KIND = "event_reporter draw 2"
# what stands in a text for a number that was not drawn, for throwers who are not named, and for no mistake
NONE = "-"
# what the first text of an event follows on
BEFORE_THE_FIRST = "0" * 64
MOST_VALUES, MOST_VALUE = 20, 999_999
# the digits of a text that are shown, as on the sheets
DIGITS_SHOWN = 16
PLAYERS, RESULTS, TABLES, END = b"players.csv\n", b"results.csv\n", b"drawn.csv\n", b"end\n"
HEADING_OF_TABLES = b"round,table,a,b,x,y,d\n"

VALUE = "[1-9][0-9]{0,5}"
NUMBER = rf"{VALUE}(?: {VALUE}){{0,{MOST_VALUES - 1}}}"
HEAD = re.compile(
    rf"{KIND}\n"
    r"round ([1-9][0-9]?)\n"
    r"drawing ([1-9][0-9]{0,3})\n"
    r"after ([0-9a-f]{64})\n"
    r"mark ([0-9a-f]{64})\n"
    rf"number (-|{NUMBER})\n"
    r"by (-|[1-9][0-9]{0,2}(?: [1-9][0-9]{0,2})*)\n"
    rf"instead (-|{NUMBER}(?:; {NUMBER})*)\n"
    r"key ([0-9a-f]{64})\n".encode()
)
# what stands before the rule once the draw was ended
ENDED = "off after "
RULE = re.compile(rf"off|(?:{ENDED})?(?:(each|once) ([1-9][0-9]?)d([1-9][0-9]{{0,5}})|each papers)")


class NoNumber(ValueError):
    """The values are no number of a round, and this is why."""


class NoText(ValueError):
    """It is no text of a round."""


def digest(data: bytes) -> str:
    return hashlib.sha256(data).hexdigest()


def number_of(values: Sequence[str]) -> str:
    """The number of a round: the values ascending, so that the order in which dice are read is no choice."""
    if not 1 <= len(values) <= MOST_VALUES or not all(re.fullmatch(VALUE, value) for value in values):
        raise NoNumber(f"A number has 1 to {MOST_VALUES} values, each from 1 to {MOST_VALUE}")
    return " ".join(map(str, sorted(map(int, values))))


def key_of(round_number: int, number: str) -> str:
    return digest(f"{KIND}\nround {round_number}\nnumber {number}\n".encode())


def shown_digits(sum_of_text: str) -> str:
    """The first digits of a text's sum, in groups that can be read aloud."""
    return " ".join(sum_of_text[at : at + 4] for at in range(0, DIGITS_SHOWN, 4))


# ---- the rule of the evening


@dataclass(frozen=True)
class Rule:
    """How a round gets its number, as FILE.draws/rule has it: each 4d20, once 4d20, each papers; or that the draw
    was ended, and by which rule rounds were drawn until then: off after each 4d20.
    """

    text: str
    # how many values there are at least, and how great one may be
    least: int = 0
    most: int = 0

    @property
    def is_off(self) -> bool:
        return self.text.startswith("off")

    @property
    def drawn_by(self) -> str:
        """The rule by which rounds are drawn, or were until the draw was ended."""
        return self.text.replace(ENDED, "", 1)

    @property
    def is_once(self) -> bool:
        """Whether the number of round 1 is that of each round, also of those drawn before the draw was ended."""
        return self.drawn_by.startswith("once")

    @property
    def ended(self) -> Rule:
        return self if self.is_off else Rule(f"{ENDED}{self.text}")

    @property
    def is_papers(self) -> bool:
        return self.text.endswith("papers")

    @property
    def example(self) -> str:
        """What is typed for it."""
        if self.is_papers:
            return "pair 4711 815"
        values = (17, 3, 8, 11, 5, 14, 2, 9)
        shown = [str(min(value, self.most)) for value in (values * 3)[: self.least]]
        return f"pair {' '.join(shown)}"

    @property
    def throw(self) -> str:
        """What has to be done in the room."""
        return self.throw_in(say_in(DEFAULT))

    def throw_in(self, say: Say) -> str:
        return say("throw_papers") if self.is_papers else say("throw_dice", dice=self.text.split()[1])

    def fault_of(self, number: str) -> str:
        """Why this rule takes no such number; or nothing."""
        values = [int(value) for value in number.split(" ")]
        if self.is_off or (len(values) >= self.least and max(values) <= self.most):
            return ""
        return f"The rule is {self.text}: {self.least} values or more, each from 1 to {self.most}"


def rule_of(text: str) -> Optional[Rule]:
    found = RULE.fullmatch(text)
    if not found:
        return None
    if text.startswith("off"):
        return Rule(text) if text == "off" or rule_of(text[len(ENDED) :]) else None
    # two write at least, four digits each
    least, most = (int(found[2]), int(found[3])) if found[1] else (2, 9999)
    return Rule(text, least, most) if 2 <= least <= MOST_VALUES and most >= 2 else None


# ---- the lists by which a round is paired


@dataclass(frozen=True)
class Lists:
    """What `export` prints, players and results, at one time."""

    players: bytes
    results: bytes

    @property
    def mark(self) -> str:
        return digest(self.players + self.results)

    @property
    def data(self) -> bytes:
        return PLAYERS + self.players + RESULTS + self.results


def lists_of(data: bytes) -> Lists:
    """Both lists, cut where the second one begins: a line of the first one is never its name alone."""
    at = data.find(b"\n" + RESULTS) + 1
    if not data.startswith(PLAYERS) or not at or not data.endswith(b"\n"):
        raise NoText("two lists are missing")
    return Lists(data[len(PLAYERS) : at], data[at + len(RESULTS) :])


def tables_of(results: bytes, round_number: int) -> bytes:
    """The tables of a round as they were paired: without scores, but for the bye's."""
    beginning = f"{round_number},".encode()
    rows = [row for row in results.split(b"\n")[1:-1] if row.startswith(beginning)]
    unscored = [
        row if row.split(b",")[1] == b"0" else b",".join(row.split(b",")[:4]) + b",,," for row in rows
    ]
    return HEADING_OF_TABLES + b"".join(row + b"\n" for row in unscored)


# ---- the text of a round


@dataclass(frozen=True)
class DrawText:
    """A round as it was drawn. `after` is the sum of the text that was written before it."""

    round: int
    drawing: int
    after: str
    number: str
    by: str
    instead: str
    key: str
    lists: Lists
    tables: bytes

    @property
    def data(self) -> bytes:
        head = (
            f"{KIND}\nround {self.round}\ndrawing {self.drawing}\nafter {self.after}\n"
            f"mark {self.lists.mark}\nnumber {self.number}\nby {self.by}\ninstead {self.instead}\n"
            f"key {self.key}\n"
        )
        return head.encode() + self.lists.data + TABLES + self.tables + END

    @property
    def sum(self) -> str:
        return digest(self.data)

    @property
    def is_drawn(self) -> bool:
        return self.number != NONE

    @property
    def seats(self) -> list[list[int]]:
        """The table and the two numbers of each of its matches."""
        return [[int(cell) for cell in row.split(b",")[1:4]] for row in self.tables.split(b"\n")[1:-1]]


def text_of(data: bytes) -> DrawText:
    """What a text says. It is taken only if it is to the byte what would be written."""
    head = HEAD.match(data)
    at = data.rfind(b"\n" + TABLES) + 1
    if not head or at <= head.end() or not data.endswith(END):
        raise NoText("it is not laid out as a text of a round")
    round_number, drawing, after, mark, number, by, instead, key = (part.decode() for part in head.groups())
    lists = lists_of(data[head.end() : at])
    tables = data[at + len(TABLES) : -len(END)]
    text = DrawText(int(round_number), int(drawing), after, number, by, instead, key, lists, tables)
    numbers = [number, *instead.split("; ")]
    are_numbers = all(it == NONE or it == number_of(it.split(" ")) for it in numbers)
    if lists.mark != mark or not are_numbers or not is_ascending(by):
        raise NoText("its mark, its numbers or its throwers are not as they would be written")
    if text.is_drawn and key != key_of(text.round, number):
        raise NoText("its key does not follow from its round and number")
    row = rb"%d,[0-9]+,[0-9]+,[0-9]+,(?:,,|2,0,0)\n" % text.round
    if not re.fullmatch(HEADING_OF_TABLES + b"(?:%s)+" % row, tables):
        raise NoText("its tables are not laid out as such")
    if text.data != data:
        raise NoText("it is written otherwise")
    return text


def is_ascending(by: str) -> bool:
    if by == NONE:
        return True
    throwers = [int(word) for word in by.split(" ")]
    return throwers == sorted(set(throwers))


def by_of(numbers: Iterable[int]) -> str:
    return " ".join(map(str, sorted(set(numbers)))) or NONE
