"""A plain reading of command lines and scripts (docs/FORMATS.md, section 6): the words of a line, what they ask for, and what a plain event answers."""
import csv
import io
import re

from second_reading.plain_csv import players_rows, results_rows
from second_reading.plain_event import Event, is_lawful

MOST_ROUNDS, CUTS = 12, (0, 2, 4, 8)
BYTE, SHORT = 255, 65_535


class Usage(Exception):
    """The words are no command line."""


def name(word):
    return word


def number(most):
    def read(word):
        if not re.fullmatch("[0-9]+", word) or int(word) > most:
            raise Usage
        return int(word)

    return read


def seed(word):
    if not re.fullmatch("[0-9A-Fa-f]{64}", word):
        raise Usage
    return bytes.fromhex(word)


def kind(word):
    if word not in ("players", "results"):
        raise Usage
    return word


SCORE = [number(BYTE)] * 3
# the words of each subcommand, FILE left out
WORDS = {
    "init": [name, number(BYTE), number(BYTE)],
    "enrol": [name],
    "start": [],
    "pair": [number(BYTE), seed],
    "result": [number(BYTE), number(SHORT), *SCORE],
    "correct": [number(BYTE), number(SHORT), *SCORE],
    "drop": [number(SHORT)],
    "cut": [],
    "playoff": [number(BYTE), number(BYTE), *SCORE],
    "players": [],
    "standings": [],
    "slips": [number(BYTE)],
    "bracket": [],
    "export": [kind],
    "migrate": [],
}


def read(words):
    """The subcommand and its values."""
    if not words or words[0] not in WORDS or any(word.startswith("-") for word in words):
        raise Usage
    readers = WORDS[words[0]]
    if len(words) != len(readers) + 1:
        raise Usage
    return words[0], [reader(word) for reader, word in zip(readers, words[1:])]


def csv_lines(rows):
    text = io.StringIO()
    csv.writer(text, lineterminator="\n").writerows(rows)
    return text.getvalue().split("\n")[:-1]


def exported(event, which):
    return csv_lines(players_rows(event) if which == "players" else results_rows(event))


def answers(event, subcommand, values):
    """What an event answers, which has then what was taken."""
    calls = {
        "enrol": event.enrol,
        "start": event.start,
        "pair": event.pair,
        "result": lambda at, table, *score: event.report(at, table, tuple(score), True),
        "correct": lambda at, table, *score: event.report(at, table, tuple(score), False),
        "drop": event.drop,
        "cut": event.end_rounds,
        "playoff": lambda stage, slot, *score: event.play(stage, slot, tuple(score)),
        "players": event.players,
        "standings": event.standings,
        "slips": event.slips,
        "bracket": event.bracket,
        "export": lambda which: exported(event, which),
        "migrate": event.migrate,
    }
    return calls[subcommand](*values)


def may_begin(text, rounds, cut):
    """Whether an event can be made with these."""
    return is_lawful(text.encode()) and 1 <= rounds <= MOST_ROUNDS and cut in CUTS


class Script:
    """A script, whose event lives in memory alone."""

    def __init__(self):
        self.event = None

    def answer(self, line):
        """The lines that answer a line, which is bytes with its line feed or without."""
        try:
            text = line.decode()
        except UnicodeDecodeError:
            return ["usage"]
        text = text[:-1] if text.endswith("\n") else text
        # an empty line does nothing
        if not text:
            return []
        try:
            subcommand, values = read(text.split("\t"))
        except Usage:
            return ["usage"]
        if subcommand == "init":
            return self.begin(*values)
        return answers(self.event, subcommand, values) if self.event else ["refused 27 NoEvent"]

    def begin(self, text, rounds, cut):
        if not may_begin(text, rounds, cut):
            return ["refused 30 BadSetup"]
        if self.event:
            return ["refused 28 EventExists"]
        self.event = Event(rounds, cut)
        return ["ok 0"]

    def run(self, script):
        """The lines that answer a whole script."""
        return [answer for line in script.split(b"\n") for answer in self.answer(line)]
