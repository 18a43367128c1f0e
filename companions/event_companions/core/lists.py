"""Readers of the program's texts and lists: small typed records, found by the names in the headings."""
from __future__ import annotations

import csv
import io
import re
from dataclasses import dataclass, field
from typing import Dict, Iterator, List, Optional

from event_companions.core.score import Score

Row = Dict[str, str]


class Unreadable(Exception):
    """It is no text or list of the program, or not all of one."""


@dataclass(frozen=True)
class Player:
    number: int
    name: str
    has_dropped: bool
    # the last name, if a list has told it
    last: str = ""


@dataclass(frozen=True)
class Match:
    """Of a round or a stage. A bye has place 0 and second 0."""

    place: int
    first: int
    second: int
    score: Optional[Score] = None

    @property
    def seats(self) -> tuple[int, int, int]:
        """Its place, and who sits there."""
        return self.place, self.first, self.second

    @property
    def is_bye(self) -> bool:
        return self.second == 0

    @property
    def is_open(self) -> bool:
        return self.score is None

    def has(self, number: int) -> bool:
        return number in (self.first, self.second)

    def opponent_of(self, number: int) -> int:
        """0 in a bye."""
        return self.second if number == self.first else self.first


@dataclass(frozen=True)
class Standing:
    """A line of the standings; points and percentages as they are printed."""

    rank: str
    player: Player
    points: str
    opponents_match_wins: str
    game_wins: str
    opponents_game_wins: str


Players = Dict[int, Player]
Matches = List[Match]
Rounds = List[List[Match]]


def matches_by_player(matches: Matches) -> dict[int, Match]:
    """The match of each player who sits in a round."""
    return {number: match for match in matches for number in (match.first, match.second) if number}


@dataclass(frozen=True)
class Bracket:
    """The stages, and the champion's number once there is one."""

    stages: Rounds = field(default_factory=list)
    champion: Optional[int] = None


# ---- texts


def lines_of(text: str) -> list[str]:
    """The lines of a whole text. Other characters at which Python would split may stand in names."""
    if not text.endswith("\n"):
        raise Unreadable("it ends in the middle of a line")
    return text.split("\n")[:-1]


def columns_of(heading: str, names: tuple[str, ...]) -> dict[str, slice]:
    """Where each column lies: it ends with its name, one space comes before the next, and the last one has no
    end.
    """
    columns: dict[str, slice] = {}
    begin = 0
    for found in re.finditer(r"\S+", heading):
        columns[found[0]] = slice(begin, found.end())
        begin, last = found.end() + 1, found
    if not all(name in columns for name in names):
        raise Unreadable(f"its heading has not {', '.join(names)}")
    columns[last[0]] = slice(last.start(), None)
    return columns


def cells_of(line: str, columns: dict[str, slice], last: str) -> Row:
    """What stands in each column; the last one is a name, which keeps its spaces."""
    return {name: line[where] if name == last else line[where].strip() for name, where in columns.items()}


def rows_of_text(text: str, *names: str) -> Iterator[Row]:
    """The rows of a text whose heading has these names, among which the last one of the heading stands last."""
    heading, *lines = lines_of(text)
    columns = columns_of(heading, names)
    for line in lines:
        yield cells_of(line, columns, names[-1])


def whole(text: str) -> int:
    if not re.fullmatch("[0-9]{1,9}", text):
        raise Unreadable(f"{text[:20]!r} is no number")
    return int(text)


def score_of(cell: str) -> Optional[Score]:
    """The score in a column of a text, where a lone hyphen stands for none."""
    try:
        return None if cell == "-" else Score.parse(cell)
    except ValueError as fault:
        raise Unreadable(str(fault)) from None


def pairings_of(text: str) -> Matches:
    rows = rows_of_text(text, "Tab", "A", "B", "Score", "Names")
    return [
        Match(whole(row["Tab"]), whole(row["A"]), whole(row["B"]), score_of(row["Score"])) for row in rows
    ]


def standing_of(row: Row) -> Standing:
    player = Player(whole(row["No"]), row["Name"], row["D"] == "D")
    return Standing(row["Rank"], player, row["Pts"], row["OMW"], row["GWP"], row["OGW"])


def standings_of(text: str) -> list[Standing]:
    return [
        standing_of(row) for row in rows_of_text(text, "Rank", "No", "Pts", "OMW", "GWP", "OGW", "D", "Name")
    ]


def bracket_of(text: str) -> Bracket:
    heading, *lines = lines_of(text)
    columns = columns_of(heading, ("Stg", "Slot", "A", "B", "Score", "Names"))
    stages: Rounds = []
    champion = None
    for line in lines:
        found = re.match(r"Champion (\d+) ", line)
        if found:
            champion = int(found[1])
            continue
        row = cells_of(line, columns, "Names")
        match = Match(whole(row["Slot"]), whole(row["A"]), whole(row["B"]), score_of(row["Score"]))
        add_to(stages, whole(row["Stg"]), match)
    return Bracket(stages, champion)


def add_to(lists: Rounds, number: int, match: Match) -> None:
    """Puts a match into the list of its round or stage, which comes right after the one before."""
    if number == len(lists) + 1:
        lists.append([])
    if number != len(lists):
        raise Unreadable(f"{number} comes after {len(lists)}")
    lists[-1].append(match)


# ---- CSV


def rows_of_csv(text: str, *names: str) -> Iterator[Row]:
    """The rows of a list whose heading is just these names."""
    if not text.endswith("\n"):
        raise Unreadable("it ends in the middle of a line")
    try:
        heading, *rows = list(csv.reader(io.StringIO(text, newline=""), strict=True))
    except csv.Error:
        raise Unreadable("it ends in the middle of a field") from None
    if heading != list(names) or any(len(row) != len(names) for row in rows):
        raise Unreadable(f"it is not a list with {', '.join(names)}")
    for row in rows:
        yield dict(zip(names, row))


def players_of(text: str) -> Players:
    players = [
        Player(whole(row["no"]), row["name"], row["dropped"] == "1")
        for row in rows_of_csv(text, "no", "name", "dropped")
    ]
    return {player.number: player for player in players}


def rounds_of(text: str) -> Rounds:
    rounds: Rounds = []
    for row in rows_of_csv(text, "round", "table", "a", "b", "x", "y", "d"):
        score = Score(whole(row["x"]), whole(row["y"]), whole(row["d"])) if row["x"] else None
        add_to(
            rounds, whole(row["round"]), Match(whole(row["table"]), whole(row["a"]), whole(row["b"]), score)
        )
    return rounds
