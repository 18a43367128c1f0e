"""Lists of players as people hand them in: how one is read, whom it would enrol, and which rows are left out.
"""
from __future__ import annotations

import contextlib
import csv
import io
import os
import re
import tempfile
import unicodedata
from dataclasses import dataclass, field
from typing import Iterator, List, Optional, Sequence

from event_companions.core.names import compared, listed, may_lead_earlier, visible
from event_companions.core.program import Declined

ALONE = ("name", "player", "player name", "full name")
FIRST = ("first name", "first", "firstname", "given name", "forename")
LAST = ("last name", "last", "lastname", "surname", "family name")
CLUB = ("club", "team", "store", "shop", "city", "town")
DELIMITERS = {",": "commas", ";": "semicolons", "\t": "TABs"}
MOST_BYTES_OF_A_NAME = 60
MOST_NAMES = 512
LONGEST_LIST = 4_000_000
# western Europe, and central Europe; and those of other letters
LATIN = ("cp1252", "cp1250")
CODE_PAGES = [*LATIN, "cp1251", "cp1253", "cp1254", "cp1257"]

Fields = List[str]


@dataclass(frozen=True)
class Alike:
    """A name that looks like another one, of a player or of an earlier row, and is written otherwise."""

    place: int
    name: str
    other: str


@dataclass
class Roster:
    """What a list comes to."""

    how: str
    # whether its letters were guessed, since it is neither UTF-8 nor UTF-16
    is_guess: bool = False
    names: list[str] = field(default_factory=list)
    alike: list[Alike] = field(default_factory=list)
    already: list[str] = field(default_factory=list)
    left_out: list[str] = field(default_factory=list)
    # last names of several words, or that come first, if the list has them apart
    lasts: dict[str, str] = field(default_factory=dict)
    # names of which it doesn't tell where the last name begins
    unparted: set[str] = field(default_factory=set)

    @property
    def counts(self) -> str:
        """How many of each kind, as: 37 to enrol, 1 left out."""
        kinds: dict[str, Sequence[object]] = {
            "to enrol": self.names,
            "enrolled already": self.already,
            "perhaps there already": self.alike,
            "left out": self.left_out,
        }
        return ", ".join(f"{len(found)} {what}" for what, found in kinds.items() if found)


@dataclass(frozen=True)
class Table:
    """The rows of a list, its heading first, and the character between its fields."""

    rows: list[Fields]
    delimiter: str

    @property
    def top(self) -> int:
        """The place of the heading: the first row that has anything."""
        return next((place for place, fields in enumerate(self.rows) if any(map(tidy, fields))), 0)

    @property
    def heading(self) -> Fields:
        return self.rows[self.top] if self.rows else []


def read_list(path: str) -> bytes:
    shown = visible(path)
    try:
        with open(os.path.expanduser(path), "rb") as read:
            data = read.read(LONGEST_LIST + 1)
    except OSError as fault:
        raise Declined(f"{shown} was not read: {fault.strerror}.") from None
    except ValueError:
        raise Declined(f"{shown} is no name of a file.") from None
    if len(data) > LONGEST_LIST:
        raise Declined(f"{shown} is too long for a list of players.")
    return data


def path_and_codec(words: str) -> tuple[str, str]:
    """A path, and after it the name of an encoding, where there is one: names.csv cp1250."""
    path, _, codec = words.rpartition(" ")
    if path and not os.path.exists(os.path.expanduser(words)) and is_codec(codec):
        return path.strip(), codec
    return words, ""


def is_codec(name: str) -> bool:
    try:
        b"a".decode(name)
    except LookupError:
        return False
    except UnicodeError:
        # of two bytes a letter
        return True
    return True


def decoded(data: bytes, codec: str = "") -> tuple[str, str, bool]:
    """The text of a list, the name of its encoding, and whether that is a guess."""
    if data[:4] == b"PK\3\4":
        raise Declined("This is a spreadsheet and no text. Save it there as CSV, and import that.")
    if codec:
        return unpacked(data, codec, f"not {codec}"), codec, False
    wide = wide_codec(data)
    if wide:
        return unpacked(data, wide, "not UTF-16"), "UTF-16", False
    try:
        return data.decode("utf-8-sig"), "UTF-8", False
    except UnicodeDecodeError:
        guess = guessed(data)
        return unpacked(data, guess, f"neither UTF-8 nor UTF-16 nor {guess}"), guess, True


def wide_codec(data: bytes) -> str:
    """The encoding of two bytes a letter, where it is one."""
    if data[:2] in (b"\xff\xfe", b"\xfe\xff"):
        return "utf-16"
    if b"\0" in data[:200]:
        return "utf-16-le" if data[1:2] == b"\0" else "utf-16-be"
    return ""


def guessed(data: bytes) -> str:
    """The encoding that fits best of those that spreadsheets write. For other scripts charset-normalizer
    tells them apart, if it is installed. Those of Latin letters differ in few bytes, which it mistakes in
    a short list: of these it is the first in which no name has a sign that no name has, as £ukasz.
    """
    best = best_by_statistics(data)
    latin = [codec for codec in LATIN if has_letters_alone(data, codec)]
    return latin[0] if latin and best in LATIN else best


def best_by_statistics(data: bytes) -> str:
    with contextlib.suppress(ImportError):
        from charset_normalizer import from_bytes

        best = from_bytes(data, cp_isolation=CODE_PAGES).best()
        if best:
            return str(best.encoding)
    return LATIN[0]


def has_letters_alone(data: bytes, codec: str) -> bool:
    """Whether all that is not ASCII are letters, or quotes and dashes."""
    try:
        text = data.decode(codec)
    except UnicodeDecodeError:
        return False
    others = {letter for letter in text if not letter.isascii()}
    return all(
        unicodedata.category(letter)[0] in "LM" or letter in "\u2018\u2019\u201c\u201d\u2013\u2014"
        for letter in others
    )


def unpacked(data: bytes, codec: str, what: str) -> str:
    try:
        return data.decode(codec)
    except UnicodeDecodeError:
        raise Declined(f"The letters of this list are {what}. Save it as CSV UTF-8.") from None


def tidy(text: str) -> str:
    """Without space at either end, and with one space if there are several."""
    return " ".join(text.split())


def column_of(heading: Fields, names: tuple[str, ...]) -> Optional[int]:
    plain = [tidy(re.sub("[_-]", " ", title)).casefold() for title in heading]
    return next((plain.index(name) for name in names if name in plain), None)


def columns_of(heading: Fields) -> list[int]:
    """The columns that make a name: one, or first and last."""
    alone = column_of(heading, ALONE)
    if alone is not None:
        return [alone]
    first, last = column_of(heading, FIRST), column_of(heading, LAST)
    return [] if first is None or last is None else [first, last]


def field_of(fields: Fields, column: Optional[int]) -> str:
    """What stands in a column, if the row goes so far."""
    return tidy(fields[column]) if column is not None and column < len(fields) else ""


def table_of(text: str) -> Table:
    """The rows by the delimiter that makes most columns of the heading."""
    first = next((line for line in text.split("\n") if line.strip()), "")
    if re.fullmatch(r"sep=.\r?", first):
        text = text.split("\n", 1)[1]
    read = [read_by(text, delimiter) for delimiter in DELIMITERS]
    tables = [table for table in read if table and columns_of(table.heading)]
    if not any(read):
        raise Declined("The list ends in the middle of a name in quotes. Save it again, and import that.")
    if not tables:
        raise Declined(
            "The list has no column Name, nor First name and Last name. Its first line is:\n"
            f"{visible(tidy(first)[:60])}\n"
            "Write Name above the names, and import it again."
        )
    widest = max(tables, key=lambda table: len(table.heading))
    # a heading of one word says nothing of delimiters, so each line is a name whole
    return widest if len(widest.heading) > 1 else Table(tables[-1].rows, "\t")


def read_by(text: str, delimiter: str) -> Optional[Table]:
    """The rows, or None if a quote is not closed: it would take in all that follows."""
    end = "the end"
    try:
        *rows, last = csv.reader(io.StringIO(f"{text}\n{end}", newline=""), delimiter=delimiter)
    except csv.Error:
        return None
    return Table(rows, delimiter) if last == [end] else None


def why_not(name: str) -> str:
    """Why the program would not take the name, or nothing."""
    if not name:
        return "no name"
    if len(name.encode("utf-8", "surrogatepass")) > MOST_BYTES_OF_A_NAME:
        return f"{visible(name)}: more than {MOST_BYTES_OF_A_NAME} bytes"
    if re.search("[\0-\x1f\x7f\ud800-\udfff]", name):
        return f"{visible(name)}: a character that no name has"
    return ""


def roster_of(data: bytes, enrolled: set[str], codec: str = "") -> Roster:
    """Whom a list would enrol. Rows are counted as a spreadsheet does, the heading as row 1."""
    text, encoding, is_guess = decoded(data, codec)
    table = table_of(text)
    columns = columns_of(table.heading)
    titles = visible(" and ".join(tidy(table.heading[column]) for column in columns))
    delimited = f", {DELIMITERS[table.delimiter]}" if len(table.heading) > 1 else ""
    roster = Roster(f"{encoding}{delimited}, the column{'s' if len(columns) > 1 else ''} {titles}", is_guess)
    sorting, club = Sorting(roster, enrolled), column_of(table.heading, CLUB)
    for place, fields in enumerate(table.rows[table.top + 1 :], table.top + 2):
        name = tidy(" ".join(field_of(fields, column) for column in columns))
        last = field_of(fields, columns[1]) if len(columns) > 1 else ""
        if listed(name, last) != listed(name):
            roster.lasts[name] = last
        if len(columns) == 1 and may_lead_earlier(name):
            roster.unparted.add(name)
        if any(map(tidy, fields)):
            sorting.add(place, name, field_of(fields, club))
    return roster


class Sorting:
    """Sorts the rows of a list into a roster, one after the other."""

    def __init__(self, roster: Roster, enrolled: set[str]):
        self.roster, self.enrolled = roster, enrolled
        # the row of each name, and the clubs of all rows that have it
        self.rows: dict[str, int] = {}
        self.clubs: dict[str, set[str]] = {}
        self.looks = {compared(name): name for name in enrolled}
        self.advised: set[str] = set()

    def add(self, place: int, name: str, club: str) -> None:
        roster, fault = self.roster, why_not(name)
        if fault:
            roster.left_out.append(f"row {place}: {fault}")
        elif name in self.rows:
            same = f"row {place}: {visible(name)}, as in row {self.rows[name]}"
            apart = visible(self.told_apart(name, club))
            roster.left_out.append(f"{same}. If these are two, tell them apart,\n         as: {apart}")
        else:
            self.rows[name] = place
            other = self.looks.setdefault(compared(name), name)
            if name in self.enrolled:
                roster.already.append(name)
            elif other != name:
                roster.alike.append(Alike(place, name, other))
            else:
                roster.names.append(name)
        self.clubs.setdefault(name, set()).add(compared(club))

    def told_apart(self, name: str, club: str) -> str:
        """The name with the club of this row, where no other of this name is in that; or with a number."""
        with_club = [f"{name} ({club})"] if club and compared(club) not in self.clubs[name] else []
        numbered = [f"{name} ({number})" for number in range(2, MOST_NAMES)]
        told = next(filter(self.is_free, with_club + numbered), numbered[0])
        self.advised.add(compared(told))
        return told

    def is_free(self, name: str) -> bool:
        return not why_not(name) and compared(name) not in self.looks and compared(name) not in self.advised


@contextlib.contextmanager
def written_list(names: list[str]) -> Iterator[str]:
    """A list that the program takes, for as long as it is imported."""
    with tempfile.TemporaryDirectory() as folder:
        path = os.path.join(folder, "names.csv")
        with open(path, "w", encoding="utf-8", newline="") as written:
            csv.writer(written, lineterminator="\n").writerows([["name"], *([name] for name in names)])
        yield path
