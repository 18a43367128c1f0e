"""FILE.names: how names are shown that were wrong when the event began, and last names that a list has told, a
line `NUMBER TAB ENROLLED TAB SHOWN` for each, and `TAB LAST` after it.

The enrolled name stands there too: a line counts for the player of this number while that is the name, also
after `back`.
"""
from __future__ import annotations

import os
from dataclasses import dataclass, replace

from event_companions.core.lists import Players, Row, cells_of, columns_of, lines_of, whole
from event_companions.core.names import listed


@dataclass(frozen=True, order=True)
class ShownName:
    number: int
    enrolled: str
    shown: str
    last: str = ""

    @property
    def line(self) -> str:
        last = f"\t{self.last}" if self.last else ""
        return f"{self.number}\t{self.enrolled}\t{self.shown}{last}\n"

    @property
    def is_of_use(self) -> bool:
        return self.shown != self.enrolled or bool(self.last)


def shown_name_of(line: str) -> list[ShownName]:
    fields = line.split("\t")
    is_one = len(fields) in (3, 4) and fields[0].isdecimal()
    return [ShownName(int(fields[0]), *fields[1:])] if is_one else []


class ShownNames:
    def __init__(self, file: str):
        self.path = f"{file}.names"

    def all(self) -> list[ShownName]:
        try:
            with open(self.path, encoding="utf-8", errors="replace", newline="\n") as kept:
                return [name for line in kept.read().split("\n") for name in shown_name_of(line)]
        except FileNotFoundError:
            return []

    def keep(self, *names: ShownName) -> None:
        """From now on the players are shown so. The enrolled name, if no last name was told, takes the line
        away.
        """
        numbers = {name.number for name in names}
        others = [other for other in self.all() if other.number not in numbers]
        self.write(sorted([*others, *(name for name in names if name.is_of_use)]))

    def rename(self, number: int, enrolled: str, shown: str) -> None:
        """The same of a player whose last name may have been told: it stays if it is in the new name."""
        told = [other.last for other in self.all() if other.number == number]
        last = told[0] if told and told[0] and listed(shown, told[0]).leads == told[0] else ""
        self.keep(ShownName(number, enrolled, shown, last))

    def without(self, number: int) -> None:
        """Of a player who was removed. Those who came later have a number less."""
        others = [other for other in self.all() if other.number != number]
        if self.all():
            self.write([replace(it, number=it.number - (it.number > number)) for it in others])

    def write(self, names: list[ShownName]) -> None:
        beside = f"{self.path}.part"
        with open(beside, "w", encoding="utf-8", newline="\n") as written:
            written.writelines(kept.line for kept in names)
            written.flush()
            os.fsync(written.fileno())
        os.replace(beside, self.path)

    def shown(self, players: Players) -> Players:
        """The players under the names by which they are shown."""
        names = {name.number: name for name in self.all() if is_of(name, players)}
        return {
            number: replace(player, name=names[number].shown, last=names[number].last)
            if number in names
            else player
            for number, player in players.items()
        }


def is_of(name: ShownName, players: Players) -> bool:
    return name.number in players and players[name.number].name == name.enrolled


def with_shown_names(text: str, enrolled: Players, shown: Players) -> str:
    """A text of the program, in which the last column has the names by which players are shown."""
    changed = {
        number: shown[number].name for number, player in enrolled.items() if shown[number].name != player.name
    }
    if not changed:
        return text
    heading, *lines = lines_of(text)
    columns = columns_of(heading, ())
    last = list(columns)[-1]
    return "".join(
        f"{line}\n"
        for line in [heading, *(line_shown(line, columns, last, changed, shown) for line in lines)]
    )


def line_shown(
    line: str, columns: dict[str, slice], last: str, changed: dict[int, str], shown: Players
) -> str:
    word, *rest = line.split(" ")
    if word == "Champion":
        return f"Champion {rest[0]} {changed[int(rest[0])]}" if int(rest[0]) in changed else line
    row = cells_of(line, columns, last)
    numbers = numbers_of(row)
    if not any(number in changed for number in numbers):
        return line
    return line[: columns[last].start] + " - ".join(
        shown[number].name if number else "bye" for number in numbers
    )


def numbers_of(row: Row) -> list[int]:
    """The players of a line: one, or the two of a match."""
    return [whole(row["No"])] if "No" in row else [whole(row["A"]), whole(row["B"])]
