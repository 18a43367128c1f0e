"""FILE.draws: the rule of the evening, the numbers of the rounds, the lists as they were shut, and the texts.
Nothing of it is written over: a number is the round's for good, and so is each text.
"""
from __future__ import annotations

import contextlib
import errno
import filecmp
import os
import re
import shutil
from dataclasses import dataclass
from functools import lru_cache
from typing import Match, Optional

from event_companions.core.files import copy_folder_synced, kept_text, move, replace_synced, sync_folder
from event_companions.core.lists import Matches, players_of, rounds_of
from event_companions.core.program import Declined
from event_companions.draw.draw import (
    BEFORE_THE_FIRST,
    NONE,
    NUMBER,
    DrawText,
    Lists,
    NoText,
    Rule,
    digest,
    lists_of,
    rule_of,
    text_of,
)

LINE = re.compile(rf"round ([1-9][0-9]?) ({NUMBER})(?: by ([0-9 ]+))?")
NAME = re.compile(r"round-([1-9][0-9]?)-([1-9][0-9]{0,3})\.(txt|shut)")
# a file system that gives no file a second name
NO_LINKS = (errno.EPERM, errno.ENOTSUP, errno.ENOSYS, errno.EMLINK)


@dataclass(frozen=True)
class Kept:
    """A number as it was kept, and who threw, if that was typed."""

    number: str
    by: str = NONE


def keep_new(path: str, data: bytes) -> None:
    """Writes a file that isn't there yet: whole or not at all, and on the disk when this returns."""
    part = f"{path}.part"
    with contextlib.suppress(FileNotFoundError):
        # after a stop it may be a second name of a file that is kept
        os.unlink(part)
    with open(part, "xb") as written:
        written.write(data)
        written.flush()
        os.fsync(written.fileno())
    try:
        os.link(part, path)
    except FileExistsError:
        raise
    except OSError as fault:
        if fault.errno not in NO_LINKS:
            raise
        move(part, path)
    else:
        os.unlink(part)
    sync_folder(os.path.dirname(path))


@lru_cache(maxsize=256)
def text_at(path: str, _stamp: object) -> Optional[DrawText]:
    try:
        with open(path, "rb") as kept:
            return text_of(kept.read())
    except (OSError, NoText):
        return None


class Draws:
    def __init__(self, file: str):
        self.folder = f"{file}.draws"
        self.numbers_path = os.path.join(self.folder, "numbers")

    # ---- the rule

    @property
    def rule(self) -> Optional[Rule]:
        """None if nothing was said of a draw. A rule that can't be read is no rule that was not made."""
        path = os.path.join(self.folder, "rule")
        try:
            with open(path, encoding="ascii", errors="replace") as kept:
                rule = rule_of(kept.read(100).rstrip("\n"))
        except FileNotFoundError:
            return None
        if not rule:
            raise Declined(f"{path} has no rule in it. Write the one that was shown, as: each 4d20")
        return rule

    @property
    def is_on(self) -> bool:
        """Whether the next round is drawn."""
        rule = self.rule
        return bool(rule and not rule.is_off)

    def keep_rule(self, rule: Rule) -> None:
        self.make_folder()
        path = os.path.join(self.folder, "rule")
        with open(f"{path}.part", "w", encoding="ascii") as written:
            written.write(f"{rule.text}\n")
            written.flush()
            os.fsync(written.fileno())
        os.replace(f"{path}.part", path)
        sync_folder(self.folder)

    def forget_rule(self) -> None:
        with contextlib.suppress(FileNotFoundError):
            os.unlink(os.path.join(self.folder, "rule"))

    def make_folder(self) -> None:
        os.makedirs(self.folder, exist_ok=True)
        sync_folder(os.path.dirname(self.folder))

    # ---- the numbers

    def numbers(self, number: int) -> list[Kept]:
        """All that were kept for a round; the last one counts. If it is thrown once, those of round 1."""
        rule = self.rule
        of = 1 if rule and rule.is_once else number
        # a line that has no end was never synced, so no key was made of it
        lines = self.numbers_text().split("\n")[:-1]
        found = [match for match in map(LINE.fullmatch, lines) if match and int(match[1]) == of]
        return [Kept(match[2], match[3] or NONE) for match in found]

    def numbers_text(self) -> str:
        return kept_text(self.numbers_path)

    def keep_number(self, number: int, kept: Kept) -> None:
        """It is on the disk when this returns. A line that was broken off before it is made no number's."""
        before = self.numbers_text()
        broken_off = "" if not before or before.endswith("\n") else " broken off\n"
        by = "" if kept.by == NONE else f" by {kept.by}"
        self.make_folder()
        with open(self.numbers_path, "ab") as written:
            written.write(f"{broken_off}round {number} {kept.number}{by}\n".encode())
            written.flush()
            os.fsync(written.fileno())
        # boards and phones look at the folder's time, which a line more in a file doesn't change
        os.utime(self.folder)
        sync_folder(self.folder)

    # ---- beside copies of the event

    def copy_to(self, folder: str) -> None:
        """All that is there, into another folder. What has a round's name is never otherwise there."""
        if not os.path.isdir(self.folder):
            return
        os.makedirs(folder, exist_ok=True)
        for name in sorted(os.listdir(self.folder)):
            source, target = os.path.join(self.folder, name), os.path.join(folder, name)
            is_there = os.path.exists(target) and (
                NAME.fullmatch(name) or filecmp.cmp(source, target, shallow=False)
            )
            if not is_there and not name.endswith(".part"):
                replace_synced(source, target)
        if not os.path.exists(os.path.join(self.folder, "rule")):
            with contextlib.suppress(FileNotFoundError):
                os.unlink(os.path.join(folder, "rule"))

    def take_from(self, folder: str) -> bool:
        """Whether what a folder beside copies has is in use from now on: only if nothing is there."""
        if os.path.lexists(self.folder) or not os.path.isdir(folder):
            return False
        part = f"{self.folder}.part"
        shutil.rmtree(part, ignore_errors=True)
        copy_folder_synced(folder, part)
        move(part, self.folder)
        return True

    # ---- lists that are shut, and texts

    def names(self) -> list[Match[str]]:
        names = os.listdir(self.folder) if os.path.isdir(self.folder) else []
        return [match for match in map(NAME.fullmatch, sorted(names)) if match]

    def drawings(self, number: int, ending: str) -> list[int]:
        """Which drawings of a round have such a file."""
        found = [match for match in self.names() if int(match[1]) == number and match[3] == ending]
        return sorted(int(match[2]) for match in found)

    def path(self, number: int, drawing: int, ending: str = "txt") -> str:
        return os.path.join(self.folder, f"round-{number}-{drawing}.{ending}")

    def is_open(self, number: int) -> int:
        """The drawing whose lists are shut, and which has no text yet; or 0."""
        shut, drawn = self.drawings(number, "shut"), self.drawings(number, "txt")
        return shut[-1] if shut and shut[-1] not in drawn else 0

    def newest_open(self) -> int:
        """The newest round whose lists are shut, and which is not drawn by them yet; or 0."""
        newest = max((int(match[1]) for match in self.names()), default=0)
        return newest if self.is_open(newest) else 0

    def shut(self, number: int, drawing: int) -> Optional[Lists]:
        try:
            with open(self.path(number, drawing, "shut"), "rb") as kept:
                return lists_of(kept.read())
        except (FileNotFoundError, NoText):
            return None

    def keep_shut(self, number: int, lists: Lists) -> int:
        """The drawing for which they are shut: the next one."""
        self.make_folder()
        drawing = max([*self.drawings(number, "shut"), *self.drawings(number, "txt")], default=0) + 1
        keep_new(self.path(number, drawing, "shut"), lists.data)
        return drawing

    def paths_of_texts(self) -> list[str]:
        return [os.path.join(self.folder, match[0]) for match in self.names() if match[3] == "txt"]

    def texts(self) -> list[DrawText]:
        """By round and drawing. What is no text is passed over: event-check names it."""
        found = [text_at(path, stamp_of(path)) for path in self.paths_of_texts()]
        return sorted((text for text in found if text), key=lambda text: (text.round, text.drawing))

    def sums(self) -> dict[str, str]:
        """Of each file of a text what it has for `after`, whatever else it is."""
        found = {}
        for path in self.paths_of_texts():
            with open(path, "rb") as kept:
                data = kept.read()
            after = re.search(rb"\nafter ([0-9a-f]{64})\n", data)
            found[digest(data)] = after[1].decode() if after else ""
        return found

    def last_sum(self) -> str:
        """Of the text that was written last: the one on which no other one follows."""
        sums = self.sums()
        last = [it for it in sums if it not in sums.values()]
        newest = self.texts()[-1:]
        if len(last) > 1 and newest and newest[0].sum in last:
            return newest[0].sum
        return last[-1] if last else BEFORE_THE_FIRST

    def keep_text(self, text: DrawText) -> None:
        keep_new(self.path(text.round, text.drawing), text.data)

    def text_of_round(self, number: int, matches: Matches) -> Optional[DrawText]:
        """The newest text of a round that has the tables which are stored."""
        seats = [[match.place, match.first, match.second] for match in matches]
        found = [text for text in self.texts() if text.round == number and text.seats == seats]
        return found[-1] if found else None


def stamp_of(path: str) -> object:
    try:
        status = os.stat(path)
    except OSError:
        return None
    return status.st_ino, status.st_size, status.st_mtime_ns


def differences(before: Lists, now: Lists) -> list[str]:
    """What is otherwise in lists that were taken later, in a few words each."""
    old, new = players_of(before.players.decode()), players_of(now.players.decode())
    told = [f"{number} came" for number in new if number not in old]
    told += [f"{number} is gone" for number in old if number not in new]
    for number in sorted({*old} & {*new}):
        if old[number].name != new[number].name:
            told.append(f"{number} has another name")
        if old[number].has_dropped != new[number].has_dropped:
            told.append(f"{number} {'dropped' if new[number].has_dropped else 'is in again'}")
    scores, scores_now = matches_in(before), matches_in(now)
    for place in sorted({*scores} | {*scores_now}):
        if scores.get(place) != scores_now.get(place):
            told.append(f"round {place[0]}, table {place[1]} is otherwise")
    return told


def matches_in(lists: Lists) -> dict[tuple[int, int], object]:
    rounds = rounds_of(lists.results.decode())
    return {(number, match.place): match for number, matches in enumerate(rounds, 1) for match in matches}
