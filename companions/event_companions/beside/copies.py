"""FILE.copies: copies of the event, and the events that were put away beside FILE."""
from __future__ import annotations

import filecmp
import glob
import os
import re
import shutil
import time
from dataclasses import dataclass
from typing import Optional

from event_companions.core.files import copy_synced, exchange, has_log, move, remove_with_log, time_stamp
from event_companions.core.holding import held_by_nobody
from event_companions.core.lists import Players
from event_companions.core.names import visible
from event_companions.core.program import MOST_TRIES, SECONDS_BETWEEN_TRIES, Declined
from event_companions.core.stages import slot_shown
from event_companions.core.turn import Turn
from event_companions.draw.draws import Draws


# how many copies are kept that are from before something else than a round or the cut
MOST_OTHERS = 40
BY_NUMBER = {
    "undrop": "the drop of player {} was taken back",
    "remove": "player {} was removed",
    "rename": "player {} got another name",
}


@dataclass(frozen=True)
class Copy:
    """Which one it is, when it was made, what came after it, and where it lies."""

    number: int
    when: str
    what: str
    path: str

    @property
    def is_of_a_round(self) -> bool:
        return self.what.startswith("before-pair-") or self.what == "before-cut"

    def shown(self, players: Players, first_stage: int = 0) -> str:
        day, hour = self.when.split("-")
        came = self.came_after(players, first_stage)
        by_hand = {"copy": "copy, made by hand", "away": "put away by back"}
        told = by_hand.get(self.what, f"before {came}")
        return f"{self.number:4}  {day[:4]}-{day[4:6]}-{day[6:]} {hour[:2]}:{hour[2:4]}:{hour[4:]}  {told}"

    def came_after(self, players: Players, first_stage: int = 0) -> str:
        """What came after it, as: the drop of Ana Lima (12)."""
        kind, *numbers = self.what.split("-")[1:] or [self.what]
        if kind == "drop":
            name = f"{visible(players[int(numbers[0])].name)} " if int(numbers[0]) in players else ""
            return f"the drop of {name}({numbers[0]})"
        if kind == "pair":
            return f"the pairing of round {numbers[0]}"
        if kind == "play":
            slot = slot_shown(int(numbers[0]), int(numbers[1]), first_stage)
            return f"the score of {'the ' if slot == 'final' else ''}{slot}"
        if kind == "score":
            return f"the score of round {numbers[0]}, table {numbers[1]} was taken back"
        if kind == "unplay":
            slot = slot_shown(int(numbers[0]), int(numbers[1]), first_stage)
            return f"the score of {'the ' if slot == 'final' else ''}{slot} was taken back"
        if kind in BY_NUMBER:
            return BY_NUMBER[kind].format(numbers[0])
        whole = {"cut": "the cut", "migrate": "the migration", "plan": "the new plan"}
        return whole.get(kind, " ".join([kind, *numbers]))


class Copies:
    def __init__(self, file: str, turn: Turn):
        self.file, self.folder, self.turn = file, f"{file}.copies", turn

    def all(self) -> list[Copy]:
        names = sorted(os.listdir(self.folder)) if os.path.isdir(self.folder) else []
        found = [self.in_folder(name) for name in names]
        found += [self.put_away(path) for path in glob.glob(f"{glob.escape(self.file)}.away-*")]
        return sorted((copy for copy in found if copy), key=lambda copy: copy.number)

    def in_folder(self, name: str) -> Optional[Copy]:
        found = re.fullmatch(r"(\d{4,})-(\d{8}-\d{6})-(before-[a-z]+[-\d]*|copy)(\.event)?", name)
        if not found:
            return None
        path = os.path.join(self.folder, name)
        return Copy(
            int(found[1]),
            found[2],
            found[3],
            path if found[4] else os.path.join(path, os.path.basename(self.file)),
        )

    def put_away(self, path: str) -> Optional[Copy]:
        found = re.fullmatch(r".*\.away-(\d{4,})-(\d{8}-\d{6})", path, re.S)
        return Copy(int(found[1]), found[2], "away", path) if found else None

    def thin(self) -> None:
        """Takes the oldest copies away if there are many: not those from before a round or the cut, from
        which the event can be played again, nor those that were made by hand or put away.
        """
        others = [copy for copy in self.all() if copy.what.startswith("before-") and not copy.is_of_a_round]
        for copy in others[:-MOST_OTHERS]:
            remove_with_log(copy.path)

    def size(self) -> int:
        """All bytes of the copies, and of what was put away."""
        paths = [copy.path + log for copy in self.all() for log in ("", "-wal")]
        return sum(os.path.getsize(path) for path in paths if os.path.exists(path))

    def next_name(self) -> str:
        return f"{max((copy.number for copy in self.all()), default=0) + 1:04}-{time_stamp()}"

    def make(self, what: str) -> Copy:
        """Copies the file as it lies at rest, and sees that the copy is what the file still is."""
        os.makedirs(self.folder, exist_ok=True)
        number, when = self.next_name().split("-", 1)
        path = os.path.join(self.folder, f"{number}-{when}-before-{what}.event")
        copy = self.made(Copy(int(number), when, f"before-{what}", path))
        self.keep_draws()
        return copy

    def make_by_hand(self) -> Copy:
        """The same into a folder of its own, under the file's own name."""
        number, when = self.next_name().split("-", 1)
        folder = os.path.join(self.folder, f"{number}-{when}-copy")
        os.makedirs(folder)
        copy = self.made(Copy(int(number), when, "copy", os.path.join(folder, os.path.basename(self.file))))
        self.keep_draws()
        Draws(self.file).copy_to(Draws(copy.path).folder)
        return copy

    @property
    def draws(self) -> str:
        """What was drawn lies among the copies too, once for all of them, since a number is for good."""
        return os.path.join(self.folder, "draws")

    def keep_draws(self) -> None:
        Draws(self.file).copy_to(self.draws)

    def made(self, copy: Copy) -> Copy:
        for _ in range(MOST_TRIES):
            remove_with_log(copy.path)
            with self.turn.taken():
                if has_log(self.file):
                    copy_synced(f"{self.file}-wal", f"{copy.path}-wal")
                copy_synced(self.file, copy.path)
                if filecmp.cmp(self.file, copy.path, shallow=False):
                    return copy
            time.sleep(SECONDS_BETWEEN_TRIES)
        raise Declined("The file could not be copied: another program goes on writing to it.")

    def remove(self, copy: Copy) -> None:
        """Of a command that was refused, after which nothing came."""
        remove_with_log(copy.path)

    def put_in_place(self, copy: Copy, what: str = "") -> Optional[Copy]:
        """Puts the event in use away, and the copy into its place. Where the event lies then, if there was
        one: beside FILE, or among the copies as the one from before something. It is declined while another
        program has the file.

        If both have closed their logs, and the system can exchange two names in one step, FILE is the old
        event or the new one at each moment. Else the file goes before its log, so that it never lies there
        without, and the copy's log comes before the copy.
        """
        beside = f"{self.file}.back"
        with self.turn.taken(), held_by_nobody(self.file):
            # what an earlier run left here, that was stopped, belongs to another copy
            remove_with_log(beside)
            is_there, away = os.path.lexists(self.file), self.named_away(what)
            if is_there and not has_log(self.file) and not has_log(copy.path):
                # the new event has the old one's last name until they are exchanged
                copy_synced(copy.path, away.path)
                shutil.copymode(self.file, away.path)
                if exchange(away.path, self.file):
                    return away
                os.unlink(away.path)
            if has_log(copy.path):
                copy_synced(f"{copy.path}-wal", f"{beside}-wal")
            copy_synced(copy.path, beside)
            if is_there:
                shutil.copymode(self.file, beside)
            for log in ("", "-wal", "-shm"):
                if os.path.lexists(self.file + log):
                    move(self.file + log, away.path + log)
            for log in ("-wal", ""):
                if os.path.exists(beside + log):
                    move(beside + log, self.file + log)
            return away if is_there else None

    def named_away(self, what: str) -> Copy:
        number, when = self.next_name().split("-", 1)
        if not what:
            return Copy(int(number), when, "away", f"{self.file}.away-{number}-{when}")
        os.makedirs(self.folder, exist_ok=True)
        path = os.path.join(self.folder, f"{number}-{when}-before-{what}.event")
        return Copy(int(number), when, f"before-{what}", path)
