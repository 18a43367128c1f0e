"""Calls of the program, by command lines over the event's file."""
from __future__ import annotations

import contextlib
import enum
import os
import re
import shutil
import subprocess
import tempfile
import time
from dataclasses import replace
from typing import Callable, NamedTuple, Optional, TypeVar, Union

from event_companions.core.files import IN_MEMORY, LEAST_LOG
from event_companions.core.lists import (
    Bracket,
    Matches,
    Players,
    Rounds,
    Standing,
    Unreadable,
    bracket_of,
    pairings_of,
    players_of,
    rounds_of,
    standings_of,
)
from event_companions.core.names import visible
from event_companions.core.score import Score
from event_companions.core.turn import Turn

# another program may have the file for a moment, a board that reads it above all
MOST_TRIES = 6
SECONDS_BETWEEN_TRIES = 0.2
# no event has more
MOST_ROUNDS = 12

Kind = TypeVar("Kind")
PLAYERS, RESULTS = ("export", "players"), ("export", "results")


class Refusal(enum.IntEnum):
    """Why a command is not taken, by the number of the answer."""

    BAD_NAME = 1
    NAME_TAKEN = 2
    PLAYERS_FULL = 3
    NOT_ENROLLING = 4
    TOO_FEW_PLAYERS = 5
    NOT_SWISS = 6
    WRONG_ROUND = 7
    ROUND_OPEN = 8
    ALL_ROUNDS_PAIRED = 9
    NO_PAIRING = 10
    BUDGET = 11
    NO_SUCH_MATCH = 12
    BAD_SCORE = 13
    ALREADY_REPORTED = 14
    NOT_REPORTED = 15
    IS_BYE = 16
    NO_SUCH_PLAYER = 17
    ALREADY_DROPPED = 18
    ROUNDS_NOT_DONE = 19
    NO_CUT = 20
    TOO_FEW_FOR_CUT = 21
    NOT_PLAYOFF = 22
    SERIAL_FULL = 23
    MEMORY = 24
    STORE = 25
    NEEDS_REOPEN = 26
    NO_EVENT = 27
    EVENT_EXISTS = 28
    DAMAGED = 29
    BAD_SETUP = 30


# after one of these the command is in the event whole or not at all
UNSURE = (Refusal.MEMORY, Refusal.STORE, Refusal.NEEDS_REOPEN)


class Refused(Exception):
    """The program refused it: its number and its name, and what it printed of what was done before."""

    def __init__(self, number: int, name: str, printed: str = ""):
        super().__init__(f"refused {number} {name}")
        self.number, self.printed = number, printed
        # what the companion adds, since it knows the case
        self.more = ""

    def with_more(self, more: str) -> Refused:
        self.more = more
        return self

    @property
    def is_unsure(self) -> bool:
        return self.number in UNSURE


class Declined(Exception):
    """It wasn't done, and this is what is said."""


class NoAnswer(Exception):
    """The program ended, or the connection did, without an answer."""


# what an asking may end with
Fault = Union[Refused, Declined, NoAnswer]
FAULTS = (Refused, Declined, NoAnswer)


def serial_in(answer: str) -> int:
    """The serial of an answer `ok 45`; of another answer none."""
    found = re.fullmatch(r"ok (\d+)\n", answer)
    return int(found[1]) if found else -1


def checkout() -> str:
    """The folder above the one in which the packages are: of a checkout, its top."""
    packages = os.path.dirname(os.path.dirname(os.path.dirname(os.path.realpath(__file__))))
    return os.path.dirname(packages)


def built() -> str:
    return os.path.join(checkout(), "crates", "event_reporter", "out", "event_reporter")


def installed() -> str:
    """Where the program is if this was installed: below PREFIX the companions are in share/event-reporter."""
    return os.path.join(os.path.dirname(checkout()), "bin", "event_reporter")


def program_beside() -> str:
    """The program that is built in this checkout, or the script that builds it; or the one that was installed
    with this; or the one on the PATH.
    """
    places = built(), os.path.join(checkout(), "event_reporter"), installed()
    beside = next((path for path in places if runs(path)), "event_reporter")
    return os.environ.get("EVENT_REPORTER") or beside


def runs(path: str) -> bool:
    return os.path.isfile(path) and os.access(path, os.X_OK)


def ready(program: str) -> str:
    """What is to be called. The script of a checkout may build the program first, and says so; from then on
    the built one is called.
    """
    if os.path.abspath(program) == os.path.join(checkout(), "event_reporter"):
        version = [program, "--version"]
        if subprocess.run(version, stdin=subprocess.DEVNULL, stdout=subprocess.DEVNULL).returncode == 0:
            return built() if runs(built()) else program
    elif shutil.which(program):
        return program
    raise Declined(f"{program} does not run. Name the program by --program PATH.")


class Stamp(NamedTuple):
    """What changes with each command: one ends by writing the file, and while `serve` holds it the log
    grows.
    """

    inode: int
    size: int
    # of the last change, in nanoseconds
    time: int
    log_size: int

    @property
    def is_exact(self) -> bool:
        """Whether it tells of each command. Some file systems have times in whole seconds, in which two may
        come.
        """
        return self.time % 1_000_000_000 != 0


class Kept:
    """What the program said, for as long as the file's stamp stays: no command came since."""

    def __init__(self) -> None:
        self.texts: dict[tuple[str, ...], tuple[Optional[Stamp], str]] = {}
        # all rounds but the newest
        self.older: tuple[Optional[Stamp], Rounds] = (None, [])
        # the newest one
        self.newest: tuple[Optional[Stamp], Matches] = (None, [])
        self.serial = -1

    def text(self, words: tuple[str, ...], stamp: Optional[Stamp]) -> Optional[str]:
        kept_at, text = self.texts.get(words, (None, ""))
        return text if stamp and stamp.is_exact and kept_at == stamp else None

    def older_rounds(self, stamp: Optional[Stamp]) -> Optional[Rounds]:
        kept_at, older = self.older
        return older if stamp and stamp.is_exact and kept_at == stamp else None

    def newest_round(self, stamp: Optional[Stamp]) -> Optional[Matches]:
        kept_at, newest = self.newest
        return newest if stamp and stamp.is_exact and kept_at == stamp else None

    def keep(self, words: tuple[str, ...], stamp: Optional[Stamp], text: str) -> None:
        self.texts[words] = stamp, text

    def forget(self, serial: int = -1) -> None:
        """A command was sent, whatever came of it."""
        self.texts.clear()
        self.older, self.newest, self.serial = (None, []), (None, []), serial

    def carry(
        self,
        serial: int,
        before: Optional[Stamp],
        after: Optional[Stamp],
        number: int,
        table: int,
        score: Score,
    ) -> None:
        """A result was taken. It changes no player and no other match, and where it is the next command after
        the one before, nobody else changed them.
        """
        is_next = serial == self.serial + 1
        players, older = self.text(PLAYERS, before), self.older_rounds(before)
        newest = self.newest_round(before)
        self.forget(serial)
        if is_next and newest is not None and older is not None and number == len(older) + 1:
            scored = [replace(match, score=score) if match.place == table else match for match in newest]
            self.newest = after, scored
        if is_next and players is not None:
            self.texts[PLAYERS] = after, players
        if is_next and older is not None:
            self.older = after, older


class Source:
    """Where an event is asked: the program, by command lines over the event's file."""

    def __init__(self, program: str, file: str, turn: Optional[Turn] = None, most_tries: int = MOST_TRIES):
        self.program, self.file, self.most_tries = program, os.path.abspath(file), most_tries
        self.turn = turn or Turn()
        self.kept = Kept()

    def understood(self, reader: Callable[[str], Kind], text: str) -> Kind:
        """What a text or a list says."""
        try:
            return reader(text)
        except Unreadable as fault:
            raise Declined(
                f"{self.program} is not event_reporter, or its answer was cut off: {fault}."
            ) from None

    def ask(self, name: str, *words: str) -> str:
        """What the program prints. It runs in a session of its own, so that no Ctrl-C reaches it."""
        line = [word.encode("utf-8", "surrogateescape") for word in (self.program, name, self.file, *words)]
        try:
            with self.turn.taken() as held:
                ran = subprocess.run(
                    line,
                    stdin=subprocess.DEVNULL,
                    stdout=subprocess.PIPE,
                    stderr=subprocess.PIPE,
                    start_new_session=True,
                    pass_fds=held,
                )
        except OSError as fault:
            raise Declined(
                f"{self.program} was not run: {fault.strerror}. Name it by --program PATH."
            ) from None
        except ValueError:
            raise Declined("A line with a NUL is no command.") from None
        printed, said = ran.stdout.decode("utf-8", "replace"), ran.stderr.decode("utf-8", "replace")
        if ran.returncode == 0 and printed:
            return printed
        found = re.fullmatch(r"refused (\d+) (\w+)\n", said)
        if found:
            raise Refused(int(found[1]), found[2], printed)
        if ran.returncode in (1, 2, 3) and said:
            raise Declined(visible(said.split("\n")[0]))
        raise NoAnswer

    def send(self, name: str, *words: str) -> str:
        """The answer to a command, whose serial is remembered."""
        try:
            answer = self.ask(name, *words)
        finally:
            self.kept.forget()
        self.kept.serial = serial_in(answer)
        return answer

    def read(self, *words: str) -> str:
        """What changes nothing: as it was said before, where no command came since."""
        stamp = self.stamp()
        kept = self.kept.text(words, stamp)
        if kept is not None:
            return kept
        text = self.read_now(*words)
        self.kept.keep(words, stamp, text)
        return text

    def read_now(self, *words: str) -> str:
        """The same, asked once more if another program has the file for a moment."""
        for _ in range(self.most_tries - 1):
            try:
                return self.ask_copy(*words)
            except Refused as refused:
                if refused.number != Refusal.STORE:
                    raise
            time.sleep(SECONDS_BETWEEN_TRIES)
        return self.ask_copy(*words)

    def ask_copy(self, *words: str) -> str:
        """Asks a copy in memory, since the program syncs what it opens, though it only reads. FILE itself is
        asked while its log holds something, and where it can't be copied.
        """
        with self.turn.taken():
            stamp = self.stamp()
            if stamp and stamp.is_exact and stamp.log_size < LEAST_LOG:
                with contextlib.suppress(OSError), tempfile.TemporaryDirectory(dir=IN_MEMORY) as room:
                    copy = os.path.join(room, "copy.event")
                    shutil.copyfile(self.file, copy)
                    # no command came meanwhile
                    if self.stamp() == stamp:
                        return Source(self.program, copy).ask(*words)
            return self.ask(*words)

    def refusal(self, *words: str) -> int:
        """The number by which this is refused, which the rules refuse in each phase."""
        try:
            self.read_now(*words)
        except Refused as refused:
            if refused.number < Refusal.MEMORY:
                return refused.number
            raise
        raise Declined("The program took what no rule takes. Is it event_reporter?")

    def text(self, name: str, *words: str) -> str:
        """A text that is shown as it is."""
        return self.read(name, *words)

    def report(self, number: int, table: str, score: Score) -> str:
        """Hands in a result."""
        before = self.stamp()
        try:
            answer = self.ask("result", str(number), table, *score.words)
        except FAULTS:
            self.kept.forget()
            raise
        self.kept.carry(serial_in(answer), before, self.stamp(), number, int(table), score)
        return answer

    def players(self) -> Players:
        return self.understood(players_of, self.read(*PLAYERS))

    def rounds(self) -> Rounds:
        """All rounds. If results of the newest one are all that came, it alone is asked."""
        stamp = self.stamp()
        older = self.kept.older_rounds(stamp)
        if older is not None and self.kept.text(RESULTS, stamp) is None:
            newest = self.kept.newest_round(stamp)
            if newest is None:
                newest = self.understood(pairings_of, self.read("slips", str(len(older) + 1)))
                self.kept.newest = stamp, newest
            return [*older, newest]
        rounds = self.understood(rounds_of, self.read(*RESULTS))
        self.kept.older = (stamp, rounds[:-1]) if rounds else (None, [])
        self.kept.newest = (stamp, rounds[-1]) if rounds else (None, [])
        return rounds

    def bracket(self) -> Bracket:
        return self.understood(bracket_of, self.read("bracket"))

    def standings(self) -> list[Standing]:
        return self.understood(standings_of, self.read("standings"))

    def is_swiss(self) -> bool:
        """Nobody has number 0: it is refused 17 in the Swiss rounds, and 6 before and after them."""
        return self.refusal("drop", "0") == Refusal.NO_SUCH_PLAYER

    def is_all_paired(self) -> bool:
        """Nobody has an empty name, which is refused 1, but 9 once all rounds are paired."""
        return self.refusal("enrol", "") == Refusal.ALL_ROUNDS_PAIRED

    def stamp(self) -> Optional[Stamp]:
        """None if there is no file."""
        try:
            status = os.stat(self.file)
        except OSError:
            return None
        return Stamp(status.st_ino, status.st_size, status.st_mtime_ns, self.log_size())

    def log_size(self) -> int:
        try:
            return os.path.getsize(f"{self.file}-wal")
        except OSError:
            return 0
