"""FILE.reports: a line of JSON for each score that a phone handed in, and what it came to."""
from __future__ import annotations

import json
import os
import threading
import time
from dataclasses import dataclass
from typing import Optional

from event_companions.core.lists import Match, Matches, Player, Players
from event_companions.core.score import Score

# the program took it; it was stored already; another score was stored; it waits for the other seat; and the
# scorekeeper has looked at the table
STORED, SAME, OTHER, WAITS, SETTLED = "stored", "same", "other", "waits", "settled"
# what is stored is wrong, and which score is right was not said
WRONG = "wrong"
# no score was said, but who goes home after the round, or that this is taken back
HOME, STAYS = "home", "stays"
# a judge is called to the table; none is needed any more; and one has been there
CALLS, CALLS_OFF, JUDGED = "calls", "calls off", "judged"
NO_SCORE = Score(0, 0)
MOST_BYTES = 8_000_000
TIME = "%Y-%m-%dT%H:%M:%S"


@dataclass(frozen=True)
class Report:
    """Who sat there is kept too: after `back` others may sit at the same table of the same round."""

    at: str
    round: int
    table: int
    first: int
    second: int
    score: Score
    outcome: str
    stored: Optional[Score]
    origin: str
    drops: tuple[int, ...] = ()
    seat: int = 0

    @property
    def said(self) -> str:
        return WRONG if self.outcome == WRONG else self.score.short

    @property
    def has_to_stay(self) -> bool:
        """Whether it says what stands nowhere else."""
        return self.outcome != STORED or bool(self.drops)

    def is_of(self, number: int, match: Match) -> bool:
        return (self.round, self.table, self.first, self.second) == (number, *match.seats)

    def line(self) -> bytes:
        told = dict(vars(self), score=str(self.score), stored=str(self.stored) if self.stored else "")
        return (json.dumps(told, ensure_ascii=True) + "\n").encode("ascii")


NUMBERS = ("round", "table", "first", "second", "seat")
TEXTS = ("at", "score", "outcome", "stored", "origin")


def report_of(line: bytes) -> Optional[Report]:
    """None if the line is cut off or malformed."""
    try:
        told = json.loads(line)
        drops = tuple(told["drops"])
        numbers, texts = [told[name] for name in NUMBERS], [told[name] for name in TEXTS]
        is_whole = all(type(number) is int for number in (*numbers, *drops)) and all(
            type(text) is str for text in texts
        )
        if not is_whole:
            return None
        stored = Score.parse(told["stored"]) if told["stored"] else None
        return Report(**dict(told, score=Score.parse(told["score"]), stored=stored, drops=drops))
    except (ValueError, KeyError, TypeError):
        return None


class Full(OSError):
    """FILE.reports has as many bytes as it may have."""

    def __init__(self) -> None:
        super().__init__(27, f"it has {MOST_BYTES // 1_000_000} MB, and takes no more")


class Reports:
    """The lines of the file, those of other companions too, as far as they were read."""

    def __init__(self, file: str):
        self.path = f"{file}.reports"
        self.lock = threading.RLock()
        self.all: list[Report] = []
        # what the disk had no room for
        self.unwritten: list[Report] = []
        self.read_to, self.inode = 0, 0
        self.more()

    def more(self) -> list[Report]:
        """What came since it was read last."""
        with self.lock:
            try:
                with open(self.path, "rb") as kept:
                    status = os.fstat(kept.fileno())
                    if status.st_ino != self.inode or status.st_size < self.read_to:
                        self.all, self.read_to, self.inode = [], 0, status.st_ino
                    kept.seek(self.read_to)
                    text = kept.read(MOST_BYTES)
            except FileNotFoundError:
                # it was put aside, or taken away
                self.all, self.read_to, self.inode = [], 0, 0
                return []
            except OSError:
                return []
            whole = text[: text.rfind(b"\n") + 1]
            self.read_to += len(whole)
            came = [report for report in map(report_of, whole.splitlines()) if report]
            self.all += came
            return came

    def add(self, report: Report) -> None:
        """The line is in the file when this returns, and on the disk where nothing else says it."""
        with self.lock:
            try:
                self.append(report)
            except OSError:
                self.unwritten.append(report)
                raise
            self.more()

    def write_again(self) -> bool:
        """Whether what the disk had no room for is in the file now."""
        with self.lock:
            while self.unwritten:
                try:
                    self.append(self.unwritten[0])
                except OSError:
                    return False
                del self.unwritten[0]
            self.more()
            return True

    def append(self, report: Report) -> None:
        """A line that was broken off before it stays alone."""
        handle = os.open(self.path, os.O_RDWR | os.O_APPEND | os.O_CREAT, 0o600)
        with open(handle, "rb+", buffering=0) as kept:
            size = os.fstat(handle).st_size
            line = report.line()
            if size and os.pread(handle, 1, size - 1) != b"\n":
                line = b"\n" + line
            if size + len(line) > MOST_BYTES:
                raise Full
            if kept.write(line) != len(line):
                raise OSError(28, "no room is left on the disk")
            if report.has_to_stay:
                os.fsync(handle)

    @property
    def count(self) -> tuple[int, int, int]:
        """What changes with each report."""
        return self.inode, len(self.all), len(self.unwritten)

    def of_round(self, number: int) -> list[Report]:
        with self.lock:
            return [report for report in [*self.all, *self.unwritten] if report.round == number]

    def of_match(self, number: int, match: Match) -> list[Report]:
        """Those since the scorekeeper last looked at the table."""
        found = [report for report in self.of_round(number) if report.is_of(number, match)]
        settled = [place for place, report in enumerate(found) if report.outcome == SETTLED]
        return found[settled[-1] + 1 :] if settled else found


def settle(reports: Reports, number: int, match: Match) -> None:
    """The scorekeeper has stored a score, whatever the phones said before."""
    said = {report.outcome for report in reports.of_match(number, match)}
    if match.score and said & {OTHER, WAITS, WRONG}:
        reports.add(
            Report(time.strftime(TIME), number, *match.seats, match.score, SETTLED, match.score, "the prompt")
        )


# ---- what the scorekeeper has to look at


@dataclass(frozen=True)
class TwoScores:
    """A table at which a phone says what isn't stored, or that what is stored is wrong, the newest such report
    last.
    """

    match: Match
    stored: Score
    said: tuple[Report, ...]

    @property
    def told(self) -> str:
        newest = self.said[-1]
        said = "that it is wrong" if newest.outcome == WRONG else newest.score.short
        return (
            f"{self.head} at table {self.match.place}: stored is {self.stored.short}, and a phone says {said}"
        )

    @property
    def head(self) -> str:
        return "A wrong score" if self.said[-1].outcome == WRONG else "Two scores"


def two_scores(reports: Reports, number: int, matches: Matches) -> list[TwoScores]:
    found = []
    for match in matches:
        said = tuple(
            report
            for report in last_words(reports.of_match(number, match))
            if report.outcome in ((WRONG,) if report.score == match.score else (OTHER, WAITS))
        )
        if match.score and not match.is_bye and said:
            found.append(TwoScores(match, match.score, said))
    return found


def last_words(said: list[Report]) -> list[Report]:
    """What counts of what was said: of a seat the newest, since it may mend its own score. Who said what by
    the code of a table isn't known, so that all of it counts.
    """
    scores = [report for report in said if report.outcome in (STORED, SAME, OTHER, WAITS, WRONG)]
    newest = {report.seat: report for report in scores}
    return [report for report in scores if not report.seat or report is newest[report.seat]]


@dataclass(frozen=True)
class HalfSaid:
    """An open table at which a seat has said a score, or both have said two."""

    match: Match
    by_seat: dict[int, Report]


def half_said(reports: Reports, number: int, match: Match) -> dict[int, Report]:
    """The newest report of each seat that waits."""
    waiting = [report for report in reports.of_match(number, match) if report.outcome == WAITS]
    return {report.seat: report for report in waiting}


def all_half_said(reports: Reports, number: int, matches: Matches) -> list[HalfSaid]:
    found = [HalfSaid(match, half_said(reports, number, match)) for match in matches if match.is_open]
    return [half for half in found if half.by_seat]


@dataclass(frozen=True)
class GoingHome:
    """Who goes home after the round, and the table that said so last."""

    player: Player
    table: int


def going_home(reports: Reports, number: int, players: Players) -> list[GoingHome]:
    """Who is still there of those of whom it was said in this round, and not taken back."""
    said = {drop: report for report in reports.of_round(number) for drop in report.drops}
    return [
        GoingHome(players[drop], said[drop].table)
        for drop in sorted(said)
        if said[drop].outcome != STAYS and drop in players and not players[drop].has_dropped
    ]


@dataclass(frozen=True)
class JudgeCall:
    """A table that waits for a judge, who called, and when."""

    match: Match
    report: Report

    @property
    def caller(self) -> int:
        return self.match.second if self.report.seat == 2 else self.match.first


def judge_call(reports: Reports, number: int, match: Match) -> Optional[JudgeCall]:
    said = [report for report in reports.of_round(number) if report.is_of(number, match)]
    calls = [report for report in said if report.outcome in (CALLS, CALLS_OFF, JUDGED)]
    return JudgeCall(match, calls[-1]) if calls and calls[-1].outcome == CALLS else None


def judge_calls(reports: Reports, number: int, matches: Matches) -> list[JudgeCall]:
    found = [judge_call(reports, number, match) for match in matches]
    return [call for call in found if call]


def judged(reports: Reports, number: int, match: Match) -> None:
    """A judge has been at the table."""
    reports.add(Report(time.strftime(TIME), number, *match.seats, NO_SCORE, JUDGED, None, "the prompt"))


def words_to_store(number: int, match: Match, score: Score) -> str:
    """The line to type at the prompt."""
    line = f"{match.place} {score.typed}"
    return f"fix {number} {line}" if match.score else line


def words_to_mend(number: int, match: Match, report: Report) -> str:
    """The same of what a phone said, which may be without a score."""
    if report.outcome == WRONG:
        return f"fix {number} {match.place} X Y"
    return words_to_store(number, match, report.score)
