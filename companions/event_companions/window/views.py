"""What pages show of an event at one time: made by the thread that asks the program, and changed by nobody."""
from __future__ import annotations

import os
from dataclasses import dataclass, field
from typing import TYPE_CHECKING, Optional

from event_companions.beside.clock import Clock, kept_clock
from event_companions.beside.codes import FIRST_SEAT, Secret, kept_secret
from event_companions.beside.copies import Copy
from event_companions.beside.entries import Entries
from event_companions.beside.reports import (
    all_half_said,
    going_home,
    judge_calls,
    two_scores,
    words_to_mend,
    words_to_store,
)
from event_companions.beside.title import event_name
from event_companions.beside.troubles import kept_troubles
from event_companions.core.event import Event, Phase, Progress
from event_companions.core.lists import Match, Player, Standing, matches_by_player
from event_companions.core.names import visible
from event_companions.core.plan import Plan, plan_of, usual_rounds
from event_companions.core.program import FAULTS, Refused
from event_companions.core.score import Score
from event_companions.core.stages import HEADINGS, slot_shown, slot_typed
from event_companions.core.wording import counted
from event_companions.draw.draw import Rule, shown_digits
from event_companions.draw.draws import Draws
from event_companions.prompt.texts import REFUSALS

if TYPE_CHECKING:
    from event_companions.prompt.desk import Desk
    from event_companions.prompt.session import Session

NEW = "new"
# what the buttons of a table say, from all for the first player to all for the second
SCORES = (Score(2, 0), Score(2, 1), Score(1, 1), Score(1, 2), Score(0, 2))
MORE_SCORES = (Score(1, 0), Score(1, 0, 1), Score(0, 0, 3), Score(1, 1, 1), Score(0, 1, 1), Score(0, 1))
SCORES_OF_PLAYOFF = (Score(2, 0), Score(2, 1), Score(1, 2), Score(0, 2))
DEFAULT_MINUTES = 50


@dataclass(frozen=True)
class Step:
    """The one thing that comes next: lines to send by a click, or where to look."""

    label: str
    detail: str = ""
    lines: tuple[str, ...] = ()
    tab: str = ""
    has_minutes: bool = False
    # what dice showed is typed beside it
    takes_throw: bool = False


@dataclass(frozen=True)
class Row:
    """A table, or a match of the playoff, and the words that store its score."""

    match: Match
    first: Player
    second: Optional[Player]
    # what a line begins with that stores a score
    words: str
    back: str
    shown: str
    is_doubted: bool = False
    # what phones said, for the scorekeeper to look at: what is said, the line to send, and what it does
    notes: tuple[tuple[str, str, str], ...] = ()
    records: tuple[str, str] = ("", "")

    @property
    def is_open(self) -> bool:
        return self.match.is_open


@dataclass(frozen=True)
class Seated:
    """A player, with what is looked up most often."""

    player: Player
    table: str
    rank: str
    points: str
    was_paired: bool


@dataclass
class View:
    file: str
    title: str = ""
    phase: str = NEW
    fault: str = ""
    # a fault as of a file that another program holds: what was shown before is shown on
    may_pass: bool = False
    version: int = 0
    progress: Progress = Progress()
    plan: Optional[Plan] = None
    players: list[Seated] = field(default_factory=list)
    rounds: list[list[Row]] = field(default_factory=list)
    standings: list[Standing] = field(default_factory=list)
    complete: int = 0
    stages: list[list[Row]] = field(default_factory=list)
    headings: list[str] = field(default_factory=list)
    champion: Optional[Player] = None
    clock: Optional[Clock] = None
    step: Step = Step("")
    calls: list[tuple[int, str, str]] = field(default_factory=list)
    home: list[tuple[int, Player]] = field(default_factory=list)
    secret: Optional[Secret] = None
    is_served: bool = False
    troubles: tuple[str, ...] = ()
    has_entries: bool = False
    entered: list[str] = field(default_factory=list)
    copies: list[tuple[Copy, str]] = field(default_factory=list)
    rule: Optional[Rule] = None
    draws: list[str] = field(default_factory=list)
    shut: int = 0
    # of the lists that are shut, for everybody to note
    mark: str = ""
    from_phones: int = 0
    # by which the newest round was paired, for the players to see
    key: str = ""

    @property
    def number(self) -> int:
        return len(self.rounds)

    @property
    def newest(self) -> list[Row]:
        return self.rounds[-1] if self.rounds else []

    @property
    def open_rows(self) -> list[Row]:
        return [row for row in self.newest if row.is_open]

    @property
    def playing(self) -> int:
        return sum(not seated.player.has_dropped for seated in self.players)

    @property
    def usual(self) -> int:
        return usual_rounds(max(2, len(self.players)))

    def seated(self, number: int) -> Optional[Seated]:
        return next((seated for seated in self.players if seated.player.number == number), None)

    def matches_of(self, number: int) -> list[tuple[str, Row]]:
        found = [(f"Round {at}", row) for at, rows in enumerate(self.rounds, 1) for row in rows]
        found += [(row.shown, row) for rows in self.stages for row in rows]
        return [(where, row) for where, row in found if row.match.has(number)]


def view_of(desk: Desk) -> View:
    session = desk.session
    view = View(session.file)
    try:
        if session.is_new():
            view.step = Step("Make the event", tab="players")
            return view
        fill(view, desk)
    except (*FAULTS, OSError) as fault:
        view.fault = told_of(fault, desk)
        view.may_pass = not isinstance(fault, Refused) or fault.is_unsure
        view.copies = [(copy, copy.shown({})) for copy in reversed(session.copies.all())]
    return view


def told_of(fault: Exception, desk: Desk) -> str:
    """Why the event can't be shown, in the prompt's words."""
    if isinstance(fault, Refused):
        return f"{desk.session.case_of(fault, '') or REFUSALS.get(fault.number, '')} ({fault})"
    return str(fault) or "No answer came from the program."


def fill(view: View, desk: Desk) -> None:
    session = desk.session
    event, file = session.event, session.file
    event.read()
    players = event.players
    view.phase = event.phase.value
    view.progress = event.progress
    view.title = visible(event_name(file, session.source.turn)) or os.path.basename(file)
    view.plan = plan_of(file, session.source.turn)
    view.complete = event.complete_rounds()
    view.standings = event.standings if view.complete else []
    session.reports.more()
    view.rounds = [rows_of(session, number) for number in range(1, len(event.rounds) + 1)]
    view.players = seated(event, view.standings)
    first = event.first_stage
    view.stages = [stage_rows(event, stage) for stage in range(1, len(event.stages) + 1)]
    # those to come stand there empty
    view.stages += [[] for _ in range(first.bit_length() - len(view.stages))]
    view.headings = [HEADINGS.get(first >> at, f"stage {at + 1}") for at in range(len(view.stages))]
    view.champion = event.champion
    view.clock = kept_clock(file)
    number = view.number
    calls = judge_calls(session.reports, number, event.newest())
    view.calls = [
        (call.match.place, visible(players[call.caller].name), call.report.at[11:16]) for call in calls
    ]
    view.home = [(leaver.table, leaver.player) for leaver in going_home(session.reports, number, players)]
    view.from_phones = sum(report.outcome == "stored" for report in session.reports.of_round(number))
    view.secret = kept_secret(file)
    troubles = kept_troubles(file)
    view.is_served, view.troubles = troubles.is_served, troubles.lines
    entries = Entries(file)
    view.has_entries = entries.is_on
    view.entered = [visible(entered.name) for entered in desk.entering.waiting()] if entries.is_on else []
    view.key = session.keys.last(number) or ""
    made = session.copies.all()
    of_playoff = first or session.first_stage
    view.copies = [(copy, copy.shown(players, of_playoff)) for copy in reversed(made)]
    draws = session.draws
    view.rule = draws.rule
    if view.rule:
        view.draws = [
            f"Round {text.round}: number {text.number}, text {shown_digits(text.sum)}"
            for text in draws.texts()
        ]
        view.shut = draws.is_open(number + 1)
        lists = draws.shut(number + 1, view.shut) if view.shut else None
        view.mark = lists.mark if lists else ""
    view.step = step_of(view, event, session.dead_end())


def step_of(view: View, event: Event, dead_end: str) -> Step:
    """The one obvious next step."""
    players, number, plan = len(view.players), view.number, view.plan
    pairs = Step(f"Pair round {number + 1}", lines=("pair",), has_minutes=True)
    if view.rule and not view.rule.is_off:
        pairs = Step(f"Shut the lists for round {number + 1}", "then the dice are thrown", lines=("pair",))
        kept = event.file and Draws(event.file).numbers(number + 1)
        if kept:
            pairs = Step(f"Pair round {number + 1}", f"by its number, {kept[-1].number}", ("pair",))
        elif view.shut:
            pairs = Step(
                f"Pair round {number + 1}", view.rule.throw, ("pair",), has_minutes=True, takes_throw=True
            )
    if event.phase is Phase.ENROLLING:
        if players < 2:
            return Step("Enter the players", tab="players")
        return Step(
            f"Start with {counted(players, 'player')}", plan.shown() if plan else "", lines=("start",)
        )
    if event.phase is Phase.SWISS:
        if not number:
            return pairs
        if view.open_rows:
            still = counted(len(view.open_rows), "table")
            return Step(f"{still} open", tab="round")
        if dead_end:
            return Step("No further round", dead_end, tab="back")
        if not event.is_all_paired:
            return pairs
        if plan and plan.cut:
            return Step(f"Cut to {plan.cut}", "all rounds are played", lines=("cut",))
        return Step("Final standings", "all rounds are played", tab="standings")
    if event.phase is Phase.PLAYOFF:
        still_open = [row for rows in view.stages for row in rows if row.is_open]
        what = still_open[0].shown.split()[0] if still_open else "match"
        of_stage = [row for row in still_open if row.shown.startswith(what)]
        return Step(f"{counted(len(of_stage), what)} open", tab="playoff")
    name = visible(event.champion.name) if event.champion else ""
    return Step(f"Champion: {name}", tab="playoff")


def records_before(event: Event, number: int) -> dict[int, str]:
    """Match points of each player before a round, as people at tables are told apart."""
    points: dict[int, int] = {}
    for matches in event.rounds[: number - 1]:
        for match in matches:
            if not match.score:
                continue
            won, lost = match.score.first, match.score.second
            for who, gain in ((match.first, won - lost), (match.second, lost - won)):
                points[who] = points.get(who, 0) + (3 if gain > 0 else 1 if gain == 0 else 0)
    return {who: str(count) for who, count in points.items()}


def rows_of(session: Session, number: int) -> list[Row]:
    event, reports = session.event, session.reports
    matches, players = event.rounds[number - 1], event.players
    is_newest = number == len(event.rounds)
    doubted = {doubt.table for doubt in session.standing_doubts() if doubt.number == number}
    notes: dict[int, list[tuple[str, str, str]]] = {}
    if is_newest:
        for half in all_half_said(reports, number, matches):
            for report in half.by_seat.values():
                who = players[half.match.first if report.seat == FIRST_SEAT else half.match.second].name
                told = f"{visible(who)}'s phone says {report.score.short}"
                line = words_to_store(number, half.match, report.score)
                notes.setdefault(half.match.place, []).append((told, line, f"Store {report.score.short}"))
        for found in two_scores(reports, number, matches):
            newest = found.said[-1]
            line = words_to_mend(number, found.match, newest)
            is_score = "X" not in line
            told = f"A phone says {newest.said}"
            notes.setdefault(found.match.place, []).append(
                (told, line if is_score else "", f"Replace by {newest.score.short}" if is_score else "")
            )
    points = records_before(event, number)
    rows = []
    for match in sorted(matches, key=lambda match: (match.is_bye, match.place)):
        head = f"{match.place}" if match.is_open else f"fix {match.place}"
        if not is_newest:
            head = f"fix {number} {match.place}"
        records = (points.get(match.first, ""), points.get(match.second, ""))
        rows.append(
            Row(
                match,
                players[match.first],
                players.get(match.second),
                head,
                f"take back {match.place}" if is_newest else "",
                f"table {match.place}",
                match.place in doubted and not match.is_bye,
                tuple(notes.get(match.place, ())),
                records,
            )
        )
    return rows


def stage_rows(event: Event, stage: int) -> list[Row]:
    rows = []
    for match in event.stages[stage - 1]:
        typed = slot_typed(stage, match.place, event.first_stage)
        shown = slot_shown(stage, match.place, event.first_stage)
        first, second = event.players[match.first], event.players.get(match.second)
        rows.append(Row(match, first, second, f"play {typed}", f"take back {typed}", shown))
    return rows


def seated(event: Event, standings: list[Standing]) -> list[Seated]:
    tables = matches_by_player(event.newest()) if event.phase is Phase.SWISS else {}
    ranks = {standing.player.number: standing for standing in standings}
    paired = {
        number for matches in event.rounds for match in matches for number in (match.first, match.second)
    }
    found = []
    for player in event.by_name:
        match, rank = tables.get(player.number), ranks.get(player.number)
        where = "" if not match else "bye" if match.is_bye else str(match.place)
        found.append(
            Seated(
                player, where, rank.rank if rank else "", rank.points if rank else "", player.number in paired
            )
        )
    return found
