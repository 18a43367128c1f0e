"""The event played again: a new file to which the program's own commands are sent, as they were sent to the
old one, but for one change. Each round is paired from the players and scores that stood before it, by the key
that gave it. What comes out is compared with the old event, list by list; only if nothing but the change
differs, it takes its place.
"""
from __future__ import annotations

import contextlib
import os
import shutil
import tempfile
from dataclasses import dataclass, replace
from typing import Callable, Iterator, Optional

from event_companions.beside.copies import Copies, Copy
from event_companions.beside.keys import Keys
from event_companions.core.event import Event, Phase, shown_player
from event_companions.core.files import IN_MEMORY, has_log
from event_companions.core.handing_in import LEAST_AT_ONCE, Answer, ends_with_us, hand_in
from event_companions.core.lists import Bracket, Match, Matches, Players, Rounds
from event_companions.core.plan import Plan, plan_of
from event_companions.core.program import FAULTS, Declined, Refusal, Refused, Source
from event_companions.core.rosters import written_list
from event_companions.core.score import Score
from event_companions.core.turn import Turn
from event_companions.prompt.checking import copies_before, differing_tables, keys_of, opened


# ---- what is changed


@dataclass(frozen=True)
class Change:
    """What is to be otherwise, and what each list of an event is then."""

    rounds: Optional[int] = None
    cut: Optional[int] = None
    # a score of the newest round that is taken back, by its table
    table: Optional[int] = None
    # the newest score of the playoff that is taken back
    slot: Optional[tuple[int, int]] = None
    # a player whose drop is taken back; one who is not there; one who is enrolled under another name
    back_in: Optional[int] = None
    removed: Optional[int] = None
    renamed: Optional[tuple[int, str]] = None

    @property
    def name(self) -> str:
        """What it is called in the name of the copy from before it."""
        renamed = self.renamed[0] if self.renamed else None
        of_numbers = {"undrop": self.back_in, "remove": self.removed, "rename": renamed}
        numbered = [f"{kind}-{number}" for kind, number in of_numbers.items() if number]
        if self.slot:
            return f"unplay-{self.slot[0]}-{self.slot[1]}"
        return numbered[0] if numbered else "plan"

    def plan(self, before: Plan) -> Plan:
        rounds = before.rounds if self.rounds is None else self.rounds
        return replace(before, rounds=rounds, cut=before.cut if self.cut is None else self.cut)

    def players(self, before: Players) -> Players:
        """Whoever came after a player who is removed has a number less."""
        found: Players = {}
        for player in before.values():
            if player.number != self.removed:
                is_renamed = self.renamed and self.renamed[0] == player.number
                name = self.renamed[1] if self.renamed and is_renamed else player.name
                has_dropped = player.has_dropped and player.number != self.back_in
                number = len(found) + 1
                found[number] = replace(player, number=number, name=name, has_dropped=has_dropped)
        return found

    def matches(self, rounds: Rounds) -> Rounds:
        """The rounds, in the newest of which a score is taken back."""
        if self.table is None or not rounds:
            return rounds
        newest = [replace(match, score=None) if match.place == self.table else match for match in rounds[-1]]
        return [*rounds[:-1], newest]

    def stages(self, bracket: Bracket) -> Bracket:
        if self.slot is None:
            return bracket
        stages = [
            [replace(match, score=None) if (stage, match.place) == self.slot else match for match in matches]
            for stage, matches in enumerate(bracket.stages[: self.slot[0]], 1)
        ]
        return Bracket(stages, None)


# ---- the new file


@dataclass(eq=False)
class Entered:
    """A score that is handed in again, with its answer."""

    number: int
    table: int
    score: Score
    answer: Optional[Answer] = None

    def end(self, answer: Optional[Answer]) -> None:
        self.answer = answer


class NotTheSame(Declined):
    """What came out differs in more than the change."""

    def __init__(self, what: str):
        super().__init__(f"{what}\nThe event stays as it is.")


class Replay:
    """Brings a new file to where the old event was at some time: its players, scores and drops."""

    def __init__(self, made: Source, begins: Optional[Event] = None):
        self.made = made
        self.players: Players = begins.enrolled if begins else {}
        self.scores = {
            (number, match.place): match.score
            for number, matches in enumerate(begins.rounds if begins else [], 1)
            for match in matches
        }

    def bring_to(self, players: Players, rounds: Rounds) -> None:
        """Players come before results, and drops after them: whoever drops was there before."""
        self.enrol([player.name for number, player in players.items() if number not in self.players])
        for number, matches in enumerate(rounds, 1):
            self.enter_new(number, matches)
            for match in matches:
                self.enter(number, match)
        for number, player in players.items():
            if player.has_dropped and not (number in self.players and self.players[number].has_dropped):
                self.made.ask("drop", str(number))
        self.players = players

    def enrol(self, names: list[str]) -> None:
        if names:
            with written_list(names) as written:
                self.made.ask("import", written)

    def enter_new(self, number: int, matches: Matches) -> None:
        """Hands in the first scores of a round together, if they are many. What has no answer then, or another
        one, is left to `enter`.
        """
        new = [
            Entered(number, match.place, match.score)
            for match in matches
            if match.score and not match.is_bye and not self.scores.get((number, match.place))
        ]
        if len(new) < LEAST_AT_ONCE or not ends_with_us():
            return
        with contextlib.suppress(OSError):
            hand_in(self.made.program, self.made.file, new)
        for entered in new:
            if entered.answer and entered.answer.is_taken:
                self.scores[number, entered.table] = entered.score

    def enter(self, number: int, match: Match) -> None:
        known = self.scores.get((number, match.place))
        if not match.is_bye and match.score and match.score != known:
            word = "correct" if known else "result"
            self.made.ask(word, str(number), str(match.place), *match.score.words)
            self.scores[number, match.place] = match.score

    def pair(self, number: int, key: str, stored: Matches) -> None:
        self.made.ask("pair", str(number), key)
        if differing_tables(stored, self.made.rounds()[number - 1]):
            raise NotTheSame(f"Round {number} would come out otherwise.")


@dataclass(frozen=True)
class Before:
    """What stood before a round was paired, the key by which it was, and the copy that says so."""

    event: Event
    key: str
    copy: Copy


@dataclass
class Course:
    """How the event came about: what the copies and keys say, and whom to tell how far the playing is."""

    source: Source
    copies: Copies
    keys: Keys
    tell: Callable[[str], None]

    def before(self, number: int, stored: Matches) -> Before:
        """Of the newest copy and key that give the round as it is."""
        for copy in reversed(copies_before(self.copies, number)):
            for key in reversed(keys_of(self.keys, number)):
                event = self.gives(copy, key, number, stored)
                if event:
                    return Before(event, key, copy)
        raise Declined(
            f"Round {number} can't be played again: no copy from before it gives it by a key of it.\n"
            "The event stays as it is."
        )

    def before_the_cut(self, now: Event, plan: Plan) -> Optional[Copy]:
        """The newest copy from before the cut that has the same players and rounds."""
        for copy in reversed([copy for copy in self.copies.all() if copy.what == "before-cut"]):
            with contextlib.suppress(*FAULTS), opened(self.source, copy) as program:
                players, rounds, bracket = Event(program).read()
                is_same = (players, rounds) == (now.enrolled, now.rounds) and not bracket.stages
                if is_same and plan_of(copy.path, Turn()) == plan:
                    return copy
        return None

    def gives(self, copy: Copy, key: str, number: int, stored: Matches) -> Optional[Event]:
        try:
            with opened(self.source, copy) as program:
                event = Event(program)
                event.read()
                program.ask("pair", str(number), key)
                due = Event(program).rounds[number - 1]
        except FAULTS:
            return None
        return None if differing_tables(stored, due) else event


def last_before(course: Course, now: Event, plan: Plan, change: Change) -> Optional[Before]:
    """What stood before the newest round, if the rest can be played on from there: all that is changed came
    later, and the copy has the same rounds and cut. None, if all has to be played.
    """
    number = len(now.rounds)
    if not number or change.plan(plan) != plan:
        return None
    before = course.before(number, now.rounds[-1])
    return before if plan_of(before.copy.path, Turn()) == plan else None


def copied(source: Source, path: str, copy: Copy) -> Source:
    for log in ("-wal", ""):
        if os.path.exists(copy.path + log):
            shutil.copyfile(copy.path + log, path + log)
    return Source(source.program, path)


def play(course: Course, now: Event, plan: Plan, change: Change, path: str) -> Source:
    """Plays the event with the change into a new file, and compares it with what is due."""
    source, number = course.source, len(now.rounds)
    uncut = course.before_the_cut(now, plan) if now.stages else None
    last = None if uncut else last_before(course, now, plan, change)
    if uncut:
        replay = Replay(copied(source, path, uncut), now)
    elif last:
        must_come_later(change, last, number)
        replay = Replay(copied(source, path, last.copy), last.event)
        replay.pair(number, last.key, now.rounds[-1])
    else:
        replay = Replay(Source(source.program, path))
        play_from_the_beginning(course, now, change.plan(plan), change, replay)
    replay.bring_to(change.players(now.enrolled), change.matches(now.rounds))
    play_playoff(replay.made, now, change)
    must_be_due(Event(Source(source.program, path)), now, change)
    return replay.made


def play_from_the_beginning(course: Course, now: Event, plan: Plan, change: Change, replay: Replay) -> None:
    """Up to the newest round."""
    if plan.version == 1:
        raise NotTheSame("The file is of version 1, as an older program makes it. First move it: migrate")
    replay.made.ask("init", plan.name, str(plan.rounds), str(plan.cut))
    for number, matches in enumerate(now.rounds, 1):
        course.tell(f"Round {number} of {len(now.rounds)} is played again.")
        before = course.before(number, matches)
        if number == 1:
            begin(replay, before.event.enrolled, starts=True)
        replay.bring_to(before.event.enrolled, before.event.rounds)
        replay.pair(number, before.key, matches)
        must_come_later(change, before, number)
    if not now.rounds:
        begin(replay, change.players(now.enrolled), now.phase is not Phase.ENROLLING)


def must_come_later(change: Change, before: Before, number: int) -> None:
    """What is taken back may not be older than a round that was paired on it."""
    players, way = before.event.enrolled, f"To go back to before that round: back {before.copy.number}"
    dropped, removed = players.get(change.back_in or 0), players.get(change.removed or 0)
    if dropped and dropped.has_dropped:
        raise NotTheSame(f"{shown_player(dropped)} had dropped when round {number} was paired.\n{way}")
    if removed:
        raise NotTheSame(f"{shown_player(removed)} was there when round {number} was drawn.\n{way}")


def begin(replay: Replay, players: Players, starts: bool) -> None:
    """Nobody drops before the start."""
    replay.bring_to({number: replace(it, has_dropped=False) for number, it in players.items()}, [])
    if starts:
        replay.made.ask("start")


def play_playoff(made: Source, now: Event, change: Change) -> None:
    stages = change.stages(now.bracket).stages
    if stages:
        made.ask("cut")
    for stage, matches in enumerate(stages, 1):
        for match in matches:
            if match.score:
                made.ask("playoff", str(stage), str(match.place), *match.score.words)


def must_be_due(made: Event, now: Event, change: Change) -> None:
    """Each list is what it was but for the change."""
    due = change.players(now.enrolled), change.matches(now.rounds), change.stages(now.bracket)
    if made.read() != due:
        raise NotTheSame("What would come out differs in more than that.")
    if change.table is None and change.removed is None and ranks(made) != ranks(now):
        raise NotTheSame("The standings would be others.")


def ranks(event: Event) -> list[tuple[str, ...]]:
    """The standings by the players' numbers."""
    return [
        (
            it.rank,
            str(it.player.number),
            it.points,
            it.opponents_match_wins,
            it.game_wins,
            it.opponents_game_wins,
        )
        for it in event.listed
    ]


@contextlib.contextmanager
def room_in_memory() -> Iterator[str]:
    """A folder for the new file: in memory, if there is one, since each command would wait for the disk."""
    folder = IN_MEMORY if os.access(IN_MEMORY, os.W_OK) else None
    with tempfile.TemporaryDirectory(dir=folder) as room:
        yield room


def played_again(course: Course, now: Event, plan: Plan, change: Change) -> Optional[Copy]:
    """Plays the event again with the change, and puts it in its place. The old one is a copy then."""
    with room_in_memory() as room:
        try:
            made = play(course, now, plan, change, os.path.join(room, "new.event"))
        except Refused as refused:
            raise NotTheSame(why_refused(refused, change.plan(plan))) from None
        if has_log(made.file):
            raise NotTheSame("The new file was not closed.")
        what = change.name if change.table is None else f"score-{len(now.rounds)}-{change.table}"
        return course.copies.put_in_place(Copy(0, "", "", made.file), what)


def why_refused(refused: Refused, plan: Plan) -> str:
    if refused.number == Refusal.ALL_ROUNDS_PAIRED:
        return f"Somebody came after round {plan.rounds} was paired, and would be in none. Take a round more."
    return f"The program doesn't take it so ({refused})."
