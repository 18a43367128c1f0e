"""What the words of the prompt share: the event, what is said of it, and how commands are sent."""
from __future__ import annotations

import contextlib
import math
import os
import shutil
import tempfile
import textwrap
import time
import traceback
from dataclasses import dataclass
from typing import Callable, Optional

from event_companions.beside.copies import Copies, Copy
from event_companions.beside.doubts import Doubt, Doubts
from event_companions.beside.keys import Keys
from event_companions.beside.notes import Notes
from event_companions.beside.reports import Reports, TwoScores, settle, two_scores
from event_companions.beside.second_place import SecondPlace
from event_companions.beside.shown_names import ShownNames, with_shown_names
from event_companions.beside.title import event_name
from event_companions.core.event import Event, Phase, Progress, shown_player
from event_companions.core.lists import Matches, Unreadable
from event_companions.core.names import visible
from event_companions.core.plan import plan_of
from event_companions.core.program import (
    FAULTS,
    MOST_TRIES,
    SECONDS_BETWEEN_TRIES,
    Declined,
    NoAnswer,
    Refusal,
    Refused,
    Source,
)
from event_companions.core.stages import slot_shown, slot_typed
from event_companions.core.wording import counted, ranges
from event_companions.draw.draws import Draws
from event_companions.prompt.checking import copies_before, opened
from event_companions.prompt.lines import WIDTH, Input, unbroken
from event_companions.prompt.texts import (
    BAD_SCORE_OF_PLAYOFF,
    BAD_SETUP,
    LATE_IN_VERSION_1,
    MISSING,
    NOBODY_DROPS,
    NOT_SWISS,
    REFUSALS,
)

# neither `pair` nor `cut` goes on
DEAD_ENDS = (Refusal.NO_PAIRING, Refusal.ROUNDS_NOT_DONE, Refusal.TOO_FEW_FOR_CUT)
# the line that was typed, and the prompt for the next one
ROWS_OF_A_LINE = 2
TO_DRAW = "To have dice draw the rounds, before start: draw on"
# who types when something is told has not read it by then
SECONDS_TO_READ = 3


@dataclass(frozen=True)
class Command:
    """The words that are sent, and how to see in an event that they were taken."""

    words: tuple[str, ...]
    is_stored: Callable[[Event], bool]


class Session:
    def __init__(self, source: Source, file: str, lines: Input):
        self.source, self.file, self.lines = source, file, lines
        self.keys, self.copies, self.doubts = Keys(file), Copies(file, source.turn), Doubts(file)
        self.names, self.reports, self.second = ShownNames(file), Reports(file), SecondPlace(file)
        self.notes = Notes(file)
        self.draws = Draws(file)
        self.event = Event(source, file)
        self.has_failed = False
        # how many rows were said since a line was typed
        self.rows = 0
        # what the prompt has shown of the event, when, and what before that; what it knows; and whether it
        # went on itself since
        self.shown, self.shown_at, self.shown_before = Progress(), -math.inf, Progress()
        self.known = Progress()
        self.has_moved = False
        # where no further round was found, for this many players
        self.stuck: Optional[tuple[Progress, int]] = None
        # the round in which it was said that no second copy can be made
        self.round_without_copy: Optional[int] = None

    def look_again(self) -> None:
        """What is asked from here on is asked of the program as it is now."""
        self.event = Event(self.source, self.file)

    # ---- which round the prompt has shown

    def show_progress(self, now: Progress, at: float = -math.inf) -> None:
        if now != self.shown:
            self.shown_before = self.shown
        self.shown, self.shown_at, self.known = now, at, now

    def show_now(self) -> None:
        """The prompt has just said in which round the event is."""
        self.show_progress(self.event.progress)

    def is_shown(self, now: Progress) -> bool:
        """Whether a line that is typed now is typed by somebody who could see this round."""
        return now == self.shown and time.monotonic() > self.shown_at + SECONDS_TO_READ

    def moved_by_others(self) -> list[str]:
        """Told before a line is asked for: where another window has brought the event."""
        if not self.lines.is_terminal:
            return []
        self.look_again()
        try:
            now = self.event.progress
        except (*FAULTS, OSError):
            return []
        told = [] if self.has_moved or now == self.known else self.differences(now)
        self.has_moved, self.known = False, now
        if not self.lines.is_ahead:
            self.show_progress(now)
        return told

    def differences(self, now: Progress) -> list[str]:
        """Between what was told last and what is there now."""
        before = self.known
        if now.inode and not before.inode:
            return ["The event was made in another window. See: where"]
        if now.inode != before.inode:
            here = f" This is round {now.number} now." if now.number else ""
            return [f"Another window went back to a copy, or played the event again.{here} See: where"]
        if now.is_cut and not before.is_cut:
            return ["The playoff was begun in another window. See: bracket"]
        if now.number > before.number:
            when = self.time_of_pairing(now.number)
            no_copy = f"Without a copy from before it, round {now.number} can't be played again."
            return [f"Round {now.number} was paired{when} in another window.", *[no_copy] * (not when)]
        return [] if now == before else ["The event was changed in another window. See: where"]

    def time_of_pairing(self, number: int) -> str:
        """As: , at 10:43, - if the copy that was made before it is there."""
        made = copies_before(self.copies, number)
        return f", at {made[-1].when[9:11]}:{made[-1].when[11:13]}," if made else ""

    @property
    def first_stage(self) -> int:
        """How many matches the first stage of the playoff has, or 0 if that isn't known."""
        with contextlib.suppress(*FAULTS):
            if self.event.stages:
                return self.event.first_stage
        plan = plan_of(self.file, self.source.turn)
        return plan.cut // 2 if plan else 0

    # ---- what is said

    def say(self, *lines: str) -> None:
        for line in lines:
            self.write(f"{line}\n")

    def say_filled(self, text: str) -> None:
        """A line that may be longer than the terminal is wide, as when many tables are open."""
        self.write(f"{textwrap.fill(text, WIDTH, break_long_words=False, break_on_hyphens=False)}\n")

    def say_as_it_is(self, text: str) -> None:
        self.write(visible(text))

    def write(self, text: str) -> None:
        self.rows += text.count("\n")
        self.lines.write(text)

    def say_again(self, text: Callable[[], str]) -> None:
        """What counts of a list, if its head is out of sight by now."""
        is_out = self.rows > shutil.get_terminal_size().lines - ROWS_OF_A_LINE
        if self.lines.is_terminal and self.lines.scrolls and is_out:
            self.say_filled(text())

    def show(self, name: str, *words: str) -> None:
        """A text of the program, with the names by which players are shown."""
        self.say_as_it_is(self.with_names(self.source.text(name, *words)))

    def with_names(self, text: str) -> str:
        if not self.names.all():
            return text
        try:
            return with_shown_names(text, self.event.enrolled, self.event.players)
        except Unreadable as fault:
            raise Declined(f"{self.source.program} is not event_reporter: {fault}.") from None

    def say_failed(self, text: str) -> None:
        self.has_failed = True
        self.say(text)

    def explain(self, refused: Refused, word: str = "") -> None:
        """A refusal in words: those of the case at hand, where it has several."""
        self.has_failed = True
        if refused.printed:
            self.say(refused.printed.rstrip("\n"))
        self.say(self.fitted(self.case_of(refused, word) or REFUSALS.get(refused.number, "See: help")))
        if refused.more:
            self.say(refused.more)
        self.say(f"({refused})")

    def fitted(self, text: str) -> str:
        """A text with an example that fits this playoff, if it can be read."""
        with contextlib.suppress(*FAULTS):
            return fitted(text, self.event) if "qf2" in text else text
        return text

    def case_of(self, refused: Refused, word: str) -> str:
        if refused.number == Refusal.NO_EVENT and self.is_missing():
            return MISSING
        if refused.number == Refusal.STORE:
            return why_not_used(self.file)
        if refused.number in DEAD_ENDS:
            return self.way_out_of(refused.number)
        if refused.number == Refusal.NOT_SWISS:
            phase = self.phase_or_none()
            return {**NOT_SWISS, **(NOBODY_DROPS if word == "drop" else {})}.get(phase, "")
        if refused.number == Refusal.BAD_SCORE:
            return BAD_SCORE_OF_PLAYOFF if word in ("play", "playoff") else ""
        if refused.number == Refusal.BAD_SETUP:
            return BAD_SETUP if word == "init" else LATE_IN_VERSION_1 if word in ("enrol", "import") else ""
        return ""

    def way_out_of(self, number: int) -> str:
        """What helps where neither `pair` nor `cut` goes on."""
        self.look_again()
        plan = plan_of(self.file, self.source.turn)
        if not plan or self.event.phase is not Phase.SWISS:
            return ""
        stored, cut = len(self.event.rounds), plan.cut_for(self.players_left())
        end_here = f"plan {stored} {cut}"
        if number == Refusal.NO_PAIRING:
            self.stuck = self.event.progress, self.players_left()
            playoff = f"To end the rounds here and go on to the playoff: {end_here}, and then cut"
            final = "The standings are final as they are: standings"
            return (
                "In each further round two would meet again, or one would have a second bye.\n"
                f"{playoff if cut else final}\n"
                "Or enter somebody whom nobody has met, which mostly helps: enrol Nobody"
            )
        if number == Refusal.TOO_FEW_FOR_CUT:
            smaller = f"For a smaller cut: plan {plan.rounds} {cut}, and then cut"
            return (
                f"{self.players_left()} players are left, and the cut is to {plan.cut}.\n"
                f"{smaller if cut else 'The standings are final: standings'}"
            )
        if self.event.open_tables() or stored == plan.rounds or not stored:
            return ""
        is_stuck = self.stuck == (self.event.progress, self.players_left())
        due = f"Round {stored + 1} of {plan.rounds} is not paired yet. Next: pair"
        none = f"{stored} of {plan.rounds} rounds are paired, and no further round can be."
        return f"{none if is_stuck else due}\nTo end the rounds here: {end_here}, and then cut"

    def try_to_pair(self) -> None:
        """Has a copy paired, if the next round is due, so that `where` knows if there is none."""
        event, number = self.event, len(self.event.rounds)
        if not number or event.open_tables() or event.phase is not Phase.SWISS:
            return
        with unbroken(), tempfile.TemporaryDirectory() as room:
            copy = self.copies.made(Copy(0, "", "", os.path.join(room, "next.event")))
            with opened(self.source, copy) as program:
                try:
                    program.ask("pair", str(number + 1), "0" * 64)
                except Refused as refused:
                    if refused.number == Refusal.NO_PAIRING:
                        self.stuck = event.progress, self.players_left()

    def players_left(self) -> int:
        return sum(not player.has_dropped for player in self.event.enrolled.values())

    def phase_or_none(self) -> Optional[Phase]:
        self.look_again()
        try:
            return self.event.phase
        except FAULTS:
            return None

    def is_missing(self) -> bool:
        """Whether the event is gone and its copies are there, as when `back` was stopped between its moves."""
        return not os.path.exists(self.file) and bool(self.copies.all())

    def is_new(self) -> bool:
        """Whether nothing is there yet, so that an event may be made."""
        return not os.path.exists(self.file) and not self.is_missing()

    def title(self) -> str:
        """The event's name and the file's."""
        kept = visible(event_name(self.file, self.source.turn))
        return f"{kept} ({self.file})" if kept else self.file

    def say_where(self) -> None:
        self.look_again()
        self.try_to_pair()
        self.say_filled(f"{self.title()}, {self.event.phase.value}: {self.next_step()}")
        self.show_now()
        plan = plan_of(self.file, self.source.turn)
        if plan:
            self.say(plan.shown(len(self.event.rounds) if self.event.phase is Phase.SWISS else 0))
        if self.event.phase is Phase.ENROLLING:
            rule = self.draws.rule
            self.say(f"Dice draw the rounds: {rule.text}" if rule else TO_DRAW)

    def standing_doubts(self) -> list[Doubt]:
        return self.doubts.standing(self.event.rounds)

    def next_step(self) -> str:
        """What comes next, and the scores that are in doubt."""
        doubts = [f"{doubt.number} {doubt.table}" for doubt in self.standing_doubts()]
        doubted = f". In doubt by round and table: {', '.join(doubts)}. See: doubt" if doubts else ""
        return (self.dead_end() or next_step(self.event)) + doubted

    def dead_end(self) -> str:
        """Where neither `pair` nor `cut` goes on, as far as it is known; or nothing."""
        event, number = self.event, len(self.event.rounds)
        if not number or event.open_tables() or event.phase is not Phase.SWISS:
            return ""
        plan, left = plan_of(self.file, self.source.turn), self.players_left()
        if not plan:
            return ""
        done, cut = f"round {number} has all its scores", plan.cut_for(left)
        if number < plan.rounds and self.stuck == (event.progress, left):
            end_here = f"plan {number} {cut}, and then cut" if cut else "standings"
            return f"{done}. No further round can be paired. Next: {end_here}"
        if number == plan.rounds and left < plan.cut:
            way = f"plan {plan.rounds} {cut}, and then cut" if cut else "standings"
            return f"{done}. Of the players {left} are left, too few for a cut to {plan.cut}. Next: {way}"
        return ""

    def two_scores(self) -> list[TwoScores]:
        """The tables of the newest round at which a phone says what isn't stored."""
        self.reports.more()
        return two_scores(self.reports, len(self.event.rounds), self.event.newest())

    def settle(self, number: int, table: str) -> None:
        """What the phones said at the table counts no longer: a score was entered here since."""
        match = self.event.match(number, table)
        self.reports.more()
        if match:
            settle(self.reports, number, match)

    def goes_on_in_doubt(self, what: str) -> bool:
        """Whether to pair or to cut while a score is in doubt, or a table has two."""
        doubts, twice = self.standing_doubts(), self.two_scores()
        if not doubts and not twice:
            return True
        if doubts:
            in_doubt = [f"table {doubt.table} of round {doubt.number} ({doubt.score})" for doubt in doubts]
            self.say_filled(f"In doubt: {', '.join(in_doubt)}.")
        for found in twice:
            self.say_filled(f"{found.told}. See: phones")
        return self.lines.says_yes(f"{what} all the same?")

    # ---- sending

    def told(self, command: Command, ask: Callable[[], str]) -> str:
        """The answer. If none came, or if the file failed, what the program says is stored."""
        for _ in range(MOST_TRIES - 1):
            try:
                return ask()
            except NoAnswer:
                return self.looked_up(command)
            except Refused as refused:
                if refused.number != Refusal.STORE:
                    raise
            time.sleep(SECONDS_BETWEEN_TRIES)
            if self.is_stored(command):
                return "It is stored."
        # a command that was taken is not taken twice, so it was safe to send it again
        return ask()

    def is_stored(self, command: Command) -> bool:
        """Whether it can be seen in the event now."""
        self.look_again()
        try:
            return command.is_stored(self.event)
        except FAULTS:
            return False

    def looked_up(self, command: Command) -> str:
        self.say("No answer came. The program is asked what is stored.")
        self.look_again()
        try:
            is_stored = command.is_stored(self.event)
        except FAULTS as fault:
            self.has_failed = True
            raise Declined(f"It can't be read now ({fault or 'no answer'}). See: where") from None
        if not is_stored:
            raise Declined("It is not stored. Type the line again.")
        return "It is stored."

    def send(self, command: Command, copy: Optional[Copy] = None) -> None:
        """Sends a command line, and says what came back. A copy that was made before it goes if it is
        refused.
        """
        try:
            answer = self.told(command, lambda: self.source.send(*command.words))
        except Refused as refused:
            if copy and not refused.is_unsure:
                self.copies.remove(copy)
            raise
        self.look_again()
        self.say(answer.rstrip("\n"))

    def send_copied(self, command: Command, what: str) -> None:
        """The same of what nothing takes back: the event is copied first, and nobody comes in between."""
        with unbroken():
            with self.source.turn.taken():
                copy = self.copies.make(what)
                self.send(command, copy)
            self.copy_to_second_place(copy)

    def copy_to_second_place(self, copy: Copy) -> None:
        """Each copy goes to the second place too, if there is one. If it can't, that is said once a round."""
        self.copies.thin()
        self.copies.keep_draws()
        fault = self.second.copy(copy)
        if fault and self.round_without_copy != self.known.number:
            self.round_without_copy = self.known.number
            self.say(f"No copy was made at {visible(self.second.folder())}: {fault}.")
            self.say("The copy beside the event is there. Once the disk is back: copy")


# ---- what comes next


def next_step(event: Event) -> str:
    """The round, its open tables, and what comes next, in a line."""
    number, still_open = len(event.rounds), event.open_tables()
    if event.phase is Phase.ENROLLING:
        so_far = counted(len(event.players), "player")
        return f"{so_far} so far. Next: enrol Ana Lima, import names.csv, or start"
    if event.phase is Phase.FINISHED and event.champion:
        return f"the champion is {shown_player(event.champion)}. See: final"
    if event.phase is Phase.PLAYOFF:
        return next_in_playoff(event)
    if not number:
        return "no round is paired yet. Next: pair"
    if still_open:
        return f"round {number}, {tables_named(still_open)}"
    after = "All rounds are paired. Next: standings, or cut" if event.is_all_paired else "Next: pair"
    return f"round {number} has all its scores. {after}"


def open_slots(event: Event) -> list[tuple[int, int]]:
    """Stage and slot of the matches of the playoff that have no score."""
    return [
        (stage, match.place)
        for stage, matches in enumerate(event.stages, 1)
        for match in matches
        if match.is_open
    ]


def next_in_playoff(event: Event) -> str:
    first = event.first_stage
    told = ", ".join(slot_shown(stage, slot, first) for stage, slot in open_slots(event))
    return f"open: {told}. Next: {fitted('play qf2 2 0', event)}"


def fitted(text: str, event: Event) -> str:
    """A text whose example, quarterfinal 2, becomes the first match of the playoff that is open, if any is."""
    still_open = open_slots(event)
    return text.replace("qf2", slot_typed(*still_open[0], event.first_stage)) if still_open else text


def tables_named(matches: Matches) -> str:
    """The tables that are open, as: 5 tables open: 4, 7-10."""
    return f"{counted(len(matches), 'table')} open: {ranges([match.place for match in matches])}"


def prompt_at(progress: Progress) -> str:
    if progress.is_cut:
        return "playoff> "
    return f"r{progress.number}> " if progress.number else "desk> "


def own_fault(fault: Exception) -> str:
    """A fault of the prompt itself, with the place to name when it is reported."""
    at = traceback.extract_tb(fault.__traceback__)[-1]
    where = f"{os.path.basename(at.filename)}, line {at.lineno}"
    return (
        f"The prompt itself is at fault: {type(fault).__name__}: {visible(str(fault))[:200]}\n"
        f"({where}). What was answered ok is in the file. See: where"
    )


def why_not_used(file: str) -> str:
    """Why a file can't be read or written, as far as this machine tells; or nothing."""
    folder = os.path.dirname(os.path.abspath(file))
    if not os.path.isdir(folder):
        return f"There is no folder {visible(folder)}. Make it, or take another FILE."
    if os.path.isdir(file):
        return f"{visible(file)} is a folder, and no event. Name a file in it: event-desk FILE"
    if not os.path.exists(file) and not os.access(folder, os.W_OK):
        yours = "Take a FILE in a folder of yours, as: event-desk ~/friday.event"
        return f"You may not write into the folder {visible(folder)}.\n{yours}"
    if os.path.exists(file) and not os.access(file, os.R_OK | os.W_OK):
        return f"You may not write {visible(file)}: `ls -l` shows whose it is."
    return ""
