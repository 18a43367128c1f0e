"""The event as a whole: its beginning, its copies, and the way back to one."""
from __future__ import annotations

import contextlib
import os
import re
import time
from typing import Optional

from event_companions.beside.clock import Clock, keep_clock, kept_clock, start_clock, stop_clock
from event_companions.beside.codes import path_of as path_of_secret
from event_companions.beside.copies import Copy
from event_companions.beside.entries import Entries
from event_companions.beside.title import keep_title
from event_companions.core.event import Event, Phase, read_or_none
from event_companions.core.files import move, time_stamp
from event_companions.core.holding import held_by_nobody
from event_companions.core.lists import Bracket, Players, Rounds
from event_companions.core.names import visible
from event_companions.core.plan import plan_of, usual_rounds
from event_companions.core.program import FAULTS, Declined, Refused
from event_companions.core.rosters import written_list
from event_companions.prompt.checking import fault_of, opened
from event_companions.prompt.lines import minutes_of, numbers_in, unbroken
from event_companions.prompt.session import Command, Session
from event_companions.prompt.since import (
    Missing,
    came_since,
    counted_since,
    left_in,
    missing_since,
    results_since,
    rounds_since,
)
from event_companions.prompt.texts import UNDO


class Evening:
    def __init__(self, session: Session):
        self.session = session
        # the event that `back` put away, whose scores are offered once its rounds are paired so again
        self.put_away: Optional[Event] = None

    def init(self, rest: str) -> None:
        session = self.session
        found = re.fullmatch(r"(.*\S)\s+([0-9]+)\s+([0-9]+)", rest)
        if not found:
            raise Declined("Type a name, the rounds and the cut, as: init Friday Night 3 0")
        if session.is_missing():
            raise Declined(
                f"{session.file} is missing, and copies of it are there. Go on from one: back\n"
                f"For a new event, move {session.file}.copies away first, or take another FILE."
            )
        with unbroken():
            session.send(Command(("init", *found.groups()), lambda event: not event.players))
            kept = (session.keys.path, session.copies.folder, session.doubts.path, session.names.path)
            others = path_of_secret(session.file), session.reports.path, session.notes.path
            entries = Entries(session.file).path
            for path in (*kept, *others, entries, f"{session.file}.clock", session.draws.folder):
                self.put_aside(path)
            keep_title(session.file, found[1])
        session.has_moved = True
        session.say_where()
        session.say(f"If rounds or cut are to be others, until the playoff: plan {found[2]} {found[3]}")

    def put_aside(self, path: str) -> None:
        """What lies beside FILE of an earlier event."""
        if os.path.lexists(path):
            old = f"{path}.old-{time_stamp()}"
            move(path, old)
            self.session.say(f"{path} was there before this event. It is {os.path.basename(old)} now.")

    def title(self, rest: str) -> None:
        if rest:
            keep_title(self.session.file, rest)
        self.session.say(self.session.title())

    def clock(self, rest: str) -> None:
        """Starts, shows or stops the clock of the board, or gives time back."""
        session = self.session
        if rest in ("off", "stop"):
            stop_clock(session.file)
        elif rest.startswith("+"):
            self.give_time(minutes_of(rest[1:], "clock +3"))
        elif rest:
            start_clock(session.file, minutes_of(rest, "clock 50, clock +3, or clock off"))
        clock = kept_clock(session.file)
        session.say(
            clock.shown(time.time()) if clock else "No clock runs. To start one for 50 minutes: clock 50"
        )

    def give_time(self, minutes: int) -> None:
        """The clock ends later. One that has ended goes on for so long from now."""
        clock = kept_clock(self.session.file)
        if not clock:
            raise Declined("No clock runs. To start one for 50 minutes: clock 50")
        until = max(clock.until, int(time.time())) + 60 * minutes
        keep_clock(self.session.file, Clock(until, clock.minutes))

    def start(self) -> None:
        session = self.session
        self.must_work_out()
        with unbroken():
            session.send(Command(("start",), lambda event: event.phase is not Phase.ENROLLING))
        session.has_moved = True
        session.say_where()
        if not session.draws.rule:
            session.say("Each round gets a key that the prompt makes. For draw on it is too late now.")

    def must_work_out(self) -> None:
        """Says what is usual for this many players, and asks if rounds or cut may not work out."""
        session = self.session
        players = len(session.event.enrolled)
        plan = plan_of(session.file, session.source.turn)
        if not plan or session.event.phase is not Phase.ENROLLING or players < 2:
            return
        usual = usual_rounds(players)
        if plan.rounds != usual:
            say_usual = f"For {players} players {usual} rounds are usual, and this event has {plan.rounds}."
            session.say(f"{say_usual} To change it: plan {usual} {plan.cut}")
        doubts = plan.doubts(players)
        session.say(*doubts)
        # a pipe can't know of the question
        if doubts and session.lines.is_terminal and not session.lines.says_yes("Start all the same?"):
            other = f"plan {usual} {plan.cut_for(players - 1)}"
            raise Declined(f"Nothing was started. As: {other}, and then start")

    def migrate(self) -> None:
        # nothing shows whether it was done, and doing it twice does no harm
        self.session.send_copied(Command(("migrate",), lambda _: False), "migrate")

    def undo(self) -> None:
        self.session.say_as_it_is(UNDO)
        befores = [copy for copy in self.session.copies.all() if copy.what.startswith("before-")]
        if befores:
            last = befores[-1]
            came = last.came_after(self.players_or_none(), self.session.first_stage)
            self.session.say(f"The last one: back {last.number}, made before {came}")

    # ---- copies

    def copy(self, rest: str) -> None:
        """Copies the event beside itself, and to a second place if one is named here or was named before."""
        session = self.session
        if rest in ("off", "stop"):
            session.second.forget()
            session.say(f"Copies are made beside {session.file} only from now on.")
            return
        folder = os.path.abspath(os.path.expanduser(rest)) if rest else session.second.folder()
        if rest and not os.path.isdir(folder):
            raise Declined(
                f"There is no folder {visible(folder)}.\n"
                "Plug the stick in, and look where it is, as by: ls /media/*"
            )
        session.look_again()
        shown = session.event.read()
        with unbroken():
            copy = session.copies.make_by_hand()
        self.check_copy(copy, shown)
        if folder:
            self.copy_to(folder, copy, shown, is_new=bool(rest))

    def check_copy(self, copy: Copy, shown: tuple[Players, Rounds, Bracket]) -> None:
        """Opens the copy, and compares it with what was shown before it was made."""
        with opened(self.session.source, copy) as program:
            is_same = Event(program).read() == shown
        if not is_same:
            raise Declined(
                "The copy is not what the event was. A command may have come in between.\n"
                f"Copy again: copy. It lies in {visible(copy.path)}"
            )
        self.session.say(f"Copied, and opened: {visible(copy.path)}")

    def copy_to(self, folder: str, copy: Copy, shown: tuple[Players, Rounds, Bracket], is_new: bool) -> None:
        session, second = self.session, self.session.second
        try:
            with unbroken():
                there = second.copy_to(folder, copy)
                if is_new:
                    second.keep(folder)
        except OSError as fault:
            why = fault.strerror or str(fault)
            raise Declined(
                f"No copy was made at {visible(folder)}: {why}.\nThe one beside the event is there."
            ) from None
        self.check_copy(there, shown)
        if is_new:
            session.say("From now on each copy goes there too. To end that: copy off")
            if not second.is_another_disk(folder):
                session.say("It is on the same disk as the event: if that breaks, both are gone.")

    def back(self, rest: str) -> None:
        session = self.session
        copies = session.copies.all()
        words = numbers_in(rest, 0, 1, "back 3")
        if not copies:
            raise Declined("There is no copy yet. One is made before each pair, drop, cut and play.")
        if not words:
            players, first = self.players_or_none(), session.first_stage
            session.say(
                *(copy.shown(players, first) for copy in copies),
                f"Go on from one of them, as: back {copies[-1].number}",
            )
            return
        chosen = next((copy for copy in copies if copy.number == int(words[0])), None)
        if not chosen:
            raise Declined("There is no copy of this number. See: back")
        self.go_back(chosen)

    def copies(self) -> None:
        """How many copies there are, how large they are, and which rounds have none."""
        session = self.session
        number, size = len(session.copies.all()), session.copies.size()
        session.say(f"{number} cop{'y' if number == 1 else 'ies'}, {size / 1_000_000:.1f} MB. See: back")
        folder = session.second.folder()
        if folder:
            session.say(f"Each goes to {visible(folder)} too. To end that: copy off")
        self.say_what_is_missing()

    def say_what_is_missing(self) -> None:
        """Rounds that can't be played again, as one that a command line paired."""
        session = self.session
        for number in range(1, len(session.event.rounds) + 1):
            fault = fault_of(session.source, session.copies, session.keys, number)
            if fault:
                session.say(f"Round {number}: {fault}. It can't be played again, as by take back or plan.")

    def players_or_none(self) -> Players:
        try:
            return self.session.event.players
        except FAULTS:
            return {}

    def go_back(self, copy: Copy) -> None:
        session = self.session
        after = self.read_copy(copy)
        if after is None:
            raise Declined(f"This copy can't be opened. Take another one. It lies in {visible(copy.path)}")
        shown = copy.shown(after.players, after.first_stage or session.first_stage)
        # it is declined before the question too
        with session.source.turn.taken(), held_by_nobody(session.file):
            session.say(shown)
        self.say_what_goes(after)
        if not session.lines.says_yes("Go on from this copy? The event in use is put away beside it."):
            raise Declined("The event stays as it is.")
        with unbroken(), session.source.turn.taken():
            # whatever came while the question stood came since the copy too
            before = self.put_away = read_or_none(session.source, session.file)
            away = session.copies.put_in_place(copy)
            has_draws = session.draws.take_from(session.copies.draws)
        session.has_moved = True
        if away:
            session.say(f"The event that was in use is {visible(away.path)} now.")
        if has_draws:
            session.say(f"What was drawn is in {visible(session.draws.folder)} again, from the copies.")
        session.say_where()
        if before:
            self.type_again(before)

    def say_what_goes(self, copy: Event) -> None:
        """All that is otherwise in a copy, since the copy is named by one thing alone."""
        now = read_or_none(self.session.source)
        if now:
            gone, back = counted_since(now, copy), counted_since(copy, now, with_other_scores=False)
            self.session.say_filled(f"That takes back: {gone or 'nothing'}.")
            if back:
                self.session.say_filled(f"It has, and the event in use has not: {back}.")

    def type_again(self, before: Event) -> None:
        """Says what came since the copy, and at a terminal offers to type again what can be."""
        session = self.session
        missing = missing_since(before, session.event)
        if not missing or not session.lines.is_terminal:
            session.say(*came_since(before, session.event, session.keys, session.draws))
        else:
            self.offer(missing, "What came since:")
            session.say(*rounds_since(before, session.event, session.keys, session.draws))
        if session.lines.is_terminal and len(before.rounds) > len(session.event.rounds):
            session.say("Once a round is paired so again, its scores are offered.")

    def offer(self, missing: list[Missing], heading: str) -> None:
        """Types again what the answer leaves."""
        session = self.session
        session.say(heading, *(f"{at:4}.  {it.told}" for at, it in enumerate(missing, 1)))
        question = "Type it again, or but 1 3 to leave some out? (y or n)"
        answer = session.lines.reply(question, lambda text: left_in(text, missing) is not None)
        with unbroken(), session.source.turn.taken():
            for it in left_in(answer, missing) or []:
                self.send_again(it)
        session.look_again()
        session.say_where()

    def offer_scores(self) -> None:
        """After a pairing: what the round had before `back`, if the same players sit."""
        session, before = self.session, self.put_away
        if not before or not session.lines.is_terminal:
            return
        session.look_again()
        number = len(session.event.rounds)
        missing = list(results_since(before, session.event, number)) if number else []
        if missing:
            self.offer(missing, f"Scores that round {number} had before:")

    def send_again(self, missing: Missing) -> None:
        """What is refused is said, and the others go on."""
        session = self.session
        words = missing.words
        try:
            with contextlib.ExitStack() as stack:
                if words[0] == "enrol":
                    # a name may begin with a hyphen
                    words = ("import", stack.enter_context(written_list([words[1]])))
                session.source.send(*words)
        except Refused as refused:
            session.say_failed(f"Not taken: {missing.line} ({refused})")

    def read_copy(self, copy: Copy) -> Optional[Event]:
        with opened(self.session.source, copy) as program:
            return read_or_none(program)
