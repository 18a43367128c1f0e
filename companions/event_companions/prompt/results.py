"""Results of the Swiss rounds."""
from __future__ import annotations

import re
from typing import Optional

from event_companions.beside.doubts import Doubt
from event_companions.core.event import Phase
from event_companions.core.lists import Match
from event_companions.core.names import begun
from event_companions.core.program import Declined, Refusal, Refused
from event_companions.core.score import Score
from event_companions.core.stages import slot_shown
from event_companions.prompt.lines import numbers_in, score_in, unbroken, with_score
from event_companions.prompt.session import Command, Session


DRAWS = """\
A draw is typed as the games were: 17 1 1, or 17 1 1 1 with a drawn game.
An intended draw, where nobody played: 17 0 0 3"""


class Results:
    def __init__(self, session: Session):
        self.session = session

    def enter(self, line: str) -> None:
        """A score of the newest round, which is typed without a word."""
        table, *counts = self.numbers(line, 3, 4, "17 2 1, or 17 2 1 1 with a drawn game")
        number, score = len(self.session.event.rounds), score_in(counts)
        self.must_be_of_the_round_shown(table, score)
        self.report(number, table, score)

    def numbers(self, text: str, least: int, most: int, example: str) -> list[str]:
        text = with_score(text)
        if re.search("draw|[( ]id|tie", text, re.I):
            raise Declined(DRAWS)
        return numbers_in(text, least, most, example)

    def must_be_of_the_round_shown(self, table: str, score: Score) -> None:
        """Asks, if another window has paired since this one showed a round: the slip may be of that one."""
        session = self.session
        event, now = session.event, session.event.progress
        match = event.match(now.number, table)
        if session.is_shown(now) or not match or match.is_bye:
            return
        # who types right after the news has read what was shown before them
        shown = session.shown_before if now == session.shown else session.shown
        if now.number > shown.number:
            when = session.time_of_pairing(now.number).rstrip(",")
            session.say(f"Round {now.number} was paired meanwhile{when}, in another window.")
        else:
            session.say("Another window went back to a copy meanwhile, or played the event again.")
        session.say(f"Round {now.number}, table {table}: {event.shown(match, score)}")
        if not session.lines.says_yes(f"Is this a score of round {now.number}?"):
            raise Declined(self.of_the_round_before(table, shown.number, now.number))
        session.look_again()
        if session.event.progress != now:
            raise Declined("Another window has changed the round again. See: where, and type the line again.")
        session.show_progress(now)

    def of_the_round_before(self, table: str, before: int, number: int) -> str:
        stored = self.session.event.score_at(before, table)
        if not 0 < before < number or not stored:
            return "Nothing was stored."
        has = f"Table {table} of round {before} has {stored}."
        return f"Nothing was stored. {has}\nTo replace it: fix {before} {table} X Y"

    def enter_as_words(self, rest: str) -> None:
        """The same after the command line's word, where the round comes first: result 3 17 2 1 0."""
        words = self.numbers(rest, 3, 5, "17 2 1, or result 3 17 2 1 0 for round 3")
        if len(words) < 5:
            self.enter(rest)
        else:
            self.report(int(words[0]), words[1], score_in(words[2:]))

    def report(self, number: int, table: str, score: Score) -> None:
        session = self.session
        match = session.event.match(number, table)
        named = f"round {number}, table {table}: {session.event.shown(match, score)}" if match else ""
        command = Command(
            ("result", str(number), table, *score.words), lambda event: event.score_at(number, table) == score
        )
        try:
            with unbroken(), session.source.turn.taken():
                self.must_sit_there_still(number, match)
                answer = session.told(command, lambda: session.source.report(number, table, score))
        except Refused as refused:
            session.look_again()
            if match and not match.is_bye:
                session.say(f"Not stored: {named}")
            raise refused.with_more(self.advice(refused, number, table, score)) from None
        session.look_again()
        if named:
            session.say(begun(named))
        session.doubts.end(number, int(table))
        session.settle(number, table)
        session.say_filled(f"{answer.rstrip()}: {session.next_step()}")

    def must_sit_there_still(self, number: int, match: Optional[Match]) -> None:
        """Another window may have gone back to a copy, and paired anew, since the names were read."""
        session = self.session
        session.look_again()
        if match:
            there = session.event.match(number, str(match.place))
            if not there or (there.first, there.second) != (match.first, match.second):
                raise Declined("Another window has changed the round. See: where, and type the line again.")

    def advice(self, refused: Refused, number: int, table: str, score: Score) -> str:
        if refused.number != Refusal.ALREADY_REPORTED:
            return ""
        stored = self.session.event.score_at(number, table)
        if stored is None:
            return ""
        if stored == score:
            return f"Stored is {stored}, the very same. All is well."
        return f"Stored is {stored}. If that is wrong: fix {number} {table} {score.typed}"

    def fix(self, rest: str) -> None:
        """Replaces a score: of the newest round by table and score, of any round if that comes first."""
        session = self.session
        words = self.numbers(rest, 2, 5, "fix 17 0 2, or fix 1 17 0 2 for round 1")
        if len(words) == 2:
            raise Declined("Type numbers, such as fix 17 0 2, or fix 1 17 0 2 for round 1")
        newest = len(session.event.rounds)
        number, table, *counts = [str(newest), *words] if len(words) == 3 else words
        score = score_in(counts)
        if len(words) == 3:
            self.must_be_of_the_round_shown(table, score)
        self.must_be_meant(words, int(number), table, score)
        self.correct(int(number), table, score)

    def must_be_meant(self, words: list[str], number: int, table: str, score: Score) -> None:
        """Asks, if the round is an older one, or may be meant as a table."""
        session, newest = self.session, len(self.session.event.rounds)
        match = session.event.match(number, table)
        is_a_table = len(words) == 4 and session.event.match(newest, words[0])
        line = f"fix {newest} {' '.join(words)}"
        other = f"\nFor table {number} of round {newest}: {line}" if is_a_table else ""
        if not match and other:
            raise Declined(f"Round {number} has no table {table}.{other}")
        if not match or match.is_bye or match.is_open or (number == newest and len(words) != 4):
            return
        shown = session.event.shown(match, score)
        session.say(f"Round {number}, table {table}: {shown}, in place of {match.score}")
        if not session.lines.says_yes("Replace it?"):
            raise Declined(f"Nothing was replaced.{other}")

    def correct(self, number: int, table: str, score: Score) -> None:
        session = self.session
        match = session.event.match(number, table)
        words = ("correct", str(number), table, *score.words)
        with unbroken(), session.source.turn.taken():
            self.must_sit_there_still(number, match)
            session.send(Command(words, lambda event: event.score_at(number, table) == score))
        if match and not match.is_bye:
            before = f", in place of {match.score}" if match.score else ""
            session.say(f"Round {number}, table {table}: {session.event.shown(match, score)}{before}")
        session.doubts.end(number, int(table))
        session.settle(number, table)

    def doubt(self, rest: str) -> None:
        """Keeps in mind that a score is wrong, since no command withdraws one."""
        session = self.session
        doubts = session.standing_doubts()
        if not rest:
            session.say(
                *(self.shown_doubt(doubt) for doubt in doubts) if doubts else ["No score is in doubt."]
            )
            return
        *before, table = numbers_in(rest, 1, 2, "doubt 9, or doubt 1 9 for table 9 of round 1")
        number = int(before[0]) if before else len(session.event.rounds)
        match = session.event.match(number, table)
        if not match or match.is_bye:
            raise Declined(f"Round {number} has no table {table}. See: round {number}")
        if not match.score:
            session.say(f"Round {number}, table {table}: {session.event.shown(match)}")
            raise Declined("It has no score, so there is nothing to doubt. It is open.")
        session.doubts.add(Doubt(number, match.place, match.score))
        session.say(self.shown_doubt(Doubt(number, match.place, match.score)))
        is_newest = number == len(session.event.rounds)
        fix = f"fix {table} X Y" if is_newest else f"fix {number} {table} X Y"
        session.say(f"Once the right score is there: {fix}. If it was right after all,")
        session.say(f"enter it again: fix {number} {table} {match.score.typed}")

    def shown_doubt(self, doubt: Doubt) -> str:
        match = self.session.event.match(doubt.number, str(doubt.table))
        shown = self.session.event.shown(match) if match else str(doubt.score)
        return f"In doubt: round {doubt.number}, table {doubt.table}: {shown}"

    def list_open(self) -> None:
        session = self.session
        event = session.event
        still_open = event.open_tables()
        for match in still_open:
            session.say(f"{match.place:4}  {event.shown(match)}")
        if event.phase is Phase.PLAYOFF:
            for stage, matches in enumerate(event.stages, 1):
                for match in matches:
                    if match.is_open:
                        slot = slot_shown(stage, match.place, event.first_stage)
                        session.say(f"  {slot}  {event.shown(match)}")
        doubts = session.standing_doubts()
        session.say(*map(self.shown_doubt, doubts))
        if not still_open and not doubts and event.phase is not Phase.PLAYOFF:
            session.say(session.next_step())
        session.say_again(lambda: begun(session.next_step()))
        session.show_now()
