"""The word `phones`: what came in from the players' phones and has to be looked at."""
from __future__ import annotations

from event_companions.beside.codes import FIRST_SEAT
from event_companions.beside.notes import MOST_LETTERS, note_of
from event_companions.beside.reports import (
    WRONG,
    HalfSaid,
    TwoScores,
    all_half_said,
    going_home,
    judge_call,
    judge_calls,
    judged,
    two_scores,
    words_to_mend,
    words_to_store,
)
from event_companions.beside.troubles import kept_troubles
from event_companions.core.event import shown_player
from event_companions.core.lists import Match, Player
from event_companions.core.names import visible
from event_companions.core.program import Declined
from event_companions.prompt.lines import numbers_in
from event_companions.prompt.news import home_said, judge_said
from event_companions.prompt.session import Session, tables_named

NO_NOTE = f"""\
Type up to {MOST_LETTERS} letters after the table, as: note 7 +5 min
To take it away: note 7 off"""
NO_NOTES = "Nothing is noted. To note something of a table: note 7 +5 min"
NO_PHONES = """\
No phone has handed in. To begin, in a second window:
event-phones {file} --at http://192.168.1.10:8080"""


class Phones:
    def __init__(self, session: Session):
        self.session = session

    def list_open(self) -> None:
        session, event = self.session, self.session.event
        session.reports.more()
        number, matches = len(event.rounds), event.newest()
        told = kept_troubles(session.file)
        for line in told.lines if told.is_served else ():
            session.say_filled(line)
        if not session.reports.all:
            session.say(NO_PHONES.format(file=session.file))
            return
        for call in judge_calls(session.reports, number, matches):
            session.say(judge_said(call.match.place, shown_player(event.players[call.caller]), call.report))
        still_open = event.open_tables()
        if still_open:
            session.say_filled(f"Round {number}, {tables_named(still_open)}")
        for found in two_scores(session.reports, number, matches):
            session.say(*self.contradiction(number, found))
        for half in all_half_said(session.reports, number, matches):
            session.say(*self.waiting(number, half))
        for going in going_home(session.reports, number, event.players):
            session.say(home_said(going.table, shown_player(going.player), going.player.number))
        if not still_open:
            session.say(session.next_step())

    def judge(self, rest: str) -> None:
        """A judge has been at the table."""
        session = self.session
        number, match = self.table_of(rest, "judge 7, once a judge has been at table 7")
        session.reports.more()
        if not judge_call(session.reports, number, match):
            raise Declined(f"No judge is called to table {match.place}. See: phones")
        judged(session.reports, number, match)
        session.say(f"Table {match.place}: a judge has been there.")

    def note(self, rest: str) -> None:
        """Notes something of a table, for its players and the board; lists what is noted."""
        session, event = self.session, self.session.event
        number = len(event.rounds)
        if not rest:
            notes = session.notes.of_round(number, event.newest())
            session.say(*(f"Table {it.table}: {it.text}" for it in notes) if notes else [NO_NOTES])
            return
        table, _, typed = rest.partition(" ")
        number, match = self.table_of(table, "note 7 +5 min")
        text = "" if typed.strip() in ("off", "-") else note_of(typed)
        if text is None:
            raise Declined(NO_NOTE)
        session.notes.put(number, match, text)
        session.say(f"Table {match.place}: {text}" if text else f"Table {match.place} has no note.")

    def table_of(self, typed: str, example: str) -> tuple[int, Match]:
        """A table of the newest round at which two sit."""
        event = self.session.event
        (table,) = numbers_in(typed, 1, 1, example)
        number = len(event.rounds)
        match = event.match(number, table)
        if not match or match.is_bye:
            there_is_none = f"Round {number} has no table {table}. See: round"
            raise Declined(there_is_none if number else "No round is paired yet.")
        return number, match

    def contradiction(self, number: int, found: TwoScores) -> list[str]:
        match, said = found.match, found.said[-1]
        once = "Once the right one is known" if said.outcome == WRONG else "If that is right"
        return [
            f"{found.head} at table {match.place}: {self.session.event.shown(match)}",
            f"  at {said.at[11:16]} a phone said {said.said}. {once}: {words_to_mend(number, match, said)}",
            f"  if what is stored is right, type it again: {words_to_store(number, match, found.stored)}",
        ]

    def waiting(self, number: int, half: HalfSaid) -> list[str]:
        match, players = half.match, self.session.event.players
        lines = [f"Not stored at table {match.place}: {self.session.event.shown(match)}"]
        for seat, report in sorted(half.by_seat.items()):
            who: Player = players[match.first if seat == FIRST_SEAT else match.second]
            words = words_to_store(number, match, report.score)
            lines.append(f"  {visible(who.name)} says {report.score.short}. If that is right: {words}")
        return lines
