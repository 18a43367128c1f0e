"""The words `draw` and `number`, and `pair` where rounds are drawn: the lists are shut and shown, dice are
thrown, and their number is kept before a key is made of it.
"""
from __future__ import annotations

import contextlib
import os
import re
import secrets
import tempfile
from dataclasses import dataclass, replace
from typing import Iterator, Optional

from event_companions.beside.clock import MOST_MINUTES
from event_companions.beside.copies import Copy
from event_companions.core.event import Phase, shown_player
from event_companions.core.lists import Matches, players_of
from event_companions.core.names import visible
from event_companions.core.program import FAULTS, Declined, Refusal, Refused, Source
from event_companions.core.wording import counted, ranges
from event_companions.draw.draw import (
    NONE,
    DrawText,
    Lists,
    NoNumber,
    Rule,
    by_of,
    key_of,
    number_of,
    rule_of,
    shown_digits,
    tables_of,
)
from event_companions.draw.draws import Kept, differences
from event_companions.prompt.checking import copies_before, differing_tables, keys_of, opened, paired_copy
from event_companions.prompt.lines import minutes_of, unbroken
from event_companions.prompt.rounds import Rounds
from event_companions.prompt.session import Session

MINUTES = re.compile(r"(.*?)\s*\b([0-9]{1,4}\s*(?:m|min|mins|minutes))", re.I)
DRAW = """\
As: draw on, before the start, for a throw of four dice a round (each 4d20);
draw on 5d10 or draw on once 4d20 for other rules; draw on papers without dice;
draw off. What is drawn by now: draw"""
NO_DRAW = """\
Nothing is drawn: each round has a key that the scorekeeper chooses, and the
sheets say so. To have dice choose it, before the start: draw on"""


@dataclass(frozen=True)
class Wanted:
    """What follows `pair`: what the dice showed and who threw, or a word in place of it; and minutes."""

    values: tuple[str, ...] = ()
    by: str = NONE
    word: str = ""
    minutes: Optional[int] = None

    @property
    def is_chosen(self) -> bool:
        """Whether the scorekeeper chooses the key."""
        return self.word not in ("", "again")


def wanted_by(rest: str) -> Wanted:
    found = MINUTES.fullmatch(rest.strip())
    minutes = minutes_of(found[2], "pair 17 3 8 11 50min") if found else None
    text = found[1] if found else rest.strip()
    if text in ("again", "new") or re.fullmatch("[0-9A-Fa-f]{64}", text):
        return Wanted(word=text, minutes=minutes)
    values, by = values_and_throwers(text)
    return Wanted(tuple(values), by, minutes=minutes)


def values_and_throwers(text: str) -> tuple[list[str], str]:
    """Of `17 3 8 11 by 12 30`."""
    thrown, _, throwers = re.sub("[,;]", " ", text).partition(" by ")
    values, numbers = thrown.split(), throwers.split()
    if not all(re.fullmatch("[0-9]{1,9}", word) for word in (*values, *numbers)):
        raise Declined("As: pair, pair 17 3 8 11, pair 17 3 8 11 by 12 30, pair again, or pair new")
    return values, by_of(map(int, numbers))


def values_in(line: str) -> tuple[str, ...]:
    """What dice showed, if a line says nothing else."""
    try:
        return wanted_by(line).values
    except Declined:
        return ()


def chosen_key(word: str) -> str:
    return word.lower() if len(word) == 64 else secrets.token_hex(32)


def throwers_in(by: str, lists: Lists) -> str:
    """Those who threw, as far as the lists have them: after `back` a latecomer may be gone."""
    players = players_of(lists.players.decode())
    return by if by == NONE else by_of(number for number in map(int, by.split(" ")) if number in players)


def lists_now(source: Source) -> Lists:
    """Both lists, for which the turn is held, so that they are of one state of the event."""
    return Lists(source.ask("export", "players").encode(), source.ask("export", "results").encode())


class Drawing:
    def __init__(self, session: Session, rounds: Rounds):
        self.session, self.rounds, self.draws = session, rounds, session.draws
        # the lists that were told last to be others than those that were shut
        self.told: Optional[Lists] = None

    # ---- the rule

    def draw(self, rest: str) -> None:
        words = rest.lower().split()
        if not words:
            self.go_on()
            self.show()
        elif words[0] == "on":
            self.put_on(" ".join(words[1:]))
        elif words == ["off"]:
            self.put_off()
        else:
            raise Declined(DRAW)

    def put_on(self, what: str) -> None:
        session = self.session
        if session.event.phase is not Phase.ENROLLING:
            raise Declined("The rule of the evening is made before the start, and everybody reads it there.")
        text = what or "each 4d20"
        rule = rule_of(text if re.match("each |once ", text) else f"each {text}")
        if not rule or rule.is_off:
            raise Declined(DRAW)
        self.draws.keep_rule(rule)
        session.say(f"Rounds are drawn: {rule.text}. The sheets, the board and the phones say so.")
        if rule.is_once:
            session.say("Thrown once, everybody can work out the rounds ahead, as in chess.")
        session.say("Players with their numbers, for the wall: print players. Then: start, and pair")

    def put_off(self) -> None:
        session = self.session
        rule = self.draws.rule
        if not rule:
            raise Declined(NO_DRAW)
        if rule.is_off:
            raise Declined("The draw was ended before, and each round since says so.")
        if session.event.phase is Phase.ENROLLING:
            self.draws.forget_rule()
            session.say("Nothing is drawn.")
            return
        question = "From now on each round says that you could steer it. It can't be put on again."
        if not session.lines.says_yes(f"{question} End the draw?"):
            raise Declined("Rounds are drawn as before.")
        self.draws.keep_rule(rule.ended)

    def show(self) -> None:
        session, rule = self.session, self.draws.rule
        if not rule:
            session.say(NO_DRAW)
            return
        session.say(f"The rule of the evening: {rule.text}")
        session.say(*(f"  {line}" for text in self.draws.texts() for line in lines_of(text)))

    # ---- the number of a round

    def number(self, rest: str) -> None:
        """A number that was mistyped: both stand in each later text of the round."""
        session, rule = self.session, self.draws.rule
        if not rule or rule.is_off:
            raise Declined(NO_DRAW)
        of, _, thrown = rest.strip().partition(" ")
        if not re.fullmatch("[1-9][0-9]?", of) or not thrown.strip():
            raise Declined("Type the round and what the dice showed, as: number 3 17 3 8 11")
        if rule.is_once and of != "1":
            raise Declined("It was thrown once, for all rounds, as: number 1 17 3 8 11")
        number, (values, by) = int(of), values_and_throwers(thrown)
        had = self.must_have(number)
        kept = self.kept(values, by, rule)
        if kept.number == had.number:
            raise Declined(f"Round {number} has this number already.")
        question = f"Round {number}: {kept.number} in place of {had.number}? Both are shown for ever."
        if not session.lines.says_yes(question):
            raise Declined(f"The number of round {number} stays {had.number}.")
        with unbroken(), session.source.turn.taken():
            session.look_again()
            if self.draws.numbers(number)[-1] != had:
                raise Declined("Another window has changed it meanwhile. See: draw")
            self.draws.keep_number(number, kept)
        session.say(f"The number of round {number} is {kept.number}.")
        if number <= len(session.event.rounds):
            made = copies_before(session.copies, number)
            way = f"back {made[-1].number}" if made else "back"
            told = f"Round {number} stays as it was paired. To pair it by this number: {way}, and then pair"
            session.say_filled(told)
        else:
            session.say("Next: pair")

    def must_have(self, number: int) -> Kept:
        kept = self.draws.numbers(number)
        if not kept:
            raise Declined(f"Round {number} has no number yet. It gets one by: pair 17 3 8 11")
        return kept[-1]

    def kept(self, values: list[str], by: str, rule: Rule) -> Kept:
        try:
            number = number_of(values)
        except NoNumber as fault:
            raise Declined(f"{fault}: {rule.example}") from None
        fault_of_rule = rule.fault_of(number)
        if fault_of_rule:
            raise Declined(f"{fault_of_rule}: {rule.example}")
        enrolled = self.session.event.enrolled
        unknown = [] if by == NONE else [it for it in by.split(" ") if int(it) not in enrolled]
        if unknown:
            raise Declined(f"No player has number {unknown[0]}. See: players")
        return Kept(number, by)

    # ---- pair

    def pair(self, rest: str) -> None:
        session, wanted = self.session, self.without_bare_minutes(wanted_by(rest))
        if not session.goes_on_in_doubt("Pair"):
            raise Declined("Nothing was paired.")
        with unbroken():
            with session.source.turn.taken():
                # another prompt may have paired, or shut the lists, since this line was typed
                session.look_again()
                self.make_missing_text()
                number = len(session.event.rounds) + 1
                self.must_be_due(number)
                wanted = self.with_kept_key(number, wanted)
                lists = lists_now(session.source)
                if not self.has_number(number, wanted, lists):
                    return
                copy, text = self.pair_by(number, wanted, lists)
            session.copy_to_second_place(copy)
        session.show("slips", str(number))
        self.say_text(text)
        self.rounds.say_paired(number)
        session.show_now()
        session.has_moved = True
        self.rounds.set_clock(wanted.minutes)

    def without_bare_minutes(self, wanted: Wanted) -> Wanted:
        """Minutes alone, as `pair` takes them if nothing is drawn, are no throw. Once the draw was ended they are
        what they were.
        """
        rule = self.draws.rule
        minutes = int(wanted.values[0]) if len(wanted.values) == 1 else 0
        if not rule or not 1 <= minutes <= MOST_MINUTES:
            return wanted
        if rule.is_off:
            return Wanted(minutes=minutes)
        number = len(self.session.event.rounds) + 1
        way = f"{rule.example} {minutes}min"
        if self.draws.numbers(number):
            way = f"pair {minutes}min"
        elif not self.draws.is_open(number):
            way = f"pair, and after the throw: {way}"
        raise Declined(
            f"Rounds are drawn, and {minutes} alone is no throw.\nFor a clock of {minutes} minutes: {way}"
        )

    def with_kept_key(self, number: int, wanted: Wanted) -> Wanted:
        """If no number counts for the round, `pair again` takes the key by which it was paired before."""
        if wanted.word != "again" or (self.draws.is_on and self.draws.numbers(number)):
            return wanted
        key = self.session.keys.last(number)
        if not key and not self.draws.is_on:
            raise Declined(f"{self.session.file}.keys has no key for round {number}. A new one: pair")
        return replace(wanted, word=key) if key else wanted

    def must_be_due(self, number: int) -> None:
        """What would be refused is refused before anything is shut: the program pairs a copy."""
        session = self.session
        with tempfile.TemporaryDirectory() as room:
            copy = session.copies.made(Copy(0, "", "", os.path.join(room, "next.event")))
            with opened(session.source, copy) as program:
                try:
                    program.ask("pair", str(number), "0" * 64)
                except Refused as refused:
                    # it depends on the key
                    if refused.number != Refusal.BUDGET:
                        raise self.rounds.with_open_tables(refused, number) from None

    def has_number(self, number: int, wanted: Wanted, lists: Lists) -> bool:
        """Whether the round can be paired now: by a number, which is kept from here on, or by a chosen key.
        If not, its lists are shut, and it is said what to throw.
        """
        session, rule = self.session, self.draws.rule
        assert rule
        if wanted.is_chosen or rule.is_off:
            if wanted.values:
                raise Declined("The draw was ended, so a round has no number any more. As: pair")
            return True
        kept = self.draws.numbers(number)
        if kept:
            if wanted.values and self.kept(list(wanted.values), wanted.by, rule).number != kept[-1].number:
                raise Declined(
                    f"The number of round {number} is {kept[-1].number}, for good. To pair by it: pair\n"
                    f"If it was mistyped, both will be shown: number {number} {' '.join(wanted.values)}"
                )
            session.say(f"Round {number} has its number: {kept[-1].number}")
            return True
        shut = self.draws.shut(number, self.draws.is_open(number))
        if shut is None or (shut != lists and not wanted.values):
            shut_before = shut
            drawing = self.draws.keep_shut(number, lists)
            self.say_shut(number, drawing, lists, shut_before)
            if wanted.values:
                raise Declined("What was thrown before the lists were shut does not count.")
            return False
        if not wanted.values:
            self.say_shut(number, self.draws.is_open(number), lists, None)
            return False
        new = self.kept(list(wanted.values), wanted.by, rule)
        self.draws.keep_number(number, new)
        session.say(f"The number of round {number} is {new.number}, for good. Read it aloud.")
        return True

    def pair_by(self, number: int, wanted: Wanted, lists: Lists) -> tuple[Copy, DrawText]:
        session, rule = self.session, self.draws.rule
        drawing = self.drawing_for(number, lists)
        is_chosen = wanted.is_chosen or bool(rule and rule.is_off)
        key = chosen_key(wanted.word) if is_chosen else key_of(number, self.draws.numbers(number)[-1].number)
        is_new = session.keys.last(number) != key
        copy = session.copies.make(f"pair-{number}")
        try:
            if is_new:
                session.keys.append(number, key)
        except OSError:
            session.copies.remove(copy)
            raise
        try:
            self.rounds.send_pair(number, key, copy)
        except FAULTS as fault:
            # a number's key stays its key; a chosen one could be read meanwhile
            if is_chosen and is_new and self.rounds.is_unused(number, fault):
                session.keys.mark_unused(number, key)
            raise
        self.must_be_by(key, number, copy)
        text = self.text(number, drawing, key, lists)
        self.draws.keep_text(text)
        return copy, text

    def must_be_by(self, key: str, number: int, copy: Copy) -> None:
        """A text is made only of what follows from its key."""
        differing = self.rounds.differing(copy, number, key)
        if differing is None:
            raise Declined(f"Whether round {number} was paired by its key could not be checked. Try: draw")
        if differing:
            raise Declined(
                f"Round {number} was paired by another key than this prompt sent, from another window\n"
                f"or program: tables {ranges(differing)} differ. It has no text."
            )

    def drawing_for(self, number: int, lists: Lists) -> int:
        """The drawing that these lists are shut for. If others were shut before, what differs is told."""
        drawing = self.draws.is_open(number)
        before = self.draws.shut(number, drawing)
        if drawing and before == lists:
            return drawing
        last = self.draws.drawings(number, "shut")[-1:]
        before = before or (self.draws.shut(number, last[0]) if last else None)
        drawing = self.draws.keep_shut(number, lists)
        if self.say_difference(number, drawing, lists, before):
            self.say_mark(lists)
        return drawing

    def text(self, number: int, drawing: int, key: str, lists: Lists) -> DrawText:
        """Of a round that is paired by this key."""
        results = self.session.source.ask("export", "results").encode()
        kept = self.draws.numbers(number)
        by_number = [at for at, it in enumerate(kept) if key_of(number, it.number) == key]
        used = kept[by_number[-1]] if by_number else Kept(NONE)
        others = kept[: by_number[-1]] if by_number else kept
        # one that was typed again counts again
        instead = "; ".join(it.number for it in others if it.number != used.number) or NONE
        tables, after = tables_of(results, number), self.draws.last_sum()
        by = throwers_in(used.by, lists)
        return DrawText(number, drawing, after, used.number, by, instead, key, lists, tables)

    # ---- other lines, while the lists are shut

    def must_be_no_throw(self, line: str) -> None:
        """While dice are thrown each table has its score, so that numbers alone are what they showed."""
        number = self.draws.newest_open()
        rule = self.draws.rule if number else None
        if not rule or rule.is_off or len(values_in(line)) < rule.least:
            return
        event = self.session.event
        if number != len(event.rounds) + 1 or event.open_tables() or self.draws.numbers(number):
            return
        raise Declined(
            f"The lists are shut for round {number}, and no table waits for a score.\n"
            f"What the dice showed: pair {visible(line)}. Another score for a table: fix 17 0 2"
        )

    def say_if_changed(self) -> None:
        """After a line: that the lists are no longer those that were shut, once for each change."""
        with contextlib.suppress(*FAULTS, OSError):
            number = self.draws.newest_open() if self.draws.is_on else 0
            if number and number == len(self.session.event.rounds) + 1:
                self.say_changed(number)

    def say_changed(self, number: int) -> None:
        with self.session.source.turn.taken():
            lists = lists_now(self.session.source)
        is_told = lists in (self.told, self.draws.shut(number, self.draws.is_open(number)))
        self.told = lists
        if not is_told:
            after = "The number stays." if self.draws.numbers(number) else "Throw after that."
            shut_again = f"The lists of round {number} were shut before this. To shut them again: pair"
            self.session.say_filled(f"{shut_again}. {after}")

    # ---- after a stop

    def go_on(self) -> None:
        """As the prompt begins: what a stop has left is ended, or said."""
        if not self.draws.rule:
            return
        with unbroken(), self.session.source.turn.taken():
            self.session.look_again()
            self.make_missing_text()
        self.say_open()

    def make_missing_text(self) -> None:
        """Of the newest round, if it was paired and the stop came before its text."""
        session = self.session
        number, stored = len(session.event.rounds), session.event.newest()
        if not number or not self.draws.is_open(number) or self.draws.text_of_round(number, stored):
            return
        for copy, key in self.tried(number):
            lists = self.lists_if_given(copy, key, number, stored)
            if lists:
                text = self.text(number, self.drawing_for(number, lists), key, lists)
                self.draws.keep_text(text)
                session.say(f"Round {number} was paired before a stop. Its text is made now.")
                self.say_text(text)
                return

    def tried(self, number: int) -> Iterator[tuple[Copy, str]]:
        """The newest copies and keys first."""
        session, kept = self.session, self.draws.numbers(number)
        keys = [*keys_of(session.keys, number), *(key_of(number, it.number) for it in kept)]
        for copy in reversed(copies_before(session.copies, number)):
            for key in reversed(keys):
                yield copy, key

    def lists_if_given(self, copy: Copy, key: str, number: int, stored: Matches) -> Optional[Lists]:
        """The lists of a copy, if it gives the round by the key."""
        source = self.session.source
        try:
            if differing_tables(stored, paired_copy(source, copy, number, key)):
                return None
            with opened(source, copy) as program:
                return lists_now(program)
        except FAULTS:
            return None

    # ---- what is said

    def say_open(self) -> None:
        """What the next round waits for."""
        session, rule = self.session, self.draws.rule
        number = len(session.event.rounds) + 1
        kept, drawing = self.draws.numbers(number), self.draws.is_open(number)
        if not rule or rule.is_off or session.event.open_tables():
            return
        if kept and (drawing or not rule.is_once):
            session.say(f"Round {number} has its number, {kept[-1].number}, and is not paired. Next: pair")
        elif drawing:
            session.say(f"The lists are shut for round {number}, drawing {drawing}.")
            session.say(f"If dice were thrown, type what they show, as: {rule.example}")

    def say_shut(self, number: int, drawing: int, lists: Lists, before: Optional[Lists]) -> None:
        session, rule = self.session, self.draws.rule
        assert rule
        playing = sum(not it.has_dropped for it in players_of(lists.players.decode()).values())
        playing_shown = counted(playing, "player")
        session.say(f"Round {number}: the lists are shut, drawing {drawing}. {playing_shown} play.")
        out, new = self.out_and_new(number)
        if out:
            session.say_filled(f"Out since round {number - 1}: {', '.join(out)}")
        if new:
            session.say_filled(f"New: {', '.join(new)}")
        if before:
            self.say_difference(number, drawing, lists, before)
        self.say_mark(lists)
        session.say_filled(f"{rule.throw} Then type what they show, in any order: {rule.example}")

    def say_mark(self, lists: Lists) -> None:
        self.session.say("Their mark:", f"  {lists.mark}")

    def out_and_new(self, number: int) -> tuple[list[str], list[str]]:
        """Who sat in the round before and does not play now, and the other way round."""
        event = self.session.event
        if number == 1:
            return [], []
        sat = {it for match in event.rounds[number - 2] for it in (match.first, match.second) if it}
        players = event.players.values()
        out = [shown_player(it) for it in players if it.has_dropped and it.number in sat]
        new = [shown_player(it) for it in players if not it.has_dropped and it.number not in sat]
        return out, new

    def say_difference(self, number: int, drawing: int, lists: Lists, before: Optional[Lists]) -> bool:
        """Whether anything differs."""
        told = differences(before, lists) if before else []
        if told:
            since = f"Round {number}, drawing {drawing}: since the lists were shut before"
            self.session.say_filled(f"{since}, {', '.join(told)}.")
        return bool(told)

    def say_text(self, text: DrawText) -> None:
        path = visible(self.draws.path(text.round, text.drawing))
        self.session.say(*lines_of(text), f"The text of the round, for everybody: {path}")


def lines_of(text: DrawText) -> list[str]:
    """A round as it was drawn, as people are told."""
    how = f"number {text.number}" if text.is_drawn else "KEY CHOSEN BY THE SCOREKEEPER"
    drawn = f", lists shut {text.drawing} times" if text.drawing > 1 else ""
    lines = [f"Round {text.round}: {how}{drawn}, text {shown_digits(text.sum)}"]
    if text.instead != NONE:
        lines.append(f"  in place of {text.instead}")
    return lines
