"""Pairing, and the lists of the program that are shown as they are."""
from __future__ import annotations

import re
import secrets
import tempfile
from typing import Optional

from event_companions.beside.clock import kept_clock, start_clock, stop_clock
from event_companions.beside.copies import Copy
from event_companions.core.names import begun
from event_companions.core.program import FAULTS, Declined, Refusal, Refused
from event_companions.core.stages import slot_shown, words_of_slot
from event_companions.core.wording import counted, ranges
from event_companions.prompt.checking import (
    copies_before,
    differing_tables,
    keys_of,
    nearest,
    opened,
    paired_copy,
    standings_after,
)
from event_companions.prompt.lines import minutes_in, minutes_of, numbers_in, score_in, unbroken, with_score
from event_companions.prompt.session import Command, Session, tables_named

PLAY = "play qf2 2 1, or play final 2 0"


class Rounds:
    def __init__(self, session: Session):
        self.session = session

    def key_for(self, number: int, word: str) -> tuple[str, bool]:
        """The key of the next pairing, and whether it is new to FILE.keys."""
        keys = self.session.keys
        if re.fullmatch("[0-9A-Fa-f]{64}", word):
            return word, True
        if word == "again":
            key = keys.last(number)
            if not key:
                raise Declined(f"{self.session.file}.keys has no key for round {number}. A new one: pair")
            return key, False
        if word not in ("", "new"):
            raise Declined(
                "As: pair, pair 50, pair again, pair new, or pair and a key of 64 hexadecimal digits"
            )
        return secrets.token_hex(32), True

    def pair(self, rest: str) -> None:
        session = self.session
        word, minutes = word_and_minutes(rest)
        if not session.goes_on_in_doubt("Pair"):
            raise Declined("Nothing was paired.")
        with unbroken():
            with session.source.turn.taken():
                # another prompt may have paired since this line was typed
                session.look_again()
                number = len(session.event.rounds) + 1
                key, is_new = self.key_for(number, word)
                copy = session.copies.make(f"pair-{number}")
                try:
                    if is_new:
                        session.keys.append(number, key)
                except OSError:
                    session.copies.remove(copy)
                    raise
                try:
                    self.send_pair(number, key, copy)
                except FAULTS as fault:
                    if is_new and self.is_unused(number, fault):
                        session.keys.mark_unused(number, key)
                    raise
                differing = self.differing(copy, number, key)
            session.copy_to_second_place(copy)
        session.show("slips", str(number))
        self.say_key(number, key, differing)
        self.say_paired(number)
        session.show_now()
        session.has_moved = True
        self.set_clock(minutes)

    def say_paired(self, number: int) -> None:
        """After a list of tables that is longer than the screen."""

        def paired() -> str:
            tables = self.session.event.rounds[number - 1]
            byes = " and a bye" if any(match.is_bye for match in tables) else ""
            count = counted(sum(not match.is_bye for match in tables), "table")
            return f"Round {number} is paired: {count}{byes}. All of it: round, or print names"

        self.session.say_again(paired)

    def set_clock(self, minutes: Optional[int]) -> None:
        """The clock of the round before ends, and one of this round starts if its minutes were typed."""
        session, before = self.session, kept_clock(self.session.file)
        stop_clock(session.file)
        if minutes is not None:
            start_clock(session.file, minutes)
            session.say(f"The clock runs: {minutes} min")
        elif before:
            session.say(f"The clock of the round before is off. For this one: clock {before.minutes}")

    def send_pair(self, number: int, key: str, copy: Copy) -> None:
        session = self.session
        try:
            session.send(Command(("pair", str(number), key), lambda event: len(event.rounds) >= number), copy)
        except Refused as refused:
            session.look_again()
            raise self.with_open_tables(refused, number) from None

    def with_open_tables(self, refused: Refused, number: int) -> Refused:
        """The tables that are open, if a round was refused since some are."""
        if refused.number != Refusal.ROUND_OPEN:
            return refused
        return refused.with_more(f"Round {number - 1}, {tables_named(self.session.event.open_tables())}")

    def is_unused(self, number: int, fault: Exception) -> bool:
        """Whether the round was surely not paired by the key that was just sent."""
        if isinstance(fault, Refused) and not fault.is_unsure:
            return True
        self.session.look_again()
        try:
            return len(self.session.event.rounds) < number
        except FAULTS:
            return False

    def differing(self, copy: Copy, number: int, key: str) -> Optional[list[int]]:
        """The tables at which the round is not what the copy that was made before it gives by the key; None
        where that can't be told.
        """
        try:
            due = paired_copy(self.session.source, copy, number, key)
            stored = self.session.event.rounds[number - 1]
        except (*FAULTS, OSError, IndexError):
            return None
        return differing_tables(stored, due)

    def say_key(self, number: int, key: str, differing: Optional[list[int]]) -> None:
        session = self.session
        if differing is None:
            session.say_failed(
                f"Whether round {number} was paired by this key could not be checked. Try: check {number}"
            )
        elif differing:
            session.keys.mark_unused(number, key)
            raise Declined(
                f"Round {number} was paired by another key than this prompt sent, from another window\n"
                f"or program: tables {ranges(differing)} differ. That one has the key of the round.\n"
                f"The key that was made here is marked as unused in {session.file}.keys."
            )
        session.say(f"Its key is in {session.file}.keys. Show it to the players now:", f"  {key}")

    def check(self, rest: str) -> None:
        """Whether a round is the one that its key gives: the program pairs the copy that was made before it."""
        session = self.session
        number = int(numbers_in(rest or str(len(session.event.rounds)), 1, 1, "check 3")[0])
        if not 1 <= number <= len(session.event.rounds):
            raise Declined(f"Round {number} is not paired. See: where")
        copies, keys = copies_before(session.copies, number), keys_of(session.keys, number)
        if not copies or not keys:
            missing = "no copy was made before it" if not copies else f"{session.file}.keys has no key of it"
            raise Declined(f"Round {number} can't be checked here: {missing}. See: event-check")
        found = nearest(session.source, copies, keys, number, session.event.rounds[number - 1])
        if not found:
            raise Declined(f"Round {number} can't be checked here: none of its copies pairs it. See: back")
        if found.differing:
            raise Declined(
                f"Round {number} is not what a copy made before it gives by a key of it.\n"
                f"With the newest ones these tables differ: {ranges(found.differing)}. It was\n"
                f"paired by another key, or from another copy, which back lists. The key:\n  {found.key}"
            )
        session.say(
            f"Round {number} is what its key gives, from the copy that was made before it:", f"  {found.key}"
        )

    def show_round(self, rest: str) -> None:
        words = numbers_in(rest, 0, 1, "round 3")
        number = words[0] if words else str(len(self.session.event.rounds))
        self.session.show("slips", number)
        self.session.say_again(lambda: f"These are the tables of round {number}. On paper: print tables")
        if not words:
            self.session.show_now()

    def standings(self, rest: str) -> None:
        """The standings; the first lines of them; or those after an earlier round."""
        session = self.session
        found = re.fullmatch(r"(top|first|after|round|r)?\s*([0-9]{1,3})?", rest, re.I)
        if not found or (found[1] and not found[2]):
            raise Declined("As: standings, standings 8 for the first eight, or standings after 3")
        if not found[2]:
            session.show("standings")
            self.say_of_which_round()
            return
        word, count = (found[1] or "").lower(), int(found[2])
        is_round = word not in ("top", "first") and (word or 1 <= count <= len(session.event.rounds))
        if is_round:
            self.standings_after(count)
        else:
            self.first_standings(count)

    def first_standings(self, count: int) -> None:
        session = self.session
        heading, *lines = session.with_names(session.source.text("standings")).splitlines(keepends=True)
        session.say(f"The first {min(count, len(lines))} of {len(lines)}:")
        session.say_as_it_is("".join([heading, *lines[:count]]))
        session.say_again(lambda: f"These are the first {min(count, len(lines))} of {len(lines)}.")

    def standings_after(self, number: int) -> None:
        """They are kept in the copy that was made before the next round."""
        session = self.session
        paired, complete = len(session.event.rounds), session.event.complete_rounds()
        if not 1 <= number <= complete:
            raise Declined(f"Round {number} is not complete. Complete are: {complete}. See: where")
        if number == paired:
            session.say(f"After round {number}:")
            session.show("standings")
            self.say_of_which_round(number)
            return
        found = standings_after(session.source, session.copies, number, session.event.rounds)
        if not found:
            raise Declined(f"No copy from before round {number + 1} is there, so they can't be shown.")
        copy, text = found
        when = f"as they stood when round {number + 1} was paired (copy {copy.number})"
        session.say(f"After round {number}, {when}:")
        session.say_as_it_is(session.with_names(text))
        self.say_of_which_round(number)

    def say_of_which_round(self, number: Optional[int] = None) -> None:
        """After standings that are longer than the screen: those of the last complete round, or of an earlier one."""

        def told() -> str:
            after = self.session.event.complete_rounds() if number is None else number
            of = f"after round {after}" if after else "before round 1 is complete"
            return f"These are the standings {of}. The first eight: standings top 8"

        self.session.say_again(told)

    def show_keys(self) -> None:
        lines = [f"round {number} {key}" for number, key in self.session.keys.all()]
        self.session.say(*(lines or ["There is no key yet. pair makes one."]))

    # ---- the playoff

    def cut(self) -> None:
        session = self.session
        if not session.goes_on_in_doubt("Cut"):
            raise Declined("The playoff was not begun.")
        bracket = session.with_names(self.bracket_of_a_cut())
        session.say("The playoff would begin so:")
        session.say_as_it_is(bracket)
        if not session.lines.says_yes("Begin it? After that no result of the rounds is entered or fixed."):
            raise Declined("The playoff was not begun.")
        session.send_copied(Command(("cut",), lambda event: bool(event.stages)), "cut")
        stop_clock(session.file)
        session.show("bracket")
        session.say_filled(begun(session.next_step()))
        session.show_now()
        session.has_moved = True

    def bracket_of_a_cut(self) -> str:
        """Who is in, and who meets whom: the program cuts a copy. What it refuses there it would refuse here."""
        session = self.session
        with unbroken(), tempfile.TemporaryDirectory() as room:
            copy = session.copies.made(Copy(0, "", "", f"{room}/cut.event"))
            with opened(session.source, copy) as program:
                program.ask("cut")
                return program.read("bracket")

    def play(self, rest: str) -> None:
        session = self.session
        stage, slot, counts = self.slot_and_counts(rest)
        score, first = score_in(counts), session.event.first_stage
        match = session.event.slot(stage, slot)
        named = f"{slot_shown(stage, int(slot), first)}: {session.event.shown(match, score)}" if match else ""
        if re.match(r"f(inal)?\s+1\s", rest, re.I) and len(counts) == 3:
            # the 1 may be meant as the place of the match
            if not session.lines.says_yes(f"{begun(named)}. Is this the score?"):
                raise Declined("Nothing was stored. As: play final 2 0")
        words = ("playoff", str(stage), slot, *score.words)
        command = Command(words, lambda event: event.score_in(stage, slot) == score)
        try:
            session.send_copied(command, f"play-{stage}-{slot}")
        except Refused as refused:
            if named:
                session.say(f"Not stored: {named}")
            if refused.number == Refusal.ALREADY_REPORTED and match and match.score:
                refused.more = f"Stored is {match.score}. A score of the playoff is not corrected. See: back"
            raise
        comes_next = session.next_step()
        session.say(begun(named))
        session.say_filled(begun(comes_next))

    def slot_and_counts(self, rest: str) -> tuple[int, str, list[str]]:
        """Of `qf2 2 1`, `sf 1 2 0`, `final 2 1`, or by numbers as the program has them: `1 2 2 1`."""
        session = self.session
        named = words_of_slot(rest, session.event.first_stage)
        if not named:
            stage_word, slot, *counts = numbers_in(rest, 4, 5, session.fitted(PLAY))
            return int(stage_word), slot, counts
        stage, place, score = named
        counts = numbers_in(with_score(f"0 {score}"), 3, 4, session.fitted(PLAY))[1:]
        if session.event.stages and stage < 1:
            first = slot_shown(1, 1, session.event.first_stage)
            raise Declined(f"This playoff begins with the {first.split()[0]}. See: bracket")
        return max(stage, 1), str(place), counts


def word_and_minutes(rest: str) -> tuple[str, Optional[int]]:
    """What follows `pair`: again, new or a key; and the minutes of a clock, as in `pair again 50`."""
    word, _, last = rest.strip().rpartition(" ")
    if re.fullmatch("[0-9A-Fa-f]{64}", last) or minutes_in(last) is None:
        return rest.strip(), None
    return word, minutes_of(last, "pair 50")
