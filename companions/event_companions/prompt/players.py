"""Players: who is found, enrolled, and dropped."""
from __future__ import annotations

import contextlib
import difflib
import re
from typing import Optional

from event_companions.beside.shown_names import ShownName
from event_companions.core.event import Event, Phase, shown_player
from event_companions.core.lists import Player
from event_companions.core.names import all_but_the_first, compared, found_by, listed, plain, visible
from event_companions.core.program import Declined
from event_companions.core.rosters import (
    Roster,
    path_and_codec,
    read_list,
    roster_of,
    tidy,
    why_not,
    written_list,
)
from event_companions.core.stages import slot_shown
from event_companions.core.wording import counted
from event_companions.core.working import Working, part_shown, share_shown, working_of
from event_companions.prompt.lines import unbroken
from event_companions.prompt.replaying import Change
from event_companions.prompt.replays import play_again
from event_companions.prompt.session import Command, Session

# this many names of which a list didn't tell the last one are shown
MOST_GUESSES = 8
# how like two words of a name are, if one may be a misspelt other
LIKENESS = 0.7


class Players:
    def __init__(self, session: Session):
        self.session = session

    def found(self, rest: str) -> Player:
        """The player of a number, of a name, or of a part that no other name has."""
        players = self.session.event.players
        if re.fullmatch("[0-9]{1,9}", rest):
            return players.get(int(rest)) or Player(int(rest), "", False)
        found = [player for player in players.values() if player.name == rest] or self.having(rest)
        if len(found) == 1:
            return found[0]
        if not found:
            raise Declined(f"Nobody has {visible(rest)} in the name. See: players")
        shown = [f"{player.number:4}  {visible(player.name)}" for player in found]
        raise Declined("\n".join(["Who of these? Take the number, as: drop 23", *shown]))

    def having(self, part: str) -> list[Player]:
        return found_by(part, self.session.event.players.values(), lambda player: player.name)

    def who(self, rest: str) -> None:
        if not rest:
            raise Declined("Type a part of a name, as: who an")
        players = self.session.event.players
        is_number = bool(re.fullmatch("[0-9]{1,9}", rest))
        found = [players[int(rest)]] if is_number and int(rest) in players else self.having(rest)
        if not found:
            by_name = f"Nobody has {visible(rest)} in the name"
            raise Declined(f"{f'No player has number {rest}' if is_number else by_name}. See: players")
        for player in found:
            dropped = "D" if player.has_dropped else " "
            self.session.say(f"{player.number:4} {dropped} {visible(player.name)}{self.seat_of(player)}")
        if len(found) == 1:
            place = self.place_of(found[0])
            self.session.say(*place, *self.matches_of(found[0]))
            self.say_working(found[0])
            self.session.say_again(lambda: f"This is {shown_player(found[0])}: {''.join(place).strip()}")

    def say_working(self, player: Player) -> None:
        """How the tiebreakers come about, by each opponent; and loudly, if the program prints others."""
        working = working_of(self.session.event, player.number)
        if not working:
            return
        self.session.say(*working_lines(working))
        for name, printed, due in working.differing:
            self.session.say_failed(
                f"WRONG: the standings print {name} {printed}, and by the results it is {due}.\n"
                "That is a fault of ours. Keep the file, and check it: event-check"
            )

    def place_of(self, player: Player) -> list[str]:
        """Rank and points, once a round is complete."""
        event = self.session.event
        theirs = [it for it in event.standings if it.player.number == player.number]
        return [f"  rank {it.rank} with {it.points} points" for it in theirs if event.complete_rounds()]

    def matches_of(self, player: Player) -> list[str]:
        """All matches of a player, of the rounds and of the playoff."""
        event = self.session.event
        lines = []
        for number, matches in enumerate(event.rounds, 1):
            found = next((match for match in matches if match.has(player.number)), None)
            if not found:
                lines.append(f"  round {number}: did not play")
            elif found.is_bye:
                lines.append(f"  round {number}, bye: {found.score}")
            else:
                lines.append(f"  round {number}, table {found.place}: {event.shown(found)}")
        for stage, matches in enumerate(event.stages, 1):
            for match in matches:
                if match.has(player.number):
                    slot = slot_shown(stage, match.place, event.first_stage)
                    lines.append(f"  {slot}: {event.shown(match)}")
        return lines

    def seat_of(self, player: Player) -> str:
        event = self.session.event
        # nobody sits at the tables of the rounds any more
        if event.phase is not Phase.SWISS:
            return ""
        for match in event.newest():
            if match.has(player.number):
                return "  bye" if match.is_bye else f"  table {match.place}: {event.shown(match)}"
        return ""

    def drop(self, rest: str) -> None:
        """Of one player, or of several by their numbers."""
        session = self.session
        if not rest:
            raise Declined("Type a number or a name, as: drop 23, or drop Ana")
        are_several = re.fullmatch(r"[0-9]{1,9}([\s,;]+[0-9]{1,9})+", rest)
        words = re.split(r"[\s,;]+", rest) if are_several else [rest]
        players = list(dict.fromkeys(self.found(word) for word in words))
        # those who can't drop are refused without a question
        can_drop = [player for player in players if player.name and not player.has_dropped]
        if can_drop and session.event.phase is Phase.SWISS:
            question = f"Drop {', '.join(map(shown_player, can_drop))}?"
            if not session.lines.says_yes(f"{question} It can be taken back until the next pairing."):
                raise Declined("Nobody was dropped.")
        for player in players:
            self.drop_one(player)

    def drop_one(self, player: Player) -> None:
        session = self.session
        command = Command(("drop", str(player.number)), lambda event: has_dropped(event, player.number))
        session.send_copied(command, f"drop-{player.number}")
        session.say(f"{shown_player(player)} is dropped.")
        for match in session.event.open_tables():
            if match.has(player.number):
                session.say(f"Table {match.place} must still get its score: {session.event.shown(match)}")

    def enrol(self, rest: str) -> None:
        session = self.session
        name = tidy(rest)
        self.must_be_one(name)
        alike = self.alike(name)
        if alike and not session.lines.says_yes(
            f"{shown_player(alike)} looks the same, or differs in capitals only. Enrol another one?"
        ):
            raise Declined("Nobody was enrolled.")
        with unbroken(), contextlib.ExitStack() as stack:
            words = ("enrol", name)
            if name.startswith("-"):
                # as a word the program takes it for an option, and in a list for a name
                words = ("import", stack.enter_context(written_list([name])))
            session.send(Command(words, lambda event: event.named(name) is not None))
        player = session.event.named(name)
        if player:
            session.say(f"{shown_player(player)} is enrolled.", *self.rounds_lost())

    def must_be_one(self, name: str) -> None:
        """Several names in a line would become one player."""
        parts = [tidy(part) for part in re.split("[,;]", name)]
        if len(parts) < 2 or not all(parts) or self.session.event.named(name):
            return
        if not self.session.lines.says_yes(f"Is {visible(name)} one player, whose name has a comma?"):
            raise Declined(f"Nobody was enrolled. Type one name a line, as: enrol {visible(parts[0])}")

    def alike(self, name: str) -> Optional[Player]:
        """A player whose name looks the same and is written by other bytes."""
        enrolled = self.session.event.enrolled.values()
        found = [
            player for player in enrolled if player.name != name and compared(player.name) == compared(name)
        ]
        return found[0] if found and name not in {player.name for player in enrolled} else None

    def rounds_lost(self) -> list[str]:
        """What a player who comes now has missed."""
        number = len(self.session.event.rounds)
        if not number:
            return []
        lost = "Round 1 is lost" if number == 1 else f"Rounds 1 to {number} are lost"
        return [f"{lost}, without an opponent."]

    def import_list(self, rest: str) -> None:
        session = self.session
        if not rest:
            raise Declined("Type the name of a list, as: import names.csv")
        path, codec = path_and_codec(rest)
        data = read_list(path)
        roster = roster_of(data, {player.name for player in session.event.enrolled.values()}, codec)
        self.say_roster(path, roster)
        session.say_again(lambda: f"{visible(path)}, {roster.how}: {roster.counts}")
        names = self.names_to_enrol(roster)
        if not names:
            return
        with unbroken(), written_list(names) as written:
            try:
                session.send(Command(("import", written), lambda event: all(map(event.named, names))))
                self.keep_last_names(roster)
                session.say(*self.rounds_lost(), *self.leading_words(roster.unparted.intersection(names)))
            except Declined as fault:
                if not str(fault).startswith("bad csv"):
                    raise
                raise Declined(f"{fault}\nNobody was enrolled. A list has at most 512 names.") from None

    def keep_last_names(self, roster: Roster) -> None:
        """For lists by last name."""
        found = [(self.session.event.named(name), last) for name, last in roster.lasts.items()]
        told = [ShownName(player.number, player.name, player.name, last) for player, last in found if player]
        if told:
            self.session.names.keep(*told)

    def leading_words(self, names: set[str]) -> list[str]:
        """Names that lists may have under another letter than people look for."""
        found = sorted(
            (player.number, player.name) for name in names if (player := self.session.event.named(name))
        )
        if not found:
            return []
        shown = [f"{number:4}  {visible(listed(name).text)}" for number, name in found[:MOST_GUESSES]]
        more = [f"  and {len(found) - MOST_GUESSES} more"] if found[MOST_GUESSES:] else []
        number, name = found[0]
        return [
            "This list doesn't tell where last names begin. Lists by name have:",
            *shown,
            *more,
            "If a last name has more words, name the player so:",
            f"  rename {number} {visible(all_but_the_first(name).text)}",
        ]

    def names_to_enrol(self, roster: Roster) -> list[str]:
        """The names for which the answers are yes."""
        says_yes = self.session.lines.says_yes
        if roster.names and not says_yes(f"Enrol {counted(len(roster.names), 'player')}?"):
            raise Declined("Nobody was enrolled.")
        names = list(roster.names)
        if roster.alike and says_yes(
            f"Enrol also {counted(len(roster.alike), 'player')} who may be there already?"
        ):
            names += [alike.name for alike in roster.alike]
        if roster.alike and not names:
            raise Declined("Nobody was enrolled.")
        return names

    def say_roster(self, path: str, roster: Roster) -> None:
        say = self.session.say
        say(f"{visible(path)}: {roster.how}")
        if roster.is_guess:
            other = "cp1252" if "cp1250" in roster.how else "cp1250"
            say("Its letters are a guess. If names are wrong, name the encoding, as:")
            say(f"  import {visible(path)} {other}")
        # names with other letters come first, where the letters are a guess
        names = sorted(roster.names, key=str.isascii) if roster.is_guess else roster.names
        say(
            "It would enrol:" if names else "It would enrol nobody.",
            *(f"  {visible(name)}" for name in names),
        )
        if roster.already:
            say(f"{len(roster.already)} enrolled already.")
        if roster.alike:
            say("Perhaps there already, in other capitals or accents:")
            for alike in roster.alike:
                say(f"  row {alike.place}: {visible(alike.name)}, beside {visible(alike.other)}")
        if roster.left_out:
            say("Left out:", *(f"  {line}" for line in roster.left_out))

    # ---- names that are wrong

    def rename(self, rest: str) -> None:
        """Before the start the event is made again with the right name; after it the player is shown by it."""
        session = self.session
        found = re.fullmatch(r"([0-9]{1,9})\s+(.+)", rest)
        if not found:
            raise Declined("Type a number and the right name, as: rename 4 Peter Meyer")
        number, name = int(found[1]), tidy(found[2])
        player = session.event.players.get(number)
        if not player:
            raise Declined(f"No player has number {number}. See: players")
        others = [other for other in session.event.players.values() if other.number != number]
        same = next((other for other in others if compared(other.name) == compared(name)), None)
        enrolled = session.event.enrolled[number].name
        if name == enrolled:
            same = None
        fault = why_not(name) or (
            f"{shown_player(same)} has this name. Add what tells the two apart." if same else ""
        )
        if fault:
            raise Declined(fault)
        if not have_a_word_in_common(player.name, name) and not session.lines.says_yes(
            f"Number {number} is {visible(player.name)}. Is {visible(name)} the right name?"
        ):
            raise Declined("Nobody was renamed. Whose number is it? See: who, as: who an")
        if session.event.phase is Phase.ENROLLING:
            play_again(session, Change(renamed=(number, name)))
            session.names.rename(number, name, name)
            session.say(f"{shown_player(player)} is {visible(name)} now.")
        else:
            session.names.rename(number, enrolled, name)
            session.look_again()
            session.say(f"{shown_player(player)} is shown as {visible(name)} from now on.")
            session.say("The program's own lists keep the name that was enrolled.")


def working_lines(working: Working) -> list[str]:
    """The working of a player's tiebreakers, in lines of a terminal."""
    totals = working.totals
    lines = [f"  GWP {part_shown(totals.game_points, 3 * totals.games, totals.game_wins)}"]
    for met in working.opponents:
        other = met.totals
        lines += [
            f"  round {met.round}, {met.score} against {shown_player(met.opponent or working.player)}:",
            f"    MWP {part_shown(other.points, 3 * other.rounds, other.match_wins)}",
            f"    GWP {part_shown(other.game_points, 3 * other.games, other.game_wins)}",
        ]
    return lines + [
        f"  OMW, the average of their MWP: {share_shown(working.opponents_match_wins)}",
        f"  OGW, the average of their GWP: {share_shown(working.opponents_game_wins)}",
        "  No MWP or GWP counts as less than 33.",
    ]


def have_a_word_in_common(one: str, other: str) -> bool:
    """Or nearly so, as Petr and Peter have, or Cy and Cyril."""
    pairs = [(word, beside) for word in plain(one).split() for beside in plain(other).split()]
    return any(
        word.startswith(beside)
        or beside.startswith(word)
        or difflib.SequenceMatcher(None, word, beside).ratio() >= LIKENESS
        for word, beside in pairs
    )


def has_dropped(event: Event, number: int) -> bool:
    return number in event.players and event.players[number].has_dropped
