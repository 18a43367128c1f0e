"""What is taken back, and other rounds or another cut: the event is played again with the change."""
from __future__ import annotations

import re

from event_companions.core.event import Event, Phase, shown_player
from event_companions.core.names import begun
from event_companions.core.plan import CUTS
from event_companions.core.program import MOST_ROUNDS, Declined
from event_companions.core.stages import slot_shown, words_of_slot
from event_companions.prompt.lines import numbers_in
from event_companions.prompt.players import Players
from event_companions.prompt.replaying import Change
from event_companions.prompt.replays import plan_now, play_again
from event_companions.prompt.session import Session

TAKE_BACK = """\
Type what is to be taken back:
  take back 9       the score of table 9 of the newest round
  take back drop 7  the drop of player 7
  take back sf1     the score of semifinal 1, if the final has none
For an older round: fix 1 9 2 0. For a pairing: back"""


class Again:
    def __init__(self, session: Session, players: Players):
        self.session, self.players = session, players

    # ---- other rounds, another cut

    def plan(self, rest: str) -> None:
        session = self.session
        plan = plan_now(session)
        if not rest:
            session.say(plan.shown(len(session.event.rounds)))
            session.say(f"For other ones, until the playoff, as: plan {plan.rounds} {plan.cut}")
            return
        rounds, cut = map(int, numbers_in(rest, 2, 2, "plan 6 8, for 6 rounds and a cut to 8"))
        stored = len(session.event.rounds)
        if session.event.phase not in (Phase.ENROLLING, Phase.SWISS):
            raise Declined("The playoff has begun. Go back to before the cut first. See: back")
        if not max(1, stored) <= rounds <= MOST_ROUNDS or cut not in CUTS:
            raise Declined(
                f"There are {max(1, stored)} to {MOST_ROUNDS} rounds here, and a cut of 0, 2, 4 or 8, as: "
                f"plan {max(3, stored)} 4"
            )
        play_again(session, Change(rounds=rounds, cut=cut))
        session.say_where()

    # ---- what is taken back

    def take(self, rest: str) -> None:
        words = rest.split()
        if not words or words[0].lower() != "back" or len(words) < 2:
            raise Declined(TAKE_BACK)
        if words[1].lower() == "drop":
            self.take_back_drop(" ".join(words[2:]))
        elif re.fullmatch("[0-9]{1,3}", words[1]) and len(words) == 2:
            self.take_back_score(words[1])
        else:
            self.take_back_slot(" ".join(words[1:]))

    def take_back_score(self, table: str) -> None:
        session = self.session
        event, number = session.event, len(session.event.rounds)
        event.read()
        if event.phase is not Phase.SWISS:
            raise Declined("That is for the newest of the Swiss rounds. In the playoff, as: take back qf2")
        match = event.match(number, table)
        if not match or match.is_bye:
            raise Declined(f"Round {number} has no table {table}. See: round")
        if match.is_open:
            raise Declined(f"Table {table} of round {number} is open: {event.shown(match)}")
        shown = f"Round {number}, table {table}: {event.shown(match)}"
        if not session.lines.says_yes(f"{shown}. Take this score back?"):
            raise Declined("Nothing was taken back.")
        self.must_be_so_still(event)
        play_again(session, Change(table=match.place))
        session.doubts.end(number, match.place)
        session.say_filled(f"{shown.replace(str(match.score), '-', 1)} is open again.")

    def must_be_so_still(self, before: Event) -> None:
        """Another window may have done something while a question stood."""
        self.session.look_again()
        if self.session.event.read() != before.read():
            raise Declined("Another window has changed the event meanwhile. See: where")

    def take_back_drop(self, who: str) -> None:
        session = self.session
        if session.event.phase is not Phase.SWISS:
            raise Declined("A drop is taken back before the playoff only. See: back")
        player = self.players.found(who)
        if not player.has_dropped:
            raise Declined(f"{shown_player(player)} has not dropped. See: players")
        play_again(session, Change(back_in=player.number))
        session.say(f"{shown_player(player)} is in again.")

    def take_back_slot(self, text: str) -> None:
        session, event = self.session, self.session.event
        event.read()
        named = words_of_slot(text, event.first_stage) if event.stages else None
        if not named or named[2]:
            raise Declined(TAKE_BACK)
        stage, place, _ = named
        match = event.slot(stage, str(place))
        slot = slot_shown(stage, place, event.first_stage)
        if not match or match.is_open:
            raise Declined(f"{begun(slot)} has no score. See: bracket")
        if any(later.score for matches in event.stages[stage:] for later in matches):
            raise Declined("A match of a later stage has its score already. Take that back first.")
        if not session.lines.says_yes(f"{begun(slot)}: {event.shown(match)}. Take this score back?"):
            raise Declined("Nothing was taken back.")
        self.must_be_so_still(event)
        play_again(session, Change(slot=(stage, place)))
        session.say_filled(begun(session.next_step()))

    # ---- a player who is not there

    def remove(self, rest: str) -> None:
        session = self.session
        if not rest:
            raise Declined("Type a number or a name, as: remove 38")
        player = self.players.found(rest)
        event = session.event
        event.read()
        if player.number not in event.enrolled:
            raise Declined(f"No player has number {player.number}. See: players")
        if event.phase not in (Phase.ENROLLING, Phase.SWISS):
            raise Declined("The playoff has begun, and nobody is removed any more.")
        if any(match.has(player.number) for matches in event.rounds for match in matches):
            raise Declined(f"{shown_player(player)} was paired. Who goes home drops: drop {player.number}")
        if not session.lines.says_yes(f"Remove {shown_player(player)}, as if never enrolled?"):
            raise Declined("Nobody was removed.")
        self.must_be_so_still(event)
        later = max(event.enrolled) - player.number
        play_again(session, Change(removed=player.number))
        session.names.without(player.number)
        session.say(f"{shown_player(player)} is removed.")
        if later:
            moved = f"{player.number + 1} to {player.number + later}"
            session.say(f"Players {moved} have a number less now. See: players")
