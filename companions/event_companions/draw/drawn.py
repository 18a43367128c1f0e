"""What pages show of the draw: the rule, the lists that are shut before the throw, and each round as it was
drawn.
"""
from __future__ import annotations

from dataclasses import dataclass
from typing import Optional

from event_companions.core.event import Event, shown_player
from event_companions.core.lists import Player, players_of
from event_companions.core.names import begun
from event_companions.core.program import Declined
from event_companions.draw.draw import NONE, DrawText, Rule, shown_digits
from event_companions.draw.draws import Draws
from event_companions.languages import Say


@dataclass(frozen=True)
class Shut:
    """The next round, whose lists are shut: which drawing it is, who plays, and who is out or new since."""

    round: int
    drawing: int
    mark: str
    data: bytes
    playing: int
    out: tuple[Player, ...]
    new: tuple[Player, ...]
    # the round's number, if it has one already
    number: str = ""


def rule_of_event(file: str) -> Optional[Rule]:
    """The rule of the evening, or None if there is none, or none that can be read."""
    try:
        return Draws(file).rule
    except Declined:
        return None


def text_of_round(event: Event, number: int) -> Optional[DrawText]:
    """The text of a round that is stored, or None if it was not drawn."""
    if not event.file or not 1 <= number <= len(event.rounds):
        return None
    return Draws(event.file).text_of_round(number, event.rounds[number - 1])


def shut_now(event: Event) -> Optional[Shut]:
    """The next round, while its lists are shut and nothing is paired."""
    rule = rule_of_event(event.file) if event.file else None
    if not rule or rule.is_off or event.stages:
        return None
    draws, number = Draws(event.file), len(event.rounds) + 1
    drawing = draws.is_open(number)
    lists = draws.shut(number, drawing)
    if not lists:
        return None
    players = players_of(lists.players.decode())
    named = [event.players.get(it.number, it) for it in players.values() if not it.has_dropped]
    sat = {it for match in event.newest() for it in (match.first, match.second) if it}
    out = [event.players.get(it, players[it]) for it in sorted(sat) if players[it].has_dropped]
    new = [it for it in named if sat and it.number not in sat]
    kept = draws.numbers(number)
    shown = kept[-1].number if kept else ""
    return Shut(number, drawing, lists.mark, lists.data, len(named), tuple(out), tuple(new), shown)


def drawn_shown(text: Optional[DrawText], say: Say) -> str:
    """How a round was drawn, in a line."""
    if not text:
        return say("key_chosen")
    found = ["by_number" if text.is_drawn else "key_chosen"]
    found += ["instead_of"] * (text.instead != NONE) + ["drawn_times"] * (text.drawing > 1) + ["text_digits"]
    words = {"number": text.number, "numbers": text.instead, "count": text.drawing}
    return ", ".join(say(key, **words, digits=shown_digits(text.sum)) for key in found)


def drawn_line(event: Event, number: int, say: Say) -> str:
    """A line beneath a heading of the round: how its key came about."""
    return drawn_shown(text_of_round(event, number), say) if event.file and number else ""


def lines_below(text: DrawText, event: Event, say: Say) -> tuple[str, ...]:
    """What stands besides of a round that was drawn."""
    found = [begun(say("drawn_times", count=text.drawing))] if text.drawing > 1 else []
    if text.instead != NONE:
        found.append(begun(say("instead_of", numbers=text.instead)))
    if text.by != NONE:
        players = [event.players[int(it)] for it in text.by.split(" ") if int(it) in event.players]
        found.append(say("thrown_by", names=", ".join(map(shown_player, players))))
    return tuple(found)
