"""What makes a page of an event: for the command line, and for the prompt."""
from __future__ import annotations

from dataclasses import dataclass, replace
from typing import Callable, Optional, Sequence

from event_companions.beside.clock import kept_clock
from event_companions.beside.codes import kept_secret
from event_companions.beside.look import look_of
from event_companions.beside.title import shown_text, title_of
from event_companions.core.event import Event
from event_companions.core.program import Declined
from event_companions.core.reading import NoRound
from event_companions.languages import say_in
from event_companions.sheets.parts import DEFAULT_PARTS

# what is to be installed
PACKAGE = "sudo apt-get install python3-jinja2"
# why a part that was asked for isn't there
NOTHING = {
    "players": "Once a round is paired, the names stand beside the tables: print names",
    "draw": "Nothing is drawn here. To have dice choose the keys, before the start: draw on",
    "tables": "No round is paired yet, so there are no tables to print. Next: pair",
    "names": "No round is paired yet, so nobody has a table. The players: print players",
    "slips": "No table is open, so there is no slip to print.",
    "standings": "No round is paired yet, so there are no standings to print.",
    "bracket": "The playoff has not begun, so there is no bracket to print. Next: cut",
    "links": "A player's own page needs the phones' address. In a second window, first:\nevent-phones",
    "final": "There is no champion yet. Until then: print standings",
    "champion": "There is no champion yet. The playoff: print bracket",
}


@dataclass(frozen=True)
class Wanted:
    """What a page is to show: parts, or all that there are, of a round, or of the newest one."""

    file: str
    parts: Optional[Sequence[str]] = None
    round: Optional[int] = None
    tables: Optional[frozenset[int]] = None
    players: Optional[frozenset[int]] = None
    title: Optional[str] = None
    # lists by name: by the first name in place of the last
    by_first: bool = False
    # a page for the screen; and a dark one, whatever FILE.look says
    is_board: bool = False
    is_dark: bool = False
    # if nothing is there of what is asked for, it is said
    may_be_empty: bool = True


def number_of(wanted: Wanted, event: Event) -> int:
    """The round that is shown, or 0 before the first one."""
    newest = len(event.rounds)
    if wanted.round is None:
        return newest
    if not 1 <= wanted.round <= newest:
        there = f"Round {wanted.round} is not paired. The newest round is {newest}."
        raise NoRound(there if newest else "No round is paired yet.")
    return wanted.round


def kinds_now(event: Event, names_a_round: bool = False) -> list[str]:
    """The parts of paper that are of use now: no standings before a round is complete, and in the playoff no
    tables of the last round, unless they are asked for by its number.
    """
    has_standings, is_in_rounds = event.complete_rounds() > 0, not event.stages or names_a_round
    of_use = {"standings": has_standings, "tables": is_in_rounds, "names": is_in_rounds}
    return [kind for kind in DEFAULT_PARTS if of_use.get(kind, True)]


def page_maker(wanted: Wanted) -> Callable[[Event], str]:
    """What makes the page of an event as it is. Jinja2 is loaded here, so that all else goes without."""
    from event_companions.sheets.page import board_of, parts_for, parts_of_board, rendered
    from event_companions.sheets.parts import SlipsFor

    file = wanted.file

    def make(event: Event) -> str:
        number = number_of(wanted, event)
        default = parts_of_board(event) if wanted.is_board else kinds_now(event, wanted.round is not None)
        kinds = wanted.parts or default
        if wanted.is_board and "links" in kinds:
            raise Declined("Links are for their players alone, and not for a screen.")
        slips = SlipsFor(wanted.tables, kept_secret(file), wanted.players)
        look = look_of(file)
        say = say_in(look.language)
        parts = parts_for(event, number, kinds, slips, wanted.by_first, say)
        if not parts and not wanted.may_be_empty:
            raise Declined(NOTHING.get(kinds[0], "There is nothing to print yet."))
        title = shown_text(wanted.title) if wanted.title else title_of(file, event.source.turn)
        board = board_of(event, number, kept_clock(file), kept_secret(file), say) if wanted.is_board else None
        return rendered(parts, title, number, board, replace(look, is_dark=True) if wanted.is_dark else look)

    return make
