"""The page: parts in a template, which escapes each text that it is given."""
from __future__ import annotations

import base64
import hashlib
import os
import time
from dataclasses import dataclass, replace
from functools import lru_cache, partial
from typing import Iterable, Optional

from markupsafe import Markup

from event_companions.beside.clock import Clock
from event_companions.beside.codes import Secret
from event_companions.beside.look import Look
from event_companions.beside.notes import Note, Notes
from event_companions.core.event import Event
from event_companions.core.templates import templates_in
from event_companions.core.wording import ranges
from event_companions.draw.drawn import shut_now
from event_companions.languages import DEFAULT, Say, say_in
from event_companions.languages.marked import text_in
from event_companions.sheets.board import FOOT, HEIGHT, in_columns, layout_of
from event_companions.sheets.colours import DARK, LIGHT, PRINTED, variables
from event_companions.sheets.parts import (
    SLIP_LETTERS,
    Part,
    Reach,
    SlipsFor,
    how_drawn,
    is_close,
    letters_of_slip,
    part_of,
    reach_of,
)

FOLDER = os.path.join(os.path.dirname(os.path.abspath(__file__)), "templates")
TEMPLATES = templates_in(FOLDER)
TEMPLATES.globals.update(
    letters_of_slip=letters_of_slip, layout_of=layout_of, in_columns=in_columns, is_close=is_close
)
# this many tables that still play are named beneath a board
MOST_STILL = 30
# a title of more letters stands in smaller ones, so that the band has room for it
LONG_TITLE = 36
# a board loads itself again so often
SECONDS_TO_RELOAD = 20


@lru_cache(maxsize=None)
def script() -> str:
    """The board's own: the clock counts down, and its parts are shown in turn."""
    with open(os.path.join(FOLDER, "board.js"), encoding="utf-8") as text:
        return text.read()


@lru_cache(maxsize=None)
def policy() -> str:
    """What a board may load: nothing but its own style, its own script by its hash, and pictures inside."""
    # as it stands between the tags, see page.html
    between = f"\n{script()}".encode()
    digest = base64.b64encode(hashlib.sha256(between).digest()).decode()
    return (
        f"default-src 'none'; style-src 'unsafe-inline'; script-src 'sha256-{digest}'; img-src data:; "
        "form-action 'none'; base-uri 'none'"
    )


def parts_of_board(event: Event) -> tuple[str, ...]:
    """What people look for first comes first; slips are for paper."""
    if event.champion:
        return "champion", "bracket", "final"
    if event.stages:
        # nobody looks for a table of the rounds any more
        return "bracket", "standings"
    # before a round is complete they are no more than the list of players
    standings = ("standings",) if event.complete_rounds() else ()
    if shut_now(event):
        # before the throw everybody looks at what the next round is paired by
        return ("draw", *standings, "players")
    return ("draw", "players", "names", "tables", *standings, "bracket")


@dataclass(frozen=True)
class Playing:
    """How far a round is: how many tables have finished, and which still play."""

    finished: int
    still: tuple[int, ...]

    @property
    def tables(self) -> int:
        return self.finished + len(self.still)

    def shown(self, say: Say) -> str:
        if not self.still:
            return say("all_scores")
        finished = say("tables_finished", count=self.finished, tables=self.tables)
        # more than a look has room for is of no use yet
        if len(self.still) > MOST_STILL:
            return finished
        return f"{finished} {say('still_playing', tables=ranges([*self.still]))}"


@dataclass(frozen=True)
class Foot:
    """What stands beneath each part of a board: where phones are served, how far the round is, what comes
    next, and how the round was drawn.
    """

    reach: Optional[Reach] = None
    playing: Optional[Playing] = None
    comes_next: str = ""
    drawn: str = ""


@dataclass(frozen=True)
class Board:
    """What a page for a screen has besides: the clock, and what stands beneath each part."""

    clock: Optional[Clock] = None
    # which round it is
    where: str = ""
    foot: Foot = Foot()
    # what the scorekeeper notes of tables
    notes: tuple[Note, ...] = ()
    # whether it is sent to another machine, whose clock may go otherwise
    is_sent: bool = False

    @property
    def has_foot(self) -> bool:
        return bool(self.foot.reach or self.foot.playing or self.foot.drawn or self.notes)

    @property
    def height(self) -> float:
        """Of a part, in hundredths of the screen's width."""
        return HEIGHT if self.has_foot else HEIGHT + FOOT

    @property
    def nobody_finished(self) -> bool:
        playing = self.foot.playing
        return playing is not None and playing.finished == 0 and bool(playing.still)


def foot_of(event: Event, number: int, secret: Optional[Secret], say: Say) -> Foot:
    if event.stages:
        # in the playoff nobody looks for a table on a phone
        return Foot()
    return Foot(reach_of(secret), playing_in(event), next_of(event, say), how_drawn(event, number, say))


def playing_in(event: Event) -> Optional[Playing]:
    """Of the newest round, until the playoff begins."""
    if not event.rounds or event.stages:
        return None
    matches = [match for match in event.shown_rounds[-1] if not match.is_bye]
    still = tuple(match.place for match in matches if match.is_open)
    return Playing(len(matches) - len(still), still)


def next_of(event: Event, say: Say) -> str:
    """What comes after the round, as far as it is known."""
    plan, number = event.plan, len(event.rounds)
    if not plan or not number or event.stages:
        return ""
    if number < plan.rounds:
        return say("next_round", number=number + 1, rounds=plan.rounds)
    return say("next_playoff", count=plan.cut) if plan.cut else say("last_round")


def notes_of(event: Event) -> tuple[Note, ...]:
    """The notes of the newest round, until the playoff begins."""
    if not event.file or event.stages:
        return ()
    return tuple(Notes(event.file).of_round(len(event.rounds), event.newest()))


def board_of(
    event: Event,
    number: int,
    clock: Optional[Clock],
    secret: Optional[Secret],
    say: Say,
    is_sent: bool = False,
) -> Board:
    """What is beside the parts of the event and of the round of this number."""
    foot = foot_of(event, number, secret, say)
    return Board(clock, where_in(event, number, say), foot, notes_of(event), is_sent)


def where_in(event: Event, number: int, say: Say) -> str:
    plan, is_newest = event.plan, number == len(event.rounds)
    if event.stages and is_newest:
        return say("playoff")
    if not number:
        return ""
    return say("round_of", number=number, rounds=plan.rounds) if plan else say("round_number", number=number)


def parts_for(
    event: Event,
    number: int,
    kinds: Iterable[str],
    slips: SlipsFor = SlipsFor(),
    by_first: bool = False,
    say: Say = say_in(DEFAULT),
) -> list[Part]:
    """The parts of these kinds that there are."""
    return [part for part in (part_of(kind, event, number, slips, by_first, say) for kind in kinds) if part]


def for_board(part: Part) -> Part:
    """Who has never sat at a table stands on paper only, once a round is complete."""
    seen = tuple(row for row in part.standings if row.player.number in part.records)
    return replace(part, standings=seen) if seen else part


def colours_of(look: Look, is_board: bool) -> dict[str, str]:
    """On a board those of the day and of the night, or those that FILE.look chooses."""
    if not is_board:
        return {"colours": variables(PRINTED, look.accent)}
    if look.is_dark is not None:
        five, scheme = (DARK, "dark") if look.is_dark else (LIGHT, "light")
        return {"colours": variables(five, look.accent), "colours_in_the_dark": "", "scheme": scheme}
    by_night = variables(DARK, look.accent)
    return {"colours": variables(LIGHT, look.accent), "colours_in_the_dark": by_night, "scheme": "light dark"}


def rendered(
    parts: list[Part], title: str, number: int, board: Optional[Board] = None, look: Look = Look()
) -> str:
    template = TEMPLATES.get_template("page.html")
    parts = list(map(for_board, parts)) if board else parts
    now = time.time()
    text: str = template.render(
        title=title,
        look=look,
        t=partial(text_in, look.language),
        say=say_in(look.language),
        made_at=time.strftime("%Y-%m-%d %H:%M", time.localtime(now)),
        **colours_of(look, board is not None),
        round=number,
        parts=parts,
        board=board,
        policy=policy() if board else "",
        script=Markup(script()) if board else "",
        now=now,
        seconds=SECONDS_TO_RELOAD,
        slip_letters=SLIP_LETTERS,
        long_title=LONG_TITLE,
    )
    return text


def page_of(
    event: Event,
    title: str,
    number: int,
    kinds: Iterable[str],
    board: Optional[Board] = None,
    slips: SlipsFor = SlipsFor(),
    look: Look = Look(),
) -> str:
    parts = parts_for(event, number, kinds, slips, say=say_in(look.language))
    return rendered(parts, title, number, board, look)
