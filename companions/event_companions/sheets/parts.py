"""What each part of a page shows, as templates take it."""
from __future__ import annotations

from dataclasses import dataclass, field, replace
from typing import Iterable, Optional

from event_companions.beside.codes import TABLE, Secret, shown_code
from event_companions.core.event import Event
from event_companions.core.exports import Ranked, final_ranking
from event_companions.core.lists import Match, Player, Standing, matches_by_player
from event_companions.core.names import Listed, listed
from event_companions.core.records import Record, records_of
from event_companions.core.score import Score
from event_companions.core.stages import slot_said
from event_companions.core.working import is_complete, seen_by
from event_companions.draw.draw import shown_digits
from event_companions.draw.drawn import Shut, drawn_line, lines_below, rule_of_event, shut_now, text_of_round
from event_companions.languages import DEFAULT, Say, say_in
from event_companions.sheets.bracket import Drawing, Tree
from event_companions.sheets.squares import square_of
from event_companions.sheets.widths import size_for

DEFAULT_PARTS = ("players", "draw", "tables", "names", "slips", "standings", "bracket", "final")
PARTS = (*DEFAULT_PARTS, "seats", "links", "champion")
SLIPS_A_SHEET = 5
# the name on a slip: its size in points, and its room in millimetres
SLIP_LETTERS, SLIP_ROOM, SLIP_LINES = 11.5, 66, 2
# the same beside a code, which takes a part of the slip
ROOM_BESIDE_A_CODE = 46
# this many rows fit a page of paper, and this many if they stand close
LOOSE_ROWS, CLOSE_ROWS = 28, 45


@dataclass(frozen=True)
class TableRow:
    table: str
    first: Player
    second: Optional[Player]
    score: Optional[Score]

    @property
    def have_won(self) -> tuple[bool, bool]:
        """Whether the first player has won the match, and whether the second one has."""
        if not self.score or not self.second:
            return False, False
        return self.score.first > self.score.second, self.score.first < self.score.second


@dataclass(frozen=True)
class NameRow:
    """A player in a list by name: under which letter, if it is the first one there, and at which table."""

    player: Player
    name: Listed
    letter: str = ""
    table: str = ""
    opponent: Optional[Player] = None


@dataclass(frozen=True)
class Reach:
    """If phones are served: what is typed, and what is scanned, as SVG, or nothing."""

    address: str
    square: str


def reach_of(secret: Optional[Secret]) -> Optional[Reach]:
    # in capitals it takes a smaller square
    return Reach(secret.shown_address, square_of(secret.at.upper())) if secret else None


@dataclass(frozen=True)
class Code:
    """What a phone hands in by: what it scans, as SVG, or nothing; and what is typed. Of a seat: whose."""

    square: str
    at: str
    table: int
    code: str
    who: str = ""


@dataclass(frozen=True)
class Slip:
    where: str
    table: str
    first: Player
    second: Player
    codes: tuple[Code, ...] = ()

    @property
    def room(self) -> float:
        """For a name, in millimetres."""
        return ROOM_BESIDE_A_CODE if self.codes else SLIP_ROOM


@dataclass(frozen=True)
class OwnPage:
    """A player's own page on a phone: what is scanned, as SVG, or nothing; and what is typed."""

    player: Player
    square: str
    at: str
    code: str


@dataclass(frozen=True)
class SlipsFor:
    """Which tables have slips, which players strips, or all of them; and of which the codes are made, where
    phones hand in.
    """

    tables: Optional[frozenset[int]] = None
    secret: Optional[Secret] = None
    players: Optional[frozenset[int]] = None


@dataclass(frozen=True)
class Champion:
    """Who has won the playoff, by which score of the final, and against whom."""

    player: Player
    score: Score
    against: Player


@dataclass(frozen=True)
class DrawShown:
    """The draw of a round: its number, or what the next one waits for; a text or a mark to be noted."""

    rule: str
    number: str
    lines: tuple[str, ...] = ()
    digits: str = ""
    square: str = ""
    shut: Optional[Shut] = None


@dataclass
class Part:
    """A part of a page: its template, its heading, and what stands in it."""

    kind: str
    what: str = ""
    # what a board says of it beside the round, if that is something else
    label: str = ""
    tables: tuple[TableRow, ...] = ()
    names: tuple[NameRow, ...] = ()
    stacks: tuple[tuple[Slip, ...], ...] = ()
    links: tuple[OwnPage, ...] = ()
    standings: tuple[Standing, ...] = ()
    ranking: tuple[Ranked, ...] = ()
    drawing: Optional[Drawing] = None
    champion: Optional[Champion] = None
    # how the round was drawn, beneath the heading on paper
    drawn: str = ""
    draw: Optional[DrawShown] = None
    # what stands beside names, by the players' numbers, once a round is complete
    records: dict[int, Record] = field(default_factory=dict)
    # where players find their table on a phone
    reach: Optional[Reach] = None
    # the number of the player who is the last one to go on to the playoff, or 0
    last_in: int = 0


def is_close(part: Part) -> bool:
    """Whether the rows of a list stand close to each other, so that it fits one page of paper."""
    rows = max(map(len, (part.tables, part.names, part.standings, part.ranking)))
    return LOOSE_ROWS < rows <= CLOSE_ROWS


def records_before(event: Event, number: int) -> dict[int, Record]:
    """The records with which players go into a round."""
    has_any = any(map(is_complete, event.rounds[: number - 1]))
    return records_of(event.rounds[:number], number - 1) if has_any else {}


def name_rows(players: Iterable[Player], by_first: bool) -> list[NameRow]:
    """By the last name, or by the first one."""
    rows = [NameRow(it, Listed(it.name) if by_first else listed(it.name, it.last)) for it in players]
    rows.sort(key=lambda row: row.name.key)
    letters = ["", *(row.name.letter for row in rows)]
    return [
        replace(row, letter=row.name.letter if row.name.letter != before else "")
        for row, before in zip(rows, letters)
    ]


def how_drawn(event: Event, number: int, say: Say) -> str:
    """How the key of the round came about; before the first one, how rounds are drawn."""
    if number:
        return drawn_line(event, number, say)
    rule = rule_of_event(event.file) if event.file else None
    return "" if not rule or rule.is_off else say("rounds_are_drawn", rule=rule.text)


def players_part(event: Event, by_first: bool, say: Say) -> Part:
    rows = tuple(name_rows(event.players.values(), by_first))
    return Part("players", say("players_count", count=len(rows)), names=rows, drawn=how_drawn(event, 0, say))


def draw_part(event: Event, number: int, say: Say) -> Optional[Part]:
    """The draw of the round that is shown; once the lists of the next one are shut, theirs."""
    rule = rule_of_event(event.file) if event.file else None
    if not rule:
        return None
    shut = shut_now(event) if number == len(event.rounds) else None
    if shut:
        lines = (rule.throw_in(say), say("tables_follow"))
        shown = DrawShown(rule.text, shut.number, lines, shut.mark, square_of(shut.mark), shut)
        return Part("draw", say("before_the_throw", number=shut.round), draw=shown)
    if not number:
        shown = DrawShown(rule.text, "", (rule.throw_in(say),))
        return None if rule.is_off else Part("draw", say("draw"), draw=shown)
    text, what = text_of_round(event, number), say("round_draw", number=number)
    if not text:
        return Part("draw", what, draw=DrawShown(rule.text, ""))
    square = square_of(text.data, error="l")
    found, by = (text.number, rule.drawn_by) if text.is_drawn else ("", rule.text)
    shown = DrawShown(by, found, lines_below(text, event, say), shown_digits(text.sum), square)
    return Part("draw", what, draw=shown)


def table_of(match: Match, say: Say) -> str:
    return say("bye_at_table") if match.is_bye else str(match.place)


def table_row(event: Event, match: Match, say: Say) -> TableRow:
    second = None if match.is_bye else event.players[match.second]
    return TableRow(table_of(match, say), event.players[match.first], second, match.score)


def tables_part(event: Event, number: int, say: Say) -> Part:
    rows = tuple(table_row(event, match, say) for match in event.shown_rounds[number - 1])
    records = records_before(event, number)
    drawn = how_drawn(event, number, say)
    what, label = say("by_table", number=number), say("pairings_by_table")
    return Part("tables", what, label, tables=rows, drawn=drawn, records=records)


def seated(event: Event, row: NameRow, match: Match, say: Say) -> NameRow:
    opponent = event.players.get(match.opponent_of(row.player.number))
    return replace(row, table=table_of(match, say), opponent=opponent)


def names_part(event: Event, number: int, by_first: bool, reach: Optional[Reach], say: Say) -> Part:
    matches = matches_by_player(event.rounds[number - 1])
    who_sits = (player for player in event.players.values() if player.number in matches)
    rows = [seated(event, row, matches[row.player.number], say) for row in name_rows(who_sits, by_first)]
    records = records_before(event, number)
    drawn = how_drawn(event, number, say)
    what = say("by_name", number=number)
    label = say("pairings_by_first_name" if by_first else "pairings_by_last_name")
    return Part("names", what, label, names=tuple(rows), drawn=drawn, records=records, reach=reach)


def codes_of(number: int, match: Match, secret: Secret, say: Say) -> tuple[Code, ...]:
    """One for the table, or one for each seat. Seats are named by their players' numbers."""
    found = []
    for seat in secret.seats:
        who = "" if seat == TABLE else say("player_number", number=(match.first, match.second)[seat - 1])
        square = square_of(secret.scanned(secret.target(number, match, seat)))
        code = shown_code(secret.code(number, match, seat))
        found.append(Code(square, secret.shown_address, match.place, code, who))
    return tuple(found)


def slips_of(event: Event, number: int, wanted: SlipsFor, say: Say) -> list[Slip]:
    """A slip for each match that has no score: of the round, and of the playoff."""
    players = event.players
    matches = event.shown_rounds[number - 1] if number else []
    is_newest, secret = number == len(event.rounds), wanted.secret
    slips = [
        Slip(
            say("round_number", number=number),
            say("table_number", number=match.place),
            players[match.first],
            players[match.second],
            codes_of(number, match, secret, say) if secret and is_newest else (),
        )
        for match in matches
        if match.is_open and (wanted.tables is None or match.place in wanted.tables)
    ]
    for stage, matches in enumerate(event.stages, 1):
        slips += [
            Slip(
                say("playoff"),
                slot_said(stage, match.place, event.first_stage, say),
                players[match.first],
                players[match.second],
            )
            for match in matches
            if match.is_open and wanted.tables is None
        ]
    return slips


def stacks_of(slips: list[Slip]) -> tuple[tuple[Slip, ...], ...]:
    """The slips by sheets of paper, so that the sheets are cut as one stack, and its piles lie in order one
    upon the other.
    """
    sheets = -(-len(slips) // SLIPS_A_SHEET)
    return tuple(tuple(slips[sheet::sheets]) for sheet in range(sheets))


def letters_of_slip(name: str, room: float = SLIP_ROOM) -> float:
    """The size at which the name takes two lines at most."""
    return size_for(name, SLIP_LETTERS, room, SLIP_LINES)


def seats_part(event: Event, by_first: bool, reach: Optional[Reach], say: Say) -> Part:
    """Where each player sits at the players' meeting: two at a table, by name."""
    players = players_part(event, by_first, say)
    rows = tuple(replace(row, table=str(at // 2 + 1)) for at, row in enumerate(players.names))
    return Part("seats", say("seats"), names=rows, drawn=players.drawn, reach=reach)


def own_page(player: Player, enrolled: Player, secret: Secret) -> OwnPage:
    """The code is made of the name that the program has, and the shown one stands beside it."""
    target = secret.link(enrolled)
    at = f"{secret.shown_address}/p/{player.number}/"
    return OwnPage(player, square_of(secret.scanned(target)), at, shown_code(secret.link_code(enrolled)))


def links_part(event: Event, wanted: SlipsFor, by_first: bool, say: Say) -> Optional[Part]:
    """A strip for each player, to be handed out: whoever has it hands in as this player."""
    secret = wanted.secret
    listed_so = [row.player for row in name_rows(event.players.values(), by_first)]
    players = [it for it in listed_so if wanted.players is None or it.number in wanted.players]
    if not secret or not players:
        return None
    links = tuple(own_page(it, event.enrolled[it.number], secret) for it in players)
    return Part("links", say("own_pages"), links=links)


def standings_part(event: Event, say: Say) -> Part:
    complete = event.complete_rounds()
    records = records_of(event.rounds) if complete else {}
    what = say("after_round", number=complete)
    standings = tuple(event.standings)
    return Part("standings", what, standings=standings, records=records, last_in=last_in(event))


def last_in(event: Event) -> int:
    """Of those who go on as the standings are, or who went on."""
    went_on = matches_by_player(event.stages[0]) if event.stages else None
    ranked = [it.player for it in event.standings]
    goes_on = [it for it in ranked if (it.number in went_on if went_on else not it.has_dropped)]
    count = len(went_on) if went_on else event.plan.cut if event.plan else 0
    return goes_on[count - 1].number if 0 < count < len(goes_on) or went_on else 0


def bracket_part(event: Event, say: Say) -> Optional[Part]:
    if not event.stages:
        return None
    return Part("bracket", say("playoff"), say("bracket"), drawing=Tree(event, say).drawn())


def final_part(event: Event, say: Say) -> Optional[Part]:
    ranking = tuple(final_ranking(event))
    if not ranking:
        return None
    return Part("final", say("final_ranking"), ranking=ranking, records=records_of(event.rounds))


def champion_part(event: Event, say: Say) -> Optional[Part]:
    """The champion, and how the final ended."""
    champion = event.champion
    if not champion:
        return None
    (final,) = event.stages[-1]
    won = seen_by(final, champion.number)
    against = event.players[final.opponent_of(champion.number)]
    return Part("champion", say("champion"), champion=Champion(champion, won, against))


def part_of(
    kind: str,
    event: Event,
    number: int,
    wanted: SlipsFor = SlipsFor(),
    by_first: bool = False,
    say: Say = say_in(DEFAULT),
) -> Optional[Part]:
    """A part of the event and of the round of this number, or nothing if there is nothing for it."""
    if kind == "players":
        return None if event.rounds else players_part(event, by_first, say)
    if kind == "draw":
        return draw_part(event, number, say)
    if kind == "tables":
        return tables_part(event, number, say) if number else None
    if kind == "names":
        return names_part(event, number, by_first, reach_of(wanted.secret), say) if number else None
    if kind == "slips":
        slips = slips_of(event, number, wanted, say)
        return Part("slips", say("result_slips"), stacks=stacks_of(slips)) if slips else None
    if kind == "seats":
        return seats_part(event, by_first, reach_of(wanted.secret), say)
    if kind == "links":
        return links_part(event, wanted, by_first, say)
    if kind == "standings":
        return standings_part(event, say) if event.rounds else None
    if kind == "final":
        return final_part(event, say)
    if kind == "champion":
        return champion_part(event, say)
    return bracket_part(event, say)
