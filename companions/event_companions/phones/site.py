"""What the phones see. It never sends the program anything but a result."""
from __future__ import annotations

import re
import sys
import threading
import time
from dataclasses import dataclass, replace
from email.utils import formatdate
from typing import Any, Callable, Hashable, Optional

from event_companions.beside.clock import Clock
from event_companions.beside.codes import FIRST_SEAT, SECOND_SEAT, TABLE, Secret
from event_companions.beside.entries import Entries, NotEntered
from event_companions.beside.reports import (
    CALLS,
    CALLS_OFF,
    HOME,
    NO_SCORE,
    OTHER,
    SAME,
    STAYS,
    STORED,
    TIME,
    WAITS,
    WRONG,
    Full,
    Report,
    Reports,
    going_home,
    half_said,
    judge_call,
)
from event_companions.core.event import Event
from event_companions.core.handing_in import Answer
from event_companions.core.lists import Match, Player
from event_companions.core.names import found_by
from event_companions.core.program import Refusal
from event_companions.core.records import records_now
from event_companions.core.rosters import tidy
from event_companions.core.score import Score
from event_companions.core.stages import HEADINGS, slot_said, stage_name
from event_companions.core.working import part_shown, share_shown, working_of
from event_companions.draw.drawn import drawn_shown, rule_of_event, shut_now, text_of_round
from event_companions.draw.draws import Draws
from event_companions.languages import Say, plain_in, say_in
from event_companions.languages.marked import named, text_in
from event_companions.phones.asked import Asked, Environ, Pages, Settled, score_in, score_of
from event_companions.phones.at_table import AtTable, Link, Typed, drops_in, link_in, said_in, typed_in
from event_companions.phones.cache import EventCache, Snapshot
from event_companions.phones.kept_pages import KeptPages, Shown
from event_companions.phones.limits import Crowded, DelayQueues, OriginBuckets, TokenBuckets, origin_of
from event_companions.phones.me import in_playoff_of, me_of
from event_companions.phones.pages import (
    Reply,
    rendered,
    style_reply,
    tag_of,
)
from event_companions.phones.score_queue import NotNow, ScoreQueue
from event_companions.sheets.parts import records_before

MOST_FOUND = 20
# a page on which nothing is entered loads itself again
SECONDS_TO_RELOAD = 20
# this many at once, and then one in this many seconds: requests of an address without the right code, the board
# among them, which is long; wrong codes of an address; what is asked at a table with its code; and scores
# handed in there
REQUESTS_OF_ONE = 120, 0.1
BOARDS_OF_ONE = 20, 2.0
WRONG_CODES = 20, 3.0
REQUESTS_OF_A_TABLE = 60, 1.0
SCORES_OF_A_TABLE = 8, 10.0
# names that an address enters
NAMES_OF_ONE = 5, 60.0
# more wrong codes of an address are answered one after the other, so far apart; this many wait, and of all
# addresses this many, since each that waits takes a thread
SECONDS_BETWEEN_CODES, MOST_WITH_CODES, MOST_WITH_CODES_IN_ALL = 0.1, 8, 32


# what goes wrong with FILE.reports, among the troubles
REPORTS = "reports"
# and with FILE.entries
ENTRIES = "entries"


@dataclass(frozen=True)
class NamedScore:
    """A score as a page shows it, beside the two names."""

    first: Player
    second: Player
    games: Score


@dataclass(frozen=True)
class Row:
    table: str
    player: Player
    opponent: Optional[Player]


@dataclass(frozen=True)
class NamedMatch:
    """A match of the playoff."""

    first: Player
    second: Player
    score: Optional[Score]


@dataclass(frozen=True)
class StageShown:
    """A stage of the playoff with its matches, or the champion."""

    heading: str
    matches: tuple[NamedMatch, ...]
    champion: Optional[Player] = None


@dataclass(frozen=True)
class DrawRow:
    """A text that can be read: of which round and drawing, and what is said of it."""

    round: int
    drawing: int
    shown: str


class Site(Pages):
    def __init__(
        self,
        cache: EventCache,
        reports: Reports,
        secret: Secret,
        hosts: set[str],
        queue: ScoreQueue,
        share: float = 1.0,
    ):
        """Share: how many phones stand behind one address, beside one guest alone."""
        super().__init__(hosts, secret.at)
        self.cache, self.reports, self.secret, self.queue = cache, reports, secret, queue
        most, seconds = REQUESTS_OF_ONE
        self.requests = OriginBuckets(most * share, seconds / share)
        self.wrong = OriginBuckets(*WRONG_CODES)
        self.at_tables = TokenBuckets(*REQUESTS_OF_A_TABLE)
        self.handed = TokenBuckets(*SCORES_OF_A_TABLE)
        self.entries = Entries(cache.file)
        self.entering = OriginBuckets(NAMES_OF_ONE[0] * share, NAMES_OF_ONE[1] / share)
        self.delays = DelayQueues(SECONDS_BETWEEN_CODES, MOST_WITH_CODES, MOST_WITH_CODES_IN_ALL)
        # one seat says its score at a time, so that of two who say the same one comes second
        self.saying = threading.Lock()
        self.wrong_codes = 0
        self.kept = KeptPages()
        # of each player's own page what it showed last, and its tag
        self.own_pages: dict[Hashable, tuple[Hashable, str]] = {}
        self.boards = OriginBuckets(BOARDS_OF_ONE[0] * share, BOARDS_OF_ONE[1] / share)
        self.lists: dict[str, Callable[[Snapshot, str], bytes]] = {
            "/pairings": self.pairings,
            "/standings": self.standings,
            "/draw": self.draw,
            "/board": self.board,
        }

    @property
    def room_language(self) -> str:
        return self.cache.now.look.language

    def admit(self, environ: Environ, language: str) -> None:
        """With a right code requests are counted by table or player, and all others by address."""
        path = environ.get("PATH_INFO", "")
        typed, link = typed_in(path), link_in(path)
        if typed and self.seat_at(self.cache.now, typed) is not None:
            is_admitted = self.at_tables.take((typed.round, typed.table))
        elif link and self.player_of(self.cache.now, link):
            is_admitted = self.at_tables.take(link.number)
        else:
            is_admitted = self.requests.take(origin_of(environ.get("REMOTE_ADDR", "")))
        if not is_admitted:
            raise Settled(self.told(429, language, "slower"))

    def reply(self, asked: Asked) -> Reply:
        typed = typed_in(asked.path)
        if typed:
            return self.with_code(asked, typed)
        link = link_in(asked.path)
        if link:
            return self.with_link(asked, link)
        if asked.path == "/style.css" and asked.method != "POST":
            return style_reply()
        if asked.path == "/":
            return self.typed(asked) if asked.method == "POST" else self.start(asked)
        if asked.path == "/enter":
            return self.enter(asked)
        if asked.path in self.lists and asked.method != "POST":
            return self.list(asked)
        text = re.fullmatch(r"/draw/(next|[0-9]{1,2}(?:/[0-9]{1,4})?)", asked.path)
        if text and asked.method != "POST":
            return self.draw_text(asked, text[1])
        who = re.fullmatch("/who/([0-9]{1,3})", asked.path)
        if who and asked.method != "POST":
            return self.who(asked, int(who[1]))
        return self.told(404, asked.language, "no_page")

    # ---- the start, and lists

    def heading(self, language: str) -> object:
        snapshot = self.cache.now
        event = named(snapshot.title)
        if snapshot.event.stages:
            return text_in(language, "playoff_of", event=event)
        return text_in(language, "round", event=event, number=snapshot.number) if snapshot.number else event

    def clock(self, language: str) -> str:
        return clock_shown(self.cache.clock, time.time(), language)

    def page(self, name: str, language: str, status: int = 200, **words: object) -> Reply:
        shown = {"heading": self.heading(language), "clock": self.clock(language), "me": "", **words}
        return Reply(status, rendered(name, language, **shown))

    def start(self, asked: Asked, is_wrong: bool = False) -> Reply:
        snapshot = self.cache.now
        wanted = asked.query.get("q", "").strip()[:60]
        found = found_by(wanted, snapshot.by_name, lambda player: player.name) if wanted else []
        rows = [row_of(snapshot, player, say_in(asked.language)) for player in found[:MOST_FOUND]]
        return self.page(
            "start.html",
            asked.language,
            404 if is_wrong else 200,
            wanted=wanted,
            rows=rows,
            more=len(found) - len(rows),
            is_wrong=is_wrong,
            may_enter=self.entries.is_on,
            is_playoff=bool(snapshot.event.stages),
        )

    # ---- names before they are enrolled

    def enter(self, asked: Asked) -> Reply:
        """A name for the scorekeeper, who enrols the player or doesn't."""
        if not self.entries.is_on:
            return self.told(409, asked.language, "entering_is_off")
        if asked.method != "POST":
            return self.page("enter.html", asked.language, is_done=asked.query.get("done") == "1", fault="")
        if not self.entering.take(asked.origin):
            raise Settled(self.told(429, asked.language, "too_many_names"))
        try:
            self.entries.add(tidy(asked.form.get("name", "")), asked.origin)
        except NotEntered as fault:
            return self.page("enter.html", asked.language, 409, is_done=False, fault=fault.key)
        except OSError as fault:
            self.cache.troubles.tell(ENTRIES, f"{self.entries.path} can't be written: {fault.strerror}.")
            return self.told(503, asked.language, "list_is_full")
        self.cache.troubles.over(ENTRIES)
        return Reply(303, b"", [("Location", "/enter?done=1")])

    def list(self, asked: Asked) -> Reply:
        """A page that is the same for all, and that one thread makes for them."""
        path, language = asked.path, asked.language
        is_board = path == "/board"
        if is_board and not self.boards.take(asked.origin):
            raise Settled(self.told(429, language, "slower"))

        def shown() -> Shown:
            snapshot = self.cache.now
            clock = self.cache.clock if is_board else self.clock(language)
            return Shown(snapshot.pairing, (snapshot.version, clock))

        name = (path, self.room_language if is_board else language)
        kept = self.kept.page(name, shown, lambda: self.lists[path](self.cache.now, language))
        reply = Reply(200, kept.body, gzipped=kept.gzipped)
        return self.as_board(reply) if is_board else reply

    def as_board(self, reply: Reply) -> Reply:
        """It has a script, which takes from the head what time it is here."""
        from event_companions.sheets.page import policy

        sent_at = formatdate(time.time(), usegmt=True)
        return replace(
            reply,
            policy=f"{policy()}; frame-ancestors 'none'",
            more=[("Last-Modified", sent_at), ("Cache-Control", "no-store")],
        )

    def pairings(self, snapshot: Snapshot, language: str) -> bytes:
        say = say_in(language)
        if snapshot.event.stages:
            return self.page("playoff.html", language, stages=stages_shown(snapshot.event, say)).body
        rows = [row_of(snapshot, it, say) for it in snapshot.by_name if it.number in snapshot.matches]
        text = text_of_round(snapshot.event, snapshot.number)
        has_draw = rule_of_event(self.cache.file) is not None
        drawn = drawn_shown(text, say_in(language)) if rows else ""
        records = records_before(snapshot.event, snapshot.number)
        return self.page(
            "pairings.html", language, rows=rows, drawn=drawn, has_draw=has_draw, records=records
        ).body

    def who(self, asked: Asked, number: int) -> Reply:
        """A player's own page: how the tiebreakers come about."""
        event = self.cache.now.event
        if number not in event.players:
            return self.told(404, asked.language, "no_page")
        return self.page(
            "who.html",
            asked.language,
            player=event.players[number],
            working=working_of(event, number),
            part=part_shown,
            share=share_shown,
        )

    # ---- the draw

    def draw(self, snapshot: Snapshot, language: str) -> bytes:
        """The rule, what the next round waits for, and the text of each round that was drawn."""
        rule, texts = rule_of_event(self.cache.file), Draws(self.cache.file).texts()
        rows = [DrawRow(text.round, text.drawing, drawn_shown(text, say_in(language))) for text in texts]
        shown = "" if not rule or rule.is_off else rule.text
        # who is whom is to be seen before the first throw
        players = [] if snapshot.number or not shown else snapshot.by_name
        shut = shut_now(snapshot.event)
        return self.page("draw.html", language, rule=shown, rows=rows, players=players, shut=shut).body

    def draw_text(self, asked: Asked, wanted: str) -> Reply:
        """A text as it was written, for whoever checks it; or the lists that are shut for the next round."""
        if wanted == "next":
            shut = shut_now(self.cache.now.event)
            head = f"round {shut.round}\ndrawing {shut.drawing}\nmark {shut.mark}\n" if shut else ""
            data = head.encode() + shut.data if shut else b""
        else:
            number, _, drawing = wanted.partition("/")
            texts = [text for text in Draws(self.cache.file).texts() if text.round == int(number)]
            texts = [text for text in texts if not drawing or text.drawing == int(drawing)]
            data = texts[-1].data if texts else b""
        if not data:
            return self.told(404, asked.language, "no_page")
        return Reply(200, data, kind="text/plain; charset=utf-8")

    def standings(self, snapshot: Snapshot, language: str) -> bytes:
        number = snapshot.event.complete_rounds()
        rows, records = snapshot.standings, records_now(snapshot.event)
        return self.page("standings.html", language, rows=rows, number=number, records=records).body

    def board(self, snapshot: Snapshot, _language: str) -> bytes:
        """The board of the sheets, as `event-sheets --board` has it."""
        from event_companions.sheets.page import board_of, page_of, parts_of_board

        event = snapshot.event
        say = say_in(snapshot.look.language)
        board = board_of(event, snapshot.number, self.cache.clock, self.secret, say, is_sent=True)
        kinds, look = parts_of_board(event), snapshot.look
        return page_of(event, snapshot.title, snapshot.number, kinds, board, look=look).encode("utf-8")

    # ---- codes

    def typed(self, asked: Asked) -> Reply:
        """Table and code, as they were typed: on to the table's page, if they belong together."""
        table, code = asked.form.get("table", "").strip(), asked.form.get("code", "")
        number = self.cache.now.number
        is_number = re.fullmatch("[0-9]{1,3}", table)
        found = self.found(asked, Typed(number, int(table) if is_number else 0, code))
        return Reply(303, b"", [("Location", found.target)]) if found else self.start_wrong(asked)

    def start_wrong(self, asked: Asked) -> Reply:
        return self.start(replace(asked, query={}), is_wrong=True)

    def seat_at(self, snapshot: Snapshot, typed: Typed) -> Optional[int]:
        """Whose code it is, or None."""
        match = snapshot.match(typed.round, typed.table) if typed.round else None
        return self.secret.seat_of(typed.round, match, typed.code) if match else None

    def found(self, asked: Asked, typed: Typed) -> Optional[AtTable]:
        """Whose code it is, or None. A right one is answered at once, whatever else its address sends."""
        snapshot = self.cache.now
        seat, number = self.seat_at(snapshot, typed), typed.round
        match = snapshot.match(number, typed.table) if number else None
        if match is None or seat is None:
            self.wrong_code(asked)
            return None
        target = self.secret.target(number, match, seat)
        return AtTable(asked, snapshot, number, match, seat, target, self.going(snapshot, number, match))

    def going(self, snapshot: Snapshot, number: int, match: Match) -> tuple[Player, ...]:
        found = going_home(self.reports, number, snapshot.players)
        return tuple(it.player for it in found if match.has(it.player.number))

    def wrong_code(self, asked: Asked) -> None:
        """An address with many of them waits for its answer, or gets none but that there were too many."""
        self.wrong_codes += 1
        if self.wrong.take(asked.origin):
            return
        try:
            with self.delays.entered(asked.origin):
                pass
        except Crowded:
            raise Settled(self.told(429, asked.language, "too_many_codes")) from None

    def with_code(self, asked: Asked, typed: Typed) -> Reply:
        at = self.found(asked, typed)
        if not at:
            return self.start_wrong(asked)
        return self.hand_in(at) if asked.method == "POST" else self.table(at)

    # ---- a player's own page

    def player_of(self, snapshot: Snapshot, link: Link) -> Optional[Player]:
        """Whose link it is, or None. The name is the one that the program has."""
        player = snapshot.event.enrolled.get(link.number)
        return player if player and self.secret.is_link(player, link.code) else None

    def with_link(self, asked: Asked, link: Link) -> Reply:
        snapshot = self.cache.now
        player = self.player_of(snapshot, link)
        if not player:
            self.wrong_code(asked)
            return self.start_wrong(asked)
        if not link.place:
            is_asked = asked.method != "POST"
            return self.me(asked, player) if is_asked else self.told(404, asked.language, "no_page")
        number, table, *seats = link.place
        match = snapshot.match(number, table)
        if not match or [match.first, match.second] != seats or not match.has(player.number):
            return Reply(303, b"", [("Location", f"{self.secret.link(player)}?moved=1")])
        at = self.own_table(asked, snapshot, player, number, match)
        return self.hand_in(at) if asked.method == "POST" else self.table(at)

    def own_table(
        self, asked: Asked, snapshot: Snapshot, player: Player, number: int, match: Match
    ) -> AtTable:
        """The player's match of a round, as a table whose code speaks for this seat."""
        me = self.secret.link(player)
        seat = FIRST_SEAT if match.first == player.number else SECOND_SEAT
        target = f"{me}/{number}-{match.place}-{match.first}-{match.second}"
        return AtTable(asked, snapshot, number, match, seat, target, self.going(snapshot, number, match), me)

    def me(self, asked: Asked, player: Player) -> Reply:
        snapshot = self.cache.now
        is_still, is_moved = (asked.query.get(name) == "1" for name in ("still", "moved"))
        name = player.number, asked.language, is_still, is_moved
        shown = snapshot.version, self.clock(asked.language), self.reports.count
        kept = self.own_pages.get(name)
        if kept == (shown, asked.tag):
            # what it shows is what the phone has, so that it is not made again
            return Reply(200, tag=asked.tag)
        reply = self.own_page(asked, snapshot, player, is_still, is_moved)
        self.own_pages[name] = shown, reply.tag
        return reply

    def own_page(
        self, asked: Asked, snapshot: Snapshot, player: Player, is_still: bool, is_moved: bool
    ) -> Reply:
        me = me_of(snapshot, player.number)
        words: dict[str, Any] = {"me": self.secret.link(player), "own": me, "is_moved": is_moved}
        words["records"] = records_now(snapshot.event)
        words.update(slot_said=slot_said, stage_name=stage_name, first=snapshot.event.first_stage)
        words.update(seconds=0 if is_still else SECONDS_TO_RELOAD, is_still=is_still)
        words.update(at=None, state="", call=None)
        if me.match and not me.match.is_bye and not me.is_playoff:
            at = self.own_table(asked, snapshot, player, snapshot.number, me.match)
            call = judge_call(self.reports, at.number, at.match)
            words.update(at=at, call=call, **self.state_of(at))
        return self.reloaded(self.page("me.html", asked.language, **words))

    def state_of(self, at: AtTable) -> dict[str, Any]:
        """What the player is shown of his match, and what goes with it."""
        if at.match.score:
            return {"state": "stored", "score": self.with_names(at, at.match.score)}
        said = half_said(self.reports, at.number, at.match) if self.secret.asks_both else {}
        if at.seat in said:
            return {"state": "waits", **self.half_words(at, said)}
        return {"state": "open", **self.both(at)}

    def both(self, at: AtTable) -> dict[str, Player]:
        """The two players, as the buttons for scores name them."""
        players = at.snapshot.players
        return {"first": players[at.match.first], "second": players[at.match.second]}

    def reloaded(self, reply: Reply) -> Reply:
        """A page that reloads itself: what has not changed is said in a hundred bytes."""
        return replace(reply, tag=tag_of(reply.body))

    # ---- a table

    def shown(self, at: AtTable, name: str, status: int = 200, **words: object) -> Reply:
        words = {"at": at, "target": at.target, "table": at.match.place, "you": at.you, "me": at.me, **words}
        return self.page(name, at.asked.language, status, **words)

    def shown_again(self, at: AtTable, name: str, **words: Any) -> Reply:
        """A page on which nothing is entered: it goes on by itself to what comes next."""
        reply = self.shown(at, name, seconds=SECONDS_TO_RELOAD, **words)
        return self.reloaded(reply) if at.me else reply

    def with_names(self, at: AtTable, score: Score) -> NamedScore:
        players = at.snapshot.players
        return NamedScore(players[at.match.first], players[at.match.second], score)

    def table(self, at: AtTable) -> Reply:
        query, match = at.asked.query, at.match
        if at.number < at.snapshot.number and match.score:
            if at.me and "said" not in query:
                return Reply(303, b"", [("Location", at.me)])
            snapshot = at.snapshot
            say = say_in(at.asked.language)
            rows = [row_of(snapshot, snapshot.players[number], say) for number in at.seats]
            return self.shown_again(at, "over.html", score=self.with_names(at, match.score), rows=rows)
        is_wrong = query.get("wrong") == "1"
        score = score_in(query)
        if not score and ("x" in query or "s" in query):
            return self.told(400, at.asked.language, "not_understood")
        # a browser that goes back asks whether to hand in what is in already
        if match.score and not is_wrong and score in (None, match.score):
            return self.stored(at, match.score)
        said = half_said(self.reports, at.number, match) if self.asks_both(at) else {}
        if at.seat in said and not is_wrong and score in (None, said[at.seat].score):
            return self.waits(at, said)
        return self.look_once_more(at, score) if score else self.buttons(at, is_wrong)

    def buttons(self, at: AtTable, is_wrong: bool = False, no_match: bool = False) -> Reply:
        outcomes = {report.outcome for report in self.reports.of_match(at.number, at.match)}
        return self.shown(
            at,
            "table.html",
            409 if no_match else 200,
            is_wrong=is_wrong,
            is_told=WRONG in outcomes,
            no_match=no_match,
            **self.both(at),
        )

    def look_once_more(self, at: AtTable, score: Score, is_late: bool = False) -> Reply:
        back = at.target + ("?wrong=1" if at.match.score or at.seat else "")
        stored = self.with_names(at, at.match.score) if at.match.score else None
        words = {"score": self.with_names(at, score), "stored": stored, "back": back, "is_late": is_late}
        return self.shown(at, "look.html", 503 if is_late else 200, **words)

    def stored(self, at: AtTable, score: Score) -> Reply:
        said = score_of(at.asked.query.get("said", ""))
        other = self.with_names(at, said) if said and said != score else None
        return self.shown_again(at, "stored.html", score=self.with_names(at, score), said=other)

    def waits(self, at: AtTable, said: dict[int, Report]) -> Reply:
        """If both have to say it: what this seat said, and the other one if that differs."""
        return self.shown_again(at, "waits.html", **self.half_words(at, said))

    def half_words(self, at: AtTable, said: dict[int, Report]) -> dict[str, Any]:
        mine, other = said[at.seat], said.get(SECOND_SEAT if at.seat == FIRST_SEAT else FIRST_SEAT)
        differs = self.with_names(at, other.score) if other and other.score != mine.score else None
        words = {"score": self.with_names(at, mine.score), "other": differs, "opponent": at.opponent}
        return {**words, **self.both(at)}

    def asks_both(self, at: AtTable) -> bool:
        """Whether the other seat has to say the same."""
        return self.secret.asks_both and at.seat != TABLE

    # ---- handing in

    def hand_in(self, at: AtTable) -> Reply:
        score, said = score_in(at.asked.form), said_in(at)
        if not score and not said:
            return self.told(400, at.asked.language, "not_understood")
        if not self.handed.take((at.number, at.match.place)):
            return self.told(429, at.asked.language, "too_often")
        if not score:
            return self.said(at, *said)
        is_newest = at.number == at.snapshot.number
        try:
            has_to_agree = self.asks_both(at) and is_newest and not at.match.score
            if has_to_agree and self.has_to_wait(at, score):
                return Reply(303, b"", [("Location", at.done)])
            return self.answered(at, score)
        except NotNow:
            return self.look_once_more(at, score, is_late=True)

    def said(self, at: AtTable, outcome: str, drops: tuple[int, ...]) -> Reply:
        """Kept for the scorekeeper, who drops the player or doesn't, sends a judge, or looks at a stored score."""
        if at.number < at.snapshot.number:
            return self.told(409, at.asked.language, "round_is_over")
        stored = at.match.score if outcome == WRONG else None
        try:
            self.keep(at, stored or NO_SCORE, outcome, stored, drops)
        except NotNow:
            return self.told(503, at.asked.language, "not_yet", "not_yet_why")
        return Reply(303, b"", [("Location", f"{at.target}?wrong=1" if stored else at.done)])

    def has_to_wait(self, at: AtTable, score: Score) -> bool:
        """Whether the other seat doesn't say the same. What this one says is kept then."""
        with self.saying:
            said = half_said(self.reports, at.number, at.match)
            if any(seat != at.seat and report.score == score for seat, report in said.items()):
                return False
            self.keep(at, score, WAITS)
            return True

    def answered(self, at: AtTable, score: Score) -> Reply:
        """What the program says of it. What it took is stored, also if no report of it can be written."""
        phone = f"{at.asked.origin} {at.seat}"
        answer = self.queue.report(at.number, at.match.place, score, at.seats, phone)
        is_reported = answer.refused == Refusal.ALREADY_REPORTED
        stored = score if answer.is_taken else answer.stored or self.stored_score(at, is_reported)
        outcome = outcome_of(answer, stored, score)
        if answer.is_taken:
            self.cache.store(at.number, at.match, score)
        self.keep(at, score, outcome, stored)
        if outcome in (STORED, SAME, OTHER):
            leads_to = f"{at.target}?said={score}" if outcome == OTHER else at.done
            return Reply(303, b"", [("Location", leads_to)])
        if answer.refused == Refusal.BAD_SCORE:
            return self.buttons(at, no_match=True)
        is_over = answer.refused == Refusal.NOT_SWISS
        return self.told(409, at.asked.language, "rounds_are_over" if is_over else "not_taken")

    def keep(
        self,
        at: AtTable,
        score: Score,
        outcome: str,
        stored: Optional[Score] = None,
        drops: tuple[int, ...] = (),
    ) -> None:
        when, drops = time.strftime(TIME), drops or drops_in(at.asked.form, at.speaks_for)
        report = Report(
            when, at.number, *at.match.seats, score, outcome, stored, at.asked.origin, drops, at.seat
        )
        # nothing but the report says it
        says_alone = outcome in (WAITS, WRONG, HOME, STAYS, CALLS, CALLS_OFF)
        try:
            self.reports.add(report)
        except OSError as fault:
            print(f"event-phones: {self.reports.path}: {fault.strerror}", file=sys.stderr, flush=True)
            if says_alone:
                self.reports.unwritten.remove(report)
            self.cache.troubles.tell(REPORTS, self.unwritten(fault))
            if says_alone:
                raise NotNow from None
        else:
            if not self.reports.unwritten:
                self.cache.troubles.over(REPORTS)

    def unwritten(self, fault: OSError) -> str:
        path, count = self.reports.path, len(self.reports.unwritten)
        told = "no score is taken that both seats have to say"
        if count:
            told = f"{count} reports stand on the scorekeeper's page alone"
        is_full = isinstance(fault, Full)
        advice = f"It is full. Move it away: mv {path} {path}.full" if is_full else "Make room on the disk."
        return f"{path} can't be written: {told}. {advice}"

    def stored_score(self, at: AtTable, has_to_be: bool) -> Optional[Score]:
        """The score that is stored, read again if a command came since or the snapshot has none. NotNow if it
        can't be read, since two scores are told apart by it.
        """
        if has_to_be:
            self.cache.read_if_changed()
        for _ in range(2):
            found = self.cache.now.match(at.number, at.match.place)
            if found and found.score and (found.first, found.second) == (at.match.first, at.match.second):
                return found.score
            self.cache.read()
        if has_to_be:
            raise NotNow
        return None


def outcome_of(answer: Answer, stored: Optional[Score], said: Score) -> str:
    if answer.is_taken:
        return STORED
    if answer.refused == Refusal.ALREADY_REPORTED:
        return SAME if stored == said else OTHER
    return f"refused {answer.refused}"


def row_of(snapshot: Snapshot, player: Player, say: Say) -> Row:
    """The table of the newest round, or the match of the playoff."""
    event = snapshot.event
    place = in_playoff_of(event, player.number)
    if place:
        where = slot_said(place.stage, place.match.place, event.first_stage, say)
        return Row(where, player, place.opponent)
    match = None if event.stages else snapshot.matches.get(player.number)
    if match is None:
        return Row("-", player, None)
    opponent = snapshot.players.get(match.opponent_of(player.number))
    return Row(say("bye") if match.is_bye else str(match.place), player, opponent)


def stages_shown(event: Event, say: Say) -> list[StageShown]:
    """The newest stage first."""
    shown = [
        StageShown(say(HEADINGS[len(matches)]), tuple(match_shown(event, match) for match in matches))
        for matches in reversed(event.stages)
    ]
    champion = event.champion
    return [StageShown(say("champion"), (), champion), *shown] if champion else shown


def match_shown(event: Event, match: Match) -> NamedMatch:
    return NamedMatch(event.players[match.first], event.players[match.second], match.score)


def clock_shown(clock: Optional[Clock], now: float, language: str) -> str:
    if clock is None:
        return ""
    left = clock.left(now)
    key = "clock" if left else "time_is_over"
    return plain_in(language, key, minutes=left, hour=clock.ends_at())
