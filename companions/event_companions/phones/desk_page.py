"""What the scorekeeper sees, on this machine alone. It changes nothing: a score is replaced at the prompt."""
from __future__ import annotations

import re
import time
from dataclasses import dataclass
from typing import Optional

from event_companions.beside.codes import FIRST_SEAT
from event_companions.beside.reports import (
    CALLS,
    CALLS_OFF,
    HOME,
    JUDGED,
    STAYS,
    Report,
    Reports,
    all_half_said,
    going_home,
    judge_calls,
    two_scores,
    words_to_mend,
    words_to_store,
)
from event_companions.core.lists import Match, Player
from event_companions.core.score import Score
from event_companions.languages import DEFAULT
from event_companions.languages.marked import named
from event_companions.phones.asked import Asked, Pages
from event_companions.phones.cache import EventCache
from event_companions.phones.pages import Reply, rendered, style_reply
from event_companions.phones.site import Site, clock_shown
from event_companions.sheets.parts import own_page

MOST_LATEST = 25
SECONDS_TO_RELOAD = 10


@dataclass(frozen=True)
class Row:
    """A table at which something has to be looked at, or a score that came in."""

    table: int
    players: list[Player]
    stored: Optional[Score]
    said: str
    words: str
    report: Optional[Report] = None


class Desk(Pages):
    def __init__(self, cache: EventCache, reports: Reports, site: Site, hosts: set[str]):
        super().__init__(hosts, f"http://{min(hosts)}/")
        self.cache, self.reports, self.site = cache, reports, site

    def reply(self, asked: Asked) -> Reply:
        if asked.path == "/style.css" and asked.method != "POST":
            return style_reply()
        if asked.method == "POST":
            return self.told(404, DEFAULT, "no_page")
        if asked.path == "/links":
            return self.links()
        link = re.fullmatch("/links/([0-9]{1,3})", asked.path)
        if link and int(link[1]) in self.cache.now.players:
            return self.link(int(link[1]))
        return self.overview() if asked.path == "/" else self.told(404, DEFAULT, "no_page")

    def links(self) -> Reply:
        """Without a printer players scan their own pages off the screen."""
        snapshot = self.cache.now
        words = {"heading": named(snapshot.title), "clock": "", "players": snapshot.by_name}
        return Reply(200, rendered("links.html", DEFAULT, **words))

    def link(self, number: int) -> Reply:
        snapshot = self.cache.now
        own = own_page(snapshot.players[number], snapshot.event.enrolled[number], self.site.secret)
        return Reply(200, rendered("link.html", DEFAULT, heading=named(snapshot.title), clock="", own=own))

    def overview(self) -> Reply:
        snapshot = self.cache.now
        number, matches = snapshot.number, snapshot.newest
        tables = [match for match in matches if not match.is_bye]
        return Reply(
            200,
            rendered(
                "desk.html",
                DEFAULT,
                heading=named(self.cache.now.title),
                clock=clock_shown(self.cache.clock, time.time(), DEFAULT),
                seconds=SECONDS_TO_RELOAD,
                number=number,
                tables=len(tables),
                missing=[match.place for match in tables if match.is_open],
                calls=self.calls(number),
                two=self.two(number),
                half=self.half(number),
                home=going_home(self.reports, number, snapshot.players),
                latest=self.latest(number),
                at=self.site.secret.at,
                wrong_codes=self.site.wrong_codes,
                faults=self.cache.troubles.all(),
            ),
        )

    def players(self, match: Match) -> list[Player]:
        players = self.cache.now.players
        return [players[number] for number in (match.first, match.second) if number in players]

    def calls(self, number: int) -> list[Row]:
        found = judge_calls(self.reports, number, self.cache.now.newest)
        return [
            Row(it.match.place, self.players(it.match), None, it.report.at[11:16], f"judge {it.match.place}")
            for it in found
        ]

    def two(self, number: int) -> list[Row]:
        rows = []
        for found in two_scores(self.reports, number, self.cache.now.newest):
            match, newest = found.match, found.said[-1]
            said = ", ".join(f"{report.said} ({report.at[11:16]})" for report in found.said[-4:])
            words = words_to_mend(number, match, newest)
            rows.append(Row(match.place, self.players(match), found.stored, said, words))
        return rows

    def half(self, number: int) -> list[Row]:
        rows = []
        for found in all_half_said(self.reports, number, self.cache.now.newest):
            match, said = found.match, [found.by_seat[seat] for seat in sorted(found.by_seat)]
            players = self.cache.now.players
            who = [
                players[match.first if report.seat == FIRST_SEAT else match.second].name for report in said
            ]
            shown = ", ".join(f"{name}: {report.score.short}" for name, report in zip(who, said))
            words = words_to_store(number, match, said[-1].score)
            rows.append(Row(match.place, self.players(match), None, shown, words))
        return rows

    def latest(self, number: int) -> list[Row]:
        rows = []
        for report in reversed(self.reports.of_round(number)[-MOST_LATEST:]):
            match = Match(report.table, report.first, report.second)
            has_score = report.outcome not in (HOME, STAYS, CALLS, CALLS_OFF, JUDGED)
            said = report.said if has_score else ""
            rows.append(Row(report.table, self.players(match), report.stored, said, "", report))
        return rows
