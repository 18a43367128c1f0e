"""Lists that the program does not export: the standings, the playoff and the final ranking as CSV, and results
with names.
"""
from __future__ import annotations

import csv
import io
import itertools
from dataclasses import dataclass
from typing import Iterable, Optional, Sequence

from event_companions.core.event import Event
from event_companions.core.lists import Match, Player, Players, Rounds
from event_companions.core.records import Record, records_of


def csv_of(heading: Sequence[str], rows: Iterable[Sequence[object]]) -> str:
    written = io.StringIO()
    csv.writer(written, lineterminator="\n").writerows([heading, *rows])
    return written.getvalue()


def standings_csv(event: Event) -> str:
    """The columns of the program's text, with its percentages."""
    rows = [
        (
            standing.rank,
            standing.player.number,
            standing.points,
            standing.opponents_match_wins,
            standing.game_wins,
            standing.opponents_game_wins,
            int(standing.player.has_dropped),
            standing.player.name,
        )
        for standing in event.standings
    ]
    return csv_of(("rank", "no", "points", "omw", "gwp", "ogw", "dropped", "name"), rows)


def playoff_csv(event: Event, has_names: bool = False) -> str:
    """The columns of the results that the program exports, by stage and slot."""
    return matches_csv(("stage", "slot"), event.stages, event.players if has_names else None)


def results_csv(event: Event) -> str:
    """What the program exports, with the names of both."""
    return matches_csv(("round", "table"), event.rounds, event.players)


def matches_csv(places: tuple[str, str], lists: Rounds, players: Optional[Players]) -> str:
    heading = (*places, "a", "b", "x", "y", "d", *(("name_a", "name_b") if players else ()))
    return csv_of(
        heading, [match_row(at, it, players) for at, matches in enumerate(lists, 1) for it in matches]
    )


def match_row(at: int, match: Match, players: Optional[Players]) -> tuple[object, ...]:
    """As the program writes it, and the names after it. A bye has no second one."""
    score = match.score or ("", "", "")
    seats = match.first, match.second
    names = [players[it].name if it else "" for it in seats] if players else []
    return (at, match.place, *seats, *score, *names)


@dataclass(frozen=True)
class Ranked:
    rank: int
    player: Player


def loser_of(match: Match) -> int:
    assert match.score, "a stage before the champion is played"
    return match.second if match.score.first > match.score.second else match.first


def final_ranking(event: Event) -> list[Ranked]:
    """The champion, then the players who lost in the final, in the stage before it, and so on, and then all
    others. Players of one stage share a rank, and so do others who share one in the standings; among those
    who share a rank the standings decide who is named first.
    """
    champion = event.bracket.champion
    if champion is None:
        return []
    in_order = [standing.player.number for standing in event.standings]
    out = [[champion], *([loser_of(match) for match in matches] for matches in reversed(event.stages))]
    placed = {number for group in out for number in group}
    others = (standing for standing in event.standings if standing.player.number not in placed)
    groups = [sorted(group, key=in_order.index) for group in out] + [
        [standing.player.number for standing in tied]
        for _, tied in itertools.groupby(others, key=lambda standing: standing.rank)
    ]
    ranked: list[Ranked] = []
    for group in groups:
        rank = len(ranked) + 1
        ranked += [Ranked(rank, event.players[number]) for number in group]
    return ranked


def final_csv(event: Event) -> str:
    """The final ranking with points and records of the rounds; who has never sat at a table has none."""
    records = records_of(event.rounds)
    rows = [
        (it.rank, it.player.number, *counts_of(records.get(it.player.number)), it.player.name)
        for it in final_ranking(event)
    ]
    return csv_of(("rank", "no", "points", "won", "lost", "drawn", "name"), rows)


def counts_of(record: Optional[Record]) -> tuple[object, ...]:
    return (record.points, record.won, record.lost, record.drawn) if record else (0, "", "", "")
