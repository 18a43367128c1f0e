"""How the tiebreakers of a player come about: each opponent's points, rounds and percentages, and the averages.
Each number that the program prints is compared with what is shown, and where the two differ it is said.
"""
from __future__ import annotations

from dataclasses import dataclass, field
from fractions import Fraction
from typing import Optional, Sequence

from event_companions.core.event import Event
from event_companions.core.lists import Match, Player, Rounds, Standing
from event_companions.core.score import Score

LEAST = Fraction(33, 100)
WON, DRAWN = 3, 1


@dataclass
class Totals:
    """What the complete rounds come to for a player; rounds that were missed are among the rounds."""

    points: int = 0
    won: int = 0
    drawn: int = 0
    rounds: int = 0
    missed: int = 0
    game_points: int = 0
    games: int = 0

    @property
    def lost(self) -> int:
        return self.rounds - self.won - self.drawn

    @property
    def match_wins(self) -> Fraction:
        return raised(self.points, WON * self.rounds)

    @property
    def game_wins(self) -> Fraction:
        return raised(self.game_points, WON * self.games)


@dataclass(frozen=True)
class Met:
    """An opponent, in which round, and by which score as the player sees it. Of a bye there is none."""

    round: int
    opponent: Optional[Player]
    score: str
    totals: Totals = field(default_factory=Totals)


@dataclass(frozen=True)
class Working:
    player: Player
    standing: Standing
    totals: Totals
    met: tuple[Met, ...]

    @property
    def opponents(self) -> list[Met]:
        return [met for met in self.met if met.opponent]

    @property
    def opponents_match_wins(self) -> Fraction:
        return mean([met.totals.match_wins for met in self.opponents])

    @property
    def opponents_game_wins(self) -> Fraction:
        return mean([met.totals.game_wins for met in self.opponents])

    @property
    def compared(self) -> list[tuple[str, str, str]]:
        """The name of each number, as the program prints it, and as it is worked out here."""
        printed = self.standing
        return [
            ("points", printed.points, str(self.totals.points)),
            ("OMW", printed.opponents_match_wins, percent(self.opponents_match_wins)),
            ("GWP", printed.game_wins, percent(self.totals.game_wins)),
            ("OGW", printed.opponents_game_wins, percent(self.opponents_game_wins)),
        ]

    @property
    def differing(self) -> list[tuple[str, str, str]]:
        return [(name, one, other) for name, one, other in self.compared if one != other]


def raised(part: int, whole: int) -> Fraction:
    return max(LEAST, Fraction(part, whole)) if whole else LEAST


def mean(shares: Sequence[Fraction]) -> Fraction:
    return sum(shares, Fraction(0)) / len(shares) if shares else LEAST


def percent(share: Fraction) -> str:
    """In hundredths of a percent, an exact half up."""
    hundredths = (20000 * share.numerator + share.denominator) // (2 * share.denominator)
    return f"{hundredths // 100}.{hundredths % 100:02}"


def share_shown(share: Fraction) -> str:
    """As the fraction that it is, and as it is printed: 2/3 = 66.67."""
    return f"{share.numerator}/{share.denominator} = {percent(share)}"


def part_shown(part: int, whole: int, share: Fraction) -> str:
    """The part of the whole first, which may be raised to 33/100: 2/9 -> 33/100 = 33.00."""
    return f"{part}/{whole} -> {share_shown(share)}"


def is_complete(matches: Sequence[Match]) -> bool:
    return not any(match.is_open for match in matches)


def seen_by(match: Match, number: int) -> Score:
    """The score as a player sees it, whose games come first."""
    assert match.score
    first, second, drawn = match.score
    return match.score if match.first == number else Score(second, first, drawn)


def totals_of(number: int, rounds: Rounds) -> Totals:
    """A round before the first one in which a player sits is missed, if it is complete."""
    totals, has_sat = Totals(), False
    sits = [any(match.has(number) for match in matches) for matches in rounds]
    for at, matches in enumerate(rounds):
        has_sat = has_sat or sits[at]
        if not is_complete(matches):
            continue
        if not sits[at]:
            is_missed = not has_sat and any(sits[at:])
            totals.rounds += is_missed
            totals.missed += is_missed
            continue
        won, lost, drawn = seen_by(next(match for match in matches if match.has(number)), number)
        totals.won += won > lost
        totals.drawn += won == lost
        totals.points += WON if won > lost else DRAWN if won == lost else 0
        totals.rounds += 1
        totals.game_points += WON * won + drawn
        totals.games += won + lost + drawn
    return totals


def working_of(event: Event, number: int) -> Optional[Working]:
    """None, if there is no such player, or no complete round yet."""
    standing = next((it for it in event.standings if it.player.number == number), None)
    if not standing or not event.complete_rounds():
        return None
    known: dict[int, Totals] = {}
    met = []
    for at, matches in enumerate(event.rounds, 1):
        match = next((it for it in matches if it.has(number)), None)
        if not match or not is_complete(matches):
            continue
        score, other = str(seen_by(match, number)), match.opponent_of(number)
        if other and other not in known:
            known[other] = totals_of(other, event.rounds)
        met.append(Met(at, event.players[other] if other else None, score, known.get(other, Totals())))
    return Working(event.players[number], standing, totals_of(number, event.rounds), tuple(met))
