"""What came since a copy: what the event that was put away has, and the one of the copy hasn't."""
from __future__ import annotations

from dataclasses import dataclass
from typing import Iterator, Optional

from event_companions.beside.keys import Keys
from event_companions.beside.reports import words_to_store
from event_companions.core.event import Event
from event_companions.core.names import visible
from event_companions.core.stages import slot_typed
from event_companions.core.wording import counted
from event_companions.draw.draws import Draws

# a line to type takes this many columns, before whose it is
WIDTH_OF_A_LINE = 12


@dataclass(frozen=True)
class Missing:
    """A command that has to be given again: as it is typed, as it is sent, and who is meant."""

    line: str
    words: tuple[str, ...]
    shown: str = ""

    @property
    def told(self) -> str:
        """The line, with those who are meant beside it."""
        return f"{self.line:{WIDTH_OF_A_LINE}}  {self.shown}" if self.shown else self.line


def missing_since(before: Event, now: Event) -> list[Missing]:
    """What can be typed again as it is, in an order in which it can: results and corrections of the rounds
    that are there, latecomers, and drops.
    """
    rounds = range(1, len(now.rounds) + 1)
    results = [missing for number in rounds for missing in results_since(before, now, number)]
    return [*results, *players_since(before, now)]


def results_since(before: Event, now: Event, number: int) -> Iterator[Missing]:
    """The scores of a round, if the same players sit."""
    for match in now.rounds[number - 1]:
        old = before.match(number, str(match.place))
        is_same_pair = old and (old.first, old.second) == (match.first, match.second)
        if old and is_same_pair and old.score and old.score != match.score:
            word = "correct" if match.score else "result"
            words = (word, str(number), str(match.place), *old.score.words)
            yield Missing(words_to_store(number, match, old.score), words, before.shown(old))


def players_since(before: Event, now: Event) -> Iterator[Missing]:
    for number, player in before.enrolled.items():
        if number not in now.enrolled:
            yield Missing(f"enrol {visible(player.name)}", ("enrol", player.name))
        if player.has_dropped and not (number in now.enrolled and now.enrolled[number].has_dropped):
            yield Missing(f"drop {number}", ("drop", str(number)), visible(player.name))


def came_since(before: Event, now: Event, keys: Keys, draws: Draws) -> list[str]:
    """All of it, as lines to type."""
    lines = [f"  {missing.told}" for missing in missing_since(before, now)]
    found = ["What came since, to type again where it still holds:", *lines] if lines else []
    return found + rounds_since(before, now, keys, draws)


def rounds_since(before: Event, now: Event, keys: Keys, draws: Draws) -> list[str]:
    """The rounds and the playoff, which depend on all that comes before them."""
    found = []
    for number in range(len(now.rounds) + 1, len(before.rounds) + 1):
        found.append(f"Round {number} was paired since. {way_to_pair(number, keys, draws)}")
        scored = [(match, match.score) for match in before.rounds[number - 1] if not match.is_bye]
        scores = [Missing(f"{it.place} {score.typed}", (), before.shown(it)) for it, score in scored if score]
        if scores:
            found.append("Its scores, to type once it is paired so again:")
        found += [f"  {it.told}" for it in scores]
    return found + playoff_since(before, now)


def way_to_pair(number: int, keys: Keys, draws: Draws) -> str:
    """How the round is paired again as it was: by its number, which is for good, or by its key."""
    drawn = draws.numbers(number) if draws.is_on else []
    if drawn:
        return f"To pair it by its number, {drawn[-1].number}: pair"
    return f"Its key, for: pair again\n  {keys.last(number) or 'not in the list of keys'}"


def playoff_since(before: Event, now: Event) -> list[str]:
    """The cut, and the scores of the playoff."""
    found = []
    if before.stages and not now.stages:
        found.append("The playoff was begun since. To begin it again: cut")
    scores = []
    for stage, matches in enumerate(before.stages, 1):
        for match in matches:
            if match.score and now.score_in(stage, str(match.place)) != match.score:
                slot = slot_typed(stage, match.place, before.first_stage)
                line = f"play {slot} {match.score.short.replace('-', ' ')}"
                scores.append(f"  {Missing(line, (), before.shown(match)).told}")
    if scores:
        found += ["Scores of the playoff that came since, where the same players meet:", *scores]
    return found


def counted_since(before: Event, now: Event, with_other_scores: bool = True) -> str:
    """What the first event has and the second one hasn't, in a few words; or nothing. A score that is another
    one there may count or not.
    """
    later = range(len(now.rounds) + 1, len(before.rounds) + 1)
    came = sum(number not in now.enrolled for number in before.enrolled)
    matches = [match for at in later for match in before.rounds[at - 1] if not match.is_bye]
    scores = sum(match.score is not None for match in matches)
    words = [it.words[0] for at in range(1, len(now.rounds) + 1) for it in results_since(before, now, at)]
    scores += len(words) if with_other_scores else words.count("result")
    drops = sum(missing.words[0] == "drop" for missing in players_since(before, now))
    of_playoff = sum(
        match.score is not None and now.score_in(stage, str(match.place)) != match.score
        for stage, matches in enumerate(before.stages, 1)
        for match in matches
    )
    found = [f"the pairing of round {number}" for number in later]
    found += [counted(scores, "score")] * bool(scores)
    found += [f"{counted(came, 'player')} who came"] * bool(came)
    found += [counted(drops, "drop")] * bool(drops)
    found += ["the cut"] * bool(before.stages and not now.stages)
    found += [f"{counted(of_playoff, 'score')} of the playoff"] * bool(of_playoff)
    return ", ".join(found)


def left_in(answer: str, missing: list[Missing]) -> Optional[list[Missing]]:
    """What an answer leaves to be typed again: `y` all of it, `n` nothing, `but 1 3` all but the first and
    the third; None if it is no answer.
    """
    words = answer.lower().replace(",", " ").split()
    if words in (["y"], ["yes"], ["n"], ["no"]):
        return missing if words[0].startswith("y") else []
    numbers = {int(word) for word in words[1:] if word.isdecimal()}
    are_there = numbers <= {*range(1, len(missing) + 1)}
    if words[:1] != ["but"] or not are_there or not 0 < len(numbers) == len(words) - 1:
        return None
    return [it for place, it in enumerate(missing, 1) if place not in numbers]
