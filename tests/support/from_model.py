"""A source that answers from the plain reading of the rules, in place of the program."""
from event_companions.core.lists import Bracket, Match, Player, standings_of
from event_companions.core.score import Score
from event_companions.core.turn import Turn


class FromModel:
    """A source that answers from the plain reading."""

    turn = Turn()

    def __init__(self, event):
        self.event = event

    def players(self):
        return {
            it: Player(it, self.event.names[it - 1], it in self.event.dropped) for it in self.event.numbers()
        }

    def lists(self, lists):
        return [
            [
                Match(at if b else 0, a, b, score and Score(*score))
                for at, (a, b, score) in enumerate(matches, 1)
            ]
            for matches in lists
        ]

    def rounds(self):
        return self.lists(self.event.stored)

    def bracket(self):
        last = self.event.bracket()[-1]
        return Bracket(
            self.lists(self.event.stages), int(last.split()[1]) if last.startswith("Champion ") else None
        )

    def standings(self):
        return standings_of("".join(f"{line}\n" for line in self.event.standings()))
