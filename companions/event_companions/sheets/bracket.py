"""The bracket as a tree: a column for each stage, and lines from each match to the next."""
from __future__ import annotations

from dataclasses import dataclass, field
from typing import Optional

from event_companions.core.event import Event
from event_companions.core.lists import Match, Matches, Player
from event_companions.core.stages import HEADINGS
from event_companions.languages import Say
from event_companions.sheets.widths import width_of

BOX_WIDTH, GAP, LINE, PADDING, BETWEEN, TOP, CHAMPION_BELOW = 250, 40, 20, 12, 30, 34, 44
NAME_ROOM, LETTER, SMALL_LETTER, SMALL_LINE = 140, 16, 11, 14
# how much larger the final is than the stages before it, and the champion
FINAL, CHAMPION = 1.25, 1.5
# which seeds meet in the slots of the first stage, by how many slots there are
SEEDS = {1: ((1, 2),), 2: ((1, 4), (2, 3)), 4: ((1, 8), (4, 5), (2, 7), (3, 6))}


def lines_for(name: str, letter: int = LETTER) -> int:
    """How many lines the name takes in a box. Words aren't filled up to the edge, so one more where it is
    near.
    """
    width = width_of(name) * letter
    return 1 if width <= NAME_ROOM else int(width * 1.15 // NAME_ROOM) + 1


def is_long(name: str) -> bool:
    """Whether a name stands in small letters, so that it doesn't make each box high."""
    return lines_for(name) > 2


def height_for(name: str) -> int:
    return lines_for(name, SMALL_LETTER) * SMALL_LINE if is_long(name) else lines_for(name) * LINE


@dataclass(frozen=True)
class Text:
    text: str
    x: float
    y: float


@dataclass(frozen=True)
class Box:
    x: float
    y: float
    width: float
    height: float


@dataclass(frozen=True)
class Seat:
    """A player in a box."""

    player: Player
    seed: int
    games: str
    kind: str
    box: Box
    # of the letters, beside those of the stages before the final
    scale: float


@dataclass
class Drawing:
    """What is drawn, and how large it is."""

    width: float
    height: float = 0
    headings: list[Text] = field(default_factory=list)
    boxes: list[Box] = field(default_factory=list)
    lines: list[str] = field(default_factory=list)
    seats: list[Seat] = field(default_factory=list)
    drawn_games: list[Text] = field(default_factory=list)


def seeds_of(matches: Matches) -> dict[int, int]:
    """The seed of each player, by the slots of the first stage."""
    slots = SEEDS.get(len(matches), ())
    return {
        number: seed
        for match, seeds in zip(matches, slots)
        for number, seed in zip((match.first, match.second), seeds)
    }


class Tree:
    def __init__(self, event: Event, say: Say):
        self.event, self.say = event, say
        names = [
            event.players[number].name for match in event.stages[0] for number in (match.first, match.second)
        ]
        self.height = max(map(height_for, names)) + PADDING
        self.first = len(event.stages[0])
        self.columns = self.first.bit_length()
        self.seeds = seeds_of(event.stages[0])
        self.drawing = Drawing(self.left(self.columns - 1) + CHAMPION * BOX_WIDTH + 2, self.bottom())

    def middle(self, stage: int, slot: int) -> float:
        """How far down the match is: between the two that lead to it."""
        if stage == 0:
            # the final may be the only stage
            return TOP + slot * (2 * self.height + BETWEEN) + self.scale(stage) * self.height
        return (self.middle(stage - 1, 2 * slot) + self.middle(stage - 1, 2 * slot + 1)) / 2

    def left(self, stage: int) -> int:
        return 2 + stage * (BOX_WIDTH + GAP)

    def scale(self, stage: int) -> float:
        return FINAL if stage == self.columns - 1 else 1.0

    def champions_top(self) -> float:
        return self.middle(self.columns - 1, 0) + FINAL * self.height + CHAMPION_BELOW

    def bottom(self) -> float:
        """Beneath the first stage, and beneath the champion's box where that lies lower."""
        champion = self.champions_top() + CHAMPION * self.height
        return max(TOP + self.first * (2 * self.height + BETWEEN), champion) + 4

    def match_at(self, stage: int, slot: int) -> Optional[Match]:
        """None, until the stage has begun."""
        return self.event.stages[stage][slot] if stage < len(self.event.stages) else None

    def winner_at(self, stage: int, slot: int) -> int:
        """Who stands in the next stage from here on, or is the champion; or 0."""
        match = self.match_at(stage, slot)
        if not match or not match.score:
            return 0
        return match.first if match.score.first > match.score.second else match.second

    def add_seat(self, number: int, games: str, kind: str, box: Box, scale: float) -> None:
        player = self.event.players[number]
        kinds = " ".join(filter(None, ["seat", kind, "long" if is_long(player.name) else ""]))
        self.drawing.seats.append(Seat(player, self.seeds.get(number, 0), games, kinds, box, scale))

    def seats_at(self, stage: int, slot: int) -> tuple[Box, Box]:
        """The upper half of a match's box, and the lower one."""
        x, middle, scale = self.left(stage), self.middle(stage, slot), self.scale(stage)
        width, height = scale * BOX_WIDTH, scale * self.height
        return Box(x, middle - height, width, height), Box(x, middle, width, height)

    def add_heading(self, stage: int, text: str, above: float = TOP) -> None:
        self.drawing.headings.append(Text(text, self.left(stage), above - 10))

    def add_box(self, stage: int, slot: int) -> None:
        upper, lower = self.seats_at(stage, slot)
        self.drawing.boxes.append(Box(upper.x, upper.y, upper.width, upper.height + lower.height))
        self.drawing.lines.append(f"M{lower.x} {lower.y:g}h{lower.width:g}")

    def add_match(self, stage: int, slot: int) -> None:
        """The box of a slot, and in it the two players: until the stage has begun, those who won so far."""
        self.add_box(stage, slot)
        if stage:
            self.add_lines(stage, slot)
        boxes, match = self.seats_at(stage, slot), self.match_at(stage, slot)
        if not match:
            for before, box in enumerate(boxes, 2 * slot):
                winner = self.winner_at(stage - 1, before)
                if winner:
                    self.add_seat(winner, "", "", box, self.scale(stage))
            return
        won, lost, drawn = match.score or ("", "", 0)
        for number, games, box in zip((match.first, match.second), (won, lost), boxes):
            kind = "through" if number == self.winner_at(stage, slot) else ""
            self.add_seat(number, str(games), kind, box, self.scale(stage))
        if drawn:
            lower = boxes[1]
            at = lower.x + lower.width - 4, lower.y + lower.height + 15
            self.drawing.drawn_games.append(Text(self.say("games_drawn_count", count=drawn), *at))

    def add_lines(self, stage: int, slot: int) -> None:
        """From the two matches before to this one."""
        x, y = self.left(stage), self.middle(stage, slot)
        for before in (2 * slot, 2 * slot + 1):
            self.drawing.lines.append(f"M{x - GAP} {self.middle(stage - 1, before):g}h{GAP // 2}V{y:g}H{x}")

    def add_champion(self, number: int) -> None:
        """A box beneath the final."""
        stage, y = self.columns - 1, self.champions_top()
        self.add_heading(stage, self.say("champion"), y)
        box = Box(self.left(stage), y, CHAMPION * BOX_WIDTH, CHAMPION * self.height)
        self.drawing.boxes.append(box)
        self.add_seat(number, "", "champion", box, CHAMPION)

    def drawn(self) -> Drawing:
        for stage in range(self.columns):
            slots = self.first >> stage
            self.add_heading(stage, self.say(HEADINGS[slots]))
            for slot in range(slots):
                self.add_match(stage, slot)
        if self.event.bracket.champion is not None:
            self.add_champion(self.event.bracket.champion)
        return self.drawing
