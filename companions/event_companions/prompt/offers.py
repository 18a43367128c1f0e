"""How a line may go on: what a menu or the TAB key offers."""
from __future__ import annotations

import glob
from dataclasses import dataclass
from typing import Callable, Iterable, List

from event_companions.core.lists import Player
from event_companions.core.names import found_by, plain, visible

# these words are followed by a player
OF_PLAYERS = ("drop", "who")


@dataclass(frozen=True)
class Offer:
    """The part that is typed, what may stand in its place, and what the menu shows."""

    typed: str
    text: str
    shown: str

    @property
    def begins_so(self) -> bool:
        return plain(self.text).startswith(plain(self.typed))


# what a line that begins so may go on with
Offers = Callable[[str], List[Offer]]


def offers_of_words(part: str, words: Iterable[str]) -> list[Offer]:
    return [Offer(part, word, word) for word in words if word.startswith(part)]


def offers_of_files(part: str) -> list[Offer]:
    return [Offer(part, path, path) for path in sorted(glob.glob(f"{glob.escape(part)}*"))]


def offers_of_players(part: str, players: Iterable[Player]) -> list[Offer]:
    """Players by what is typed of the name, those whose name begins so first. A name that a terminal can't
    show is left out.
    """
    return [
        Offer(part, player.name, f"{player.name} ({player.number})")
        for player in found_by(part, players, lambda player: player.name)
        if visible(player.name) == player.name
    ]
