"""Lists for others: CSV, and the final ranking."""
from __future__ import annotations

import os

from event_companions.core.event import shown_player
from event_companions.core.exports import final_csv, final_ranking, playoff_csv, results_csv, standings_csv
from event_companions.core.program import Declined
from event_companions.prompt.lines import numbers_in
from event_companions.prompt.session import Session

KINDS = ("players", "results", "standings", "playoff", "final")
# lists of matches, which may have the names of both players
OF_MATCHES = ("results", "playoff")
NO_CHAMPION = "There is no champion yet. Until then: "


class Listing:
    def __init__(self, session: Session):
        self.session = session

    def export(self, rest: str) -> None:
        """A list as CSV, on the screen or into a file that is not there yet."""
        kind, _, path = rest.partition(" ")
        if kind not in KINDS:
            raise Declined(f"There are {', '.join(KINDS)},\nas: export standings, or export standings s.csv")
        first, _, after = path.strip().partition(" ")
        has_names = first == "names"
        if has_names and kind not in OF_MATCHES:
            raise Declined("It has names already. Of matches: export results names, export playoff names")
        path = after if has_names else path
        text = self.text_of(kind, has_names)
        if path:
            self.write(os.path.expanduser(path.strip()), text)
        else:
            self.session.say_as_it_is(text)

    def text_of(self, kind: str, has_names: bool) -> str:
        session = self.session
        event = session.event
        if kind == "standings":
            return standings_csv(event)
        if kind == "playoff":
            return playoff_csv(event, has_names)
        if kind == "final" and not event.champion:
            raise Declined(f"{NO_CHAMPION}export standings")
        if kind == "final":
            return final_csv(event)
        return results_csv(event) if has_names else session.source.text("export", kind)

    def write(self, path: str, text: str) -> None:
        try:
            with open(path, "x", encoding="utf-8", newline="") as written:
                written.write(text)
        except FileExistsError:
            raise Declined(f"{path} is there already. Name another file, or take it away first.") from None
        self.session.say(f"Written: {path}")

    def final(self, rest: str) -> None:
        """The final ranking, or the first ones of it."""
        session = self.session
        first = int(numbers_in(rest, 0, 1, "final 8")[0]) if rest else None
        ranking = final_ranking(session.event)
        if not ranking:
            raise Declined(f"{NO_CHAMPION}standings")
        session.say(*(f"{ranked.rank:4}  {shown_player(ranked.player)}" for ranked in ranking[:first]))
        champion = f"The champion is {shown_player(ranking[0].player)}."
        session.say_again(lambda: f"This is the final ranking. {champion} The first eight: final 8")
