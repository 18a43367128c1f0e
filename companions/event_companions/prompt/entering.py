"""The word `entries`: names that players enter by phone before they are enrolled."""
from __future__ import annotations

from event_companions.beside.codes import kept_secret
from event_companions.beside.entries import Entries, Entry
from event_companions.core.names import visible
from event_companions.core.program import Declined
from event_companions.core.rosters import tidy
from event_companions.core.wording import counted
from event_companions.prompt.lines import numbers_in
from event_companions.prompt.players import Players
from event_companions.prompt.session import Session

OFF = """\
Players can't enter their names now. To have them do it by phone, once
event-phones serves: entries on"""
NEXT = "To take them: entries take. To strike some, by the number: entries out 3"


class Entering:
    def __init__(self, session: Session, players: Players):
        self.session, self.players = session, players
        self.entries = Entries(session.file)

    def go(self, rest: str) -> None:
        word, _, more = rest.partition(" ")
        if word == "out":
            self.strike(more)
            return
        ways = {"": self.list, "on": self.begin, "off": self.end, "take": self.take}
        if rest not in ways:
            raise Declined("Type one of: entries on, entries, entries take, entries out 3, entries off")
        ways[rest]()

    def waiting(self) -> list[Entry]:
        enrolled = {player.name for player in self.session.event.enrolled.values()}
        return [entry for entry in self.entries.all() if tidy(entry.name) not in enrolled]

    def list(self) -> None:
        self.must_be_on()
        waiting = self.waiting()
        self.session.say(*(f"{entry.row:4} {visible(entry.name)}" for entry in waiting))
        self.session.say(NEXT if waiting else "No name is there that you have not taken.")

    def begin(self) -> None:
        self.entries.begin()
        secret = kept_secret(self.session.file)
        where = f"{secret.at}/enter" if secret else "the address of event-phones, and /enter after it"
        self.session.say("Players enter their names at", where, "What came: entries. To end it: entries off")

    def end(self) -> None:
        self.must_be_on()
        count = len(self.waiting())
        left = f"{counted(count, 'name')} {'was' if count == 1 else 'were'} not taken"
        if count and not self.session.lines.says_yes(f"{left}, and would be gone. End it all the same?"):
            raise Declined("It goes on.")
        self.entries.end()
        self.session.say("Nobody can enter a name any more.")

    def take(self) -> None:
        self.must_be_on()
        if not self.waiting():
            raise Declined("No name is there that you have not taken.")
        self.players.import_list(f"{self.entries.path} utf-8")

    def strike(self, typed: str) -> None:
        self.must_be_on()
        for row in numbers_in(typed, 1, 512, "entries out 3, or entries out 3 5"):
            name = next((entry.name for entry in self.entries.all() if entry.row == int(row)), "")
            if not self.entries.strike(int(row)):
                raise Declined(f"No name has the number {row}. See: entries")
            self.session.say(f"{visible(name)} is struck.")

    def must_be_on(self) -> None:
        if not self.entries.is_on:
            raise Declined(OFF)
