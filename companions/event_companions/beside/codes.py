"""FILE.phones: the address on the slips, and the key of which the codes are made; and the codes."""
from __future__ import annotations

import contextlib
import hmac
import os
import re
import secrets
from dataclasses import dataclass, replace
from typing import Optional

from event_companions.core.files import sync_folder
from event_companions.core.lists import Match, Player
from event_companions.core.program import Declined

# letters that nobody takes for digits, and that make no words (RFC 8628, section 6.1): 20 ** 8 codes
LETTERS = "BCDFGHJKLMNPQRSTVWXZ"
CODE_LENGTH = 8
# of a player's own page, which is good for the whole evening: 20 ** 12 codes
LINK_LENGTH = 12
# whose code it is: one for the table, or if both have to say the score, one for each of the two seats
TABLE, FIRST_SEAT, SECOND_SEAT = 0, 1, 2


@dataclass(frozen=True)
class Secret:
    at: str
    key: bytes
    asks_both: bool = False

    @property
    def seats(self) -> tuple[int, ...]:
        """Who has a code on a slip."""
        return (FIRST_SEAT, SECOND_SEAT) if self.asks_both else (TABLE,)

    def code(self, number: int, match: Match, seat: int = TABLE) -> str:
        """The code of a match. It is another one if other players sit, as after a round that was paired
        again by another key.
        """
        said = f"event_reporter slip 1: {number} {match.place} {match.first} {match.second}"
        if seat:
            said += f" seat {seat}"
        return self.letters(said, CODE_LENGTH)

    def letters(self, said: str, count: int) -> str:
        value = int.from_bytes(hmac.new(self.key, said.encode(), "sha256").digest(), "big")
        letters = []
        for _ in range(count):
            value, at = divmod(value, len(LETTERS))
            letters.append(LETTERS[at])
        return "".join(letters)

    def seat_of(self, number: int, match: Match, typed: str) -> Optional[int]:
        """Whose code it is, or None. Each is compared whole, so that time tells nothing."""
        code = plain_code(typed)
        found = [hmac.compare_digest(self.code(number, match, seat), code) for seat in self.seats]
        return next((seat for seat, is_it in zip(self.seats, found) if is_it), None)

    def target(self, number: int, match: Match, seat: int = TABLE) -> str:
        return f"/t/{number}/{match.place}/{self.code(number, match, seat)}"

    def link_code(self, player: Player) -> str:
        """The code of a player's own page, under the name by which the program has the player: where numbers
        change, as after `remove`, nobody gets the page of somebody else.
        """
        return self.letters(f"event_reporter player 1: {player.number} {player.name}", LINK_LENGTH)

    def is_link(self, player: Player, typed: str) -> bool:
        return hmac.compare_digest(self.link_code(player), plain_code(typed))

    def link(self, player: Player) -> str:
        return f"/p/{player.number}/{self.link_code(player)}"

    def scanned(self, target: str) -> str:
        """What is scanned. In capitals it takes a smaller square."""
        return f"{self.at}{target}".upper()

    @property
    def shown_address(self) -> str:
        """The address as it is typed into a phone."""
        return self.at.split("://", 1)[1]


def plain_code(typed: str) -> str:
    return re.sub("[^A-Z]", "", typed.upper())


def shown_code(code: str) -> str:
    return "-".join(code[at : at + 4] for at in range(0, len(code), 4))


# ---- FILE.phones

LINES = re.compile(r"at (https?://[^\s/]+)\nkey ([0-9a-f]{64})\nboth (yes|no)\n")


def path_of(file: str) -> str:
    return f"{file}.phones"


def kept_secret(file: str) -> Optional[Secret]:
    """What stands there, or None if nothing does."""
    path = path_of(file)
    try:
        with open(path, encoding="ascii", errors="replace") as kept:
            found = LINES.fullmatch(kept.read(1000))
    except FileNotFoundError:
        return None
    except OSError as fault:
        raise Declined(f"{path} can't be read: {fault.strerror}.") from None
    if not found:
        raise Declined(
            f"{path} is not what event-phones wrote. Move it away, and start it\n"
            "with --at again. The codes of slips that are printed end with it."
        )
    return Secret(found[1], bytes.fromhex(found[2]), found[3] == "yes")


def secret_for(file: str, at: str, asks_both: Optional[bool]) -> Secret:
    """The secret beside the file, or a new one if there is none, with what the words change of it."""
    secret = kept_secret(file) or Secret(at, secrets.token_bytes(32))
    return replace(secret, at=at, asks_both=secret.asks_both if asks_both is None else asks_both)


def keep_secret(file: str, secret: Secret) -> None:
    """By the key anybody has each code, so the file is for its owner."""
    path = path_of(file)
    part = f"{path}.part"
    with contextlib.suppress(FileNotFoundError):
        os.unlink(part)
    handle = os.open(part, os.O_WRONLY | os.O_CREAT | os.O_EXCL, 0o600)
    with open(handle, "w", encoding="ascii") as written:
        written.write(f"at {secret.at}\nkey {secret.key.hex()}\nboth {'yes' if secret.asks_both else 'no'}\n")
        written.flush()
        os.fsync(written.fileno())
    os.replace(part, path)
    sync_folder(os.path.dirname(os.path.abspath(path)))
