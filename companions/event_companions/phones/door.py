"""The socket at which phones are let in: this many connections of one address."""
from __future__ import annotations

import collections
import errno
import socket
import threading
from typing import Any, Callable, Optional

from event_companions.core.program import Declined
from event_companions.phones.limits import ADDRESSES_OF_A_NETWORK, network_of, origin_of

NO_LIMIT = 1_000_000_000


class Guest(socket.socket):
    """A connection that tells when it is closed."""

    gone: Optional[Callable[[], None]] = None

    def close(self) -> None:
        gone, self.gone = self.gone, None
        if gone:
            gone()
        super().close()


class Door(socket.socket):
    def __init__(self, family: int, most_of_one: int):
        super().__init__(family, socket.SOCK_STREAM)
        self.most_of_one = most_of_one
        self.lock = threading.Lock()
        self.count: collections.Counter[str] = collections.Counter()

    def accept(self) -> tuple[socket.socket, Any]:
        plain, address = super().accept()
        guest = Guest(self.family, self.type, self.proto, fileno=plain.detach())
        origin = origin_of(address[0])
        with self.lock:
            is_full = any(self.count[key] >= most for key, most in self.limits(origin))
            if not is_full:
                self.count.update(key for key, _ in self.limits(origin))
        if is_full:
            guest.close()
            # the server goes on as if nobody had come
            raise BlockingIOError(11, "too many of one address")
        guest.gone = lambda: self.left(origin)
        return guest, address

    def limits(self, origin: str) -> list[tuple[str, int]]:
        """What it is counted by, and how many may be inside: its address, and its network if it has one."""
        network = network_of(origin)
        wide = [(network, self.most_of_one * ADDRESSES_OF_A_NETWORK)] if network else []
        return [(origin, self.most_of_one), *wide]

    def left(self, origin: str) -> None:
        with self.lock:
            for key, _ in self.limits(origin):
                self.count[key] -= 1
                if not self.count[key]:
                    del self.count[key]


class AnotherMachines(Declined):
    """The address isn't one of this machine's."""


def door_at(host: str, port: int, most_of_one: int, word: str) -> Door:
    door = Door(socket.AF_INET6 if ":" in host else socket.AF_INET, most_of_one)
    door.setsockopt(socket.SOL_SOCKET, socket.SO_REUSEADDR, 1)
    try:
        door.bind((host, port))
    except OSError as fault:
        door.close()
        # the errors of a name that leads nowhere have numbers of their own
        if isinstance(fault, socket.gaierror) or fault.errno == errno.EADDRNOTAVAIL:
            told = f"{host} is no address of this machine: `hostname -I` names them."
            raise AnotherMachines(told) from None
        raise Declined(f"{host}, port {port}, can't be listened at: {fault.strerror}.\n{word}") from None
    return door
