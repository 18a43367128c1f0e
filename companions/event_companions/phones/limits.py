"""How often somebody may ask: by address, and by table."""
from __future__ import annotations

import collections
import contextlib
import ipaddress
import threading
import time
from typing import Hashable, Iterator

MOST_KEYS = 4096


# of IPv6 a guest may take any address of a network, in which others are too: what as many may have
ADDRESSES_OF_A_NETWORK = 16


def origin_of(address: str) -> str:
    """An address as it is compared: one of IPv4 in the form of IPv6 is the same."""
    try:
        found = ipaddress.ip_address(address.partition("%")[0])
    except ValueError:
        return address
    mapped = found.ipv4_mapped if isinstance(found, ipaddress.IPv6Address) else None
    return str(mapped or found)


def network_of(origin: str) -> str:
    """The network of 2**64 addresses that it is of, or nothing for IPv4."""
    return str(ipaddress.ip_network(f"{origin}/64", strict=False)) if ":" in origin else ""


class TokenBuckets:
    """For each key this many at once, and then one in this many seconds. It goes by a clock that nobody sets."""

    def __init__(self, most: float, seconds: float):
        self.most, self.seconds = most, seconds
        self.used: collections.OrderedDict[Hashable, tuple[float, float]] = collections.OrderedDict()
        self.lock = threading.Lock()

    def left(self, key: Hashable, now: float) -> float:
        level, then = self.used.get(key, (0.0, now))
        return self.most - max(0.0, level - (now - then) / self.seconds)

    def take(self, key: Hashable) -> bool:
        now = time.monotonic()
        with self.lock:
            left = self.left(key, now)
            if left < 1:
                return False
            self.used[key] = self.most - left + 1, now
            self.used.move_to_end(key)
            while len(self.used) > MOST_KEYS:
                self.used.popitem(last=False)
            return True


class OriginBuckets:
    """The same for each address, and with a wider limit for each network of IPv6."""

    def __init__(self, most: float, seconds: float):
        wide = ADDRESSES_OF_A_NETWORK
        self.addresses, self.networks = TokenBuckets(most, seconds), TokenBuckets(most * wide, seconds / wide)

    def take(self, origin: str) -> bool:
        network = network_of(origin)
        return (not network or self.networks.take(network)) and self.addresses.take(origin)


class Crowded(Exception):
    """Too many wait already."""


class DelayQueues:
    """For each key a queue whose members are let through one after the other, this many seconds apart; a few
    wait, and more are turned away, also if too many wait of all keys.
    """

    def __init__(self, seconds: float, most_waiting: int, most_in_all: int):
        self.seconds, self.most_waiting, self.most_in_all = seconds, most_waiting, most_in_all
        self.lock = threading.Lock()
        self.waiting: collections.Counter[Hashable] = collections.Counter()
        self.turns: dict[Hashable, threading.Lock] = {}

    @contextlib.contextmanager
    def entered(self, key: Hashable) -> Iterator[None]:
        with self.lock:
            is_crowded = sum(self.waiting.values()) >= self.most_in_all
            if is_crowded or self.waiting.get(key, 0) >= self.most_waiting:
                raise Crowded
            self.waiting[key] += 1
            turn = self.turns.setdefault(key, threading.Lock())
        try:
            with turn:
                time.sleep(self.seconds)
                yield
        finally:
            with self.lock:
                self.waiting[key] -= 1
                if not self.waiting[key]:
                    del self.waiting[key], self.turns[key]
