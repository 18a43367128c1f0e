"""How often somebody may ask, and who is let in."""
import socket
import threading
import time

import pytest
from event_companions.core.program import Declined
from event_companions.phones.door import door_at
from event_companions.phones.limits import (
    ADDRESSES_OF_A_NETWORK,
    MOST_KEYS,
    Crowded,
    DelayQueues,
    OriginBuckets,
    TokenBuckets,
    network_of,
    origin_of,
)


def test_so_many_at_once_and_then_one_in_so_many_seconds(monkeypatch):
    now = [1000.0]
    monkeypatch.setattr(time, "monotonic", lambda: now[0])
    # the clock on the wall may be set back: nothing goes by it
    monkeypatch.setattr(time, "time", lambda: 0.0)
    buckets = TokenBuckets(3, 10.0)
    assert [buckets.take("a") for _ in range(5)] == [True, True, True, False, False]
    assert buckets.take("b")
    now[0] += 10
    assert [buckets.take("a") for _ in range(2)] == [True, False]
    now[0] += 1000
    assert [buckets.take("a") for _ in range(4)] == [True, True, True, False]


def test_it_keeps_so_many_addresses_and_no_more():
    buckets = TokenBuckets(1, 10.0)
    for number in range(MOST_KEYS + 10):
        buckets.take(number)
    assert len(buckets.used) == MOST_KEYS and not buckets.take(MOST_KEYS + 9)


def test_what_one_guest_has():
    assert origin_of("192.168.1.7") == origin_of("::ffff:192.168.1.7") == "192.168.1.7"
    # one address, however it is written; and two that begin with the same letters
    assert origin_of("fd00::1:2:3:4") == origin_of("fd00:0:0:0:1:2:3:4") == origin_of("FD00::1:2:3:4%eth0")
    assert origin_of("fd00::1:2:3:4") != origin_of("fd00::1:2:9:9")
    assert network_of(origin_of("fd00::1:2:3:4")) == network_of(origin_of("fd00::9:2:3:4")) == "fd00::/64"
    assert network_of(origin_of("fd00:0:0:1::4")) == "fd00:0:0:1::/64" and network_of("192.168.1.7") == ""
    assert origin_of("") == ""


def test_a_network_of_ipv6_has_a_limit_too(monkeypatch):
    monkeypatch.setattr(time, "monotonic", lambda: 1000.0)
    buckets = OriginBuckets(3, 10.0)
    assert [buckets.take("fd00::1") for _ in range(4)] == [True, True, True, False]
    passed = [buckets.take(f"fd00::{host:x}") for host in range(2, 100)]
    assert passed == [True] * (3 * ADDRESSES_OF_A_NETWORK - 4) + [False] * (
        98 - 3 * ADDRESSES_OF_A_NETWORK + 4
    )
    assert buckets.take("fd00:0:0:1::1") and buckets.take("192.168.1.7")


def test_a_lane_is_gone_through_one_after_the_other():
    queues, order = DelayQueues(0.02, 8, 8), []

    def go(name):
        with queues.entered("a"):
            order.append((name, time.monotonic()))

    threads = [threading.Thread(target=go, args=(name,)) for name in range(5)]
    for thread in threads:
        thread.start()
    for thread in threads:
        thread.join()
    times = sorted(at for _, at in order)
    assert len(order) == 5 and all(later - earlier >= 0.015 for earlier, later in zip(times, times[1:]))
    assert not queues.waiting and not queues.turns


def test_a_lane_that_is_full_turns_away_and_others_go_on():
    queues, is_free = DelayQueues(0.0, 2, 3), threading.Event()

    def stay():
        with queues.entered("a"):
            is_free.wait(60)

    threads = [threading.Thread(target=stay) for _ in range(2)]
    for thread in threads:
        thread.start()
    until = time.monotonic() + 60
    while queues.waiting["a"] < 2 and time.monotonic() < until:
        time.sleep(0.01)
    with pytest.raises(Crowded):
        with queues.entered("a"):
            pass
    # of another one, and then of all
    with queues.entered("b"):
        with pytest.raises(Crowded):
            with queues.entered("c"):
                pass
    is_free.set()
    for thread in threads:
        thread.join()
    with queues.entered("a"):
        pass


def connected(door, source):
    return socket.create_connection(door.getsockname(), timeout=5, source_address=(source, 0))


def test_so_many_connections_of_one_address():
    with door_at("127.0.0.1", 0, 2, "") as door:
        door.listen(8)
        clients = [connected(door, "127.0.0.5") for _ in range(3)]
        guests = [door.accept()[0] for _ in range(2)]
        with pytest.raises(BlockingIOError):
            door.accept()
        assert clients[2].recv(1) == b""
        clients.append(connected(door, "127.0.0.6"))
        guests.append(door.accept()[0])
        # who leaves makes room
        guests[0].close()
        clients.append(connected(door, "127.0.0.5"))
        guests.append(door.accept()[0])
        assert door.count == {"127.0.0.5": 2, "127.0.0.6": 1}
        for one in (*clients, *guests):
            one.close()
        assert not door.count


def test_a_port_that_is_held_is_named():
    with door_at("127.0.0.1", 0, 2, "") as door:
        door.listen(1)
        with pytest.raises(Declined, match="can't be listened at.*\nTake another one"):
            door_at("127.0.0.1", door.getsockname()[1], 2, "Take another one")
