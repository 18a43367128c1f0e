"""Connections to the server of the phones: which are shut out, by a clock that is handed in."""
import socket
import threading
import time

import pytest

pytest.importorskip("waitress")

from event_companions.phones.door import NO_LIMIT, door_at
from event_companions.phones.serving import (
    CONNECTIONS_KEPT_FREE,
    SECONDS_OF_A_CONNECTION,
    is_silent,
    server_of,
)

PATIENCE = 60
REQUEST = b"GET / HTTP/1.1\r\nHost: a\r\n\r\n"
# connections that the server has, two of which are its own
MOST = CONNECTIONS_KEPT_FREE + 6


class Served:
    """A server whose application waits until it may answer."""

    def __init__(self, behind_proxy=False, body=b"ok"):
        self.body = body
        self.seconds, self.is_asked, self.may_answer = 0.0, threading.Event(), threading.Event()
        self.swept = threading.Semaphore(0)
        door = door_at("127.0.0.1", 0, NO_LIMIT, "")
        self.server = server_of(self.application, door, 4, behind_proxy, lambda: self.seconds, MOST)
        self.at = door.getsockname()
        self.server.adj.asyncore_loop_timeout = 0.01
        # what the server itself does by the machine's clock comes never, however slow that is
        self.server.adj.channel_timeout += 100_000
        self.is_readable = self.server.readable
        self.server.readable = self.looked
        self.thread = threading.Thread(target=self.server.run, daemon=True)
        self.thread.start()

    def looked(self):
        found = self.is_readable()
        self.swept.release()
        return found

    def application(self, _environ, start_response):
        self.is_asked.set()
        assert self.may_answer.wait(PATIENCE)
        start_response("200 OK", [("Content-Length", str(len(self.body)))])
        return [self.body]

    def guest(self, data=b""):
        """Somebody whom the server has let in."""
        inside = len(self.server.active_channels)
        client = socket.create_connection(self.at, timeout=PATIENCE)
        client.sendall(data)
        until = time.monotonic() + PATIENCE
        while len(self.server.active_channels) == inside:
            assert time.monotonic() < until
            time.sleep(0.001)
        return client

    def come(self, count=2 * MOST):
        """So many come, one after the other, and say nothing."""
        return [socket.create_connection(self.at, timeout=PATIENCE) for _ in range(count)]

    def pass_by(self, seconds):
        """So many seconds go by, and the server has looked since."""
        self.seconds += seconds
        while self.swept.acquire(blocking=False):
            pass
        # what it had begun, one look, and what was closed by it
        for _ in range(4):
            assert self.swept.acquire(timeout=PATIENCE)


def answer(client):
    text = b""
    while not text.endswith(b"ok"):
        more = client.recv(1000)
        if not more:
            break
        text += more
    return text


def is_shut_out(client):
    try:
        return client.recv(1) == b""
    except ConnectionResetError:
        # what it sent last was read no more
        return True


@pytest.fixture
def served():
    return Served()


def test_a_guest_who_sends_no_whole_request_is_shut_out(served):
    guests = [served.guest(), served.guest(REQUEST[:10])]
    served.pass_by(SECONDS_OF_A_CONNECTION - 1)
    guests[1].sendall(REQUEST[10:12])
    served.pass_by(2)
    assert all(is_shut_out(guest) for guest in guests)


def test_nobody_is_shut_out_before_the_answer(served):
    guest = served.guest(REQUEST)
    assert served.is_asked.wait(PATIENCE)
    served.pass_by(SECONDS_OF_A_CONNECTION + 1)
    served.may_answer.set()
    assert answer(guest).startswith(b"HTTP/1.1 200")


def test_a_connection_that_works_stays(served):
    guest = served.guest()
    served.may_answer.set()
    for _ in range(4):
        served.pass_by(SECONDS_OF_A_CONNECTION - 5)
        guest.sendall(REQUEST)
        assert answer(guest).startswith(b"HTTP/1.1 200")


def test_a_proxy_is_never_shut_out():
    """It keeps connections for the next guest, and would tell that one that nothing was answered."""
    served = Served(behind_proxy=True)
    guest = served.guest()
    served.may_answer.set()
    served.pass_by(100 * SECONDS_OF_A_CONNECTION)
    guest.sendall(REQUEST)
    assert answer(guest).startswith(b"HTTP/1.1 200")
    # by itself the server closes what caddy has closed two minutes after its last use
    assert served.server.adj.channel_timeout - 100_000 > 120


# ---- when connections are nearly used up


def test_a_new_guest_gets_in_where_silent_ones_have_all_connections(served):
    served.may_answer.set()
    silent = served.come()
    guest = served.come(1)[0]
    guest.sendall(REQUEST)
    assert answer(guest).startswith(b"HTTP/1.1 200")
    # those who came first made room, and those who came last are still there
    assert is_shut_out(silent[0])
    guest.sendall(REQUEST)
    assert answer(guest).startswith(b"HTTP/1.1 200")


def test_who_waits_for_an_answer_does_not_make_room(served):
    first = served.guest(REQUEST)
    assert served.is_asked.wait(PATIENCE)
    silent = served.come()
    guest = served.come(1)[0]
    guest.sendall(REQUEST)
    assert is_shut_out(silent[0])
    served.may_answer.set()
    assert answer(first).startswith(b"HTTP/1.1 200") and answer(guest).startswith(b"HTTP/1.1 200")


def test_who_has_not_read_the_answer_does_not_make_room():
    served = Served(body=b"x" * 20_000_000)
    served.may_answer.set()
    first = served.guest(REQUEST)
    assert served.is_asked.wait(PATIENCE)
    silent = served.come()
    assert is_shut_out(silent[0])
    came = 0
    while came < len(served.body):
        more = first.recv(1_000_000)
        assert more
        came += len(more)


def test_who_has_begun_a_request_makes_room_last(served):
    served.may_answer.set()
    first = served.guest(REQUEST[:10])
    served.pass_by(1)
    # one after the other, so that there is never room for more than two
    for _ in range(2 * MOST):
        (guest,) = served.come(1)
        guest.sendall(REQUEST)
        assert answer(guest).startswith(b"HTTP/1.1 200")
    first.sendall(REQUEST[10:])
    assert answer(first).startswith(b"HTTP/1.1 200")


def test_what_was_sent_and_not_read_yet_is_not_silence():
    here, there = socket.socketpair()
    here.setblocking(False)

    class Channel:
        socket, requests, total_outbufs_len = here, [], 0

    assert is_silent(Channel)
    there.sendall(b"G")
    assert not is_silent(Channel)
    here.recv(1)
    there.close()
    assert is_silent(Channel)
    here.close()
    assert is_silent(Channel)


def test_behind_a_proxy_nobody_makes_room():
    served = Served(behind_proxy=True)
    served.may_answer.set()
    guests = [served.guest() for _ in range(MOST - 3)]
    served.pass_by(1)
    for guest in guests:
        guest.sendall(REQUEST)
        assert answer(guest).startswith(b"HTTP/1.1 200")
