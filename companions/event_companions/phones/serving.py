"""The two places that are served: for the phones, and for the scorekeeper on this machine alone."""
from __future__ import annotations

import argparse
import contextlib
import ctypes
import logging
import re
import socket
import threading
import time
import urllib.parse
from dataclasses import replace
from typing import Any, Callable

from event_companions.beside.codes import Secret
from event_companions.beside.reports import Reports
from event_companions.beside.troubles import ENDED, Troubles
from event_companions.core.program import Declined
from event_companions.phones.addresses import address_chosen, is_of_this_machine_alone
from event_companions.phones.asked import hosts_of
from event_companions.phones.cache import SECONDS_BETWEEN_READINGS, EventCache
from event_companions.phones.desk_page import Desk
from event_companions.phones.door import NO_LIMIT, AnotherMachines, Door, door_at
from event_companions.phones.kept_codes import KeptCodes
from event_companions.phones.score_queue import (
    MOST_WAITING,
    SECONDS_BETWEEN_TRIES,
    SECONDS_FOR_A_SCORE,
    ScoreQueue,
)
from event_companions.phones.site import REPORTS, Site

THREADS, THREADS_OF_THE_DESK = MOST_WAITING + 32, 4
MOST_CONNECTIONS, MOST_CONNECTIONS_OF_ONE = 700, 24
# this many are kept for those who come: silent ones make room
CONNECTIONS_KEPT_FREE = 20
# a connection ends that sends nothing for so long, and one that sends no whole request in so long
SECONDS_OF_SILENCE, SECONDS_OF_A_CONNECTION, SECONDS_BETWEEN_SWEEPS = 10, 40, 2
# proxies keep connections, caddy for two minutes: one that ends here first would fail the next guest
SECONDS_OF_SILENCE_OF_A_PROXY = 180
MOST_HEAD, MOST_BODY = 8192, 2048
# each thread has a stack of this many bytes in place of the system's eight megabytes
BYTES_OF_A_STACK = 512 * 1024
# of glibc's mallopt, and how many arenas of memory all threads share
M_ARENA_MAX, ARENAS = -8, 2

# what is said where an address reaches no further
ONLY_HERE = "No phone reaches this: it is this machine alone. Name another address by --at.\n"


def host_and_port(text: str, default: int) -> tuple[str, int]:
    """An address of IPv6 has a port only after its brackets."""
    is_bare = text.count(":") > 1 and not text.startswith("[")
    if is_bare or not re.search(r":[0-9]+$", text):
        return text.strip("[]"), default
    host, _, port = text.rpartition(":")
    return host.strip("[]"), int(port)


def place_of(words: argparse.Namespace, secret: Secret) -> tuple[str, int]:
    """Where to listen: what was said, or what stands on the slips."""
    if words.listen:
        return host_and_port(words.listen, 8080)
    parts = urllib.parse.urlsplit(secret.at)
    return host_and_port(parts.netloc, 443 if parts.scheme == "https" else 80)


def strict_channel(now: Callable[[], float]) -> Any:
    """What reads requests. No browser sends a form in chunks, and a proxy may read them otherwise than
    waitress, so they are answered 400.
    """
    from waitress.channel import HTTPChannel
    from waitress.parser import HTTPRequestParser, ParsingError

    class StrictParser(HTTPRequestParser):
        def parse_header(self, header: bytes) -> None:
            super().parse_header(header)
            if self.chunked or "TRANSFER_ENCODING" in self.headers:
                raise ParsingError("no chunks are taken")
            if self.version not in ("1.0", "1.1"):
                raise ParsingError("no such version")

    class StrictChannel(HTTPChannel):
        parser_class: Any = StrictParser

        def __init__(self, *given: Any, **more: Any):
            super().__init__(*given, **more)
            # when it came, or its last whole request did
            self.since = now()

        def service(self) -> None:
            self.since = now()
            super().service()

    return StrictChannel


def is_silent(channel: Any) -> bool:
    """Whether somebody waits for no answer: none is made or has still to be sent, and nothing has come that was
    not read yet.
    """
    if channel.requests or channel.total_outbufs_len:
        return False
    try:
        return not channel.socket.recv(1, socket.MSG_PEEK | socket.MSG_DONTWAIT)
    except BlockingIOError:
        return True
    except OSError:
        # nobody is there any more
        return True


def make_room(server: Any) -> None:
    """Shuts out silent ones if few connections are left: those who have begun no request first, and of them
    who has been silent longest.
    """
    most = server.adj.connection_limit - CONNECTIONS_KEPT_FREE
    channels = [channel for channel in server.active_channels.values() if not channel.will_close]
    too_many = len(server._map) - (len(server.active_channels) - len(channels)) - most
    if too_many <= 0:
        return
    silent = sorted(filter(is_silent, channels), key=lambda it: (it.request is not None, it.since))
    for channel in silent[:too_many]:
        channel.will_close = True


def shut_out_after(server: Any, seconds: float, now: Callable[[], float]) -> None:
    """Shuts out who has sent no whole request for so long, however slowly the bytes come, and nobody who
    waits for an answer. The thread that reads does so: meanwhile no request becomes whole.
    """
    is_readable, due = server.readable, now()

    def readable() -> Any:
        nonlocal due
        make_room(server)
        if now() >= due:
            due = now() + SECONDS_BETWEEN_SWEEPS
            for channel in server.active_channels.values():
                if not channel.requests and channel.since < now() - seconds:
                    channel.will_close = True
        return is_readable()

    server.readable = readable


def server_of(
    pages: Callable[..., Any],
    door: Door,
    threads: int,
    behind_proxy: bool,
    now: Callable[[], float] = time.monotonic,
    most: int = MOST_CONNECTIONS,
    most_body: int = MOST_BODY,
) -> Any:
    """Now: the seconds of a clock that nobody sets."""
    import waitress

    trusted: dict[str, Any] = {}
    if behind_proxy:
        trusted = {
            "trusted_proxy": "127.0.0.1",
            "trusted_proxy_count": 1,
            "trusted_proxy_headers": {"x-forwarded-for"},
        }
    server: Any = waitress.create_server(
        pages,
        sockets=[door],
        threads=threads,
        connection_limit=most,
        channel_timeout=SECONDS_OF_SILENCE_OF_A_PROXY if behind_proxy else SECONDS_OF_SILENCE,
        cleanup_interval=5,
        max_request_header_size=MOST_HEAD,
        max_request_body_size=most_body,
        inbuf_overflow=65536,
        asyncore_use_poll=True,
        ident=None,
        log_socket_errors=False,
        clear_untrusted_proxy_headers=True,
        expose_tracebacks=False,
        **trusted,
    )
    server.channel_class = strict_channel(now)
    if not behind_proxy:
        shut_out_after(server, SECONDS_OF_A_CONNECTION, now)
    return server


def read_first(cache: EventCache) -> None:
    """The event has to be there. What was killed just before may have it for a moment."""
    until = time.monotonic() + SECONDS_FOR_A_SCORE
    while not cache.read():
        if time.monotonic() > until or "refused 27" in cache.fault:
            raise Declined(cache.fault)
        time.sleep(SECONDS_BETWEEN_TRIES)


def opened_for_phones(words: argparse.Namespace, secret: Secret) -> tuple[Secret, Door]:
    """The door at the address, or at one that is chosen in its place where it is another machine's."""
    most_of_one = NO_LIMIT if words.behind_proxy else words.from_one

    def opened(secret: Secret) -> tuple[Secret, Door]:
        host, port = place_of(words, secret)
        shown = f"[{host}]" if ":" in host else host
        word = f"Another port, as: --at http://{shown}:{port_beside(port)}"
        return secret, door_at(host, port, most_of_one, word)

    try:
        return opened(secret)
    except AnotherMachines as fault:
        if words.listen:
            raise
        return opened(replace(secret, at=address_chosen(str(fault), place_of(words, secret)[1])))


def port_beside(port: int) -> int:
    return port + 1 if 1024 < port < 65535 else 8080


def share_arenas() -> None:
    """By itself the C library gives threads arenas of their own, each of which keeps what was freed."""
    with contextlib.suppress(OSError, AttributeError):
        ctypes.CDLL(None).mallopt(M_ARENA_MAX, ARENAS)


def serve(words: argparse.Namespace, program: str, secret: Secret) -> int:
    logging.getLogger("waitress").setLevel(logging.ERROR)
    threading.stack_size(BYTES_OF_A_STACK)
    share_arenas()
    cache, reports = EventCache(program, words.file, words.title), Reports(words.file)
    running = cache.running
    read_first(cache)
    secret, front = opened_for_phones(words, secret)
    back = door_at("127.0.0.1", words.desk, NO_LIMIT, f"Another port, as: --desk {port_beside(words.desk)}")
    # what is kept has been tried
    codes = cache.codes = KeptCodes(words.file, secret)
    (host, port), desk_port = front.getsockname()[:2], back.getsockname()[1]
    cache.troubles = Troubles(words.file)
    queue = ScoreQueue(program, words.file, running, cache.troubles)
    share = words.from_one / MOST_CONNECTIONS_OF_ONE
    site = Site(cache, reports, secret, hosts_of(secret.at, port), queue, share)
    desk = Desk(cache, reports, site, {f"127.0.0.1:{desk_port}", f"localhost:{desk_port}"})
    servers = [
        server_of(site, front, THREADS, words.behind_proxy),
        server_of(desk, back, THREADS_OF_THE_DESK, False),
    ]
    begin(cache, reports, servers)
    where = f"{host}, port {port}"
    alone = ONLY_HERE if is_of_this_machine_alone(secret.at) else ""
    print(
        f"Phones: {secret.at} (listening at {where})\n{alone}"
        f"Scorekeeper: http://127.0.0.1:{desk_port}/\n"
        "At the prompt: print slips; or print links, a page for each player\n"
        "Ctrl-C ends; what was answered is in the file.",
        flush=True,
    )
    try:
        running.is_over.wait()
        cache.troubles.tell("end", f"{ENDED}. {running.why}")
    except KeyboardInterrupt:
        cache.troubles.end()
        raise
    finally:
        codes.close()
    raise Declined(running.why)


def begin(cache: EventCache, reports: Reports, servers: list[Any]) -> None:
    """Starts the threads that go on until the process ends."""
    running = cache.running

    def look_at_reports() -> None:
        while not running.is_over.wait(SECONDS_BETWEEN_READINGS):
            # the prompt writes there too
            reports.more()
            if reports.unwritten and reports.write_again():
                cache.troubles.over(REPORTS)

    running.begin("reads the event", cache.go_on)
    running.begin("reads the reports", look_at_reports)
    for name, server in zip(("serves phones", "serves the scorekeeper"), servers):
        running.begin(name, server.run)
