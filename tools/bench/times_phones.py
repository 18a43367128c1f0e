"""Times phones beside an event of this many players in its third round: scores one after the other, all at once, and spread over a minute, each with the pages
that a phone loads before and after; then a score beside 900 connections that send nothing, and beside one phone that asks for the board without a pause;
the board, the lists and players' own pages for all at once; and what comes through caddy and nginx, if they are installed. It says what is stored at the
end, and how much memory it took.

    python3 -B -m tools.bench.times_phones PROGRAM [PLAYERS]
"""
import concurrent.futures
import contextlib
import functools
import http.client
import os
import random
import socket
import tempfile
import threading
import time

from tests.support.phone_rooms import (
    SCORES,
    Gateway,
    address,
    copied_event,
    links,
    results,
    spread,
    targets,
)
from tests.support.program import Program
from tests.support.proxies import Proxied, command_of
from tests.support.random_evenings import STARTED, evening, laid, report_round
from tests.support.tally import check, end, left_out
from tests.support.words import PROGRAM, Word, given_by

SECONDS, SILENT = 60, 900
# connections of the phone that asks for the board again and again, and requests through a proxy
GREEDY, BEHIND, AT_ONCE = 24, 5_000, 32
LISTS = "/board", "/pairings", "/standings"


def third_round(program, room, players):
    dice = random.Random(players)
    event = evening(dice, players, STARTED, 9, 0)
    for number in (1, 2, 3):
        event.pair(number, dice.getrandbits(256).to_bytes(32, "little"))
        if number < 3:
            report_round(dice, event)
    return laid(program, f"{room}/base.event", event, "Friday")


class Phone:
    """Loads its table and the second screen, hands in until it is answered, and looks at what is stored."""

    def __init__(self, gateway, number, target, score, wait):
        self.gateway, self.source, self.target, self.score, self.wait = (
            gateway,
            address(number),
            target,
            score,
            wait,
        )
        self.pages, self.seconds, self.is_stored = [], 0.0, False

    def __call__(self):
        time.sleep(self.wait)
        begun = time.perf_counter()
        for query in ("", f"?s={self.score}"):
            at = time.perf_counter()
            if self.gateway.ask("GET", self.target + query, source=self.source)[0] == 200:
                self.pages.append(time.perf_counter() - at)
        at = time.perf_counter()
        while self.gateway.hand_in(self.target, self.score, self.source) != (303, self.target):
            time.sleep(0.2)
        self.seconds, self.in_all = time.perf_counter() - at, time.perf_counter() - begun
        self.is_stored = "The score is in." in self.gateway.ask("GET", self.target, source=self.source)[2]


def memory_of(process):
    with open(f"/proc/{process}/status") as it:
        found = dict(line.split(":", 1) for line in it)
    return f"{int(found['VmHWM'].split()[0]) // 1024} MB at most, {found['Threads'].strip()} threads"


def together(works):
    """How long it takes them, each in a thread of its own."""
    threads = [threading.Thread(target=it) for it in works]
    begun = time.perf_counter()
    for it in threads:
        it.start()
    for it in threads:
        it.join()
    return time.perf_counter() - begun


def played(name, program, file, waits):
    """All phones at these times."""
    dice = random.Random(1)
    with Gateway(program, file) as gateway:
        aims = targets(program, file)
        phones = {
            table: Phone(gateway, table, target, dice.choice(SCORES), waits(dice))
            for table, target in aims.items()
        }
        took = together(list(phones.values()))
        memory = memory_of(gateway.process.pid)
    stored = results(program, file)
    number = max(it for it, _ in stored)
    check(
        f"{name}: all are stored",
        {it: stored[number, it] for it in phones},
        {it: phone.score for it, phone in phones.items()},
    )
    check(f"{name}: all see it", [it for it, phone in phones.items() if not phone.is_stored], [])
    print(
        f"{name}: {len(phones)} scores, the last one answered after {took:.1f} s; a score {spread([it.seconds for it in phones.values()])}"
    )
    print(f"    a phone from the first page to the answer {spread([it.in_all for it in phones.values()])}")
    print(
        f"    a page {spread([seconds for it in phones.values() for seconds in it.pages])}; {memory}",
        flush=True,
    )


def in_turn(name, gateway, program, file):
    """How long each of some scores takes, one after the other."""
    seconds = []
    for table, target in list(targets(program, file).items())[:60]:
        begun = time.perf_counter()
        check(f"{name}: table {table}", gateway.hand_in(target, "2-0-0", address(table))[0], 303)
        seconds.append(time.perf_counter() - begun)
        time.sleep(0.1)
    return seconds


def one_by_one(name, program, file, silent):
    """Scores in turn, beside connections of one other address that send nothing."""
    with Gateway(program, file) as gateway:
        held = [
            socket.create_connection(("127.0.0.1", gateway.port), source_address=("127.0.99.9", 0))
            for _ in range(silent)
        ]
        seconds = in_turn(name, gateway, program, file)
        for it in held:
            it.close()
        print(
            f"{name}: {len(seconds)} scores in turn, {spread(seconds)}; {memory_of(gateway.process.pid)}",
            flush=True,
        )


def fetched(gateway, target, source):
    """The status of a page, as a browser asks for it: compressed, if it can be."""
    connection = http.client.HTTPConnection("127.0.0.1", gateway.port, timeout=60, source_address=(source, 0))
    try:
        connection.request("GET", target, headers={"Accept-Encoding": "gzip"})
        answer = connection.getresponse()
        answer.read()
        return answer.status
    finally:
        connection.close()


def opened_at_once(name, program, file, pages):
    """Each of this many phones opens these pages, all at once."""
    with Gateway(program, file) as gateway:
        aims = list(targets(program, file))
        own = links(program, file)
        statuses, seconds = [], []

        def phone(number):
            begun = time.perf_counter()
            for page in pages or [own[number]]:
                statuses.append(fetched(gateway, page, address(number)))
            seconds.append(time.perf_counter() - begun)

        took = together([functools.partial(phone, number) for number in range(1, len(aims) + 1)])
        check(f"{name}: all are answered", set(statuses), {200})
        print(
            f"{name}: {len(aims)} phones, all answered after {took:.1f} s; a phone {spread(seconds)}; {memory_of(gateway.process.pid)}",
            flush=True,
        )


def beside_greedy(name, program, file):
    """Scores in turn, while one phone asks for the board over many connections without a pause."""
    with Gateway(program, file) as gateway:
        is_over, got = threading.Event(), []

        def ask():
            while not is_over.is_set():
                with contextlib.suppress(OSError, http.client.HTTPException):
                    got.append(fetched(gateway, "/board", "127.0.99.9"))

        threads = [threading.Thread(target=ask, daemon=True) for _ in range(GREEDY)]
        for it in threads:
            it.start()
        seconds = in_turn(name, gateway, program, file)
        is_over.set()
        for it in threads:
            it.join()
        print(
            f"{name}: {len(seconds)} scores in turn, {spread(seconds)}; {len(got)} boards asked for, {got.count(200)} answered; {memory_of(gateway.process.pid)}",
            flush=True,
        )


def behind(kind, program, file, room):
    """Pages and scores through a proxy: whether any is answered that the gateway failed."""
    if not command_of(kind):
        left_out(f"phones behind {kind}", f"{kind} is not installed")
        return
    with Proxied(kind, program, file, room) as gateway:
        aims, own = targets(program, file), links(program, file)
        jobs = [("POST", target, "s=2-0-0") for target in aims.values()]
        pages = [*LISTS, *aims.values(), *own.values()]
        jobs += [("GET", pages[at % len(pages)]) for at in range(BEHIND - len(jobs))]
        random.Random(1).shuffle(jobs)
        with concurrent.futures.ThreadPoolExecutor(AT_ONCE) as phones:
            begun = time.perf_counter()
            statuses = list(
                phones.map(lambda job: gateway.ask(*job[1], source=address(job[0] % 400))[0], enumerate(jobs))
            )
            took = time.perf_counter() - begun
        check(f"behind {kind}: none failed", [it for it in statuses if it >= 500], [])
        counted = {status: statuses.count(status) for status in sorted(set(statuses))}
        print(
            f"behind {kind}: {len(statuses)} requests in {took:.1f} s: {counted}; {memory_of(gateway.process.pid)}",
            flush=True,
        )
    stored = results(program, file)
    check(
        f"behind {kind}: all are stored",
        {table for (number, table), score in stored.items() if number == 3 and score},
        set(aims),
    )


def main(program, players):
    with tempfile.TemporaryDirectory() as room:
        base = third_round(program, room, players)
        Program(program).run("players", base)
        print(f"{players} players; load {os.getloadavg()[0]:.1f}")
        fresh = lambda name: copied_event(base, f"{room}/{name}.event")
        one_by_one("alone", program, fresh("alone"), 0)
        one_by_one(f"beside {SILENT} silent connections", program, fresh("silent"), SILENT)
        played("all at once", program, fresh("once"), lambda _: 0.0)
        played("in a minute", program, fresh("minute"), lambda dice: SECONDS * dice.random())
        beside_greedy("beside one phone that asks for the board", program, fresh("greedy"))
        opened_at_once("the board", program, fresh("board"), ["/board"])
        opened_at_once("the board and the lists", program, fresh("lists"), LISTS)
        opened_at_once("a player's page", program, fresh("own"), [])
        for kind in ("caddy", "nginx"):
            behind(kind, program, fresh(kind), room)
    end("times of phones")


if __name__ == "__main__":
    main(**given_by(__doc__, program=PROGRAM, players=Word(int, "how many play; without it 512", "?", 512)))
