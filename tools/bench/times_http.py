"""Times one request to the program while it serves an event of 512 players, beside Python's `http.server` over a copy of the same file
(slips_peer.py): the standings after nine rounds, and a score that is handed in while the ninth round is on. Each request has a
connection of its own; the two are asked in turn, and medians are printed. The bodies have to be equal to the byte. It stands outside the gate.
"""
import shutil
import sqlite3
import statistics
import subprocess
import sys
import tempfile
import time

from second_reading.plain_event import Event
from tests.support.serving import Serving, received, sent_whole
from tests.support.words import PROGRAM, Word, given_by
from tools import TOP

PLAYERS, ROUNDS = 512, 9
SCORES = [(2, 0, 0), (1, 2, 0), (2, 1, 0), (0, 2, 0), (1, 1, 1)]
GET = b"GET /standings HTTP/1.1\r\n\r\n"


class Peer(Serving):
    """The same, with the words of the peer."""

    def words(self, _program, file, _count, _port):
        return [sys.executable, "-B", f"{TOP}/tools/bench/slips_peer.py", file]


def pairings(is_open):
    """Rounds in which all sit in a circle and move on by one; the last round has no scores where it is open."""
    for number in range(1, ROUNDS + 1):
        circle = [1] + [2 + (place + number) % (PLAYERS - 1) for place in range(PLAYERS - 1)]
        for table in range(1, PLAYERS // 2 + 1):
            a, b = circle[table - 1], circle[PLAYERS - table]
            score = (
                (0, 0, 0, 0) if is_open and number == ROUNDS else (1, *SCORES[(7 * a + 3 * b + number) % 5])
            )
            yield number, table, min(a, b), max(a, b), int(a > b), *score


def tallies(is_open):
    """What each player's matches of the complete rounds come to: points, rounds, game points and games."""
    event = Event(ROUNDS, 0)
    event.names = [f"N{it}" for it in range(1, PLAYERS + 1)]
    event.stored = [[] for _ in range(ROUNDS)]
    for number, _, low, high, is_swapped, is_done, *games in pairings(is_open):
        first, second = (high, low) if is_swapped else (low, high)
        event.stored[number - 1].append([first, second, tuple(games) if is_done else None])
    return [(it, *event.totals(it)) for it in event.numbers()]


def made(program, file, is_open):
    subprocess.run([program, "init", file, "Friday", str(ROUNDS), "0"], check=True, stdout=subprocess.DEVNULL)
    base = sqlite3.connect(file)
    base.executemany(
        "INSERT INTO player2 VALUES (?, ?, 0, 0)", ((it, f"N{it}") for it in range(1, PLAYERS + 1))
    )
    base.executemany("INSERT INTO pairing VALUES (?, ?, ?, ?, ?, ?, ?, ?, ?)", pairings(is_open))
    base.executemany("INSERT INTO tally VALUES (?, ?, ?, ?, ?)", tallies(is_open))
    base.execute("UPDATE event SET phase = 1, serial = 5000")
    base.commit()
    base.execute("PRAGMA wal_checkpoint(TRUNCATE)").fetchall()
    base.close()
    return file


def timed(serving, sent):
    begun = time.perf_counter()
    with serving.client() as client:
        sent_whole(client, sent)
        came = received(client)
    return 1000 * (time.perf_counter() - begun), came.split(b"\r\n\r\n", 1)[1]


def post(table):
    return b'POST /rounds/%d/tables/%d HTTP/1.1\r\nContent-Length: 19\r\n\r\n{"a":2,"b":1,"d":0}' % (
        ROUNDS,
        table,
    )


def compare(program, name, file, requests):
    """Sends each request to both, and prints what they took."""
    other = shutil.copy(file, f"{file}.peer")
    ours, theirs = [], []
    with Serving(program, file, len(requests)) as serving, Peer(program, other, 0) as peer:
        for sent in requests:
            (took, body), (took_there, body_there) = timed(serving, sent), timed(peer, sent)
            if body != body_there:
                sys.exit(f"{name}: {body[:200]}, and of the peer {body_there[:200]}")
            ours.append(took)
            theirs.append(took_there)
    best, other = statistics.median(ours), statistics.median(theirs)
    print(f"{name:<55} {best:9.2f} {other:9.2f}   {best / other:6.2f} times")


def main(program, count):
    print(f"medians of {count} requests each, in milliseconds: the program, and Python's http.server")
    with tempfile.TemporaryDirectory() as room:
        compare(
            program,
            f"GET /standings of {PLAYERS} players after nine rounds",
            made(program, f"{room}/nine", False),
            [GET] * count,
        )
        scores = [post(table) for table in range(1, min(count, PLAYERS // 2) + 1)]
        compare(
            program,
            f"POST of a score among {PLAYERS} players, in round nine",
            made(program, f"{room}/open", True),
            scores,
        )


if __name__ == "__main__":
    main(
        **given_by(
            __doc__,
            program=PROGRAM,
            count=Word(int, "how many requests of each kind; without it 100", "?", 100),
        )
    )
