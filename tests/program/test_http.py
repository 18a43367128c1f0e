"""Slips over HTTP: the requests of the worked examples, and clients of many kinds: ones that send a byte at a time, that stop half-way, that go away, that
wait in a line; `curl`, `jq` and Python's own client.
"""
import errno
import http.client
import os
import resource
import select
import shutil
import signal
import socket
import sqlite3
import struct
import subprocess
import tempfile
import time
import zlib

import pytest

from tests.support.event_files import by_sqlite, due
from tests.support.serving import (
    Serving,
    free_port,
    hear_interrupts,
    received,
    sent_to_the_end,
    sent_whole,
    served,
)
from tests.support.waiting import PATIENCE

ZERO = "0" * 64
FRIDAY = [
    ("init", "Friday", "3", "0"),
    *(("enrol", it) for it in ("Ana", "Bo", "Cy", "Di")),
    ("start",),
    ("pair", "1", ZERO),
]
WITH_A_BYE = [
    ("init", "Friday", "3", "0"),
    *(("enrol", it) for it in ("Ana", "Bo", "Cy")),
    ("start",),
    ("pair", "1", ZERO),
]

BODY = b'{"a":2,"b":1,"d":0}'
POST = b"POST /rounds/1/tables/1 HTTP/1.1\r\nContent-Length: 19\r\n\r\n" + BODY
DELETE = b"DELETE /standings HTTP/1.1\r\n\r\n"


@pytest.fixture(scope="module")
def templates():
    """Events of which each test has a copy: thousands of command lines would take long."""
    with tempfile.TemporaryDirectory() as folder:
        yield folder


@pytest.fixture
def made(program, templates):
    """A fresh event on which these lines were taken."""

    def make(file, lines=FRIDAY):
        template = f"{templates}/{zlib.crc32(repr(lines).encode())}"
        if not os.path.exists(template):
            for name, *words in lines:
                program.did(name, template, *words)
        for ending in ("", "-wal"):
            if os.path.exists(template + ending):
                shutil.copy(template + ending, file + ending)
        return file

    return make


def serial_of(file):
    base = sqlite3.connect(file)
    try:
        return base.execute("SELECT serial FROM event").fetchone()[0]
    finally:
        base.close()


# ---- what is due


def get(target):
    return b"GET " + target.encode() + b" HTTP/1.1\r\n\r\n"


def answer(line, body, kind="application/json", allow=None):
    more = f"Allow: {allow}\r\n" if allow else ""
    head = f"HTTP/1.1 {line}\r\n{more}Content-Type: {kind}\r\nContent-Length: {len(body.encode())}\r\nConnection: close\r\n\r\n"
    return (head + body).encode()


def text_of(*lines):
    return answer("200 OK", "".join(line + "\n" for line in lines), "text/plain; charset=utf-8")


def without_rounds(names):
    """The standings while no round counts."""
    lines = [f"   1 {it:4}   0  33.00  33.00  33.00   {name}" for it, name in enumerate(names, 1)]
    return text_of("Rank   No Pts    OMW    GWP    OGW D Name", *lines)


# these two to the byte, as worked example 51 has them
ACCEPTED = b'HTTP/1.1 200 OK\r\nContent-Type: application/json\r\nContent-Length: 12\r\nConnection: close\r\n\r\n{"serial":7}'
NO_DELETE = (
    b"HTTP/1.1 405 Method Not Allowed\r\nAllow: GET\r\nContent-Type: application/json\r\nContent-Length: 30\r\nConnection: close\r\n\r\n"
    b'{"error":"method not allowed"}'
)
AGAIN = answer("409 Conflict", '{"name":"AlreadyReported","refused":14,"score":{"a":2,"b":1,"d":0}}')
BAD = answer("400 Bad Request", '{"error":"bad request"}')
NOT_FOUND = answer("404 Not Found", '{"error":"not found"}')
NO_MATCH = answer("404 Not Found", '{"name":"NoSuchMatch","refused":12}')
BAD_SCORE = answer("409 Conflict", '{"name":"BadScore","refused":13}')
TOO_LARGE = answer("413 Content Too Large", '{"error":"body too large"}')
SLIP_BODY = '{"first":{"name":"Di","no":4},"round":1,"score":null,"second":{"name":"Bo","no":2},"table":1}'
SLIP = answer("200 OK", SLIP_BODY)
REPORTED_SLIP = answer("200 OK", SLIP_BODY.replace("null", '{"a":2,"b":1,"d":0}'))
STANDINGS = without_rounds(["Ana", "Bo", "Cy", "Di"])
PAIRINGS = text_of(
    " Tab    A    B Score Names", "   1    4    2 -     Di - Bo", "   2    1    3 -     Ana - Cy"
)


# ---- the worked examples


def asked(program, name, file, *exchanges, is_slow=False, **how):
    """One run of `serve`, to these inputs, one after the other: in one piece, or byte by byte."""
    with Serving(program.path, file, len(exchanges), **how) as serving:
        for sent, want in exchanges:
            got = serving.ask_slowly(sent, [1] * len(sent)) if is_slow else serving.ask(sent)
            assert got == want, f"{name}, {sent[:80]!r}"
        assert serving.end() == served(len(exchanges)), f"{name}, the end"


@pytest.mark.parametrize("is_slow", [False, True], ids=["at once", "byte by byte"])
def test_posted(program, room, made, is_slow):
    """Worked example 14."""
    file = made(f"{room}/e.event")
    asked(program, "example 14", file, (POST, ACCEPTED), (POST, AGAIN), is_slow=is_slow)
    assert serial_of(file) == 7, "the serial"


def test_shown(program, room, made):
    """Worked example 51."""
    asked(
        program, "example 51", made(f"{room}/e.event"), (get("/rounds/1/tables/1"), SLIP), (DELETE, NO_DELETE)
    )


def posted(length, body):
    return b"POST /rounds/1/tables/1 HTTP/1.1\r\n" + length + b"\r\n" + body


def test_turned_down(program, room, made):
    """Worked example 23. Each leaves the event as it was."""
    cases = [
        (get("/nope"), NOT_FOUND),
        (DELETE, NO_DELETE),
        (posted(b"", b""), BAD),
        (posted(b"Content-Length: 4097\r\n", b""), TOO_LARGE),
        (posted(b"Content-Length: 7\r\n", b'{"a":2}'), BAD),
        (posted(b"Content-Length: 19\r\n", b'{"a":2,"b":2,"d":0}'), BAD_SCORE),
        (get("/rounds/9"), NO_MATCH),
    ]
    cut = [(b"", BAD), (b"GET /standings HTTP/1.1\r\nHost: a", BAD), (b"GET /standings HTTP/1.1\r\n", BAD)]
    file = made(f"{room}/e.event")
    asked(program, "example 23", file, *cases, *cut)
    asked(program, "example 23, byte by byte", file, *cases, is_slow=True)
    assert serial_of(file) == 6, "example 23, the serial"


def test_two_clients(program, room, made):
    """Worked example 36. Both have sent before either is answered."""
    file = made(f"{room}/e.event")
    with Serving(program.path, file, 2) as serving, serving.client() as first, serving.client() as second:
        sent_to_the_end(second, get("/rounds/1/tables/1"))
        time.sleep(0.05)
        sent_to_the_end(first, POST)
        assert received(first) == ACCEPTED, "example 36, the first"
        assert received(second) == REPORTED_SLIP, "example 36, the second"
        assert serving.end() == served(2), "example 36, the end"
    with socket.socket() as held:
        held.bind(("127.0.0.1", 0))
        held.listen()
        status, out, _ = program.run("serve", file, str(held.getsockname()[1]), "1")
        assert (status, out) == (3, b""), "example 36, a port that is held"


def headed(size, fields=0):
    """A GET of the standings with a head of this many bytes, or with this many fields."""
    start = b"GET /standings HTTP/1.1\r\n" + b"X: a\r\n" * fields
    return start + (b"Y: " + b"a" * (size - len(start) - 7) + b"\r\n" if size else b"") + b"\r\n"


# requests at the limits and beyond them, their answers, and the serial after them
LIMITS = [
    (headed(8192), STANDINGS, 6),
    (headed(8193), BAD, 6),
    (headed(0, 32), STANDINGS, 6),
    (headed(0, 33), BAD, 6),
    (posted(b"Content-Length: 4096\r\n", BODY + b" " * 4077), ACCEPTED, 7),
    (posted(b"Content-Length: 19\r\nContent-Length: 19\r\n", BODY), BAD, 6),
    (posted(b"Content-Length: 19\r\nTransfer-Encoding: chunked\r\n", BODY), BAD, 6),
    (posted(b"Content-Length: 25\r\n", b'{"a":2,"b":1,"d":0,"e":0}'), BAD, 6),
    (posted(b"Content-Length: 21\r\n", b'{"a":2.0,"b":1,"d":0}'), BAD, 6),
    (posted(b"Content-Length: 21\r\n", b'{"a":256,"b":1,"d":0}'), BAD, 6),
]


@pytest.mark.parametrize("is_slow", [False, True], ids=["at once", "byte by byte"])
@pytest.mark.parametrize("sent, want, serial", LIMITS, ids=range(len(LIMITS)))
def test_limits(program, room, made, sent, want, serial, is_slow):
    """Worked example 44, in one piece and byte by byte."""
    file = made(f"{room}/e.event")
    # the last byte of a head that is too long is never read
    shown = sent[:8192] if is_slow and want == BAD else sent
    asked(program, "example 44", file, (shown, want), is_slow=is_slow)
    assert serial_of(file) == serial, "the serial"


def test_a_body_that_is_cut(program, room, made):
    """Worked example 44, its last lines."""
    assert (len(headed(8192)), len(headed(8193))) == (8192, 8193), "8192 bytes"
    file = made(f"{room}/e.event")
    with Serving(program.path, file, 2) as serving:
        short = posted(b"Content-Length: 20\r\n", BODY)
        assert serving.ask(short) == BAD, "example 44, a body that is cut"
        with serving.client() as client:
            for at in range(len(short)):
                client.sendall(short[at : at + 1])
            client.shutdown(socket.SHUT_WR)
            assert received(client) == BAD, "example 44, a body that is cut, byte by byte"
        assert serving.end() == served(2), "example 44, the end"
    assert serial_of(file) == 6, "example 44, a body that is cut, the serial"


def reset(client):
    """Closes so that the other side's reads and writes fail."""
    client.setsockopt(socket.SOL_SOCKET, socket.SO_LINGER, struct.pack("ii", 1, 0))
    client.close()


def test_broken(program, room, made):
    """Worked example 45, as far as a network shows it: connections that break after each byte of the request, and before the answer is read."""
    file = made(f"{room}/e.event")
    with Serving(program.path, file, len(POST) + 5) as serving:
        for size in range(len(POST)):
            client = serving.client()
            client.sendall(POST[:size])
            reset(client)
        assert serving.ask(get("/rounds/1/tables/1")) == SLIP, "example 45, nothing was submitted"
        client = serving.client()
        client.sendall(POST)
        select.select([client], [], [], 20)
        reset(client)
        assert serving.ask(POST) == AGAIN, "example 45, the score is stored"
        client = serving.client()
        client.sendall(get("/standings"))
        client.close()
        assert serving.ask(get("/rounds/1/tables/1")) == REPORTED_SLIP, "example 45, each counts as served"
        assert serving.end() == served(len(POST) + 5), "example 45, the end"
    assert serial_of(file) == 7, "example 45, the serial"


# ---- answers beyond the examples


def test_answers(program, room, made):
    """Each route and refusal."""
    shown = [
        ("/standings", STANDINGS),
        ("/standings?x=/rounds/1", STANDINGS),
        ("/rounds/1", PAIRINGS),
        ("/rounds/001/tables/01", SLIP),
    ]
    missing = [
        ("/rounds/1/tables/3", NO_MATCH),
        ("/rounds/0", NO_MATCH),
        ("/rounds/256", NOT_FOUND),
        ("/rounds/1/", NOT_FOUND),
    ]
    asked(program, "routes", made(f"{room}/four"), *((get(target), want) for target, want in shown + missing))
    methods = answer("405 Method Not Allowed", '{"error":"method not allowed"}', allow="GET, POST")
    asked(
        program,
        "methods",
        f"{room}/four",
        (b"PUT /rounds/1/tables/1 HTTP/1.1\r\n\r\n", methods),
        (b"HEAD /rounds/1 HTTP/1.0\n\n", NO_DELETE),
    )
    bye = answer(
        "200 OK",
        '{"first":{"name":"Cy","no":3},"round":1,"score":{"a":2,"b":0,"d":0},"second":null,"table":0}',
    )
    is_bye = answer("409 Conflict", '{"name":"IsBye","refused":16}')
    asked(
        program,
        "a bye",
        made(f"{room}/bye", WITH_A_BYE),
        (get("/rounds/1/tables/0"), bye),
        (POST.replace(b"tables/1", b"tables/0"), is_bye),
    )
    not_swiss = answer("409 Conflict", '{"name":"NotSwiss","refused":6}')
    early = [
        (POST, not_swiss),
        (get("/rounds/1/tables/1"), NO_MATCH),
        (get("/rounds/1"), NO_MATCH),
        (get("/standings"), STANDINGS),
    ]
    asked(program, "before the start", made(f"{room}/new", FRIDAY[:5]), *early)
    full = made(f"{room}/full")
    by_sqlite(full, "UPDATE event SET serial = 999999")
    serial_full = answer("409 Conflict", '{"name":"SerialFull","refused":23}')
    asked(
        program,
        "the last serial",
        full,
        (POST, serial_full),
        (POST.replace(b'"b":1', b'"b":2'), BAD_SCORE),
        (get("/rounds/1/tables/1"), SLIP),
    )
    names = made(
        f"{room}/names",
        [
            ("init", "Friday", "1", "0"),
            ("enrol", 'Zoë "Zo" \\'),
            ("enrol", "大会</b>"),
            ("start",),
            ("pair", "1", ZERO),
        ],
    )
    quoted = answer(
        "200 OK",
        '{"first":{"name":"大会</b>","no":2},"round":1,"score":null,"second":{"name":"Zoë \\"Zo\\" \\\\","no":1},"table":1}',
    )
    asked(program, "names", names, (get("/rounds/1/tables/1"), quoted))


def test_full_disk(program, room, made):
    """A disk on which nothing can grow from here on: the score isn't stored, and nothing more is answered from that run."""
    file = made(f"{room}/e.event")
    no_store = answer("503 Service Unavailable", '{"name":"Store","refused":25}')
    needs_reopen = answer("503 Service Unavailable", '{"name":"NeedsReopen","refused":26}')
    # Python runs with SIGXFSZ ignored, and the program then does too
    with Serving(program.path, file, 6, restore_signals=False) as serving:
        assert serving.ask(get("/rounds/1/tables/1")) == SLIP, "before the disk is full"
        resource.prlimit(serving.process.pid, resource.RLIMIT_FSIZE, (0, 0))
        assert serving.ask(POST) == no_store, "a full disk"
        for sent in (POST, get("/standings"), get("/rounds/1/tables/1")):
            assert serving.ask(sent) == needs_reopen, f"after a full disk, {sent[:40]!r}"
        assert serving.ask(get("/nope")) == NOT_FOUND, "after a full disk, no route"
        assert serving.end() == served(6), "after a full disk, the end"
    asked(program, "on a disk with room", file, (POST, ACCEPTED))


# ---- how the program ends, and what it refuses


def test_words(program, room, made):
    """What `serve` refuses, before it listens."""
    missing, file = f"{room}/none", made(f"{room}/e.event")
    for words in (
        ("0", "0"),
        ("0", "1000001"),
        ("65536", "1"),
        ("+1", "1"),
        ("0", "x"),
        ("0",),
        ("0", "1", "1"),
    ):
        status, out, err = program.run("serve", missing, *words)
        assert (status, out, err.startswith(b"event_reporter: ")) == (2, b"", True), f"serve {words}"
    assert program.run("serve", missing, "0", "1") == due(["refused 27 NoEvent"]), "no such file"
    assert not os.path.exists(missing), "no such file, and none is made"
    assert (
        subprocess.run([program.path], input=b"serve\t0\t1\n", capture_output=True, timeout=PATIENCE).stdout
        == b"usage\n"
    ), "script"
    with Serving(program.path, file, "00001", "000") as serving:
        assert serving.ask(get("/rounds/1")) == PAIRINGS, "zeros in front"
        assert serving.end() == served(1), "zeros in front, the end"
    with Serving(program.path, file, 1_000_000):
        pass
    with open("/dev/full", "wb") as full:
        ran = subprocess.run(
            [program.path, "serve", file, "0", "1"],
            stdin=subprocess.DEVNULL,
            stdout=full,
            stderr=subprocess.PIPE,
            timeout=PATIENCE,
        )
        assert ran.returncode == 3, "a full output"


def test_address(program, room, made):
    """It listens on 127.0.0.1 and on no other address of the machine."""
    with Serving(program.path, made(f"{room}/e.event"), 1) as serving:
        with socket.socket() as other:
            assert other.connect_ex(("127.0.0.2", serving.port)) == errno.ECONNREFUSED, "another address"
        assert serving.ask(get("/rounds/1")) == PAIRINGS, "127.0.0.1"
        assert serving.end() == served(1), "127.0.0.1, the end"


def test_locked(program, room, made):
    """The file is held as long as it is served. Two can't serve it, and other command lines wait for the end."""
    file = made(f"{room}/e.event")
    with Serving(program.path, file, 2) as serving:
        held = due(["refused 25 Store"])
        assert program.run("players", file) == held, "held, players"
        assert program.run("correct", file, "1", "1", "2", "0", "0") == held, "held, correct"
        assert program.run("serve", file, "0", "1") == held, "held, serve"
        assert serving.ask(POST) == ACCEPTED, "held, and served"
        assert program.run("result", file, "1", "2", "2", "0", "0") == held, "held still"
        assert serving.ask(get("/rounds/1/tables/1")) == REPORTED_SLIP, "held, and served again"
        assert serving.end() == served(2), "held, the end"
    assert program.run("result", file, "1", "2", "2", "0", "0") == due(["ok 8"]), "no longer held"


def test_ended(program, room, made):
    """Ctrl-C between two requests. It can be served again at once, on the same port."""
    file = made(f"{room}/e.event")
    port = free_port()
    with Serving(program.path, file, 100, port, preexec_fn=hear_interrupts) as serving:
        assert serving.ask(POST) == ACCEPTED, "before Ctrl-C"
        serving.process.send_signal(signal.SIGINT)
        assert serving.end()[:2] == (-signal.SIGINT, b""), "Ctrl-C"
    assert program.run("result", file, "1", "2", "2", "0", "0") == due(["ok 8"]), "after Ctrl-C"
    asked(program, "after Ctrl-C, the same port", file, (POST, AGAIN), port=port)


def test_no_connection(program, room, made):
    """If the system gives no connection, as at its limit on open files, serving ends as on a fault of the device. What was answered is stored."""
    file = made(f"{room}/e.event")
    with Serving(program.path, file, 9) as serving:
        assert serving.ask(get("/rounds/1")) == PAIRINGS, "before the limit"
        resource.prlimit(serving.process.pid, resource.RLIMIT_NOFILE, (0, 0))
        # a call that waits for a client already has a place for it
        was_answered = serving.ask(POST) == ACCEPTED
        assert serving.end() == (3, b"", b""), "no connection, the end"
    assert serial_of(file) == (7 if was_answered else 6), "after no connection, the serial"


# ---- clients


def test_line(program, room, made):
    """A hundred clients wait while the first one has not sent all, and are then answered in their order. It sends a byte before each of them, since it is
    let go where none comes for a second."""
    file = made(f"{room}/e.event")
    sent = get("/rounds/1").replace(b"\r\n\r\n", b"\r\nX: " + b"a" * 100 + b"\r\n\r\n")
    with Serving(program.path, file, 101) as serving:
        first, others = serving.client(), []
        for number in range(100):
            sent_whole(first, sent[number : number + 1])
            others.append(serving.client())
            sent_whole(others[-1], POST if number == 50 else get("/rounds/1/tables/1"))
        assert select.select(others, [], [], 0.3)[0] == [], "while the first one has not sent all"
        sent_whole(first, sent[100:])
        assert received(first) == PAIRINGS, "the first one"
        answers = [received(client) for client in others]
        assert answers == [SLIP] * 50 + [ACCEPTED] + [REPORTED_SLIP] * 49, "a hundred that wait"
        assert serving.end() == served(101), "a hundred that wait, the end"
        for client in (first, *others):
            client.close()


def test_gone(program, room, made):
    """Clients that connect and go, or send a part and go."""
    file = made(f"{room}/e.event")
    with Serving(program.path, file, 5) as serving:
        serving.client().close()
        reset(serving.client())
        with serving.client() as client:
            client.sendall(POST[:40])
        with serving.client() as client:
            client.sendall(POST[:-1])
        assert serving.ask(POST) == ACCEPTED, "after ones that went"
        assert serving.end() == served(5), "after ones that went, the end"


def test_gone_in_the_line(program, room, made):
    """A client that handed its score in, and went before it had its turn: the score is stored or not, and sent again it is taken, or answered with
    itself.
    """
    file = made(f"{room}/e.event")
    with Serving(program.path, file, 4) as serving, serving.client() as first:
        gone = serving.client()
        sent_to_the_end(gone, POST)
        reset(gone)
        sent_whole(first, get("/rounds/1"))
        assert received(first) == PAIRINGS, "before one that went"
        is_stored = serving.ask(get("/rounds/1/tables/1")) == REPORTED_SLIP
        assert serving.ask(POST) == (AGAIN if is_stored else ACCEPTED), "after one that went"
        assert serving.end() == served(4), "after one that went, the end"
    assert serial_of(file) == 7, "after one that went, the serial"


def test_slow_reader(program, room, made):
    """A client that reads late, and a little at a time, gets the whole of a long answer."""
    names = [f"N{it}" + "x" * 55 for it in range(1, 513)]
    file = made(f"{room}/e.event", [("init", "Friday", "3", "0"), ("enrol", names[0]), ("enrol", names[1])])
    base = sqlite3.connect(file)
    base.executemany(
        "INSERT INTO player2 VALUES (?, ?, 0, 0)", [(it, name) for it, name in enumerate(names, 1) if it > 2]
    )
    base.executemany("INSERT INTO tally VALUES (?, 0, 0, 0, 0)", [(it,) for it in range(3, len(names) + 1)])
    base.commit()
    base.close()
    want = without_rounds(names)
    with Serving(program.path, file, 2) as serving:
        with socket.socket() as client:
            client.setsockopt(socket.SOL_SOCKET, socket.SO_RCVBUF, 2048)
            client.settimeout(PATIENCE)
            client.connect(("127.0.0.1", serving.port))
            client.sendall(get("/standings"))
            time.sleep(0.3)
            got = b""
            while more := client.recv(1000):
                got += more
                time.sleep(0.001)
        assert got == want, "a slow reader"
        assert serving.ask(get("/standings")) == want, "a quick one"
        assert serving.end() == served(2), "a slow reader, the end"


def test_python(program, room, made):
    """Python's own client."""
    file = made(f"{room}/e.event")
    cases = [
        ("GET", "/rounds/1/tables/1", None, 200, "application/json", SLIP_BODY.encode()),
        ("POST", "/rounds/1/tables/1", BODY, 200, "application/json", b'{"serial":7}'),
        (
            "POST",
            "/rounds/1/tables/1",
            BODY,
            409,
            "application/json",
            b'{"name":"AlreadyReported","refused":14,"score":{"a":2,"b":1,"d":0}}',
        ),
        (
            "GET",
            "/rounds/1",
            None,
            200,
            "text/plain; charset=utf-8",
            PAIRINGS.split(b"\r\n\r\n")[1].replace(b"-     Di", b"2-1-0 Di"),
        ),
        ("GET", "/nope", None, 404, "application/json", b'{"error":"not found"}'),
        ("POST", "/standings", BODY, 405, "application/json", b'{"error":"method not allowed"}'),
    ]
    with Serving(program.path, file, len(cases)) as serving:
        for method, target, body, *want in cases:
            client = http.client.HTTPConnection("127.0.0.1", serving.port, timeout=PATIENCE)
            client.request(method, target, body)
            came = client.getresponse()
            assert [
                came.status,
                came.getheader("Content-Type"),
                came.read(),
            ] == want, f"http.client, {method} {target}"
            client.close()
        assert serving.end() == served(len(cases)), "http.client, the end"
    large, count = ["POST", "/rounds/1/tables/1", b" " * 1_000_000], 20
    with Serving(program.path, file, count) as serving:
        for it in range(1, count + 1):
            client = http.client.HTTPConnection("127.0.0.1", serving.port, timeout=PATIENCE)
            client.request(*large)
            came = client.getresponse()
            assert [came.status, came.read()] == [
                413,
                b'{"error":"body too large"}',
            ], f"http.client, a megabyte, {it}"
            client.close()
        assert serving.end() == served(count), "http.client, megabytes, the end"


def curl(serving, target, *words):
    ran = subprocess.run(
        ["curl", "-s", "--max-time", str(PATIENCE), *words, f"http://127.0.0.1:{serving.port}{target}"],
        capture_output=True,
        timeout=PATIENCE,
    )
    return ran.returncode, ran.stdout


@pytest.mark.needs("requests by curl", command="curl")
def test_curl(program, room, made):
    """curl, with its head and its body as they came."""
    file, at, to_table = made(f"{room}/e.event"), "/rounds/1/tables/1", ["--data", BODY.decode()]
    cases = [
        ([], "/standings", STANDINGS),
        (["--http1.0"], "/rounds/1", PAIRINGS),
        (["--limit-rate", "100"], at, SLIP),
        (["--http1.0", *to_table], "/rounds/1/tables/2", ACCEPTED),
        (to_table, at, answer("200 OK", '{"serial":8}')),
        ([*to_table, "--limit-rate", "50"], at, AGAIN),
        (["--json", BODY.decode()], at, AGAIN),
        (["--data", '{"a":2}'], at, BAD),
        (["-H", "Transfer-Encoding: chunked", *to_table], at, BAD),
        (["-H", "Content-Length: 4097", *to_table], at, TOO_LARGE),
        ([], "/nope", NOT_FOUND),
        ([], "/rounds/9", NO_MATCH),
        (["-X", "DELETE"], "/standings", NO_DELETE),
    ]
    with Serving(program.path, file, len(cases)) as serving:
        for words, target, want in cases:
            assert curl(serving, target, "-i", *words) == (0, want), f"curl {words} {target}"
        assert serving.end() == served(len(cases)), "curl, the end"


@pytest.mark.needs("requests by curl and jq", command="curl")
@pytest.mark.needs("requests by curl and jq", command="jq")
def test_jq(program, room, made):
    """jq reads each JSON body."""
    file, at, to_table = made(f"{room}/e.event"), "/rounds/1/tables/1", ["--data", BODY.decode()]
    cases = [
        (
            [],
            at,
            "[.first.name, .first.no, .second.name, .second.no, .round, .table, .score]",
            '["Di",4,"Bo",2,1,1,null]',
        ),
        (to_table, at, ".serial", "7"),
        (to_table, at, "[.name, .refused, .score.a, .score.b, .score.d]", '["AlreadyReported",14,2,1,0]'),
        ([], at, ".score", '{"a":2,"b":1,"d":0}'),
        ([], "/rounds/9", "[.name, .refused]", '["NoSuchMatch",12]'),
        ([], "/nope", ".error", '"not found"'),
        (["-X", "PUT"], at, ".error", '"method not allowed"'),
        (["--data", "{}"], at, ".error", '"bad request"'),
        (["-H", "Content-Length: 5000", "--data", "{}"], at, ".error", '"body too large"'),
    ]
    with Serving(program.path, file, len(cases)) as serving:
        for words, target, wish, want in cases:
            _, body = curl(serving, target, *words)
            ran = subprocess.run(["jq", "-c", wish], input=body, capture_output=True, timeout=PATIENCE)
            assert (ran.returncode, ran.stdout.decode()) == (0, want + "\n"), f"jq {wish} of {target}"
        assert serving.end() == served(len(cases)), "jq, the end"
