"""Scores from phones over a socket: phones that hand in at once while the prompt corrects and goes back to a copy, a new event, a full disk, a proxy, guesses,
silent clients, and streams of bytes, which h11 judges if it is installed. Kills are in `tests.faults.phone_kills`.
"""
import concurrent.futures
import contextlib
import http.client
import importlib
import importlib.util
import json
import os
import re
import shutil
import socket
import stat
import statistics
import subprocess
import threading
import time

import pytest

from tests.support.event_files import rows_alone
from tests.support.phone_rooms import (
    PATIENCE,
    PHONES,
    PYTHON,
    SCORES,
    Burst,
    Gateway,
    address,
    kept_secret,
    made,
    results,
    slips_for,
    targets,
)
from tests.support.prompt import check_said
from tests.support.proxies import Proxied
from tests.support.serving import free_port, received, sent_whole
from tests.support.waiting import comes

# phone_rooms has put it on the path
from event_companions.beside.troubles import kept_troubles

pytestmark = [
    pytest.mark.needs("phones that are served", module="jinja2", package="python3-jinja2"),
    pytest.mark.needs("phones that are served", module="waitress", package="python3-waitress"),
]
# connections that send nothing, and streams of bytes, the second number with --long
SILENT, STREAMS = 900, (300, 8_000)


def test_beside(prompt, program, room, dice):
    """Phones hand in at once while the prompt corrects: each is answered, and the file has what was answered."""
    file = made(program.path, f"{room}/e.event", 64, results=[(it, 2, 0, 0) for it in range(1, 7)])
    with Gateway(program.path, file) as gateway:
        aims = {table: it for table, it in targets(program.path, file).items() if table > 6}
        scores = {it: dice.choice(SCORES) for it in aims}
        burst = Burst(gateway, aims, scores)
        status, said = prompt.typed(file, *(f"fix {it} 0 2" for it in range(1, 7)))
        burst.end()
        assert status == 0, "the prompt"
        assert len(re.findall("^ok ", said, re.M)) == 6, "corrections"
        assert (burst.acknowledged, burst.others) == (scores, []), "each phone is answered"
        stored = results(program.path, file)
        assert {it: stored[1, it] for it in aims} == scores, "the file has it"
        assert {stored[1, it] for it in range(1, 7)} == {"0-2-0"}, "and the corrections"
        assert second_on(program, file)[0] == 3, "a second one on the same file"
        assert gateway.ask("GET", "/")[0] == 200, "the first one goes on"
        status, fields, text = gateway.ask("GET", "/", port=gateway.desk_port)
        assert (status, "32 of 32 scores are in" in text) == (200, True), "the scorekeeper's page"
    assert stopped(program, file) == (0, ""), "it is stopped by Ctrl-C"


def second_on(program, file):
    words = [
        *PYTHON,
        PHONES,
        file,
        "--at",
        f"127.0.0.1:{free_port()}",
        "--desk",
        str(free_port()),
        "--program",
        program.path,
    ]
    ran = subprocess.run(words, stdin=subprocess.DEVNULL, capture_output=True, text=True, timeout=PATIENCE)
    assert "Another event-phones serves" in ran.stderr, "what it says"
    return ran.returncode, ran.stderr


def stopped(program, file):
    return Gateway(program.path, file).interrupt()


def test_back(prompt, program, room, dice):
    """The scorekeeper goes back to a copy while phones hand in: what was acknowledged is in the event of then, or in the one that was put away."""
    file = made(program.path, f"{room}/e.event", 48)
    slips_for(file)
    prompt.said(file, "copy")
    with Gateway(program.path, file) as gateway:
        aims = targets(program.path, file)
        scores = {it: dice.choice(SCORES) for it in aims}
        burst = Burst(gateway, aims, scores)
        status, said = prompt.typed(file, "back 1", "y")
        assert status == 0, "the prompt"
        check_said("back", said, "Go on from this copy?", "The event that was in use is ")
        burst.end()
        assert (burst.acknowledged, burst.others) == (scores, []), "each phone is answered"
        away = next(f"{room}/{it}" for it in os.listdir(room) if re.search(r"\.away-\d+-\d+-\d+$", it))
        before, now = results(program.path, away), results(program.path, file)
        lost = [it for it, score in scores.items() if score not in (before[1, it], now[1, it])]
        assert lost == [], "none is lost"
        # what was handed in before is to be handed in again, and the pages say so within some seconds
        missing = [table for (_, table), score in results(program.path, file).items() if not score]
        assert comes(
            lambda: all(asks_for_a_score(gateway, table, aims[table]) for table in missing)
        ), "the pages ask again"
        again = Burst(gateway, aims, scores).end()
        assert (again.acknowledged, again.others) == (scores, []), "handed in again"
        assert targets(program.path, file) == aims, "the codes are the same"
    assert {it: score for (_, it), score in results(program.path, file).items()} == scores, "the file has it"


def asks_for_a_score(gateway, table, target):
    return 'value="2-0-0"' in gateway.ask("GET", target, source=address(table))[2]


def test_new_event(prompt, program, room):
    """If a new event begins in the place of the old one, it ends, since the codes are put away."""
    file = made(program.path, f"{room}/e.event")
    with Gateway(program.path, file) as gateway:
        for ending in ("", "-wal", ".turn"):
            with contextlib.suppress(FileNotFoundError):
                os.unlink(file + ending)
        prompt.said(file, "init Sunday 2 0")
        status, errors = gateway.end()
        assert (status, "a new event began here" in errors) == (3, True), "a new event"


def test_lost_codes(program, room):
    """FILE.phones that is touched, taken away alone, or put away with the event: the codes stay good, and it is written again."""
    file = made(program.path, f"{room}/e.event")
    with Gateway(program.path, file) as gateway:
        aims, kept = targets(program.path, file), kept_secret(file)
        os.utime(f"{file}.phones", (1, 1))
        os.rename(f"{file}.phones", f"{room}/away")
        assert comes(lambda: kept_secret(file) == kept, 60), "it is written again"
        assert second_on(program, file)[0] == 3, "and locked again"
        os.mkdir(f"{room}/wrong")
        for name in os.listdir(room):
            if name.startswith("e.event"):
                os.rename(f"{room}/{name}", f"{room}/wrong/{name}")
        assert comes(
            lambda: "refused 27" in gateway.ask("GET", "/", port=gateway.desk_port)[2], 60
        ), "the event is away"
        shutil.copy(f"{room}/wrong/e.event", file)
        assert comes(lambda: kept_secret(file) == kept, 60), "beside the same event it is written again"
        assert gateway.hand_in(aims[1], "2-0-0") == (303, aims[1]), "the codes stay good"
        assert gateway.interrupt() == (0, ""), "it ends as ever"
    assert results(program.path, file)[1, 1] == "2-0-0", "the file"


def test_full_disk(program, room):
    """FILE.reports can't be written: what the program took is shown all the same, and the scorekeeper's page says what is wrong."""
    file = made(program.path, f"{room}/e.event")
    os.symlink("/dev/full", f"{file}.reports")
    with Gateway(program.path, file) as gateway:
        aims = targets(program.path, file)
        assert gateway.hand_in(aims[1], "2-0-0") == (303, aims[1]), "stored after a full disk"
        assert gateway.hand_in(aims[1], "0-2-0")[0] == 303, "another score"
        text = gateway.ask("GET", "/", port=gateway.desk_port)[2]
        check_said("the scorekeeper's page", text, "be written: 2 reports", "fix 1 1 0 2 0")
        errors = gateway.kill()[1]
    assert results(program.path, file)[1, 1] == "2-0-0", "the file"
    assert "No space left on device" in errors, "it is said"


def test_troubles(program, room):
    """What can't be read is told on the scorekeeper's page and to the prompt, until it can; phones go on."""
    file = made(program.path, f"{room}/e.event")
    with Gateway(program.path, file) as gateway:
        aims = targets(program.path, file)
        page = lambda: gateway.ask("GET", "/", port=gateway.desk_port)[2]
        os.mkdir(f"{file}.names")
        assert comes(lambda: "e.event.names: Is a directory" in page(), 60), "the scorekeeper's page"
        assert "e.event.names: Is a directory" in " ".join(kept_troubles(file).lines), "the prompt"
        assert gateway.hand_in(aims[1], "2-0-0") == (303, aims[1]), "a score is stored meanwhile"
        os.rmdir(f"{file}.names")
        assert comes(lambda: "Is a directory" not in page(), 60), "it is over"
        assert comes(lambda: "3 4" in page() and "1 of 4 scores are in" in page(), 60), "and it goes on"
        status, errors = gateway.interrupt()
        assert (status, errors, os.path.exists(f"{file}.troubles")) == (0, "", False), "it ends as ever"


def test_proxy(program, room):
    """Behind a proxy on this machine the guest's address is the one that the proxy names; from elsewhere such a field counts for nothing."""
    file = made(program.path, f"{room}/e.event")
    with Gateway(program.path, file, "--listen", f"127.0.0.1:{free_port()}", "--behind-proxy") as gateway:
        gateway.port = next(int(it) for it in listening(gateway.process.pid) if int(it) != gateway.desk_port)
        aims = targets(program.path, file)
        named = {"Host": kept_secret(file).shown_address}
        assert (
            gateway.ask("POST", aims[1], "s=2-0-0", X_Forwarded_For="203.0.113.9", **named)[0] == 303
        ), "through the proxy"
        assert gateway.ask("GET", "/", Host="evil.example")[0] == 421, "a foreign host"
    with Gateway(program.path, file) as gateway:
        assert (
            gateway.ask(
                "POST",
                aims[2],
                "s=2-0-0",
                "127.0.0.7",
                X_Forwarded_For="203.0.113.9",
                **{"Host": f"127.0.0.1:{gateway.port}"},
            )[0]
            == 303
        ), "without a proxy"
    with open(f"{file}.reports") as it:
        assert [json.loads(line)["origin"] for line in it] == [
            "203.0.113.9",
            "127.0.0.7",
        ], "where they came from"


@pytest.mark.parametrize(
    "kind",
    [
        pytest.param(
            "caddy", marks=pytest.mark.needs("phones behind caddy", command="caddy", package="caddy")
        ),
        pytest.param(
            "nginx",
            marks=pytest.mark.needs(
                "phones behind nginx", command=("nginx", "/usr/sbin/nginx"), package="nginx"
            ),
        ),
    ],
)
def test_behind_proxy(program, room, dice, kind):
    """Behind a proxy as the guide has it: each phone is answered, and counted by its own address."""
    file = made(program.path, f"{room}/e.event", 64)
    with Proxied(kind, program.path, file, room) as gateway:
        aims = targets(program.path, file)
        scores = {it: dice.choice(SCORES) for it in aims}
        # pages on each connection that the proxy keeps, before the scores go over them
        with concurrent.futures.ThreadPoolExecutor(16) as phones:
            pages = list(
                phones.map(
                    lambda table: gateway.ask("GET", aims[table], source=address(table))[0], list(aims) * 4
                )
            )
        burst = Burst(gateway, aims, scores).end()
        assert (set(pages), burst.acknowledged, burst.others) == ({200}, scores, []), "each phone is answered"
        assert (
            gateway.ask("GET", "/", source=address(90), X_Forwarded_For="203.0.113.9")[0] == 200
        ), "a guest who names an address"
    assert {
        table: score for (_, table), score in results(program.path, file).items()
    } == scores, "the file has it"
    with open(f"{file}.reports") as it:
        assert {report["table"]: report["origin"] for report in map(json.loads, it)} == {
            it: address(it) for it in aims
        }, "where they came from"


def listening(process):
    """The ports at which a process listens."""
    inodes = set()
    for it in os.listdir(f"/proc/{process}/fd"):
        with contextlib.suppress(OSError):
            found = re.fullmatch(r"socket:\[(\d+)\]", os.readlink(f"/proc/{process}/fd/{it}"))
            inodes |= {found[1]} if found else set()
    with open("/proc/net/tcp") as it:
        rows = [line.split() for line in it][1:]
    return [str(int(row[1].split(":")[1], 16)) for row in rows if row[3] == "0A" and row[9] in inodes]


def test_only_here(program, room):
    """The scorekeeper's page is listened to on 127.0.0.1 alone, and no foreign page is answered there."""
    file = made(program.path, f"{room}/e.event")
    with Gateway(program.path, file) as gateway:
        with open("/proc/net/tcp") as it:
            rows = [line.split() for line in it][1:]
        places = {
            row[1] for row in rows if row[3] == "0A" and int(row[1].split(":")[1], 16) == gateway.desk_port
        }
        assert places == {f"0100007F:{gateway.desk_port:04X}"}, "listened to on 127.0.0.1 alone"
        assert (
            gateway.ask("GET", "/", port=gateway.desk_port, Host="rebound.example")[0] == 421
        ), "another host"
        assert gateway.ask("POST", "/", "s=2-0-0", port=gateway.desk_port)[0] == 404, "a POST"
        assert stat.S_IMODE(os.stat(f"{file}.phones").st_mode) == 0o600, "the key is for its owner"
        assert stat.S_IMODE(os.stat(f"{file}.turn").st_mode) == 0o600, "and the turn"


def test_silent(program, room):
    """Connections of one address that send nothing, or a byte now and then: another phone is answered as ever."""
    file = made(program.path, f"{room}/e.event", 64)
    with Gateway(program.path, file) as gateway:
        aims = list(targets(program.path, file).items())

        def seconds_for(table, target, what):
            begun = time.monotonic()
            assert gateway.hand_in(target, "2-0-0", "127.0.77.7")[0] == 303, f"table {table}, {what}"
            return time.monotonic() - begun

        before = statistics.median(seconds_for(*aim, "before") for aim in aims[8:13])

        def is_answered_as_ever():
            """Delayed by less than half a second at the median."""
            held = []
            for _ in range(SILENT):
                with contextlib.suppress(OSError):
                    held.append(
                        socket.create_connection(
                            ("127.0.0.1", gateway.port), timeout=3, source_address=("127.0.9.9", 0)
                        )
                    )
            seconds = []
            for at, aim in enumerate(aims[:8]):
                for it in held if at % 2 else ():
                    with contextlib.suppress(OSError):
                        it.send(b"G")
                seconds.append(seconds_for(*aim, "beside the silent"))
            ports = listening_clients(gateway.port)
            assert sum(it.getsockname()[1] in ports for it in held) <= 24, "this many of one address stay"
            for it in held:
                it.close()
            return statistics.median(seconds) - before < 0.5

        # where the machine does something else for a moment, it is tried again
        assert comes(is_answered_as_ever), "beside the silent"


def listening_clients(port):
    """The clients' ports of connections that the server has open."""
    with open("/proc/net/tcp") as it:
        rows = [line.split() for line in it][1:]
    return {
        int(row[2].split(":")[1], 16)
        for row in rows
        if row[3] == "01" and int(row[1].split(":")[1], 16) == port
    }


# ---- bytes


def head(*lines):
    return "\r\n".join(lines).encode("latin-1") + b"\r\n\r\n"


def odd_requests(host, target):
    """Requests that are faulty or of two meanings, each with the score of a table that is open; and which statuses may come. None stores anything."""
    post, form, body = (
        f"POST {target} HTTP/1.1",
        "Content-Type: application/x-www-form-urlencoded",
        b"s=2-0-0",
    )
    whole = head(post, f"Host: {host}", form, "Content-Length: 7") + body
    bad = {400}
    return [
        (
            "two lengths",
            head(post, f"Host: {host}", form, "Content-Length: 7", "Content-Length: 8") + body + b"x",
            bad,
        ),
        (
            "two lengths in a line",
            head(post, f"Host: {host}", form, "Content-Length: 7, 8") + body + b"x",
            bad,
        ),
        ("a length below none", head(post, f"Host: {host}", form, "Content-Length: -7") + body, bad),
        ("a length with a sign", head(post, f"Host: {host}", form, "Content-Length: +7") + body, bad),
        ("a length in hexadecimals", head(post, f"Host: {host}", form, "Content-Length: 0x7") + body, bad),
        (
            "a length and chunks",
            head(post, f"Host: {host}", form, "Content-Length: 0", "Transfer-Encoding: chunked")
            + b"7\r\n"
            + body
            + b"\r\n0\r\n\r\n",
            bad,
        ),
        (
            "chunks",
            head(post, f"Host: {host}", form, "Transfer-Encoding: chunked")
            + b"7\r\n"
            + body
            + b"\r\n0\r\n\r\n",
            bad,
        ),
        (
            "another encoding",
            head(post, f"Host: {host}", form, "Transfer-Encoding: gzip, chunked") + body,
            {400, 501},
        ),
        ("no host", head(post, form, "Content-Length: 7") + body, {400, 421}),
        (
            "two hosts",
            head(post, f"Host: {host}", "Host: evil.example", form, "Content-Length: 7") + body,
            {400, 421},
        ),
        ("a space before the colon", head(post, f"Host: {host}", form, "Content-Length : 7") + body, bad),
        (
            "a line that goes on",
            head(post, f"Host: {host}", form, "X: a", " b", "Content-Length: 8") + body,
            {400, ""},
        ),
        ("a NUL in the head", head(post, f"Host: {host}\0", form, "Content-Length: 7") + body, {400, 421}),
        (
            "a long line",
            head(post, f"Host: {host}", f"X: {'a' * 9000}", form, "Content-Length: 7") + body,
            {400, 431},
        ),
        (
            "a long target",
            head(f"POST {target}?{'a' * 9000} HTTP/1.1", f"Host: {host}", form, "Content-Length: 7") + body,
            {400, 431},
        ),
        (
            "a long body",
            head(post, f"Host: {host}", form, "Content-Length: 100000") + b"a" * 3000,
            {400, 413},
        ),
        (
            "another version",
            head(f"POST {target} HTTP/9.9", f"Host: {host}", form, "Content-Length: 7") + body,
            {400, 505},
        ),
        ("no version", f"POST {target}\r\n\r\n".encode() + body, {400, 421}),
        (
            "spaces",
            head(f"POST  {target}  HTTP/1.1", f"Host: {host}", form, "Content-Length: 7") + body,
            {400, 404, 405},
        ),
        ("TRACE", head(f"TRACE {target} HTTP/1.1", f"Host: {host}"), {400, 405, 501}),
        ("CONNECT", head(f"CONNECT {host} HTTP/1.1", f"Host: {host}"), {400, 404, 405, 501}),
        ("half a request", whole[:-3], {"", 400}),
        (
            "of another site",
            head(post, f"Host: {host}", "Origin: http://evil.example", form, "Content-Length: 7") + body,
            {403},
        ),
    ]


class Judge:
    """Whether bytes are answers as RFC 9112 has them: by h11, if it is installed."""

    def __init__(self):
        self.h11 = importlib.import_module("h11") if importlib.util.find_spec("h11") else None

    def statuses(self, answered, method="GET"):
        """The statuses of all answers, or None if they are none."""
        if not self.h11:
            return [int(it) for it in re.findall(rb"^HTTP/1\.[01] (\d{3}) ", answered, re.M)]
        found, rest = [], answered
        while rest:
            connection = self.h11.Connection(self.h11.CLIENT)
            connection.send(self.h11.Request(method=method, target="/", headers=[("Host", "x")]))
            connection.send(self.h11.EndOfMessage())
            connection.receive_data(rest)
            try:
                event = connection.next_event()
                while not isinstance(event, self.h11.EndOfMessage):
                    if isinstance(event, self.h11.Response):
                        found.append(event.status_code)
                    if event is self.h11.NEED_DATA:
                        connection.receive_data(b"")
                    event = connection.next_event()
            except self.h11.RemoteProtocolError:
                return None
            rest = connection.trailing_data[0]
        return found


@pytest.fixture
def judge():
    return Judge()


@pytest.mark.needs("a strict parser of what is answered", module="h11", package="python3-h11")
def test_a_strict_parser_judges(judge):
    assert judge.statuses(b"HTTP/1.1 200 OK\r\nContent-Length: 2\r\n\r\nab") == [200]
    assert judge.statuses(b"HTTP/1.1 200 OK\r\nContent-Length : 2\r\n\r\nab") is None


def exchanged(gateway, data, source, shut=True):
    """All that is answered to these bytes, and whether the connection ended."""
    with socket.create_connection(
        ("127.0.0.1", gateway.port), timeout=PATIENCE, source_address=(source, 0)
    ) as client:
        sent_whole(client, data)
        if shut:
            with contextlib.suppress(OSError):
                client.shutdown(socket.SHUT_WR)
        return received(client)


def test_faulty_requests(program, room, judge):
    """Faulty requests one by one: the file stays as it is."""
    file = made(program.path, f"{room}/e.event")
    before = rows_alone(file)
    with Gateway(program.path, file) as gateway:
        host, aims = f"127.0.0.1:{gateway.port}", targets(program.path, file)
        for at, (name, data, allowed) in enumerate(odd_requests(host, aims[1])):
            came = judge.statuses(exchanged(gateway, data, address(at)))
            got = "no answer of HTTP" if came is None else came[0] if came else ""
            assert got in allowed, name
        assert rows_alone(file) == before, "none of them stored anything"
        # a second request that hides in the body of the first
        hidden = (
            head(
                f"POST {aims[2]} HTTP/1.1",
                f"Host: {host}",
                "Content-Type: application/x-www-form-urlencoded",
                "Content-Length: 7",
            )
            + b"s=0-2-0"
        )
        first = (
            head("GET / HTTP/1.1", f"Host: {host}", f"Content-Length: {len(hidden)}", "Content-Length: 0")
            + hidden
        )
        exchanged(gateway, first, address(70))
        assert results(program.path, file)[1, 2] == "", "nothing is smuggled in"


def test_streams(request, program, room, dice, judge):
    """Streams of bytes: nothing fails, and the next phone is served."""
    file = made(program.path, f"{room}/e.event")
    with Gateway(program.path, file) as gateway:
        host, aims = f"127.0.0.1:{gateway.port}", targets(program.path, file)
        spoilt = aims[3][:-2] + "AA"
        whole = [
            head("GET / HTTP/1.1", f"Host: {host}"),
            head(
                f"POST {spoilt} HTTP/1.1",
                f"Host: {host}",
                "Content-Type: application/x-www-form-urlencoded",
                "Content-Length: 7",
            )
            + b"s=2-0-0",
        ]
        failed, odd = 0, []
        for at in range(STREAMS[request.config.option.long]):
            data = (
                bytes(dice.getrandbits(8) for _ in range(dice.randrange(1500)))
                if at % 2
                else changed(dice, dice.choice(whole))
            )
            answered = exchanged(gateway, data, address(100 + at % 20000))
            came = judge.statuses(answered)
            failed += came is not None and 500 in came
            # what is too old for a status line is answered by waitress with a plain one, and closed
            odd += [answered[:60]] if came is None and not answered.startswith(b"HTTP/1.") else []
        assert (failed, odd) == (0, []), "streams that made it fail"
        assert gateway.ask("GET", "/", source="127.0.66.1")[0] == 200, "alive"
        assert gateway.hand_in(aims[4], "2-0-0", "127.0.66.1")[0] == 303, "the next phone"
        status, errors = gateway.kill()
        assert errors == "", "nothing on standard error"
    stored = {table: score for (_, table), score in results(program.path, file).items() if score}
    assert {4: "2-0-0", **stored} == stored, "the file has that one score"


def changed(dice, data):
    """A request with a few bytes changed, put in or cut."""
    data = bytearray(data)
    for _ in range(dice.randrange(1, 6)):
        at = dice.randrange(len(data))
        piece = bytes(dice.getrandbits(8) for _ in range(4))
        data[at : at + dice.randrange(3)] = dice.choice(
            [
                b"",
                b"\r\n",
                b"\n",
                b"\0",
                b"%00",
                piece,
                b"A" * 3000,
                b"Transfer-Encoding: chunked\r\n",
                b"Content-Length: 9\r\n",
            ]
        )
    return bytes(data)


@pytest.mark.parametrize("guessing", [6, 24])
def test_guesses(program, room, dice, guessing):
    """Codes tried at random over connections of one address, over which players come too: a right code is never turned away."""
    file = made(program.path, f"{room}/e.event", 32)
    with Gateway(program.path, file, "--from-one", "500") as gateway:
        aims, stop, tried = targets(program.path, file), threading.Event(), []

        def guess():
            while not stop.is_set():
                code = "".join(dice.choice("BCDFGHJKLMNPQRSTVWXZ") for _ in range(8))
                with contextlib.suppress(OSError, http.client.HTTPException):
                    tried.append(gateway.ask("GET", f"/t/1/1/{code}", source="127.0.8.8")[0])

        threads = [threading.Thread(target=guess, daemon=True) for _ in range(guessing)]
        for it in threads:
            it.start()
        assert comes(lambda: len(tried) > 20 + 2 * guessing), "twenty wrong codes"
        begun, before = time.monotonic(), tried.count(404)
        for table in aims:
            assert (
                gateway.hand_in(aims[table], "2-0-0", "127.0.8.8")[0] == 303
            ), f"a player behind the same address, table {table}"
        rate = (tried.count(404) - before) / max(1.0, time.monotonic() - begun)
        stop.set()
        for it in threads:
            it.join(PATIENCE)
        assert set(tried) - {404, 429} == set(), "no guess was right"
        assert rate < 30, "guesses a second that are answered"
        assert gateway.ask("GET", aims[1], source="127.0.8.9")[0] == 200, "another address is as ever"
