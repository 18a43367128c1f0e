"""Clients that are slow, that send nothing or that never read, before a score, on the program as it is built. `serve` gives each connection one second
for each read, five for its request, ten for each write, and thirty in all; then it counts as served, and the next one is taken. So the score is
answered in the time that follows from these figures, and one that comes too slowly is not taken. After its answer a connection is read on for half a
second. Each kind of client has a program of its own over a copy of one file, and
all run side by side.

If a browser and `curl` are installed, three tabs show the standings, anew every five seconds, while scores are handed in. If one of the two isn't
there, that is left out, and a line says so.
"""
import concurrent.futures
import contextlib
import copy
import http.server
import os
import shutil
import signal
import socket
import subprocess
import tempfile
import threading
import time

from second_reading.plain_event import Event
from tests.support.event_files import copied, due, rows_alone, rows_of, rows_of_copy
from tests.support.plain_http import served as served_plainly
from tests.support.program import Program
from tests.support.serving import Serving, received, sent_to_the_end, sent_whole, served
from tests.support.tally import check, end, left_out
from tests.support.words import PROGRAM, given_by

# the seconds that a read, a request, an answer and a whole connection may take, and those in which it is read on after its answer
READ, REQUEST, WRITE, WHOLE, REST = 1, 5, 10, 30, 0.5
# in which the scores of the other clients are answered while a browser looks on
SOON = 5
PLAYERS = 512
BROWSERS = "chromium", "chromium-browser", "google-chrome", "firefox"

GET_STANDINGS = b"GET /standings HTTP/1.1\r\n\r\n"
GET_SLIP = b"GET /rounds/1/tables/1 HTTP/1.1\r\n\r\n"
POST = b'POST /rounds/1/tables/1 HTTP/1.1\r\nContent-Length: 19\r\n\r\n{"a":2,"b":1,"d":0}'


def made(program, room):
    """An event with as many players as there may be, whose names are as long as they may be, and its file."""
    file, names, event = (
        f"{room}/e.event",
        [f"{it}".ljust(60, "x") for it in range(1, PLAYERS + 1)],
        Event(3, 0),
    )
    with open(f"{room}/names.csv", "w", encoding="utf-8") as it:
        it.writelines(f"{name}\n" for name in ["name", *names])
    for name in names:
        event.enrol(name)
    for words, answer in (
        (["init", file, "E", "3", "0"], ["ok 0"]),
        (["import", file, f"{room}/names.csv"], [f"added {PLAYERS} already 0"]),
        (["start", file], event.start()),
        (["pair", file, "1", "0" * 64], event.pair(1, bytes(32))),
    ):
        check(f"the event, {words[0]}", Program(program).run(*words), due(answer))
    return file, event


def asked(serving, sent):
    """The answer to these bytes, and the seconds until it was there."""
    begun = time.monotonic()
    with serving.client() as client:
        client.settimeout(2 * WHOLE)
        sent_to_the_end(client, sent)
        return received(client), time.monotonic() - begun


def within(what, taken, least, most):
    """A timer of the kernel goes off up to an eighth late, and a busy machine may take five seconds more."""
    return f"{what}, from {least} to {most} seconds", least - 0.5 <= taken <= most * 1.125 + 5 or taken, True


def drip(client, sent, size, pause, is_over):
    """Sends this many bytes, and again after each pause, until all are sent or it is over."""
    for at in range(0, len(sent), size):
        sent_whole(client, sent[at : at + size])
        if is_over():
            return
        time.sleep(pause)


def still_taken(client, byte, seconds):
    """Whether the other side takes this byte again and again for so long. Each comes by itself. On a busy machine the last may be late."""
    until = time.monotonic() + seconds
    try:
        while time.monotonic() < until:
            client.sendall(byte)
            time.sleep(0.0002)
    except ConnectionError:
        return time.monotonic() >= until
    return True


def stop_for(serving, seconds):
    """Stops the program for so long, as by Ctrl-Z and then `fg`."""
    serving.process.send_signal(signal.SIGSTOP)
    time.sleep(seconds)
    serving.process.send_signal(signal.SIGCONT)


def browser_there():
    """The browser that is there, or nothing."""
    found = next(filter(None, map(shutil.which, BROWSERS)), None)
    for names, is_there in ((" or ".join(BROWSERS), found), ("curl", shutil.which("curl"))):
        if not is_there:
            left_out("the tabs of a browser beside other clients", f"{names} is not installed")
            return None
    return found


class Kinds:
    """The kinds of clients. Each gives what came, and what is due, each with a name."""

    def __init__(self, program, event):
        self.program, self.event, self.browser = program, event, browser_there()
        self.slip, self.standings = (served_plainly(event, it)[0] for it in (GET_SLIP, GET_STANDINGS))
        self.after = copy.deepcopy(event)
        self.accepted, self.reported = (served_plainly(self.after, it)[0] for it in (POST, GET_SLIP))
        # one that is refused before what it announces comes
        self.too_long = POST[: POST.index(b"\r\n\r\n") + 4].replace(b"19", b"1000000")
        self.refused = served_plainly(copy.deepcopy(event), self.too_long)[0]

    def all(self):
        return [
            self.silent,
            self.dripping,
            self.steady,
            self.stopping,
            self.staying,
            self.unread,
            self.sipping,
            self.crumbling,
            self.sending_on,
            self.paused,
            self.paused_after_its_answer,
            self.paused_in_its_answer,
            *([self.browsed] if self.browser else []),
        ]

    def silent(self, file):
        """Twenty that send nothing are let go one after the other."""
        with Serving(self.program, file, 21) as serving:
            clients = [serving.client() for _ in range(20)]
            answer, taken = asked(serving, POST)
            yield "behind twenty that send nothing", answer, self.accepted
            yield within("behind twenty that send nothing", taken, 20 * READ, 20 * READ)
            yield "twenty that send nothing", [received(it) for it in clients], [b""] * 20
            yield "twenty that send nothing, the end", serving.end(), served(21)
            for it in clients:
                it.close()
        yield "twenty that send nothing, the file", rows_alone(file), rows_of(self.after)

    def dripping(self, file):
        """One that sends a byte now and then, and never the last one, is let go."""
        with Serving(
            self.program, file, 2
        ) as serving, serving.client() as client, concurrent.futures.ThreadPoolExecutor(1) as others:
            score = others.submit(asked, serving, POST)
            drip(client, POST.replace(b"\r\n\r\n", b"\r\nX: " + b"a" * REQUEST * 8), 1, READ / 4, score.done)
            answer, taken = score.result()
            yield "behind one that drips", answer, self.accepted
            yield within("behind one that drips", taken, REQUEST, REQUEST + READ)
            yield "one that drips", received(client), b""
            yield "one that drips, the end", serving.end(), served(2)
        yield "one that drips, the file", rows_alone(file), rows_of(self.after)

    def steady(self, file):
        """One that is slow, and yet within each limit, is answered; so is the one after it."""
        with Serving(
            self.program, file, 2
        ) as serving, serving.client() as client, concurrent.futures.ThreadPoolExecutor(1) as others:
            slip = others.submit(asked, serving, GET_SLIP)
            drip(client, POST, 8, 0.4 * READ, slip.done)
            yield "one that is slow", received(client), self.accepted
            yield "behind one that is slow", slip.result()[0], self.reported
            yield "one that is slow, the end", serving.end(), served(2)
        yield "one that is slow, the file", rows_alone(file), rows_of(self.after)

    def stopping(self, file):
        """One that stops in the middle of its score for more than a second gets no answer, and the score isn't stored."""
        places = 1, POST.index(b"\r\n") + 2, POST.index(b"{"), len(POST) - 1
        with Serving(self.program, file, len(places) + 2) as serving:
            for at in places:
                with serving.client() as client:
                    drip(client, POST[:at], at, 1.5 * READ, lambda: False)
                    sent_whole(client, POST[at:])
                    yield f"one that stops after {at} bytes", received(client), b""
            yield "behind ones that stop", asked(serving, GET_SLIP)[0], self.slip
            yield "the score once more", asked(serving, POST)[0], self.accepted
            yield "ones that stop, the end", serving.end(), served(len(places) + 2)
        yield "ones that stop, the file", rows_alone(file), rows_of(self.after)

    def staying(self, file):
        """Twenty that get their answers, and never end their side, hold up the next one for half a second each."""
        with Serving(self.program, file, 21) as serving:
            clients = [serving.client() for _ in range(20)]
            for it in clients:
                sent_whole(it, GET_SLIP)
            answer, taken = asked(serving, POST)
            yield "behind twenty that stay", answer, self.accepted
            yield within("behind twenty that stay", taken, 20 * REST, 20 * REST)
            yield "twenty that stay", [received(it) for it in clients], [self.slip] * 20
            yield "twenty that stay, the end", serving.end(), served(21)
            for it in clients:
                it.close()
        yield "twenty that stay, the file", rows_alone(file), rows_of(self.after)

    def crumbling(self, file):
        """One that is refused at once, and still sends on byte by byte, gets its answer."""
        with Serving(self.program, file, 1) as serving, serving.client() as client:
            sent_whole(client, self.too_long)
            yield "one that sends on byte by byte, all of it", still_taken(client, b"{", 0.6 * REST), True
            sent_to_the_end(client, b"")
            yield "one that sends on byte by byte", received(client), self.refused
            yield "one that sends on byte by byte, the end", serving.end(), served(1)
        yield "one that sends on byte by byte, the file", rows_alone(file), rows_of(self.event)

    def sending_on(self, file):
        """One that goes on sending after its answer is let go after half a second."""
        with Serving(self.program, file, 1) as serving, serving.client() as client:
            sent_whole(client, self.too_long)
            client.recv(1, socket.MSG_PEEK)
            begun = time.monotonic()
            while still_taken(client, b"{", 0.1 * REST) and time.monotonic() - begun < WHOLE:
                pass
            yield within("one that goes on sending", time.monotonic() - begun, REST, REST)
            yield "one that goes on sending, the end", serving.end(), served(1)
        yield "one that goes on sending, the file", rows_alone(file), rows_of(self.event)

    def paused(self, file):
        """The program is stopped in the middle of a score, as by Ctrl-Z, and goes on: the score is taken."""
        with Serving(self.program, file, 1) as serving, serving.client() as client:
            for number, part in (
                (signal.SIGSTOP, POST[:20]),
                (signal.SIGCONT, b""),
                (signal.SIGSTOP, POST[20:40]),
                (signal.SIGCONT, b""),
            ):
                sent_whole(client, part)
                time.sleep(0.2 * READ)
                serving.process.send_signal(number)
            time.sleep(0.2 * READ)
            sent_to_the_end(client, POST[40:])
            yield "of a program that was stopped and goes on", received(client), self.accepted
            yield "of a program that was stopped and goes on, the end", serving.end(), served(1)
        yield "of a program that was stopped and goes on, the file", rows_alone(file), rows_of(self.after)

    def paused_after_its_answer(self, file):
        """The program is stopped while it reads on after its answer, and goes on: what still comes is taken for half a second, and the answer is whole."""
        pauses = 0.1 * REST, 0.6 * REST, 4 * REST
        with Serving(self.program, file, len(pauses)) as serving:
            for pause in pauses:
                what = f"of a program that was stopped for {pause} s after its answer"
                with serving.client() as client:
                    sent_whole(client, self.too_long)
                    client.recv(1, socket.MSG_PEEK)
                    time.sleep(0.1 * REST)
                    stop_for(serving, pause)
                    yield f"{what}, what still comes", still_taken(client, b"{", 0.3 * REST), True
                    sent_to_the_end(client, b"")
                    yield what, received(client), self.refused
            yield "of a program that was stopped after its answers, the end", serving.end(), served(
                len(pauses)
            )
        yield "of a program that was stopped after its answers, the file", rows_alone(file), rows_of(
            self.event
        )

    def paused_in_its_answer(self, file):
        """The program is stopped three times while its answer waits for the client, and goes on: the whole answer comes."""
        with Serving(self.program, file, 1) as serving, self.reader(serving) as client:
            client.recv(1, socket.MSG_PEEK)
            for _ in range(3):
                time.sleep(0.3)
                stop_for(serving, 0.05)
            yield "of a program that was stopped in its answer", received(client), self.standings
            yield "of a program that was stopped in its answer, the end", serving.end(), served(1)
        yield "of a program that was stopped in its answer, the file", rows_alone(file), rows_of(self.event)

    def reader(self, serving):
        """A client that asks for the standings, and has room for few bytes of them, so that the writes that answer it have to wait for it."""
        client = socket.socket()
        client.settimeout(2 * WHOLE)
        client.setsockopt(socket.SOL_SOCKET, socket.SO_RCVBUF, 1)
        client.setsockopt(socket.IPPROTO_TCP, socket.TCP_MAXSEG, 536)
        client.connect(("127.0.0.1", serving.port))
        client.sendall(GET_STANDINGS)
        return client

    def unread(self, file):
        """One that never reads."""
        with Serving(self.program, file, 2) as serving, self.reader(serving) as client:
            answer, taken = asked(serving, POST)
            yield "behind one that never reads", answer, self.accepted
            yield within("behind one that never reads", taken, WRITE, WRITE)
            got = received(client)
            yield "one that never reads", (len(got) < len(self.standings), self.standings.startswith(got)), (
                True,
                True,
            )
            yield "one that never reads, the end", serving.end(), served(2)
        yield "one that never reads, the file", rows_alone(file), rows_of(self.after)

    def sipping(self, file):
        """One that reads a little now and then, and would take a minute for the whole."""
        with Serving(self.program, file, 2) as serving, self.reader(
            serving
        ) as client, concurrent.futures.ThreadPoolExecutor(1) as others:
            score = others.submit(asked, serving, POST)
            while not score.done():
                with contextlib.suppress(ConnectionError):
                    client.recv(len(self.standings) // 60)
                time.sleep(1)
            answer, taken = score.result()
            yield "behind one that reads a little", answer, self.accepted
            yield within("behind one that reads a little", taken, 0, WHOLE)
            yield "one that reads a little, the end", serving.end(), served(2)
        yield "one that reads a little, the file", rows_alone(file), rows_of(self.after)

    def browsed(self, file):
        """Three tabs of a browser, and twenty scores, one a second. A program that takes too long for one isn't asked for more."""
        with Serving(self.program, file, 1_000_000) as serving, Tabs(
            self.browser, serving.port, os.path.dirname(file)
        ) as tabs:
            tabs.wait_for(3)
            begun, event, taken = tabs.loaded, copy.deepcopy(self.event), 0
            for table in range(1, 21):
                if taken <= SOON:
                    sent = POST.replace(b"tables/1", b"tables/%d" % table)
                    due_answer, (answer, taken) = served_plainly(event, sent)[0], curl(serving, table)
                    yield f"while a browser looks on, table {table}", answer, due_answer
                    yield f"while a browser looks on, table {table}, in {SOON} seconds", taken <= SOON or taken, True
                    time.sleep(max(0, 1 - taken))
            yield "the browser loaded its pages meanwhile", tabs.loaded - begun >= 9 or tabs.loaded - begun, True
        yield "while a browser looks on, the file", rows_of_copy(file), rows_of(event)


def curl(serving, table):
    """What curl is answered that hands in a score, and the seconds until it was."""
    begun = time.monotonic()
    words = [
        "--max-time",
        str(2 * SOON),
        "--data",
        POST[-19:].decode(),
        f"http://127.0.0.1:{serving.port}/rounds/1/tables/{table}",
    ]
    ran = subprocess.run(["curl", "-s", "-i", *words], capture_output=True, timeout=2 * WHOLE)
    return ran.stdout, time.monotonic() - begun


class Tabs:
    """Three tabs of a browser without a window, each with a page that shows the standings and comes anew every five seconds. The browser opens a
    connection ahead for it, on which it sends nothing.
    """

    def __init__(self, browser, port, room):
        desk = f"http://127.0.0.1:{port}"
        ahead = f'<link rel="preconnect" href="{desk}" crossorigin>'
        page = f'<meta http-equiv="refresh" content="5">{ahead}<iframe src="{desk}/standings"></iframe>'
        opening = "<script>for (const it of [1, 2, 3]) window.open(`/tab${it}`)</script>"
        self.loaded, tabs = 0, self

        class Pages(http.server.BaseHTTPRequestHandler):
            def do_GET(self):
                text = {"/open": opening}.get(self.path, page if self.path.startswith("/tab") else "")
                tabs.loaded += text == page
                self.send_response(200 if text else 404)
                self.send_header("Content-Type", "text/html")
                self.end_headers()
                self.wfile.write(text.encode())

            def log_message(self, *_):
                pass

        self.pages = http.server.ThreadingHTTPServer(("127.0.0.1", 0), Pages)
        threading.Thread(target=self.pages.serve_forever, daemon=True).start()
        self.process = self.begun(browser, f"http://127.0.0.1:{self.pages.server_address[1]}", room)

    def begun(self, browser, address, room):
        profile = f"{room}/profile"
        os.mkdir(profile)
        if browser.endswith("firefox"):
            words = ["--headless", "--profile", profile, *(f"{address}/tab{it}" for it in (1, 2, 3))]
        else:
            words = [
                "--headless=new",
                "--no-sandbox",
                "--no-first-run",
                "--disable-gpu",
                "--disable-popup-blocking",
            ]
            words += [f"--user-data-dir={profile}", f"{address}/open"]
        quiet = {"stdin": subprocess.DEVNULL, "stdout": subprocess.DEVNULL, "stderr": subprocess.DEVNULL}
        return subprocess.Popen([browser, *words], start_new_session=True, **quiet)

    def __enter__(self):
        return self

    def __exit__(self, *_):
        if self.process.poll() is None:
            os.killpg(self.process.pid, signal.SIGKILL)
        self.process.wait()
        self.pages.shutdown()
        self.pages.server_close()

    def wait_for(self, count):
        """Waits until this many pages were asked for."""
        until = time.monotonic() + WHOLE
        while self.loaded < count and time.monotonic() < until:
            time.sleep(0.1)


def results(kind, template):
    """What a kind of clients gives over a copy of the file."""
    with tempfile.TemporaryDirectory(ignore_cleanup_errors=True) as room:
        return [*kind(copied(template, room))]


def main(program):
    with tempfile.TemporaryDirectory() as room:
        template, event = made(program, room)
        kinds = Kinds(os.path.abspath(program), event)
        tried = kinds.all()
        with concurrent.futures.ThreadPoolExecutor(len(tried)) as pool:
            for those in pool.map(lambda kind: results(kind, template), tried):
                for one in those:
                    check(*one)
    end("slow clients, at the program as it is built")


if __name__ == "__main__":
    main(**given_by(__doc__, program=PROGRAM))
