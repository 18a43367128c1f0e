"""Events whose scores come from phones: `companions/bin/event-phones` as it serves, and what phones send. An `assert` here is a check."""
import contextlib
import csv
import http.client
import io
import os
import re
import select
import shutil
import signal
import subprocess
import sys
import threading
import time

from tests.support.program import Program
from tests.support.serving import free_port
from tests.support.waiting import PATIENCE
from tools import TOP

from event_companions.beside.codes import keep_secret, kept_secret, secret_for
from event_companions.beside.reports import TIME, Report, Reports
from event_companions.core.lists import players_of, rounds_of
from event_companions.core.score import Score

PHONES = f"{TOP}/companions/bin/event-phones"
# on the slips of an event that nobody serves
AT = "http://192.168.1.10:8080"
PYTHON = sys.executable, "-B"
SCORES = ["2-0-0", "2-1-0", "0-2-0", "1-2-0", "1-1-0", "1-1-1", "0-0-3"]
FORM = "application/x-www-form-urlencoded"


def made(program, file, players=8, rounds=3, cut=0, results=()):
    """An event whose first round is paired, with these results."""
    names = f"{file}.csv"
    with open(names, "w", encoding="utf-8") as it:
        it.writelines(
            f"{name}\n"
            for name in ["name", *(f"Player {number:03} of the House" for number in range(1, players + 1))]
        )
    lines = [
        ["init", file, "Friday", str(rounds), str(cut)],
        ["import", file, names],
        ["start", file],
        ["pair", file, "1", "0" * 64],
    ]
    for words in [*lines, *(["result", file, "1", *map(str, it)] for it in results)]:
        assert Program(program).run(*words)[0] == 0, f"{os.path.basename(file)}: {words[0]}"
    return file


def asked(program, words):
    """What a command line prints that has to be taken."""
    return Program(program).did(*words).decode()


def results(program, file):
    """The score of each table by round and table, or nothing; byes are left out."""
    rows = list(csv.reader(io.StringIO(asked(program, ["export", file, "results"]))))[1:]
    return {
        (int(number), int(table)): "-".join(score).strip("-")
        for number, table, _, _, *score in rows
        if int(table)
    }


def targets(program, file, seat=0):
    """What is scanned at each table of the newest round."""
    rounds = rounds_of(asked(program, ["export", file, "results"]))
    secret = kept_secret(file)
    return {match.place: secret.target(len(rounds), match, seat) for match in rounds[-1] if not match.is_bye}


def links(program, file):
    """The own page of each player."""
    secret = kept_secret(file)
    return {
        number: secret.link(player)
        for number, player in players_of(asked(program, ["export", file, "players"])).items()
    }


def slips_for(file, asks_both=None):
    """The secret of the codes, made if there is none."""
    secret = secret_for(file, AT, asks_both)
    keep_secret(file, secret)
    return secret


def report_to(program, file, table, score, outcome, stored, drops=(), seat=0, number=1):
    """A line in FILE.reports, as event-phones writes it."""
    match = next(
        it for it in rounds_of(asked(program, ["export", file, "results"]))[number - 1] if it.place == table
    )
    seats = number, table, match.first, match.second
    said, stored = Score.parse(score), Score.parse(stored) if stored else None
    Reports(file).add(
        Report(time.strftime(TIME), *seats, said, outcome, stored, "10.0.0.7", tuple(drops), seat)
    )
    return match


def copied_event(source, target):
    shutil.copy(source, target)
    return target


class Gateway:
    """`event-phones` as a process of its own, from the line with its address on."""

    def __init__(self, program, file, *words, **how):
        self.port, self.desk_port, self.file = free_port(), free_port(), file
        line = [
            *PYTHON,
            PHONES,
            file,
            "--at",
            f"127.0.0.1:{self.port}",
            "--desk",
            str(self.desk_port),
            "--program",
            program,
            *words,
        ]
        self.process = subprocess.Popen(
            line, stdin=subprocess.DEVNULL, stdout=subprocess.PIPE, stderr=subprocess.PIPE, **how
        )
        is_there, _, _ = select.select([self.process.stdout], [], [], PATIENCE)
        said = self.process.stdout.readline() if is_there else b""
        if not said.startswith(b"Phones: "):
            self.process.kill()
            raise OSError(
                f"event-phones does not serve: {said!r}, {self.process.communicate()[1].decode()[-500:]}"
            )

    def __enter__(self):
        return self

    def __exit__(self, *_):
        self.kill()

    def kill(self):
        """Its status, and what it said of faults."""
        with contextlib.suppress(ProcessLookupError):
            self.process.kill()
        return self.end()

    def interrupt(self):
        self.process.send_signal(signal.SIGINT)
        return self.end()

    def end(self):
        errors = self.process.communicate(timeout=PATIENCE)[1] if not self.process.stderr.closed else b""
        return self.process.returncode, errors.decode()

    def ask(self, method, target, body=None, source="127.0.0.1", port=None, **fields):
        """The status, the fields and the text of an answer."""
        connection = http.client.HTTPConnection(
            "127.0.0.1", port or self.port, timeout=PATIENCE, source_address=(source, 0)
        )
        try:
            head = {"Content-Type": FORM} if body is not None else {}
            connection.request(
                method,
                target,
                body,
                {**head, **{name.replace("_", "-"): value for name, value in fields.items()}},
            )
            answer = connection.getresponse()
            text = answer.read().decode()
            return answer.status, dict(answer.getheaders()), text
        finally:
            connection.close()

    def hand_in(self, target, score, source="127.0.0.1"):
        """The status, and where it leads."""
        status, fields, _ = self.ask("POST", target, f"s={score}", source)
        return status, fields.get("Location", "")


def address(number):
    """Another phone's address."""
    return f"127.0.{1 + number // 200 % 250}.{1 + number % 200}"


class Burst:
    """A phone for each table, all at once. Each hands in until it is answered, or gives up where it is not to be patient."""

    def __init__(self, gateway, aims, scores, is_patient=True):
        self.acknowledged, self.others, self.seconds = {}, [], []
        self.tries = 60 if is_patient else 1
        self.threads = [
            threading.Thread(
                target=self.phone, args=(gateway, table, aims[table], scores[table]), daemon=True
            )
            for table in aims
        ]
        for it in self.threads:
            it.start()

    def phone(self, gateway, table, target, score):
        begun = time.monotonic()
        for _ in range(self.tries):
            try:
                status, location = gateway.hand_in(target, score, address(table))
            except (OSError, http.client.HTTPException):
                time.sleep(0.1)
                continue
            if status == 303 and "said" not in location:
                self.acknowledged[table] = score
                self.seconds.append(time.monotonic() - begun)
                return
            if status not in (503, 429):
                self.others.append((table, status, location))
                return
            time.sleep(0.2)
        self.others.append((table, "no answer"))

    def end(self, seconds=90):
        until = time.monotonic() + seconds
        for it in self.threads:
            it.join(max(0.0, until - time.monotonic()))
        return self


def processes_of(file):
    """The numbers of the processes that have this file among their words, but for this one."""
    found = []
    for name in filter(str.isdigit, os.listdir("/proc")):
        with contextlib.suppress(OSError), open(f"/proc/{name}/cmdline", "rb") as it:
            if os.fsencode(file) in it.read().split(b"\0") and int(name) != os.getpid():
                found.append(int(name))
    return found


def children_of(process):
    """The numbers of the processes that a process has begun, by each of its threads."""
    found = []
    with contextlib.suppress(OSError):
        for thread in os.listdir(f"/proc/{process}/task"):
            with contextlib.suppress(OSError), open(f"/proc/{process}/task/{thread}/children") as it:
                found += map(int, it.read().split())
    return found


def spread(seconds):
    """The median, what 95 of 100 keep within, and the slowest, in milliseconds."""
    found = sorted(seconds)
    at = lambda share: round(1000 * found[min(len(found) - 1, int(len(found) * share))], 1)
    return f"median {at(0.5)}, 95 of 100 {at(0.95)}, slowest {at(1)} ms" if found else "none"


def codes_in(text):
    """The codes on a page of slips."""
    return [it.replace("-", "") for it in re.findall(r'class="code">([A-Z-]{9})<', text)]
