#!/usr/bin/env python3
"""A program of the plain reading that takes the command lines of event_reporter, so that the lines of the documents can be typed without the program. It
keeps the event in FILE, in the tables of version 2. What the plain reading doesn't have, such as the texts for
words that are no command line, it answers with UNKNOWN.
"""
import contextlib
import fcntl
import os
import socket
import sqlite3
import sys

if __name__ == "__main__":
    top = os.path.dirname(os.path.dirname(os.path.dirname(os.path.realpath(__file__))))
    sys.path[:0] = [top, f"{top}/companions"]

from second_reading import plain_file
from second_reading.plain_csv import MOST_BYTES, imported
from second_reading.plain_event import Event
from tests.support.event_files import rows_of
from tests.support.plain_http import read_of, served
from tests.support.plain_script import SHORT, Script, Usage, answers, may_begin, number, read
from tests.support.schema import TABLES

UNKNOWN = "the plain reading has no answer to this"
STORE, NO_EVENT = "refused 25 Store", "refused 27 NoEvent"
MOST_CONNECTIONS = 1_000_000


class Refused(Exception):
    """The line that says why."""


def status_of(line):
    number_of_it = int(line.split()[1])
    return 4 if number_of_it == 24 else 3 if number_of_it in (25, 26) else 1


class File:
    """An event's file, which nobody else has meanwhile."""

    def __init__(self, path):
        if not os.path.exists(path):
            raise Refused(NO_EVENT)
        self.path = path
        try:
            self.lock = os.open(path, os.O_RDONLY)
            fcntl.flock(self.lock, fcntl.LOCK_EX | fcntl.LOCK_NB)
            self.event = plain_file.read(path)
            with contextlib.closing(sqlite3.connect(path)) as base:
                (self.name,) = base.execute("SELECT name FROM event").fetchone()
        except plain_file.NoEvent:
            raise Refused(NO_EVENT) from None
        except plain_file.Damaged:
            raise Refused("refused 29 Damaged") from None
        except (OSError, sqlite3.Error):
            raise Refused(STORE) from None

    @staticmethod
    def make(path, name, rounds, cut):
        if not may_begin(name, rounds, cut):
            raise Refused("refused 30 BadSetup")
        if os.path.exists(path) and os.path.getsize(path):
            File(path)
            raise Refused("refused 28 EventExists")
        File.write(path, Event(rounds, cut), name)

    @staticmethod
    def write(path, event, name):
        """All rows, in place of those that are there."""
        with contextlib.closing(sqlite3.connect(path, isolation_level=None)) as base:
            base.execute("BEGIN")
            for table, statement, rows in zip(plain_file.tables_of(2), TABLES[2], rows_of(event, name)):
                base.execute(f"DROP TABLE IF EXISTS {table}")
                base.execute(statement)
                for row in rows:
                    base.execute(f"INSERT INTO {table} VALUES ({', '.join('?' * len(row))})", row)
            base.execute("COMMIT")

    def keep(self):
        File.write(self.path, self.event, self.name)


def command(path, words):
    """The lines that answer a command line."""
    subcommand, values = read(words)
    if subcommand == "init":
        File.make(path, *values)
        return ["ok 0"]
    file = File(path)
    lines = answers(file.event, subcommand, values)
    if lines[0].startswith("refused "):
        raise Refused(lines[0])
    if lines[0].startswith("ok "):
        file.keep()
    return lines


def enrol_list(path, name):
    """The status, the output and the errors of an import."""
    file = File(path)
    with open(name, "rb") as names:
        ended = imported(file.event, names.read(MOST_BYTES + 1))
    file.keep()
    return ended


def answer_clients(path, port, count):
    """Answers this many connections."""
    file = File(path)
    with socket.create_server(("127.0.0.1", port)) as listener:
        print(f"listening {listener.getsockname()[1]}", flush=True)
        for _ in range(count):
            client, _ = listener.accept()
            with client:
                sent = b""
                while read_of(sent) is None:
                    sent += client.recv(65_536)
                answer, _ = served(file.event, sent)
                file.keep()
                client.sendall(answer)
    return f"served {count}"


def run(words):
    if not words:
        for line in Script().run(sys.stdin.buffer.read()):
            print(line)
        return 0
    subcommand, path, more = words[0], words[1], words[2:]
    if subcommand == "import":
        status, printed, said = enrol_list(path, *more)
        sys.stdout.buffer.write(printed)
        sys.stdout.flush()
        sys.stderr.buffer.write(said)
        return status
    if subcommand == "serve":
        print(answer_clients(path, number(SHORT)(more[0]), number(MOST_CONNECTIONS)(more[1])))
        return 0
    for line in command(path, [subcommand, *more]):
        print(line)
    return 0


def main():
    try:
        return run(sys.argv[1:])
    except Refused as refused:
        print(refused, file=sys.stderr)
        return status_of(str(refused))
    except (Usage, IndexError):
        print(UNKNOWN, file=sys.stderr)
        return 2


if __name__ == "__main__":
    sys.exit(main())
