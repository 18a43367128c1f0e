"""Kills the scorekeeper's prompt at random instants of an evening: what it had sent is in the file whole or not at all, and the next start says where the
event is.

    python3 -B -m tests.faults.prompt_kills PROGRAM COUNT SEED
"""
import contextlib
import os
import subprocess
import tempfile
import time

from second_reading.plain_event import Event
from second_reading.plain_file import read
from tests.support.event_files import rows_alone, rows_of
from tests.support.prompt import LETTERS, Prompt, keys_of, unfilled, where_due
from tests.support.tally import check, dice_of, end
from tests.support.waiting import comes
from tests.support.words import PROGRAM, SEED, Word, given_by
from tools import TOP

KILLED = [f"enrol P{it}" for it in range(1, 6)] + [
    "start",
    "pair",
    "1 2 0",
    "2 1 1 1",
    "fix 1 0 2",
    "drop 5",
    "y",
    "pair",
    "1 0 2",
    "2 2 1",
    "cut",
    "y",
    "play final 2 0",
]


def replayed(lines, file):
    """The plain events after each line of the script, with the keys of FILE.keys."""
    keys = dict(keys_of(file)) if os.path.exists(f"{file}.keys") else {}
    event, found = Event(2, 2), {}
    for line in lines:
        name, *rest = line.split()
        found[event.serial] = rows_of(event, "Friday")
        if name == "enrol":
            event.enrol(" ".join(rest))
        elif name == "start":
            event.start()
        elif name == "pair":
            if len(event.stored) + 1 in keys:
                event.pair(len(event.stored) + 1, keys[len(event.stored) + 1])
        elif name == "drop":
            event.drop(int(rest[0]))
        elif name == "cut":
            event.end_rounds()
        elif name == "play":
            event.play(1, 1, (2, 0, 0))
        elif name == "fix":
            event.report(1, 1, (0, 2, 0), False)
        elif name != "y":
            x, y, *d = map(int, rest)
            event.report(len(event.stored), int(name), (x, y, d[0] if d else 0), True)
        found[event.serial] = rows_of(event, "Friday")
    return found


def is_at_work(file):
    """Whether a program runs that was given this file."""
    for number in filter(str.isdecimal, os.listdir("/proc")):
        with contextlib.suppress(OSError), open(f"/proc/{number}/cmdline", "rb") as it:
            if file.encode() in it.read().split(b"\0"):
                return True
    return False


def wait_for_the_end(file):
    """A command that was begun goes on to its end, also if the prompt was killed."""
    comes(lambda: not is_at_work(file))


def kill(prompt, room, dice, count):
    """Killed at a random instant of a script: the file holds the commands up to one of them, and the next start says where it is."""
    stopped = set()
    for at in range(count):
        file = f"{room}/{at}.event"
        prompt.said(file, "init Friday 2 2")
        process = subprocess.Popen(
            prompt.words(file),
            stdin=subprocess.PIPE,
            stdout=subprocess.PIPE,
            stderr=subprocess.DEVNULL,
            env=LETTERS,
        )
        process.stdin.write("".join(f"{it}\n" for it in KILLED).encode())
        process.stdin.flush()
        process.stdout.readline()
        time.sleep(dice.random() * 1.3)
        process.kill()
        process.communicate()
        wait_for_the_end(file)
        text = prompt.said(file)
        event = read(file)
        stopped.add(event.serial)
        check(
            f"kill {at}, the next start", unfilled(where_due("Friday", file, event)) in unfilled(text), True
        )
        check(f"kill {at}, the file", rows_alone(file), replayed(KILLED, file).get(event.serial))
        if os.path.isdir(f"{file}.copies"):
            copies = [it for it in os.listdir(f"{file}.copies") if it.endswith(".event")]
            check(
                f"kill {at}, each copy is an event",
                [it for it in copies if rows_alone(f"{file}.copies/{it}") is None],
                [],
            )
    print(f"kills: {count}, at {len(stopped)} places of the script")


def main(program, count, seed):
    prompt, dice = Prompt(program, f"{TOP}/companions/bin/event-desk"), dice_of(seed)
    with tempfile.TemporaryDirectory() as room:
        kill(prompt, room, dice, count)
    end("the prompt, killed")


if __name__ == "__main__":
    main(**given_by(__doc__, program=PROGRAM, count=Word(int, "how many kills"), seed=SEED))
