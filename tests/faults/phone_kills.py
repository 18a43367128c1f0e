"""Kills what takes scores from phones at random instants: event-phones, the program again and again, or both. What was acknowledged is in the file.

    python3 -B -m tests.faults.phone_kills PROGRAM BURSTS SEED
"""
import contextlib
import importlib.util
import os
import signal
import tempfile
import time

from second_reading.plain_file import read
from tests.support.phone_rooms import (
    SCORES,
    Burst,
    Gateway,
    children_of,
    copied_event,
    made,
    processes_of,
    results,
    targets,
)
from tests.support.serving import hear_interrupts
from tests.support.tally import check, dice_of, end, left_out
from tests.support.waiting import comes
from tests.support.words import PROGRAM, SEED, Word, given_by


def kill(program, room, dice, turns, sizes):
    """Killed at a random instant in the middle of a burst: it, the program again and again, or both. What was acknowledged is in the file, nothing is stored
    twice, and no program that serves is left behind.
    """
    bases = {players: made(program, f"{room}/base-{players}.event", players) for players in sizes}
    told = stored_in_all = kills = 0
    for turn in range(turns):
        what, players = ("event-phones", "the program", "both")[turn % 3], sizes[turn // 3 % len(sizes)]
        name, file = f"turn {turn}, {what}, {players} players", copied_event(
            bases[players], f"{room}/{turn}.event"
        )
        serial = read(file).serial
        with Gateway(program, file) as gateway:
            aims = targets(program, file)
            scores = {it: dice.choice(SCORES) for it in aims}
            burst = Burst(gateway, aims, scores, is_patient=what == "the program")
            if what == "the program":
                kills += kill_children(gateway, burst, dice)
            else:
                time.sleep(0.03 + dice.random() * (0.7 if players < 100 else 2.5))
                kills += kill_now(gateway, what == "both")
            burst.end(20)
        acknowledged = dict(burst.acknowledged)
        check(f"{name}, no program is left behind", comes(lambda: processes_of(file) == []), True)
        stored = {table: score for (_, table), score in results(program, file).items() if score}
        check(
            f"{name}, what was acknowledged is stored",
            [it for it, score in acknowledged.items() if stored.get(it) != score],
            [],
        )
        check(
            f"{name}, what is stored was handed in",
            [it for it, score in stored.items() if scores[it] != score],
            [],
        )
        check(f"{name}, each is stored once", read(file).serial, serial + len(stored))
        told, stored_in_all = told + len(acknowledged), stored_in_all + len(stored)
        if turn < 6 or turn % 10 == 0:
            with Gateway(program, file) as gateway:
                again = Burst(gateway, aims, scores).end()
                check(f"{name}, handed in again", (again.acknowledged, again.others), (scores, []))
        for ending in ("", "-wal", ".reports", ".phones", ".turn", ".troubles"):
            with contextlib.suppress(FileNotFoundError):
                os.unlink(file + ending)
    print(
        f"kills: {kills} in {turns} bursts of {' and '.join(str(it // 2) for it in sizes)} phones; {told} scores were acknowledged, {stored_in_all} stored"
    )


def kill_now(gateway, also_the_program):
    children = children_of(gateway.process.pid) if also_the_program else []
    for it in children:
        with contextlib.suppress(ProcessLookupError):
            os.kill(it, signal.SIGKILL)
    gateway.kill()
    return 1 + len(children)


def kill_children(gateway, burst, dice):
    """The program, whenever it runs, for a second and a half."""
    kills, until = 0, time.monotonic() + 1.5
    while time.monotonic() < until and any(it.is_alive() for it in burst.threads):
        time.sleep(dice.random() * 0.03)
        for it in children_of(gateway.process.pid):
            with contextlib.suppress(ProcessLookupError):
                os.kill(it, signal.SIGKILL)
                kills += 1
    return kills


def main(program, bursts, seed):
    hear_interrupts()
    for module, package in (("jinja2", "python3-jinja2"), ("waitress", "python3-waitress")):
        if importlib.util.find_spec(module) is None:
            left_out("kills of what takes scores from phones", f"{package} is not installed")
            return
    with tempfile.TemporaryDirectory() as room:
        kill(program, room, dice_of(seed), bursts, (64, 512) if bursts > 100 else (64,))
    end("scores from phones, and kills")


if __name__ == "__main__":
    main(
        **given_by(
            __doc__,
            program=PROGRAM,
            bursts=Word(int, "how many bursts of scores, each with its kills"),
            seed=SEED,
        )
    )
