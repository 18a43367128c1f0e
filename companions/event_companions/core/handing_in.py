"""Scores that are handed in together, by one run of `serve` for them all: a command line opens the whole event
for each.
"""
from __future__ import annotations

import contextlib
import http.client
import json
import os
import re
import shutil
import subprocess
from dataclasses import dataclass
from typing import Optional, Protocol, Sequence

from event_companions.core.program import UNSURE as MAY_PASS
from event_companions.core.program import Refusal
from event_companions.core.score import Score

SECONDS_FOR_SERVE_TO_END = 5.0
# where this many wait, they are handed in together
LEAST_AT_ONCE = 3


# what serves ends with this process: the shell looks whether it ended before that was asked for
ENDS_WITH_US = (
    "setpriv",
    "--pdeathsig",
    "KILL",
    "sh",
    "-c",
    '[ "$PPID" = "$0" ] && exec "$@"',
    str(os.getpid()),
)


@dataclass(frozen=True)
class Answer:
    """Of a score: the serial, or the number of the refusal, with what is stored where the program says so."""

    serial: int = -1
    refused: int = 0
    stored: Optional[Score] = None

    @property
    def is_taken(self) -> bool:
        return self.serial >= 0


class HandedIn(Protocol):
    """A score that waits for its answer."""

    number: int
    table: int
    score: Score

    def end(self, answer: Optional[Answer]) -> None:
        """Takes the answer."""


def ends_with_us() -> list[str]:
    """The words before a program that is to end with this process: none where the system has no such command."""
    return list(ENDS_WITH_US) if shutil.which("setpriv") else []


def hand_in(program: str, file: str, wanted: Sequence[HandedIn], held: tuple[int, ...] = ()) -> None:
    """Hands in as many as it comes to. What goes wrong leaves scores without an answer."""
    with subprocess.Popen(
        [*ends_with_us(), program, "serve", file, "0", str(len(wanted))],
        stdin=subprocess.DEVNULL,
        stdout=subprocess.PIPE,
        stderr=subprocess.DEVNULL,
        start_new_session=True,
        pass_fds=held,
    ) as serving:
        try:
            hand_over(serving, wanted)
            serving.wait(SECONDS_FOR_SERVE_TO_END)
        except subprocess.TimeoutExpired:
            pass
        finally:
            # what it has answered is in the file, whenever it is ended
            serving.kill()


def hand_over(serving: subprocess.Popen[bytes], wanted: Sequence[HandedIn]) -> None:
    """Posts the scores to a program that serves, until all are answered or something goes wrong."""
    assert serving.stdout
    found = re.fullmatch(rb"listening ([0-9]+)\n", serving.stdout.readline())
    with contextlib.suppress(OSError, http.client.HTTPException, ValueError, KeyError, TypeError):
        for score in wanted if found else ():
            answer = posted(int(found[1]) if found else 0, score)
            if answer:
                score.end(answer)


def posted(port: int, score: HandedIn) -> Optional[Answer]:
    x, y, d = score.score
    target = f"/rounds/{score.number}/tables/{score.table}"
    connection = http.client.HTTPConnection("127.0.0.1", port, timeout=SECONDS_FOR_SERVE_TO_END)
    try:
        connection.request("POST", target, json.dumps({"a": x, "b": y, "d": d}))
        answer = connection.getresponse()
        told = json.loads(answer.read(10_000))
    finally:
        connection.close()
    if answer.status == 200:
        return Answer(int(told["serial"]))
    number = int(told["refused"])
    if number in MAY_PASS:
        return None
    if number != Refusal.ALREADY_REPORTED:
        return Answer(refused=number)
    return Answer(refused=number, stored=Score(*(int(told["score"][name]) for name in "abd")))
