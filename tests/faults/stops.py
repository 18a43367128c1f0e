"""Stops the program at random instants of random events over files, by SIGKILL, and looks at what the file then holds: the event before the
command or after it, whole, and after it where the command was acknowledged. After the commands that come next the file alone holds it, without its
log. Then the command is sent again, if it was not taken. Half of the events begin in version 1, in files made by SQL, and are migrated on the way.
"""
import copy
import os
import random
import subprocess
import sys
import tempfile
import time

from tests.support.event_files import due, has_begun_old, rows_alone, rows_left, rows_of, words_of
from tests.support.program import Program
from tests.support.random_play import random_event, version_of
from tests.support.words import PROGRAM, SEED, Word, given_by


class Stopped(Exception):
    """As many stops were made as were asked for."""


class Stops:
    def __init__(self, program, count, seed):
        self.program, self.count, self.seed, self.dice = program, count, seed, random.Random(seed)
        self.stops = self.taken = self.acknowledged = self.wrong = 0
        self.length = 0.01

    def begin(self, file):
        self.file, self.before, self.texts = file, None, None

    def complain(self, line, what):
        self.wrong += 1
        print(f"seed {self.seed}, {line!r}: {what}", file=sys.stderr)

    def stop(self, words):
        """Runs the words for a random while, and gives the status and what was printed."""
        begun = time.monotonic()
        with subprocess.Popen(
            [self.program, *words],
            stdin=subprocess.DEVNULL,
            stdout=subprocess.PIPE,
            stderr=subprocess.DEVNULL,
        ) as ran:
            time.sleep(self.dice.random() * 1.2 * self.length)
            ran.kill()
            out = ran.stdout.read()
        if ran.returncode == 0:
            self.length = 0.9 * self.length + 0.1 * (time.monotonic() - begun)
        return ran.returncode, out

    def look(self, line, after, is_acknowledged):
        """Whether the file holds the event after the line. It holds that or the one before."""
        rows = rows_left(self.file, self.before)
        if rows == after:
            self.taken += 1
        elif rows != self.before or is_acknowledged:
            self.complain(
                line, f"{rows}, and neither {self.before} nor {after}, acknowledged: {is_acknowledged}"
            )
        return rows == after

    def texts_of(self, event):
        return [due(event.players()), due(event.standings()), due(event.bracket())]

    def shown(self):
        return [Program(self.program).run(name, self.file) for name in ("players", "standings", "bracket")]

    def play(self, line, answer, event):
        words, after, texts = words_of(line, self.file), rows_of(event), self.texts_of(event)
        if has_begun_old(line, answer, event, self.file):
            self.before, self.texts = after, texts
            return
        while self.dice.random() < 0.6:
            status, out = self.stop(words)
            if status != -9:
                break
            self.stops += 1
            is_acknowledged = out == due(answer)[1] != b""
            self.acknowledged += is_acknowledged
            is_after = self.look(line, after, is_acknowledged)
            if self.before or is_after:
                wanted = texts if is_after else self.texts
                if self.shown() != wanted:
                    self.complain(line, f"{self.shown()}, and not {wanted}")
                if rows_alone(self.file) != (after if is_after else self.before):
                    self.complain(line, f"the file alone holds {rows_alone(self.file)} then")
            if self.stops == self.count:
                raise Stopped
            if is_after and after != self.before:
                break
        if rows_left(self.file, self.before) != after:
            got = Program(self.program).run(*words)
            if got != due(answer):
                self.complain(line, f"{got}, and not {due(answer)}")
        self.before, self.texts = copy.deepcopy(after), texts


def main(program, count, seed):
    dice = random.Random(seed)
    stops = Stops(program, count, seed)
    number = 0
    try:
        while True:
            with tempfile.TemporaryDirectory() as folder:
                stops.begin(os.path.join(folder, "e.event"))
                random_event(stops.play, dice, number, version=version_of(number))
                number += 1
    except Stopped:
        pass
    print(
        f"stops: {stops.stops} in {number + 1} events, {stops.taken} after the command was written, {stops.acknowledged} of these acknowledged, {stops.wrong} wrong"
    )
    return 1 if stops.wrong else 0


if __name__ == "__main__":
    sys.exit(
        main(**given_by(__doc__, program=PROGRAM, count=Word(int, "how many stops are made"), seed=SEED))
    )
