"""Whole evenings of drawn rounds at the prompt, at random: corrections, `back`, late entries, drops, scores as phones send them, mistyped numbers, and stops
between all steps. Nothing is wrong with them, so `event-check` must not say that anything is; and once something was changed, it has to.
"""
import os
import random
import re

import pytest

from second_reading import event_check
from second_reading.plain_event import is_complete
from second_reading.plain_file import read
from tests.support.random_evenings import is_of_swiss, lawful
from tests.support.random_play import random_score

pytestmark = pytest.mark.inside
CASES = {"case": (1, 1000)}
MOST_CALLS = 70
LINE = re.compile(r"(number|drawing|by|instead|after|mark|key) (.+)")


class DrawnEvening:
    def __init__(self, program, prompt, dice, room):
        self.program, self.prompt, self.dice = program, prompt, dice
        self.file, self.rounds, self.typed = f"{room}/e.event", dice.randint(1, 4), []
        self.players, self.open = dice.randint(4, 11), None

    @property
    def event(self):
        return read(self.file)

    def type(self, *lines):
        """At one prompt, until it is stopped."""
        self.typed += lines
        if self.open is None:
            self.open = self.prompt.stays(self.file)
        said = self.open.type(*lines)
        assert "itself is at fault" not in said, (lines, said)
        return said

    def throw(self):
        thrown = " ".join(str(self.dice.randint(1, 20)) for _ in range(self.dice.choice((4, 4, 5))))
        return f"{thrown} by {self.dice.randint(1, len(self.event.names))}" if self.maybe(0.3) else thrown

    def begin(self):
        rule = self.dice.choice(("draw on", "draw on", "draw on 4d20", "draw on once 4d20"))
        names = [
            f"enrol P{number}{self.dice.choice(('', ' -x', chr(0x2029) + '7'))}"
            for number in range(1, self.players + 1)
        ]
        self.type(f"init E {self.rounds} 0", *names, rule, "start")

    def maybe(self, chance):
        return self.dice.random() < chance

    def change(self):
        """Something that is done between two steps."""
        event = self.event
        active = [it for it in event.numbers() if it not in event.dropped]
        if len(active) > 4 and self.maybe(0.3):
            self.type(f"drop {self.dice.choice(active)}", "y")
        if event.stored and self.maybe(0.04):
            self.type("draw off", "y")
        if event.stored and len(event.stored) < self.rounds and self.maybe(0.3):
            self.type(f"enrol Late {len(event.names) + 1}")
        if event.stored and self.maybe(0.3):
            number = self.dice.randint(1, len(event.stored))
            tables = [at for at, match in enumerate(event.stored[number - 1], 1) if match[1] and match[2]]
            if tables:
                score = lawful(self.dice, random_score, is_of_swiss)
                self.type(
                    f"fix {number} {self.dice.choice(tables)} {' '.join(map(str, score))}",
                    *["y"] * (number < len(event.stored)),
                )

    def stop_somewhere(self, *lines):
        self.open = None
        self.typed.append(f"stopped: {lines}")
        self.prompt.is_killed(
            self.file, lines, self.dice.randint(1, MOST_CALLS), self.dice.choice(("pair", "has_number"))
        )

    def pair(self):
        number = len(self.event.stored) + 1
        if self.maybe(0.3):
            self.stop_somewhere("pair")
        self.type("pair")
        if self.maybe(0.4):
            self.change()
        if self.maybe(0.3):
            self.stop_somewhere(f"pair {self.throw()}")
        if len(self.event.stored) < number and not self.has_number(number):
            self.type(f"pair {self.throw()}")
        if len(self.event.stored) < number:
            self.type("pair")
        if self.maybe(0.15) and self.has_number(number):
            self.type(f"number {number} {self.throw()}", "y")

    def has_number(self, number):
        path = f"{self.file}.draws/numbers"
        lines = open(path).read().split("\n") if os.path.exists(path) else []
        return any(line.startswith(f"round {number} ") for line in lines)

    def score(self):
        """Some by phone, others by hand."""
        number = len(self.event.stored)
        for table, match in enumerate(list(self.event.stored[-1]), 1):
            if match[1] and match[2] is None:
                score = [str(it) for it in lawful(self.dice, random_score, is_of_swiss)]
                if self.maybe(0.5):
                    self.program.run("result", self.file, str(number), str(table), *score)
                else:
                    self.type(f"{table} {' '.join(score)}")

    def go_back(self):
        copies = sorted(
            int(name[:4]) for name in os.listdir(f"{self.file}.copies") if "-before-pair-" in name
        )
        if copies:
            self.type(f"back {self.dice.choice(copies)}", "y")

    def play(self):
        """To the last score, or to where it can't go on."""
        self.begin()
        steps = 0
        while steps < 3 * self.rounds:
            steps += 1
            if len(self.event.stored) == self.rounds and is_complete(self.event.stored[-1]):
                break
            before = len(self.event.stored)
            self.pair()
            if len(self.event.stored) == before:
                break
            self.score()
            if self.maybe(0.5):
                self.change()
            if self.maybe(0.2):
                self.go_back()


def test_an_honest_evening(program, prompt, dice, room, case, capsys):
    evening = DrawnEvening(program, prompt, dice, room)
    evening.play()
    status = event_check.main([evening.file])
    said = capsys.readouterr().out
    texts = [name for name in os.listdir(f"{evening.file}.draws") if name.endswith(".txt")]
    assert (status, "WRONG" in said) == (0, False), "\n".join([*evening.typed, said])
    assert not evening.event.stored or said.count("its tables are those that the rules give") == len(
        texts
    ), said
    # what was changed afterwards is found
    for name in texts:
        path = f"{evening.file}.draws/{name}"
        whole = open(path, "rb").read()
        at = random.Random(f"{case} {name}").randrange(whole.index(b"mark "), len(whole))
        changed = whole[:at] + (b"7" if whole[at : at + 1] != b"7" else b"3") + whole[at + 1 :]
        with open(path, "wb") as it:
            it.write(changed)
        is_found = event_check.main([evening.file]) == 1
        shown = capsys.readouterr().out
        with open(path, "wb") as it:
            it.write(whole)
        # the last text has nothing that follows on it: its digits are on the sheets
        assert is_found or LINE.match(
            whole[whole.rindex(b"\n", 0, at) + 1 :].decode()
        ), f"{name}, byte {at}: {shown}"
