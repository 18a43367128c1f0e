"""Random evenings at two prompts and by phones, and random changes for which the event is played again: each list is what it was but for the change, or
nothing was done and the file is the same to the byte. What was taken back is entered again, and gives the old lists.

The prompt's own module is called, and asks the program, so that hundreds of changes take seconds.
"""
import contextlib
import copy
import io
import tempfile
import time

import pytest

from second_reading.plain_event import ENROLLING, FINISHED, PLAYOFF, SWISS
from second_reading.plain_file import read
from tests.support.inside import IN_MEMORY
from tests.support.random_evenings import is_of_playoff, is_of_swiss, lawful
from tests.support.random_play import random_playoff_score, random_score

CASES = {"number": (20, 1_000)}
CHANGES = 10
NAMES = "Ana {}", "Bo, {}", "-x {}", "Zoë <{}>", "Łukasz {}", 'O\'Neil "{}"', "{}", "=1+{}"


class Answers:
    """A terminal at which each question is answered so."""

    def __init__(self):
        self.says_yes = True

    def answer(self, _question):
        return "y" if self.says_yes else "n"

    line = typed = None

    def is_ahead(self):
        return False


class RandomEvening:
    """An event at the prompt. What it is, is what the plain reading reads from its file."""

    def __init__(self, program, dice, room):
        from event_companions.core.program import Source
        from event_companions.core.turn import Turn
        from event_companions.prompt.desk import Desk

        self.file, self.dice, self.program = f"{room}/e.event", dice, program
        self.sources = [Source(program.path, self.file, Turn(self.file, makes_file=True)) for _ in range(3)]
        self.desks, self.answers = [Desk(source, self.file) for source in self.sources[:2]], Answers()
        for desk in self.desks:
            desk.lines.typing = self.answers
        self.told = []

    def say(self, line, says_yes=True):
        self.answers.says_yes = says_yes
        with contextlib.redirect_stdout(io.StringIO()) as said:
            self.dice.choice(self.desks).done(line)
        self.told.append(f"{line}\n{said.getvalue()}")
        assert "itself is at fault" not in said.getvalue(), self.story()
        return said.getvalue()

    def story(self):
        return "\n".join(self.told[-12:])

    @property
    def event(self):
        return read(self.file)

    def lists(self):
        return [
            self.program.did(*words)
            for words in (
                ("export", self.file, "players"),
                ("export", self.file, "results"),
                ("standings", self.file),
                ("bracket", self.file),
            )
        ]

    def bytes(self):
        with open(self.file, "rb") as it:
            return it.read()

    # ---- an evening goes on

    def enrol(self):
        self.say(f"enrol {self.dice.choice(NAMES).format(len(self.told))}")

    def begin(self):
        self.say(f"init E {self.dice.randint(2, 4)} {self.dice.choice((0, 2, 4))}")
        for _ in range(self.dice.randint(3, 9)):
            self.enrol()

    def go_on(self):
        """A step of an evening: mostly the next one that is due."""
        event, dice = self.event, self.dice
        if event.phase == ENROLLING:
            self.say("start") if dice.random() < 0.6 else self.enrol()
        elif event.phase == PLAYOFF:
            self.play(event)
        elif event.phase == SWISS:
            still_open = (
                [at for at, (_, second, score) in enumerate(event.stored[-1], 1) if second and score is None]
                if event.stored
                else []
            )
            if still_open and dice.random() < 0.9:
                table, score = dice.choice(still_open), lawful(dice, random_score, is_of_swiss)
                self.hand_in(event, table, score) if dice.random() < 0.3 else self.say(
                    f"{table} {' '.join(map(str, score))}"
                )
            elif dice.random() < 0.35:
                self.beside(event)
            else:
                self.say("cut" if len(event.stored) == event.rounds and event.cut else "pair")

    def hand_in(self, event, table, score):
        """As a phone does: the score goes to the program, and a report of it lies beside the event."""
        from event_companions.beside.reports import STORED, TIME, Report, Reports
        from event_companions.core.score import Score

        number, said = len(event.stored), Score(*score)
        self.sources[2].report(number, str(table), said)
        first, second, _ = event.stored[-1][table - 1]
        Reports(self.file).add(
            Report(time.strftime(TIME), number, table, first, second, said, STORED, said, "10.0.0.7")
        )

    def beside(self, event):
        """What comes between results."""
        dice = self.dice
        what = dice.choice(("enrol", "drop", "fix", "doubt"))
        if what == "enrol":
            self.enrol()
        elif what == "drop" and len(event.names) - len(event.dropped) > 3:
            self.say(f"drop {dice.randint(1, len(event.names))}")
        elif what == "fix" and event.stored:
            number = dice.randint(1, len(event.stored))
            self.say(
                f"fix {number} {dice.randint(1, len(event.stored[number - 1]))} {' '.join(map(str, lawful(dice, random_score, is_of_swiss)))}"
            )
        elif event.stored:
            self.say(f"doubt {dice.randint(1, len(event.stored[-1]))}")

    def play(self, event):
        slots = [at for at, match in enumerate(event.stages[-1], 1) if not match[2]]
        score = lawful(self.dice, random_playoff_score, is_of_playoff)
        self.say(f"play {len(event.stages)} {self.dice.choice(slots)} {' '.join(map(str, score))}")

    # ---- a change

    def change(self):
        """A line that is typed, and what the event is after it if it is done; for some, the line that enters it again."""
        event, dice = self.event, self.dice
        new = copy.deepcopy(event)
        # mostly what is taken in this phase
        kinds = {
            ENROLLING: ("plan", "remove", "rename"),
            SWISS: ("plan", "score", "score", "drop", "remove"),
            PLAYOFF: ("slot",),
            FINISHED: ("slot",),
        }
        what = dice.choice(
            kinds[event.phase]
            if dice.random() < 0.9
            else ("plan", "score", "drop", "remove", "rename", "slot")
        )
        if what == "plan":
            new.rounds, new.cut = dice.randint(max(1, len(event.stored)), 5), dice.choice((0, 2, 4))
            return f"plan {new.rounds} {new.cut}", new, ""
        if what == "score" and event.phase == SWISS and event.stored:
            scored = [at for at, (_, second, score) in enumerate(event.stored[-1], 1) if second and score]
            if scored:
                table = dice.choice(scored)
                new.stored[-1][table - 1][2] = None
                return (
                    f"take back {table}",
                    new,
                    f"{table} {' '.join(map(str, event.stored[-1][table - 1][2]))}",
                )
        if what == "drop" and event.dropped:
            number = max(event.dropped) if dice.random() < 0.5 else dice.choice(sorted(event.dropped))
            new.dropped.discard(number)
            return f"take back drop {number}", new, f"drop {number}"
        if what == "remove" and event.phase in (ENROLLING, SWISS):
            number = dice.randint(1, len(event.names))
            del new.names[number - 1]
            new.dropped = {it - (it > number) for it in event.dropped if it != number}
            return (
                f"remove {number}",
                new,
                f"enrol {event.names[-1]}"
                if number == len(event.names) and number not in event.dropped
                else "",
            )
        if what == "rename" and event.phase == ENROLLING:
            number = dice.randint(1, len(event.names))
            new.names[number - 1] = f"New {len(self.told)}"
            return f"rename {number} New {len(self.told)}", new, f"rename {number} {event.names[number - 1]}"
        if what == "slot" and event.stages:
            stage = len(event.stages) - (not any(match[2] for match in event.stages[-1]))
            scored = [at for at, match in enumerate(event.stages[stage - 1], 1) if match[2]] if stage else []
            if scored:
                slot = dice.choice(scored)
                score, del_from = event.stages[stage - 1][slot - 1][2], stage
                new.stages[stage - 1][slot - 1][2] = None
                del new.stages[del_from:]
                name = {1: "final", 2: f"sf{slot}", 4: f"qf{slot}"}[len(event.stages[stage - 1])]
                return f"take back {name}", new, f"play {stage} {slot} {' '.join(map(str, score))}"
        return "", event, ""

    def is_same(self, event, due):
        """Whether each list is the one that is due; the bracket has its champion, or none."""
        seen = lambda it: (it.names, it.dropped, it.stored, it.stages, it.rounds, it.cut)
        return seen(event) == seen(due)

    def try_change(self):
        line, due, again = self.change()
        if not line:
            return ""
        lists, held, before = self.lists(), self.bytes(), self.event
        said = self.say(line, self.dice.random() < 0.9)
        if "To have it as it was: back " not in said:
            assert self.bytes() == held, f"declined, and the file is another one\n{self.story()}"
            return "declined"
        after = self.event
        assert self.is_same(
            after, due
        ), f"more than the change differs: {after.stored} and not {due.stored}\n{self.story()}"
        if line.startswith("plan"):
            assert self.lists() == lists, f"other lists\n{self.story()}"
        if again and before.phase != FINISHED:
            self.say(again)
            assert self.lists() == lists, f"entered again, and the lists are others\n{self.story()}"
        return "done"


@pytest.fixture
def evening(program, dice):
    with tempfile.TemporaryDirectory(dir=IN_MEMORY) as room:
        it = RandomEvening(program, dice, room)
        it.begin()
        yield it


def test_changes(evening, dice, number):
    came = []
    while len(came) < CHANGES:
        if evening.event.phase == FINISHED or dice.random() < 0.3:
            came += filter(None, [evening.try_change()])
        else:
            evening.go_on()
        assert len(evening.told) < 500, evening.story()
    assert "done" in came, evening.story()
