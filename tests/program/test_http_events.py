"""Serves events on the program as it is built beside the plain reading of the rules: one event to each odd request of the lists, and random
events to random and damaged requests. Compared are each whole answer and, after each run of `serve`, the rows of the file and the texts that
command lines print. Between the runs the event goes on by command lines, and some players enrol late. Every second event begins in version 1, in a
file made by SQL, and some of these are migrated.
"""
from second_reading.plain_event import PLAYOFF, SWISS, Event
from tests.support.event_files import due, make_old, rows_alone, rows_of, words_of
from tests.support.plain_http import read_of, served as served_plainly
from tests.support.random_play import random_playoff_score, random_score
from tests.support.random_requests import each_oddity, random_request
from tests.support.serving import Serving, served

CASES = {"number": (7, 215)}
# how many requests an event is asked at least
REQUESTS = 90
NAMES = [
    "Ana",
    "Bo",
    "Cy",
    "Di",
    'Zo"e',
    "back\\slash",
    "Zoë",
    "大会",
    "</b>",
    "O'Neil",
    "{}",
    "a,b",
    "%41",
    "né\u2028w",
    "😀",
    "x" * 60,
    "a  b",
]
NAMES += ["\u0085", "\ufeffBom", "\\u0041"]


class ServedEvent:
    """One event in a file: what is asked of the program, and of the plain reading."""

    def __init__(self, program, file, dice, version):
        self.program, self.file, self.dice, self.requests = program, file, dice, 0
        self.event = Event(self.dice.randint(1, 5), self.dice.choice((0, 0, 2, 4)), version)
        if self.event.version == 1:
            make_old(file, self.event)
        else:
            self.line(f"init\tE\t{self.event.rounds}\t{self.event.cut}", ["ok 0"])
        for name in self.dice.sample(NAMES, self.dice.randint(2, 9)):
            self.line(f"enrol\t{name}", self.event.enrol(name))

    def line(self, line, answer):
        assert self.program.run(*words_of(line, self.file)) == due(answer), repr(line)

    def request(self, serving, sent):
        dice, size = self.dice, read_of(sent)
        answer, _ = served_plainly(self.event, sent)
        self.requests += 1
        if size == len(sent) and dice.random() < 0.1:
            got = serving.ask_slowly(sent, [dice.randint(1, 40) for _ in range(size)])
        else:
            # an input that is a whole request is answered though it doesn't end
            got = serving.ask(sent, size is None or dice.random() < 0.5)
        assert got == answer, f"request {self.requests}, {sent!r}"

    def serve(self, count, wishes):
        with Serving(self.program.path, self.file, count) as serving:
            for _ in range(count):
                self.request(serving, next(wishes))
            assert serving.end() == served(count), "serve"

    def any_requests(self):
        """Each depends on where the event stands by then."""
        while True:
            yield random_request(self.dice, self.event)

    def look(self):
        """The file, without its log as the end of serving leaves it, and what command lines show of it."""
        assert rows_alone(self.file) == rows_of(self.event), "the rows"
        self.line("standings", self.event.standings())
        self.line("players", self.event.players())
        for number in range(1, len(self.event.stored) + 1):
            self.line(f"slips\t{number}", self.event.slips(number))

    def report_all(self):
        """The scores that are still open, by command lines."""
        for place, (_, _, score) in enumerate(self.event.stored[-1] if self.event.stored else [], 1):
            if not score:
                self.line(
                    f"result\t{len(self.event.stored)}\t{place}\t2\t1\t0",
                    self.event.report(len(self.event.stored), place, (2, 1, 0), True),
                )

    def pair(self):
        seed, number = self.dice.randbytes(32), len(self.event.stored) + 1
        self.line(f"pair\t{number}\t{seed.hex()}", self.event.pair(number, seed))

    def go_on(self):
        """What happens at the desk between two runs."""
        dice, event = self.dice, self.event
        if dice.random() < 0.3 and event.stored:
            score, number, place = random_score(dice), dice.randint(1, len(event.stored)), dice.randint(0, 3)
            self.line(
                f"correct\t{number}\t{place}\t{score[0]}\t{score[1]}\t{score[2]}",
                event.report(number, place, score, False),
            )
        if dice.random() < 0.2:
            self.line("migrate", event.migrate())
        if dice.random() < 0.15:
            player = dice.randint(0, len(event.names))
            self.line(f"drop\t{player}", event.drop(player))
        if dice.random() < 0.25:
            name = dice.choice(NAMES)
            self.line(f"enrol\t{name}", event.enrol(name))
        if (
            event.phase == SWISS
            and len(event.stored) == event.rounds
            and not event.is_open()
            and dice.random() < 0.7
        ):
            self.line("cut", event.end_rounds())
        elif event.phase == PLAYOFF:
            score = random_playoff_score(dice)
            self.line(f"playoff\t1\t1\t{score[0]}\t{score[1]}\t{score[2]}", event.play(1, 1, score))
        elif event.phase == SWISS:
            if dice.random() < 0.9:
                self.report_all()
            self.pair()


def test_odd_requests(program, room, dice):
    """One event to each odd request of the lists."""
    served_event, requests = ServedEvent(program, f"{room}/e.event", dice, 2), [*each_oddity()]
    served_event.line("start", served_event.event.start())
    served_event.pair()
    served_event.serve(len(requests), iter(requests))
    served_event.look()


def test_random(program, room, dice, number):
    """An event to random and damaged requests."""
    served_event = ServedEvent(program, f"{room}/e.event", dice, 2 - number % 2)
    if dice.random() < 0.1:
        served_event.serve(3, served_event.any_requests())
    served_event.line("start", served_event.event.start())
    while served_event.requests < REQUESTS:
        served_event.go_on()
        served_event.serve(dice.randint(10, 30), served_event.any_requests())
        served_event.look()
