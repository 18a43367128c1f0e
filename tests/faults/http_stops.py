"""Stops the program by SIGKILL while it serves: after an answer, at a random instant while a score is handed in, and in the middle of a request.
The file then holds every score that was acknowledged, and of the one on its way all or nothing; and once a command line has run, it holds them alone,
without its log. It is served again on the same port, and that score is sent again: it is taken, or answered with the score that is stored. Every second
event is in version 1.
"""
import copy
import random
import sys
import tempfile
import time

from second_reading.plain_event import Event
from tests.support.event_files import due, make_old, rows_alone, rows_of, rows_of_copy, words_of
from tests.support.plain_http import served as served_plainly
from tests.support.program import Program
from tests.support.serving import Serving, free_port, received, sent_whole
from tests.support.words import PROGRAM, SEED, Word, given_by

SCORES = [(2, 0, 0), (2, 1, 0), (1, 2, 0), (0, 2, 0), (1, 1, 1), (0, 0, 3)]


class Stops:
    def __init__(self, program, count, seed):
        self.program, self.count, self.seed, self.dice = program, count, seed, random.Random(seed)
        self.stops = self.events = self.whole = self.stored = self.acknowledged = self.again = self.wrong = 0
        self.length = 0.01

    def complain(self, what, got, want):
        self.wrong += 1
        print(
            f"seed {self.seed}, event {self.events}, stop {self.stops}, {what}: {got!r}, and not {want!r}",
            file=sys.stderr,
        )

    def line(self, line, answer):
        got = Program(self.program).run(*words_of(line, self.file))
        if got != due(answer):
            self.complain(repr(line), got, due(answer))

    def pair(self):
        seed, number = self.dice.randbytes(32), len(self.event.stored) + 1
        self.line(f"pair\t{number}\t{seed.hex()}", self.event.pair(number, seed))

    def begin(self, file):
        self.events += 1
        self.file, self.event, self.port = file, Event(5, 0, 1 + self.events % 2), free_port()
        if self.event.version == 1:
            make_old(file, self.event)
        else:
            self.line("init\tE\t5\t0", ["ok 0"])
        for number in range(1, self.dice.randint(8, 16)):
            self.line(f"enrol\tP{number}", self.event.enrol(f"P{number}"))
        self.line("start", self.event.start())
        self.pair()

    def slip(self):
        """A score for a match that has none, as it is handed in; or None."""
        tables = [place for place, (_, _, score) in enumerate(self.event.stored[-1], 1) if not score]
        if not tables:
            return None
        body = b'{"a":%d,"b":%d,"d":%d}' % self.dice.choice(SCORES)
        number, table = len(self.event.stored), self.dice.choice(tables)
        return (
            b"POST /rounds/%d/tables/%d HTTP/1.1\r\nContent-Length: %d\r\n\r\n" % (number, table, len(body))
            + body
        )

    def post(self, serving, sent):
        """Hands a score in, and waits for the whole answer."""
        want, _ = served_plainly(self.event, sent)
        begun = time.monotonic()
        got = serving.ask(sent, ends=False)
        self.length = 0.9 * self.length + 0.1 * (time.monotonic() - begun)
        if got != want:
            self.complain(sent, got, want)

    def stop_in(self, serving, sent):
        """Sends the bytes, stops the program a random while later, and gives what was answered by then."""
        with serving.client() as client:
            sent_whole(client, sent)
            time.sleep(self.dice.random() * 1.2 * self.length)
            serving.process.kill()
            return received(client)

    def stop_at_answer(self, serving, sent):
        """The same, as soon as the first bytes of the answer are there."""
        with serving.client() as client:
            sent_whole(client, sent)
            first = client.recv(65_536)
            serving.process.kill()
            return first + received(client)

    def look(self, before, after, is_acknowledged):
        """The file holds the event before the score on its way, or after it. Which of them it is, is the event from here on."""
        rows = rows_of_copy(self.file)
        is_after = rows == rows_of(after)
        if not is_after and (is_acknowledged or rows != rows_of(before)):
            self.complain(
                "the file", rows, rows_of(after) if is_acknowledged else [rows_of(before), rows_of(after)]
            )
        self.event = after if is_after else before
        return is_after and after is not before

    def turn(self, serving):
        """Some scores that are acknowledged, and then a stop. If a score was on its way it is given back, to be sent again."""
        for _ in range(self.dice.randint(0, 2)):
            sent = self.slip()
            if sent:
                self.post(serving, sent)
        sent, way, before = self.slip(), self.dice.random(), self.event
        if not sent or way < 0.2:
            serving.process.kill()
            serving.process.wait()
            self.look(before, before, True)
            return None
        if way < 0.4:
            self.stop_in(serving, sent[: self.dice.randrange(len(sent))])
            serving.process.wait()
            self.look(before, before, True)
            return sent
        after = copy.deepcopy(before)
        want, _ = served_plainly(after, sent)
        got = (self.stop_at_answer if way < 0.6 else self.stop_in)(serving, sent)
        serving.process.wait()
        if not want.startswith(got):
            self.complain(f"cut, {sent}", got, want)
        self.whole += 1
        self.acknowledged += got == want
        self.stored += self.look(before, after, got != b"")
        return sent

    def play(self):
        """One event, to the end of its rounds."""
        again = None
        while self.stops < self.count:
            with Serving(self.program, self.file, 1000, self.port) as serving:
                if again:
                    self.again += 1
                    self.post(serving, again)
                again = self.turn(serving)
            self.stops += 1
            self.line("standings", self.event.standings())
            if rows_alone(self.file) != rows_of(self.event):
                self.complain("the file alone", rows_alone(self.file), rows_of(self.event))
            if not again and not self.event.is_open():
                if len(self.event.stored) == self.event.rounds:
                    return
                self.pair()


def main(program, count, seed):
    stops = Stops(program, count, seed)
    while stops.stops < count:
        with tempfile.TemporaryDirectory() as folder:
            stops.begin(f"{folder}/e.event")
            stops.play()
    print(
        f"stops while it serves: {stops.stops} in {stops.events} events of seed {seed}, {stops.whole} with a whole score on its way, of which {stops.stored} were stored "
        f"and {stops.acknowledged} answered; {stops.again} were sent again; {stops.wrong} wrong"
    )
    return 1 if stops.wrong else 0


if __name__ == "__main__":
    sys.exit(
        main(**given_by(__doc__, program=PROGRAM, count=Word(int, "how many stops are made"), seed=SEED))
    )
