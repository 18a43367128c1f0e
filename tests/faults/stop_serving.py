"""Serves an event, and meddles with each call by which the program then changes a file: it stops the program there, or has this call fail once. The
file holds every score that was acknowledged, and perhaps the one on its way. Where a call has failed, the request is answered 503 with refusal
25 and each later one 503 with refusal 26, or nobody is listened to. After `served` the file is closed, and then no answer changes.

It is ended between two requests too, at once and by Ctrl-C, and closes nothing then. The command that comes next does, so that the file without its
log holds the event.
"""
import concurrent.futures
import copy
import os
import signal
import sys
import tempfile

from tests.faults.stopping import STOPS, calls_of, meddling, ways
from tests.support.event_files import (
    copied,
    due,
    event_of_four,
    make_four,
    rows_alone,
    rows_of,
    rows_of_copy,
)
from tests.support.plain_http import refusal, served as served_plainly
from tests.support.program import Program
from tests.support.serving import Serving, hear_interrupts, served
from tests.support.words import LIBRARY, PROGRAM, given_by

POSTS = [
    b'POST /rounds/1/tables/%d HTTP/1.1\r\nContent-Length: 19\r\n\r\n{"a":2,"b":1,"d":0}' % it
    for it in (1, 2)
]
REQUESTS = [*POSTS, b"GET /rounds/1/tables/1 HTTP/1.1\r\n\r\n"]
STORE, NEEDS_REOPEN = refusal("refused 25 Store"), refusal("refused 26 NeedsReopen")
SERVED = served(len(REQUESTS))


class Meddling:
    def __init__(self, program, library, file):
        self.program, self.library, self.file = os.path.abspath(program), library, file
        event, self.events, self.due = event_of_four(), [], []
        for sent in REQUESTS:
            self.events.append(copy.deepcopy(event))
            self.due.append(served_plainly(event, sent)[0])
        self.events.append(event)

    def served(self, file, nth, how=""):
        """What the requests are answered, and how the program ends; nothing if it ended before it listened."""
        try:
            with Serving(self.program, file, len(REQUESTS), env=meddling(self.library, nth, how)) as serving:
                return [serving.ask(sent) for sent in REQUESTS], serving.end()
        except OSError:
            return [], None

    def calls(self):
        with tempfile.TemporaryDirectory() as room:
            return calls_of(self.served(copied(self.file, room), 0)[1][2])

    def are_lawful(self, answers, known, end, call, how):
        """Whether the answers after those that are as ever are what may follow a stop, or a call that failed."""
        later, is_stop = answers[known:], how in STOPS
        if call.is_behind:
            return answers == self.due and end == ((-signal.SIGKILL, *SERVED[1:]) if is_stop else SERVED)
        if is_stop:
            return all(it == b"" or it.startswith(b"no connection") for it in later)
        return not later or later == [STORE] + [NEEDS_REOPEN] * (len(later) - 1)

    def rest(self, file, event):
        """What was wrong with the command that comes next, and with the file alone after it."""
        shown = Program(self.program).run("players", file), Program(self.program).run("standings", file)
        if shown != (due(event.players()), due(event.standings())):
            return f"{shown}"
        return None if rows_alone(file) == rows_of(event) else f"the file alone holds {rows_alone(file)}"

    def tried(self, call, how):
        """What was wrong if this call was meddled with so, or nothing."""
        with tempfile.TemporaryDirectory() as room:
            file = copied(self.file, room)
            answers, end = self.served(file, call.nth, how)
            known = next(
                (at for at, (got, want) in enumerate(zip(answers, self.due)) if got != want), len(answers)
            )
            kept = min(known, len(POSTS))
            held, rows = self.events[kept : kept + 1 + (known < len(REQUESTS))], rows_of_copy(file)
            found = next((it for it in held if rows_of(it) == rows), None)
            wrong = self.rest(file, found) if found else "none of the events"
            if wrong or not self.are_lawful(answers, known, end, call, how):
                return f"{call}, {how}: {answers}, {end}, {rows}, {wrong}"
            return None

    def ended(self, count, number):
        """What was wrong where a signal ends it after this many requests."""
        with tempfile.TemporaryDirectory() as room:
            file, event = copied(self.file, room), self.events[count]
            with Serving(self.program, file, len(REQUESTS), preexec_fn=hear_interrupts) as serving:
                answers = [serving.ask(sent) for sent in REQUESTS[:count]]
                serving.process.send_signal(number)
                end = serving.end()
            rows = rows_of_copy(file)
            wrong = self.rest(file, event)
            if wrong or (answers, end, rows) != (self.due[:count], (-number, b"", b""), rows_of(event)):
                return f"signal {number} after {count} requests: {answers}, {end}, {rows}, {wrong}"
            return None


def main(program, library):
    with tempfile.TemporaryDirectory() as folder, concurrent.futures.ThreadPoolExecutor(
        len(os.sched_getaffinity(0))
    ) as pool:
        file = f"{folder}/e.event"
        make_four(program, file)
        it = Meddling(program, library, file)
        ends = [
            (count, number) for count in range(len(REQUESTS)) for number in (signal.SIGKILL, signal.SIGINT)
        ]
        wrong = [*filter(None, (it.ended(*end) for end in ends))]
        tries = ways(it.calls())
        wrong += filter(None, pool.map(lambda one: it.tried(*one), tries))
    stops = [call for call, how in tries if how in STOPS]
    behind = sum(call.is_behind for call in stops)
    print("\n".join(wrong), file=sys.stderr, end="\n" if wrong else "")
    print(
        f"stops while serving: {len(ends)} between requests, {len(stops)} at a call, {behind} of them after the last answer; "
        f"{len(tries) - len(stops)} faults of the device; {len(wrong)} wrong"
    )
    return 1 if wrong else 0


if __name__ == "__main__":
    sys.exit(main(**given_by(__doc__, program=PROGRAM, library=LIBRARY)))
