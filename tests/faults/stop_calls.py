"""Stops the program at each call by which it changes a file, and has each such call fail once, one after the other: in the commands of an event with
a playoff, in a late entry, in migrations, and in random events. Each time the file has to hold the event before the command or after it, whole, and after it where the
command was acknowledged; the program shows that event's standings; and the command, sent again where it was not taken, is taken. A call that
fails has the command refused with 25.

A migration finds an event in version 1, which SQL has made, closed or all in its log. The file then holds that in version 1 or in version 2, and a
migration that is sent again is answered as ever, whichever it is.

A command closes its file after the answer. Of a call there the answer knows nothing: it is whole if the program is stopped, and if the call fails
it is as ever, with its status. After the command that comes next, the file without its log holds the event.

Each command line makes the same calls to open a file that is closed. In the gate each of them is meddled with in every fourth line.
"""
import collections
import concurrent.futures
import os
import random
import sys
import tempfile

from second_reading.plain_event import Event
from tests.faults.stopping import STOPS, calls_of, meddling, ways
from tests.support.event_files import (
    copied,
    due,
    event_of_four,
    has_begun_old,
    make_four,
    make_old,
    play_playoff,
    play_rounds,
    rows_alone,
    rows_left,
    rows_of,
    words_of,
)
from tests.support.program import Program
from tests.support.random_play import random_event, version_of
from tests.support.words import LIBRARY, PROGRAM, SEED, Word, given_by

# the most players of a random event that is played to its champion
MOST = 12
REFUSED = due(["refused 25 Store"])
State = collections.namedtuple("State", "rows standings")
NOTHING = State(None, due(["refused 27 NoEvent"]))


class Calls:
    def __init__(self, program, library, stride, pool):
        self.program, self.library, self.stride, self.pool = os.path.abspath(program), library, stride, pool
        self.lines = self.refused = 0
        # before the answer is out, and after it
        self.stops, self.faults = [0, 0], [0, 0]
        self.wrong = []

    def begin(self, file):
        self.file, self.before = file, NOTHING

    def meddled(self, words, nth, how=""):
        """A command line with this call meddled with: its status, output and errors."""
        return Program(self.program).run(*words, env=meddling(self.library, nth, how))

    def calls(self, line):
        """The calls that the command line makes."""
        with tempfile.TemporaryDirectory() as room:
            return calls_of(self.meddled(words_of(line, copied(self.file, room)), 0)[2])

    def ways(self, line):
        """The calls of a command line with the ways to meddle with each. All that a reader does before its answer is to open the file."""
        opening = sum(not call.is_behind for call in self.calls("standings"))
        return [
            (call, how)
            for call, how in ways(self.calls(line))
            if call.nth > opening or (call.nth + self.lines) % self.stride == 0
        ]

    def lawful(self, answer, after, call, how):
        """What the command line may be answered, each with what the file may hold then."""
        whole, taken, either = due(answer), [after.rows], [after.rows, self.before.rows]
        if call.is_behind:
            return {(-9, *whole[1:]) if how in STOPS else whole: taken}
        return {(-9, b"", b""): either} if how in STOPS else {REFUSED: either, whole: taken}

    def tried(self, line, answer, after, call, how):
        """Whether the command was refused, and what was wrong, if something was."""
        with tempfile.TemporaryDirectory() as room:
            file = copied(self.file, room)
            words = words_of(line, file)
            got = self.meddled(words, call.nth, how)
            rows = rows_left(file, self.before.rows)
            if rows not in self.lawful(answer, after, call, how).get(got, []):
                return False, f"answered {got}, and the file holds {rows}"
            held = after if rows == after.rows else self.before
            shown = Program(self.program).run("standings", file)
            if shown != held.standings:
                return False, f"standings are {shown}"
            if held is not after or line == "migrate":
                again = Program(self.program).run(*words)
                if again != due(answer):
                    return False, f"sent again: {again}"
            if rows_alone(file) != after.rows:
                return False, f"after the next command, the file alone holds {rows_alone(file)}"
            return got == REFUSED, None

    def told(self):
        return (
            f"{self.lines} command lines, {self.stops[False] + self.stops[True]} stops, {self.stops[True]} of them after the answer, "
            f"{self.faults[False] + self.faults[True]} faults of the device, {self.faults[True]} of them after the answer, {self.refused} refused, "
            f"{len(self.wrong)} wrong"
        )

    def begin_old(self, event, has_log):
        """Goes on with an event in version 1."""
        make_old(self.file, event, has_log=has_log)
        self.before = State(rows_of(event), due(event.standings()))

    def play(self, line, answer, event):
        after = State(rows_of(event), due(event.standings()))
        if has_begun_old(line, answer, event, self.file):
            self.before = after
            return
        tries = self.ways(line)
        for (call, how), (is_refused, fault) in zip(
            tries, self.pool.map(lambda it: self.tried(line, answer, after, *it), tries)
        ):
            (self.stops if how in STOPS else self.faults)[call.is_behind] += 1
            self.refused += is_refused
            if fault:
                self.wrong.append(
                    f"{line!r}, {call}, {how}: {fault}; before {self.before.rows}, after {after.rows}"
                )
        got = Program(self.program).run(*words_of(line, self.file))
        if got != due(answer) or rows_alone(self.file) != after.rows:
            self.wrong.append(
                f"{line!r}: {got}, and not {due(answer)}, and the file alone holds {rows_alone(self.file)}"
            )
        self.lines, self.before = self.lines + 1, after


def play_migration(calls, has_log):
    """An event of six in version 1 after the cut to four; its migration, and another one; and the first score of its playoff."""
    event = Event(1, 4, 1)
    play_rounds(lambda *_: None, event)
    calls.begin_old(event, has_log)
    for _ in range(2):
        calls.play("migrate", event.migrate(), event)
    calls.play("playoff\t1\t1\t2\t0\t0", event.play(1, 1, (2, 0, 0)), event)


def play_late(calls):
    """A fifth player enrols while the first round of four is open, and misses it: the result that completes it sets the totals of all five."""
    event = event_of_four()
    make_four(calls.program, calls.file)
    calls.before = State(rows_of(event), due(event.standings()))
    calls.play("enrol\tP5", event.enrol("P5"), event)
    for table in (1, 2):
        calls.play(f"result\t1\t{table}\t2\t0\t0", event.report(1, table, (2, 0, 0), True), event)


def main(program, library, count, seed):
    dice = random.Random(seed)
    with concurrent.futures.ThreadPoolExecutor(len(os.sched_getaffinity(0))) as pool:
        calls = Calls(program, library, 1 if count else 4, pool)
        plays = [
            lambda: play_playoff(calls.play),
            lambda: play_migration(calls, False),
            lambda: play_migration(calls, True),
            lambda: play_late(calls),
        ]
        plays += [
            lambda it=it: random_event(calls.play, dice, it, MOST, version_of(it))
            for it in range(1, count + 1)
        ]
        for number, play in enumerate(plays, 1):
            with tempfile.TemporaryDirectory() as folder:
                calls.begin(f"{folder}/e.event")
                play()
            if count:
                print(f"{number} events, {calls.told()}", file=sys.stderr, flush=True)
    print("".join(f"seed {seed}, {it}\n" for it in calls.wrong), file=sys.stderr, end="")
    print(f"stops at each call: {len(plays)} events, {calls.told()}")
    return 1 if calls.wrong else 0


if __name__ == "__main__":
    count = Word(
        int,
        "how many random events are played besides; with 0 each call that opens a file is tried in every fourth line",
    )
    sys.exit(main(**given_by(__doc__, program=PROGRAM, library=LIBRARY, count=count, seed=SEED)))
