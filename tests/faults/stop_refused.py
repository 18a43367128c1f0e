"""Stops the program at each call by which it changes a file, and has each such call fail once, where it opens a file that it refuses: an empty one, a
text, another program's database, a damaged event, an event over which another one is to be set up, and one in version 1 that can't be moved to version 2,
since the table of its players is there already. No stop and no fault may cost the file anything. It is refused as before then, or takes an event where
it holds none, and keeps its bytes until then; but the empty one, which is begun.
"""
import concurrent.futures
import os
import sys
import tempfile

from tests.faults.stopping import STOPS, calls_of, meddling, ways
from tests.support.event_files import by_sqlite, copied, due, event_of_four, make_four, make_old
from tests.support.program import Program
from tests.support.words import LIBRARY, PROGRAM, given_by

INIT, PLAYERS, MIGRATE = ("init", "E", "3", "0"), ("players",), ("migrate",)
STORE, NO_EVENT, EXISTS, DAMAGED = (
    due([f"refused {it}"]) for it in ("25 Store", "27 NoEvent", "28 EventExists", "29 Damaged")
)


def laid(file, data):
    with open(file, "wb") as it:
        it.write(data)


def kinds(program, room):
    """Files with a command that each refuses, the answer, and a command that comes after it, with its answer."""
    empty, text, other, damaged, there, taken = (
        f"{room}/{it}" for it in ("empty", "text", "other", "damaged", "there", "taken")
    )
    laid(empty, b"")
    laid(text, b"Ana\nBo\n" * 900)
    by_sqlite(other, "CREATE TABLE note(body TEXT)")
    for file, statement in (
        (damaged, "UPDATE player2 SET no = 7 WHERE no = 2"),
        (there, "SELECT * FROM player2"),
    ):
        make_four(program, file)
        by_sqlite(file, statement)
    make_old(taken, event_of_four(1), others=((), ("CREATE TABLE player2(no INTEGER PRIMARY KEY)",)))
    made, players = due(["ok 0"]), due(event_of_four().players())
    return [
        (empty, PLAYERS, NO_EVENT, INIT, made),
        (text, PLAYERS, STORE, INIT, STORE),
        (other, PLAYERS, NO_EVENT, INIT, made),
        (damaged, PLAYERS, DAMAGED, INIT, EXISTS),
        (there, INIT, EXISTS, PLAYERS, players),
        (taken, MIGRATE, STORE, PLAYERS, players),
    ]


class Refused:
    def __init__(self, program, library, kind):
        self.program, self.library = os.path.abspath(program), library
        self.file, self.words, self.answer, self.then, self.due = kind

    def run(self, file, words, **how):
        name, *rest = words
        return Program(self.program).run(name, file, *rest, **how)

    def calls(self):
        with tempfile.TemporaryDirectory() as room:
            return calls_of(self.run(copied(self.file, room), self.words, env=meddling(self.library, 0))[2])

    def are_bytes_kept(self, file):
        before, after = (open(it, "rb").read() for it in (self.file, file))
        return after == before or not before

    def tried(self, call, how):
        """What was wrong if this call was meddled with so, or nothing."""
        with tempfile.TemporaryDirectory() as room:
            file = copied(self.file, room)
            got = self.run(file, self.words, env=meddling(self.library, call.nth, how))
            lawful = [(-9, b"", b""), (-9, *self.answer[1:])] if how in STOPS else [STORE, self.answer]
            is_kept, again, then = (
                self.are_bytes_kept(file),
                self.run(file, self.words),
                self.run(file, self.then),
            )
            if got in lawful and is_kept and (again, then) == (self.answer, self.due):
                return None
            return (
                f"{os.path.basename(self.file)}, {call}, {how}: {got}, kept: {is_kept}, then {again}, {then}"
            )


def main(program, library):
    stops, faults, wrong = 0, 0, []
    with tempfile.TemporaryDirectory() as room, concurrent.futures.ThreadPoolExecutor(
        len(os.sched_getaffinity(0))
    ) as pool:
        for kind in kinds(program, room):
            it = Refused(program, library, kind)
            tries = ways(it.calls())
            wrong += filter(None, pool.map(lambda one, it=it: it.tried(*one), tries))
            here = sum(how in STOPS for _, how in tries)
            stops, faults = stops + here, faults + len(tries) - here
    print("\n".join(wrong), file=sys.stderr, end="\n" if wrong else "")
    print(
        f"stops in files that are refused: {stops} stops, {faults} faults of the device, {len(wrong)} wrong"
    )
    return 1 if wrong else 0


if __name__ == "__main__":
    sys.exit(main(**given_by(__doc__, program=PROGRAM, library=LIBRARY)))
