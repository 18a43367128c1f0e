"""Brings frames of an earlier log back after a newer one, as a crash may if the cut of the log was not synced. Neither the program nor C SQLite reads
them: the event is the one of the newer log. The salts of a log that the program has emptied come of a constant seed, so this tries that they differ.
"""
import tempfile

from tests.faults.stopping import run_unclosed
from tests.support.event_files import bytes_of, due, rows_of, rows_of_copy
from tests.support.plain_log import FRAME, HEAD, PAGE, committed, with_sums
from tests.support.program import Program
from tests.support.tally import check, end
from tests.support.words import LIBRARY, PROGRAM, given_by
from second_reading.plain_event import Event

NAMES = [f"P{number}" for number in range(1, 31)]
# the magic number, version, page size, checkpoints, salts and sums of a log, and the shut gate after them
EMPTY = HEAD + 9


def lay(room, data, log):
    """Writes a file and its log, and returns the file's path."""
    folder = tempfile.mkdtemp(dir=room)
    for name, content in (("e.event", data), ("e.event-wal", log)):
        with open(f"{folder}/{name}", "wb") as written:
            written.write(content)
    return f"{folder}/e.event"


def check_event(program, room, name, data, log, event):
    file = lay(room, data, log)
    check(f"{name}, as C SQLite reads it", rows_of_copy(file), rows_of(event))
    check(f"{name}, players", Program(program).run("players", file), due(event.players()))
    check(f"{name}, once it is closed", rows_of_copy(file), rows_of(event))


def main(program, library):
    event = Event(3, 0)
    with tempfile.TemporaryDirectory() as room:
        file = f"{room}/e.event"
        check("init", Program(program).run("init", file, "E", "3", "0"), due(["ok 0"]))
        with open(f"{room}/names.csv", "w", encoding="utf-8") as names:
            names.writelines(f"{line}\n" for line in ["name", *NAMES])
        for name in NAMES:
            event.enrol(name)
        run_unclosed(program, library, ["import", file, f"{room}/names.csv"])
        earlier = bytes_of(f"{file}-wal")
        check("the earlier log has frames", committed(earlier) > HEAD + 10 * (FRAME + PAGE), True)
        check("it is copied", Program(program).run("players", file), due(event.players()))
        closed, emptied = bytes_of(file), bytes_of(f"{file}-wal")
        check("the salts of the emptied log", emptied[16:20] != earlier[16:20], True)
        check_event(program, room, "an emptied log", closed, emptied[:EMPTY] + earlier[EMPTY:], event)
        check_event(program, room, "a header alone", closed, emptied[:HEAD] + earlier[HEAD:], event)
        run_unclosed(program, library, ["start", file])
        event.start()
        newer, read = bytes_of(f"{file}-wal"), committed(bytes_of(f"{file}-wal"))
        check("the newer log is shorter", HEAD < read < committed(earlier), True)
        check_event(program, room, "a newer log", closed, newer, event)
        check_event(program, room, "after its gate", closed, newer + earlier[len(newer) :], event)
        check_event(program, room, "after its last frame", closed, newer[:read] + earlier[read:], event)
        # with the salts and sums of the newer log they would be read, so this can fail
        forged = lay(room, closed, with_sums(newer[:read] + earlier[read:]))
        check("forged frames are read", rows_of_copy(forged) != rows_of(event), True)
    end("frames of an earlier log behind a newer one: 5 ways")


if __name__ == "__main__":
    main(**given_by(__doc__, program=PROGRAM, library=LIBRARY))
