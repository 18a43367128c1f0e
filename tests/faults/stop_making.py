"""Has each call fail once by which `init` makes an event, in a file that is not there and in an empty one. If the making of the database fails, the log
stays beside what there is of it, though nothing is in it: it tells how far the file has got, and the next opening goes on from there. Some such files
are no database without it, so that a program which took it away would be seen here.
"""
import os
import shutil
import tempfile

from tests.faults.stopping import calls_of, meddling
from tests.support.event_files import due
from tests.support.program import Program
from tests.support.tally import check, end
from tests.support.words import LIBRARY, PROGRAM, given_by

# a header and a frame of the smallest page: a log that is shorter holds nothing
LEAST_LOG = 32 + 24 + 512
MADE, STORE = due(["ok 0"]), due(["refused 25 Store"])


class Making:
    def __init__(self, program, library, is_there):
        self.program, self.library, self.is_there = os.path.abspath(program), library, is_there
        self.name = "an empty file" if is_there else "a new file"

    def init(self, file, **how):
        return Program(self.program).run("init", file, "E", "3", "0", **how)

    def begun(self, room, nth, how=""):
        """The file, and what `init` is answered with this call meddled with."""
        file = f"{room}/e.event"
        if self.is_there:
            open(file, "w").close()
        return file, self.init(file, env=meddling(self.library, nth, how))

    def calls(self):
        with tempfile.TemporaryDirectory() as room:
            return calls_of(self.begun(room, 0)[1][2])

    def needs_log(self, call):
        """Whether the file that is left if this call fails is no database without its log, in which nothing is."""
        with tempfile.TemporaryDirectory() as room, tempfile.TemporaryDirectory() as other:
            file, got = self.begun(room, call.nth, "EIO")
            log = f"{file}-wal"
            if got != STORE or not os.path.exists(log) or os.path.getsize(log) >= LEAST_LOG:
                return False
            alone = self.init(shutil.copy(file, other))
            check(f"{self.name}, {call}, sent again", self.init(file), MADE)
            return alone == STORE


def main(program, library):
    for is_there in (False, True):
        it = Making(program, library, is_there)
        found = sum(it.needs_log(call) for call in it.calls())
        check(f"{it.name}, some are no database without the log", found > 0 or found, True)
    end("a database whose making failed")


if __name__ == "__main__":
    main(**given_by(__doc__, program=PROGRAM, library=LIBRARY))
