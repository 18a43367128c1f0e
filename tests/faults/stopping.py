"""A program with one of the calls meddled with by which it changes a file (stop_nth.c): how it is run, and which calls there are."""
import collections
import os
from tests.support.program import Program


STOPS, FAULTS = ("before", "half"), ("EIO", "ENOSPC")
# one call by its number; whether it writes, whether an answer or the end comes next, and whether no answer comes any more
Call = collections.namedtuple("Call", "nth is_write is_last is_behind")


def meddling(library, nth, how=""):
    """The environment in which this call is meddled with. With 0 none is, and the last line of the errors has a letter for each call."""
    return {**os.environ, "LD_PRELOAD": library, "STOP_NTH": str(nth), "STOP_HOW": how}


def calls_of(errors):
    """The calls of a run in which none was meddled with, from its errors."""
    letters = errors.decode().split()[-1]
    counted = [at for at, letter in enumerate(letters) if letter != "a"]
    return [
        Call(nth, letters[at] == "w", letters[at + 1 : at + 2] in ("a", ""), "a" not in letters[at:])
        for nth, at in enumerate(counted, 1)
    ]


def ways(calls):
    """Each call with each way to meddle with it. Of one that doesn't write no half is done; behind it things are as before the next one, so that it
    is stopped there alone where an answer comes between, or where it is the last.
    """
    return [(it, how) for it in calls for how in STOPS + FAULTS if how != "half" or it.is_write or it.is_last]


def run_unclosed(program, library, words):
    """The output and the errors of a command line that is stopped after its answer, before it closes its file: the log keeps all that it has."""
    _, out, err = Program(program).run(*words, env=meddling(library, 1, "unclosed"))
    return out, err
