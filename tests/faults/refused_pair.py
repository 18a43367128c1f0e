"""Refuses the first allocations of a `pair`, of the round of worked example 4, as a script. The first allocations may be ones that the program does
without; of the first that it can't do without the answer is `refused 24 Memory`. That is no fault of the store, so the desk goes on: the serial stays
5, and the same command sent again makes it 6.
"""
from tests.faults.refused_memory import MEMORY, Script
from tests.support.tally import check, end
from tests.support.words import LIBRARY, PROGRAM, given_by

PAIR = b"pair\t1\t" + b"0" * 64 + b"\n"
COMMANDS = [
    b"init\tFriday\t3\t0\n",
    *(b"enrol\t%s\n" % it for it in (b"Ana", b"Bo", b"Cy", b"Di")),
    b"start\n",
    PAIR,
    PAIR,
]
STARTED = b"".join(b"ok %d\n" % it for it in range(6))
AS_EVER = 0, STARTED + b"ok 6\nrefused 7 WrongRound\n"


def main(program, library):
    script = Script(program, library, COMMANDS)
    check("no growth refused", script.run(COMMANDS)[:2], AS_EVER)
    first = script.until[5] + 1
    told = next(
        (nth for nth in range(first, script.until[6] + 1) if script.run(COMMANDS, nth)[:2] != AS_EVER), 0
    )
    check("the command in which the growth falls", script.command_of(told), 6)
    check(
        "the first growth of a pair refused",
        script.run(COMMANDS, told)[:2],
        (0, STARTED + MEMORY + b"ok 6\n"),
    )
    end(
        f"the first growth of a pair, {told} of {script.count} in its script; {told - first} before it are done without"
    )


if __name__ == "__main__":
    main(**given_by(__doc__, program=PROGRAM, library=LIBRARY))
