"""Refuses each growth of memory of a few lines of a script, and counts those after which the script goes on: the line is answered `refused 24 Memory`, and
what follows as if it had not been sent. If memory runs out outside the store, the desk stays as it was. So there are more of them in a line that is
taken, for which the event is copied before the first write, than in the same line sent again, which the rules refuse; and more in `standings`, which
makes rows, than in `players`, which makes only a text. If a desk stopped because memory ran out outside the store, there would not be more.
"""
from tests.faults.refused_memory import MEMORY, Script
from tests.support.tally import check, end
from tests.support.words import LIBRARY, PROGRAM, given_by

# as long as names may be
NAMES = [it * 60 for it in (b"A", b"B", b"C", b"D", b"E")]
TAKEN = [b"enrol\t" + NAMES[4], b"start", b"result\t1\t1\t2\t0\t0", b"drop\t3"]
LINES = [
    b"init\tFriday\t3\t0",
    *(b"enrol\t" + it for it in NAMES[:4]),
    TAKEN[0],
    TAKEN[0],
    TAKEN[1],
    TAKEN[1],
]
LINES += [
    b"pair\t1\t" + b"0" * 64,
    TAKEN[2],
    TAKEN[2],
    TAKEN[3],
    TAKEN[3],
    b"players",
    b"standings",
    b"slips\t1",
]
# a text begins as long as its heading, and doubles: that of the players grows once more than that of the standings
HEADINGS, DOUBLED = {b"players": 12, b"standings": 42}, 16


def goes_on(script, at):
    """How many allocations of a command have it answered 24, and what follows as if it had not been sent."""
    due = b"".join(script.answers[:at]) + MEMORY + script.without[at]
    return sum(
        script.run(script.commands, nth)[1] == due
        for nth in range(script.until[at - 1] + 1, script.until[at] + 1)
    )


def check_more(what, more, less):
    check(f"{what}, more than {less}", more > less or more, True)


def main(program, library):
    script, told = Script(program, library, [it + b"\n" for it in LINES]), []
    for line in TAKEN:
        at, name = LINES.index(line), line.split()[0].decode()
        check(f"{name}, twice", (script.answers[at][:3], script.answers[at + 1][:8]), (b"ok ", b"refused "))
        taken, refused = goes_on(script, at), goes_on(script, at + 1)
        check_more(name, taken, refused)
        told.append(f"{taken} of {name} and {refused} where it is refused")
    longer = {
        it: len(script.answers[LINES.index(it)]) > DOUBLED * heading for it, heading in HEADINGS.items()
    }
    check("which text doubles more often", longer, {b"players": True, b"standings": False})
    rows, text = goes_on(script, LINES.index(b"standings")), goes_on(script, LINES.index(b"players"))
    check_more("standings", rows, text)
    end(f"growths after which a script goes on: {', '.join(told)}, {rows} of standings and {text} of players")


if __name__ == "__main__":
    main(**given_by(__doc__, program=PROGRAM, library=LIBRARY))
