"""Counts the instructions of a program by valgrind's callgrind: of a script, of what one more command costs, and of command lines over a file:
`python3 -B -m tools.bench.counts PROGRAM [PEER ..]`. Each PEER is counted on the scripts beside it.

callgrind takes each byte of `rep movsb` for an instruction of its own, so the C library is asked to copy without it. Figures differ a little with
that library's version.
"""
import os
import re
import subprocess
import tempfile

from tests.support.words import PROGRAM, Word, given_by
from tools.bench.evenings import enrolled, played, seed, to_the_champion

WITHOUT_REP = {**os.environ, "GLIBC_TUNABLES": "glibc.cpu.hwcaps=-ERMS,-FSRM"}
ROUNDS = 9


def count(program, words, lines=()):
    """The instructions, in millions, of a run with these words and these lines on its input."""
    script = "".join(f"{line}\n" for line in lines).encode()
    with tempfile.TemporaryDirectory() as room:
        tool = ["valgrind", "--tool=callgrind", f"--callgrind-out-file={room}/out", "--"]
        ran = subprocess.run([*tool, program, *words], input=script, capture_output=True, env=WITHOUT_REP)
    return int(re.search(rb"Collected : (\d+)", ran.stderr)[1]) / 1_000_000


def one_more(program, lines, *more):
    """What more lines of a script cost."""
    return count(program, [], [*lines, *more]) - count(program, [], lines)


def event_file(program, room, players):
    """A file of an event after all its rounds, by command lines."""
    path, names = f"{room}/event", f"{room}/names.csv"
    with open(names, "w", encoding="utf-8") as it:
        it.write("no,name,dropped\n" + "".join(f"{no},N{no},0\n" for no in range(1, players + 1)))
    for line in played(players, ROUNDS):
        name, *values = line.split("\t")
        if name != "enrol":
            subprocess.run([program, name, path, *values], check=True, capture_output=True)
        if name == "init":
            subprocess.run([program, "import", path, names], check=True, capture_output=True)
    return path


def count_scripts(programs):
    """What is counted of the program, and of each peer."""

    def beside(name, counted):
        print(f"{name}: {', '.join(f'{counted(it):.1f}' for it in programs)}", flush=True)

    beside("512 enrolments", lambda it: count(it, [], enrolled(512, ROUNDS)))
    beside("512 players over nine rounds", lambda it: count(it, [], played(512, ROUNDS)))
    beside("`standings` after them", lambda it: one_more(it, played(512, ROUNDS), "standings"))
    beside("500 `standings` after one round", lambda it: one_more(it, played(512, 1), *["standings"] * 500))
    beside(
        "`standings` after each result of 64 players",
        lambda it: count(it, [], played(64, ROUNDS, after_each=["standings"])),
    )
    beside("32 players to the champion", lambda it: count(it, [], to_the_champion(32, 5, 8)))


def count_lines(program):
    with tempfile.TemporaryDirectory() as room:
        path = event_file(program, room, 512)
        print(
            f"`players` over a file of 512 players after nine rounds: {count(program, ['players', path]):.1f}"
        )
        print(f"`standings` over the same file: {count(program, ['standings', path]):.1f}")
        print(
            f"`correct` over the same file: {count(program, ['correct', path, '9', '1', '2', '0', '0']):.1f}"
        )


def count_last_round(program, players):
    whole, cut = played(players, ROUNDS), played(players, ROUNDS, 8)
    before = whole[: -players // 2 - 1]
    pair, last = one_more(program, before, f"pair\t{ROUNDS}\t{seed(ROUNDS)}"), one_more(
        program, whole[:-1], whole[-1]
    )
    print(
        f"{players} players: pair of round nine {pair:.2f}, its last result {last:.2f}, cut to 8 {one_more(program, cut, 'cut'):.2f}"
    )


def main(program, peers):
    print("millions of instructions")
    count_scripts([program, *peers])
    count_lines(program)
    for players in (64, 128, 256, 512):
        count_last_round(program, players)


if __name__ == "__main__":
    main(
        **given_by(
            __doc__, program=PROGRAM, peers=Word(os.path.abspath, "a program that is counted beside it", "*")
        )
    )
