"""Times programs on the same scripts, one run of each in turn: `python3 -B -m tools.bench.times RUNS PROGRAM PEER ..`. It prints the best of each,
and how many times as long the program takes as each peer. What they print has to be equal to the byte.
"""
import os
import subprocess
import sys
import time

from tests.support.words import Word, given_by
from tools.bench.evenings import enrolled, played, to_the_champion

CASES = {
    "512 enrolments": enrolled(512, 9),
    "512 players over nine rounds": played(512, 9),
    "256 players over twelve rounds": [*played(256, 12), "standings"],
    "standings after each result of 64 players": played(64, 9, after_each=["standings"]),
    "500 standings of 512 players, after one round": [*played(512, 1), *["standings"] * 500],
    "500 standings of 512 players, after nine rounds": [*played(512, 9), *["standings"] * 500],
    "8 players to the champion": to_the_champion(8, 4, 4),
    "32 players to the champion": to_the_champion(32, 5, 8),
}


def run(program, script):
    start = time.perf_counter()
    ran = subprocess.run([program], input=script, capture_output=True, timeout=600)
    return time.perf_counter() - start, (ran.returncode, ran.stdout)


def main(runs, programs):
    wrong = 0
    print(
        f"best of {runs} runs each, in milliseconds, with the start of the process: {', '.join(map(os.path.basename, programs))}"
    )
    for name, lines in CASES.items():
        script = "".join(f"{line}\n" for line in lines).encode()
        times, said = {it: [] for it in programs}, {}
        for _ in range(runs):
            for program in programs:
                taken, said[program] = run(program, script)
                times[program].append(taken)
        first = said[programs[0]]
        if any(it != first for it in said.values()) or b"refused" in first[1] or b"usage" in first[1]:
            wrong += 1
            print(f"{name}: they differ, or a command was refused", file=sys.stderr)
        ours, *others = [1000 * min(it) for it in times.values()]
        print(f"{name:<50} {ours:9.1f}", *[f"{it:9.1f} {ours / it:6.1f} times" for it in others])
    return 1 if wrong else 0


if __name__ == "__main__":
    programs = Word(os.path.abspath, "the program, and those that are timed beside it", "+")
    sys.exit(main(**given_by(__doc__, runs=Word(int, "how often each runs"), programs=programs)))
