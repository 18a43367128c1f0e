"""Proves the crates that the program stands on and then the program, the lowest first, with all processors, and builds it. It says on
standard error which crate it is at, and about how long it still takes; so does the file `building` beside the program, while it is at work. Each compiler's process proves the program and compiles it. Rattle's own compiler is the quicker, so that its program
is there first. LLVM's, which is faster, takes its place.

In a fresh checkout all is proved from nothing, as by `rt ci`: each crate over what those below it state, and over none of their proofs. What a
crate came to is kept with what it was made from: its sources, the toolchain, and the libraries below as they were written. A later build takes
it while these are the same. If checks have kept work in a crate's folder, that is used. `rt lib` in one crate's folder would keep the crates
below to itself until it ends, so that no two got on side by side; here the folders are taken once, for all.
"""
import concurrent.futures
import contextlib
import copy
import json
import os
import re
import shutil
import sys
import tempfile

from tools import TOP
from tools.gate import toolchain
from tools.gate.progress import Progress

rt = toolchain.load()
# A command that ends well, without what it says after the verdict: rt wants that in the last line, and Rattle's own compiler goes on.
UP_TO_VERDICT = """said=$("$@" 2>&1) || { status=$?; printf '%s\n' "$said"; exit $status; }; printf '%s\n' "$said" | sed '/^logic=proved /q'"""
# Adds the processor seconds of a command to a file of the crate in whose folder it runs, and ends as it did: rt has to see that it was killed.
TIMED = (
    """"$@"; status=$?; [ ! -d out ] || times >> out/times; [ $status != 137 ] || kill -9 $$; exit $status"""
)
# how often the file `building` is written, and the same is said if nothing else was
SECONDS_OF_A_NOTE, SECONDS_OF_A_LINE = 10, 180


class Crate(rt.Crate):
    """A crate as `rt ci` takes it, but that a library isn't asked for contracts which no call meets, that the program is proved by each compiler's process,
    so that nothing has to be written between proof and program, and that the program of one compiler is kept.
    """

    def prove_library(self, flags):
        shutil.rmtree(os.path.dirname(self.rlib), ignore_errors=True)
        os.makedirs(os.path.dirname(self.rlib))
        return self.call(
            rt.rtlib.RATTLE, "build", *self.words(flags, keeps=False), "--statements", "-o", self.rlib
        )

    def prove(self, *commands):
        """Over work that checks have kept there is no verdict, as `rt ci` wants one; each command has to end well all the same."""
        if self.cuts_libraries:
            return super().prove(*commands)
        return max(self.call(rt.rtlib.RATTLE, *it) for it in commands)

    def prove_program(self, flags):
        """Has each compiler's program take the place of the one that is there, first that of Rattle's own. If that one fails, LLVM's says why."""
        self.replace_by("rattle", flags, "the program can be run now. LLVM's takes its place in some minutes")
        return self.replace_by("llvm", flags, "the program is LLVM's")

    def replace_by(self, backend, flags, said):
        """Proves the program from nothing, compiles it, and puts it there. What runs keeps its file."""
        made = f"out/{self.name}.new{rt.BACKENDS[backend]}"
        words = [*self.words(flags, keeps=False), "--toolchain", f"{rt.KIT}/toolchain"]
        with run_by(UP_TO_VERDICT) if backend == "rattle" else contextlib.nullcontext():
            status = self.prove(["build", *words, "--backend", backend, "-o", f"{made}.o"])
        status = status or self.link(f"{made}.o", made)
        if status == 0:
            print(f"event_reporter: {said}", file=sys.stderr, flush=True)
            os.replace(f"{self.folder}/{made}", self.product())
        with contextlib.suppress(FileNotFoundError):
            os.remove(f"{self.folder}/{made}.o")
        return status

    def product(self):
        """The file by which it is seen that its library or the program was made, and is still the one that was."""
        return f"{self.folder}/out/{self.name}" if self.is_program else f"{self.rlib}/format"

    def made_from(self):
        """What its library or the program is made from, and what was made."""
        made = [os.stat(it.product()) for it in [*self.below(), self]]
        return [
            self.stamp(),
            rt.rtlib.text_of(f"{TOP}/HANDLES"),
            *([it.st_size, it.st_mtime_ns] for it in made),
        ]

    def keep(self, said):
        """Keeps what the toolchain said of it, for as long as it would say it again."""
        with open(f"{self.folder}/out/made.json", "w", encoding="utf-8") as it:
            json.dump({"from": self.made_from(), "said": said, "seconds": self.seconds()}, it)

    def seconds(self):
        """Returns the processor seconds that its commands took, and forgets them."""
        try:
            with open(f"{self.folder}/out/times", encoding="utf-8") as it:
                found = re.findall(r"(\d+)m([\d.]+)s", it.read())
        except FileNotFoundError:
            return None
        os.remove(it.name)
        return sum(60 * int(minutes) + float(seconds) for minutes, seconds in found)

    def said_before(self):
        """What the toolchain said when this was made, or None if anything is not as it was then."""
        try:
            with open(f"{self.folder}/out/made.json", encoding="utf-8") as it:
                kept = json.load(it)
            return kept["said"] if kept["from"] == self.made_from() else None
        except (OSError, ValueError, KeyError):
            return None


@contextlib.contextmanager
def run_by(script):
    """Has each command that rt calls run by a script for sh."""
    guarded = rt.rtlib.guarded
    rt.rtlib.guarded = lambda: [*guarded(), "sh", "-c", script, ""]
    try:
        yield
    finally:
        rt.rtlib.guarded = guarded


def height(crate, wanted):
    """The text of the crate and of the longest way above it."""
    return crate.count(rb"\n") + max((height(it, wanted) for it in wanted if crate in it.below()), default=0)


def prove(crate, jobs, is_anew):
    """Whether the crate is proved, and what the toolchain said of it."""
    crate = copy.copy(crate)
    if crate.is_program and (said := crate.said_before()) is not None:
        return crate.name, True, said
    with tempfile.TemporaryFile("a+", errors="replace") as crate.out:
        os.makedirs(f"{crate.folder}/out", exist_ok=True)
        with contextlib.suppress(FileNotFoundError):
            os.remove(f"{crate.folder}/out/times")
        # the program is a few functions over all libraries, and each process reads them all
        flags = ["--jobs", "1" if crate.is_program else str(jobs)]
        if crate.is_program:
            status = crate.prove_program(flags)
        elif is_anew:
            status = crate.prove_library(flags)
        else:
            status = crate.build_rlib(flags, anew=False)
        crate.out.seek(0)
        said = crate.out.read()
        if status == 0 and (is_anew or crate.is_program):
            crate.keep(said)
        return crate.name, status == 0, said


def shares(ready, idle):
    """How many of the idle processors each of these crates gets: one each, and the first what is left of them, at least half."""
    if not ready or not idle:
        return []
    others = min(len(ready) - 1, idle // 2)
    return [idle - others] + [1] * others


def are_ready(left, proved):
    """Those of which everything below is proved."""
    return [it for it in left if proved.issuperset(below.name for below in it.below())]


def take_kept(left, proved):
    """Takes those that are made from what they were made from before. Of what stands above one that is proved anew, nothing is taken."""
    asked = set()
    while ready := [it for it in are_ready(left, proved) if it not in asked]:
        for crate in ready:
            asked.add(crate)
            said = crate.said_before()
            if said is not None:
                print(f"== {crate.name}\n{said}", end="", flush=True)
                left.remove(crate)
                proved.add(crate.name)


def prove_all(wanted, is_anew):
    """Proves the crates, first those with the most text above them."""
    heights = {it: height(it, wanted) for it in wanted}
    left = sorted(wanted, key=lambda it: -heights[it])
    proved, running = set(), {}
    if is_anew:
        take_kept(left, proved)
        if proved:
            print(
                f"event_reporter: {len(proved)} of {len(wanted)} are as they were when they were proved",
                file=sys.stderr,
                flush=True,
            )
    told = Telling(wanted, left)
    with concurrent.futures.ThreadPoolExecutor(rt.processors()) as lanes:
        while len(proved) < len(wanted):
            ready = are_ready(left, proved)
            for crate, jobs in zip(ready, shares(ready, rt.processors() - sum(running.values()))):
                left.remove(crate)
                told.begins(crate.name, jobs)
                running[lanes.submit(prove, crate, jobs, is_anew)] = jobs
            told.note()
            ended = concurrent.futures.wait(
                running, timeout=SECONDS_OF_A_NOTE, return_when=concurrent.futures.FIRST_COMPLETED
            )
            for it in ended.done:
                del running[it]
                name, is_proved, said = it.result()
                print(f"== {name}\n{said}", end="", flush=True)
                if not is_proved:
                    sys.exit(f"event_reporter: could not prove {name}")
                proved.add(name)
                told.ends(name)


class Telling(Progress):
    """Says how far a build is on standard error, and in the file `building` for who looks later."""

    def __init__(self, wanted, left):
        super().__init__({it.name: {below.name for below in it.below()} for it in left}, rt.processors())
        self.count, self.of, self.said = len(wanted) - len(left), len(wanted), self.clock()
        self.file = f"{wanted[-1].folder}/out/building"

    def begins(self, name, jobs):
        super().begins(name, jobs)
        self.count += 1
        self.say(name)

    def say(self, names):
        self.said = self.clock()
        line = f"event_reporter: proving {names}, {self.count} of {self.of}; {self.text()}"
        print(line, file=sys.stderr, flush=True)

    def note(self):
        names = " ".join(self.running)
        with open(self.file, "w", encoding="utf-8") as it:
            it.write(
                f"{self.of - len(self.left)} of {self.of} crates are proved, now {names}; {self.text()}\n"
            )
        if self.clock() - self.said > SECONDS_OF_A_LINE:
            self.say(names)


def main():
    os.chdir(TOP)
    os.environ.pop(rt.rtlib.ALLOW_C, None)
    rt.rtlib.guarded()
    rt.rtlib.Crate = Crate
    crates = rt.rtlib.crates_below(TOP)
    program = next(it for it in crates if it.name == sys.argv[1])
    is_anew = not any(it.has_kept() for it in program.below())
    Crate.allowed, Crate.cuts_libraries = rt.handles_of(TOP), is_anew
    wanted = [*program.below(), program]
    held = rt.rtlib.lock(wanted)
    os.makedirs(f"{program.folder}/out", exist_ok=True)
    try:
        with run_by(TIMED):
            prove_all(wanted, is_anew)
    finally:
        with contextlib.suppress(FileNotFoundError):
            os.remove(f"{program.folder}/out/building")
    for it in held:
        os.close(it)


if __name__ == "__main__":
    main()
