"""`./event_reporter` and `scripts/build` in a checkout of their own, where the program, the toolchain and the build are stand-ins: from any folder
and through links, with and without a toolchain, with and without a program, with newer sources, at a terminal and away from one. Nothing is proved or
built, and no file may be left anywhere.
"""
import hashlib
import os
import pty
import shutil
import signal
import subprocess
import sys

import pytest

from tests.support.waiting import PATIENCE, comes
from tools import TOP

PROGRAM = "crates/event_reporter/out/event_reporter"
STAND_IN = '#!/bin/sh\necho "ran $#: $*"\n[ "${1:-}" != refused ] || { echo "refused 14 AlreadyReported" >&2; exit 1; }\n[ "${1:-read}" != read ] || cat\n'
NEW = STAND_IN.replace("ran", "new")
FIRST = STAND_IN.replace("ran", "first")
BUILD = f"""import os, time
def wait_for(name):
    while os.path.exists(name):
        time.sleep(0.01)
def put(text):
    open("{PROGRAM}.new", "w").write(text)
    os.chmod("{PROGRAM}.new", 0o755)
    os.replace("{PROGRAM}.new", "{PROGRAM}")
def is_there(process):
    try:
        os.kill(process, 0)
        return True
    except ProcessLookupError:
        return False
open("built", "a").write(f"{{os.getpid()}}\\n")
wait_for("goes-on")
# until it was seen that `rt try` has ended
while os.path.exists("refuses") and not (os.path.exists("refused") and not is_there(int(open("refused").read()))):
    time.sleep(0.01)
if os.path.exists("fails"):
    raise SystemExit("er_rank: not proved")
if os.path.exists("compiles"):
    put({FIRST!r})
    wait_for("compiles")
if os.path.exists("breaks"):
    raise SystemExit("LLVM did not compile what was proved")
put({NEW!r})
"""
# `rt try`: it answers the script, or refuses the program
TRY = f"""#!{sys.executable}
import os, sys, time
if sys.argv[1:] != ["try"]:
    raise SystemExit
os.chdir("../..")
script = sys.stdin.read()
open("tried", "a").write(f"{{os.getpid()}}\\n")
while os.path.exists("tries"):
    time.sleep(0.01)
if os.path.exists("refuses"):
    open("refusing", "w").write(str(os.getpid()))
    os.replace("refusing", "refused")
    raise SystemExit("er_rank: a bad access\\nrun=none proved=no")
print("tried:", script, end="", flush=True)
print("checked: ended status=4\\nrun=ended status=4 runners=1 proved=no", file=sys.stderr)
raise SystemExit(4)
"""
SCRIPT = "enrol\tAna\n"
SOURCES = ("er_cli/src/lib.rt", "er_cli_tests/src/lib.rt", "event_reporter/src/main.rt")
NEWER = "event_reporter: a source is newer than the program, which runs as it was built. To build it again: sh '{top}/scripts/build'\n"
NO_TOOLCHAIN = "the toolchain (rt) is not on the PATH"
TOOLS = "sh find head dirname readlink mkdir mv rm tail cat cut sha256sum python3".split()
# what a screen gets at the end, so that reading it ends
LAST = b"that was all"


def write(path, text, mode=0o644):
    os.makedirs(os.path.dirname(path), exist_ok=True)
    with open(path, "w", encoding="utf-8") as file:
        file.write(text)
    os.chmod(path, mode)


def is_running(process):
    """Whether the process is at work: one that has ended may wait for somebody to ask how."""
    try:
        with open(f"/proc/{process}/stat", encoding="utf-8") as it:
            return it.read().rpartition(")")[2].split()[0] != "Z"
    except (FileNotFoundError, ProcessLookupError):
        return False


class Checkout:
    """The two scripts in a folder whose program, toolchain and build are stand-ins. On the PATH are the tools that the scripts call."""

    def __init__(self, room, is_built=True):
        self.room, self.top = room, f"{room}/a checkout"
        for name in ("event_reporter", "scripts/build"):
            os.makedirs(os.path.dirname(f"{self.top}/{name}"), exist_ok=True)
            shutil.copy(f"{TOP}/{name}", f"{self.top}/{name}")
        for name in SOURCES:
            write(f"{self.top}/crates/{name}", "")
        for name in ("tools/__init__.py", "tools/gate/__init__.py"):
            write(f"{self.top}/{name}", "")
        self.ask_for_memory(0)
        write(f"{self.top}/tools/gate/build.py", BUILD)
        write(f"{self.top}/crates/event_reporter/src/main.rt", "")
        write(f"{room}/toolchain/rt", TRY, 0o755)
        os.makedirs(f"{room}/bin")
        for name in TOOLS:
            os.symlink(
                sys.executable if name == "python3" else os.path.realpath(shutil.which(name)),
                f"{room}/bin/{name}",
            )
        if is_built:
            write(f"{self.top}/{PROGRAM}", STAND_IN, 0o755)

    def ask_for_memory(self, kilobytes):
        """Has `rt try` begin only if this is free, whatever this machine has."""
        with open(f"{TOP}/tools/gate/first.py", encoding="utf-8") as it:
            text = it.read()
        write(f"{self.top}/tools/gate/first.py", text.replace("ROOM = 8_000_000\n", f"ROOM = {kilobytes}\n"))

    def path(self, has_toolchain):
        return {"PATH": f"{self.room}/bin" + (f":{self.room}/toolchain" if has_toolchain else "")}

    def run(self, *words, called=None, has_toolchain=False, folder=None, given=""):
        line = [called or f"{self.top}/event_reporter", *words]
        ran = subprocess.run(
            line,
            cwd=folder or self.room,
            env=self.path(has_toolchain),
            input=given,
            capture_output=True,
            text=True,
            timeout=PATIENCE,
        )
        return ran.returncode, ran.stdout, ran.stderr

    def run_at_terminal(self, *words):
        """The same, where a person sees standard error."""
        screen, terminal = pty.openpty()
        ran = subprocess.run(
            [f"{self.top}/event_reporter", *words],
            env=self.path(False),
            stdin=subprocess.DEVNULL,
            stdout=subprocess.PIPE,
            stderr=terminal,
            timeout=PATIENCE,
        )
        os.write(terminal, LAST)
        said = b""
        while not said.endswith(LAST):
            said += os.read(screen, 4096)
        for side in (screen, terminal):
            os.close(side)
        return ran.returncode, ran.stdout.decode(), said[: -len(LAST)].decode().replace("\r\n", "\n")

    def build(self):
        ran = subprocess.run(
            ["sh", f"{self.top}/scripts/build"],
            env=self.path(True),
            capture_output=True,
            text=True,
            timeout=PATIENCE,
        )
        return ran.returncode

    def date(self, name, seconds):
        """Gives a source a time this many seconds after the program's."""
        at = os.stat(f"{self.top}/{PROGRAM}").st_mtime + seconds
        os.utime(f"{self.top}/crates/{name}", (at, at))

    def date_all(self):
        for name in SOURCES:
            self.date(name, -60)

    def builders(self, name="built"):
        """The processes that have begun a build, the first one first."""
        path = f"{self.top}/{name}"
        return [int(it) for it in open(path, encoding="utf-8").read().split()] if os.path.exists(path) else []

    def builds(self):
        return len(self.builders())

    def tries(self):
        """The processes that have begun `rt try`."""
        return self.builders("tried")

    def log(self):
        """The words of the log that is beside the program, or None."""
        path = f"{self.top}/{os.path.dirname(PROGRAM)}/build.log"
        return open(path, encoding="utf-8").read().split() if os.path.exists(path) else None

    def sum(self):
        with open(f"{self.top}/{PROGRAM}", "rb") as it:
            return hashlib.sha256(it.read()).hexdigest()

    def names(self):
        return sorted(
            os.path.relpath(os.path.join(folder, name), self.room)
            for folder, folders, names in os.walk(self.room)
            for name in (*folders, *names)
        )


@pytest.fixture
def checkout(room):
    """A checkout whose program is built."""
    return Checkout(os.path.realpath(room))


@pytest.fixture
def unbuilt(room):
    return Checkout(os.path.realpath(room), is_built=False)


def test_it_runs_what_is_built(checkout):
    checkout.date_all()
    before = checkout.names()
    for has_toolchain in (False, True):
        assert checkout.run("players", "a b", "", has_toolchain=has_toolchain) == (
            0,
            "ran 3: players a b \n",
            "",
        ), "built"
        refused = checkout.run("refused", has_toolchain=has_toolchain)
        assert refused == (1, "ran 1: refused\n", "refused 14 AlreadyReported\n"), "its status and its errors"
    assert checkout.run("read", given="enrol\tAna\n") == (0, "ran 1: read\nenrol\tAna\n", ""), "what it reads"
    assert checkout.run_at_terminal("x") == (0, "ran 1: x\n", ""), "at a terminal"
    checkout.date("er_cli_tests/src/lib.rt", 60)
    assert checkout.run_at_terminal("x") == (0, "ran 1: x\n", ""), "a test is no source of the program"
    assert checkout.names() == before, "nothing is left"


def test_it_builds_nothing_by_itself(checkout):
    checkout.date_all()
    checkout.date("er_cli/src/lib.rt", 60)
    before, said = checkout.names(), NEWER.format(top=checkout.top)
    for has_toolchain in (False, True):
        assert checkout.run("standings", has_toolchain=has_toolchain) == (
            0,
            "ran 1: standings\n",
            "",
        ), "newer sources"
        refused = checkout.run("refused", has_toolchain=has_toolchain)
        assert refused == (1, "ran 1: refused\n", "refused 14 AlreadyReported\n"), "newer sources, refused"
    assert checkout.run_at_terminal("standings") == (
        0,
        "ran 1: standings\n",
        said,
    ), "newer sources, at a terminal"
    at_terminal = checkout.run_at_terminal("refused")
    assert at_terminal == (
        1,
        "ran 1: refused\n",
        f"{said}refused 14 AlreadyReported\n",
    ), "newer sources, refused at a terminal"
    assert checkout.builds() == 0, "newer sources: nothing was built"
    assert checkout.names() == before, "newer sources: nothing is left"


def test_it_follows_links(checkout):
    checkout.date_all()
    other = f"{checkout.room}/home/bin"
    os.makedirs(other)
    os.symlink(f"{checkout.top}/event_reporter", f"{other}/er")
    os.symlink("../../a checkout/event_reporter", f"{other}/relative")
    os.symlink("er", f"{other}/twice")
    os.symlink(checkout.top, f"{checkout.room}/home/folder")
    before = checkout.names()
    for called in (
        f"{other}/er",
        f"{other}/relative",
        f"{other}/twice",
        f"{checkout.room}/home/folder/event_reporter",
    ):
        assert checkout.run("x", called=called) == (
            0,
            "ran 1: x\n",
            "",
        ), f"through {os.path.basename(called)}"
    assert checkout.run("x", called="./er", folder=other) == (0, "ran 1: x\n", ""), "from its folder"
    on_path = {"PATH": f"{other}:{checkout.room}/bin"}
    ran = subprocess.run(
        ["sh", "-c", "er x"], cwd=checkout.room, env=on_path, capture_output=True, text=True, timeout=PATIENCE
    )
    assert (ran.returncode, ran.stdout, ran.stderr) == (0, "ran 1: x\n", ""), "by its name"
    assert checkout.names() == before, "links: nothing is left"
    os.unlink(f"{checkout.top}/{PROGRAM}")
    before = checkout.names()
    status, printed, said = checkout.run("x", called=f"{other}/er")
    assert (status, printed, NO_TOOLCHAIN in said, checkout.names()) == (
        3,
        "",
        True,
        before,
    ), "through a link, not built"


def test_it_builds_before_the_first_run(unbuilt):
    before = unbuilt.names()
    status, printed, said = unbuilt.run("x")
    assert (status, printed, NO_TOOLCHAIN in said) == (3, "", True), "not built, no toolchain"
    assert unbuilt.names() == before, "not built: nothing is left"
    write(f"{unbuilt.top}/fails", "")
    status, printed, said = unbuilt.run("x", has_toolchain=True)
    assert (status, printed, "build.log.failed says why" in said) == (3, "", True), "a build that fails"
    os.unlink(f"{unbuilt.top}/fails")
    status, printed, said = unbuilt.run("x", has_toolchain=True)
    assert (status, printed, "10 to 50 minutes" in said, unbuilt.builds()) == (
        0,
        "new 1: x\n",
        True,
        2,
    ), "not built, built first"
    assert (unbuilt.run("x", has_toolchain=True), unbuilt.builds()) == (
        (0, "new 1: x\n", ""),
        2,
    ), "and not again"


def test_a_build_keeps_the_old_program(checkout):
    """While a new one is built, when that fails, and when it is stopped."""
    for how in ("fails", "breaks"):
        write(f"{checkout.top}/{how}", "")
        assert (checkout.build(), checkout.run("x")) == (3, (0, "ran 1: x\n", "")), f"a build that {how}"
        os.unlink(f"{checkout.top}/{how}")
    for how in ("terminate", "kill"):
        write(f"{checkout.top}/{PROGRAM}", STAND_IN, 0o755)
        write(f"{checkout.top}/goes-on", "")
        count = checkout.builds()
        with subprocess.Popen(
            ["sh", f"{checkout.top}/scripts/build"], env=checkout.path(True), stderr=subprocess.DEVNULL
        ) as builder:
            assert comes(lambda: checkout.builds() > count), "begun"
            assert checkout.run("x") == (0, "ran 1: x\n", ""), "while it is built"
            getattr(builder, how)()
            os.unlink(f"{checkout.top}/goes-on")
        # if only the script was ended, its build goes on to its end
        assert comes(lambda: checkout.run("x") == (0, "new 1: x\n", "")), f"after {how}"
    assert (checkout.build(), checkout.run("x")) == (0, (0, "new 1: x\n", "")), "built after all that"
    left = [name for name in checkout.names() if "event_reporter/out/" in name]
    folder = f"a checkout/{os.path.dirname(PROGRAM)}"
    assert left == [f"{folder}/build.log", f"{folder}/event_reporter"], "what is left"
    assert checkout.log() == ["program", checkout.sum()], "the log names the program"


def test_it_runs_the_first_program(unbuilt):
    """The first compiler's program runs as soon as it is there, and the last one's takes its place later, also when what ran first was stopped."""
    write(f"{unbuilt.top}/compiles", "")
    status, printed, said = unbuilt.run("x", has_toolchain=True)
    assert (status, printed, "10 to 50 minutes" in said) == (0, "first 1: x\n", True), "the first program"
    assert unbuilt.run("x") == (0, "first 1: x\n", ""), "and again"
    assert unbuilt.log() is None, "it has no log"
    os.unlink(f"{unbuilt.top}/compiles")
    assert (comes(unbuilt.log), unbuilt.run("x")) == (True, (0, "new 1: x\n", "")), "the last program"
    assert (unbuilt.log(), unbuilt.builds()) == (["program", unbuilt.sum()], 1), "its log"


def test_a_build_stops_with_what_started_it(unbuilt):
    """A build that was begun by the first run ends with it, if that is stopped before there is a program."""
    write(f"{unbuilt.top}/goes-on", "")
    for number in (signal.SIGINT, signal.SIGTERM):
        count = unbuilt.builds()
        line = [f"{unbuilt.top}/event_reporter", "x"]
        with subprocess.Popen(
            line, env=unbuilt.path(True), stderr=subprocess.DEVNULL, start_new_session=True
        ) as first:
            assert comes(lambda: unbuilt.builds() > count), "begun"
            os.killpg(first.pid, number)
            assert first.wait(PATIENCE) != 0, f"ended by {number.name}"
        # the build gets its signal by way of others, and may be the last to end
        assert comes(lambda: not is_running(unbuilt.builders()[-1])), f"its build, by {number.name}"
    os.unlink(f"{unbuilt.top}/goes-on")
    assert (os.path.exists(f"{unbuilt.top}/{PROGRAM}"), unbuilt.log()) == (False, None), "nothing was built"


def test_a_script_is_answered_before_the_proof(unbuilt):
    """By `rt try`, with its status. The build goes on, and a call with words waits for it. What answered is nowhere kept."""
    write(f"{unbuilt.top}/goes-on", "")
    status, printed, said = unbuilt.run(has_toolchain=True, given=SCRIPT)
    assert (status, printed) == (4, f"tried: {SCRIPT}"), "the answer"
    assert ("proof is still under way" in said, "checked:" in said) == (True, False), "what is said of it"
    assert comes(lambda: any(map(is_running, unbuilt.builders()))), "the build goes on"
    assert (os.path.exists(f"{unbuilt.top}/{PROGRAM}"), unbuilt.log()) == (
        False,
        None,
    ), "nothing is built by that"
    os.unlink(f"{unbuilt.top}/goes-on")
    assert (comes(unbuilt.log), unbuilt.run(given=SCRIPT)) == (
        True,
        (0, f"new 0: \n{SCRIPT}", ""),
    ), "the proved program"
    assert (unbuilt.builds(), len(unbuilt.tries())) == (1, 1), "one build, one try"


def test_words_are_not_answered_before_the_proof(unbuilt):
    assert unbuilt.run("x", has_toolchain=True, given=SCRIPT)[:2] == (0, "new 1: x\n"), "words"
    assert (unbuilt.builds(), unbuilt.tries()) == (1, []), "nothing was tried"


def test_nothing_is_tried_without_memory(unbuilt):
    unbuilt.ask_for_memory(2**50)
    assert unbuilt.run(has_toolchain=True, given=SCRIPT)[:2] == (0, f"new 0: \n{SCRIPT}"), "a script"
    assert (unbuilt.builds(), unbuilt.tries()) == (1, []), "nothing was tried"


def test_a_script_is_answered_by_the_program_that_is_there_first(unbuilt):
    """Where `rt try` refuses the program, and where it takes longer than the build."""
    for how in ("refuses", "tries"):
        write(f"{unbuilt.top}/{how}", "")
        status, printed, said = unbuilt.run(has_toolchain=True, given=SCRIPT)
        assert (status, printed) == (0, f"new 0: \n{SCRIPT}"), f"rt try {how}"
        assert ("a bad access" in said and "rt try has not answered" in said) == (
            how == "refuses"
        ), f"what is said if it {how}"
        assert not is_running(unbuilt.tries()[-1]), "rt try has ended"
        os.unlink(f"{unbuilt.top}/{PROGRAM}")
        os.unlink(f"{unbuilt.top}/{how}")


def test_a_script_has_no_answer_if_the_proof_fails_first(unbuilt):
    for name in ("tries", "fails"):
        write(f"{unbuilt.top}/{name}", "")
    status, printed, said = unbuilt.run(has_toolchain=True, given=SCRIPT)
    assert (status, printed, "build.log.failed says why" in said) == (3, "", True), "no answer"
    assert not any(map(is_running, unbuilt.tries())), "rt try has ended"


def test_a_script_that_is_stopped_stops_both(unbuilt):
    for name in ("tries", "goes-on"):
        write(f"{unbuilt.top}/{name}", "")
    for number in (signal.SIGINT, signal.SIGTERM):
        builds, tries = unbuilt.builds(), len(unbuilt.tries())
        pipes = {"stdin": subprocess.DEVNULL, "stdout": subprocess.DEVNULL, "stderr": subprocess.DEVNULL}
        with subprocess.Popen(
            [f"{unbuilt.top}/event_reporter"], env=unbuilt.path(True), start_new_session=True, **pipes
        ) as first:
            assert comes(lambda: unbuilt.builds() > builds and len(unbuilt.tries()) > tries), "begun"
            os.killpg(first.pid, number)
            assert first.wait(PATIENCE) != 0, f"ended by {number.name}"
        assert comes(
            lambda: not is_running(unbuilt.builders()[-1]) and not is_running(unbuilt.tries()[-1])
        ), f"both, by {number.name}"


def test_a_script_that_is_typed_waits_for_the_program(unbuilt):
    screen, terminal = pty.openpty()
    os.write(screen, b"enrol\n\x04")
    ran = subprocess.run(
        [f"{unbuilt.top}/event_reporter"],
        env=unbuilt.path(True),
        stdin=terminal,
        capture_output=True,
        text=True,
        timeout=PATIENCE,
    )
    assert (ran.returncode, ran.stdout, unbuilt.tries()) == (0, "new 0: \nenrol\n", []), "typed"
    for side in (screen, terminal):
        os.close(side)


def test_it_says_that_it_is_alone(unbuilt):
    """The script, where somebody copied it to another place without the rest."""
    shutil.copy(f"{unbuilt.top}/event_reporter", f"{unbuilt.room}/home")
    before = unbuilt.names()
    status, printed, said = unbuilt.run("x", called=f"{unbuilt.room}/home", has_toolchain=True)
    assert (status, printed, "not a checkout" in said, unbuilt.names()) == (3, "", True, before), "alone"
