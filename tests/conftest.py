"""What all tests share: options, fixtures, an honest count, and a mark for each part of the test command, as `pytest -m csv`.

A check is an `assert` that was reached. Those that hold are counted by pytest's own hook, so that a test of twenty steps counts twenty; a test that
asserts nothing fails, but for unit tests, which may only expect a fault. What is missing on this machine is left out by `@pytest.mark.needs`, and the
end says so in a line that begins `left out: `. Unit tests call no program, and need none that is built.
"""
import errno
import importlib.util
import os
import random
import re
import shutil
import signal
import stat
import tempfile
import time

import pytest

from second_reading.plain_event import Event
from tests.suites import PARTS, steps_of
from tests.support.program import Program
from tests.support.random_evenings import laid
from tests.support.serving import Serving
from tests.support.sheets import BROWSERS, Sheets
from tests.support.waiting import comes
from tools import TOP, commit_time

# helpers in which an `assert` is a check too
pytest.register_assert_rewrite("tests.support.prompt", "tests.support.phone_rooms")

held, replays = pytest.StashKey[int](), pytest.StashKey[list]()
UNIT = "companions"


def pytest_addoption(parser):
    words = parser.getgroup("event_reporter")
    words.addoption(
        "--program",
        default=f"{TOP}/crates/event_reporter/out/event_reporter",
        help="the program; without it, the one that is built here",
    )
    words.addoption(
        "--seed",
        type=int,
        help="play the random ones of this number again; without it, the time of the commit",
    )
    words.addoption("--long", action="store_true", help="try much more, outside the test command")


def pytest_configure(config):
    if config.option.seed is None:
        config.option.seed = commit_time()
    config.option.program = os.path.abspath(config.option.program)
    config.stash[held], config.stash[replays] = 0, []
    # where this runs behind others, the shell may have had Ctrl-C ignored, and what it starts would ignore it too
    if signal.getsignal(signal.SIGINT) is signal.SIG_IGN:
        signal.signal(signal.SIGINT, signal.default_int_handler)
    for part in PARTS:
        config.addinivalue_line("markers", f"{part}: part of the test command, as in scripts/test {part}")


# ---- the parts


@pytest.hookimpl(tryfirst=True)
def pytest_collection_modifyitems(items):
    """Marks each test with its part, before some are chosen by -m."""
    parts = {f"tests/{it}": part for part in PARTS for it in steps_of(part, True) if isinstance(it, str)}
    for item in items:
        path = item.nodeid.partition("::")[0]
        item.add_marker(parts.get(path) or parts[os.path.dirname(path)])


def is_unit(item):
    return item.get_closest_marker(UNIT) is not None


def pytest_collection_finish(session):
    program = session.config.option.program
    if not all(map(is_unit, session.items)) and not os.access(program, os.X_OK):
        raise pytest.UsageError(f"no program at {program}: sh scripts/build makes it")


# ---- the count


def pytest_assertion_pass(item):
    item.config.stash[held] += 1
    item.stash[held] = item.stash.get(held, 0) + 1


@pytest.hookimpl(hookwrapper=True)
def pytest_runtest_makereport(item, call):
    report = (yield).get_result()
    if report.when == "call" and report.passed and not item.stash.get(held, 0) and not is_unit(item):
        report.outcome, report.longrepr = "failed", f"{item.nodeid} asserts nothing"
    if report.failed:
        item.config.stash[replays].append(
            f"scripts/test '{item.nodeid}' --seed {item.config.option.seed} -vv"
        )


def left_out(skipped):
    """A line for each reason, and for each file of unit tests, as the test command gathers them."""
    found = set()
    for path, _, reason in skipped:
        why = reason.partition("Skipped: ")[2]
        module = re.match("could not import '([^']+)'", why)
        why = f"{module[1]} is not installed" if module else why
        is_of_unit = module or f"{os.sep}unit{os.sep}" in path
        found.add(
            f"left out: tests of {os.path.basename(path)}, as {why}" if is_of_unit else f"left out: {why}"
        )
    return sorted(found)


def pytest_terminal_summary(terminalreporter, config):
    """The lines that the test command gathers, and how to run again what failed."""
    for line in left_out(report.longrepr for report in terminalreporter.stats.get("skipped", ())):
        terminalreporter.line(line)
    for it in dict.fromkeys(config.stash[replays]):
        terminalreporter.line(f"again: {it}")
    failed = sum(len(terminalreporter.stats.get(it, ())) for it in ("failed", "error"))
    terminalreporter.line(f"seed {config.option.seed}: {config.stash[held]} checks passed, {failed} failed")


# ---- what a machine may lack


def pytest_runtest_setup(item):
    for mark in item.iter_markers("needs"):
        reason = missing(**mark.kwargs)
        if reason:
            pytest.skip(f"{mark.args[0]}, as {reason}")


def missing(module=None, command=None, package=None, root=False):
    """Why a test is left out, or None. Of several commands one is enough."""
    if module and importlib.util.find_spec(module) is None:
        return f"{package or module} is not installed"
    commands = (command,) if isinstance(command, str) else command
    if commands and not any(map(shutil.which, commands)):
        return f"{package or commands[0]} is not installed"
    return "this user can't become another one" if root and os.geteuid() else None


# ---- how much is tried


def pytest_generate_tests(metafunc):
    """`@pytest.mark.parametrize` for what is random: `CASES = {"number": (400, 4000)}` in a module gives that many numbers, and more with --long."""
    for name, (few, many) in getattr(metafunc.module, "CASES", {}).items():
        if name in metafunc.fixturenames:
            metafunc.parametrize(name, range(many if metafunc.config.option.long else few))


@pytest.fixture
def seed(request):
    return request.config.option.seed


@pytest.fixture
def dice(request, seed):
    """Dice of this case alone, so that it is the same whichever others run. Those of unit tests are always the same."""
    return random.Random(20261128 if is_unit(request.node) else f"{seed} {request.node.name}")


@pytest.fixture
def within_seconds():
    """Whether something comes to be so, within a minute."""

    def wait(is_so):
        until = time.monotonic() + 60
        while not is_so() and time.monotonic() < until:
            time.sleep(0.01)
        return is_so()

    return wait


# ---- the program, and where it runs


@pytest.fixture(scope="session")
def program(request):
    return Program(request.config.option.program)


def is_inside(request):
    """Whether a test asks for the prompt in its own process, and for a folder in memory."""
    return request.node.get_closest_marker("inside") is not None


@pytest.fixture
def room(request):
    """An empty folder. It is no `tmp_path`: those lie below a folder that other users can't go through, and three runs of them are kept."""
    # not at the head, as the prompt below
    from tests.support.inside import IN_MEMORY

    folder = tempfile.TemporaryDirectory(dir=IN_MEMORY if is_inside(request) else None)
    yield folder.name
    assert comes(lambda: is_removed(folder))


def is_removed(folder):
    """Whether a folder is removed now: what a program that was killed had begun may still write there."""
    try:
        folder.cleanup()
    except OSError as fault:
        if fault.errno != errno.ENOTEMPTY:
            raise
        return False
    return True


@pytest.fixture(scope="session")
def companions():
    """The folder of the companions."""
    return f"{TOP}/companions"


@pytest.fixture
def prompt(request, program, companions):
    """The scorekeeper's prompt, by a pipe or in a terminal of its own. What still runs at the end is killed."""
    # not at the head: they have to be imported once their checks are counted
    from tests.support.inside import InsidePrompt
    from tests.support.prompt import Prompt

    begun = InsidePrompt if is_inside(request) else Prompt
    with begun(program.path, f"{companions}/bin/event-desk") as it:
        yield it


@pytest.fixture
def sheets(program, companions, room):
    """The sheets and the board of events in the room."""
    return Sheets(program.path, companions, room)


@pytest.fixture(scope="session")
def browser():
    """A browser's command, where a test needs one."""
    return next(filter(None, map(shutil.which, BROWSERS)), None)


@pytest.fixture
def started(program, room):
    """An event that has begun, and its file."""

    def start(*names, rounds=3, cut=0, called="e"):
        event = Event(rounds, cut)
        for name in names:
            event.enrol(name)
        event.start()
        return event, laid(program.path, f"{room}/{called}.event", event, "E")

    return start


@pytest.fixture
def stand_in(program, room):
    """A program in the place of the built one: a script for sh, which calls that as $REAL."""

    def make(text):
        path = f"{room}/stand-in"
        with open(path, "w") as it:
            it.write(f"#!/bin/sh\nREAL={program.path}\n{text}\n")
        os.chmod(path, stat.S_IRWXU)
        return path

    return make


@pytest.fixture
def serve(program):
    """Serves a file: `serve(file, 2).ask(b"..")`. What still serves at the end is killed."""
    serving = []

    def begin(file, count, **how):
        serving.append(Serving(program.path, file, count, **how))
        return serving[-1]

    yield begin
    for it in serving:
        it.kill()
