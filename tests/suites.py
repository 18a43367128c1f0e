"""Runs parts of the test command: suites of pytest, and scripts that are no suites. A word with a `/` in it is a file, a folder or one case of pytest's, or
a script that is no suite. What pytest takes besides goes on to it: `scripts/test csv -k UTF`.
"""
import argparse
import concurrent.futures
import contextlib
import functools
import os
import re
import shutil
import subprocess
import sys
import tempfile

from tools import TOP, commit_time, packages

BUILT = "crates/event_reporter/out/event_reporter"
# words of a line: what stands for what is given, and of two numbers the second with --long
PROGRAM, SEED = "{program}", "{seed}"
# libraries that are loaded before the program, and their sources
STOP, REFUSE = "{stop}", "{refuse}"
LIBRARIES = {STOP: "stop_nth.c", REFUSE: "refuse_nth.c"}


def module(name, *words):
    return ["{python}", "-B", "-m", name, *words]


# ---- what is no suite


def is_left_out(what, why):
    print(f"left out: {what}, as {why}", flush=True)
    return True


def python_files():
    """All Python. What is typed as a command has no ending that tells."""
    commands = sorted(os.listdir(f"{TOP}/companions/bin"))
    return ["companions", "tests", "tools", *(f"companions/bin/{name}" for name in commands)]


def release_of_black():
    """The release by which all Python is laid out: another one may lay it out in another way."""
    with open(f"{TOP}/pyproject.toml", encoding="utf-8") as text:
        return re.search(r'^required-version = "([\d.]+)"$', text.read(), re.M)[1]


def layout_of_python(_given, _rest):
    what, due = "the layout of Python", release_of_black()
    if shutil.which("black") is None:
        return is_left_out(what, "black is not installed")
    said = subprocess.run(["black", "--version"], stdout=subprocess.PIPE, text=True).stdout
    if f" {due} " not in said:
        return is_left_out(what, f"black is another release than {due}")
    return passes(["black", "--check", *python_files()])


def faults_of_python(_given, _rest):
    if shutil.which("flake8") is None:
        return is_left_out("faults that flake8 finds", "it is not installed")
    return passes(["flake8", *python_files()])


def types_of_companions(_given, _rest):
    if shutil.which("mypy") is None:
        return is_left_out("types of the companions", "mypy is not installed")
    with tempfile.TemporaryDirectory() as room:
        return passes(["mypy", "--cache-dir", room])


def crash(is_long):
    # the seed, and three more
    yield [
        module("tests.faults.stops", PROGRAM, (100, 2500), f"{{seed{at}}}")
        for at in range(4 if is_long else 1)
    ]
    for name in ("stop_serving", "stop_refused", "stop_making"):
        yield module(f"tests.faults.{name}", PROGRAM, STOP)
    yield module("tests.faults.stop_calls", PROGRAM, STOP, (0, 20), SEED)


def oom(is_long):
    yield module("tests.faults.refused_pair", PROGRAM, REFUSE)
    yield module("tests.faults.refused_beside", PROGRAM, REFUSE)
    if is_long:
        yield module("tests.faults.refused_examples", PROGRAM, REFUSE, "2")
        return
    yield module(
        "tests.faults.refused_memory",
        PROGRAM,
        REFUSE,
        "crates/event_reporter/stdin",
        "crates/event_reporter/stdout",
    )
    for name in ("corrected", "playoff"):
        yield module(
            "tests.faults.refused_memory", PROGRAM, REFUSE, f"examples/{name}.txt", f"examples/{name}.answers"
        )
    yield module("tests.faults.refused_file_memory", PROGRAM, REFUSE, "40")
    yield module("tests.faults.refused_http_memory", PROGRAM, REFUSE, "40")


def corruption(is_long):
    yield module("tests.faults.damage_edits", PROGRAM, *["all"] * is_long)
    yield module("tests.faults.damage", PROGRAM, STOP, (200, 20_000), SEED, "2", "12", (25, 400))
    yield module("tests.faults.earlier_frames", PROGRAM, STOP)


def package(is_long):
    yield "package/test_version.py"
    yield "package/test_release.py"
    yield "package/test_wrapper.py"
    yield "package/test_setup.py"
    if is_long:
        yield module("tests.package.systems")


# the suites of each part, by their names, and what is no suite: lines, lines that go side by side, and functions; each part may run beside the others
PARTS = {
    "style": (layout_of_python, faults_of_python, types_of_companions),
    "examples": (
        "program/test_scripts.py",
        "program/test_files.py",
        "program/test_tour.py",
        "program/test_random_events.py",
        "program/test_file_events.py",
        module("tools.answers", "--check"),
    ),
    "csv": (
        "program/test_csv.py",
        "program/test_random_lists.py",
        "program/test_completions.py",
        "program/test_help.py",
    ),
    "companions": ("unit",),
    "prompt": (
        "prompt/test_prompt.py",
        "prompt/test_words.py",
        "prompt/test_name_lists.py",
        "prompt/test_refusals.py",
        "prompt/test_copies.py",
        "prompt/test_keys.py",
        "prompt/test_prompt_faults.py",
        module("tests.faults.prompt_kills", PROGRAM, (10, 300), SEED),
    ),
    "windows": ("prompt/test_windows.py", "prompt/test_typing.py"),
    "again": ("prompt/test_again.py", "prompt/test_random_changes.py"),
    "draw": (
        "draw/test_draw.py",
        "draw/test_drawn_evenings.py",
        "draw/test_event_check.py",
        "draw/test_check_page.py",
    ),
    "race": ("prompt/test_race.py",),
    "sheets": ("pages/test_sheets.py", "pages/test_sheet_pages.py", "pages/test_layout.py"),
    "phones": (
        "phones/test_phones.py",
        "phones/test_phones_served.py",
        module("tests.faults.phone_kills", PROGRAM, (3, 1200), SEED),
    ),
    "taps": ("phones/test_taps.py",),
    "http": (
        "program/test_http.py",
        "program/test_http_events.py",
        module("tests.faults.http_stops", PROGRAM, (60, 1000), SEED),
    ),
    "slow": (module("tests.faults.slow_clients", PROGRAM),),
    "crash": crash,
    "oom": oom,
    "corruption": corruption,
    "beside": ("program/test_beside.py",),
    "package": package,
}


# ---- how they are run


@contextlib.contextmanager
def compiled():
    """The modules of the companions, of the tests and of the tools, compiled once for all that is started: nothing is left in the checkout, so each start would do it
    anew, which takes three times as long as the rest of it.
    """
    with tempfile.TemporaryDirectory() as kept:
        os.environ["PYTHONPYCACHEPREFIX"] = kept
        subprocess.run(
            [python(), "-m", "compileall", "-q", "companions", "tests", "tools"],
            cwd=TOP,
            check=True,
        )
        yield


@functools.lru_cache(maxsize=None)
def python():
    """Returns a Python that has all modules, or at least pytest, if there is one: another one on the path may lack what Debian's packages have installed."""
    for modules in (packages.modules("tests", "companions").values(), ["pytest"]):
        for it in (sys.executable, "/usr/bin/python3"):
            if has_modules(it, modules):
                return it
    return sys.executable


def has_modules(of_python, modules):
    looks = "import sys, importlib.util as it; sys.exit(not all(map(it.find_spec, sys.argv[1:])))"
    return os.path.exists(of_python) and passes([of_python, "-c", looks, *modules])


def passes(line):
    return subprocess.run(line, cwd=TOP).returncode == 0


def suites_pass(names, given, rest):
    if not has_modules(python(), ["pytest"]):
        if given.without:
            return is_left_out(f"what pytest runs: {' '.join(names)}", "it is not installed")
        print("scripts/test: pytest is not installed. Type: sh scripts/setup", file=sys.stderr)
        return False
    line = [
        python(),
        "-B",
        "-m",
        "pytest",
        "-q",
        *names,
        "--program",
        given.program,
        "--seed",
        str(given.seed),
        *["--long"] * given.long,
        *rest,
    ]
    return passes(line)


def filled(line, given, room):
    """A line with what is given, and with the libraries that it names, which are compiled for it."""
    values = {"python": python(), "program": given.program, "seed": given.seed}
    values.update({f"seed{at}": given.seed + at for at in range(4)})
    for name in LIBRARIES.keys() & {word for word in line if isinstance(word, str)}:
        values[name.strip("{}")] = library(name, room)
    return [str(word[given.long]) if isinstance(word, tuple) else word.format(**values) for word in line]


def compiler():
    return os.environ.get("CC", "cc")


def library(name, room):
    path, source = f"{room}/{name.strip('{}')}.so", f"tests/faults/{LIBRARIES[name]}"
    if not os.path.exists(path):
        subprocess.run(
            [compiler(), "-O1", "-shared", "-fPIC", "-o", path, source, "-ldl"],
            cwd=TOP,
            check=True,
        )
    return path


def steps_of(part, is_long):
    return [*(PARTS[part](is_long) if callable(PARTS[part]) else PARTS[part])]


def lines_of(step):
    """Those that go side by side."""
    return step if isinstance(step[0], list) else [step]


def module_of(line):
    return line[line.index("-m") + 1]


def lines_running(path, is_long):
    """The lines by which parts run a script that is no suite."""
    steps = [step for part in PARTS for step in steps_of(part, is_long) if isinstance(step, list)]
    return [
        line for step in steps for line in lines_of(step) if path == f"{module_of(line).replace('.', '/')}.py"
    ]


def step_passes(step, given, rest, room):
    if callable(step):
        return step(given, rest)
    if rest:
        for line in lines_of(step):
            print(
                f"left out: {module_of(line)}, as {' '.join(rest)} chooses among cases of pytest", flush=True
            )
        return True
    if shutil.which(compiler()) is None and any(it in line for it in LIBRARIES for line in lines_of(step)):
        return all([is_left_out(module_of(line), "no C compiler is installed") for line in lines_of(step)])
    lines = [filled(line, given, room) for line in lines_of(step)]
    with concurrent.futures.ThreadPoolExecutor(len(lines)) as pool:
        return all([*pool.map(passes, lines)])


def script_passes(path, given):
    """Runs a script that is no suite as its part does."""
    with tempfile.TemporaryDirectory() as room:
        return all([step_passes(line, given, [], room) for line in lines_running(path, given.long)])


def run(part, given, rest):
    """Whether all of a part has passed. What comes after a failure is run all the same."""
    steps = steps_of(part, given.long)
    names = [f"tests/{step}" for step in steps if isinstance(step, str)]
    passed = [suites_pass(names, given, rest)] if names else []
    with tempfile.TemporaryDirectory() as room:
        passed += [step_passes(step, given, rest, room) for step in steps if not isinstance(step, str)]
    return all(passed)


def main():
    words = argparse.ArgumentParser(
        prog="scripts/test",
        description="Without words, passes the tests, the gate among them. With a PART, runs that.",
        epilog=__doc__,
    )
    words.add_argument(
        "parts", nargs="+", metavar="PART", help=f"{', '.join(PARTS)}; or a script, or a case of a suite"
    )
    words.add_argument("--long", action="store_true", help="try much more, outside the test command")
    words.add_argument(
        "--without", action="store_true", help="go on without what is not installed, and say what is left out"
    )
    words.add_argument(
        "--seed",
        type=int,
        default=commit_time(),
        metavar="N",
        help="play the random ones of this number again; without it, the time of the commit",
    )
    words.add_argument(
        "--program", default=BUILT, metavar="FILE", help="the program; without it, the one that is built here"
    )
    given, rest = words.parse_known_args()
    print(f"seed {given.seed}", flush=True)
    unknown = [it for it in given.parts if "/" not in it and it not in PARTS]
    if unknown:
        words.error(f"{unknown[0]} is no part: {', '.join(PARTS)}")
    paths = [it for it in given.parts if "/" in it]
    scripts = [it for it in paths if lines_running(it, given.long)]
    cases = [it for it in paths if it not in scripts]
    with compiled():
        passed = [run(it, given, rest) for it in given.parts if it in PARTS]
        passed += [script_passes(it, given) for it in scripts]
        if cases:
            passed.append(suites_pass(cases, given, rest))
    return 0 if all(passed) else 1


if __name__ == "__main__":
    sys.exit(main())
