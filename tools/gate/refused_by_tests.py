"""Puts each of a few wrong bodies into a copy of the crates, builds tests there with no proof, and asks that the test which sees such a body
fails. With no wrong body the same tests pass in the gate. There a wrong body can't be built in, since only what is proved is built.

Those of wrong-bodies break a clause too, and are refused here by the tests on stopped disks. Those of refused-by-tests meet every contract: a call may
always answer out of memory, a database refuse a statement, and a writer break, so that only tests refuse them.
"""
import argparse
import concurrent.futures
import os
import re
import shutil
import subprocess
import sys
import tempfile

from tools import TOP

# the crates of tests
TESTS, SLIPS_TESTS, CLI_TESTS, SESSIONS_TESTS = (
    "er_desk_tests",
    "er_slips_tests",
    "er_cli_tests",
    "er_sessions_tests",
)
WHOLE_EVENT, PAIRING = "stops::a_whole_event_survives_each_stop", "stops::a_pairing_survives_each_stop"
ADOPTED = "desks::a_desk_answers_and_is_adopted"
STAGES, TOTALS = "stores::stages_are_written", "stores::totals_are_kept"
SERVED, GOES_ON = "sockets::clients_are_served", "sessions::sessions_go_on"
LINES = "lines::each_line_is_one_command"
ANSWERED, SCRIPT = "flushing::an_answer_is_flushed", "flushing::a_script_flushes"
SCORE, SHORT = "requests::a_score_is_taken_once", "requests::requests_that_change_nothing_are_answered"
# where a wrong body stands, and the tests of one crate each of which sees it
BODIES = {
    "er_store/wrong-bodies/two_transactions": (SLIPS_TESTS, [WHOLE_EVENT]),
    "er_store/wrong-bodies/early_acknowledgement": (SLIPS_TESTS, [WHOLE_EVENT]),
    "er_store/wrong-bodies/repairs_on_open": (SLIPS_TESTS, [WHOLE_EVENT]),
    "er_store/refused-by-tests/stage_in_the_place_of_the_last": (TESTS, [STAGES]),
    "er_store/refused-by-tests/totals_of_a_player_put_in_again": (TESTS, [TOTALS]),
    "er_desk/wrong-bodies/memory_alone": (SLIPS_TESTS, [WHOLE_EVENT]),
    "er_desk/wrong-bodies/goes_on_after_fault": (SLIPS_TESTS, [PAIRING]),
    "er_desk/refused-by-tests/refuses_without_cause": (TESTS, [ADOPTED]),
    "er_slips/refused-by-tests/never_answers": (SLIPS_TESTS, [SCORE, SHORT]),
    "er_cli/refused-by-tests/waits_for_ever": (CLI_TESTS, [SERVED]),
    "er_cli/refused-by-tests/never_copies_the_log": (SESSIONS_TESTS, [GOES_ON]),
    "er_cli/refused-by-tests/run_twice": (CLI_TESTS, [LINES]),
    "er_cli/refused-by-tests/paths_are_absent": (CLI_TESTS, [LINES]),
    "er_cli/refused-by-tests/hangs_up": (CLI_TESTS, [SERVED]),
    "er_cli/refused-by-tests/print_is_held_back": (CLI_TESTS, [SERVED, ANSWERED, SCRIPT]),
}
# with this one the test does not end, so that the limit of this many seconds is its refusal, as it is of no other
ENDLESS, ENDLESS_SECONDS = "er_cli/refused-by-tests/waits_for_ever", 60
SECONDS = 7200


def copy_crates(room):
    shutil.copytree(f"{TOP}/crates", f"{room}/crates", ignore=shutil.ignore_patterns("out"))
    shutil.copy(f"{TOP}/crates.txt", room)
    os.mkdir(f"{room}/.git")


def write(path, text):
    with open(path, "w", encoding="utf-8") as it:
        it.write(text)


def read(path):
    with open(path, encoding="utf-8") as it:
        return it.read()


def modules_of(folder, tests):
    """The modules that these tests stand in, and those that these import."""
    found, left = set(), [it.split("::")[0] for it in tests]
    while left:
        name = left.pop()
        if name not in found:
            found.add(name)
            left += re.findall(r"^use crate::(\w+)::", read(f"{folder}/src/{name}.rt"), re.M)
    return sorted(found)


def keep_tests(folder, wanted):
    """Leaves the modules of these tests, and no test in them but those that are wanted."""
    modules = modules_of(folder, wanted)
    for name in os.listdir(f"{folder}/src"):
        path = f"{folder}/src/{name}"
        if os.path.isdir(path):
            shutil.rmtree(path)
        elif name not in ("lib.rt", *(f"{it}.rt" for it in modules)):
            os.remove(path)
    shutil.rmtree(f"{folder}/proofs", ignore_errors=True)
    write(
        f"{folder}/src/lib.rt",
        "#![tactic(auto)]\n\n" + "".join(f"#[cfg(test)]\nmod {it};\n" for it in modules),
    )
    for name in modules:
        path = f"{folder}/src/{name}.rt"
        parts = re.split(r"(?ms)^((?:///[^\n]*\n)*#\[test\]\nfn (\w+)\(.*?^}\n)", read(path))
        # text, a test, its name, text, ..
        tests = [body if f"{name}::{test}" in wanted else "" for body, test in zip(parts[1::3], parts[2::3])]
        write(path, parts[0] + "".join(test + text for test, text in zip(tests, parts[3::3])))


def apply(folder, edit):
    file, old = "", ""
    for line in read(edit).splitlines():
        if line.startswith("file: "):
            file = f"{folder}/{line[6:].strip()}"
        elif line.startswith("old: "):
            old = line[5:]
        elif line.startswith("new:"):
            text = read(file)
            if text.count(old) != 1:
                sys.exit(f"{edit}: its text stands {text.count(old)} times in {file}")
            write(file, text.replace(old, re.sub("^new: ?", "", line)))


def outcomes(folder, tests, seconds=SECONDS):
    """What each test of a crate came to, by its name. If one failed, the line that says why is printed: a limit is no refusal."""
    keep_tests(folder, tests)
    words = ["rt", "try", "--test", "--seconds", str(seconds), "--steps", "1"]
    ran = subprocess.run(
        words,
        cwd=folder,
        stdin=subprocess.DEVNULL,
        stdout=subprocess.PIPE,
        stderr=subprocess.STDOUT,
        text=True,
        errors="replace",
    )
    found = {
        name: re.search(rf"^test {name} \.\.\. (?:.*\n)*?.*?\b(ok|FAILED)\b", ran.stdout, re.M)
        for name in tests
    }
    if not all(found.values()):
        print(ran.stdout, file=sys.stderr)
    print(
        "".join(
            f"{it}\n"
            for it in ran.stdout.splitlines()
            if "assertion" in it or "panicked" in it or "limit" in it
        ),
        end="",
        flush=True,
    )
    return {name: it[1] if it else "not run" for name, it in found.items()}


def tried(body):
    """The lines that say what the tests came to with this wrong body, and how many of them are wrong."""
    crate, (tests_crate, tests) = body.split("/")[0], BODIES[body]
    with tempfile.TemporaryDirectory() as room:
        copy_crates(room)
        apply(f"{room}/crates/{crate}", f"{TOP}/crates/{body}.edit")
        found = outcomes(
            f"{room}/crates/{tests_crate}", tests, ENDLESS_SECONDS if body == ENDLESS else SECONDS
        )
    return [f"{body}: {test} {outcome}" for test, outcome in found.items()], sum(
        it != "FAILED" for it in found.values()
    )


def main():
    words = argparse.ArgumentParser(
        prog="scripts/refused_by_tests",
        description="Builds tests with a wrong body in place and no proof, and asks that they fail.",
    )
    words.add_argument(
        "jobs",
        type=int,
        nargs="?",
        default=1,
        metavar="JOBS",
        help="how many are built at once; without it, 1",
    )
    words.add_argument(
        "names",
        nargs="*",
        metavar="NAME",
        help="a wrong body, such as refuses_without_cause; without one, all are tried",
    )
    given = words.parse_args()
    bodies = [it for it in BODIES if not given.names or it.split("/")[-1] in given.names]
    wrong = 0
    with concurrent.futures.ThreadPoolExecutor(given.jobs) as pool:
        for lines, count in pool.map(tried, bodies):
            print("\n".join(lines), flush=True)
            wrong += count
    print(f"{wrong} wrong")
    return 1 if wrong else 0


sys.exit(main())
