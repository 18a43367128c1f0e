"""Each place that shows the version, held against the one that has it, `crates/er_cli/src/help.rt`: the program as it is built, the companions, and the head
of CHANGELOG. No other file writes the number.
"""
import os
import re
import subprocess

import pytest

import tools
from tests.package.installed import COMPANIONS
from tools import TOP


def printed(*words):
    # a companion that is started here leaves no folder in the checkout
    env = {**os.environ, "PYTHONDONTWRITEBYTECODE": "1"}
    ran = subprocess.run(
        words, cwd=TOP, env=env, stdin=subprocess.DEVNULL, stdout=subprocess.PIPE, text=True, timeout=60
    )
    return ran.returncode, ran.stdout


def test_program(program):
    assert printed(program.path, "--version") == (0, f"event_reporter {tools.version()}\n")


# event-check calls no program, so it has no version to print
@pytest.mark.parametrize("name", [it for it in COMPANIONS if it != "event-check"])
def test_companion(program, name):
    words = (f"{TOP}/companions/bin/{name}", "--program", program.path, "--version")
    assert printed(*words) == (0, f"{name} (event_reporter) {tools.version()}\n")


def test_changes():
    with open(f"{TOP}/CHANGELOG.md", encoding="utf-8") as file:
        heads = re.findall(r"^## (\d\S*)|Version (\d\S*) ", file.read(), re.M)
    assert heads[0] == ("", tools.version())


def test_no_other_file_has_it():
    found = printed("git", "grep", "-lF", tools.version(), "--", ".", ":!CHANGELOG.md")[1].split()
    assert found == ["crates/er_cli/src/help.rt"]
