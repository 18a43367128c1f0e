"""The man page and the completions in `companions`, held against what `--help` of the program as it is built lists: the subcommands, and the words of
each. The completion for bash is run.
"""
import re
import subprocess

import pytest

from tests.support import subcommands
from tests.support.waiting import PATIENCE
from tools import TOP


@pytest.fixture
def listed(program):
    return subcommands.listed(program.did("--help").decode())


@pytest.fixture
def names(listed):
    return [name for name, _ in listed]


@pytest.fixture
def kinds(program):
    return subcommands.kinds(program.did("export", "--help").decode())


@pytest.fixture
def text_of(companions):
    return lambda path: open(f"{companions}/{path}", encoding="utf-8").read()


@pytest.fixture
def completed(companions):
    """What bash offers for the last word."""

    def complete(*words):
        script = '. "$1"; shift; COMP_WORDS=(event_reporter "$@"); COMP_CWORD=$#; _event_reporter; printf "%s\\n" "${COMPREPLY[@]}"'
        words = ["bash", "-c", script, "bash", f"{companions}/completions/event_reporter.bash", *words]
        return subprocess.run(
            words, capture_output=True, text=True, timeout=PATIENCE, check=True
        ).stdout.split()

    return complete


def test_each_subcommand_has_its_own_help(program, names):
    assert [program.did(name, "--help").decode().split()[:3] for name in names] == [
        ["usage:", "event_reporter", name] for name in names
    ]


def test_man(listed, text_of):
    assert re.findall(r'^\.BI ([a-z]+) " ([A-Z ]+)"$', text_of("man/event_reporter.1"), re.M) == listed
    assert (
        text_of("man/event_reporter.1").split("\n")[0]
        == '.TH EVENT_REPORTER 1 "" "event_reporter" "User Commands"'
    ), "neither date nor version until it is installed"


def test_man_refusals(text_of):
    """The thirty of RULES, by their numbers and names."""
    with open(f"{TOP}/docs/RULES.md", encoding="utf-8") as rules:
        due = re.findall(
            r"^\| (\d+) \| ([A-Z]\w+)", rules.read().split("\n## Refusals\n")[1].split("\n## ")[0], re.M
        )
    assert re.findall(r"^\.B (\d+) (\w+)$", text_of("man/event_reporter.1"), re.M) == due and len(due) == 30


def test_man_sees_the_others(text_of):
    """The companions, which are named before anything else is said, and again at the end."""
    page, companions = text_of("man/event_reporter.1"), [
        "event-desk",
        "event-sheets",
        "event-phones",
        "event-check",
    ]
    named = re.findall(r"^\.B (event\\-\w+)$", page[page.index(".SH DESCRIPTION") : page.index(".PP")], re.M)
    assert [it.replace("\\", "") for it in named] == companions
    assert re.findall(r"^\.BR (event-\w+) ", page[page.index(".SH SEE ALSO") :], re.M) == companions


def test_zsh(listed, kinds, text_of):
    assert (
        re.findall(r"^    '([a-z]+):([A-Z ]+)'$", text_of("completions/event_reporter.zsh"), re.M) == listed
    )
    assert re.findall(r"4,export\) compadd (.*) ;;", text_of("completions/event_reporter.zsh")) == [
        " ".join(kinds)
    ]


def test_fish(listed, kinds, text_of):
    assert (
        re.findall(r"-a ([a-z]+) -d '([A-Z ]+)'$", text_of("completions/event_reporter.fish"), re.M) == listed
    )
    assert re.findall(
        r"seen_subcommand_from export' -a '(.*)'$", text_of("completions/event_reporter.fish"), re.M
    ) == [" ".join(kinds)]


def test_bash(completed, names, kinds, companions):
    assert completed("") == [*names, "--help", "--version"]
    assert completed("st") == ["start", "standings"], "a beginning"
    assert completed("export", "friday.event", "") == kinds
    assert completed("import", f"{companions}/completions/event_reporter.f") == [
        f"{companions}/completions/event_reporter.fish"
    ], "a file"
    assert completed("import", "friday.event", f"{companions}/completions/event_reporter.z") == [
        f"{companions}/completions/event_reporter.zsh"
    ], "a second one"
    assert completed("start", "friday.event", "") == [], "no more"
