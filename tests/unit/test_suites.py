"""What parts of the test command do on a machine without pytest, or without a C compiler."""
import argparse
import sys

import pytest

from tests import suites

GIVEN = argparse.Namespace(program="", seed=1, long=False, without=False)
WITHOUT = argparse.Namespace(program="", seed=1, long=False, without=True)


@pytest.fixture
def no_pytest(monkeypatch):
    monkeypatch.setattr(suites, "has_modules", lambda *_: False)
    suites.python.cache_clear()
    yield
    suites.python.cache_clear()


def test_scripts_need_no_pytest(no_pytest, monkeypatch):
    monkeypatch.setitem(suites.PARTS, "slow", (["{python}", "-c", ""],))
    assert suites.python() == sys.executable
    assert suites.run("slow", GIVEN, [])


def test_suites_need_pytest(no_pytest, capfd):
    assert not suites.run("race", GIVEN, [])
    assert "Type: sh scripts/setup" in capfd.readouterr().err


def test_suites_are_left_out_if_that_is_asked_for(no_pytest, capfd):
    assert suites.run("race", WITHOUT, [])
    line = "left out: what pytest runs: tests/prompt/test_race.py, as it is not installed\n"
    assert capfd.readouterr().out == line


def test_what_is_compiled_is_left_out_without_a_compiler(monkeypatch, capfd):
    monkeypatch.setenv("CC", "no-such-compiler")
    assert suites.run("oom", GIVEN, [])
    lines = capfd.readouterr().out.splitlines()
    assert "left out: tests.faults.refused_pair, as no C compiler is installed" in lines
    assert len(lines) == len(suites.steps_of("oom", False))
