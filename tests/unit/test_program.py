"""Which program is called if none is named."""
from __future__ import annotations

from pathlib import Path

import pytest

from event_companions.core import program

BUILT = "crates/event_reporter/out/event_reporter"


@pytest.fixture
def make(tmp_path: Path, monkeypatch: pytest.MonkeyPatch):
    """Puts programs below a folder, and the companions in it."""
    monkeypatch.delenv("EVENT_REPORTER", raising=False)

    def made(companions: str, *programs: str) -> str:
        module = tmp_path / companions / "program.py"
        for path in (module, *(tmp_path / name for name in programs)):
            path.parent.mkdir(parents=True, exist_ok=True)
            path.touch(0o755)
        monkeypatch.setattr(program, "__file__", str(module))
        found = program.program_beside()
        return found[len(f"{tmp_path}/") :] if found.startswith(str(tmp_path)) else found

    return made


def test_in_a_checkout(make):
    assert (
        make("top/companions/event_companions/core", "bin/event_reporter", "top/event_reporter")
        == "top/event_reporter"
    )
    assert make("top/companions/event_companions/core", f"top/{BUILT}") == f"top/{BUILT}"


def test_installed(make):
    assert make("usr/share/event-reporter/event_companions/core") == "event_reporter"
    assert (
        make("usr/share/event-reporter/event_companions/core", "usr/bin/event_reporter")
        == "usr/bin/event_reporter"
    )


def test_a_link_is_followed(make, tmp_path, monkeypatch):
    make("usr/share/event-reporter/event_companions/core", "usr/bin/event_reporter")
    (tmp_path / "link").symlink_to(tmp_path / "usr/share/event-reporter/event_companions/core")
    monkeypatch.setattr(program, "__file__", str(tmp_path / "link/program.py"))
    assert program.program_beside() == str(tmp_path / "usr/bin/event_reporter")


def test_what_is_named_comes_first(make, monkeypatch):
    monkeypatch.setenv("EVENT_REPORTER", "/opt/another")
    assert program.program_beside() == "/opt/another"
