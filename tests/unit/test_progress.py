"""How far a build is, by a clock that the test sets, and what is said of one that is at work."""
import os
import subprocess
import sys

import pytest

from tools.gate.progress import SECONDS, Progress, under_way
from tools.package import made_from, proved

# three crates of 365, 60 and 530 processor seconds, the first of them below the others
BELOW = {"er_event": [], "er_rank": ["er_event"], "er_store": ["er_event"]}


class Clock:
    now = 0.0

    def __call__(self):
        return self.now


def begun(processors, below=BELOW):
    clock = Clock()
    return clock, Progress(below, processors, clock)


def test_what_is_left_before_anything_is_known():
    assert begun(1)[1].text() == "0 minutes gone, about 16 left"
    # er_event and er_store by two processors each, one after the other
    assert begun(4)[1].text() == "0 minutes gone, about 7 left"
    assert begun(4, {})[1].text() == "0 minutes gone, about 0 left"


def test_a_slow_machine_takes_longer_for_the_rest_too():
    clock, progress = begun(1)
    progress.begins("er_event", 1)
    clock.now = 2 * SECONDS["er_event"]
    progress.ends("er_event")
    assert progress.text() == "12 minutes gone, about 20 left"


def test_a_crate_at_work_is_never_done():
    clock, progress = begun(4)
    progress.begins("er_event", 4)
    clock.now = 60.0
    assert progress.rest("er_event") == SECONDS["er_event"] - 240
    clock.now = 6000.0
    assert 0 < progress.rest("er_event") < 40


def test_a_crate_that_the_table_lacks_is_counted():
    assert begun(1, {"er_new": []})[1].text() == "0 minutes gone, about 2 left"


def test_a_build_at_work_is_named(tmp_path):
    assert under_way(tmp_path) == ""
    with subprocess.Popen([sys.executable, "-c", ""]) as ended:
        pass
    (tmp_path / f"build.log.{ended.pid}").write_text("")
    (tmp_path / "build.log.failed").write_text("")
    (tmp_path / "building").write_text("3 of 15 crates are proved\n")
    assert under_way(tmp_path) == "", "one that was killed"
    (tmp_path / f"build.log.{os.getpid()}").write_text("")
    assert under_way(tmp_path) == "3 of 15 crates are proved"
    (tmp_path / "building").unlink()
    assert under_way(tmp_path) == "it has just begun"


def test_a_release_names_the_build_that_is_at_work(monkeypatch):
    monkeypatch.setattr(made_from, "under_way", lambda: "3 of 15 crates are proved")
    with pytest.raises(made_from.Unfit, match="at work: 3 of 15 crates"):
        proved.verdicts_on("a program without a log")
    monkeypatch.setattr(made_from, "under_way", lambda: "")
    with pytest.raises(made_from.Unfit, match="no log of this program's build"):
        proved.verdicts_on("a program without a log")
