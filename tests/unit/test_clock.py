import time

import pytest
from event_companions.beside.clock import Clock, keep_clock, kept_clock, stop_clock


@pytest.mark.parametrize(
    "seconds, minutes", [(3000, 50), (2941, 50), (2940, 49), (61, 2), (60, 1), (1, 1), (0, 0), (-5, 0)]
)
def test_minutes_that_are_left(seconds, minutes):
    assert Clock(10_000, 50).left(10_000 - seconds) == minutes


def test_the_clock_says_when_it_ends(monkeypatch):
    monkeypatch.setenv("TZ", "UTC")
    time.tzset()
    # 20:45 of a day
    clock = Clock(20 * 3600 + 45 * 60, 50)
    assert clock.shown(clock.until - 37 * 60) == "37 min, until 20:45"
    assert clock.shown(clock.until + 1) == "Time is over, since 20:45"


def test_it_is_kept_beside_the_event(tmp_path):
    file = f"{tmp_path}/e.event"
    assert kept_clock(file) is None
    keep_clock(file, Clock(1764362700, 50))
    assert open(f"{file}.clock").read() == "until 1764362700 of 50\n"
    assert kept_clock(file) == Clock(1764362700, 50)
    stop_clock(file)
    stop_clock(file)
    assert kept_clock(file) is None


def test_a_clock_that_is_none(tmp_path):
    file = f"{tmp_path}/e.event"
    for text in ("", "until", "until x of 50\n", "until 99999999999999 of 50\n"):
        with open(f"{file}.clock", "w") as written:
            written.write(text)
        assert kept_clock(file) is None


def test_the_hour_of_the_end_is_that_of_the_day_it_ends_in(monkeypatch):
    """Clocks were set forward by an hour at 01:00 UTC on 29 March 2026: 50 minutes stay 50 minutes."""
    monkeypatch.setenv("TZ", "Europe/Berlin")
    time.tzset()
    before = 1774745400
    assert time.strftime("%H:%M", time.localtime(before)) == "01:50"
    clock = Clock(before + 50 * 60, 50)
    assert clock.shown(before) == "50 min, until 03:40"
    assert clock.left(before + 20 * 60) == 30
    monkeypatch.setenv("TZ", "UTC")
    time.tzset()


def test_over_midnight(monkeypatch):
    monkeypatch.setenv("TZ", "UTC")
    time.tzset()
    clock = Clock(86400 + 20 * 60, 50)
    assert clock.shown(86400 - 30 * 60) == "50 min, until 00:20"
