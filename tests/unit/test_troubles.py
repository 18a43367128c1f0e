"""What goes wrong with the phones, as the scorekeeper's page and the prompt are told it."""
import os

import pytest

pytest.importorskip("jinja2")

from event_companions.beside.troubles import BYTES, Told, Troubles, kept_troubles, path_of
from event_companions.core.program import Refused
from event_companions.core.score import Score
from event_companions.core.turn import Turn
from event_companions.phones import cache as cache_module
from event_companions.phones import score_queue as queue_module
from event_companions.phones.cache import EventCache
from event_companions.phones.running import Running
from event_companions.phones.score_queue import NotNow, ScoreQueue
from event_companions.prompt.news import troubles_told


@pytest.fixture
def file(tmp_path):
    return f"{tmp_path}/e.event"


def test_what_goes_wrong_stands_in_a_file_until_it_is_over(file):
    assert kept_troubles(file) == Told()
    troubles = Troubles(file)
    assert kept_troubles(file) == Told((), True, True)
    troubles.tell("event", "can't be\nread")
    troubles.tell("scores", "can't be stored")
    assert kept_troubles(file).lines == ("can't be read", "can't be stored")
    # written over in its place, so that a full disk has room for it
    assert os.path.getsize(path_of(file)) == BYTES
    troubles.over("event")
    assert (kept_troubles(file).lines, troubles.all()) == (("can't be stored",), ["can't be stored"])
    os.close(troubles.handle)
    assert kept_troubles(file) == Told(("can't be stored",), True, False)
    # the next one begins with none, and what ends as it should leaves nothing
    after = Troubles(file)
    assert kept_troubles(file) == Told((), True, True)
    after.end()
    assert kept_troubles(file) == Told() and not os.path.exists(path_of(file))


def test_without_a_place_to_write_it_goes_on(tmp_path):
    troubles = Troubles(f"{tmp_path}/none/e.event")
    troubles.tell("event", "a")
    assert troubles.all() == ["a"]


def test_the_prompt_tells_what_is_new():
    served = Told((), True, True)
    one, two = Told(("a",), True, True), Told(("a", "b"), True, True)
    assert troubles_told(Told(), served, "e") == []
    assert (troubles_told(served, one, "e"), troubles_told(one, two, "e"), troubles_told(two, two, "e")) == (
        ["a"],
        ["b"],
        [],
    )
    assert troubles_told(one, served, "e") == ["Phones go on: what was wrong is over."]
    assert all(len(line) <= 80 for line in troubles_told(served, Told(("word " * 40,), True, True), "e"))


def test_the_prompt_tells_that_phones_are_served_no_more():
    served, ended = Told((), True, True), Told(("event-phones has ended. Why.",), True, False)
    assert troubles_told(served, ended, "e.event") == [
        "event-phones has ended. Why.",
        "Until it is started again no phone can hand in: event-phones e.event",
    ]
    assert troubles_told(served, Told(("a",), True, False), "e")[0] == "event-phones has ended."
    # it is told once, and not where it ended by Ctrl-C, or before the prompt began
    assert (
        troubles_told(ended, ended, "e"),
        troubles_told(served, Told(), "e"),
        troubles_told(Told(), ended, "e"),
    ) == ([], [], [])


# ---- who tells


def test_a_reading_that_fails_is_told_and_goes_on(file, monkeypatch):
    cache = EventCache("none", file)

    def fails(*_):
        raise IsADirectoryError(21, "Is a directory", f"{file}.names")

    monkeypatch.setattr(cache_module, "read_whole", fails)
    assert not cache.read()
    assert cache.troubles.all() == [f"The event can't be read now: {file}.names: Is a directory"]


def test_the_thread_that_reads_ends_by_no_fault(file, monkeypatch, within_seconds):
    monkeypatch.setattr(cache_module, "SECONDS_BETWEEN_LOOKS", 0.01)
    cache, looks = EventCache("none", file), []

    def look():
        looks.append(1)
        raise ValueError("odd")

    cache.look = look
    cache.running.begin("reads", cache.go_on)
    assert within_seconds(lambda: len(looks) >= 3)
    assert cache.troubles.all() == ["The event can't be read now: ValueError: odd"]
    assert not cache.running.is_over.is_set()
    cache.running.end("")


@pytest.mark.parametrize(
    "work, why", [(lambda: 1 / 0, "ZeroDivisionError: division by zero"), (lambda: None, "it ended")]
)
def test_a_thread_that_ends_ends_all_and_says_why(work, why):
    running = Running()
    running.begin("hands in scores", work)
    assert running.is_over.wait(60)
    assert running.why.startswith(f"What hands in scores can't go on ({why}).\nStart event-phones again")


class Busy:
    """A program that has its file at last."""

    program, file = "none", "none"

    def __init__(self, is_free):
        self.is_free, self.turn = is_free, Turn()

    def ask(self, *_words):
        if not self.is_free():
            raise Refused(25, "Store")
        return "ok 1\n"


def test_scores_that_are_not_stored_are_told_until_one_is(file, monkeypatch):
    monkeypatch.setattr(queue_module, "SECONDS_UNTIL_TOLD", 0.0)
    troubles = Troubles(file)
    queue = ScoreQueue("none", file, troubles=troubles)
    queue.ends_with_us = []
    told = []
    # it is told before the phone gives up
    queue.source = Busy(lambda: told.extend(troubles.all()) or told)
    assert queue.report(1, 7, Score(2, 0)).is_taken
    assert told[0].startswith(
        "Scores from phones can't be stored, such as that of table 7: refused 25 Store."
    )
    assert "`serve`" in told[0] and troubles.all() == []


def test_a_full_disk_is_named(file, monkeypatch):
    queue = ScoreQueue("none", file)
    monkeypatch.setattr(os, "statvfs", lambda _: os.statvfs_result((4096, 4096, 100, 0, 0, 0, 0, 0, 0, 255)))
    assert queue.advice() == "The disk is full: make room."


def test_a_queue_whose_pause_fails_goes_on(file, monkeypatch):
    monkeypatch.setattr(queue_module, "SECONDS_LEFT_TO_OTHERS", -1.0)
    queue = ScoreQueue("none", file)
    queue.source = Busy(lambda: True)
    assert [queue.report(1, table, Score(2, 0)).is_taken for table in (1, 2)] == [True, True]


def test_a_fault_of_the_queue_is_told(file):
    queue = ScoreQueue("none", file)
    queue.source = None
    with pytest.raises(NotNow):
        queue.report(1, 1, Score(2, 0))
    assert "AttributeError" in queue.troubles.all()[0]
