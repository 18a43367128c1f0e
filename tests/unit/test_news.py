"""News above the line that is being typed: what is told there is so, and nothing that came is left untold."""
from types import SimpleNamespace

import pytest
from event_companions.beside.reports import STORED, Report, Reports
from event_companions.core.event import Progress
from event_companions.core.score import Score
from event_companions.prompt.lines import Input
from event_companions.prompt.news import News
from event_companions.prompt.session import SECONDS_TO_READ, Session


class Typing:
    """A terminal at which nothing is typed yet."""

    def __init__(self):
        self.said = []

    def typed(self):
        return ""

    def say_above(self, prompt, text):
        self.said.append((prompt, text))


@pytest.fixture
def file(tmp_path):
    return str(tmp_path / "e.event")


@pytest.fixture
def session(file):
    lines = Input(lambda _text: [], lambda _line: False)
    lines.typing, lines.asking, lines.asked = Typing(), "desk> ", 1
    return SimpleNamespace(
        source=SimpleNamespace(program="none"),
        file=file,
        lines=lines,
        reports=Reports(file),
        event=SimpleNamespace(players={}),
        known=Progress(0, (), False, 7),
        differences=lambda now: [f"round {now.number}"],
        show_progress=lambda *_: None,
        moved_by_others=lambda: [],
    )


def enter(lines):
    """The line is entered, and the next one is asked for."""
    lines.asked += 1


def test_what_another_window_did_is_told(session, monkeypatch):
    news = News(session)
    monkeypatch.setattr(news, "moved", lambda: Progress(1, (), False, 7))
    news.tell()
    assert session.lines.typing.said == [("r1> ", "round 1")]
    assert session.known.number == 1


def test_what_was_so_before_the_line_was_entered_is_not_told_above_the_next(session, monkeypatch):
    """The line may have been `pair`, and what was read before it looks like what somebody else did."""
    news = News(session)

    def moved():
        enter(session.lines)
        session.known = Progress(2, (), False, 7)
        return Progress(1, (), False, 7)

    monkeypatch.setattr(news, "moved", moved)
    news.tell()
    assert session.lines.typing.said == []
    assert session.known.number == 2


def test_a_score_that_came_as_a_line_was_entered_is_told_before_the_next(session, file, monkeypatch):
    news = News(session)
    score = Score(2, 0, 0)
    Reports(file).add(Report("2026-11-29 20:00:00", 1, 4, 1, 2, score, STORED, score, "10.0.0.7"))
    monkeypatch.setattr(news, "moved", lambda: None)
    monkeypatch.setattr(news, "names_for", lambda *_: enter(session.lines))
    news.tell()
    assert session.lines.typing.said == []
    assert news.lines() == ["From phones: 1 score, table 4"]
    assert news.lines() == []


def test_a_fault_of_the_news_is_told_once_and_they_go_on(session, monkeypatch):
    news, faults = News(session), [ZeroDivisionError("why"), ZeroDivisionError("why")]

    def tell():
        if faults:
            raise faults.pop()
        news.is_over.set()

    monkeypatch.setattr("event_companions.prompt.news.SECONDS_BETWEEN_NEWS", 0.001)
    monkeypatch.setattr(news, "tell", tell)
    news.go_on()
    ((_, told),) = session.lines.typing.said
    assert "The prompt itself is at fault: ZeroDivisionError: why" in told


def test_news_count_as_read_after_some_seconds(file, session, monkeypatch):
    at = Session(SimpleNamespace(turn=None), file, session.lines)
    round_2, now = Progress(2, (), False, 7), 100.0
    monkeypatch.setattr("time.monotonic", lambda: now)
    at.show_progress(round_2, now)
    assert not at.is_shown(round_2)
    now += SECONDS_TO_READ
    assert not at.is_shown(round_2)
    now += 0.1
    assert at.is_shown(round_2)
    assert not at.is_shown(Progress(3, (), False, 7))
