"""The window: what is pasted, what a question is, who may ask. No program is called."""
import io
import threading

import pytest

pytest.importorskip("jinja2")
pytest.importorskip("waitress")

from event_companions.core.event import Progress
from event_companions.window.clicks import Clicks, Entry, Question, parted, yes_or_no
from event_companions.window.site import Window, list_of, policy, text_of
from event_companions.window.views import View


def clicks():
    return Clicks(threading.Condition(threading.RLock()))


@pytest.mark.parametrize(
    "pasted, due",
    [
        ("Ana Lima\nBo\n", "Name\nAna Lima\nBo\n"),
        ("1. Ana Lima\n2) Bo\n- Cy\n", "Name\nAna Lima\nBo\nCy\n"),
        ("Ana Lima, Bo; Cy", "Name\nAna Lima\nBo\nCy\n"),
        ("first name\tlast name\nAna\tLima", "first name\tlast name\nAna\tLima\n"),
        ("Name;Club\nAna;Owls", "Name;Club\nAna;Owls\n"),
        ("\n \nAna  Lima\n", "Name\nAna Lima\n"),
        ("12 Monkeys", "Name\n12 Monkeys\n"),
        ("", ""),
    ],
)
def test_what_is_pasted_becomes_a_list(pasted, due):
    assert list_of(pasted) == due


def answered(lines, ask, answers, within_seconds):
    """What a question came to that another thread answers."""
    found = []
    thread = threading.Thread(target=lambda: found.append(ask()))
    thread.start()
    for answer in answers:
        assert within_seconds(lambda: lines.question is not None)
        lines.give(lines.question.number, answer)
    thread.join(60)
    return found[0]


def test_a_question_waits_for_its_answer(within_seconds):
    lines = clicks()
    lines.entry = Entry(1, "cut", said=["The playoff would begin so:\n"])
    assert answered(lines, lambda: lines.says_yes("Begin it?"), ["maybe", "y"], within_seconds)
    assert lines.entry.text.endswith("Begin it? (y or n) y\n")
    assert lines.question is None


def test_an_answer_is_for_the_question_that_stands():
    lines = clicks()
    assert not lines.give(1, "y")
    lines.question = Question(2, "cut", "Begin it?", "", yes_or_no)
    assert not lines.give(1, "y")
    assert not lines.give(2, "perhaps")
    assert lines.give(2, "n")
    assert not lines.give(2, "y")


def test_what_is_said_in_short():
    said = ["Round 1, table 3: A 2-1-0 B\n", "ok 33: round 1, 14 tables open\n"]
    assert Entry(1, "3 2 1", said=said).short == "Round 1, table 3: A 2-1-0 B round 1, 14 tables open"
    refused = Entry(
        1, "fix 1 3 2 1", said=["Round 1\n", "Replace it? (y or n) n\n", "Nothing was replaced.\n"]
    )
    refused.has_failed = True
    assert refused.short == "Nothing was replaced."


@pytest.mark.parametrize(
    "line, back",
    [
        ("17 2 1", "take back 17"),
        ("17 id", ""),
        ("17 21", "take back 17"),
        ("play sf1 2 0", "take back sf1"),
        ("play final 2 0", "take back final"),
        ("fix 17 2 1", ""),
        ("pair 50", ""),
    ],
)
def test_what_takes_a_score_back(line, back):
    assert Entry(1, line, is_done=True).back == back
    assert Entry(1, line, is_done=True, has_failed=True).back == ""


def test_names_of_a_list_stand_in_columns():
    said = "n.csv: UTF-8\nIt would enrol:\n  Ana\n  Bo\nLeft out:\n  row 7: Bo\n         as: Bo (2)\n"
    parts = parted(Question(1, "import n.csv", "Enrol 2 players?", said, yes_or_no))
    assert [part.is_list for part in parts] == [False, True, False, True]
    assert parts[1].lines == ("  Ana", "  Bo")
    assert parts[3].lines == ("  row 7: Bo as: Bo (2)",)


# ---- who may ask


class Worker:
    """No event is there."""

    def __init__(self):
        self.sent, self.view, self.log, self.version, self.file = [], View("x.event"), [], 3, "x.event"
        self.changed, self.clicks = threading.RLock(), clicks()

    def send(self, line, version):
        self.sent.append((line, version))
        return Entry(1, line, Progress(), is_done=True)


class Browser:
    def __init__(self):
        self.worker = Worker()
        self.window = Window(self.worker, 8123)
        self.cookie = f"{self.window.name}={self.window.key}"

    def ask(self, method="GET", path="/log", form="", **others):
        told = []
        environ = {
            "REQUEST_METHOD": method,
            "PATH_INFO": path,
            "HTTP_HOST": "127.0.0.1:8123",
            "HTTP_ORIGIN": "http://127.0.0.1:8123",
            "HTTP_COOKIE": self.cookie,
            "CONTENT_TYPE": "application/x-www-form-urlencoded",
            "CONTENT_LENGTH": str(len(form)),
            "wsgi.input": io.BytesIO(form.encode()),
            **others,
        }
        body = self.window(environ, lambda status, headers: told.append((int(status[:3]), dict(headers))))
        return (*told[0], b"".join(body))


def test_the_address_is_of_use_once_and_gives_a_strict_cookie():
    browser = Browser()
    path = f"/in/{browser.window.ticket}"
    status, headers, _ = browser.ask(path=path, HTTP_COOKIE="")
    assert status == 200
    assert "HttpOnly; SameSite=Strict" in headers["Set-Cookie"]
    assert browser.ask(path=path, HTTP_COOKIE="")[0] == 403


@pytest.mark.parametrize(
    "others, status",
    [
        ({}, 200),
        ({"HTTP_COOKIE": ""}, 403),
        ({"HTTP_COOKIE": "event_desk_8123=a"}, 403),
        ({"HTTP_HOST": "evil.example"}, 421),
        ({"HTTP_HOST": "localhost:8123"}, 421),
        ({"HTTP_SEC_FETCH_SITE": "cross-site"}, 403),
        ({"HTTP_SEC_FETCH_SITE": "same-site"}, 403),
    ],
)
def test_who_may_look(others, status):
    assert Browser().ask(**others)[0] == status


@pytest.mark.parametrize(
    "others, status",
    [
        ({}, 303),
        ({"HTTP_ORIGIN": "http://127.0.0.1:9999"}, 403),
        ({"HTTP_ORIGIN": "null"}, 403),
        ({"HTTP_ORIGIN": ""}, 403),
        ({"CONTENT_TYPE": "text/plain"}, 400),
    ],
)
def test_who_may_send_a_line(others, status):
    browser = Browser()
    form = f"k={browser.window.form_key}&v=3&line=17+2+1%0Astart"
    assert browser.ask("POST", "/say", form, **others)[0] == status
    assert browser.worker.sent == ([("17 2 1 start", 3)] if status == 303 else [])


def test_a_form_has_its_key():
    browser = Browser()
    assert browser.ask("POST", "/say", "k=x&line=start")[0] == 403
    assert browser.worker.sent == []


@pytest.mark.parametrize(
    "form, lines",
    [
        ("line=pair&minutes=50", ["pair 50"]),
        ("line=pair&minutes=", ["pair"]),
        ("line=pair&numbers=17+3+8+11&minutes=50", ["pair 17 3 8 11 50min"]),
        ("event=Friday+Night&rounds=5&cut=8", ["init Friday Night 5 8"]),
        ("line=plan&rounds=4&cut=0", ["plan 4 0"]),
        ("name=Ana++Lima", ["enrol Ana Lima"]),
        ("line=rename+4&to=Ana+Lima", ["rename 4 Ana Lima"]),
    ],
)
def test_clicks_are_lines(form, lines):
    browser = Browser()
    assert browser.ask("POST", "/say", f"k={browser.window.form_key}&v=3&{form}")[0] == 303
    assert [line for line, _ in browser.worker.sent] == lines


def test_the_page_takes_its_own_script_alone():
    browser = Browser()
    _, headers, body = browser.ask()
    assert headers["Content-Security-Policy"] == policy()
    assert "unsafe" not in policy()
    assert f"<script>{text_of('window.js')}</script>".encode() in body
    assert b" style=" not in body and b" onclick" not in body
