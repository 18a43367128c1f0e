"""The word `print`, over an event from the plain reading."""
import os
import stat
import sys

import pytest

pytest.importorskip("jinja2")

from event_companions.beside.codes import Secret, keep_secret
from event_companions.beside.title import keep_title
from event_companions.core.event import Event
from event_companions.core.program import Declined, Refused, Stamp
from event_companions.prompt.printing import Printing, wanted_by
from event_companions.sheets.files import NEXT_OF_SHEETS
from tests.support.from_model import FromModel
from tests.support.plain_page import Page, final_rows, parts_due, shown_rows, shown_slips, slips_due
from tests.support.random_evenings import COMPLETE, ENDED, ENROLLING, IN_PLAYOFF, OPEN, STARTED, evening


class Asked(FromModel):
    """Over a file that nobody else uses."""

    def stamp(self):
        return Stamp(1, 2, 3, 4)


class Session:
    def __init__(self, folder, event):
        self.file, self.source, self.said = f"{folder}/friday.event", Asked(event), []
        self.event = Event(self.source, self.file)
        keep_title(self.file, "Friday <Night>")

    def say(self, *lines):
        self.said += lines


@pytest.fixture(autouse=True)
def no_desktop(monkeypatch):
    for name in ("DISPLAY", "WAYLAND_DISPLAY"):
        monkeypatch.delenv(name, raising=False)


def printed(folder, event, rest):
    session = Session(folder, event)
    Printing(session).print(rest)
    assert session.said == [f"Written: {session.file}.sheets.html", NEXT_OF_SHEETS]
    with open(f"{session.file}.sheets.html", encoding="utf-8") as page:
        found = Page(page.read())
    assert found.faults == []
    return found


@pytest.mark.parametrize("way", [ENROLLING, OPEN, COMPLETE, IN_PLAYOFF, ENDED])
def test_without_a_word_it_is_all_that_there_is(tmp_path, dice, way):
    event = evening(dice, 11, way, 3, 4)
    page = printed(tmp_path, event, "")
    assert list(page.parts()) == parts_due(event, len(event.stored))
    assert page.root.of("title")[0].text().startswith("Friday <Night>")


@pytest.mark.parametrize(
    "rest, parts",
    [
        ("slips", ["slips"]),
        ("Slips", ["slips"]),
        ("slip", ["slips"]),
        ("names, standings", ["names", "standings"]),
        ("standings names", ["standings", "names"]),
        ("pairings", ["tables", "names"]),
        ("seats", ["seats"]),
        ("all", ["tables", "names", "slips"]),
    ],
)
def test_parts_that_are_named(tmp_path, dice, rest, parts):
    event = evening(dice, 11, STARTED, 3, 0)
    event.pair(1, bytes(32))
    assert list(printed(tmp_path, event, rest).parts()) == parts


def test_slips_of_some_tables(tmp_path, dice):
    event = evening(dice, 11, STARTED, 3, 0)
    event.pair(1, bytes(32))
    found = shown_slips(printed(tmp_path, event, "slips 4, 2").parts()["slips"])
    assert found == [it for it in slips_due(event, 1, "Friday <Night>") if it[2] in ("Table 2", "Table 4")]


def test_strips_of_some_players(tmp_path, dice):
    event = evening(dice, 11, ENROLLING, 3, 0)
    keep_secret(f"{tmp_path}/friday.event", Secret("http://192.168.1.10:8080", bytes(32)))
    for rest, due in (("links", set(range(1, 12))), ("links 4 11", {4, 11})):
        part = printed(tmp_path, event, rest).parts()["links"]
        assert {int(node.text()[len("No ") :]) for node in part.of("span", "no")} == due


def test_the_final_ranking(tmp_path, dice):
    event = evening(dice, 13, ENDED, 3, 4, True)
    part = printed(tmp_path, event, "final").parts()["final"]
    assert shown_rows(part) == final_rows(event)


@pytest.mark.parametrize(
    "way, rest, said",
    [
        (ENROLLING, "tables", "No round is paired yet"),
        (ENROLLING, "names", "print players"),
        (ENROLLING, "standings", "no standings"),
        (COMPLETE, "slips", "No table is open"),
        (COMPLETE, "bracket", "Next: cut"),
        (COMPLETE, "final", "There is no champion yet. Until then: print standings"),
        (COMPLETE, "players", "print names"),
        (
            OPEN,
            "badges",
            "There is no badges to print. As: print slips. There are\n"
            "players, draw, tables, names, slips, standings, bracket, final, seats, links, champion.",
        ),
        (OPEN, "tables 4", "as: print slips 4 17"),
        (OPEN, "4", "as: print slips 4 17"),
        (OPEN, "names 4", "as: print slips 4 17"),
        (OPEN, "links", "A player's own page needs the phones' address."),
        (OPEN, "slips 9999", "There is no 9999"),
    ],
)
def test_what_is_declined_leaves_the_page_before(tmp_path, dice, way, rest, said):
    session = Session(tmp_path, evening(dice, 9, way, 3, 4))
    page = f"{session.file}.sheets.html"
    with open(page, "w") as written:
        written.write("the one before")
    with pytest.raises(Declined) as fault:
        Printing(session).print(rest)
    assert said in str(fault.value)
    with open(page) as read:
        assert read.read() == "the one before"
    assert session.said == []


def test_what_is_wrong_in_the_look_is_said(tmp_path, dice):
    session = Session(tmp_path, evening(dice, 9, OPEN, 3, 4))
    with open(f"{session.file}.look", "w") as look:
        look.write("accent = red\n")
    Printing(session).print("standings")
    assert session.said[2:] == [f'{session.file}.look, line 1: It is no colour, as: accent = "#b33a00"']


def test_where_it_can_not_be_written(tmp_path, dice):
    session = Session(tmp_path, evening(dice, 9, OPEN, 3, 4))
    os.mkdir(f"{session.file}.sheets.html")
    with pytest.raises(Declined, match="sheets.html was not written: Is a directory.$"):
        Printing(session).print("")


def test_a_refusal_is_the_prompt_s_to_explain(tmp_path, dice):
    session = Session(tmp_path, evening(dice, 9, OPEN, 3, 4))

    def refuse():
        raise Refused(27, "NoEvent")

    session.source.players = refuse
    with pytest.raises(Refused):
        Printing(session).print("")


def test_without_jinja_it_says_what_to_install(tmp_path, dice, monkeypatch):
    session = Session(tmp_path, evening(dice, 9, OPEN, 3, 4))
    for module in ("event_companions.sheets.page", "event_companions.core.templates"):
        monkeypatch.delitem(sys.modules, module, raising=False)
    monkeypatch.setitem(sys.modules, "jinja2", None)
    with pytest.raises(Declined, match="\nsudo apt-get install python3-jinja2$"):
        Printing(session).print("slips")
    assert session.said == []


@pytest.fixture
def desktop(tmp_path, monkeypatch):
    """An xdg-open that writes down what it is called with, after a while, and goes on."""
    os.mkdir(f"{tmp_path}/bin")
    opener = f"{tmp_path}/bin/xdg-open"
    with open(opener, "w") as script:
        script.write(f'#!/bin/sh\ncd {tmp_path}\necho "$1" > opened.part\nmv opened.part opened\n')
        script.write("echo noise; echo noise >&2; exec sleep 5\n")
    os.chmod(opener, stat.S_IRWXU)
    monkeypatch.setenv("PATH", f"{tmp_path}/bin:{os.environ['PATH']}")


@pytest.mark.parametrize("screen", ["DISPLAY", "WAYLAND_DISPLAY"])
def test_it_is_opened_where_there_is_a_desktop(
    tmp_path, dice, monkeypatch, desktop, capfd, screen, within_seconds
):
    monkeypatch.setenv(screen, ":0")
    session = Session(tmp_path, evening(dice, 9, OPEN, 3, 4))
    Printing(session).print("standings")
    assert session.said[0] == f"Written: {session.file}.sheets.html"
    assert session.said[1].startswith("It opens in the browser.")
    assert within_seconds(lambda: os.path.exists(f"{tmp_path}/opened"))
    with open(f"{tmp_path}/opened") as opened:
        assert opened.read() == f"{session.file}.sheets.html\n"
    assert capfd.readouterr() == ("", "")


def test_without_a_screen_nothing_is_opened(tmp_path, dice, desktop):
    session = Session(tmp_path, evening(dice, 9, OPEN, 3, 4))
    Printing(session).print("standings")
    assert session.said[1] == NEXT_OF_SHEETS
    assert not os.path.exists(f"{tmp_path}/opened")


def test_without_an_opener_it_says_what_to_do(tmp_path, dice, monkeypatch):
    monkeypatch.setenv("DISPLAY", ":0")
    monkeypatch.setenv("PATH", f"{tmp_path}")
    session = Session(tmp_path, evening(dice, 9, OPEN, 3, 4))
    Printing(session).print("standings")
    assert session.said[1] == NEXT_OF_SHEETS


def test_what_a_line_asks_for():
    assert wanted_by("e", "").parts is None
    assert wanted_by("e", "slips 4 17").tables == frozenset({4, 17})
