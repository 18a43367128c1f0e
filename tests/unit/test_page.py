"""Pages, of events that are read from the plain reading."""
import base64
import hashlib
import time
from dataclasses import replace

import pytest

pytest.importorskip("jinja2")

from markupsafe import Markup
from event_companions.beside.clock import Clock
from event_companions.beside.codes import Secret, shown_code
from event_companions.beside.look import Look
from event_companions.core.event import Event
from event_companions.core.plan import Plan
from event_companions.languages import say_in
from event_companions.sheets.colours import DARK, LIGHT, PRINTED
from event_companions.sheets.page import (
    Board,
    Foot,
    Playing,
    board_of,
    page_of,
    parts_of_board,
    playing_in,
    where_in,
)
from event_companions.sheets.parts import (
    DEFAULT_PARTS,
    ROOM_BESIDE_A_CODE,
    Reach,
    SlipsFor,
    letters_of_slip,
    stacks_of,
)
from second_reading.plain_event import Event as Played
from second_reading.plain_event import winner
from tests.support.from_model import FromModel
from tests.support.plain_page import Page
from tests.support.random_evenings import COMPLETE, ENDED, ENROLLING, OPEN, STARTED, evening


ENGLISH = say_in("en")


def board(event, clock=None):
    read = Event(FromModel(event))
    return Page(page_of(read, "Friday", len(event.stored), parts_of_board(read), Board(clock)))


def test_standings_that_are_asked_for_before_a_round_is_complete(dice):
    event = evening(dice, 9, STARTED, 3, 0)
    event.pair(1, bytes(32))
    (part,) = Page(page_of(Event(FromModel(event)), "Friday", 1, ("standings",), Board())).root.of(
        "section", "part"
    )
    assert len(part.of("tr")) - len(part.of("tr", "top")) - len(part.of("tr", "heads")) == 9


def test_the_clock_stands_on_the_board(dice, monkeypatch):
    monkeypatch.setenv("TZ", "UTC")
    time.tzset()
    event = evening(dice, 8, OPEN, 3, 0)
    # 20:45 of a day long ago
    until = 20 * 3600 + 45 * 60
    (clock,) = board(event, Clock(until, 50)).root.of("p", "clock")
    assert (clock.attributes["data-until"], clock.attributes["data-minutes"]) == (str(until), "50")
    assert (clock.one("span", "left"), clock.one("span", "hour")) == ("", "Time is over, since 20:45")
    # of a day to come
    (clock,) = board(event, Clock(until + 86400 * 100_000, 50)).root.of("p", "clock")
    assert clock.one("span", "hour") == "until 20:45"
    assert board(event).root.of("p", "clock") == []


def test_the_board_has_one_script_and_a_policy_that_names_it(dice):
    event = evening(dice, 8, OPEN, 3, 0)
    root = board(event).root
    (script,) = root.of("script")
    digest = base64.b64encode(hashlib.sha256(script.text().encode()).digest()).decode()
    (said,) = [it for it in root.of("meta") if it.attributes.get("http-equiv") == "Content-Security-Policy"]
    assert f"script-src 'sha256-{digest}';" in said.attributes["content"] and script.attributes == {}
    assert said.attributes["content"].startswith("default-src 'none'; ")
    sheets = Page(page_of(Event(FromModel(event)), "Friday", 1, ("tables", "names"))).root
    assert (
        sheets.of("script") == [] and [it for it in sheets.of("meta") if "http-equiv" in it.attributes] == []
    )


def test_sheets_and_board_are_in_the_language_of_the_room(dice):
    event = evening(dice, 24, OPEN, 3, 8)
    read, look = Event(FromModel(event)), Look(language="de")
    number, german = len(event.stored), say_in("de")
    kinds = ("tables", "names", "slips", "standings", "seats")
    root = Page(page_of(read, "Freitag", number, kinds, look=look)).root
    assert (
        root.of("html")[0].attributes["lang"] == "de"
        and root.of("title")[0].text() == f"Freitag, Runde {number}"
    )
    what = [it.text() for it in root.of("span", "what")]
    assert what[:2] == [f"Runde {number}, nach Tischen", f"Runde {number}, nach Namen"]
    assert {"Tisch", "Gegner", "Platz", "S-N-U", "Nr"} <= {it.text() for it in root.of("th")}
    assert {it.text() for it in root.of("span", "signature")} <= {"Unterschrift"}
    words = {it.text().split()[0] for it in root.of("span", "round")}
    assert words <= {"Runde"} and all(it.text().startswith("gedruckt ") for it in root.of("span", "made"))
    board = page_of(
        read, "Freitag", number, parts_of_board(read), board_of(read, number, None, None, german), look=look
    )
    root = Page(board).root
    assert root.one("p", "playing").startswith(("Fertige Tische: ", "Alle Ergebnisse sind da."))
    assert "Paarungen nach Nachnamen" in [it.text() for it in root.of("p", "label")]
    ended = Event(FromModel(evening(dice, 24, ENDED, 3, 8)))
    root = Page(page_of(ended, "Freitag", 3, ("bracket", "final", "champion"), look=look)).root
    assert [it.text() for it in root.of("text", "stage")] == [
        "Viertelfinale",
        "Halbfinale",
        "Finale",
        "Sieger",
    ]
    assert root.one("p", "how").startswith("gewann das Finale ")
    board = page_of(ended, "Freitag", 3, ("champion",), Board(), look=look)
    assert Page(board).root.one("p", "honour") == "Sieger"


def test_the_look_of_an_event(dice):
    """Subtitle and logo stand in the band, and beneath the heading of each sheet. A dark board is dark always."""
    event = evening(dice, 9, COMPLETE, 3, 0)
    read, look = Event(FromModel(event)), Look("<Owls> & more", "#b33a00", "data:image/png;base64,AAAA", True)
    board_text = page_of(read, "Friday", 1, parts_of_board(read), Board(), look=look)
    root = Page(board_text).root
    assert root.one("p", "subtitle") == "<Owls> & more" and len(root.of("img", "logo")) == 1
    assert board_text.count("base64,AAAA") == 1 and f"--paper: {DARK['paper']}" in board_text
    assert "prefers-color-scheme" not in board_text and "--accent: #b33a00" in board_text
    sheets_text = page_of(read, "Friday", 1, ("tables", "names"), look=look)
    root = Page(sheets_text).root
    assert [it.text() for it in root.of("span", "subtitle")] == ["<Owls> & more"] * 2
    assert [len(it.text()) for it in root.of("span", "made")] == [len("printed 2026-11-30 20:45")] * 2
    assert sheets_text.count("base64,AAAA") == 1 and f"--paper: {PRINTED['paper']}" in sheets_text
    # by itself a board is light, and dark if the device is
    plain = page_of(read, "Friday", 1, parts_of_board(read), Board())
    assert f"--paper: {LIGHT['paper']}" in plain and "prefers-color-scheme: dark" in plain


@pytest.mark.parametrize("count, is_so", [(28, False), (29, True), (45, True), (46, False)])
def test_rows_stand_close_where_they_fit_one_page_so(count, is_so):
    event = Played(3, 0)
    for number in range(count):
        event.enrol(f"P{number}")
    (part,) = Page(page_of(Event(FromModel(event)), "Friday", 0, ("players",))).root.of("section", "part")
    assert ("close" in part.kinds()) == is_so


def test_the_band_says_which_round_is_shown(dice):
    played = Event(FromModel(evening(dice, 11, ENDED, 3, 4)))
    played.plan = Plan("Friday", 3, 4)
    assert [where_in(played, number, ENGLISH) for number in (1, 2, 3)] == [
        "Round 1 of 3",
        "Round 2 of 3",
        "Playoff",
    ]
    before = Event(FromModel(evening(dice, 11, ENROLLING, 3, 4)))
    assert where_in(before, 0, ENGLISH) == ""
    # the plan can't be read
    assert where_in(Event(FromModel(evening(dice, 11, OPEN, 1, 0))), 1, ENGLISH) == "Round 1"


def test_a_board_stays_on_the_names_while_nobody_has_finished(dice):
    event = evening(dice, 9, STARTED, 3, 0)
    event.pair(1, bytes(32))
    for score, is_said in ((None, True), ((2, 0, 0), False)):
        if score:
            event.report(1, 3, score, True)
        read = Event(FromModel(event))
        text = page_of(read, "Friday", 1, parts_of_board(read), board_of(read, 1, None, None, ENGLISH))
        (body,) = Page(text).root.of("body")
        assert ("data-nobody-finished" in body.attributes) == is_said


def test_no_name_gets_into_the_page_as_markup(dice):
    event = evening(dice, 24, ENDED, 3, 8, True)
    page = Page(
        page_of(Event(FromModel(event)), "<b>&\"'", 1, ("tables", "names", "slips", "standings", "bracket"))
    )
    assert page.faults == []
    assert {it.tag for it in page.root.nodes()} & {"b", "script", "img"} == set()
    assert page.root.of("title")[0].text() == "<b>&\"', round 1"


@pytest.mark.parametrize("count", [1, 4, 5, 6, 7, 11, 23, 256])
def test_a_stack_that_is_cut_lies_in_order(count):
    stacks = stacks_of(list(range(1, count + 1)))
    assert len(stacks) == -(-count // 5) and all(1 <= len(sheet) <= 5 for sheet in stacks)
    piles = [[sheet[place] for sheet in stacks if place < len(sheet)] for place in range(5)]
    assert [number for pile in piles for number in pile] == list(range(1, count + 1))


def test_a_name_on_a_slip_is_small_enough_for_two_lines():
    assert letters_of_slip("Ana Lima") == 11.5
    sizes = [letters_of_slip("W" * count) for count in range(1, 61)]
    assert sizes == sorted(sizes, reverse=True) and 4 <= sizes[-1] < 11.5


def test_the_board_says_how_many_tables_have_finished(dice):
    for way in (ENROLLING, STARTED, OPEN, COMPLETE, ENDED):
        event = evening(dice, 11, way, 3, 4)
        newest = event.stored[-1] if event.stored and way != ENDED else []
        tables = [(place, score) for place, (_, second, score) in enumerate(newest, 1) if second]
        still = tuple(place for place, score in tables if score is None)
        due = Playing(len(tables) - len(still), still) if newest else None
        assert playing_in(Event(FromModel(event))) == due
    many = tuple(range(1, 32))
    texts = [
        Playing(*it).shown(ENGLISH)
        for it in ((0, (1, 2, 3)), (1, (2,)), (8, (2, 4, 5, 6, 9)), (3, ()), (9, many))
    ]
    assert texts == [
        "Tables finished: 0 of 3. Still playing: 1-3",
        "Tables finished: 1 of 2. Still playing: 2",
        "Tables finished: 8 of 13. Still playing: 2, 4-6, 9",
        "All scores are in.",
        "Tables finished: 9 of 40.",
    ]


def test_the_foot_of_a_board(dice):
    event = evening(dice, 9, STARTED, 3, 0)
    event.pair(1, bytes(32))
    event.report(1, 3, (2, 0, 0), True)
    read, secret = Event(FromModel(event)), Secret("http://192.168.1.10:8080", bytes(32))
    text = page_of(read, "Friday", 1, parts_of_board(read), board_of(read, 1, None, secret, ENGLISH))
    root = Page(text).root
    assert root.one("p", "playing") == "Tables finished: 1 of 4. Still playing: 1, 2, 4"
    (bar,) = root.of("svg", "bar")
    assert [it.attributes["width"] for it in bar.of("rect")] == ["4", "1"]
    for square, how in ((Markup("<svg></svg>"), "scan, or at 192.168.1.10:8080"), ("", "192.168.1.10:8080")):
        board = Board(foot=Foot(Reach(secret.shown_address, square)))
        address = Page(page_of(read, "Friday", 1, (), board)).root.one("p", "address")
        assert address == f"Your table and your score on your phone: {how}"
    # nothing stands there without a round and without phones
    before = Event(FromModel(evening(dice, 8, ENROLLING, 3, 0)))
    assert (
        Page(page_of(before, "Friday", 0, parts_of_board(before), Board(foot=Foot()))).root.of("footer") == []
    )


def test_a_board_says_beneath_its_parts_how_the_round_was_drawn(dice, tmp_path):
    """Once, and not above the names, where nobody looks for it. On paper it stands above each list."""
    event = evening(dice, 9, STARTED, 3, 0)
    event.pair(1, bytes(32))
    chosen, read = "The scorekeeper could steer who meets whom: no public draw", Event(
        FromModel(event), f"{tmp_path}/e.event"
    )
    text = page_of(read, "Friday", 1, ("names", "tables"), board_of(read, 1, None, None, ENGLISH))
    (foot,) = Page(text).root.of("footer")
    assert foot.one("p", "drawn") == chosen and text.count(chosen) == 1
    assert page_of(read, "Friday", 1, ("names", "tables")).count(chosen) == 2
    # an older round has nothing else there
    older = replace(board_of(read, 1, None, None, ENGLISH), foot=Foot(drawn=chosen))
    assert (
        Page(page_of(read, "Friday", 1, ("names",), older)).root.of("footer")[0].text().split()
        == chosen.split()
    )


def test_who_has_won_stands_out_by_table(dice):
    event = evening(dice, 11, OPEN, 3, 0)
    number = len(event.stored)
    due = {event.names[winner(it) - 1] for it in event.stored[-1] if it[1] and it[2] and it[2][0] != it[2][1]}
    for board in (Board(), None):
        root = Page(page_of(Event(FromModel(event)), "Friday", number, ("tables",), board)).root
        assert {it.of("bdi")[0].text() for it in root.of("td", "has-won")} == due


def test_each_column_of_a_board_has_the_headings(dice):
    event = evening(dice, 37, STARTED, 3, 0)
    event.pair(1, bytes(32))
    read = Event(FromModel(event))
    for board, least in ((Board(), 2), (None, 1)):
        text = page_of(read, "Friday", 1, ("names",), board)
        heads = [[it.text() for it in row.of("th") if it.text()] for row in Page(text).root.of("tr", "heads")]
        assert heads == [["Player", "No", "Table", "Opponent"]] * len(heads) and len(heads) >= least
        assert board is None or f"--columns:{len(heads)}" in text


def test_lists_by_name_say_where_phones_are_served(dice):
    event = evening(dice, 9, STARTED, 3, 0)
    event.pair(1, bytes(32))
    read, secret = Event(FromModel(event)), Secret("http://192.168.1.10:8080", bytes(32))
    for kinds, is_said in ((("names",), True), (("seats",), True), (("tables",), False)):
        text = page_of(read, "Friday", 1, kinds, None, SlipsFor(None, secret))
        how = "scan, or at 192.168.1.10:8080" if "<svg" in text else "192.168.1.10:8080"
        assert (f"on your phone:</span> {how}" in text) == is_said
        assert "on your phone" not in page_of(read, "Friday", 1, kinds)


def slips_with(event, secret, tables=None):
    text = page_of(
        Event(FromModel(event)), "Friday", len(event.stored), ("slips",), None, SlipsFor(tables, secret)
    )
    page = Page(text)
    assert page.faults == []
    return page


@pytest.mark.parametrize("asks_both", [False, True])
def test_each_slip_has_its_code(dice, asks_both):
    event = evening(dice, 9, STARTED, 3, 0)
    event.pair(1, bytes(32))
    secret = Secret("http://192.168.1.10:8080", bytes(32), asks_both)
    matches = [match for match in Event(FromModel(event)).newest() if not match.is_bye]
    due = [shown_code(secret.code(1, match, seat)) for match in matches for seat in secret.seats]
    root = slips_with(event, secret).root
    assert sorted(node.text() for node in root.of("span", "code")) == sorted(due)
    assert len(slips_with(event, None).root.of("aside")) == 0
    assert [node.text() for node in slips_with(event, secret, frozenset({2})).root.of("span", "code")] == [
        shown_code(secret.code(1, matches[1], seat)) for seat in secret.seats
    ]
    if asks_both:
        seats = [node.text() for node in slips_with(event, secret, frozenset({2})).root.of("span", "at")]
        assert [text for text in seats if text.startswith("for No")] == [
            f"for No {matches[1].first}",
            f"for No {matches[1].second}",
        ]


def test_each_player_has_a_strip(dice):
    """By name, with what is typed; of the name that the program has, whatever is shown."""
    event = evening(dice, 9, OPEN, 3, 0, True)
    secret = Secret("http://192.168.1.10:8080", bytes(32))
    read = Event(FromModel(event))
    read.players = {number: replace(it, name=f"Shown {number}") for number, it in read.enrolled.items()}
    page = Page(page_of(read, "Friday", 1, ("links",), None, SlipsFor(None, secret)))
    assert page.faults == []
    strips = page.root.of("article", "strip")
    found = {node.one("span", "no"): (node.one("span", "name"), node.one("span", "code")) for node in strips}
    assert found == {
        f"No {number}": (f"Shown {number}", shown_code(secret.link_code(it)))
        for number, it in read.enrolled.items()
    }
    assert all(f"192.168.1.10:8080/p/{number}/" in page.root.text() for number in read.enrolled)
    # none without an address, and none on a page that is made without naming them
    assert page_of(read, "Friday", 1, ("links",), None, SlipsFor()).count("<article") == 0
    assert "links" not in DEFAULT_PARTS and "links" not in parts_of_board(read)


def test_a_round_before_has_no_codes(dice):
    event = evening(dice, 8, COMPLETE, 1, 0)
    event.rounds, event.stored[0][0][2] = 3, None
    read = Event(FromModel(event))
    read.rounds.append([])
    secret = Secret("http://192.168.1.10:8080", bytes(32))
    text = page_of(read, "Friday", 1, ("slips",), None, SlipsFor(None, secret))
    assert text.count("<article") == 1 and "<aside" not in text


def test_a_name_beside_a_code_has_less_room():
    assert letters_of_slip("W" * 30, ROOM_BESIDE_A_CODE) < letters_of_slip("W" * 30)
