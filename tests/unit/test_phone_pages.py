"""The pages of the phones and of the scorekeeper, asked as functions, of events from the plain reading."""
import gzip
import io
import re
import threading
import time
from dataclasses import replace
from email.utils import parsedate_to_datetime
from urllib.parse import quote

import pytest

pytest.importorskip("jinja2")

from event_companions.beside.clock import Clock, keep_clock
from event_companions.beside.codes import Secret, keep_secret, shown_code
from event_companions.beside.notes import Notes
from event_companions.beside.reports import OTHER, STORED, WRONG, Reports, judge_call
from event_companions.core.event import Event
from event_companions.core.handing_in import Answer
from event_companions.core.plan import Plan
from event_companions.core.score import Score
from event_companions.languages import LANGUAGES
from event_companions.phones import site as module
from event_companions.phones.asked import hosts_of
from event_companions.phones.at_table import drops_in
from event_companions.phones.cache import EventCache
from event_companions.phones.desk_page import Desk
from event_companions.phones.pages import style
from event_companions.phones.score_queue import NotNow
from event_companions.phones.site import Site, outcome_of
from event_companions.sheets.making import Wanted, page_maker
from second_reading.plain_event import Event as Played
from tests.support import plain_page
from tests.support.contrasts import contrast
from tests.support.from_model import FromModel
from tests.support.random_evenings import (
    COMPLETE,
    ENDED,
    ENROLLING,
    HOSTILE,
    IN_PLAYOFF,
    OPEN,
    STARTED,
    evening,
)

AT, HOST = "http://192.168.1.10:8080", "192.168.1.10:8080"
LIFETIMES = {"meta", "link", "input", "br"}


class Page(plain_page.Page):
    def handle_starttag(self, tag, attributes):
        if tag in LIFETIMES:
            self.handle_startendtag(tag, attributes)
        else:
            super().handle_starttag(tag, attributes)


class Told:
    """A queue that has the program's answers ready."""

    def __init__(self):
        self.asked, self.answers = [], {}

    def report(self, number, table, games, seats, phone):
        self.asked.append((number, table, games))
        answer = self.answers.get(table, Answer(serial=1))
        if answer is NotNow:
            raise NotNow
        return answer


ENGLISH, GERMAN = LANGUAGES["en"], LANGUAGES["de"]


class Room:
    """An event with its pages."""

    def __init__(self, folder, event, asks_both=False):
        self.file, self.event = f"{folder}/e.event", event
        self.cache = EventCache("none", self.file, "Friday")
        self.cache.keep(*self.cache.read_all(Event(FromModel(event), self.file)))
        self.reports, self.queue = Reports(self.file), Told()
        self.secret = Secret(AT, bytes(32), asks_both)
        self.site = Site(self.cache, self.reports, self.secret, hosts_of(AT, 8080), self.queue)
        self.desk = Desk(self.cache, self.reports, self.site, {"127.0.0.1:8081"})

    def ask(self, method, target, body="", pages=None, **fields):
        path, _, query = target.partition("?")
        environ = {
            "REQUEST_METHOD": method,
            "PATH_INFO": path,
            "QUERY_STRING": query,
            "HTTP_HOST": HOST,
            "REMOTE_ADDR": "192.168.1.77",
            "wsgi.input": io.BytesIO(body.encode()),
        }
        if method == "POST":
            environ["CONTENT_TYPE"] = "application/x-www-form-urlencoded"
            environ["CONTENT_LENGTH"] = str(len(body.encode()))
        came = []
        text = b"".join((pages or self.site)({**environ, **fields}, lambda *head: came.append(head)))
        status, headers = came[0]
        return Reply(int(status.split()[0]), dict(headers), text.decode())

    def desk_page(self):
        return self.ask("GET", "/", pages=self.desk, HTTP_HOST="127.0.0.1:8081")

    def target(self, table, seat=0, number=None):
        number = number or self.cache.now.number
        return self.secret.target(number, self.cache.now.match(number, table), seat)

    def link(self, number):
        return self.secret.link(self.cache.now.event.enrolled[number])

    def place(self, number):
        """Where a player's own page hands in."""
        match = self.cache.now.matches[number]
        return f"{self.link(number)}/{self.cache.now.number}-{match.place}-{match.first}-{match.second}"

    def hand_in(self, table, score, seat=0, more="", **fields):
        return self.ask("POST", self.target(table, seat), f"s={score}{more}", **fields)


class Reply:
    def __init__(self, status, headers, text):
        self.status, self.headers, self.text = status, headers, text

    @property
    def location(self):
        return self.headers.get("Location")

    def page(self):
        return Page(self.text)


@pytest.fixture
def room(tmp_path, dice):
    event = evening(dice, 8, STARTED, 3, 0)
    event.pair(1, bytes(32))
    return Room(tmp_path, event)


def check_page(reply, names=(), is_own=False):
    """Whole, without a script, with each name as a text, and with a label at each field."""
    page = reply.page()
    nodes = list(page.root.nodes())
    assert page.faults == []
    assert {node.tag for node in nodes} & {
        "script",
        "img",
        "iframe",
        "object",
        "embed",
        "base",
        "style",
    } == set()
    assert {
        name
        for node in nodes
        for name in node.attributes
        if name.startswith("on") or name in ("src", "style")
    } == set()
    assert [node.attributes["href"] for node in page.root.of("link")] == ["/style.css"]
    leads_to = [node.attributes[by] for node in nodes for by in ("href", "action") if by in node.attributes]
    assert all(re.match("/(?!/)", target) for target in leads_to)
    shown = [node.text() for node in page.root.of("bdi")]
    assert [name for name in names if name not in shown] == []
    fields = [
        node for node in nodes if node.tag in ("input", "select") and node.attributes.get("type") != "hidden"
    ]
    labelled = {id(node) for label in page.root.of("label") for node in label.nodes()}
    assert all(id(node) in labelled for node in fields)
    assert all(node.text().strip() for node in page.root.of("button") + page.root.of("a"))
    # a button that has another name for those who don't see it says there what stands on it
    assert [
        node.attributes
        for node in page.root.of("button")
        if node.text() not in node.attributes.get("aria-label", node.text())
    ] == []
    check_headers(reply, is_own)
    return page


def check_headers(reply, is_own=False, is_board=False):
    """A player's own page may be kept, by that phone alone, and is asked for each time. The board alone has a
    script, which its policy names.
    """
    policy = reply.headers["Content-Security-Policy"]
    assert "default-src 'none'" in policy and "frame-ancestors 'none'" in policy
    assert re.findall("script-src '(.{7})", policy) == ["sha256-"] * is_board
    due = {
        "X-Frame-Options": "DENY",
        "X-Content-Type-Options": "nosniff",
        "Referrer-Policy": "same-origin",
        "Cache-Control": "private, no-cache" if is_own else "no-store",
    }
    assert {name: reply.headers.get(name) for name in due} == due
    assert not any("\n" in value or "\r" in value for value in reply.headers.values())


def scores_of(page):
    """What the buttons for scores say."""
    return [node.attributes["value"] for node in page.root.of("button") if node.attributes.get("name") == "s"]


def points_due(event):
    """Each name in the pairings, with the points with which the player goes into the round, once there are any."""
    for _, *row in plain_page.table_rows(event, len(event.stored)):
        cells = row[:-1]
        for number, _, *points in (cells[: len(cells) // 2], cells[len(cells) // 2 :]):
            if number:
                yield " ".join([event.names[int(number) - 1], *[f"{it} Pts" for it in points]])


# ---- what is shown


@pytest.mark.parametrize("way", [ENROLLING, STARTED, OPEN, COMPLETE, ENDED])
def test_pages_of_an_event_with_names_of_all_kinds(tmp_path, dice, way):
    event = evening(dice, 31, way, 3, 4, True)
    room = Room(tmp_path, event)
    for target in ("/", "/?q=a", "/?q=%3Cscript%3E", "/pairings", "/standings", "/none"):
        check_page(room.ask("GET", target))
    check_page(room.desk_page())
    check_headers(room.ask("GET", "/board"), is_board=True)
    rows = [
        [cell.text() for cell in row.of("td")] for row in room.ask("GET", "/standings").page().root.of("tr")
    ][1:]
    due = [
        [
            rank,
            " ".join([shown, *[record] * bool(record), *["dropped"] * bool(is_out)]),
            points,
            " ".join(shares),
        ]
        for rank, _, shown, is_out, record, points, *shares in plain_page.ranks_due(event)
    ]
    assert rows == due
    if event.stored and not event.stages:
        newest = room.cache.now.newest
        names = {name for match in newest for name in (match.first, match.second) if name}
        page = room.ask("GET", "/pairings").page()
        assert sorted(row.of("bdi")[0].text() for row in page.root.of("tr")[1:]) == sorted(
            event.names[number - 1] for number in names
        )
        shown = {cell.text() for row in page.root.of("tr")[1:] for cell in row.of("td")[1:]}
        assert shown - {""} == set(points_due(event))
        for match in [match for match in newest if not match.is_bye][:3]:
            check_page(
                room.ask("GET", room.target(match.place)),
                [event.names[match.first - 1], event.names[match.second - 1]],
            )


def test_somebody_is_found_by_a_part_of_the_name(tmp_path, dice):
    event = evening(dice, 23, OPEN, 1, 0, True)
    room = Room(tmp_path, event)
    for name in HOSTILE[:10]:
        page = check_page(room.ask("GET", f"/?q={re.sub('[^A-Za-z]', '', name)[:3]}"))
        assert page.root.of("form")
    page = check_page(room.ask("GET", "/?q=%22%3E%3Cb%3Ex"))
    assert page.root.of("b") == [] and page.root.of("input")[-1].attributes["value"] == '">' + "<b>x"


def test_somebody_is_found_by_what_a_phone_can_type(tmp_path):
    event = Played(3, 0)
    for name in ("Zoë Kim", "Paul Hoffmann", "Anna Smith", "Łukasz O’Brien", "Øystein Æsa", "Lea Ann"):
        event.enrol(name)
    event.start()
    event.pair(1, bytes(32))
    room = Room(tmp_path, event)

    def found(typed):
        page = check_page(room.ask("GET", f"/?q={quote(typed)}"))
        return [row.of("bdi")[0].text() for row in page.root.of("tr")]

    for typed in ("lukasz", "obrien", "O'Brien", "brien, luk"):
        assert found(typed) == ["Łukasz O’Brien"]
    assert found("smith  anna") == ["Anna Smith"]
    assert found("ann") == ["Anna Smith", "Lea Ann", "Paul Hoffmann"]
    page = room.ask("GET", "/pairings").page()
    assert [row.of("bdi")[0].text() for row in page.root.of("tr")[1:]] == [
        "Anna Smith",
        "Lea Ann",
        "Łukasz O’Brien",
        "Øystein Æsa",
        "Paul Hoffmann",
        "Zoë Kim",
    ]


def test_each_phone_is_answered_in_its_language(room):
    for language, table in (("de-CH,de;q=0.9", GERMAN), ("en", ENGLISH), ("fr", ENGLISH)):
        page = check_page(room.ask("GET", room.target(1), HTTP_ACCEPT_LANGUAGE=language))
        assert page.root.of("html")[0].attributes["lang"] == ("de" if table is GERMAN else "en")
        assert table["drawn_match"] in [node.text() for node in page.root.of("legend")]
        assert room.ask("GET", "/standings", HTTP_ACCEPT_LANGUAGE=language).text.count(table["rank"]) == 1


def test_the_language_of_the_room_is_that_of_the_board_and_of_other_phones(room):
    with open(f"{room.file}.look", "w") as look:
        look.write("language = de\n")
    room.cache.keep(*room.cache.read_all(Event(FromModel(room.event), room.file)))
    for language, due in (("fr", "de"), ("", "de"), ("en", "en")):
        page = check_page(room.ask("GET", "/", HTTP_ACCEPT_LANGUAGE=language))
        assert page.root.of("html")[0].attributes["lang"] == due
    board = room.ask("GET", "/board", HTTP_ACCEPT_LANGUAGE="en").page()
    assert board.root.one("p", "playing").startswith("Fertige Tische: 0 von 4.")


def test_the_clock_stands_on_each_page(room):
    assert room.ask("GET", "/").page().root.of("span", "clock") == []
    keep_clock(room.file, Clock(0, 50))
    for target in ("/", "/pairings", "/standings", room.target(1)):
        assert "Time is over" in room.ask("GET", target).page().root.one("span", "clock")
    before, board = time.time(), room.ask("GET", "/board")
    assert "Time is over" in board.page().root.one("p", "clock")
    # it goes by the time of the scorekeeper's machine, which stands in the head
    assert "data-sent" in board.page().root.of("body")[0].attributes
    assert before - 1 <= parsedate_to_datetime(board.headers["Last-Modified"]).timestamp() <= time.time()


def test_the_board_is_the_page_of_the_sheets(room):
    """But that it says to whom it is sent."""
    secret = Secret(AT, bytes(32))
    keep_secret(room.file, secret)
    keep_clock(room.file, Clock(0, 50))
    made = page_maker(Wanted(room.file, title="Friday", is_board=True))(
        Event(FromModel(room.event), room.file)
    )
    assert room.ask("GET", "/board").text.replace(" data-sent", "", 1) == made


def test_the_event_s_name_is_asked_once_for_each_picture(room, monkeypatch):
    asked = []
    plan = Plan("Friday <Night>", 3, 0)
    monkeypatch.setattr("event_companions.beside.title.plan_of", lambda *_: asked.append(1) or plan)
    room.cache.title = None
    room.cache.keep(*room.cache.read_all(Event(FromModel(room.event), room.file)))
    for target in ("/", "/pairings", "/standings", "/board", room.target(1)):
        assert "Friday &lt;Night&gt;" in room.ask("GET", target).text
    assert asked == [1]


def test_lists_are_made_once_for_each_picture(room, monkeypatch):
    seconds = [0.0]
    room.site.kept.now = lambda: seconds[0]
    first = room.ask("GET", "/pairings").text
    monkeypatch.setitem(room.site.lists, "/pairings", lambda *_: b"again")
    assert room.ask("GET", "/pairings").text == first
    room.cache.store(1, room.cache.now.match(1, 1), Score(2, 0))
    assert room.ask("GET", "/pairings").text == first
    seconds[0] = 5.0
    assert room.ask("GET", "/pairings").text == "again"


@pytest.mark.parametrize(
    "accepted, is_taken", [("gzip", True), ("br, gzip;q=0.5", True), ("gzip;q=0", False), ("", False)]
)
def test_lists_are_compressed_for_those_who_take_it(room, accepted, is_taken):
    plain = room.ask("GET", "/board").text
    came = []
    environ = {"REQUEST_METHOD": "GET", "PATH_INFO": "/board", "QUERY_STRING": "", "HTTP_HOST": HOST}
    body = b"".join(room.site({**environ, "HTTP_ACCEPT_ENCODING": accepted}, lambda *head: came.append(head)))
    headers = dict(came[0][1])
    assert (headers.get("Content-Encoding") == "gzip", headers["Content-Length"]) == (
        is_taken,
        str(len(body)),
    )
    assert (gzip.decompress(body) if is_taken else body).decode() == plain and headers[
        "Vary"
    ] == "Accept-Encoding"


def test_a_long_page_is_handed_to_the_server_as_a_file(room):
    """So that a hundred phones that open the board don't take its size a hundred times."""
    files = []
    environ = {"REQUEST_METHOD": "GET", "PATH_INFO": "/board", "QUERY_STRING": "", "HTTP_HOST": HOST}
    room.site({**environ, "wsgi.file_wrapper": files.append}, lambda *_: None)
    assert [file.getvalue().decode() for file in files] == [room.ask("GET", "/board").text]


def test_one_address_asks_for_the_board_now_and_then(room, monkeypatch):
    monkeypatch.setattr(time, "monotonic", lambda: 1000.0)
    assert [room.ask("GET", "/board").status for _ in range(25)] == [200] * 20 + [429] * 5
    assert room.ask("GET", "/pairings").status == 200
    assert room.ask("GET", "/board", REMOTE_ADDR="192.168.1.78").status == 200


def test_each_page_has_a_title_of_its_own(room):
    target = room.target(1)
    pages = [
        "/",
        "/pairings",
        "/standings",
        target,
        f"{target}?s=2-0-0",
        room.target(2),
        "/none",
        f"{target}?s=9",
    ]
    titles = [room.ask("GET", page).page().root.of("title")[0].text() for page in pages]
    room.hand_in(1, "2-0-0")
    titles.append(room.ask("GET", target).page().root.of("title")[0].text())
    assert len(set(titles)) == len(titles)


def test_letters_are_of_the_size_that_the_phone_is_set_to():
    assert "font: 112.5%/1.35" in style().decode() and "nowrap" not in style().decode()


def test_contrast_is_that_of_level_aa_in_light_and_dark():
    schemes = re.findall(r":root \{(.*?)\}", style().decode())
    assert len(schemes) == 2
    for scheme in schemes:
        colour = dict(re.findall(r"--([a-z-]+): (#[0-9a-f]+)", scheme))
        for ink in ("ink", "faint", "act", "warn"):
            assert contrast(colour[ink], colour["paper"]) >= 4.5
        assert contrast(colour["ink"], colour["mark"]) >= 4.5
        assert contrast(colour["on-act"], colour["act"]) >= 4.5
        # frames of buttons and fields, WCAG 2.2, 1.4.11
        assert contrast(colour["rule"], colour["paper"]) >= 3


# ---- the three screens


def test_three_screens(room):
    target = room.target(1)
    page = check_page(room.ask("GET", target))
    assert scores_of(page) == ["2-0-0", "2-1-0", "0-2-0", "1-2-0", "1-1-0", "1-1-1"]
    for query in ("s=2-1-0", "x=2&y=1&d=0"):
        page = check_page(room.ask("GET", f"{target}?{query}"))
        assert [node.text() for node in page.root.of("dd")] == ["2", "1"]
        assert [(node.attributes["method"], node.attributes["action"]) for node in page.root.of("form")] == [
            ("post", target)
        ]
    assert room.queue.asked == []
    reply = room.hand_in(1, "2-1-0")
    assert (reply.status, reply.location, room.queue.asked) == (303, target, [(1, 1, (2, 1, 0))])
    page = check_page(room.ask("GET", target))
    assert ENGLISH["is_in"] in page.root.text() and [node.text() for node in page.root.of("dd")] == ["2", "1"]
    # the board has it too, before the event is read again
    assert "Tables finished: 1 of 4." in room.ask("GET", "/board").page().root.one("p", "playing")


def test_a_different_score_is_told_and_shown(room):
    room.hand_in(1, "2-1-0")
    room.queue.answers[1] = Answer(refused=14, stored=Score(2, 1))
    assert room.hand_in(1, "2-1-0").location == room.target(1)
    reply = room.hand_in(1, "0-2-0")
    assert (reply.status, reply.location) == (303, f"{room.target(1)}?said=0-2-0")
    page = check_page(room.ask("GET", reply.location))
    assert ENGLISH["another_is_stored"] in page.root.text()
    assert [node.text() for node in page.root.of("dd")] == ["2", "1"]
    check_page(room.desk_page())
    assert "fix 1 1 0 2 0" in room.desk_page().text
    assert room.ask("GET", f"{room.target(1)}?wrong=1").text.count('name="s"') == 6
    assert [report.outcome for report in room.reports.all] == ["stored", "same", "other"]


def test_a_browser_that_goes_back_sees_that_the_score_is_in(room):
    """In place of the question whether to hand it in; another score stands beside the one that is stored."""
    target = room.target(1)
    room.hand_in(1, "2-1-0")
    page = check_page(room.ask("GET", f"{target}?s=2-1-0"))
    assert ENGLISH["is_in"] in page.root.text() and ENGLISH["hand_it_in"] not in page.root.text()
    for query in ("s=0-2-0", "wrong=1&s=0-2-0"):
        page = check_page(room.ask("GET", f"{target}?{query}"))
        assert ENGLISH["is_in"] in page.root.text() and ENGLISH["hand_it_in"] in page.root.text()
        assert [node.text() for node in page.root.of("dd")] == ["2", "1", "0", "2"]
    assert room.reports.all[-1].outcome == STORED


def test_a_seat_that_goes_back_sees_that_its_score_waits(tmp_path, dice):
    event = evening(dice, 4, STARTED, 3, 0)
    event.pair(1, bytes(32))
    room = Room(tmp_path, event, asks_both=True)
    target = room.target(1, 1)
    room.hand_in(1, "2-1-0", 1)
    page = check_page(room.ask("GET", f"{target}?s=2-1-0"))
    assert ENGLISH["waits"] in page.root.text() and ENGLISH["hand_it_in"] not in page.root.text()
    # the right one is a tap away, also on the player's own page, and takes its place
    own = own_page(room, room.cache.now.match(1, 1).first)
    assert ENGLISH["or_this_one"] in own.root.text() and len(scores_of(own)) == 6
    assert scores_of(page)[2] == "0-2-0"
    assert ENGLISH["hand_it_in"] in room.ask("GET", f"{target}?wrong=1&s=0-2-0").text
    room.hand_in(1, "0-2-0", 1)
    assert room.hand_in(1, "0-2-0", 2).status == 303 and room.queue.asked == [(1, 1, (0, 2, 0))]


@pytest.mark.parametrize("is_own", [False, True])
def test_one_tap_tells_the_scorekeeper_that_it_is_wrong(room, is_own):
    match = room.cache.now.match(1, 1)
    page, target = (
        (room.link(match.first), room.place(match.first)) if is_own else (room.target(1), room.target(1))
    )
    room.hand_in(1, "2-1-0")
    buttons = [
        node
        for node in room.ask("GET", page).page().root.of("button")
        if node.attributes.get("name") == "wrong"
    ]
    assert [node.text() for node in buttons] == [ENGLISH["this_is_wrong"]]
    reply = room.ask("POST", target, "wrong=1")
    assert (reply.status, reply.location) == (303, f"{target}?wrong=1")
    told = room.ask("GET", reply.location)
    assert ENGLISH["go_there"] in told.text and told.text.count('name="s"') == 6
    assert room.queue.asked == [(1, 1, (2, 1, 0))]
    assert [(it.outcome, it.score, it.stored) for it in room.reports.all[1:]] == [
        (WRONG, (2, 1, 0), (2, 1, 0))
    ]
    assert "fix 1 1 X Y" in room.desk_page().text and "wrong (" in room.desk_page().text
    check_page(room.desk_page())
    # which one is right may be said too
    room.queue.answers[1] = Answer(refused=14, stored=Score(2, 1))
    room.ask("POST", target, "s=0-2-0")
    assert "fix 1 1 0 2 0" in room.desk_page().text


def test_what_is_not_stored_is_not_wrong(room):
    assert room.ask("POST", room.target(1), "wrong=1").status == 400
    assert room.reports.all == []


def test_what_is_wrong_is_not_said_to_be_told_if_nobody_can_be_told(room, monkeypatch):
    room.hand_in(1, "2-1-0")

    def full(_):
        raise OSError(28, "No space left on device")

    monkeypatch.setattr(room.reports, "append", full)
    assert room.ask("POST", room.target(1), "wrong=1").status == 503
    assert room.reports.unwritten == []


def test_two_scores_need_what_is_stored(room):
    """A refusal 14 by a command line doesn't say what is stored. If it can't be read, nothing is said."""
    room.queue.answers[1] = Answer(refused=14)
    room.cache.read = lambda: False
    reply = room.hand_in(1, "0-2-0")
    assert reply.status == 503 and ENGLISH["not_yet"].split(".")[0] in reply.text and room.reports.all == []


def test_what_the_program_refuses(room):
    room.queue.answers.update({1: Answer(refused=13), 2: Answer(refused=6), 3: Answer(refused=23), 4: NotNow})
    reply = room.hand_in(1, "2-2-0")
    assert reply.status == 409 and ENGLISH["no_match_ends_so"] in check_page(reply).root.text()
    for table, key in ((2, "rounds_are_over"), (3, "not_taken")):
        reply = room.hand_in(table, "2-0-0")
        assert reply.status == 409 and ENGLISH[key] in check_page(reply).root.text()
    reply = room.hand_in(4, "2-0-0")
    page = check_page(reply)
    assert reply.status == 503 and ENGLISH["hand_it_in_again"] in [
        node.text() for node in page.root.of("button")
    ]


def test_who_goes_home_is_told(room):
    first, second = room.cache.now.match(1, 1).first, room.cache.now.match(1, 1).second
    room.hand_in(1, "2-0-0", more=f"&drop{first}=1&drop{second}=0&drop99=1")
    assert room.reports.all[0].drops == (first,)
    text = room.desk_page().text
    assert f"drop {first}<" in text and f"drop {second}<" not in text


def going_on(reply):
    """Who goes home as a page tells it, and whom its buttons take back."""
    page = check_page(reply)
    told = [form.of("bdi")[0].text() for form in page.root.of("form", "home")]
    return told, [
        button.attributes["value"]
        for button in page.root.of("button")
        if button.attributes.get("name") == "stays"
    ]


def test_who_goes_home_is_shown_and_can_be_taken_back(room):
    match = room.cache.now.match(1, 1)
    name = room.cache.now.players[match.second].name
    room.hand_in(1, "2-0-0", more=f"&drop{match.second}=1")
    assert going_on(room.ask("GET", room.target(1))) == ([name], [str(match.second)])
    assert room.ask("POST", room.target(1), f"stays={match.second}").location == room.target(1)
    assert going_on(room.ask("GET", room.target(1))) == ([], [])
    assert f"drop {match.second}<" not in room.desk_page().text
    # and said after the score
    assert room.ask("POST", room.target(1), f"home={match.first}").status == 303
    assert going_on(room.ask("GET", room.target(1)))[1] == [str(match.first)]
    assert f"drop {match.first}<" in room.desk_page().text
    # nobody is named who doesn't sit there
    other = room.cache.now.match(1, 2).first
    for body in (f"home={other}", f"stays={other}", "home=", "home=x"):
        assert room.ask("POST", room.target(1), body).status == 400


def test_the_box_for_going_home_stands_above_the_button(room):
    text = room.ask("GET", f"{room.target(1)}?s=2-0-0").text
    assert 0 < text.index(ENGLISH["goes_home"]) < text.index(ENGLISH["hand_it_in"])


def test_who_has_dropped_is_asked_no_more(tmp_path, dice):
    event = evening(dice, 8, STARTED, 3, 0)
    event.pair(1, bytes(32))
    event.drop(event.stored[0][0][0])
    room = Room(tmp_path, event)
    first = room.cache.now.match(1, 1).first
    room.hand_in(1, "2-0-0", more=f"&drop{first}=1")
    assert going_on(room.ask("GET", room.target(1))) == ([], [])


def test_a_code_of_an_older_round_only_shows(tmp_path, dice):
    event = evening(dice, 8, COMPLETE, 1, 0)
    event.rounds = 3
    event.pair(2, bytes(32))
    room = Room(tmp_path, event)
    target = room.target(1, number=1)
    page = check_page(room.ask("GET", target))
    assert ENGLISH["round_is_over"] in page.root.text() and page.root.of("button") == []
    room.queue.answers[1] = Answer(refused=14, stored=Score(2, 0))
    reply = room.ask("POST", target, "s=0-2-0")
    assert reply.status == 303 and room.queue.asked == [(1, 1, (0, 2, 0))]


def test_what_a_score_came_to():
    assert outcome_of(Answer(serial=7), Score(2, 0), Score(2, 0)) == STORED
    assert outcome_of(Answer(refused=14), Score(2, 0), Score(2, 0)) == "same"
    assert outcome_of(Answer(refused=14), Score(2, 0), Score(0, 2)) == OTHER
    assert outcome_of(Answer(refused=13), None, Score(2, 2)) == "refused 13"
    # nobody drops but who sits there
    assert drops_in({"drop1": "1", "drop2": "0", "drop3": "1"}, (1, 2)) == (1,)


# ---- if both have to say it


@pytest.fixture
def both(tmp_path, dice):
    event = evening(dice, 8, STARTED, 3, 0)
    event.pair(1, bytes(32))
    return Room(tmp_path, event, asks_both=True)


def test_a_score_waits_for_the_other_seat(both):
    assert both.ask("GET", both.secret.target(1, both.cache.now.match(1, 1))).status == 404
    assert both.hand_in(1, "2-0-0", seat=1).location == both.target(1, 1)
    assert both.queue.asked == []
    page = check_page(both.ask("GET", both.target(1, 1)))
    assert ENGLISH["waits"] in page.root.text()
    assert ENGLISH["waits"] not in both.ask("GET", both.target(1, 2)).page().root.text()
    assert "1 2 0 0" in check_page(both.desk_page()).root.text()
    # the same seat once more is no second one
    both.hand_in(1, "2-0-0", seat=1)
    assert both.queue.asked == []
    assert both.hand_in(1, "2-0-0", seat=2).status == 303
    assert both.queue.asked == [(1, 1, (2, 0, 0))]
    assert ENGLISH["is_in"] in both.ask("GET", both.target(1, 1)).page().root.text()


def test_each_page_of_a_seat_says_whose_it_is(both):
    players, match = both.cache.now.players, both.cache.now.match(1, 1)
    for seat, name in ((1, players[match.first].name), (2, players[match.second].name)):
        you = ENGLISH["you_are"].format(name=name)
        pages = [both.target(1, seat), f"{both.target(1, seat)}?s=2-0-0"]
        assert [you in check_page(both.ask("GET", page)).root.text() for page in pages] == [True, True]
        both.hand_in(1, "2-0-0", seat=seat)
        # what waits, and then what is stored
        assert you in check_page(both.ask("GET", both.target(1, seat))).root.text()


def test_a_seat_that_mended_its_score_is_no_alarm(both):
    both.hand_in(1, "2-0-0", seat=1)
    both.hand_in(1, "0-2-0", seat=1)
    both.hand_in(1, "0-2-0", seat=2)
    assert both.queue.asked == [(1, 1, (0, 2, 0))] and "Two scores" not in both.desk_page().text


def test_a_seat_says_of_itself_alone_that_it_goes_home(both):
    match = both.cache.now.match(1, 1)
    both.hand_in(1, "2-0-0", seat=1, more=f"&drop{match.first}=1&drop{match.second}=1")
    assert both.reports.all[-1].drops == (match.first,)
    name = both.cache.now.players[match.first].name
    # both phones show it, and the one takes it back who said it
    assert going_on(both.ask("GET", both.target(1, 1))) == ([name], [str(match.first)])
    assert going_on(both.ask("GET", both.target(1, 2))) == ([name], [])
    assert both.ask("POST", both.target(1, 2), f"stays={match.first}").status == 400
    assert both.ask("POST", both.target(1, 1), f"stays={match.first}").status == 303
    assert going_on(both.ask("GET", both.target(1, 2))) == ([], [])
    assert "I go home" in both.ask("GET", f"{both.target(1, 1)}?s=2-0-0").text


def test_two_seats_that_differ_store_nothing(both):
    both.hand_in(1, "2-0-0", seat=1)
    both.hand_in(1, "0-2-0", seat=2)
    assert both.queue.asked == []
    page = check_page(both.ask("GET", both.target(1, 2)))
    assert page.root.of("div", "warn") and [node.text() for node in page.root.of("dd")] == [
        "2",
        "0",
        "0",
        "2",
    ]
    assert "0 2" in both.desk_page().text
    both.hand_in(1, "0-2-0", seat=1)
    assert both.queue.asked == [(1, 1, (0, 2, 0))]


def test_what_waits_is_kept_over_a_restart(both):
    both.hand_in(1, "2-0-0", seat=1)
    both.site.reports = Reports(both.file)
    both.hand_in(1, "2-0-0", seat=2)
    assert both.queue.asked == [(1, 1, (2, 0, 0))]


def test_two_seats_at_the_same_time_store_it(both):
    for turn in range(20):
        table = turn % 4 + 1
        both.site.handed = module.TokenBuckets(100, 1.0)
        threads = [threading.Thread(target=both.hand_in, args=(table, "2-0-0", seat)) for seat in (1, 2)]
        for thread in threads:
            thread.start()
        for thread in threads:
            thread.join()
    assert {table for _, table, _ in both.queue.asked} == {1, 2, 3, 4}


def test_what_waits_has_to_be_on_the_disk(both, monkeypatch):
    with monkeypatch.context() as full:
        full.setattr(both.reports, "append", lambda report: exec("raise OSError(28, 'no room')"))
        assert both.hand_in(1, "2-0-0", seat=1).status == 503 and both.reports.unwritten == []
        text = check_page(both.desk_page()).root.text()
        assert "no score is taken that both seats have to say. Make room on the disk." in text
    assert both.hand_in(1, "2-0-0", seat=1).status == 303
    assert "can't be written" not in both.desk_page().text


def test_reports_that_are_full_are_told_apart_from_a_full_disk(both, monkeypatch):
    monkeypatch.setattr("event_companions.beside.reports.MOST_BYTES", 10)
    assert both.hand_in(1, "2-0-0", seat=1).status == 503
    path = both.reports.path
    assert f"It is full. Move it away: mv {path} {path}.full" in check_page(both.desk_page()).root.text()


# ---- a player's own page


def own_page(room, number, query="", **fields):
    return check_page(room.ask("GET", room.link(number) + query, **fields), is_own=True)


def rows_of_table(page, at):
    return [[cell.text() for cell in row.of("td")] for row in page.root.of("table")[at].of("tr")][1:]


def test_a_link_shows_the_own_table_and_both_records(tmp_path):
    event = Played(3, 0)
    for name in ("Ana", "Bo", "Cy", "Di"):
        event.enrol(name)
    event.start()
    event.pair(1, bytes(32))
    for place, (first, second, _) in enumerate(event.stored[0], 1):
        event.report(1, place, (2, 1, 0), True)
    event.pair(2, bytes(32))
    room = Room(tmp_path, event)
    for number in range(1, 5):
        page = own_page(room, number)
        match = room.cache.now.matches[number]
        other = match.opponent_of(number)
        assert ENGLISH["table_number"].format(number=match.place) in page.root.text()
        won = [first for first, _, _ in event.stored[0]]
        shown = " ".join(page.root.one("p", "pair").split())
        due = [
            f"{event.names[it - 1]} {'1-0, 3 pts' if it in won else '0-1, 0 pts'}" for it in (number, other)
        ]
        assert shown == f"{due[0]} against {due[1]}"
        # the player's matches, and the standings around, as the plain reading has them
        first_round = next(it for it in event.stored[0] if number in it[:2])
        met = event.names[first_round[1 if first_round[0] == number else 0] - 1]
        assert rows_of_table(page, 0) == [
            ["1", met, "2-1" if number in won else "1-2", "3" if number in won else "0"]
        ]
        ranks = plain_page.ranks_due(event)
        standings = [
            [rank, f"{shown} {record}", points, " ".join(shares)]
            for rank, _, shown, _, record, points, *shares in ranks
        ]
        at = next(at for at, line in enumerate(ranks) if line[1] == str(number))
        assert rows_of_table(page, 1) == standings[max(0, at - 2) : at + 3]


def test_a_score_by_a_link(room):
    """Three screens, and then the player's page again, which shows what is stored and waits for the next table."""
    number = room.cache.now.match(1, 1).second
    page = own_page(room, number)
    assert [form.attributes["action"] for form in page.root.of("form")] == [room.place(number)] * 3
    look = check_page(room.ask("GET", f"{room.place(number)}?s=2-1-0"))
    assert [form.attributes.get("method") for form in look.root.of("form")] == ["post"]
    reply = room.ask("POST", room.place(number), "s=2-1-0")
    assert (reply.status, reply.location, room.queue.asked) == (303, room.link(number), [(1, 1, (2, 1, 0))])
    page = own_page(room, number)
    assert ENGLISH["is_in"] in page.root.text() and [node.text() for node in page.root.of("dd")] == ["2", "1"]
    assert [report.seat for report in room.reports.all] == [2]
    # the other one's page has it too, and another score is told
    other = room.cache.now.match(1, 1).first
    assert ENGLISH["is_in"] in own_page(room, other).root.text()
    room.queue.answers[1] = Answer(refused=14, stored=Score(2, 1))
    reply = room.ask("POST", room.place(other), "s=0-2-0")
    assert reply.location == f"{room.place(other)}?said=0-2-0"
    page = check_page(room.ask("GET", reply.location), is_own=True)
    assert ENGLISH["another_is_stored"] in page.root.text()
    assert room.link(other) in [node.attributes["href"] for node in page.root.of("a")]


def test_links_of_others_and_wrong_ones(room):
    match = room.cache.now.match(1, 1)
    mine, theirs = room.link(match.first), room.link(match.second)
    code = mine.rsplit("/", 1)[1]
    place = room.place(match.first)[len(mine) :]
    other = room.cache.now.match(1, 2)
    for target in (
        f"/p/{match.second}/{code}",
        f"/p/0/{code}",
        f"/p/999/{code}",
        f"/p/{match.first}/{code[:-1]}A",
        f"/p/{match.first}/{Secret(AT, b'k' * 32).link_code(room.cache.now.event.enrolled[match.first])}",
        f"/p/{match.second}/{code}{place}",
    ):
        assert {
            room.ask(how, target, "s=2-0-0" if how == "POST" else "").status for how in ("GET", "POST")
        } == {404}
    # nobody hands in for a table at which others sit, nor for one of a pairing that is no more
    for wrong in (
        f"1-2-{other.first}-{other.second}",
        f"1-1-{match.second}-{match.first}",
        "2-1-1-2",
        f"1-2-{match.first}-{match.second}",
    ):
        reply = room.ask("POST", f"{mine}/{wrong}", "s=2-0-0")
        assert (reply.status, reply.location) == (303, f"{mine}?moved=1")
    assert room.queue.asked == []
    assert ENGLISH["others_sit"] in own_page(room, match.first, "?moved=1").root.text()
    assert room.ask("POST", mine, "s=2-0-0").status == 404
    # as it is scanned, and as it is typed
    for typed in (mine.upper(), f"/p/{match.first}/{code[:4]}-{code[4:8]}-{code[8:]}".lower()):
        assert room.ask("GET", typed).status == 200
    assert theirs not in room.ask("GET", mine).text


def test_a_link_goes_on_to_the_next_table(tmp_path, dice):
    event = evening(dice, 8, COMPLETE, 1, 0)
    event.rounds = 3
    room = Room(tmp_path, event)
    number = room.cache.now.match(1, 1).first
    page, old = own_page(room, number), room.place(number)
    assert ENGLISH["is_in"] in page.root.text() and ENGLISH["shows_next"] in page.root.text()
    assert '<meta http-equiv="refresh" content="20">' in room.ask("GET", room.link(number)).text
    event.pair(2, bytes(32))
    room.cache.keep(*room.cache.read_all(Event(FromModel(event), room.file)))
    page = own_page(room, number)
    assert [form.attributes["action"] for form in page.root.of("form")] == [room.place(number)] * 3
    # a page of the round before leads on, and what is handed in there is of that round
    assert room.ask("GET", old).location == room.link(number)
    room.queue.answers[1] = Answer(refused=14, stored=Score(2, 0))
    room.ask("POST", old, "s=0-2-0")
    assert room.queue.asked == [(1, 1, (0, 2, 0))]


def test_a_page_that_reloads_is_short_where_nothing_changed(room, monkeypatch):
    number = room.cache.now.match(1, 1).first
    first = room.ask("GET", room.link(number))
    tag = first.headers["ETag"]
    again = room.ask("GET", room.link(number), HTTP_IF_NONE_MATCH=tag)
    assert (again.status, again.text, again.headers["ETag"]) == (304, "", tag)
    assert sum(len(f"{name}: {value}") + 2 for name, value in again.headers.items()) < 100
    # and it is not made again for that
    with monkeypatch.context() as unmade:
        unmade.setattr(module, "me_of", lambda *_: 1 / 0)
        assert room.ask("GET", room.link(number), HTTP_IF_NONE_MATCH=tag).status == 304
    # what is said at the player's table, and what is stored, make it anew
    room.ask("POST", room.place(number), f"home={number}")
    said = room.ask("GET", room.link(number), HTTP_IF_NONE_MATCH=tag)
    assert said.status == 200 and said.headers["ETag"] != tag
    room.hand_in(1, "2-0-0")
    assert room.ask("GET", room.link(number), HTTP_IF_NONE_MATCH=said.headers["ETag"]).status == 200
    # whoever reads slowly has it stay
    still = room.ask("GET", f"{room.link(number)}?still=1")
    assert "refresh" not in still.text and check_page(still, is_own=True)


def test_an_old_slip_shows_both_new_tables(tmp_path, dice):
    event = evening(dice, 8, COMPLETE, 1, 0)
    event.rounds = 3
    event.pair(2, bytes(32))
    room = Room(tmp_path, event)
    match = room.cache.now.match(1, 1)
    reply = room.ask("GET", room.target(1, number=1))
    rows = [[cell.text() for cell in row.of("td")] for row in check_page(reply).root.of("tr")]
    players, now = room.cache.now.players, room.cache.now.matches
    due = [
        [str(now[it].place), players[it].name, players[now[it].opponent_of(it)].name]
        for it in (match.first, match.second)
    ]
    assert rows == due and "refresh" in reply.text


@pytest.mark.parametrize("way", [ENROLLING, STARTED, OPEN, COMPLETE, IN_PLAYOFF, ENDED])
def test_own_pages_in_each_phase(tmp_path, dice, way):
    event = evening(dice, 13, way, 3, 2 if way in (IN_PLAYOFF, ENDED) else 0, True)
    room = Room(tmp_path, event)
    for number in room.cache.now.players:
        for language in ("en", "de"):
            page = own_page(room, number, HTTP_ACCEPT_LANGUAGE=language)
            assert event.names[number - 1] in [node.text() for node in page.root.of("bdi")]
        match = room.cache.now.matches.get(number)
        if match and match.is_bye and way == OPEN:
            assert ENGLISH["you_have_a_bye"] in own_page(room, number).root.text()


@pytest.mark.parametrize("way", [IN_PLAYOFF, ENDED])
def test_in_the_playoff_pages_show_the_playoff(tmp_path, dice, way):
    event = evening(dice, 24, way, 3, 8)
    room, names = Room(tmp_path, event), event.names
    for language, table in (("en", ENGLISH), ("de", GERMAN)):
        page = check_page(room.ask("GET", "/pairings", HTTP_ACCEPT_LANGUAGE=language))
        headings = [table[key] for key in ("final", "semifinals", "quarterfinals")[3 - len(event.stages) :]]
        assert [node.text() for node in page.root.of("h2")] == [table["champion"]] * (way == ENDED) + headings
        due = [
            [names[one - 1], str(score[seat]) if score else ""]
            for matches in reversed(event.stages)
            for a, b, score in matches
            for seat, one in enumerate((a, b))
        ]
        assert [[cell.text() for cell in row.of("td")] for row in page.root.of("tr")] == due
        assert table["playoff_of"].replace("{event}", "Friday") in page.root.of("h1")[0].text()
    # who is in it is found with the match, and nobody hands in by phone
    stage = len(event.stages)
    first, second, score = event.stages[-1][0]
    page = check_page(room.ask("GET", f"/?q={quote(names[first - 1])}"))
    where = ("Quarterfinal 1", "Semifinal 1", "Final")[stage - 1]
    assert [where, names[first - 1], names[second - 1]] in [
        [it.text() for it in row.of("td")] for row in page.root.of("tr")
    ]
    assert (
        page.root.of("input", None)[0].attributes["name"] == "q"
        and ENGLISH["rounds_are_over"] in page.root.text()
    )


def test_own_pages_say_how_it_stands_in_the_playoff(tmp_path):
    event = Played(1, 4)
    for name in ("Ana", "Bo", "Cy", "Di", "Ed", "Flo"):
        event.enrol(name)
    event.start()
    event.pair(1, bytes(32))
    for table in (1, 2, 3):
        event.report(1, table, (2, 0, 0), True)
    event.end_rounds()

    def said(number):
        return own_page(Room(tmp_path, event), number).root.text()

    (a, b, _), (c, d, _) = event.stages[0]
    (outside, *_) = {1, 2, 3, 4, 5, 6} - {a, b, c, d}
    assert "Semifinal 1" in said(a) and f"You play against {event.names[b - 1]}." in said(a)
    assert "Semifinal 2" in said(d) and ENGLISH["not_in_playoff"] in said(outside)
    event.play(1, 1, (2, 0, 0))
    assert ENGLISH["playoff_waits"] in said(a) and ENGLISH["playoff_out"] in said(b)
    event.play(1, 2, (0, 2, 0))
    assert "Final" in said(a) and f"You play against {event.names[d - 1]}." in said(a)
    event.play(2, 1, (1, 2, 0))
    winner, loser = (d, a) if event.stages[1][0][1] == d else (a, d)
    assert ENGLISH["playoff_won"] in said(winner) and ENGLISH["playoff_out"] in said(loser)
    assert "Semifinal" in said(winner) and "2-0" in said(winner)


def test_with_both_each_player_speaks_by_the_own_link(both):
    match = both.cache.now.match(1, 1)
    assert both.ask("POST", both.place(match.first), "s=2-0-0").location == both.link(match.first)
    assert both.queue.asked == [] and ENGLISH["waits"] in own_page(both, match.first).root.text()
    assert ENGLISH["waits"] not in own_page(both, match.second).root.text()
    both.ask("POST", both.place(match.second), "s=2-0-0")
    assert both.queue.asked == [(1, 1, (2, 0, 0))]
    assert ENGLISH["is_in"] in own_page(both, match.first).root.text()


def test_a_player_says_by_the_own_link_who_goes_home(room):
    match = room.cache.now.match(1, 1)
    room.ask("POST", room.place(match.first), "s=2-0-0")
    assert room.ask("POST", room.place(match.first), f"home={match.second}").status == 400
    assert room.ask("POST", room.place(match.first), f"home={match.first}").location == room.link(match.first)
    assert f"drop {match.first}<" in room.desk_page().text
    assert room.ask("POST", room.place(match.first), f"stays={match.first}").status == 303
    assert f"drop {match.first}<" not in room.desk_page().text


def test_a_judge_is_called_and_called_off(room):
    match = room.cache.now.match(1, 1)
    name = room.cache.now.players[match.second].name
    assert room.ask("POST", room.place(match.second), "judge=calls").location == room.link(match.second)
    # both see it, and either calls it off
    for number in (match.first, match.second):
        assert ENGLISH["no_judge_needed"] in own_page(room, number).root.text()
    page = check_page(room.desk_page(), [name])
    assert "A judge is called" in page.root.text() and "judge 1" in page.root.text()
    assert judge_call(room.reports, 1, match).caller == match.second
    assert room.ask("POST", room.place(match.first), "judge=calls+off").status == 303
    assert ENGLISH["call_a_judge"] in own_page(room, match.second).root.text()
    assert "A judge is called" not in room.desk_page().text
    # nothing of it is a score, and nobody else calls by the code of the table, or otherwise
    assert room.queue.asked == [] and not room.desk_page().text.count("0-0")
    for target, body in (
        (room.target(1), "judge=calls"),
        (room.place(match.first), "judge=x"),
        (room.place(match.first), "judge=judged"),
    ):
        assert room.ask("POST", target, body).status == 400


def test_a_note_of_the_table_is_shown_to_both(room):
    match = room.cache.now.match(1, 1)
    Notes(room.file).put(1, match, "+5 min <b>")
    Notes(room.file).put(1, replace(room.cache.now.match(1, 2), first=9), "of others")
    room.cache.keep(*room.cache.read_all(Event(FromModel(room.event), room.file)))
    for target in (room.link(match.first), room.link(match.second), room.target(1)):
        text = room.ask("GET", target).page().root.text()
        assert "+5 min <b>" in text and "of others" not in text
    assert "+5 min" not in room.ask("GET", room.target(2)).text
    board = room.ask("GET", "/board").page()
    assert board.root.one("p", "note") == "Table 1: +5 min <b>"


def test_requests_by_a_link_are_counted_by_player(room, monkeypatch):
    monkeypatch.setattr(time, "monotonic", lambda: 1000.0)
    assert [room.ask("GET", room.link(1)).status for _ in range(65)] == [200] * 60 + [429] * 5
    assert room.ask("GET", room.link(2)).status == 200


# ---- names before they are enrolled


def test_a_name_is_entered_while_that_is_on(room):
    assert "/enter" not in room.ask("GET", "/").text
    assert room.ask("GET", "/enter").status == room.ask("POST", "/enter", "name=Ana").status == 409
    room.site.entries.begin()
    assert "/enter" in [node.attributes["href"] for node in check_page(room.ask("GET", "/")).root.of("a")]
    check_page(room.ask("GET", "/enter"))
    reply = room.ask("POST", "/enter", f"name={quote('Zoë <b> Kim')}")
    assert (reply.status, reply.location) == (303, "/enter?done=1")
    assert ENGLISH["is_entered"] in check_page(room.ask("GET", reply.location)).root.text()
    assert [entry.name for entry in room.site.entries.all()] == ["Zoë <b> Kim"]
    # nothing of it goes to the program, and no page shows it
    assert room.queue.asked == []
    assert not any(
        "Kim" in room.ask("GET", page).text
        for page in ("/", "/?q=kim", "/pairings", "/standings", "/board", "/enter")
    )


def test_what_is_no_name_is_told(room):
    room.site.entries.begin()
    for body in ("name=", "name=" + "a" * 61, "", "name=a%00b"):
        reply = room.ask("POST", "/enter", body)
        assert reply.status == 409 and ENGLISH["no_name_is_so"] in check_page(reply).root.text()
        room.site.entering = module.OriginBuckets(*module.NAMES_OF_ONE)
    assert room.site.entries.all() == []


def test_one_address_enters_some_names(room, monkeypatch):
    monkeypatch.setattr(time, "monotonic", lambda: 1000.0)
    room.site.entries.begin()
    assert [room.ask("POST", "/enter", f"name=Ana+{number}").status for number in range(7)] == [303] * 5 + [
        429
    ] * 2
    assert room.ask("POST", "/enter", "name=Bo", REMOTE_ADDR="192.168.1.78").status == 303
    assert len(room.site.entries.all()) == 6


def test_a_list_of_names_without_room_is_told(room, monkeypatch):
    room.site.entries.begin()
    monkeypatch.setattr(room.site.entries, "add", lambda *_: exec("raise OSError(28, 'no room')"))
    assert room.ask("POST", "/enter", "name=Ana").status == 503
    assert "e.event.entries can't be written: no room." in check_page(room.desk_page()).root.text()


# ---- what nobody may do


def test_a_disk_that_is_full_takes_no_score_back(room, monkeypatch):
    """The program said ok, so the phone says so; the report stands on the scorekeeper's page."""
    monkeypatch.setattr(room.reports, "append", lambda report: exec("raise OSError(28, 'no room')"))
    assert room.hand_in(1, "2-0-0").status == 303
    room.queue.answers[1] = Answer(refused=14, stored=Score(2, 0))
    assert room.hand_in(1, "0-2-0").location.endswith("?said=0-2-0")
    text = check_page(room.desk_page()).root.text()
    assert "can't be written: 2 reports" in text and "fix 1 1 0 2 0" in text


def test_codes_of_other_tables_rounds_and_keys(room):
    code = room.target(1).rsplit("/", 1)[1]
    other = Secret(AT, b"k" * 32).target(1, room.cache.now.match(1, 1))
    wrong = [
        f"/t/1/2/{code}",
        f"/t/2/1/{code}",
        f"/t/1/0/{code}",
        f"/t/1/999/{code}",
        "/t/0/1/" + code,
        other,
    ]
    statuses = {
        (how, target): room.ask(how, target, "s=2-0-0" if how == "POST" else "").status
        for target in wrong
        for how in ("GET", "POST")
    }
    assert {key: status for key, status in statuses.items() if status != 404} == {} and room.queue.asked == []


def test_codes_as_they_are_typed(room):
    code = room.target(1).rsplit("/", 1)[1]
    for typed in (code, f"{code[:4]}-{code[4:]}".lower(), f" {code[:4]} {code[4:]}".replace(" ", "+")):
        reply = room.ask("POST", "/", f"table=1&code={typed}")
        assert (reply.status, reply.location) == (303, room.target(1))
    for body in (
        "",
        "table=1",
        f"code={code}",
        f"table=2&code={code}",
        f"table=x&code={code}",
        f"table=1&code={code[1:]}",
    ):
        assert room.ask("POST", "/", body).status == 404


def test_a_right_code_passes_from_an_address_with_many_wrong_ones(room, monkeypatch):
    # where three seconds go by, one wrong code is forgiven
    monkeypatch.setattr(time, "monotonic", lambda: 1000.0)
    room.site.delays.seconds = 0.0
    for _ in range(40):
        assert room.ask("GET", "/t/1/1/BCDFGHJK").status == 404
    assert room.site.wrong_codes == 40
    # so many wait there that no wrong one more is answered
    room.site.delays.waiting["192.168.1.77"] = 1000
    assert room.ask("GET", "/t/1/1/BCDFGHJK").status == 429
    assert [room.ask("GET", room.target(table)).status for table in (1, 2, 3, 4)] == [200] * 4
    assert room.hand_in(1, "2-0-0").status == 303
    code = room.target(1).rsplit("/", 1)[1]
    assert room.ask("POST", "/", f"table=1&code={code}").location == room.target(1)
    assert room.site.wrong_codes == 41


def test_a_right_code_does_not_wait(room, monkeypatch):
    monkeypatch.setattr(time, "monotonic", lambda: 1000.0)
    waited = []
    monkeypatch.setattr(time, "sleep", waited.append)
    for _ in range(21):
        room.ask("GET", "/t/1/1/BCDFGHJK")
    assert waited == [module.SECONDS_BETWEEN_CODES]
    assert room.ask("GET", room.target(1)).status == 200 and len(waited) == 1


def test_many_requests_of_one_address(room, monkeypatch):
    monkeypatch.setattr(time, "monotonic", lambda: 1000.0)
    assert [room.ask("GET", "/").status for _ in range(130)] == [200] * 120 + [429] * 10
    # a slip is no list: with the right code a phone goes on
    assert room.ask("GET", room.target(1)).status == 200
    assert room.ask("GET", "/", REMOTE_ADDR="192.168.1.78").status == 200


def test_what_is_refused_is_limited_and_made_once(room, monkeypatch):
    """Answers that refuse cost nothing, and those that come too often are settled before they are looked at."""
    monkeypatch.setattr(time, "monotonic", lambda: 1000.0)
    refused = {"HTTP_HOST": "evil.example"}
    first = room.ask("GET", "/", **refused)
    room.site.told(429, "en", "slower")
    monkeypatch.setattr("event_companions.phones.asked.rendered", lambda *_, **__: 1 / 0)
    assert [room.ask("GET", "/", **refused).status for _ in range(125)] == [421] * 119 + [429] * 6
    assert room.ask("GET", "/", REMOTE_ADDR="192.168.1.78", **refused).text == first.text
    # a right code is counted by its table
    assert [room.ask("PUT", room.target(1)).status for _ in range(65)] == [405] * 60 + [429] * 5


def test_one_table_that_hands_in_without_end(room, monkeypatch):
    monkeypatch.setattr(time, "monotonic", lambda: 1000.0)
    assert [room.hand_in(1, "2-0-0").status for _ in range(10)] == [303] * 8 + [429] * 2
    assert room.hand_in(2, "2-0-0").status == 303
    # and that it is wrong is a word of the table too
    assert [room.ask("POST", room.target(2), "wrong=1").status for _ in range(9)] == [303] * 7 + [429] * 2


@pytest.mark.parametrize(
    "what, how, status",
    [
        ("another host", dict(HTTP_HOST="evil.example"), 421),
        ("no host", dict(HTTP_HOST=""), 421),
        ("this machine", dict(HTTP_HOST="127.0.0.1:8080"), 303),
        ("the host in capitals", dict(HTTP_HOST=HOST.upper()), 303),
        ("another port", dict(HTTP_HOST="192.168.1.10:8081"), 421),
        ("another origin", dict(HTTP_ORIGIN="http://evil.example"), 403),
        ("origin null", dict(HTTP_ORIGIN="null"), 403),
        ("its own origin", dict(HTTP_ORIGIN=AT), 303),
        ("text/plain", dict(CONTENT_TYPE="text/plain"), 400),
        ("json", dict(CONTENT_TYPE="application/json"), 400),
        ("a charset", dict(CONTENT_TYPE="application/x-www-form-urlencoded; charset=utf-8"), 303),
        ("no length", dict(CONTENT_LENGTH=""), 400),
        ("a long body", dict(CONTENT_LENGTH="2049"), 400),
        ("a length that is none", dict(CONTENT_LENGTH="+7"), 400),
        ("PUT", dict(REQUEST_METHOD="PUT"), 405),
        ("a path upwards", dict(PATH_INFO="/../../etc/passwd"), 404),
        ("a file beside", dict(PATH_INFO="/e.event.phones"), 404),
        ("a template", dict(PATH_INFO="/templates/base.html"), 404),
        ("bad UTF-8", dict(QUERY_STRING="q=%ff"), 400),
    ],
)
def test_requests_that_are_turned_down(room, what, how, status):
    assert room.hand_in(1, "2-0-0", **how).status == status
    assert len(room.queue.asked) == (status == 303)


def test_who_comes_by_another_address_reads_which_is_right(room):
    for language, told in (("en", f"It is {AT}"), ("de", f"Sie ist {AT}")):
        page = check_page(room.ask("GET", "/", HTTP_HOST="evil.example", HTTP_ACCEPT_LANGUAGE=language))
        assert told in page.root.text()


@pytest.mark.parametrize(
    "body",
    [
        "s=2-0-0&s=0-2-0",
        "x=2&y=1",
        "s=%EF%BC%92-0-0",
        "s=4-0-0",
        "s=2-0",
        "s=-1-0-0",
        "s=",
        "",
        "s=2-0-0;x=1",
        "&".join(f"a{at}=1" for at in range(20)) + "&s=2-0-0",
        "s=2-0-0%0a",
    ],
)
def test_bodies_that_are_no_score(room, body):
    assert room.ask("POST", room.target(1), body).status == 400 and room.queue.asked == []


def test_the_scorekeepers_page_is_asked_by_this_machine_alone(room):
    desk = room.desk
    assert room.desk_page().status == 200
    for host in (HOST, "rebound.example:8081", "localhost", ""):
        refused = room.ask("GET", "/", pages=desk, HTTP_HOST=host)
        assert (refused.status, "It is http://127.0.0.1:8081/" in refused.text, AT in refused.text) == (
            421,
            True,
            False,
        )
    for method, target in (("POST", "/"), ("GET", "/board"), ("GET", room.target(1))):
        assert room.ask(method, target, "s=2-0-0", pages=desk, HTTP_HOST="127.0.0.1:8081").status == 404
    assert room.desk_page().page().root.of("form") == []
    assert room.queue.asked == []


def test_the_scorekeeper_shows_a_link_to_whoever_has_no_strip(room):
    listed = check_page(room.ask("GET", "/links", pages=room.desk, HTTP_HOST="127.0.0.1:8081"))
    assert {node.attributes["href"] for node in listed.root.of("td") for node in node.of("a")} == {
        f"/links/{number}" for number in room.cache.now.players
    }
    text = room.ask("GET", "/links/3", pages=room.desk, HTTP_HOST="127.0.0.1:8081").text
    assert shown_code(room.secret.link_code(room.cache.now.event.enrolled[3])) in text
    assert room.ask("GET", "/links/99", pages=room.desk, HTTP_HOST="127.0.0.1:8081").status == 404
    # on this machine alone
    assert room.ask("GET", "/links").status == room.ask("GET", "/links/3").status == 404


def test_no_page_has_the_code_of_another_table(room):
    codes = {table: room.target(table).rsplit("/", 1)[1] for table in (1, 2, 3, 4)}
    for target in ("/", "/?q=a", "/pairings", "/standings", "/board", room.target(1)):
        text = room.ask("GET", target).text
        assert [table for table, code in codes.items() if code in text] in ([], [1])
        assert not any(room.link(number) in text for number in room.cache.now.players)
    assert not any(code in room.desk_page().text for code in codes.values())


def test_a_fault_of_its_own_is_not_shown_on_a_phone(room, monkeypatch, capsys):
    monkeypatch.setattr(room.site, "start", lambda asked: 1 / 0)
    reply = room.ask("GET", "/")
    assert reply.status == 500 and "ZeroDivisionError" not in reply.text
    assert capsys.readouterr().err.startswith("event-phones: ZeroDivisionError at '/'")


def test_hosts():
    assert hosts_of("http://192.168.1.10", 80) >= {
        "192.168.1.10",
        "192.168.1.10:80",
        "127.0.0.1:80",
        "[::1]:80",
    }
    assert hosts_of("https://a.example:443", 8080) >= {"a.example", "a.example:443", "localhost:8080"}
    assert "a.example" not in hosts_of("https://a.example:444", 8080)
