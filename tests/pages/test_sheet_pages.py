"""What stands on the pages of `companions/bin/event-sheets`, over the program as it is built: on random events of 2 to 512 players, each as far on as an event can be,
with odd numbers, drops, byes, players who come late, and names of many kinds. Each number and each name of a page has to be that of the plain reading of
the rules, once in each list. Then what it says where an event can't be read, and how a board is kept up to date.
"""
import os
import re
import select
import signal
import time

import pytest

from second_reading.plain_event import Event
from tests.support.plain_page import (
    Page,
    bracket_due,
    champion_due,
    final_rows,
    foot_due,
    heading,
    last_in,
    last_in_due,
    name_rows,
    parts_due,
    player_rows,
    ranks_due,
    rounds_counted,
    seat_rows,
    shown_bracket,
    shown_champion,
    shown_foot,
    shown_rows,
    shown_slips,
    shown_standings,
    slips_due,
    table_rows,
)
from tests.support.random_evenings import (
    COMPLETE,
    ENDED,
    HOSTILE,
    IN_PLAYOFF,
    OPEN,
    STARTED,
    WAYS,
    evening,
    laid,
)
from tests.support.sheets import BARE
from tests.support.waiting import PATIENCE, comes

CASES = {"number": (12, 400)}
SIZES = [2, 3, 4, 5, 8, 9, 11, 16, 23, 24, 31, 50, 65, 128]
# a score as a client of `serve` hands it in
POST = b'POST /rounds/1/tables/1 HTTP/1.1\r\nContent-Length: 19\r\n\r\n{"a":2,"b":0,"d":0}'


def check_alone(text, page):
    """The page asks for nothing outside of it, and has no script, but for the board's own."""
    tags = {it.tag for it in page.root.nodes()}
    assert len(page.root.of("script")) == len(page.root.of("body", "board")), "scripts"
    tags -= {"script"}
    assert (
        tags & {"link", "img", "iframe", "object", "embed", "base", "a", "form", "use", "image"} == set()
    ), "tags that ask for something"
    names = {name for it in page.root.nodes() for name in it.attributes}
    assert {
        it for it in names if it.startswith("on") or it in ("src", "hre", "xlink:hre", "data", "action")
    } == set(), "attributes that do so"
    style = "".join(it.text() for it in page.root.of("style"))
    assert re.findall(r"url\(|@import|@font-face", style) == [], "a style that does so"
    assert text.count("\ufffd") + text.count("\r") == 0, "its letters"


def page_of(sheets, *words):
    status, text, errors = sheets.printed(*words)
    assert (status, errors) == (0, ""), "status and errors"
    page = Page(text)
    assert page.faults == [], "each tag is ended"
    check_alone(text, page)
    return page


def check_page(page, event, number, title, is_board=False, names_a_round=False):
    """Each list of a page beside the plain reading."""
    parts = page.parts()
    due = parts_due(event, number, is_board, names_a_round)
    assert list(parts) == due, "parts"
    if "players" in parts:
        assert shown_rows(parts["players"]) == player_rows(event), "players"
    if "tables" in parts:
        assert (heading(parts["tables"]), shown_rows(parts["tables"])) == (
            (title, f"Round {number}, by table"),
            [*table_rows(event, number)],
        ), "by table"
        assert (heading(parts["names"]), shown_rows(parts["names"])) == (
            (title, f"Round {number}, by name"),
            name_rows(event, number),
        ), "by name"
    if "slips" in parts:
        assert shown_slips(parts["slips"]) == slips_due(event, number, title), "slips"
    if "standings" in parts:
        due, (shown, bars) = ranks_due(event), shown_standings(parts["standings"])
        assert heading(parts["standings"]) == (
            title,
            f"Standings after round {rounds_counted(event)}",
        ), "standings"
        assert last_in(parts["standings"]) == last_in_due(event), "a line beneath the last place of the cut"
        if is_board:
            # who has never sat at a table is left out, and where they would be too small the percentages are
            due = [it for it in due if it[4]]
            assert shown in (due, [it[:6] for it in due]), "the ranks"
        else:
            assert (shown, bars) == (due, [it[6:] for it in due]), "the ranks and their bars"
    if "bracket" in parts:
        assert (heading(parts["bracket"]), shown_bracket(parts["bracket"])) == (
            (title, "Playoff"),
            bracket_due(event),
        ), "bracket"
    if "final" in parts:
        assert (heading(parts["final"]), shown_rows(parts["final"])) == (
            (title, "Final ranking"),
            final_rows(event),
        ), "final ranking"
    if "champion" in parts:
        assert (heading(parts["champion"]), shown_champion(parts["champion"])) == (
            (title, "Champion"),
            champion_due(event),
        ), "the champion"


def check_event(sheets, program, file, event, dice):
    title = f"Evening {dice.choice(HOSTILE)}"[:40].strip()
    laid(program.path, file, event, "E")
    check_page(page_of(sheets, file, "--title", title), event, len(event.stored), title)
    if event.stored:
        number = dice.randint(1, len(event.stored))
        page = page_of(sheets, file, "--round", str(number), "--title", title)
        check_page(page, event, number, title, names_a_round=True)
    board = page_of(sheets, file, "--board", "--title", title)
    check_page(board, event, len(event.stored), title, is_board=True)
    assert shown_foot(board.root) == foot_due(event), "beneath the board"
    assert [
        it.attributes.get("content")
        for it in board.root.of("meta")
        if it.attributes.get("http-equiv") == "refresh"
    ] == ["20"], "the board reloads itself"


@pytest.mark.needs("sheets and boards", module="jinja2", package="python3-jinja2")
def test_random(sheets, program, room, dice, number):
    """Random events, as sheets and as a board, of the newest round and of another one."""
    way, players = WAYS[number % len(WAYS)], dice.choice(SIZES)
    cuts = (2, 4, 8) if way in (IN_PLAYOFF, ENDED) else (0, 2, 4, 8)
    cut = dice.choice([it for it in cuts if it <= players])
    event = evening(dice, players, way, dice.randint(1, 5), cut, number % 3 == 0)
    check_event(sheets, program, f"{room}/e.event", event, dice)


@pytest.mark.needs("sheets and boards", module="jinja2", package="python3-jinja2")
def test_large(sheets, program, room, dice):
    """As many players as an event may have, and all names of the other kind among them."""
    event = evening(dice, 509, OPEN, 2, 8, True)
    while len(event.names) < 512 and event.enrol(f"Late {len(event.names)}")[0].startswith("ok "):
        pass
    check_event(sheets, program, f"{room}/large.event", event, dice)


@pytest.mark.needs("sheets and boards", module="jinja2", package="python3-jinja2")
def test_parts(sheets, program, room, dice, stand_in):
    event = evening(dice, 11, OPEN, 3, 0)
    file = laid(program.path, f"{room}/e.event", event, "E")
    assert list(page_of(sheets, file, "--parts", "standings,tables").parts()) == [
        "standings",
        "tables",
    ], "parts that are named"
    seats = page_of(sheets, file, "--parts", "seats", "--title", "E").parts()["seats"]
    assert (heading(seats), shown_rows(seats)) == (
        ("E", "Seats for the players' meeting"),
        seat_rows(event),
    ), "seats"
    calls = f"{room}/calls"
    page_of(
        sheets, file, "--parts", "slips", "--program", stand_in(f'echo "$1 $3" >> {calls}\nexec "$REAL" "$@"')
    )
    assert sorted(open(calls).read().splitlines()) == [
        "bracket ",
        "export players",
        "export results",
    ], "what is asked for slips"


@pytest.mark.needs("sheets and boards", module="jinja2", package="python3-jinja2")
def test_doubts(sheets, program, room, dice):
    """A score in doubt stands as none, and has a slip."""
    event = evening(dice, 11, COMPLETE, 3, 0)
    number = len(event.stored)
    file = laid(program.path, f"{room}/e.event", event, "E")
    first = event.stored[-1][0]
    with open(f"{file}.doubts", "w") as it:
        it.write(
            f"round {number} table 1 score {'-'.join(map(str, first[2]))}\nround {number} table 2 score 9-9-9\n"
        )
    standings = event.standings()
    first[2] = None
    parts = page_of(sheets, file, "--title", "E").parts()
    assert shown_rows(parts["tables"]) == [*table_rows(event, number)], "a doubt, the table"
    assert shown_slips(parts["slips"]) == slips_due(event, number, "E"), "a doubt, the slip"
    assert (
        len(shown_standings(parts["standings"])[0]) == len(standings) - 1
    ), "a doubt, the standings are the program's"


@pytest.mark.needs("sheets and boards", module="jinja2", package="python3-jinja2")
def test_names(sheets, program, room, dice):
    """A name that is shown in place of the enrolled one stands in each part."""
    event = evening(dice, 9, ENDED, 3, 4)
    file = laid(program.path, f"{room}/e.event", event, "E")
    number = event.stages[-1][0][0]
    with open(f"{file}.names", "w", encoding="utf-8") as it:
        it.write(f"{number}\t{event.names[number - 1]}\tShown <b> Name\n1\tNobody of this name\tX\n")
    event.names[number - 1] = "Shown <b> Name"
    check_page(page_of(sheets, file, "--title", "E"), event, len(event.stored), "E")
    check_page(page_of(sheets, file, "--board", "--title", "E"), event, len(event.stored), "E", is_board=True)


@pytest.mark.needs("sheets and boards", module="jinja2", package="python3-jinja2")
def test_refused(sheets, program, room, dice, started, serve):
    """What is said if there is nothing to show. Nothing goes to the page then."""
    event = evening(dice, 4, COMPLETE, 3, 0)
    file = laid(program.path, f"{room}/e.event", event, "E")
    last = len(event.stored)
    cases = [
        ("no file", [f"{room}/none.event"], 1, "refused 27 NoEvent"),
        ("a text", [sheets.path], 3, "refused 25 Store"),
        ("no such round", [file, "--round", "9"], 1, f"Round 9 is not paired. The newest round is {last}."),
        ("round 0", [file, "--round", "0"], 1, "Round 0 is not paired."),
        ("no such part", [file, "--parts", "tables,nope"], 2, "there is no part 'nope'"),
        ("a word too many", [file, "more"], 2, "unrecognized arguments"),
        ("no program", [file, "--program", f"{room}/none"], 3, "Name the program by --program PATH"),
    ]
    for name, words, status, said in cases:
        got = sheets.printed(*words)
        assert (got[0], got[1], said in got[2]) == (status, "", True), f"refused, {name}"
    _, held = started("Ana", "Bo", "Cy", "Di", called="held")
    program.run("pair", held, "1", "0" * 64)
    serving = serve(held, 1000)
    assert sheets.printed(held)[0] == 0, "held by serve, and its log has nothing"
    assert serving.ask(POST).startswith(b"HTTP/1.1 200 "), "a score is handed in"
    status, text, errors = sheets.printed(held)
    assert (status, text, "such as `serve`" in errors) == (3, "", True), "refused, held by serve"
    for name in ("--help", "--version"):
        status, text, errors = sheets.printed(file, name, env={**os.environ, "COLUMNS": "80"})
        assert (status, errors, text.startswith(("usage: ", "event-sheets (event_reporter) "))) == (
            0,
            "",
            True,
        ), name
        assert [it for it in text.split("\n") if len(it) > 80] == [], f"{name} fits 80 columns"


@pytest.fixture
def watching(sheets):
    """A process that keeps a page up to date. What still runs at the end is killed."""
    begun = []

    def begin(*words):
        begun.append(sheets.watching(*words))
        return begun[-1]

    yield begin
    for process in begun:
        process.kill()
        process.communicate()


@pytest.mark.needs("sheets and boards", module="jinja2", package="python3-jinja2")
def test_watch(watching, program, room, dice):
    """A page that is kept up to date: never half of it is there, and a command shows in it."""
    event = evening(dice, 64, STARTED, 3, 0)
    file, page = laid(program.path, f"{room}/e.event", event, "E"), f"{room}/board.html"
    program.run("pair", file, "1", "0" * 64)
    event.pair(1, bytes(32))
    process = watching(file, "--board", "--watch", page, "--title", "E")
    seen = []

    def shows(score):
        try:
            with open(page, encoding="utf-8") as it:
                text = it.read()
        except FileNotFoundError:
            return False
        seen.append(text.endswith("</html>\n"))
        return f'class="score">{score}<' in text

    assert comes(lambda: shows("")), "watch, the page comes"
    for table, score in ((1, (2, 1, 0)), (2, (0, 2, 1))):
        program.did("result", file, "1", str(table), *map(str, score))
        event.report(1, table, score, True)
        assert comes(lambda: shows("-".join(map(str, score)))), f"watch, it shows at table {table}"
    check_page(Page(open(page, encoding="utf-8").read()), event, 1, "E", is_board=True)
    assert all(seen), "watch, no page was half"
    os.rename(file, f"{file}.gone")
    time.sleep(1.5)
    os.rename(f"{file}.gone", file)
    program.did("result", file, "1", "3", "2", "0", "0")
    assert comes(lambda: shows("2-0-0")), "watch, it goes on where the file was away"
    process.send_signal(signal.SIGINT)
    out, errors = process.communicate(timeout=PATIENCE)
    assert (process.returncode, out, b"Traceback" in errors) == (0, b"", False), "watch, ended by Ctrl-C"
    assert sorted(it for it in os.listdir(room) if it.startswith(".")) == [], "watch, nothing is left beside"


@pytest.mark.needs("sheets and boards", module="jinja2", package="python3-jinja2")
def test_watch_without_room(watching, program, room, dice):
    """If the page can't be written for a moment, as on a full disk, that is said, and the board goes on."""
    event = evening(dice, 8, STARTED, 3, 0)
    file, page = laid(program.path, f"{room}/e.event", event, "E"), f"{room}/screen/board.html"
    os.mkdir(f"{room}/screen")
    program.run("pair", file, "1", "0" * 64)
    process = watching(file, "--board", "--watch", page)
    assert comes(lambda: os.path.exists(page)), "no room, the page comes"
    os.rename(f"{room}/screen", f"{room}/away")
    program.did("result", file, "1", "1", "2", "1", "0")
    assert comes(lambda: select.select([process.stderr], [], [], 0)[0]), "no room, it is said"
    os.rename(f"{room}/away", f"{room}/screen")
    assert comes(lambda: 'class="score">2-1-0<' in open(page, encoding="utf-8").read()), "no room, it goes on"
    process.send_signal(signal.SIGINT)
    out, errors = process.communicate(timeout=PATIENCE)
    assert (process.returncode, out, errors.count(b"board.html was not written"), b"Traceback" in errors) == (
        0,
        b"",
        1,
        False,
    ), "no room, what is said"


@pytest.mark.needs("sheets and boards", module="jinja2", package="python3-jinja2")
def test_titles(sheets, program, room):
    """What the sheets are headed with."""
    event = Event(3, 0)
    event.enrol("Ana")
    file = laid(program.path, f"{room}/friday.event", event, "E & <Friday>")
    headed = lambda *words: heading(page_of(sheets, file, *words).parts()["players"])
    assert headed() == ("E & <Friday>", "Players: 1"), "titled by the name in the file"
    with open(f"{file}.title", "w", encoding="utf-8") as it:
        it.write("Friday <Night> & more\n")
    assert headed() == ("Friday <Night> & more", "Players: 1"), "titled by the text beside it"
    assert headed("--title", "Sunday") == ("Sunday", "Players: 1"), "titled by the words"


@pytest.mark.needs("sheets and boards", module="jinja2", package="python3-jinja2")
def test_look(sheets, program, room, dice):
    """What FILE.look says stands on the page; what is wrong there is said, and the page is made all the same."""
    file = laid(program.path, f"{room}/e.event", evening(dice, 9, OPEN, 3, 0), "E")
    with open(f"{file}.look", "w", encoding="utf-8") as it:
        it.write('subtitle = "Owls & <Friends>"\nlogo = "none.png"\n')
    fault = f"event-sheets: {file}.look, line 2: There is no none.png beside the event that can be read.\n"
    for words in ((file,), (file, "--board", "--dark")):
        status, text, errors = sheets.printed(*words)
        assert (status, errors, "Owls &amp; &lt;Friends&gt;" in text) == (0, fault, True), words
    assert "color-scheme: dark;" in text, "dark in any case"


def test_without_jinja(sheets, room):
    """Jinja2 makes the pages: if it isn't installed, the package is named."""
    status, text, errors = sheets.printed(f"{room}/e.event", python=BARE)
    assert (status, text, "python3-jinja2" in errors, "Traceback" in errors) == (3, "", True, False)
    status, text, errors = sheets.printed(f"{room}/e.event", "--help", python=BARE)
    assert (status, text[:7], errors) == (0, "usage: ", ""), "the help"
