"""Scores from phones, as far as no server is needed: slips with their codes, the prompt that tells what came in and asks back, `init` beside an older event,
and what is said where a package is missing; and pages that are asked as functions, beside the plain reading: random events, two phones that differ,
answers that are lost, a file that others hold.
"""
import contextlib
import importlib.util
import io
import os
import re
import shutil
import subprocess

import pytest

from second_reading.plain_file import read
from tests.support.phone_rooms import (
    AT,
    PHONES,
    PYTHON,
    asked,
    codes_in,
    made,
    report_to,
    results,
    slips_for,
    targets,
)
from tests.support.plain_page import Page, standings_due
from tests.support.program import LOSSY
from tests.support.prompt import LETTERS, check_said
from tests.support.random_evenings import (
    COMPLETE,
    ENDED,
    ENROLLING,
    IN_PLAYOFF,
    OPEN,
    STARTED,
    evening,
    laid,
)
from tests.support.sheets import BARE
from tests.support.waiting import PATIENCE

# phone_rooms has put it on the path
from event_companions.beside.entries import Entries
from event_companions.beside.troubles import Troubles

PAGES = pytest.mark.needs("slips with codes, and pages of phones", module="jinja2", package="python3-jinja2")


@pytest.fixture
def phones(program):
    """The status, the output and the errors of the command line."""

    def run(*words, python=PYTHON):
        ran = subprocess.run(
            [*python, PHONES, *words, "--program", program.path],
            stdin=subprocess.DEVNULL,
            capture_output=True,
            text=True,
            timeout=PATIENCE,
        )
        return ran.returncode, ran.stdout, ran.stderr

    return run


def test_words(prompt, phones, program, room):
    """The command line: help, words that are wrong, the clock, and packages that are missing."""
    file = made(program.path, f"{room}/e.event")

    status, text, errors = phones("--help", python=BARE)
    assert (status, errors, "an evening:" in text, [it for it in text.split("\n") if len(it) > 80]) == (
        0,
        "",
        True,
        [],
    ), "help"
    status, text, errors = phones(file, "--at", "192.168.1.10:8080", python=BARE)
    assert (status, text, "sudo apt-get install" in errors, "python3-waitress" in errors) == (
        3,
        "",
        True,
        True,
    ), "without packages"
    assert not os.path.exists(f"{file}.phones"), "nothing is made then"
    for name, words in (
        ("no address", ["--at", "ftp://a"]),
        ("no port", ["--desk", "0"]),
        ("no port there is", ["--at", "192.168.1.10:99999"]),
        ("all addresses", ["--at", "0.0.0.0:8080"]),
        ("no minutes", ["--clock", "601"]),
        ("both", ["--both", "--one"]),
    ):
        assert phones(file, *words)[0] == 2, name
    status, text, errors = phones(file, "--clock", "50", python=BARE)
    assert (status, errors, bool(re.fullmatch(r"50 min, until \d\d:\d\d\n", text))) == (
        0,
        "",
        True,
    ), "a clock"
    check_said("the prompt shows it", prompt.said(file, "clock"), "50 min, until ")


@pytest.mark.needs("phones that are served", module="jinja2", package="python3-jinja2")
@pytest.mark.needs("phones that are served", module="waitress", package="python3-waitress")
def test_what_is_not_served(phones, program, room):
    """No address yet, no event, and an address of another machine."""
    file = made(program.path, f"{room}/e.event")
    status, text, errors = phones(file)
    assert (status, text, "--at http://192.168.1.10:8080" in errors) == (3, "", True), "no address yet"
    status, text, errors = phones(f"{room}/none.event", "--at", "127.0.0.1:1")
    assert (status, text, "refused 27" in errors) == (3, "", True), "no event"
    status, text, errors = phones(file, "--at", "192.0.2.1:8080")
    assert (status, text, "hostname -I" in errors) == (3, "", True), "an address that is not this machine's"
    assert not os.path.exists(f"{file}.phones"), "and it is not kept"
    os.symlink(file, f"{room}/link.event")
    status, text, errors = phones(f"{room}/link.event", "--at", "127.0.0.1:1")
    assert (status, text, f"event-phones {file}" in errors) == (3, "", True), "a symbolic link"


def test_prompt(prompt, program, room):
    """What the prompt tells of the phones, what it asks back, and how two scores are settled."""
    file = made(program.path, f"{room}/e.event", 8, 2, 2, [(1, 2, 1, 0), (2, 2, 0, 0), (3, 2, 0, 0)])
    check_said(
        "no phone yet", prompt.said(file, "phones"), "No phone has handed in.", "event-phones", "--at http://"
    )
    first = report_to(program.path, file, 1, "0-2-0", "other", "2-1-0").first
    report_to(program.path, file, 2, "2-0-0", "stored", "2-0-0", [first])
    said = prompt.said(file, "phones")
    check_said(
        "two scores",
        said,
        "1 table open: 4",
        "Two scores at table 1",
        "a phone said 0-2. If that is right: fix 1 1 0 2 0",
        "type it again: fix 1 1 2 1 0",
    )
    check_said("who goes home", said, f"({first}) wants to go home after the round: drop {first}")
    check_said(
        "pair asks back",
        prompt.said(file, "4 2 0", "pair", "n"),
        "stored is 2-1, and a phone says 0-2",
        "Pair all the same?",
        "Nothing was paired.",
    )
    said = prompt.said(file, "fix 1 2 1", "phones", f"drop {first}", "y", "phones")
    check_said("the same score settles it", said, "ok ", "wants to go home", "is dropped")
    assert ("Two scores" in said, said.count("wants to go home")) == (False, 1), "it is settled"
    report_to(program.path, file, 1, "1-2-0", "other", "2-1-0")
    assert not ("Two scores" in prompt.said(file, "fix 1 1 2", "phones")), "the other score settles it too"
    report_to(program.path, file, 1, "1-2-0", "wrong", "1-2-0")
    said = prompt.said(file, "phones", "pair", "n")
    check_said(
        "a wrong score",
        said,
        "A wrong score at table 1",
        "a phone said wrong. Once the right one is known: fix 1 1 X Y",
        "type it again: fix 1 1 1 2 0",
        "Pair all the same?",
        "Nothing was paired.",
    )
    prompt.said(file, "fix 1 2 1", "pair", *(f"{table} 2 0" for table in range(1, 4)))
    report_to(program.path, file, 1, "0-2-0", "other", "2-0-0", number=2)
    check_said(
        "cut asks back",
        prompt.said(file, "cut", "n"),
        "Two scores at table 1",
        "Cut all the same?",
        "The playoff was not begun.",
    )


@pytest.mark.parametrize(
    "term",
    [
        "dumb",
        pytest.param(
            "xterm",
            marks=pytest.mark.needs(
                "news above a menu", module="prompt_toolkit", package="python3-prompt-toolkit"
            ),
        ),
    ],
)
def test_news(prompt, program, room, term):
    """At a terminal what comes in stands above the line that is being typed, which goes on."""
    file = made(program.path, f"{room}/e.event")
    terminal = prompt.terminal(file, env={**LETTERS, "TERM": term}, python=PYTHON, begins=b"r1> ")
    terminal.keys("who 00")
    terminal.read_for(b"00")
    report_to(program.path, file, 1, "2-0-0", "stored", "2-0-0")
    assert "From phones: 1 score, table 1" in terminal.read_for(b"table 1"), "told above the line"
    terminal.keys("3\r")
    assert "Player 003 of the House" in terminal.read_for(b"Player 003 of the House"), "the line goes on"
    report_to(program.path, file, 1, "0-2-0", "other", "2-0-0")
    assert "fix 1 1 0 2 0" in terminal.read_for(b"fix 1 1 0 2 0"), "another score"


def test_judges_and_notes(prompt, program, room):
    """A judge who is called is told until one has been there; a note is for its table, until it is taken away."""
    file = made(program.path, f"{room}/e.event")
    match = report_to(program.path, file, 2, "0-0-0", "calls", "", seat=2)
    said = prompt.said(file, "phones", "judge 2", "phones", "judge 2", "judge 9", "judge")
    caller = f"Player {match.second:03} of the House ({match.second}) calls a judge"
    check_said(
        "judges",
        said,
        caller,
        "Table 2: a judge has been there.",
        "No judge is called to table 2",
        "Round 1 has no table 9",
        "judge 7, once",
    )
    assert said.count("calls a judge") == 1, "told until one has been there"
    said = prompt.said(file, "note", "note 2 +5 min", "note", "note 9 x", "note 2", "note 2 off", "note")
    check_said(
        "notes",
        said,
        "Nothing is noted.",
        "Table 2: +5 min",
        "Round 1 has no table 9",
        "letters after the table",
        "Table 2 has no note.",
    )
    assert (said.count("Table 2: +5 min"), said.count("Nothing is noted.")) == (
        2,
        2,
    ), "until it is taken away"
    prompt.said(file, "note 1 +3 min")
    with open(f"{file}.notes") as it:
        assert re.fullmatch(r"round 1 table 1 players \d+ \d+ \+3 min\n", it.read()), "what lies beside"


def test_entries(prompt, program, room):
    """Names that players enter by phone: nothing is in the event until they are taken."""
    file = f"{room}/e.event"
    prompt.said(file, "init Friday 3 0", "enrol Ana Lima")
    check_said(
        "off",
        prompt.said(file, "entries", "entries take", "entries foo"),
        "Players can't enter their names now.",
        "entries on, entries, entries take",
    )
    check_said(
        "on",
        prompt.said(file, "entries on", "entries"),
        "Players enter their names at",
        "/enter",
        "No name is there that you have not taken.",
    )
    entries = Entries(file)
    for name in ("Bo Sato", "ana lima", "Nobody", "Zoë, Kim", "-Cy"):
        entries.add(name, "10.0.0.7")
    check_said(
        "what came",
        prompt.said(file, "entries"),
        "   2 Bo Sato",
        "   4 Nobody",
        "   5 Zoë, Kim",
        "entries take",
        "entries out 3",
    )
    said = prompt.said(file, "entries out 4", "entries out 4", "entries take", "y", "n", "players", "entries")
    check_said(
        "taken",
        said,
        "Nobody is struck.",
        "No name has the number 4",
        "beside Ana Lima",
        "Enrol 3 players?",
        "   3 ana lima",
    )
    players = [
        line.split(",", 1)[1] for line in asked(program.path, ["export", file, "players"]).split("\n")[1:-1]
    ]
    assert players == ["Ana Lima,0", "Bo Sato,0", '"Zoë, Kim",0', "-Cy,0"], "the event"
    check_said(
        "off asks back",
        prompt.said(file, "entries off", "n", "entries off", "y", "entries"),
        "1 name was not taken",
        "It goes on.",
        "Nobody can enter a name any more.",
        "can't enter their names now",
    )
    assert not os.path.exists(f"{file}.entries"), "what lay beside"


def test_entries_are_told(prompt, program, room):
    file = made(program.path, f"{room}/e.event")
    entries = Entries(file)
    entries.begin()
    terminal = prompt.terminal(file, env={**LETTERS, "TERM": "dumb"}, python=PYTHON, begins=b"r1> ")
    entries.add("Ana Lima", "10.0.0.7")
    assert "Entered by phone: 1 name. See: entries" in terminal.read_for(
        b"See: entries"
    ), "told above the line"


def test_troubles(prompt, program, room):
    """What goes wrong with the phones is told above the line that is being typed, and by the word `phones`; and that nobody serves them any more."""
    file = made(program.path, f"{room}/e.event")
    troubles = Troubles(file)
    terminal = prompt.terminal(file, env={**LETTERS, "TERM": "dumb"}, python=PYTHON, begins=b"r1> ")
    troubles.tell("scores", "Scores can't be stored.")
    assert "Scores can't be stored." in terminal.read_for(b"stored."), "told above the line"
    check_said("the word", prompt.said(file, "phones"), "Scores can't be stored.", "No phone has handed in.")
    troubles.over("scores")
    assert "Phones go on" in terminal.read_for(b"is over."), "it is over"
    os.close(troubles.handle)
    assert "event-phones has ended." in terminal.read_for(b"e.event\r\n"), "nobody serves them any more"
    assert "can't be stored" not in prompt.said(file, "phones"), "and nothing else is said then"


def test_init(prompt, program, room):
    """What lay there of an earlier event is put aside, so that no code of it counts."""
    file = made(program.path, f"{room}/e.event")
    slips_for(file)
    report_to(program.path, file, 1, "2-0-0", "stored", "2-0-0")
    prompt.said(file, "clock 50", "note 1 +5 min", "entries on")
    for ending in ("", "-wal"):
        with contextlib.suppress(FileNotFoundError):
            os.unlink(file + ending)
    text = prompt.said(file, "init Sunday 2 0", "clock", "phones")
    kinds = ("phones", "reports", "notes", "entries", "clock")
    check_said(
        "init",
        text,
        "ok 0",
        *(f"e.event.{kind} was there before" for kind in kinds),
        "No clock runs.",
        "No phone has handed in.",
    )
    aside = sorted(re.sub(r"\.old-.*", "", it) for it in os.listdir(room) if ".old-" in it)
    assert aside == sorted(f"e.event.{kind}" for kind in kinds), "they are put aside"
    assert not (slips_for(file).key == slips_for(f"{file}.none").key), "another key"


@PAGES
def test_slips(program, room, sheets):
    """Slips have their codes where FILE.phones is, and squares where segno is."""
    file = made(program.path, f"{room}/e.event", 9, results=[(1, 2, 0, 0)])

    def slips(*words):
        status, text, errors = sheets.printed(file, "--parts", "slips", *words)
        assert (status, errors) == (0, ""), "sheets"
        assert Page(text).faults == [], "sheets, each tag is ended"
        return text

    assert codes_in(slips()) == [], "no phones, no codes"
    slips_for(file)
    aims = targets(program.path, file)
    codes = [aims[it].rsplit("/", 1)[1] for it in (2, 3, 4)]
    assert codes_in(slips()) == codes, "codes"
    assert codes_in(slips("--tables", "3")) == codes[1:2], "slips of one table"
    assert slips().count("at 192.168.1.10:8080<") == 3, "an address to type"
    slips_for(file, asks_both=True)
    seats = [
        targets(program.path, file, seat)[table].rsplit("/", 1)[1] for table in (2, 3, 4) for seat in (1, 2)
    ]
    assert codes_in(slips()) == seats, "a code for each seat"
    if importlib.util.find_spec("segno") is None:
        assert slips().count("<svg") == 0, "without squares"
    with open(f"{file}.phones", "w") as it:
        it.write("{}")
    status, text, errors = sheets.printed(file)
    assert (status, text, "Move it away" in errors) == (3, "", True), "a secret that is none"


@PAGES
@pytest.mark.needs("codes to scan", module="segno", package="python3-segno")
def test_codes_to_scan(program, room, sheets):
    file = made(program.path, f"{room}/e.event", results=[(1, 2, 0, 0)])
    slips_for(file, asks_both=True)
    _, text, _ = sheets.printed(file, "--parts", "slips")
    assert text.count('class="segno"') == 6, "a square for each seat"


# ---- pages asked as functions


class Pages:
    """The pages over a file that the program reads."""

    def __init__(self, program, file, asks_both):
        from event_companions.beside.reports import Reports
        from event_companions.phones.asked import hosts_of
        from event_companions.phones.cache import EventCache
        from event_companions.phones.score_queue import ScoreQueue
        from event_companions.phones.site import Site

        self.file = file
        self.secret, self.cache, self.reports = (
            slips_for(file, asks_both),
            EventCache(program, file),
            Reports(file),
        )
        assert (self.cache.read(), self.cache.fault) == (True, ""), "the event is read"
        self.site = Site(self.cache, self.reports, self.secret, hosts_of(AT, 8080), ScoreQueue(program, file))

    def ask(self, method, target, body=""):
        path, _, query = target.partition("?")
        environ = {
            "REQUEST_METHOD": method,
            "PATH_INFO": path,
            "QUERY_STRING": query,
            "HTTP_HOST": "192.168.1.10:8080",
            "REMOTE_ADDR": "192.168.1.77",
        }
        form = {
            "CONTENT_TYPE": "application/x-www-form-urlencoded",
            "CONTENT_LENGTH": str(len(body)),
            "wsgi.input": io.BytesIO(body.encode()),
        }
        came = []
        text = b"".join(self.site({**environ, **form}, lambda *head: came.append(head)))
        return int(came[0][0].split()[0]), dict(came[0][1]).get("Location", ""), text.decode()

    def target(self, table, seat=0):
        snapshot = self.cache.now
        return self.secret.target(snapshot.number, snapshot.match(snapshot.number, table), seat)

    def hand_in(self, table, score, seat=0):
        return self.ask("POST", self.target(table, seat), f"s={score}")[:2]


@pytest.fixture
def pages_over(program):
    """The pages over a file. `by`: another program that stands before the real one."""

    def over(file, by=None, asks_both=None):
        return Pages(by or program.path, file, asks_both)

    return over


@PAGES
@pytest.mark.parametrize("way", [OPEN, COMPLETE, IN_PLAYOFF, ENDED, STARTED, ENROLLING])
def test_random(program, room, dice, pages_over, way):
    """Pages of random events, as the program reads them: the standings, and who sits at each table."""
    cut = 2 if way in (IN_PLAYOFF, ENDED) else 0
    event = evening(
        dice, dice.choice([3, 8, 9, 24, 65]) + cut, way, dice.randint(1, 4), cut, dice.random() < 0.5
    )
    pages = pages_over(laid(program.path, f"{room}/e.event", event, "E"))
    text = pages.ask("GET", "/standings")[2]
    found = [re.findall(r"<td[^>]*>(.*?)</td>", row) for row in re.findall("<tr>(.*?)</tr>", text, re.S)][1:]
    assert [(it[0], it[2], it[3]) for it in found] == [
        (rank, points, " ".join(shares)) for rank, _, _, _, points, *shares in standings_due(event)
    ], "points"
    assert pages.ask("GET", "/board")[0] == 200, "the board"
    for place, (first, second, score) in enumerate(event.stored[-1] if event.stored else [], 1):
        if second:
            match = pages.cache.now.match(len(event.stored), place)
            due = first, second, score
            assert (match.first, match.second, match.score) == due, f"table {place}"


@PAGES
def test_screens(prompt, program, room, pages_over):
    """A score that is handed in, one that differs, a correction at the prompt, and the next round."""
    file = made(program.path, f"{room}/e.event")
    pages = pages_over(file)
    aim = pages.target(1)
    pages.ask("GET", f"{aim}?s=2-1-0")
    assert results(program.path, file)[1, 1] == "", "looking changed nothing"
    assert (pages.hand_in(1, "2-1-0"), results(program.path, file)[1, 1]) == ((303, aim), "2-1-0"), "taken"
    assert pages.hand_in(1, "2-1-0") == (303, aim), "the same again"
    assert (pages.hand_in(1, "0-2-0"), results(program.path, file)[1, 1]) == (
        (303, f"{aim}?said=0-2-0"),
        "2-1-0",
    ), "another one"
    check_said("the prompt", prompt.said(file, "phones", "fix 1 0 2", "phones"), "fix 1 1 0 2 0", "ok ")
    # what was stored by the last snapshot is stored no longer
    assert pages.hand_in(1, "2-1-0") == (303, f"{aim}?said=2-1-0"), "the score that was corrected since"
    assert pages.hand_in(1, "0-2-0") == (303, aim), "the one that took its place"
    assert (pages.hand_in(2, "2-2-0")[0], results(program.path, file)[1, 2]) == (409, ""), "no match ends so"
    for table in (2, 3, 4):
        assert pages.hand_in(table, "2-0-0")[0] == 303, f"table {table}"
    assert [it.outcome for it in pages.reports.all] == [
        "stored",
        "same",
        "other",
        "settled",
        "other",
        "same",
        "refused 13",
        *["stored"] * 3,
    ], "reports"
    check_said("pair asks back", prompt.said(file, "pair", "y"), "a phone says 2-1", "Pair all the same?")
    pages.cache.read()
    status, _, text = pages.ask("GET", aim)
    assert (status, "This round is over" in text) == (200, True), "a slip of a round before"
    assert (pages.ask("POST", aim, "s=2-0-0")[0], results(program.path, file)[1, 1]) == (
        303,
        "0-2-0",
    ), "it replaces nothing"


@PAGES
def test_both(prompt, program, room, pages_over):
    """A score is stored once both seats say it, also after a restart; the prompt decides where they differ."""
    file = made(program.path, f"{room}/e.event")
    pages = pages_over(file, asks_both=True)
    assert (pages.hand_in(1, "2-1-0", 1), results(program.path, file)[1, 1]) == (
        (303, pages.target(1, 1)),
        "",
    ), "one seat"
    pages = pages_over(file)
    assert (pages.hand_in(1, "2-1-0", 2)[0], results(program.path, file)[1, 1]) == (
        303,
        "2-1-0",
    ), "the other one"
    pages.hand_in(2, "2-0-0", 1)
    pages.hand_in(2, "0-2-0", 2)
    text = prompt.said(file, "phones")
    check_said(
        "both are shown",
        text,
        "Not stored at table 2",
        "says 2-0. If that is right: 2 2 0 0",
        "says 0-2. If that is right: 2 0 2 0",
    )
    assert results(program.path, file)[1, 2] == "", "nothing is stored"
    text = prompt.said(file, "2 2 0", "phones")
    assert (results(program.path, file)[1, 2], "Two scores" in text) == ("2-0-0", False), "the prompt decides"


@PAGES
def test_lost(program, room, pages_over, stand_in):
    """The program is killed before a result or after it: the phone gets its answer all the same, and nothing happens twice."""
    file = made(program.path, f"{room}/e.event")
    pages = pages_over(file, stand_in(LOSSY))
    for table, when in enumerate(("before", "behind"), 1):
        open(f"{file}.{when}", "w").close()
        serial = read(file).serial
        assert (pages.hand_in(table, "2-1-0"), results(program.path, file)[1, table]) == (
            (303, pages.target(table)),
            "2-1-0",
        ), f"killed {when}"
        assert read(file).serial == serial + 1, f"killed {when}, the serial"


@PAGES
def test_held(program, room, pages_over, serve, monkeypatch):
    """While `serve` holds the file a phone shows that nothing is handed in; then it goes on."""
    from event_companions.phones import score_queue

    file = made(program.path, f"{room}/e.event")
    pages = pages_over(file)
    serving = serve(file, 9)
    with monkeypatch.context() as patience:
        patience.setattr(score_queue, "SECONDS_FOR_A_SCORE", 1.0)
        status, _, text = pages.ask("POST", pages.target(1), "s=2-0-0")
    assert (status, "It is not handed in yet" in text) == (503, True), "held"
    serving.kill()
    assert (pages.hand_in(1, "2-0-0")[0], results(program.path, file)[1, 1]) == (303, "2-0-0"), "and then"


@PAGES
def test_other_pairing(prompt, program, room, pages_over):
    """The scorekeeper goes back, and pairs by another key, while a phone looks at the slip of before: its score is of nobody who sits there now."""
    file = made(program.path, f"{room}/e.event", 32)
    assert prompt.typed(file, *(f"{table} 2 0" for table in range(1, 17)), "pair")[0] == 0, "the prompt"
    pages = pages_over(file)
    aims = {table: pages.target(table) for table in range(1, 17)}
    assert prompt.typed(file, "back 1", "y", "pair new")[0] == 0, "the prompt"
    check_others(program, file, pages, aims)


def check_others(program, file, pages, aims):
    """Others sit at most tables of the round than those whose codes these are."""
    now = targets(program.path, file)
    changed_tables = [table for table, aim in aims.items() if now[table] != aim]
    assert len(changed_tables) > 8, "others sit at most tables"
    answers = {pages.ask("POST", aims[table], "s=2-0-0")[0] for table in changed_tables[:4]}
    number = pages.cache.now.number
    assert (answers, {results(program.path, file)[number, table] for table in aims}) == (
        {503},
        {""},
    ), "nothing is handed in for others"
    pages.cache.read()
    assert {table: pages.target(table) for table in aims} == now, "it is read"
    assert {pages.ask("POST", aims[table], "s=2-0-0")[0] for table in changed_tables} == {
        404
    }, "their codes are none now"
    assert pages.hand_in(1, "2-0-0")[0] == 303, "and the new ones are"


@PAGES
def test_other_file_in_place(program, room, pages_over):
    """Another pairing is copied into the file, which keeps its place on the disk, while phones look at the one of before."""
    file, other = made(program.path, f"{room}/e.event", 32), f"{room}/other.event"
    shutil.copy(f"{room}/e.event", other)
    for path, key in ((file, "1" * 64), (other, "2" * 64)):
        for table in range(1, 17):
            assert program.run("result", path, "1", str(table), "2", "0", "0")[0] == 0, "a result"
        assert program.run("pair", path, "2", key)[0] == 0, "the second round"
    pages = pages_over(file)
    aims = {table: pages.target(table) for table in range(1, 17)}
    # what was handed in before leaves nothing that is taken for granted
    assert pages.hand_in(16, "2-0-0")[0] == 303, "a score before"
    inode = os.stat(file).st_ino
    shutil.copyfile(other, file)
    assert os.stat(file).st_ino == inode, "in place"
    check_others(program, file, pages, aims)
