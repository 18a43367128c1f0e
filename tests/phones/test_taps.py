"""An event that is played by phones: each score is tapped in a headless browser, 360 pixels wide and with scripts off, by the codes of the printed slips. The
scorekeeper goes on at the prompt meanwhile: pairs, corrects, settles two scores, drops who goes home, goes back to a copy and pairs again, cuts and plays
the playoff. After each round the standings are those of the plain reading, and at the end the file.

Before it, each screen is laid out in light and dark: nothing is wider than the phone, what is tapped is large enough, and all is done by the tab key too.
"""
import concurrent.futures
import contextlib
import copy
import itertools
import re
import tempfile

import pytest

from second_reading.plain_event import FINISHED, Event
from tests.support.event_files import rows_alone, rows_of
from tests.support.phone_rooms import Gateway, asked, codes_in, links, targets
from tests.support.program import laid as laid_bytes
from tests.support.random_evenings import STARTED, evening, laid
from tests.support.sheets import BROWSERS
from tests.support.taps import WIDTH, Browser, Phone
from tests.support.waiting import comes

# phone_rooms has put it on the path
from event_companions.beside.entries import Entries

pytestmark = [
    pytest.mark.needs("an event that is played by taps", command=BROWSERS, package="a browser (chromium)"),
    pytest.mark.needs("an event that is played by taps", module="waitress", package="python3-waitress"),
    pytest.mark.needs("an event that is played by taps", module="jinja2", package="python3-jinja2"),
]
TABS = 3
SCORES = ["2-0-0", "2-1-0", "0-2-0", "1-2-0", "1-1-0", "1-1-1"]
# of the event, the second number with --long
PLAYERS = 8, 64
# what is narrower or lower than this is hard to hit (WCAG 2.2, 2.5.8, asks for 24)
LEAST_TARGET = 44

MEASURE = """(() => {
  const seen = it => it.getClientRects().length > 0;
  const size = it => { const box = (it.closest('label.check') || it).getBoundingClientRect(); return [Math.round(box.width), Math.round(box.height)]; };
  const small = [...document.querySelectorAll('button, .button, nav a, summary, input:not([type=hidden]), select')].filter(seen).filter(it => Math.min(...size(it)) < LEAST);
  const letters = [...document.querySelectorAll('main *')].filter(it => seen(it) && it.childNodes.length && it.innerText && it.innerText.trim()).map(it => parseFloat(getComputedStyle(it).fontSize));
  return {wide: document.documentElement.scrollWidth, small: small.map(it => it.outerHTML.slice(0, 80)), letters: Math.min(...letters), paper: getComputedStyle(document.documentElement).backgroundColor};
})()""".replace(
    "LEAST", str(LEAST_TARGET)
)


# whoever has the browser's letters at twice their size reads all of it without moving it sideways (WCAG 2.2, 1.4.4)
WIDE_IN_LARGE_LETTERS = """(() => {
  const root = document.documentElement;
  root.style.fontSize = 2 * parseFloat(getComputedStyle(root).fontSize) + 'px';
  const wide = root.scrollWidth;
  root.style.fontSize = '';
  return wide;
})()"""


@pytest.fixture(scope="module")
def opened(browser):
    """The browser whose tabs are phones."""
    with tempfile.TemporaryDirectory() as room, Browser(browser, room) as opened:
        yield opened


def test_layout(program, room, dice, opened):
    """Each screen in light and dark, with names as long and as odd as they may be."""
    event = evening(dice, 24, STARTED, 3, 0, True)
    event.pair(1, bytes(32))
    file = laid(program.path, f"{room}/e.event", event, "A long name of an event that goes on and on")
    with Gateway(program.path, file) as gateway:
        aims, at = targets(program.path, file), f"http://127.0.0.1:{gateway.port}"
        own = list(links(program.path, file).values())
        Entries(file).begin()
        papers = {}
        for is_dark in (False, True):
            for language in ("en", "de"):
                phone = Phone(opened, is_dark=is_dark, language=language)
                # names of all kinds, on each of the screens
                pages = ["/", "/enter", "/?q=a", "/pairings", "/standings", *own[:3], *aims.values()][
                    : 10 if language == "de" else 24
                ]
                pages += [f"{aims[1]}?s=2-1-0", f"{aims[2]}?x=1&y=1&d=3", f"{aims[1]}X"]
                for page in pages:
                    phone.go(at + page)
                    found = phone.value(MEASURE)
                    name = f"{page[:20]}, {'dark' if is_dark else 'light'}, {language}"
                    assert found["wide"] <= WIDTH, f"{name}, no wider than a phone"
                    assert found["small"] == [], f"{name}, all is easily hit"
                    assert found["letters"] >= 13, f"{name}, letters"
                    assert (
                        phone.value(WIDE_IN_LARGE_LETTERS) <= WIDTH
                    ), f"{name}, no wider in letters of twice the size"
                    papers.setdefault(is_dark, set()).add(found["paper"])
        assert [sorted(it) for it in papers.values()] == [
            ["rgb(255, 255, 255)"],
            ["rgb(17, 17, 17)"],
        ], "light and dark"
        by_keys(Phone(opened), at, aims[3])
        by_typing(Phone(opened, language="de"), at, 4, aims[4].rsplit("/", 1)[1])
        without_scripts(Phone(opened), at)
        scores = {
            int(it.split(",")[1]): "-".join(it.split(",")[4:])
            for it in asked(program.path, ["export", file, "results"]).split("\n")[1:-1]
        }
        assert (scores[3], scores[4]) == ("2-1-0", "0-2-0"), "by keys, and by what was typed"


def by_keys(phone, at, target):
    """Three screens by the tab key and Enter: the focus is seen on each button."""
    phone.go(at + target)
    press_until(phone, "document.activeElement.value == '2-1-0'")
    outline = phone.value("getComputedStyle(document.activeElement).outlineWidth")
    assert int(float(outline[:-2])) >= 3, "the focus is seen"
    phone.key("Enter", 13, "\r", leads_on=True)
    press_until(phone, "document.activeElement.className == 'act'")
    phone.key("Enter", 13, "\r", leads_on=True)
    assert "The score is in." in phone.text(), "by keys alone"


def press_until(phone, is_so):
    for _ in range(40):
        phone.key("Tab", 9)
        if phone.value(is_so):
            return
    pytest.fail(f"not reached by the tab key: {is_so}")


def by_typing(phone, at, table, code):
    """A phone that can't scan: table and code are typed."""
    phone.go(at + "/")
    for name, text in (("table", str(table)), ("code", f"{code[:4]}-{code[4:]}".lower())):
        phone.tap(f"input[name={name}]", leads_on=False)
        phone.send("Input.insertText", text=text)
    phone.tap("button.act")
    phone.tap("button[value='0-2-0']")
    phone.tap("button.act")
    assert "Das Ergebnis ist gespeichert." in phone.text(), "typed, in German"


def without_scripts(phone, at):
    phone.go(at + "/pairings")
    assert phone.value("document.scripts.length") == 0, "no page has a script"


# ---- an event


class Play:
    """The file, the plain event beside it, and the phones."""

    def __init__(self, program, prompt, sheets, dice, browser, players):
        self.program, self.prompt, self.sheets = program, prompt, sheets
        self.file, self.dice, self.rounds = f"{sheets.room}/e.event", dice, 6 if players > 32 else 3
        self.cut = 8 if players > 32 else 4
        self.event = Event(self.rounds, self.cut)
        names = "".join(f"{name}\n" for name in ["name", *map(name_of, range(1, players + 1))])
        path = laid_bytes(sheets.room, "names.csv", names.encode())
        lines = [f"init Friday Night {self.rounds} {self.cut}", f"import {path}", "y", "start"]
        assert prompt.typed(self.file, *lines)[0] == 0, "the prompt"
        for number in range(1, players + 1):
            self.event.enrol(name_of(number))
        self.event.start()
        self.phones = [Phone(browser, is_dark=bool(at % 2)) for at in range(TABS)]
        self.taps = 0

    def say(self, *lines):
        return self.prompt.said(self.file, *lines)

    def pair(self, *words):
        """The next round, by the key that the prompt has for it."""
        number = len(self.event.stored) + 1
        text = self.say(" ".join(["pair", *words]))
        key = [
            line.split()
            for line in open(f"{self.file}.keys")
            if line.startswith(f"round {number} ") and "unused" not in line
        ][-1][2]
        answer = self.event.pair(number, bytes.fromhex(key))
        assert (answer[0] in text, "\n".join(self.event.slips(number)) in text) == (
            True,
            True,
        ), f"round {number} is paired"

    def targets(self):
        """What is scanned at each table, from the printed slips."""
        number, text = len(self.event.stored), self.printed("slips")
        tables = [int(it) for it in re.findall(r'class="table">Table (\d+)<', text)]
        return {table: f"/T/{number}/{table}/{code}" for table, code in zip(tables, codes_in(text))}

    def target_of_other(self, targets, table):
        """What the other player scans."""
        return targets[table]

    def goes_home(self, table):
        """Whose box the phone of the table ticks."""
        return self.event.stored[-1][table - 1][0]

    def printed(self, part):
        status, text, errors = self.sheets.printed(self.file, "--parts", part)
        assert (status, errors) == (0, ""), part
        return text

    def play_round(self, gateway):
        number, tables = len(self.event.stored), [
            at for at, match in enumerate(self.event.stored[-1], 1) if match[1]
        ]
        codes = self.targets()
        assert sorted(codes) == tables, f"round {number}, a code for each table"
        assert comes(
            lambda: f"Round {number}: 0 of {len(tables)}"
            in gateway.ask("GET", "/", port=gateway.desk_port)[2]
        ), f"round {number}, the phones see it"
        if number == 2:
            self.go_back(gateway, codes, tables)
        scores = {table: self.dice.choice(SCORES) for table in tables}
        home = self.dice.choice(tables)
        self.tap_all(gateway, codes, scores, home)
        for table, score in scores.items():
            self.report(number, table, score, True)
        self.contradict(gateway, codes, number, self.dice.choice(tables), scores)
        self.drop_home(number, home)
        assert asked(self.program.path, ["standings", self.file]) == "".join(
            f"{it}\n" for it in self.event.standings()
        ), f"round {number}, standings"

    def report(self, number, table, score, is_new):
        answer = self.event.report(number, table, tuple(map(int, score.split("-"))), is_new)
        assert answer[0].startswith("ok "), f"round {number}, table {table}, the rules take {score}"

    def go_back(self, gateway, codes, tables):
        """Some scores are in when the scorekeeper goes back to the copy before the round, and pairs again: slips stay good, and scores are to come again."""
        some = {table: "2-0-0" for table in tables[: len(tables) // 2]}
        self.tap_all(gateway, codes, some, 0)
        number = len(self.event.stored)
        copies = self.say("back")
        chosen = next(
            line.split()[0] for line in copies.split("\n") if f"before the pairing of round {number}" in line
        )
        text = self.say(f"back {chosen}", "y")
        assert "Round 2 was paired since" in text, "back names what came since"
        self.event = self.before
        self.pair("again")
        assert self.targets() == codes, "the same codes"
        assert comes(
            lambda: f"Round {number}: 0 of {len(tables)}"
            in gateway.ask("GET", "/", port=gateway.desk_port)[2]
        ), "the phones see it"

    def tap_all(self, gateway, codes, scores, home):
        number, lists = len(self.event.stored), [list(scores.items())[at::TABS] for at in range(TABS)]
        with concurrent.futures.ThreadPoolExecutor(TABS) as pool:
            tapped = [
                pool.submit(self.tap_some, phone, gateway, codes, some, home)
                for phone, some in zip(self.phones, lists)
            ]
        # not in the threads: an `assert` there isn't counted
        for table, place, shown, said in itertools.chain.from_iterable(it.result() for it in tapped):
            assert place == f"Table {table}", f"round {number}, table {table}, where it is"
            assert shown == scores[table].split("-")[:2], f"round {number}, table {table}, once more"
            assert "The score is in." in said, f"round {number}, table {table}, stored"
            self.taps += 2

    def tap_some(self, phone, gateway, codes, scores, home):
        """What each table was shown before the score was handed in, and what was said after it."""
        tapped = []
        for table, score in scores:
            phone.go(f"HTTP://127.0.0.1:{gateway.port}{codes[table]}")
            place = phone.value("document.querySelector('h2').innerText")
            phone.tap(f"button[value='{score}']")
            shown = phone.value("[...document.querySelectorAll('dd')].map(it => it.innerText)")
            if table == home:
                phone.tap("summary", leads_on=False)
                phone.tap("input[type=checkbox]", leads_on=False)
            phone.tap("button.act")
            tapped.append((table, place, shown[:2], phone.text()))
        return tapped

    def contradict(self, gateway, codes, number, table, scores):
        """The other player says something else. The scorekeeper looks, and replaces the score, or leaves it."""
        other = next(it for it in SCORES if it != scores[table])
        phone = self.phones[0]
        phone.go(f"http://127.0.0.1:{gateway.port}{self.target_of_other(codes, table)}")
        phone.tap("button[name=wrong]")
        assert "The scorekeeper has been told" in phone.text(), f"round {number}, that it is wrong is told"
        phone.tap(f"button[value='{other}']")
        phone.tap("button.act")
        assert "Stored is another score." in phone.text(), f"round {number}, another score is told"
        text = self.say("phones")
        words = f"fix {number} {table} {' '.join(other.split('-'))}"
        assert words in text, f"round {number}, the line to type"
        if number % 2:
            assert "ok " in self.say(words), f"round {number}, fixed"
            self.report(number, table, other, False)
        else:
            kept = f"fix {number} {table} {' '.join(scores[table].split('-'))}"
            assert (kept in text, "ok " in self.say(kept)) == (True, True), f"round {number}, left as it is"
            self.report(number, table, scores[table], False)
        assert not ("Two scores" in self.say("phones")), f"round {number}, it is settled"

    def drop_home(self, number, home):
        player = self.goes_home(home)
        assert f"drop {player}\n" in self.say("phones"), f"round {number}, who goes home"
        assert "is dropped" in self.say(f"drop {player}", "y"), f"round {number}, dropped"
        self.event.drop(player)

    def play_off(self):
        text = self.say("cut", "y")
        self.event.end_rounds()
        assert "\n".join(self.event.bracket()) in text, "the cut"
        while self.event.phase != FINISHED:
            stage = len(self.event.stages)
            slot = next(at for at, match in enumerate(self.event.stages[-1], 1) if not match[2])
            score = self.dice.choice([(2, 0, 0), (1, 2, 0), (2, 1, 0)])
            assert "ok " in self.say(
                f"play {stage} {slot} {' '.join(map(str, score))}"
            ), f"stage {stage}, slot {slot}"
            self.event.play(stage, slot, score)


class PlayByLinks(Play):
    """No slip is printed: each player has a strip from the start, whose page goes on from round to round."""

    strips = None

    def targets(self):
        # event-phones has the key of the codes, so that strips are printed once it serves
        self.strips = self.strips or self.of_strips()
        return {
            table: self.strips[self.scans(table)[0]]
            for table, match in enumerate(self.event.stored[-1], 1)
            if match[1]
        }

    def of_strips(self):
        text = self.printed("links")
        strips = dict(
            zip(
                map(int, re.findall(r'class="no">No (\d+)<', text)),
                re.findall(r'class="code">([A-Z-]{14})<', text),
            )
        )
        assert sorted(strips) == list(range(1, len(self.event.names) + 1)), "a strip for each player"
        # so that none loads itself again between two taps
        return {number: f"/P/{number}/{code.replace('-', '')}?still=1" for number, code in strips.items()}

    def scans(self, table):
        """Who of the two hands in, and the other one."""
        match = self.event.stored[-1][table - 1][:2]
        return match if table % 2 else match[::-1]

    def target_of_other(self, targets, table):
        return self.strips[self.scans(table)[1]]

    def goes_home(self, table):
        return self.scans(table)[0]

    def play_round(self, gateway):
        super().play_round(gateway)
        if len(self.event.stored) == self.rounds - 1:
            self.follow(gateway)

    def follow(self, gateway):
        """A page that is open goes on to the new round by itself."""
        still_there = [number for number in self.strips if number not in self.event.dropped]
        player, phone = still_there[0], self.phones[0]
        phone.go(f"http://127.0.0.1:{gateway.port}{self.strips[player].partition('?')[0]}")
        self.before = copy.deepcopy(self.event)
        self.pair()
        match = next(it for it in self.event.stored[-1] if player in it[:2])
        other = sum(match[:2]) - player
        due = f"against {name_of(other)}" if other else "You have a bye"
        assert comes(lambda: shows(phone, due), 90), "the next table, by itself"
        super().play_round(gateway)


def shows(phone, text):
    """Whether a page that may just be loaded has a text."""
    with contextlib.suppress(OSError, ValueError):
        return text in phone.text()
    return False


def name_of(number):
    return f"{('Ana', 'Bo', 'Zoë', 'محمد')[number % 4]} {number} of the House"


@pytest.mark.parametrize("kind", [Play, PlayByLinks], ids=["slips", "links"])
def test_event(request, program, prompt, sheets, dice, opened, kind):
    """Each score is tapped by the code of its slip, or by the page of one of the two players. The scorekeeper goes on at the prompt meanwhile."""
    play = kind(program, prompt, sheets, dice, opened, PLAYERS[request.config.option.long])
    with Gateway(program.path, play.file) as gateway:
        while len(play.event.stored) < play.rounds:
            play.before = copy.deepcopy(play.event)
            play.pair()
            play.play_round(gateway)
        play.play_off()
        assert comes(
            lambda: 'class="seat champion"' in gateway.ask("GET", "/board")[2]
        ), "the board has the champion"
        status, errors = gateway.interrupt()
        assert (status, errors) == (0, ""), "nothing on standard error"
    assert rows_alone(play.file) == rows_of(
        play.event, "Friday Night"
    ), "the file is that of the plain reading"
    assert asked(program.path, ["bracket", play.file]) == "".join(
        f"{it}\n" for it in play.event.bracket()
    ), "the bracket"
