"""Sheets and boards as a browser lays them out: on paper, A4 and Letter, read back by `pdftotext`; on screens of three sizes, with the clock and the parts
in turn; and slips of one height.
"""
import functools
import html
import json
import os
import re
import struct
import subprocess

import pytest

from tests.support.plain_page import (
    bracket_due,
    final_due,
    folded,
    name_rows,
    parts_due,
    standings_due,
    table_rows,
)
from tests.support.random_evenings import COMPLETE, ENDED, HOSTILE, IN_PLAYOFF, OPEN, STARTED, evening, laid
from tests.support.sheets import BROWSERS
from tests.support.waiting import PATIENCE
from tools import pictures

pytestmark = pytest.mark.needs("sheets and boards", module="jinja2", package="python3-jinja2")


def browse(browser, room, path, *words):
    """What a browser without a window prints of a page."""
    line = [
        browser,
        "--headless",
        "--no-sandbox",
        "--disable-gpu",
        f"--user-data-dir={room}/browser",
        *words,
        f"file://{path}",
    ]
    return subprocess.run(
        line,
        stdin=subprocess.DEVNULL,
        stdout=subprocess.PIPE,
        stderr=subprocess.DEVNULL,
        timeout=PATIENCE,
        check=True,
    ).stdout


# ---- paper


def joined(text):
    """Without any space, since a name may go on in a second line."""
    return "".join(text.split())


class Paper:
    """A page as a browser lays it out on paper: the text of each sheet, and whether all of it lies within the margins."""

    def __init__(self, browser, room, text, size):
        path, pdf = f"{room}/{size}.html", f"{room}/{size}.pdf"
        with open(path, "w", encoding="utf-8") as it:
            it.write(text.replace("</head>", f"<style>@page {{ size: {size}; }}</style></head>"))
        browse(browser, room, path, "--no-pdf-header-footer", f"--print-to-pdf={pdf}")
        self.sheets = self.read(pdf, "-raw").split("\f")[:-1]
        self.boxes = self.read(pdf, "-bbox")

    def read(self, pdf, *words):
        return subprocess.run(
            ["pdftotext", "-enc", "UTF-8", *words, pdf, "-"],
            capture_output=True,
            timeout=PATIENCE,
            check=True,
        ).stdout.decode()

    def size(self):
        width, height = re.search(r'<page width="([\d.]+)" height="([\d.]+)"', self.boxes).groups()
        return round(float(width)), round(float(height))

    def outside(self, margin=20):
        """The words that lie nearer to an edge than the margin, in points, or beyond it."""
        width, height = self.size()
        words = re.findall(
            r'<word xMin="([-\d.]+)" yMin="([-\d.]+)" xMax="([-\d.]+)" yMax="([-\d.]+)">(.*?)</word>',
            self.boxes,
        )
        is_within = (
            lambda it: margin <= float(it[0])
            and float(it[2]) <= width - margin
            and margin <= float(it[1])
            and float(it[3]) <= height - margin
        )
        return [it[4] for it in words if not is_within(it)]

    def kinds(self):
        """Which part each sheet is of, by its heading; slips have none, and have signatures."""
        names = {
            "bytable": "tables",
            "byname": "names",
            "Standingsafter": "standings",
            "Playoff": "bracket",
            "Finalranking": "final",
        }
        found = []
        for text in map(joined, self.sheets):
            found.append(
                "slips" if "signature" in text else next((names[it] for it in names if it in text[:80]), "?")
            )
        return found


SIZES = {"A4": (595, 842), "letter": (612, 792)}
# what pdftotext gives back letter by letter, in the order in which it stands
PLAIN = [it for it in HOSTILE if it.isascii()]


def check_paper(name, paper, event, size, parts):
    number = len(event.stored)
    kinds = paper.kinds()
    width, height = paper.size()
    assert max(abs(width - SIZES[size][0]), abs(height - SIZES[size][1])) <= 1, f"{name}, the paper"
    assert [
        it for at, it in enumerate(kinds) if at == 0 or kinds[at - 1] != it
    ] == parts, f"{name}, each part on sheets of its own"
    assert paper.outside() == [], f"{name}, nothing beyond the margins"
    of = {kind: [joined(text) for text, it in zip(paper.sheets, kinds) if it == kind] for kind in set(kinds)}
    for kind, rows in (
        ("tables", [(it[0] + it[1] + it[2], it[4]) for it in table_rows(event, number)]),
        ("names", [(it[1], it[4]) for it in name_rows(event, number)]),
    ):
        missing = [
            it for it in rows if not any(all(joined(word) in text for word in it) for text in of[kind])
        ]
        assert missing == [], f"{name}, {kind}, each line whole on one sheet"
    missing = [
        it
        for it in standings_due(event)
        if not any(joined(it[2]) in text and it[5] in text for text in of["standings"])
    ]
    assert missing == [], f"{name}, standings, each line whole on one sheet"
    if "slips" in of:
        slips = [
            (f"Round{number}Table{it[0]}", it[2], it[4])
            for it in table_rows(event, number)
            if it[3] and not it[5]
        ]
        missing = [
            it for it in slips if not any(all(joined(word) in text for word in it) for text in of["slips"])
        ]
        assert missing == [], f"{name}, slips, each whole on one sheet"
        assert sum(it.count("signature") for it in of["slips"]) == 2 * len(
            slips
        ), f"{name}, slips, several a sheet"
        count = -(-len(slips) // 5)
        order = [[slips[at][0] for at in range(sheet, len(slips), count)] for sheet in range(count)]
        texts = [text for text, kind in zip(paper.sheets, kinds) if kind == "slips"]
        found = [
            [f"Round{number}Table{table}" for table in re.findall(r"\bTable (\d+)\b", text)] for text in texts
        ]
        assert found == order, f"{name}, slips, in cutting order"
        assert len(of["slips"]) <= len(slips) // 4 + 1, f"{name}, slips, few sheets"
        assert all(
            re.search(r"^printed", text, re.M) for text in texts
        ), f"{name}, slips, when they were printed"
    if "final" in of:
        missing = [
            it for it in final_due(event) if not any(joined("".join(it)) in text for text in of["final"])
        ]
        assert missing == [], f"{name}, final ranking, each line whole on one sheet"
    if "bracket" in of:
        seats = bracket_due(event)[1]
        assert [it for it in seats if joined(it[0]) not in of["bracket"][0]] + of["bracket"][
            1:
        ] == [], f"{name}, the bracket on one sheet"


@pytest.fixture
def event(dice, kind):
    """A finished event with names that pdftotext gives back, or a large one."""
    if kind == "finished":
        event = evening(dice, 23, ENDED, 4, 8)
    else:
        event = evening(dice, 256, STARTED, 3, 0)
        event.pair(1, bytes(32))
    event.names[: len(PLAIN)] = PLAIN
    return event


LISTS = ["tables", "names", "slips", "standings"]


@pytest.mark.needs("sheets on paper", command=BROWSERS)
@pytest.mark.needs("sheets on paper", command="pdftotext")
@pytest.mark.parametrize("kind", ["finished", "large"])
def test_on_paper(sheets, program, room, event, browser, kind):
    """Each part begins a sheet of its own, no line is split between two, and nothing is beyond the margins."""
    is_finished = kind == "finished"
    words = ["--round", "4"] if is_finished else ["--parts", ",".join(LISTS)]
    parts = parts_due(event, 4, names_a_round=True) if is_finished else LISTS
    file = laid(program.path, f"{room}/e.event", event, "E")
    _, text, _ = sheets.printed(file, "--title", "Friday Night", *words)
    for size in SIZES:
        check_paper(f"on {size}", Paper(browser, room, text, size), event, size, parts)


@pytest.mark.needs("sheets on paper", command=BROWSERS)
@pytest.mark.needs("sheets on paper", command="pdftotext")
@pytest.mark.parametrize("players, pages", [(45, 1), (46, 2)])
def test_a_list_by_name_on_one_page(sheets, program, room, dice, browser, players, pages):
    """With all that may stand above it: the subtitle, how the round was drawn, and where phones are served. Each page has its number, and the time."""
    event = evening(dice, players, STARTED, 3, 0)
    event.pair(1, bytes(32))
    for table in range(1, players // 2 + 1):
        event.report(1, table, (2, 0, 0), True)
    event.pair(2, bytes(32))
    file = laid(program.path, f"{room}/e.event", event, "E")
    with open(f"{file}.phones", "w") as it:
        it.write(f"at http://192.168.1.10:8080\nkey {'0' * 64}\nboth no\n")
    with open(f"{file}.look", "w") as it:
        it.write("subtitle = Modern, Owls Game Shop\n")
    # as it is printed, with its time
    text = subprocess.run(
        sheets.words(file, "--parts", "names"), stdout=subprocess.PIPE, timeout=PATIENCE, check=True
    ).stdout.decode()
    for size in SIZES:
        paper = Paper(browser, room, text, size)
        assert (len(paper.sheets), paper.outside()) == (pages, []), size
        for number, sheet in enumerate(paper.sheets, 1):
            assert f"{number}/{pages}" in sheet and re.search(
                r"printed \d{4}-\d\d-\d\d \d\d:\d\d", sheet
            ), size
            assert "Modern, Owls Game Shop" in sheet, size


@pytest.mark.needs("sheets on paper", command=BROWSERS)
@pytest.mark.needs("sheets on paper", command="pdftotext")
@pytest.mark.parametrize("players", [8, 37])
@pytest.mark.parametrize("part", ["tables", "standings"])
def test_a_row_stands_on_one_line(room, browser, part, players):
    """Its number, table, record and percentages, in letters of several sizes, stand on the line of the name."""
    played = pictures.evening(players)
    played.names[:] = [f"Bo{number}" for number in range(1, players + 1)]
    text = pictures.Room(browser, room, room).page(played, [part], is_board=False)
    words = re.findall(
        r'<word xMin="[-\d.]+" yMin="([-\d.]+)" xMax="[-\d.]+" yMax="([-\d.]+)">(.*?)</word>',
        Paper(browser, room, text, "A4").boxes,
    )
    # where letters stand, in most typefaces: of the box of a word a fifth lies below
    lines = [(float(top) + 0.79 * (float(bottom) - float(top)), word) for top, bottom, word in words]
    names = [line for line, word in lines if word.startswith("Bo")]
    apart = {
        word: min(abs(line - it) for it in names)
        for line, word in lines
        if names[0] - 4 < line < names[-1] + 4
    }
    assert len(names) == players and {word: points for word, points in apart.items() if points > 0.6} == {}


# ---- the screen

# what a browser says of the layout of a board, with each part in its turn: of each name the lines that it takes, how far down and across it goes, how small
# its letters are, which texts lie over one another, and in how many looks the part is shown
MEASURE = """
<script>
const lines = node => {
  const range = document.createRange();
  range.selectNodeContents(node);
  const tops = [];
  for (const it of range.getClientRects())
    if (it.width && !tops.some(top => Math.abs(top - it.top) < it.height / 2)) tops.push(it.top);
  return tops.length;
};
const seen = node => getComputedStyle(node).visibility === "visible" && node.getClientRects().length;
const lettersOf = node => {
  const drawing = node.closest(".tree");
  return parseFloat(getComputedStyle(node).fontSize) * (drawing ? drawing.getScreenCTM().a : 1);
};
const texts = () => {
  const walker = document.createTreeWalker(document.body, NodeFilter.SHOW_TEXT, it => (it.textContent.trim() && seen(it.parentNode) && !it.parentNode.closest(".slip .event") ? 1 : 2));
  const found = [];
  while (walker.nextNode()) {
    const range = document.createRange();
    range.selectNodeContents(walker.currentNode);
    for (const it of range.getClientRects())
      found.push({ text: walker.currentNode.textContent.trim(), left: it.left, right: it.right, top: it.top, bottom: it.bottom, letters: lettersOf(walker.currentNode.parentNode) });
  }
  return found;
};
const over = all => {
  const found = [];
  for (const one of all) for (const other of all)
    if (one !== other && one.text !== other.text && one.left + 1 < other.right && other.left + 1 < one.right && one.top + 0.35 * one.letters < other.bottom - 0.2 * other.letters && other.top + 0.35 * other.letters < one.bottom - 0.2 * one.letters)
      found.push([one.text, other.text]);
  return found;
};
const bottoms = what => [...document.querySelectorAll(what)].map(it => it.getBoundingClientRect().bottom);
const measured = part => {
  const all = texts(), looks = part && part.querySelector(".looks");
  return {
    names: [...document.querySelectorAll(".now td bdi, .now .seat bdi")].filter(seen).map(it => [it.textContent, lines(it)]),
    bottom: Math.max(0, ...all.map(it => it.bottom), ...bottoms(".now .tree, .now .seat")),
    wide: document.documentElement.scrollWidth,
    high: innerHeight,
    looks: looks ? (looks.scrollWidth + parseFloat(getComputedStyle(looks).columnGap)) / (looks.clientWidth + parseFloat(getComputedStyle(looks).columnGap)) : 1,
    cut: looks ? looks.scrollHeight - looks.clientHeight : 0,
    rows: part ? [...part.querySelectorAll("tbody tr:not(.heads)")].map(it => it.getBoundingClientRect()).filter(it => it.bottom > part.getBoundingClientRect().bottom + 1).length : 0,
    smallest: Math.min(...all.filter(it => it.right > 0 && it.left < innerWidth).map(it => it.letters)),
    over: over(all.filter(it => it.right > 0 && it.left < innerWidth)).slice(0, 5),
    slips: [...document.querySelectorAll(".slip")].map(it => Math.round(10 * it.getBoundingClientRect().height)),
    inside: [...document.querySelectorAll(".slip")].filter(it => it.scrollHeight > it.clientHeight + 1).map(it => it.textContent),
    slip_names: [...document.querySelectorAll(".slip .name bdi")].map(it => [it.textContent, lines(it)]),
  };
};
window.onload = () => {
  const found = { all: measured() }, parts = [...document.querySelectorAll(".part")];
  for (const part of parts) {
    for (const other of parts) other.classList.toggle("now", other === part);
    found[part.classList[1]] = measured(part);
  }
  const pre = document.createElement("pre");
  pre.id = "found";
  pre.textContent = JSON.stringify(found);
  document.body.append(pre);
};
</script>
"""
SCREENS = (1280, 720), (1920, 1080), (3840, 2160)
FIRST, LAST = "Maximiliane", "Oberhausener"
# the letters of a board are at least so large, in hundredths of the screen's width: 8 millimetres on a wall of two metres
LEAST_LETTERS = 0.4


def without_policy(text):
    """A board for a test that adds a script of its own, and that loads itself no more."""
    return re.sub('<meta http-equiv="[^"]*"[^>]*>', "", text)


def dumped(browser, room, text, width, height):
    """A page as it is after its scripts have run."""
    path = f"{room}/screen.html"
    with open(path, "w", encoding="utf-8") as it:
        it.write(text)
    return browse(
        browser, room, path, f"--window-size={width},{height}", "--virtual-time-budget=2000", "--dump-dom"
    )


@functools.lru_cache(maxsize=None)
def frame_of(browser, room):
    """How much higher a window is than what it shows."""
    page = "<!DOCTYPE html><body><script>document.body.textContent = `shows ${innerHeight}.`</script>"
    return 1000 - int(re.search(rb"shows (\d+)\.", dumped(browser, room, page, 1000, 1000))[1])


def found_in(browser, room, text, script, screen):
    """What the script, at the end of the head, puts on the page."""
    page = without_policy(text).replace("</head>", f"{script}</head>")
    printed = dumped(browser, room, page, screen[0], screen[1] + frame_of(browser, room))
    found = re.search('<pre id="found">(.*?)</pre>', printed.decode(), re.S)
    return json.loads(html.unescape(found[1]))


def laid_out(browser, room, text, screen=(1920, 1080)):
    """What a browser finds of the page on the screen."""
    return found_in(browser, room, text, MEASURE, screen)


def named_long(event):
    """The same players with names as long as people have them."""
    event.names = [
        f"{FIRST} {'Anna ' * (at % 3)}{LAST} {at}" if at % 2 else f"Bo Sato {at}"
        for at in range(1, len(event.names) + 1)
    ]


def check_layout(part, layout, screen):
    assert [it for it in layout["names"] if it[1] > len(it[0].split())] == [], f"{part}, names"
    assert (layout["wide"] <= screen[0], layout["high"]) == (
        True,
        screen[1],
    ), f"{part}, nothing beside the screen"
    assert layout["bottom"] <= screen[1], f"{part}, above the fold"
    assert (layout["rows"], layout["over"]) == (
        0,
        [],
    ), f"{part}, nothing is cut, and nothing lies over anything"
    assert layout["smallest"] >= LEAST_LETTERS * screen[0] / 100, f"{part}, letters"


CROWDS = [(8, OPEN, 4), (37, OPEN, 8), (37, ENDED, 8), (64, OPEN, 0), (128, COMPLETE, 0), (500, OPEN, 8)]


@pytest.mark.needs("the board on a screen", command=BROWSERS)
@pytest.mark.parametrize("screen", SCREENS)
@pytest.mark.parametrize("players, way, cut", CROWDS)
def test_screen(sheets, program, room, dice, browser, players, way, cut, screen):
    """On each screen: no name takes more lines than it has words, and each part that a board shows in its turn is seen whole, a large one in several looks."""
    event = evening(dice, players, way, 3, cut)
    named_long(event)
    file = laid(program.path, f"{room}/e.event", event, "E")
    with open(f"{file}.clock", "w") as it:
        it.write("until 1764362700 of 50\n")
    _, text, _ = sheets.printed(file, "--board", "--title", "Friday Night")
    found = laid_out(browser, room, text, screen)
    assert list(found) == ["all", *parts_due(event, len(event.stored), is_board=True)], "parts"
    # names of up to 37 letters; a large event has at least 45 of them in a look
    most = 1 if players <= 37 else 2 if players <= 64 else players / 45
    for part, layout in list(found.items())[1:]:
        check_layout(part, layout, screen)
        assert layout["looks"] < most + 0.01, f"{part}, in few looks"


@pytest.mark.needs("the board on a screen", command=BROWSERS)
@pytest.mark.parametrize("way", [OPEN, IN_PLAYOFF, ENDED])
def test_screen_in_german(sheets, program, room, dice, browser, way):
    """Its words are longer: they have room too, with a subtitle, phones, notes and a dark board."""
    event = evening(dice, 37, way, 3, 8)
    file = laid(program.path, f"{room}/e.event", event, "E")
    first = event.stored[-1][0]
    for ending, text in (
        (".look", "language = de\nsubtitle = Modern, im Spieleladen zur Eule\ndark = true\n"),
        (".clock", "until 1764362700 of 50\n"),
        (".phones", f"at http://192.168.1.10:8080\nkey {'0' * 64}\nboth no\n"),
        (".notes", f"round {len(event.stored)} table 1 players {first[0]} {first[1]} +5 min\n"),
    ):
        with open(f"{file}{ending}", "w", encoding="utf-8") as it:
            it.write(text)
    _, text, _ = sheets.printed(file, "--board", "--title", "Das große Freitagsturnier")
    for part, layout in list(laid_out(browser, room, text).items())[1:]:
        check_layout(part, layout, (1920, 1080))


@pytest.mark.needs("the board on a screen", command=BROWSERS)
def test_pictures_are_drawn(room, browser):
    """One of those that people look at, of the size of its screen."""
    name, what, how, screen = next(pictures.boards())
    drawing = pictures.Room(browser, room, room)
    drawing.shoot(name, drawing.page(*what, **how), screen)
    with open(f"{room}/{name}.png", "rb") as it:
        head = it.read(24)
    assert (head[1:4], struct.unpack(">II", head[16:24])) == (b"PNG", screen)


# of the band: how far the clock's middle is from the screen's, what is cut or lies beyond it, and which texts lie over others
BAND = """
<script>
window.onload = () => {
  const box = what => document.querySelector(what).getBoundingClientRect(), band = box(".band"), clock = box(".clock");
  const cells = [...document.querySelectorAll(".band h1, .band .subtitle, .band .where, .band .hour, .band .logo")].map(it => [it, it.getBoundingClientRect()]);
  const over = cells.filter(([one, a]) => cells.some(([other, b]) => one !== other && a.left < b.right && b.left < a.right && a.top + 1 < b.bottom && b.top + 1 < a.bottom));
  const pre = document.createElement("pre");
  pre.id = "found";
  pre.textContent = JSON.stringify({
    aside: (clock.left + clock.right) / 2 - innerWidth / 2,
    beyond: cells.filter(([it, a]) => a.top < band.top || a.bottom > band.bottom || a.right > innerWidth).map(([it]) => it.className || it.tagName),
    over: over.map(([it]) => it.className || it.tagName),
  });
  document.body.append(pre);
};
</script>
"""
# pictures of so many pixels
LOGOS = {"none": None, "wide": (600, 100), "square": (200, 200), "high": (80, 400)}
TITLES = {
    "short": ("Friday Night", "Modern"),
    "wide": ("W" * 60, "Modern, " * 12),
    "long": ("The great Friday of the Owls of Athens, with all its guests", ""),
}


@pytest.mark.needs("the board on a screen", command=BROWSERS)
@pytest.mark.parametrize("logo", LOGOS)
@pytest.mark.parametrize("words", TITLES)
def test_the_band_has_room_for_each_logo_and_title(room, browser, logo, words):
    """The clock stays in the middle, and all else is beside it, and in the band."""
    title, subtitle = TITLES[words]
    look = f"subtitle = {subtitle}\n" if subtitle else ""
    if LOGOS[logo]:
        width, height = LOGOS[logo]
        with open(f"{room}/logo.svg", "w") as it:
            it.write(
                f'<svg xmlns="http://www.w3.org/2000/svg" width="{width}" height="{height}"><rect width="{width}" height="{height}"/></svg>'
            )
        look += "logo = logo.svg\n"
    page = pictures.Room(browser, room, room).page(pictures.evening(8), ["tables"], look=look, title=title)
    for screen in SCREENS[:2]:
        found = found_in(browser, room, page, BAND, screen)
        assert abs(found["aside"]) <= 1, "the clock is in the middle"
        assert (found["beyond"], found["over"]) == ([], []), "all lies in the band, and nothing over anything"


# how large the letters of a row are
LETTERS = """
<script>
window.onload = () => {
  const size = what => parseFloat(getComputedStyle(document.querySelector(`.now .looks ${what}`)).fontSize), pre = document.createElement("pre");
  pre.id = "found";
  pre.textContent = JSON.stringify([".table", ".name", ".opponent"].map(size));
  document.body.append(pre);
};
</script>
"""


@pytest.mark.needs("the board on a screen", command=BROWSERS)
@pytest.mark.parametrize("players", [8, 37, 128])
def test_what_players_look_for_is_the_largest(room, browser, players):
    """By name, the table is larger than the name, and the name than that of the opponent."""
    page = pictures.Room(browser, room, room).page(pictures.evening(players), ["names"])
    table, name, opponent = found_in(browser, room, page, LETTERS, SCREENS[0])
    assert table > name > opponent >= 0.75 * name


# of each look the columns that are seen: the headings from the left to the right, those that don't stand above their cells, and of each row its letter, what
# leads, and whether it is marked
COLUMNS = """
<script>
let at = 0;
Date.now = () => at * 1000;
const seen = it => {
  const box = it.getBoundingClientRect();
  return box.width && box.left >= 0 && box.right <= innerWidth && getComputedStyle(it).visibility === "visible";
};
const left = it => it.getBoundingClientRect().left;
const edge = it => it.getBoundingClientRect()[getComputedStyle(it).textAlign === "right" ? "right" : "left"];
const cellOf = (row, head) => {
  const kind = head.className, place = [...head.parentNode.children].filter(it => it.className === kind).indexOf(head);
  return [...row.children].filter(it => it.classList[0] === kind)[place];
};
const column = (head, rows) => {
  const under = rows.filter(it => Math.abs(left(it) - left(head)) < 2), cells = [...head.children].filter(seen).filter(it => it.textContent);
  return {
    heads: cells.sort((one, other) => left(one) - left(other)).map(it => it.textContent),
    beside: cells.filter(it => under.length && Math.abs(edge(it) - edge(cellOf(under[0], it))) > 2).map(it => it.textContent),
    rows: under.map(it => [it.querySelector(".letter")?.textContent, it.querySelector(".leads")?.textContent, getComputedStyle(it).backgroundColor !== "rgba(0, 0, 0, 0)"]),
  };
};
window.onload = () => {
  const found = SECONDS.map(second => {
    at = second;
    dispatchEvent(new Event("resize"));
    const rows = [...document.querySelectorAll(".now tbody tr:not(.heads)")].filter(seen);
    return [[...document.querySelectorAll(".now .heads")].filter(seen).map(it => column(it, rows)), rows.length];
  });
  const pre = document.createElement("pre");
  pre.id = "found";
  pre.textContent = JSON.stringify(found);
  document.body.append(pre);
};
</script>
"""
HEADS = {
    "names": ["Table", "Player", "Opponent"],
    "tables": ["Table", "No", "Named first", "No", "Named second", "Score"],
    "seats": ["Table", "Name", "No"],
    "standings": ["Rank", "No", "Name", "W-L-D", "Pts"],
    "final": ["Rank", "No", "Name", "W-L-D", "Pts"],
}


def looks_in(browser, room, part, players, screen=(1920, 1080)):
    """The columns of each of two looks of a part, and how many rows each look has."""
    drawing = pictures.Room(browser, room, room)
    page = drawing.page(pictures.evening(players, is_ended=part == "final"), [part])
    # a time at which a part of two looks begins, and ten seconds later
    return found_in(browser, room, page, COLUMNS.replace("SECONDS", "[0, 10]"), screen)


@pytest.mark.needs("the board on a screen", command=BROWSERS)
@pytest.mark.parametrize("players", [37, 100, 128])
@pytest.mark.parametrize("part", HEADS)
def test_each_column_has_its_headings(room, browser, part, players):
    """Above their cells, and none where a look has no column."""
    for columns, count in looks_in(browser, room, part, players):
        assert columns and [it["heads"][: len(HEADS[part])] for it in columns] == [HEADS[part]] * len(
            columns
        ), "the headings"
        assert [it["beside"] for it in columns] == [[]] * len(columns), "above their cells"
        rows = [len(it["rows"]) for it in columns]
        assert (sum(rows), min(rows) > 0) == (
            count,
            True,
        ), "each row beneath headings, and each of them with rows"
        stripes = [[is_marked for *_, is_marked in it["rows"]] for it in columns]
        assert len({is_first for is_first, *_ in stripes}) == 1, "stripes go on from one column to the next"
        assert stripes == [
            [(at % 2 > 0) != stripes[0][0] for at in range(it)] for it in rows
        ], "every second row is marked"


@pytest.mark.needs("the board on a screen", command=BROWSERS)
@pytest.mark.parametrize("players", [37, 64, 128])
def test_a_column_that_goes_on_with_a_letter_begins_with_it(room, browser, players):
    goes_on = 0
    for columns, _ in looks_in(browser, room, "names", players):
        before = ""
        for column in columns:
            letters = [folded(leads)[:1].upper() for _, leads, _ in column["rows"]]
            due = [
                letter if at == 0 or letter != letters[at - 1] else "" for at, letter in enumerate(letters)
            ]
            assert [letter for letter, *_ in column["rows"]] == due
            goes_on += letters[0] == before
            before = letters[-1]
    assert goes_on or players == 37, "some column goes on with a letter"


# ---- the clock, and the parts in turn

# a clock that the test sets, in place of the machine's
HELD = """
<script>
let at = 0;
Date.now = () => at * 1000;
const shown = () => {
  const clock = document.querySelector(".clock");
  return [clock.className, clock.querySelector(".left").textContent, clock.querySelector(".hour").textContent, document.querySelector(".now").classList[1]];
};
window.onload = () => {
  const found = SECONDS.map(second => {
    at = second;
    dispatchEvent(new Event("resize"));
    return shown();
  });
  const pre = document.createElement("pre");
  pre.id = "found";
  pre.textContent = JSON.stringify(found);
  document.body.append(pre);
};
</script>
"""
# a multiple of what a round of three parts takes
UNTIL = 1764360000


@pytest.fixture
def watched(sheets, program, room, dice, browser):
    """What the board of a round shows this many seconds before the end of its 50 minutes: the clock, and the part."""
    event = evening(dice, 9, STARTED, 3, 0)
    event.pair(1, bytes(32))
    for table in range(1, 5):
        event.report(1, table, (2, 0, 0), True)
    event.pair(2, bytes(32))
    file = laid(program.path, f"{room}/e.event", event, "E")
    with open(f"{file}.clock", "w") as it:
        it.write(f"until {UNTIL} of 50\n")
    _, text, _ = sheets.printed(file, "--board", env={**os.environ, "TZ": "UTC"})

    def shown(*left, script=HELD, page=text):
        seconds = [round(UNTIL - it, 3) for it in left]
        return found_in(browser, room, page, script.replace("SECONDS", json.dumps(seconds)), (1920, 1080))

    shown.text = text

    return shown


@pytest.mark.needs("the board on a screen", command=BROWSERS)
def test_the_clock_counts_down_to_a_second(watched):
    before, after = "until 20:00", "Time is over, since 20:00"
    found = watched(3000, 2999.5, 2999, 601, 600, 60, 59.2, 0.1, 0, -0.9, -1, -192, -3600)
    assert [it[:3] for it in found] == [
        ["clock", "50:00", before],
        ["clock", "50:00", before],
        ["clock", "49:59", before],
        ["clock", "10:01", before],
        ["clock soon", "10:00", before],
        ["clock soon", "1:00", before],
        ["clock soon", "1:00", before],
        ["clock soon", "0:01", before],
        ["clock over", "+0:00", after],
        ["clock over", "+0:00", after],
        ["clock over", "+0:01", after],
        ["clock over", "+3:12", after],
        ["clock over", "+60:00", after],
    ]


# what a page says that was sent by another machine, at this second, and loaded at another one of the own clock
SENT = """
<script>
const sent = new Date(SENT_AT * 1000), two = it => String(it).padStart(2, "0");
const day = `${two(sent.getMonth() + 1)}/${two(sent.getDate())}/${sent.getFullYear()}`;
Object.defineProperty(document, "lastModified", { value: `${day} ${[sent.getHours(), sent.getMinutes(), sent.getSeconds()].map(two).join(":")}` });
</script>
"""


@pytest.mark.needs("the board on a screen", command=BROWSERS)
@pytest.mark.parametrize("ahead", [-90, 0, 7200])
def test_a_board_of_another_machine_goes_by_the_clock_of_the_one_that_sent_it(watched, ahead):
    """It was sent with twenty minutes left, and is loaded at once, whatever the clock beside it says."""
    loaded = UNTIL - 1200 + ahead
    script = SENT.replace("SENT_AT", str(UNTIL - 1200)) + HELD.replace("let at = 0", f"let at = {loaded}")
    page = watched.text.replace('<body class="board"', '<body class="board" data-sent')
    found = watched(1200 - ahead, 1199 - ahead, 600 - ahead, -ahead, -1 - ahead, script=script, page=page)
    # the head has no parts of a second, so it is half a second on the average
    assert [it[1] for it in found] == ["20:00", "19:59", "10:00", "+0:00", "+0:01"]


@pytest.mark.needs("the board on a screen", command=BROWSERS)
def test_a_round_begins_with_the_names_and_then_all_parts_are_turned(watched):
    first = watched(3000, 2980, 2960, 2701)
    assert [it[3] for it in first] == ["names"] * 4, "in the first five minutes"
    parts = [it[3] for it in watched(2700, 2680, 2660, 2640, 2620)]
    assert parts == ["names", "tables", "standings", "names", "tables"], "twenty seconds each"


@pytest.mark.needs("the board on a screen", command=BROWSERS)
def test_the_script_runs_under_the_policy_of_the_page(sheets, program, room, dice, browser):
    file = laid(program.path, f"{room}/e.event", evening(dice, 9, OPEN, 3, 0), "E")
    path = f"{room}/board.html"
    sheets.printed(file, "--board", "-o", path)
    shown = browse(
        browser, room, path, "--window-size=1920,1080", "--virtual-time-budget=1000", "--dump-dom"
    ).decode()
    assert re.search('<html [^>]*class="turns"', shown), "the script has turned it"
    with open(path, encoding="utf-8") as page:
        other = page.read().replace('"use strict";', '"use strict"; ')
    with open(path, "w", encoding="utf-8") as page:
        page.write(other)
    shown = browse(
        browser, room, path, "--window-size=1920,1080", "--virtual-time-budget=1000", "--dump-dom"
    ).decode()
    assert 'class="turns"' not in shown, "no other script runs"


@pytest.mark.needs("the board on a screen", command=BROWSERS)
@pytest.mark.parametrize("language", ["en", "de"])
def test_slips(sheets, program, room, dice, browser, language):
    """Slips are of one height, whatever the names are, no name takes more than two lines, and nothing lies over anything."""
    event = evening(dice, 46, STARTED, 3, 0)
    event.names[: len(HOSTILE)] = HOSTILE
    event.pair(1, bytes(32))
    file = laid(program.path, f"{room}/slips.event", event, "E")
    with open(f"{file}.look", "w") as it:
        it.write(f"language = {language}\n")
    with open(f"{file}.phones", "w") as it:
        it.write(f"at http://192.168.1.10:8080\nkey {'0' * 64}\nboth no\n")
    _, text, _ = sheets.printed(file, "--parts", "slips", "--title", "W" * 60)
    found = laid_out(
        browser,
        room,
        text.replace('class="sheets"', 'class="sheets" style="width:186mm;max-width:none;padding:0"'),
    )["all"]
    assert (len(found["slips"]), len(set(found["slips"]))) == (23, 1), "slips, of one height"
    assert [it for it in found["slip_names"] if it[1] > 2] == [], "slips, names in two lines at most"
    assert (found["inside"], found["over"]) == ([], []), "slips, nothing is cut off"
