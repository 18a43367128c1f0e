"""Pictures of pages, as a browser shows them, for looking at. Events are those of the plain reading, so no program is needed.

    python3 -B -m tools.pictures FOLDER      boards: 8, 37, 128 and 512 players on three screens, light and dark, each part, long names, names in
                                                       other scripts, the clock near its end and after it; and index.html, which has them all
    python3 -B -m tools.pictures --documents the pictures of the documents, in docs
"""
import argparse
import html
import itertools
import os
import random
import shutil
import subprocess
import tempfile
import time

from tools import TOP

from event_companions.beside.clock import Clock, keep_clock
from event_companions.beside.codes import Secret, keep_secret
from event_companions.beside.reports import Reports
from event_companions.beside.shown_names import ShownName, ShownNames
from event_companions.beside.title import keep_title
from event_companions.core.event import Event
from event_companions.core.plan import Plan
from event_companions.phones.asked import hosts_of
from event_companions.phones.cache import EventCache
from event_companions.phones.pages import style
from event_companions.phones.site import Site
from event_companions.sheets.making import Wanted, page_maker
from second_reading.plain_event import Event as Played
from tests.support.from_model import FromModel
from tests.support.random_evenings import play_bracket, report_round
from tests.support.sheets import BROWSERS

SCREENS = (1280, 720), (1920, 1080), (3840, 2160)
COUNTS = 8, 37, 128, 512
FIRST = (
    "Anna", "Ben", "Clara", "Emma", "Finn", "José María", "Jörg", "Lea", "Łukasz", "Mia", "Noah", "Ondřej", "Pieter-Jan", "Séamus", "Sofia", "Søren", "Thu",
    "Zoé", "Björn", "Elias", "Nina", "Tom", "Lina", "Paul",
)  # fmt: skip
LAST = (
    "Smith", "Becker", "Krüger", "Koch", "Schröder", "García Pérez", "Müller", "Fischer", "Kowalski", "Wolf", "Schwarz", "Šimák", "van der Berg", "O'Brien",
    "Schmitt", "Østergård", "Nguyễn", "Lefèvre", "Åström", "Werner", "Wagner", "Braun", "Zimmermann", "Schulz", "Hartmann", "Neumann", "Lange", "Weber",
)  # fmt: skip
LONG = (
    "Maximiliane Oberhausener",
    "Wolfgang Amadeus Theophilus Mozart",
    "Bartholomäus von Scharnhorst-Gneisenau",
    "Anastasia Wilhelmina Montgomery",
)
OTHER = (
    "\u738b\u5c0f\u660e",
    "\u041c\u0430\u0440\u0438\u044f \u0418\u0432\u0430\u043d\u043e\u0432\u0430",
    "\u0645\u062d\u0645\u062f \u0639\u0644\u064a",
    "\u05d3\u05d5\u05d3 \u05dc\u05d5\u05d9",
    "\u4f50\u85e4\u3055\u304f\u3089",
    "\uae40\uc9c0\uc6b0",
    "\u0395\u03bb\u03ad\u03bd\u03b7 \u03a0\u03b1\u03c0\u03b1\u03b4\u03ac\u03ba\u03b7",
)


TITLE, AT, HOST = "Friday Night", "http://192.168.1.10:8080", "192.168.1.10:8080"
LOOK = "subtitle = Modern, Owls Game Shop\n"
# a clock with so much left
MIDDLE, NEAR_ITS_END, OVER = 42 * 60 + 17, 8 * 60 + 5, -192


def names_of(count, kind, dice):
    own = {"long": LONG, "other": OTHER}.get(kind, ())
    if own:
        return [own[at % len(own)] + (f" {at}" if at >= len(own) else "") for at in range(count)]
    return [f"{first} {last}" for first, last in dice.sample([*itertools.product(FIRST, LAST)], count)]


def evening(count, kind="latin", is_ended=False, rounds=4):
    """An event in its last round, with half of the scores, or at its end."""
    dice = random.Random(count)
    event = Played(rounds, 8)
    for name in names_of(count, kind, dice):
        event.enrol(name)
    event.start()
    last = 3 if count == 8 else rounds
    for number in range(1, last + 1):
        event.pair(number, bytes([number]) * 32)
        report_round(dice, event, 1.0 if number < last or is_ended else 0.5)
    if is_ended:
        event.end_rounds()
        play_bracket(dice, event, is_ended)
    return event


class Room:
    """A folder with an event and what lies beside it, and a browser that draws its pages."""

    def __init__(self, browser, folder, out):
        self.browser, self.folder, self.out, self.file = browser, folder, out, f"{folder}/friday.event"
        keep_title(self.file, TITLE)
        keep_secret(self.file, Secret(AT, bytes(32)))

    def event(self, played, look=LOOK, left=MIDDLE):
        """What lies beside it is written anew."""
        with open(f"{self.file}.look", "w", encoding="utf-8") as written:
            written.write(look)
        # as `import` keeps them of a list that has first and last names apart
        lasts = {
            name: next((last for last in LAST if name.endswith(f" {last}")), "") for name in played.names
        }
        ShownNames(self.file).write(
            [ShownName(number, name, name, lasts[name]) for number, name in enumerate(played.names, 1)]
        )
        keep_clock(self.file, Clock(int(time.time()) + left, 50))
        event = Event(FromModel(played), self.file)
        event.plan = Plan(TITLE, played.rounds, played.cut)
        return event

    def page(self, played, parts, is_board=True, is_dark=False, title=None, **how):
        return page_maker(Wanted(self.file, parts, title=title, is_board=is_board, is_dark=is_dark))(
            self.event(played, **how)
        )

    def write(self, name, text):
        with open(f"{self.folder}/{name}", "w", encoding="utf-8") as written:
            written.write(text)
        return f"file://{self.folder}/{name}"

    def browse(self, url, *words):
        line = [
            self.browser,
            "--headless",
            "--no-sandbox",
            "--disable-gpu",
            "--hide-scrollbars",
            "--allow-file-access-from-files",
        ]
        line += [f"--user-data-dir={self.folder}/browser", *words, url]
        subprocess.run(
            line,
            stdin=subprocess.DEVNULL,
            stdout=subprocess.DEVNULL,
            stderr=subprocess.DEVNULL,
            check=True,
            timeout=240,
        )

    def shoot(self, name, text, screen):
        url = self.write("page.html", text)
        self.browse(url, f"--window-size={screen[0]},{screen[1]}", f"--screenshot={self.out}/{name}.png")
        print(f"{name}.png", flush=True)


# ---- boards, to be looked at


def boards():
    """The name of each picture, how its page is made, and on which screen."""
    for count, screen, is_dark in itertools.product(COUNTS, SCREENS, (False, True)):
        name = f"{count}-names-{screen[0]}x{screen[1]}-{'dark' if is_dark else 'light'}"
        yield name, (evening(count), ["names"]), {"is_dark": is_dark}, screen
    for kind, count, screen in itertools.product(("long", "other"), (8, 37, 128), SCREENS[:2]):
        yield f"{count}-{kind}-names-{screen[0]}x{screen[1]}", (evening(count, kind), ["names"]), {}, screen
    for part, count in itertools.product(("tables", "standings"), COUNTS):
        yield f"{count}-{part}", (evening(count), [part]), {}, SCREENS[1]
    for part, is_dark in itertools.product(("bracket", "champion", "final"), (False, True)):
        yield f"37-{part}-{'dark' if is_dark else 'light'}", (evening(37, is_ended=True), [part]), {
            "is_dark": is_dark
        }, SCREENS[1]
    yield "37-long-bracket", (evening(37, "long", is_ended=True), ["bracket"]), {}, SCREENS[1]
    yield "37-amber", (evening(37), ["names"]), {"left": NEAR_ITS_END}, SCREENS[1]
    yield "37-over", (evening(37), ["standings"]), {"left": OVER}, SCREENS[1]
    yield "37-german", (evening(37), ["names"]), {"look": f"{LOOK}language = de\n"}, SCREENS[1]
    yield "37-red-accent", (evening(37), ["standings"]), {"look": f'{LOOK}accent = "#b33a00"\n'}, SCREENS[1]


def draw_boards(room):
    names = []
    for name, what, how, screen in boards():
        room.shoot(name, room.page(*what, **how), screen)
        names.append(name)
    figures = "".join(
        f'<figure><img src="{it}.png" width="620"><figcaption>{html.escape(it)}</figcaption></figure>'
        for it in names
    )
    with open(f"{room.out}/index.html", "w", encoding="utf-8") as index:
        index.write(
            f'<!DOCTYPE html><meta charset="utf-8"><title>Boards</title><body style="display:flex;flex-wrap:wrap">{figures}'
        )


# ---- the pictures of the documents


def framed(pages, width, height, scale):
    """Pages side by side, each as on a screen of this size, drawn smaller."""
    frame = "width:{}px;height:{}px;transform:scale({});transform-origin:0 0;border:0".format(
        width, height, scale
    )
    return "".join(
        f'<div style="width:{width * scale:g}px;height:{height * scale:g}px;overflow:hidden;background:#fff"><iframe src="{it}" style="{frame}"></iframe></div>'
        for it in pages
    )


def in_rows(*rows):
    """Rows of frames, on grey."""
    shown = "".join(f'<div style="display:flex;gap:12px">{it}</div>' for it in rows)
    return f'<!DOCTYPE html><meta charset="utf-8"><body style="margin:0;padding:12px;background:#777;display:grid;gap:12px">{shown}'


def draw_board(room):
    """The names, large, and beneath them the standings and the bracket."""
    names = room.write("names.html", room.page(evening(37), ["names"]))
    standings = room.write("standings.html", room.page(evening(37), ["standings"], left=NEAR_ITS_END))
    bracket = room.write(
        "bracket.html", room.page(evening(37, is_ended=True), ["bracket"], is_dark=True, left=OVER)
    )
    rows = framed([names], 1920, 1080, 0.66), framed([standings, bracket], 1920, 1080, 0.66 / 2 - 0.003)
    room.shoot("board", in_rows(*rows), (24 + round(1920 * 0.66), 36 + round(1080 * 0.66 * 1.5)))


def draw_sheets(room):
    """As they are printed: a sheet of each kind."""
    sheets = []
    for part, played in (
        ("names", evening(37)),
        ("slips", evening(37)),
        ("standings", evening(37)),
        ("bracket", evening(37, is_ended=True)),
    ):
        url = room.write(
            "sheet.html",
            room.page(played, [part], is_board=False).replace(
                "</head>", "<style>@page { size: A4 }</style></head>"
            ),
        )
        room.browse(url, "--no-pdf-header-footer", f"--print-to-pdf={room.folder}/sheet.pdf")
        subprocess.run(
            [
                "pdftoppm",
                "-r",
                "72",
                "-l",
                "1",
                "-singlefile",
                "-png",
                f"{room.folder}/sheet.pdf",
                f"{room.folder}/{part}",
            ],
            check=True,
        )
        sheets.append(f'<img src="{part}.png" style="width:400px">')
    room.shoot("sheets", in_rows("".join(sheets)), (4 * 412 + 12, 24 + 566))


class Phone:
    """What phones are shown, without a server, each page as a file."""

    def __init__(self, room, played):
        cache = EventCache("none", room.file, TITLE)
        event = room.event(played)
        cache.keep(*cache.read_all(event))
        self.room, self.event = room, event
        self.secret = Secret(AT, bytes(32))
        self.site = Site(cache, Reports(room.file), self.secret, hosts_of(AT, 8080), None)

    def page(self, name, target, is_dark=False):
        path, _, query = target.partition("?")
        environ = {
            "REQUEST_METHOD": "GET",
            "PATH_INFO": path,
            "QUERY_STRING": query,
            "HTTP_HOST": HOST,
            "REMOTE_ADDR": "192.168.1.77",
        }
        text = b"".join(self.site(environ, lambda *_: None)).decode()
        colours = style().decode()
        if is_dark:
            colours = colours.replace("@media (prefers-color-scheme: dark)", "@media all")
        return self.room.write(
            f"{name}.html",
            text.replace('<link rel="stylesheet" href="/style.css">', f"<style>{colours}</style>"),
        )

    def table(self, place):
        return self.secret.target(
            len(self.event.rounds), self.event.match(len(self.event.rounds), str(place)), 0
        )


def scored(played, place, score):
    """The same event with a score at a table of the newest round."""
    played.stored[-1][place - 1][2] = score
    return played


def draw_phones(room):
    played = scored(scored(evening(37), 2, None), 3, None)
    phone = Phone(room, played)
    table, other = phone.table(2), phone.table(3)
    pages = [
        phone.page("open", table),
        phone.page("look", f"{table}?s=2-1-0"),
        phone.page("dark", other, is_dark=True),
    ]
    pages.insert(2, Phone(room, scored(played, 2, (2, 1, 0))).page("stored", table))
    slip = room.page(scored(played, 1, None), ["slips"], is_board=False)
    slip = room.write(
        "slip.html", slip.replace('class="sheets"', 'class="sheets" style="width:194mm;max-width:none"')
    )
    rows = framed(pages, 360, 590, 1), framed([slip], 746, 212, 1.98)
    room.shoot("phones", in_rows(*rows), (4 * 372 + 12, 36 + 590 + round(212 * 1.98)))


def draw_own_page(room):
    played = scored(evening(37), 2, None)
    number = played.stored[-1][1][0]
    pages = []
    for name, score in (("open", None), ("stored", (2, 1, 0))):
        phone = Phone(room, scored(played, 2, score))
        pages.append(phone.page(name, phone.secret.link(phone.event.enrolled[number])))
    room.shoot("own_page", in_rows(framed(pages, 360, 880, 1)), (2 * 372 + 12, 24 + 880))


def main():
    words = argparse.ArgumentParser(description=__doc__, formatter_class=argparse.RawDescriptionHelpFormatter)
    words.add_argument("folder", nargs="?", help="where the pictures go")
    words.add_argument("--documents", action="store_true", help="the pictures of the documents, into docs")
    given = words.parse_args()
    browser = next(filter(None, map(shutil.which, BROWSERS)), None)
    if browser is None or not (given.folder or given.documents):
        words.error(
            "name a folder, or --documents" if browser else f"no browser is installed: {', '.join(BROWSERS)}"
        )
    with tempfile.TemporaryDirectory() as folder:
        if given.documents:
            for draw in (draw_board, draw_sheets, draw_phones, draw_own_page):
                draw(Room(browser, folder, f"{TOP}/docs"))
        if given.folder:
            os.makedirs(given.folder, exist_ok=True)
            draw_boards(Room(browser, folder, os.path.abspath(given.folder)))


if __name__ == "__main__":
    main()
