"""Pages of the desk for one browser on this machine: what is clicked becomes a line of the prompt."""
from __future__ import annotations

import base64
import csv
import hashlib
import hmac
import io
import os
import re
import secrets
import time
import urllib.parse
from functools import lru_cache
from http.cookies import CookieError, Morsel, SimpleCookie
from typing import Mapping, Optional

from event_companions.core.reading import read_whole
from event_companions.core.rosters import DELIMITERS, columns_of, tidy
from event_companions.core.templates import templates_in
from event_companions.languages import DEFAULT
from event_companions.phones.asked import Asked, Environ, Fields, Pages, Settled
from event_companions.phones.pages import Reply
from event_companions.prompt.printing import wanted_by
from event_companions.prompt.texts import ALL_COMMANDS, UNDO
from event_companions.sheets.making import NOTHING, Wanted, page_maker
from event_companions.sheets.page import policy as policy_of_board
from event_companions.sheets.parts import PARTS
from event_companions.sheets.squares import square_of
from event_companions.window.clicks import parted
from event_companions.window.views import (
    DEFAULT_MINUTES,
    MORE_SCORES,
    NEW,
    SCORES,
    SCORES_OF_PLAYOFF,
    View,
)
from event_companions.window.worker import Worker

FOLDER = os.path.join(os.path.dirname(os.path.abspath(__file__)), "templates")
TEMPLATES = templates_in(FOLDER)
TABS = ("players", "round", "standings", "playoff", "print", "phones", "back", "log")
MOST_BODY, MOST_LINE = 200_000, 400
SECONDS_OF_A_TICKET = 120
# what stands before names where people number them by hand
COUNTED_BY_HAND = re.compile(r"\s*(?:\d{1,3}[.):]|[-*\u2022])\s+")
SHEET_POLICY = (
    "default-src 'none'; style-src 'unsafe-inline'; img-src data:; form-action 'none'; base-uri 'none'"
)


@lru_cache(maxsize=None)
def text_of(name: str) -> str:
    with open(os.path.join(FOLDER, name), encoding="utf-8") as text:
        return text.read()


@lru_cache(maxsize=None)
def policy() -> str:
    """The page's own style and script, and nothing else: what it fetches comes from this place too."""
    digest = base64.b64encode(hashlib.sha256(text_of("window.js").encode()).digest()).decode()
    return (
        f"default-src 'none'; style-src 'self'; script-src 'sha256-{digest}'; connect-src 'self'; "
        "form-action 'self'; frame-ancestors 'none'; base-uri 'none'"
    )


def list_of(pasted: str) -> str:
    """What was pasted, as `import` takes it: names in lines get the heading that a list must have, and lose the
    numbers that stand before them.
    """
    lines = [line for line in pasted.splitlines() if line.strip()]
    if not lines:
        return ""
    for delimiter in DELIMITERS:
        if columns_of(next(csv.reader([lines[0]], delimiter=delimiter), [])):
            return "\n".join(lines) + "\n"
    if len(lines) == 1 and re.search("[,;]", lines[0]):
        lines = re.split("[,;]", lines[0])
    names = [tidy(COUNTED_BY_HAND.sub("", line, count=1)) for line in lines]
    written = io.StringIO()
    csv.writer(written, lineterminator="\n").writerows([["Name"], *([name] for name in names if name)])
    return written.getvalue()


class Window(Pages):
    def __init__(self, worker: Worker, port: int):
        self.host = f"127.0.0.1:{port}"
        super().__init__({self.host}, f"http://{self.host}/")
        self.worker = worker
        # of the address that is opened: it is of use once, and not for long
        self.ticket, self.ticket_until = secrets.token_urlsafe(24), time.monotonic() + SECONDS_OF_A_TICKET
        self.name, self.key = f"event_desk_{port}", secrets.token_urlsafe(32)
        # of forms: a page of another port of this machine gets the cookie, and not this
        self.form_key = secrets.token_urlsafe(24)

    @property
    def address(self) -> str:
        return f"http://{self.host}/in/{self.ticket}"

    # ---- who may ask

    def admit(self, environ: Environ, language: str) -> None:
        """Before anything of it is read: the right address, this window's browser, and no other site's page."""
        if environ.get("HTTP_HOST", "").lower() != self.host:
            raise Settled(self.told(421, language, "not_this_address", "this_address"))
        if environ.get("HTTP_SEC_FETCH_SITE", "none") not in ("same-origin", "none"):
            # the page behind the ticket is opened from outside, and its cookie is set there
            if not environ.get("PATH_INFO", "").startswith("/in/"):
                raise Settled(plain(403, "Another site asks."))
        if environ["REQUEST_METHOD"] == "POST" and environ.get("HTTP_ORIGIN") != f"http://{self.host}":
            raise Settled(plain(403, "Another site asks."))
        if not environ.get("PATH_INFO", "").startswith("/in/") and not self.is_known(environ):
            raise Settled(
                plain(403, "This window belongs to the browser that event-desk opened. Start it again.")
            )

    def is_known(self, environ: Environ) -> bool:
        try:
            cookies: Mapping[str, Morsel[str]] = SimpleCookie(environ.get("HTTP_COOKIE", "")[:4000])
        except CookieError:
            return False
        return self.name in cookies and hmac.compare_digest(cookies[self.name].value, self.key)

    def form(self, environ: Environ, language: str) -> Optional[Fields]:
        if environ["REQUEST_METHOD"] != "POST":
            return {}
        length = environ.get("CONTENT_LENGTH") or "0"
        kind = environ.get("CONTENT_TYPE", "").split(";")[0].strip().lower()
        if kind != "application/x-www-form-urlencoded" or not re.fullmatch("[0-9]{1,6}", length):
            return None
        if int(length) > MOST_BODY:
            return None
        try:
            text = environ["wsgi.input"].read(int(length)).decode("ascii")
            pairs = urllib.parse.parse_qsl(text, keep_blank_values=True, max_num_fields=24, errors="strict")
        except ValueError:
            return None
        return dict(pairs)

    # ---- what is asked

    def reply(self, asked: Asked) -> Reply:
        path = asked.path
        if asked.method == "POST":
            return self.posted(asked)
        if path.startswith("/in/"):
            return self.let_in(path[4:])
        if path == "/window.css":
            return Reply(200, text_of("window.css").encode(), kind="text/css; charset=utf-8")
        if path == "/now":
            return plain(200, self.now())
        if path.startswith("/sheets/") and path[8:] in (*PARTS, "all"):
            return self.sheets(path[8:])
        if path == "/board":
            return self.made(Wanted(self.worker.file, is_board=True), policy_of_board())
        player = re.fullmatch("/players/([0-9]{1,3})", path)
        if player:
            return self.page("players", asked, player=int(player[1]))
        older = re.fullmatch("/round/([0-9]{1,2})", path)
        if older:
            return self.page("round", asked, number=int(older[1]))
        tab = path[1:] or self.first_tab()
        return self.page(tab, asked) if tab in TABS else self.told(404, DEFAULT, "no_page")

    def now(self) -> str:
        """What changes with each change of a page."""
        question = self.worker.clicks.question
        return f"{self.worker.version}.{question.number if question else 0}"

    def first_tab(self) -> str:
        return {"Swiss rounds": "round", "playoff": "playoff", "finished": "playoff"}.get(
            self.worker.view.phase, "players"
        )

    def let_in(self, ticket: str) -> Reply:
        """The page goes on by itself, since a cookie of this kind is not sent where another site has led."""
        is_right = time.monotonic() < self.ticket_until and hmac.compare_digest(ticket, self.ticket)
        if not is_right or not self.ticket:
            return plain(403, "This address was of use once. Start event-desk again.")
        self.ticket = secrets.token_urlsafe(24)
        cookie = f"{self.name}={self.key}; HttpOnly; SameSite=Strict; Path=/"
        body = b'<!DOCTYPE html><meta charset="utf-8"><meta http-equiv="refresh" content="0;url=/"><title>Desk</title>'
        return Reply(200, body, [("Set-Cookie", cookie)])

    # ---- what is clicked

    def posted(self, asked: Asked) -> Reply:
        form = asked.form
        if not hmac.compare_digest(form.get("k", ""), self.form_key):
            return plain(403, "This page is of an earlier window. Load it again.")
        if asked.path == "/answer" and form.get("q", "").isdecimal():
            self.worker.answer(int(form["q"]), form.get("a", ""))
        elif asked.path == "/say":
            version = int(form["v"]) if re.fullmatch("[0-9]{1,9}", form.get("v", "")) else 0
            for line in self.lines_of(form):
                entry = self.worker.send(line, version)
                if not entry or entry.has_failed or not entry.is_done:
                    break
                version = self.worker.version
        else:
            return self.told(404, DEFAULT, "no_page")
        tab = form.get("tab", "")
        goes_on = form.get("then", "") or tab
        where = f"/{goes_on}" if re.fullmatch("[a-z]+(/[0-9]{1,3})?", goes_on) else "/"
        return Reply(303, b"", [("Location", where)])

    def lines_of(self, form: Fields) -> list[str]:
        """The lines that a click sends: as one would type them."""
        if form.get("pasted", "").strip():
            return [f"import {self.keep_list(form['pasted'])}"]
        line = tidy_line(form.get("line", ""))
        for name, head in (("name", "enrol"), ("title", "title")):
            if name in form and not line:
                return [f"{head} {tidy_line(form[name])}"]
        if "event" in form:
            line = f"init {tidy_line(form['event'])}"
        if "numbers" in form:
            line += f" {tidy_line(form['numbers'])}"
        minutes = form.get("minutes", "").strip()
        if minutes and line:
            line += f" {minutes}min" if form.get("numbers") else f" {minutes}"
        if "to" in form:
            line += f" {tidy_line(form['to'])}"
        if form.get("rounds"):
            line += f" {form['rounds']} {form.get('cut', '0')}"
        return [part.strip()[:MOST_LINE] for part in line.split(" && ") if part.strip()]

    def keep_list(self, pasted: str) -> str:
        """A pasted list lies beside the event, so that its line can be typed again."""
        path = f"{self.worker.file}.pasted.csv"
        part = f"{path}.part"
        with open(part, "w", encoding="utf-8", newline="") as written:
            written.write(list_of(pasted))
        os.replace(part, path)
        return path

    # ---- what is shown

    def page(self, tab: str, asked: Asked, number: int = 0, player: int = 0) -> Reply:
        worker = self.worker
        with worker.changed:
            view, question, log = worker.view, worker.clicks.question, list(worker.log)
        words = {
            "tab": tab,
            "view": view,
            "is_new": view.phase == NEW and not view.fault,
            "question": question,
            "log": log,
            "last": log[-1] if log else None,
            "said": parted(question) if question else [],
            "now": self.now(),
            "k": self.form_key,
            "script": text_of("window.js"),
            "scores": SCORES,
            "more_scores": MORE_SCORES,
            "scores_of_playoff": SCORES_OF_PLAYOFF,
            "minutes": view.clock.minutes if view.clock else DEFAULT_MINUTES,
            "shown_round": number if 1 <= number <= view.number else view.number,
            "player": view.seated(player) if player else None,
            "parts": self.parts(view),
            "square": square_of(view.secret.at.upper()) if view.secret else "",
            "file_name": os.path.splitext(os.path.basename(worker.file))[0],
            "undo": UNDO,
            "help": ALL_COMMANDS,
            "time": time.time(),
        }
        body = TEMPLATES.get_template("page.html").render(**words).encode("utf-8")
        return Reply(200, body, policy=policy())

    def parts(self, view: View) -> list[tuple[str, str, str]]:
        """What can be printed now, what it is called, and why not."""
        shown = (
            ("seats", "Seats for the players' meeting"),
            ("players", "Players"),
            ("tables", "Pairings by table"),
            ("names", "Pairings by name"),
            ("slips", "Result slips"),
            ("standings", "Standings"),
            ("bracket", "Playoff"),
            ("final", "Final ranking"),
            ("champion", "Champion"),
            ("links", "A page for each phone"),
            ("draw", "The draw"),
        )
        is_there = {
            "seats": bool(view.players),
            "players": bool(view.players) and not view.number,
            "tables": bool(view.number),
            "names": bool(view.number),
            "slips": bool(view.open_rows),
            "standings": bool(view.standings),
            "bracket": bool(view.stages),
            "final": view.champion is not None,
            "champion": view.champion is not None,
            "links": view.secret is not None,
            "draw": view.rule is not None,
        }
        return [(kind, text, "" if is_there[kind] else NOTHING.get(kind, "Not yet.")) for kind, text in shown]

    def sheets(self, kind: str) -> Reply:
        return self.made(wanted_by(self.worker.file, "" if kind == "all" else kind), SHEET_POLICY)

    def made(self, wanted: Wanted, policy_of_page: str) -> Reply:
        source, file = self.worker.desk.session.source, self.worker.file

        def make() -> str:
            return read_whole(source, file, page_maker(wanted))

        found = self.worker.made(make)
        if isinstance(found, str):
            return Reply(200, found.encode("utf-8"), policy=policy_of_page)
        return plain(503, str(found))


def plain(status: int, text: str) -> Reply:
    return Reply(status, f"{text}\n".encode("utf-8"), kind="text/plain; charset=utf-8")


def tidy_line(text: str) -> str:
    """A line of a form has no end inside."""
    return " ".join(text.split())
