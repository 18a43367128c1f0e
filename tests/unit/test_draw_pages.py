"""What sheets, board and phones show of the draw, and how a player's tiebreakers come about on a phone."""
import hashlib
from dataclasses import replace

import pytest

pytest.importorskip("jinja2")

from event_companions.core.event import Event
from event_companions.draw.draw import BEFORE_THE_FIRST, Lists, rule_of, text_of
from event_companions.draw.draws import Draws, Kept
from event_companions.sheets.page import page_of, parts_of_board
from event_companions.sheets.parts import part_of
from event_companions.sheets.squares import MOST_BYTES, square_of
from second_reading.plain_csv import players_rows, results_rows, written
from second_reading.plain_draw import key_of
from tests.support.drawn_evenings import begun, text_bytes
from tests.support.from_model import FromModel
from tests.support.plain_page import Page
from tests.unit.test_phone_pages import Room

SEVEN = [f"P{number}" for number in range(1, 8)]
NUMBER = "3 8 11 17"
SHOWN = "Number 3 8 11 17, text 5d01 4256 fdbc 0291"


@pytest.fixture
def plain():
    return begun(SEVEN)


@pytest.fixture
def file(tmp_path):
    return f"{tmp_path}/e.event"


def keep(file, plain, number, drawing, after, **head):
    """Draws the next round of an event by the plain reading, and keeps its text."""
    data = text_bytes(plain, number, drawing, after, NUMBER, **head)
    draws = Draws(file)
    draws.make_folder()
    draws.keep_text(text_of(data))
    return hashlib.sha256(data).hexdigest()


def draw_round(file, plain, number=1, drawing=1, after=BEFORE_THE_FIRST, **head):
    found = keep(file, plain, number, drawing, after, **head)
    plain.pair(number, bytes.fromhex(key_of(number, NUMBER)))
    return found


def event_of(plain, file):
    return Event(FromModel(plain), file)


def shut(file, plain, number=1):
    players, results = written(players_rows(plain)), written(results_rows(plain))
    Draws(file).keep_shut(number, Lists(players, results))


def page(plain, file, kinds=None):
    event = event_of(plain, file)
    number = len(plain.stored)
    return page_of(event, "Friday", number, kinds or parts_of_board(event))


# ---- sheets and board


@pytest.mark.parametrize("kind", ["tables", "names"])
def test_a_round_says_how_it_was_drawn(plain, file, kind):
    draw_round(file, plain)
    assert part_of(kind, event_of(plain, file), 1).drawn == SHOWN
    assert SHOWN in page(plain, file)


@pytest.mark.parametrize("kind", ["tables", "names"])
def test_a_key_that_was_chosen_is_told(plain, file, kind):
    plain.pair(1, bytes(32))
    assert (
        part_of(kind, event_of(plain, file), 1).drawn
        == "The scorekeeper could steer who meets whom: no public draw"
    )
    # also in the evening of a draw
    Draws(file).keep_rule(rule_of("each 4d20"))
    assert (
        part_of(kind, event_of(plain, file), 1).drawn
        == "The scorekeeper could steer who meets whom: no public draw"
    )
    assert "The scorekeeper could steer who meets whom: no public draw" in page(plain, file, ["draw"])


def test_a_round_that_was_drawn_again(plain, file):
    Draws(file).keep_rule(rule_of("each 4d20"))
    first = keep(file, plain, 1, 1, BEFORE_THE_FIRST)
    draw_round(file, plain, 1, 2, first, by="2 5", instead="1 1 1 1")
    text = page(plain, file, ["draw", "tables"])
    by, times = "Thrown by P2 (2), P5 (5)", f"Number {NUMBER}, in place of 1 1 1 1, lists shut 2 times, text "
    due = "Lists shut 2 times", "In place of 1 1 1 1", by, times
    assert [words for words in due if words not in text] == []


def test_a_round_that_was_drawn_before_the_draw_was_ended(plain, file):
    rule = rule_of("each 4d20")
    Draws(file).keep_rule(rule)
    draw_round(file, plain)
    Draws(file).keep_rule(rule.ended)
    assert "Rule: each 4d20. The digits" in page(plain, file, ["draw"])


def test_a_chosen_key_in_place_of_a_number(plain, file, tmp_path):
    """The number that was passed over is told with it."""
    data = text_bytes(plain, 1, 1, BEFORE_THE_FIRST, "3 8 11 17")
    old = text_of(data)
    chosen = replace(old, number="-", instead=NUMBER)
    draws = Draws(file)
    draws.make_folder()
    draws.keep_text(chosen)
    plain.pair(1, bytes.fromhex(key_of(1, NUMBER)))
    told = "The scorekeeper could steer who meets whom: no public draw, in place of 3 8 11 17, text "
    assert told in page(plain, file, ["tables"])
    assert told in Room(tmp_path, plain).ask("GET", "/pairings").text


def test_before_the_throw(plain, file):
    """The board shows what the next round is paired by, and nothing of the round before."""
    assert parts_of_board(event_of(plain, file))[0] == "draw"
    assert part_of("draw", event_of(plain, file), 0) is None, "where nothing is drawn"
    Draws(file).keep_rule(rule_of("each 4d20"))
    assert "Rounds are drawn: each 4d20" in page(plain, file, ["players", "seats"])
    after = draw_round(file, plain)
    for table in (1, 2, 3):
        plain.report(1, table, (2, 0, 0), True)
    plain.drop(2)
    plain.enrol("Late")
    shut(file, plain, 2)
    assert parts_of_board(event_of(plain, file)) == ("draw", "standings", "players")
    parts = Page(page(plain, file)).parts()
    assert set(parts) == {"draw", "standings"}
    said = parts["draw"].text()
    mark = Draws(file).shut(2, 1).mark
    players = "7 play.", "Out since the last round: P2 (2)", "New: Late (8)"
    due = "Round 2, before the throw", "Throw 4d20", *players
    assert [words for words in (*due, mark) if words not in said] == []
    draw_round(file, plain, 2, 1, after)
    assert parts_of_board(event_of(plain, file))[:2] == ("draw", "players")


def test_a_text_as_a_square(plain, file):
    pytest.importorskip("segno")
    Draws(file).keep_rule(rule_of("each 4d20"))
    draw_round(file, plain)
    assert part_of("draw", event_of(plain, file), 1).draw.square.startswith("<svg")
    assert square_of(b"x" * MOST_BYTES, "l") and not square_of(b"x" * (MOST_BYTES + 1), "l")


# ---- phones


def test_pairings_on_a_phone(plain, file, tmp_path):
    after = draw_round(file, plain)
    found = Room(tmp_path, plain).ask("GET", "/pairings")
    assert SHOWN in found.text and after.startswith("5d014256fdbc0291")
    german = Room(tmp_path, plain).ask("GET", "/pairings", HTTP_ACCEPT_LANGUAGE="de")
    assert "Zahl 3 8 11 17, Text 5d01 4256 fdbc 0291" in german.text


def test_a_chosen_key_on_a_phone(plain, tmp_path):
    plain.pair(1, bytes(32))
    assert (
        "The scorekeeper could steer who meets whom: no public draw"
        in Room(tmp_path, plain).ask("GET", "/pairings").text
    )
    assert "the scorekeeper chooses the keys" in Room(tmp_path, plain).ask("GET", "/draw").text


def test_texts_are_handed_out_to_the_byte(plain, file, tmp_path):
    first = keep(file, plain, 1, 1, BEFORE_THE_FIRST)
    draw_round(file, plain, 1, 2, first)
    room = Room(tmp_path, plain)
    one, two = (room.ask("GET", f"/draw/1/{drawing}") for drawing in (1, 2))
    assert [hashlib.sha256(it.text.encode()).hexdigest()[:4] for it in (one, two)] == ["5d01", "214a"]
    assert room.ask("GET", "/draw/1").text == two.text
    assert two.headers["Content-Type"] == "text/plain; charset=utf-8"
    none = "/draw/2", "/draw/1/3", "/draw/next", "/draw/0", "/draw/x"
    assert [room.ask("GET", it).status for it in none] == [404] * 5
    listed = room.ask("GET", "/draw").text
    assert 'href="/draw/1/1"' in listed and 'href="/draw/1/2"' in listed and "<script" not in listed


def test_the_lists_of_the_next_round(plain, file, tmp_path):
    Draws(file).keep_rule(rule_of("each 4d20"))
    shut(file, plain)
    room = Room(tmp_path, plain)
    assert '<td class="number">7</td><td><bdi>P7</bdi></td>' in room.ask("GET", "/draw").text
    mark = Draws(file).shut(1, 1).mark
    due = f"round 1\ndrawing 1\nmark {mark}\nplayers.csv\nno,name,dropped\n"
    assert room.ask("GET", "/draw/next").text.startswith(due)
    assert mark in room.ask("GET", "/draw").text
    # a number is kept, and nothing is paired yet
    Draws(file).keep_number(1, Kept(NUMBER))
    assert room.ask("GET", "/draw/next").status == 200


def test_how_tiebreakers_come_about_on_a_phone(plain, file, tmp_path):
    draw_round(file, plain)
    for table, score in ((1, (2, 0, 0)), (2, (2, 1, 0)), (3, (1, 1, 1))):
        plain.report(1, table, score, True)
    room = Room(tmp_path, plain)
    found = room.ask("GET", "/who/2")
    # P2 won by 2-0 against P3, who has nothing
    assert found.status == 200 and "P2</bdi> (2)" in found.text
    shares = "GWP 6/6 -&gt; 1/1 = 100.00", "MWP 0/3 -&gt; 33/100 = 33.00"
    due = "Rank 1. Points: 3, rounds: 1", "2-0-0", *shares
    assert [words for words in due if words not in found.text] == []
    assert "WRONG" not in found.text and 'href="/who/2"' in room.ask("GET", "/?q=P2").text
    assert room.ask("GET", "/who/9").status == 404
    event = room.cache.snapshot.event
    event.standings = [replace(it, game_wins="99.99") for it in event.standings]
    wrong = "WRONG: the standings say GWP 99.99, and by the results it is 100.00."
    assert wrong in room.ask("GET", "/who/2").text
