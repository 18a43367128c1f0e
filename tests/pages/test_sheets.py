"""Where the pages of `companions/bin/event-sheets` go: into a file beside the event at a terminal, into a file that is named, into a pipe; and that a run which fails
leaves the page before as it was. What stands on the pages is compared in `test_sheet_pages.py`.
"""
import pytest

from tests.support.plain_page import Page, heading
from tests.support.random_evenings import COMPLETE, evening, laid
from tests.support.sheets import BEFORE

pytestmark = pytest.mark.needs("sheets and boards", module="jinja2", package="python3-jinja2")


@pytest.fixture
def sheets(sheets, program, room, dice):
    laid(program.path, f"{room}/friday.event", evening(dice, 9, COMPLETE, 3, 4), "Friday <Night>")
    return sheets


@pytest.fixture
def page(sheets):
    """What is printed into a pipe."""
    status, text, errors = sheets.printed("friday.event")
    assert (status, errors) == (0, "")
    return text


def test_into_a_pipe_it_is_printed(sheets, page):
    assert Page(page).faults == []
    assert heading(Page(page).parts()["tables"])[0] == "Friday <Night>", "the name in the file heads it"
    assert sheets.printed("friday.event", "-o", "-") == (0, page, "")
    assert sheets.there() == ["friday.event"]


def test_at_a_terminal_it_goes_beside_the_event(sheets, page):
    due = "Written: friday.event.sheets.html\nOpen it in a browser, and print it there: each part begins a page of its own.\n"
    for _ in range(2):
        assert sheets.at_a_terminal("friday.event") == (0, due)
        assert sheets.read("friday.event.sheets.html") == page
    assert sheets.there() == ["friday.event", "friday.event.sheets.html"]
    status, said = sheets.at_a_terminal("friday.event", "-o", "-")
    assert (status, said) == (0, page)


def test_a_board_at_a_terminal_leaves_the_sheets(sheets):
    sheets.lay("friday.event.sheets.html")
    due = "Written: friday.event.board.html\nOpen it in a browser. It stays as it is; --watch keeps a board up to date.\n"
    assert sheets.at_a_terminal("friday.event", "--board") == (0, due)
    assert Page(sheets.read("friday.event.board.html")).root.of("body", "board")
    assert sheets.read("friday.event.sheets.html") == BEFORE


@pytest.mark.parametrize("words", [(), ("--board",), ("--parts", "standings")])
def test_into_a_file_that_is_named(sheets, words):
    sheets.lay("page.html")
    _, due, _ = sheets.printed("friday.event", *words)
    status, said, errors = sheets.printed("friday.event", *words, "--output", "page.html")
    assert (status, said.split("\n")[0], errors) == (0, "Written: page.html", "")
    assert sheets.read("page.html") == due
    assert sheets.there() == ["friday.event", "page.html"]


@pytest.mark.parametrize(
    "status, words",
    [
        (1, ["none.event"]),
        (1, ["friday.event", "--round", "9"]),
        (1, ["none.event", "--board"]),
        (3, ["friday.event", "--program", "/none"]),
    ],
)
def test_a_run_that_fails_leaves_the_page_before(sheets, status, words):
    sheets.lay("page.html")
    found, said, errors = sheets.printed(*words, "-o", "page.html")
    assert (found, said, errors != "") == (status, "", True)
    assert sheets.read("page.html") == BEFORE
    assert sheets.there() == ["friday.event", "page.html"], "and nothing beside"


def test_at_a_terminal_too(sheets):
    sheets.lay("none.event.sheets.html")
    status, said = sheets.at_a_terminal("none.event")
    assert status == 1 and "refused 27 NoEvent" in said
    assert sheets.read("none.event.sheets.html") == BEFORE


@pytest.mark.parametrize("option", ["-o", "--watch"])
def test_no_page_takes_the_place_of_the_event(sheets, option):
    with open(f"{sheets.room}/friday.event", "rb") as event:
        before = event.read()
    status, said, errors = sheets.printed("friday.event", option, "friday.event")
    assert (status, said, errors) == (
        3,
        "",
        "event-sheets: friday.event is no page. Name one, as: page.html\n",
    )
    with open(f"{sheets.room}/friday.event", "rb") as event:
        assert event.read() == before


def test_where_there_is_no_folder(sheets):
    status, said, errors = sheets.printed("friday.event", "-o", "none/page.html")
    assert (status, said, errors) == (
        3,
        "",
        "event-sheets: none/page.html was not written: No such file or directory.\n",
    )


def test_one_place_alone(sheets):
    status, said, errors = sheets.printed("friday.event", "-o", "a.html", "--watch", "b.html")
    assert (status, said, "not allowed with" in errors) == (2, "", True)
