"""Where pages go: whole, and never in place of an event."""
import os
import stat

import pytest
from event_companions.core.program import Declined
from event_companions.sheets.files import must_be_for_pages, page_beside, write_page


def read(path):
    with open(path, encoding="utf-8") as page:
        return page.read()


def test_where_a_page_goes():
    assert page_beside("a/friday.event") == "a/friday.event.sheets.html"
    assert page_beside("friday.event", True) == "friday.event.board.html"


def test_a_page_takes_the_place_of_the_one_before(tmp_path):
    path = f"{tmp_path}/page.html"
    write_page(path, "one")
    write_page(path, "Zoë\n")
    assert read(path) == "Zoë\n"
    assert os.listdir(tmp_path) == ["page.html"]
    mask = os.umask(0)
    os.umask(mask)
    assert stat.S_IMODE(os.stat(path).st_mode) == 0o666 & ~mask


def test_what_was_there_stays_where_a_page_is_not_whole(tmp_path):
    path = f"{tmp_path}/page.html"
    write_page(path, "one")
    with pytest.raises(UnicodeEncodeError):
        write_page(path, "half of it, and then \ud800")
    assert read(path) == "one"
    assert os.listdir(tmp_path) == ["page.html"]
    with pytest.raises(FileNotFoundError):
        write_page(f"{tmp_path}/none/page.html", "one")


def test_a_page_goes_where_a_link_leads(tmp_path):
    os.symlink("page.html", f"{tmp_path}/latest.html")
    write_page(f"{tmp_path}/latest.html", "one")
    assert os.path.islink(f"{tmp_path}/latest.html") and read(f"{tmp_path}/page.html") == "one"


def test_a_device_stays_one():
    write_page("/dev/null", "one")
    assert stat.S_ISCHR(os.stat("/dev/null").st_mode)


@pytest.mark.parametrize(
    "name, is_taken",
    [
        ("friday.event", False),
        ("./friday.event", False),
        ("link", False),
        ("friday.event-wal", False),
        ("friday.event.keys", False),
        ("friday.event.copies", False),
        ("saturday.event", False),
        ("friday.event.sheets.html", True),
        ("friday.html", True),
        ("friday", True),
        ("sub/new.html", True),
        ("pipe", True),
    ],
)
def test_no_page_takes_the_place_of_an_event(tmp_path, name, is_taken):
    file = f"{tmp_path}/friday.event"
    for other in (file, f"{tmp_path}/saturday.event"):
        with open(other, "wb") as written:
            written.write(b"SQLite format 3\0" + bytes(100))
    os.symlink("friday.event", f"{tmp_path}/link")
    os.mkfifo(f"{tmp_path}/pipe")
    if is_taken:
        must_be_for_pages(f"{tmp_path}/{name}", file)
    else:
        with pytest.raises(Declined, match="is no page. Name one, as: page.html"):
            must_be_for_pages(f"{tmp_path}/{name}", file)
