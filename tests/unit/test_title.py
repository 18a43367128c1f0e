"""What an event is called."""
import os
import sqlite3

import pytest
from event_companions.beside.title import event_name, file_name, keep_title, title_of
from event_companions.core.turn import Turn


def made(path, name):
    """A file with the row that has the name, as FORMATS has it."""
    base = sqlite3.connect(path)
    base.execute("CREATE TABLE event(id, version, serial, name TEXT NOT NULL, rounds, cut, phase)")
    base.execute("INSERT INTO event VALUES (1, 2, 0, ?, 3, 0, 0)", (name,))
    base.commit()
    base.close()
    return path


def test_the_text_beside_the_file_comes_before_the_name_in_it(tmp_path):
    file = made(f"{tmp_path}/friday.event", "Friday Night")
    assert event_name(file, Turn(file)) == title_of(file, Turn(file)) == "Friday Night"
    keep_title(file, "Friday, at last")
    assert event_name(file, Turn(file)) == title_of(file, Turn(file)) == "Friday, at last"
    keep_title(file, " ")
    assert title_of(file, Turn(file)) == "Friday Night"


def test_a_copy_of_the_one_file_has_its_heading(tmp_path):
    os.mkdir(f"{tmp_path}/stick")
    file = made(f"{tmp_path}/stick/copy.event", "Zoë’s <Night>")
    before = os.stat(file)
    assert title_of(file, Turn(file)) == "Zoë’s <Night>"
    after = os.stat(file)
    assert (before.st_mtime_ns, before.st_size) == (after.st_mtime_ns, after.st_size)
    assert os.listdir(f"{tmp_path}/stick") == ["copy.event"]


@pytest.mark.parametrize(
    "name, shown",
    [
        ("friday.event", "friday"),
        ("friday", "friday"),
        (".event", ".event"),
        ("a\udcff.event", "a?"),
    ],
)
def test_where_there_is_no_name_it_is_the_file_s(tmp_path, name, shown):
    file = f"{tmp_path}/{name}"
    assert file_name(file) == title_of(file, Turn(file)) == shown
    assert event_name(file, Turn(file)) == ""
    with open(file, "wb") as written:
        written.write(b"no event")
    assert title_of(file, Turn(file)) == shown
