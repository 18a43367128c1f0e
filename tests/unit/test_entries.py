"""FILE.entries, the names that players enter before they are enrolled."""
import os
import resource
import signal
import stat

import pytest
from event_companions.beside import entries as module
from event_companions.beside.entries import Entries, Entry, NotEntered
from event_companions.core.rosters import read_list, roster_of


@pytest.fixture
def entries(tmp_path):
    made = Entries(f"{tmp_path}/e.event")
    made.begin()
    return made


def test_it_is_on_while_the_file_is_there(tmp_path):
    entries = Entries(f"{tmp_path}/e.event")
    assert not entries.is_on and entries.all() == []
    entries.begin()
    assert entries.is_on and stat.S_IMODE(os.stat(entries.path).st_mode) == 0o600
    entries.add("Ana Lima", "10.0.0.7")
    # once more it goes on with what is there
    entries.begin()
    assert [entry.name for entry in entries.all()] == ["Ana Lima"]
    entries.end()
    assert not entries.is_on


def test_names_are_rows_of_a_list_that_import_takes(entries):
    for name in ("Ana Lima", "Sato, Bo", "-Zoë", 'Peter "Pit" Kim', "=1+1"):
        entries.add(name, "10.0.0.7")
    assert entries.all() == [
        Entry(2, "Ana Lima"),
        Entry(3, "Sato, Bo"),
        Entry(4, "-Zoë"),
        Entry(5, 'Peter "Pit" Kim'),
        Entry(6, "=1+1"),
    ]
    roster = roster_of(read_list(entries.path), {"Ana Lima"}, "utf-8")
    assert (roster.names, roster.already) == (["Sato, Bo", "-Zoë", 'Peter "Pit" Kim', "=1+1"], ["Ana Lima"])


def test_whoever_is_there_is_not_entered_twice(entries):
    for name in ("Zoë Kim", "zoë  kim", "ZOE\u0308 KIM"):
        entries.add(name, "10.0.0.7")
    assert [entry.name for entry in entries.all()] == ["Zoë Kim"]


def test_a_line_that_was_broken_off_stays_alone(entries):
    with open(entries.path, "a") as written:
        written.write("Ana Li")
    entries.add("Bo Sato", "10.0.0.7")
    assert [entry.name for entry in entries.all()] == ["Ana Li", "Bo Sato"]


def test_a_name_for_which_there_is_no_room_is_not_entered(entries):
    """The disk takes a part of the line: whoever entered it is told, and enters it again."""
    room = resource.getrlimit(resource.RLIMIT_FSIZE)
    before = signal.signal(signal.SIGXFSZ, signal.SIG_IGN)
    resource.setrlimit(resource.RLIMIT_FSIZE, (os.path.getsize(entries.path) + 5, room[1]))
    try:
        with pytest.raises(OSError):
            entries.add("Ana Lima", "10.0.0.7")
    finally:
        resource.setrlimit(resource.RLIMIT_FSIZE, room)
        signal.signal(signal.SIGXFSZ, before)
    entries.add("Ana Lima", "10.0.0.7")
    assert entries.all()[-1].name == "Ana Lima"


@pytest.mark.parametrize("name", ["", "a" * 61, "\x00", "a\nb", "a\x1b[2J", "a\u202eb", "é" * 31])
def test_what_is_no_name(entries, name):
    with pytest.raises(NotEntered, match="no_name_is_so"):
        entries.add(name, "10.0.0.7")
    assert entries.all() == []


def test_the_list_has_an_end(entries, monkeypatch):
    monkeypatch.setattr(module, "MOST_BYTES", 60)
    entries.add("Ana Lima", "10.0.0.7")
    with pytest.raises(NotEntered, match="list_is_full"):
        entries.add("Bo Sato", "10.0.0.7")
    assert os.path.getsize(entries.path) <= 60


def test_a_name_is_struck_in_place(entries):
    for name in ("Ana", "Zoë, the second", "Cy"):
        entries.add(name, "10.0.0.7")
    inode = os.stat(entries.path).st_ino
    assert entries.strike(3) and not entries.strike(3) and not entries.strike(1) and not entries.strike(9)
    assert (entries.all(), os.stat(entries.path).st_ino) == ([Entry(2, "Ana"), Entry(4, "Cy")], inode)
    entries.add("Di", "10.0.0.7")
    assert entries.all()[-1] == Entry(5, "Di")
    assert roster_of(read_list(entries.path), set(), "utf-8").names == ["Ana", "Cy", "Di"]
