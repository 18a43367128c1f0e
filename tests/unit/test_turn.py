"""Turns at a file."""
import fcntl
import os
import stat
import threading
import time

import pytest
from event_companions.core import turn
from event_companions.core.turn import Turn


@pytest.fixture
def file(tmp_path):
    path = f"{tmp_path}/e.event"
    open(path, "w").close()
    return path


def is_free(file):
    with open(f"{file}.turn", "rb") as other:
        try:
            fcntl.flock(other, fcntl.LOCK_EX | fcntl.LOCK_NB)
            return True
        except BlockingIOError:
            return False


def test_the_file_is_made_for_its_owner_where_there_is_an_event(file):
    with Turn(file).taken() as held:
        assert held == () and not os.path.exists(f"{file}.turn")
    with Turn(f"{file}.none", makes_file=True).taken() as held:
        assert held == () and not os.path.exists(f"{file}.none.turn")
    with Turn(file, makes_file=True).taken() as held:
        assert len(held) == 1
    assert stat.S_IMODE(os.stat(f"{file}.turn").st_mode) == 0o600


def test_it_may_be_taken_again_while_it_is_held(file):
    mine = Turn(file, makes_file=True)
    with mine.taken() as one:
        with mine.taken() as other:
            assert one == other and not is_free(file)
        assert not is_free(file)
    assert is_free(file)


def test_two_never_meet(file):
    order = []

    def work(name):
        with Turn(file, makes_file=True).taken():
            order.append(f"{name} begins")
            time.sleep(0.02)
            order.append(f"{name} ends")

    threads = [threading.Thread(target=work, args=(name,)) for name in "abc"]
    for thread in threads:
        thread.start()
    for thread in threads:
        thread.join()
    names = [line[0] for line in order[::2]]
    assert sorted(names) == ["a", "b", "c"]
    assert order == [f"{name} {what}" for name in names for what in ("begins", "ends")]


def test_nobody_waits_for_ever(file, monkeypatch):
    monkeypatch.setattr(turn, "MOST_SECONDS", 0.1)
    with Turn(file, makes_file=True).taken():
        with Turn(file).taken() as held:
            assert held == ()
    # the lock that came too late is let go
    until = time.monotonic() + 60
    while not is_free(file) and time.monotonic() < until:
        time.sleep(0.01)
    assert is_free(file)


def test_no_file_is_no_turn():
    with Turn().taken() as held:
        assert held == ()
