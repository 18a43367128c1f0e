"""A file that another program has open stays where it is. The other one locks it as SQLite does."""
import os
import sqlite3
import threading

import pytest
from event_companions.beside.copies import Copies, Copy
from event_companions.core.holding import held_by_nobody
from event_companions.core.program import Declined
from event_companions.core.turn import Turn


@pytest.fixture
def file(tmp_path):
    path = f"{tmp_path}/e.event"
    base = sqlite3.connect(path)
    base.execute("CREATE TABLE event (name TEXT)")
    base.commit()
    base.close()
    return path


def locked(file):
    base = sqlite3.connect(file, isolation_level=None, check_same_thread=False)
    base.execute("BEGIN EXCLUSIVE")
    return base


def test_a_file_that_nobody_has(file):
    with held_by_nobody(file):
        base = sqlite3.connect(file, timeout=0)
        # nor may another program begin meanwhile
        child = os.fork()
        if child == 0:
            try:
                base.execute("BEGIN EXCLUSIVE")
            except sqlite3.OperationalError:
                os._exit(7)
            os._exit(0)
        assert os.waitstatus_to_exitcode(os.waitpid(child, 0)[1]) == 7
        base.close()
    with held_by_nobody(file):
        pass


def in_child(work):
    """The status of another process, since locks are a process's own."""
    child = os.fork()
    if child == 0:
        status = 1
        try:
            status = work()
        finally:
            os._exit(status)
    return os.waitstatus_to_exitcode(os.waitpid(child, 0)[1])


def test_a_file_that_another_program_has(file):
    base = locked(file)

    def put_away():
        copies = Copies(file, Turn())
        try:
            copies.put_in_place(Copy(1, "20261129-120000", "before-cut", file))
        except Declined as fault:
            return 7 if "Another program has" in str(fault) and "serve" in str(fault) else 1
        return 0

    assert in_child(put_away) == 7
    assert sorted(os.listdir(os.path.dirname(file)))[0] == "e.event"
    assert [name for name in os.listdir(os.path.dirname(file)) if "away" in name or "back" in name] == []
    base.close()


def test_what_is_not_there_is_held_by_nobody(tmp_path):
    with held_by_nobody(f"{tmp_path}/none.event"):
        pass
    with pytest.raises(ZeroDivisionError), held_by_nobody(f"{tmp_path}"):
        raise ZeroDivisionError


def test_a_file_that_another_program_has_for_a_moment(file):
    base = locked(file)

    def put_away():
        copies = Copies(file, Turn())
        copies.put_in_place(Copy(1, "20261129-120000", "before-cut", file))
        return 7

    ending = threading.Timer(0.5, base.close)
    ending.start()
    assert in_child(put_away) == 7
    ending.join()
