"""What an event was made with, from a copy of a file that SQL makes as FORMATS has it."""
import os
import sqlite3

import pytest
from event_companions.core.plan import Plan, plan_of
from event_companions.core.turn import Turn


def test_the_plan_is_read_from_a_copy(tmp_path):
    path = f"{tmp_path}/e.event"
    base = sqlite3.connect(path)
    base.execute(
        "CREATE TABLE event(id INTEGER PRIMARY KEY CHECK(id = 1), version INTEGER NOT NULL,"
        " serial INTEGER NOT NULL, name TEXT NOT NULL, rounds INTEGER NOT NULL, cut INTEGER NOT NULL,"
        " phase INTEGER NOT NULL)"
    )
    base.execute("INSERT INTO event VALUES (1, 2, 0, 'Friday Night', 6, 8, 0)")
    base.commit()
    base.close()
    before = os.stat(path)
    assert plan_of(path, Turn()) == Plan("Friday Night", 6, 8)
    after = os.stat(path)
    assert (before.st_mtime_ns, before.st_size) == (after.st_mtime_ns, after.st_size)
    assert sorted(os.listdir(tmp_path)) == ["e.event"]


@pytest.mark.parametrize("data", [b"", b"Ana\n" * 200])
def test_what_is_no_event_has_no_plan(tmp_path, data):
    with open(f"{tmp_path}/e.event", "wb") as written:
        written.write(data)
    assert plan_of(f"{tmp_path}/e.event", Turn()) is None
    assert plan_of(f"{tmp_path}/none.event", Turn()) is None


@pytest.mark.parametrize(
    "plan, number, shown",
    [
        (Plan("E", 6, 8), 3, "Round 3 of 6, cut to 8"),
        (Plan("E", 6, 0), 0, "6 rounds, no cut"),
        (Plan("E", 1, 2), 0, "1 round, cut to 2"),
    ],
)
def test_how_it_is_shown(plan, number, shown):
    assert plan.shown(number) == shown
