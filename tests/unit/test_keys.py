"""FILE.keys, and whether a round is the one that a key gives."""
import os
import stat

from event_companions.beside.keys import Keys
from event_companions.core.lists import Match
from event_companions.core.score import Score
from event_companions.prompt.checking import differing_tables

ONE, OTHER, THIRD = "ab" * 32, "cd" * 32, "0F" * 32


def test_the_last_key_of_a_round_that_was_used(tmp_path):
    keys = Keys(f"{tmp_path}/e.event")
    assert keys.all() == [] and keys.last(1) is None
    keys.append(1, ONE)
    keys.append(2, OTHER)
    keys.mark_unused(2, OTHER)
    assert keys.all() == [(1, ONE)] and keys.last(2) is None
    keys.append(2, THIRD)
    assert keys.all() == [(1, ONE), (2, THIRD)] and keys.last(2) == THIRD


def test_lines_are_for_the_owner_and_as_the_formats_have_them(tmp_path):
    keys = Keys(f"{tmp_path}/e.event")
    keys.append(3, ONE)
    keys.mark_unused(3, ONE)
    assert open(keys.path).read() == f"round 3 {ONE}\nround 3 {ONE} unused\n"
    assert stat.S_IMODE(os.stat(keys.path).st_mode) == 0o600


def test_a_line_that_was_broken_off_stays_alone(tmp_path):
    keys = Keys(f"{tmp_path}/e.event")
    with open(keys.path, "w") as written:
        written.write("round 3 abc")
    keys.append(3, ONE)
    assert open(keys.path).read() == f"round 3 abc\nround 3 {ONE}\n"
    assert keys.all() == [(3, ONE)]


def test_tables_at_which_others_sit():
    stored = [Match(1, 4, 2, Score(2, 0)), Match(2, 1, 3), Match(0, 5, 0, Score(2, 0))]
    assert differing_tables(stored, [Match(1, 4, 2), Match(2, 1, 3), Match(0, 5, 0, Score(2, 0))]) == []
    # the order in which two are named is a part of the pairing
    others = [Match(1, 2, 4), Match(2, 1, 5), Match(0, 3, 0, Score(2, 0))]
    assert differing_tables(stored, others) == [0, 1, 2]
    assert differing_tables(stored, stored[:1]) == [0, 2]
