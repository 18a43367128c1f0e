"""FILE.draws: what is kept of draws, and never written over."""
import os

import pytest

from event_companions.core.lists import Match
from event_companions.draw.draw import BEFORE_THE_FIRST, DrawText, Lists, key_of, rule_of
from event_companions.draw.draws import Draws, Kept, differences, keep_new

HEADING = b"round,table,a,b,x,y,d\n"
LISTS = Lists(b"no,name,dropped\n1,Ana,0\n2,Bo,0\n", HEADING)


def text(drawing, after, number="1 2", seats=(1, 2)):
    tables = HEADING + b"1,1,%d,%d,,,\n" % seats
    return DrawText(1, drawing, after, number, "-", "-", key_of(1, number), LISTS, tables)


@pytest.fixture
def draws(tmp_path):
    return Draws(f"{tmp_path}/e.event")


def test_a_rule(draws):
    assert draws.rule is None and draws.numbers(1) == [] and draws.texts() == []
    draws.keep_rule(rule_of("each 4d20"))
    assert open(f"{draws.folder}/rule").read() == "each 4d20\n" and draws.rule == rule_of("each 4d20")
    draws.keep_rule(rule_of("off"))
    assert draws.rule.is_off
    draws.forget_rule()
    assert draws.rule is None


def test_numbers_are_appended(draws):
    draws.keep_number(1, Kept("1 2 3 4"))
    draws.keep_number(2, Kept("3 8 11 17", "12 30"))
    draws.keep_number(1, Kept("1 2 3 5"))
    due = "round 1 1 2 3 4\nround 2 3 8 11 17 by 12 30\nround 1 1 2 3 5\n"
    assert open(draws.numbers_path).read() == due
    assert draws.numbers(1) == [Kept("1 2 3 4"), Kept("1 2 3 5")]
    assert draws.numbers(2) == [Kept("3 8 11 17", "12 30")]
    assert draws.numbers(3) == []
    draws.keep_rule(rule_of("once 4d20"))
    assert draws.numbers(3) == draws.numbers(1)


def test_pages_see_by_the_folder_that_a_number_was_kept(draws):
    draws.keep_number(1, Kept("1 2 3 4"))
    os.utime(draws.folder, (1, 1))
    draws.keep_number(1, Kept("1 2 3 5"))
    assert os.stat(draws.folder).st_mtime > 1


def test_a_number_that_was_broken_off_is_none(draws):
    draws.make_folder()
    with open(draws.numbers_path, "w") as written:
        written.write("round 1 3 8 1")
    assert draws.numbers(1) == []
    draws.keep_number(1, Kept("3 8 11 17"))
    assert draws.numbers(1) == [Kept("3 8 11 17")]
    assert open(draws.numbers_path).read() == "round 1 3 8 1 broken off\nround 1 3 8 11 17\n"


def test_drawings_are_counted(draws):
    assert (draws.keep_shut(1, LISTS), draws.is_open(1), draws.is_open(2)) == (1, 1, 0)
    assert draws.shut(1, 1) == LISTS and draws.shut(1, 2) is None
    one = text(1, BEFORE_THE_FIRST)
    draws.keep_text(one)
    assert draws.is_open(1) == 0
    assert draws.keep_shut(1, LISTS) == 2 == draws.is_open(1)
    assert draws.drawings(1, "txt") == [1] and draws.drawings(1, "shut") == [1, 2]


def test_nothing_is_written_over(draws):
    one = text(1, BEFORE_THE_FIRST)
    draws.make_folder()
    draws.keep_text(one)
    with pytest.raises(FileExistsError):
        draws.keep_text(text(1, BEFORE_THE_FIRST, "2 2"))
    assert draws.texts() == [one]


def test_the_second_name_of_a_kept_file_is_not_written_into(tmp_path):
    path = f"{tmp_path}/kept"
    keep_new(path, b"one")
    os.link(path, f"{tmp_path}/other.part")
    keep_new(f"{tmp_path}/other", b"two")
    assert (open(path).read(), open(f"{tmp_path}/other").read()) == ("one", "two")
    assert sorted(os.listdir(tmp_path)) == ["kept", "other"]


def test_where_no_file_has_a_second_name(tmp_path, monkeypatch):
    def refuse(*_):
        raise PermissionError(1, "Operation not permitted")

    monkeypatch.setattr(os, "link", refuse)
    keep_new(f"{tmp_path}/kept", b"one")
    with pytest.raises(FileExistsError):
        keep_new(f"{tmp_path}/kept", b"two")
    assert open(f"{tmp_path}/kept").read() == "one"


def test_the_last_text_is_the_one_that_no_other_names(draws):
    draws.make_folder()
    assert draws.last_sum() == BEFORE_THE_FIRST
    one = text(1, BEFORE_THE_FIRST)
    draws.keep_text(one)
    two = text(2, one.sum)
    draws.keep_text(two)
    assert draws.last_sum() == two.sum
    # it need not be the one of the last round
    other = DrawText(2, 1, two.sum, "1 2", "-", "-", key_of(2, "1 2"), LISTS, HEADING + b"2,1,1,2,,,\n")
    draws.keep_text(other)
    three = text(3, other.sum)
    draws.keep_text(three)
    assert draws.last_sum() == three.sum


def test_the_text_of_a_round_is_the_newest_one_with_its_tables(draws):
    draws.make_folder()
    one = text(1, BEFORE_THE_FIRST)
    two = text(2, one.sum, seats=(2, 1))
    three = text(3, two.sum)
    for it in (one, two, three):
        draws.keep_text(it)
    assert draws.text_of_round(1, [Match(1, 1, 2, "")]) == three
    assert draws.text_of_round(1, [Match(1, 2, 1, "2-0-0")]) == two
    assert draws.text_of_round(1, [Match(1, 1, 3, "")]) is None
    assert draws.text_of_round(2, [Match(1, 1, 2, "")]) is None


def test_what_differs_between_two_drawings():
    names = b'no,name,dropped\n1,Ana,0\n2,Bo,0\n3,"Lima, Ed",1\n'
    row = b"1,1,1,2,%s\n1,0,3,0,2,0,0\n"
    before = Lists(names, HEADING + row % b"2,0,0")
    assert differences(before, before) == []
    other = names.replace(b"Bo,0", b"Bob,1").replace(b'Ed",1', b'Ed",0') + b"4,Di,0\n"
    told = ["4 came", "2 has another name", "2 dropped", "3 is in again", "round 1, table 1 is otherwise"]
    assert differences(before, Lists(other, HEADING + row % b"2,1,0")) == told
    assert differences(before, Lists(names[:24], HEADING)) == [
        "2 is gone",
        "3 is gone",
        "round 1, table 0 is otherwise",
        "round 1, table 1 is otherwise",
    ]


def files_of(folder):
    return {name: open(os.path.join(folder, name), "rb").read() for name in os.listdir(folder)}


def test_what_was_drawn_lies_beside_the_copies_too(draws, tmp_path):
    copies = f"{tmp_path}/copies/draws"
    draws.copy_to(copies)
    assert not os.path.exists(copies)
    draws.keep_rule(rule_of("each 4d20"))
    draws.keep_number(1, Kept("3 8 11 17"))
    draws.keep_shut(1, LISTS)
    with open(f"{draws.folder}/round-1-1.txt.part", "w") as written:
        written.write("half of it")
    draws.copy_to(copies)
    assert sorted(files_of(copies)) == ["numbers", "round-1-1.shut", "rule"]
    os.unlink(f"{draws.folder}/round-1-1.txt.part")
    draws.keep_number(1, Kept("3 8 11 18"))
    draws.keep_text(text(1, BEFORE_THE_FIRST))
    draws.forget_rule()
    draws.copy_to(copies)
    assert files_of(copies) == files_of(draws.folder)


def test_what_was_drawn_is_taken_from_the_copies_only_if_nothing_is_there(draws, tmp_path):
    there = Draws(f"{tmp_path}/laptop.event")
    assert not there.take_from(draws.folder)
    draws.keep_number(1, Kept("3 8 11 17"))
    # what a stop has left
    os.mkdir(f"{there.folder}.part")
    assert there.take_from(draws.folder)
    assert files_of(there.folder) == files_of(draws.folder)
    draws.keep_number(2, Kept("1 1 1 1"))
    assert not there.take_from(draws.folder)
    assert there.numbers(2) == []
