"""FILE.copies-to: each copy goes to a second place too, with what lies beside the event."""
import os

import pytest
from event_companions.beside.copies import Copies
from event_companions.beside.second_place import SecondPlace
from event_companions.core.turn import Turn


@pytest.fixture
def file(tmp_path):
    path = f"{tmp_path}/e.event"
    for ending, text in (("", "the event"), (".keys", "round 1 ..\n"), (".names", "names\n"), (".turn", "")):
        with open(path + ending, "w") as written:
            written.write(text)
    return path


def all_below(folder):
    return sorted(
        os.path.relpath(os.path.join(at, name), folder) for at, _, names in os.walk(folder) for name in names
    )


def test_no_place_no_copy(file):
    second = SecondPlace(file)
    assert second.kept() is None and second.folder() == ""
    assert second.copy(Copies(file, Turn()).make("cut")) == ""


def test_a_copy_goes_there_whole(file, tmp_path):
    stick = tmp_path / "stick"
    stick.mkdir()
    second, copies = SecondPlace(file), Copies(file, Turn())
    second.keep(str(stick))
    assert open(f"{file}.copies-to").read() == f"{stick}\nthe same disk\n"
    copy = copies.make("pair-3")
    assert second.copy(copy) == ""
    folder = f"e.event.copies/0001-{copy.when}-before-pair-3"
    assert all_below(stick) == [f"{folder}/e.event", f"{folder}/e.event.keys", f"{folder}/e.event.names"]
    assert (stick / folder / "e.event").read_text() == "the event"
    second.forget()
    second.forget()
    assert second.kept() is None


def test_a_disk_that_is_not_there(file, tmp_path):
    second, copy = SecondPlace(file), Copies(file, Turn()).make("cut")
    (tmp_path / "stick").mkdir()
    second.keep(f"{tmp_path}/stick")
    os.rmdir(f"{tmp_path}/stick")
    assert second.copy(copy) == "the disk is not there"
    # an empty folder in the place of a stick that was pulled out is on the event's own disk
    (tmp_path / "stick").mkdir()
    with open(f"{file}.copies-to", "w") as written:
        written.write(f"{tmp_path}/stick\nanother disk\n")
    assert second.copy(copy) == "the disk is not there"
    assert os.listdir(tmp_path / "stick") == []


def test_a_copy_that_can_not_be_written(file, tmp_path):
    second, copy = SecondPlace(file), Copies(file, Turn()).make("cut")
    (tmp_path / "stick").mkdir()
    second.keep(f"{tmp_path}/stick")
    (tmp_path / "stick" / "e.event.copies").write_text("a file where a folder has to be")
    assert second.copy(copy) in ("Not a directory", "File exists")


def test_many_copies_are_thinned(file):
    """But for those from before a round or the cut, and those made by hand."""
    copies = Copies(file, Turn())
    for number in range(1, 31):
        copies.make(f"drop-{number}")
        copies.make(f"pair-{number}")
        copies.make(f"play-1-{number}")
    copies.make("cut")
    copies.make_by_hand()
    copies.thin()
    left = [copy.what for copy in copies.all()]
    assert len(left) == 30 + 40 + 2
    assert [what for what in left if what.startswith("before-pair")] == [
        f"before-pair-{it}" for it in range(1, 31)
    ]
    assert {"before-cut", "copy", "before-drop-30", "before-play-1-11"} <= {*left}
    assert "before-drop-10" not in left
    copies.thin()
    assert [copy.what for copy in copies.all()] == left
