"""Which file the program is asked: FILE, or a copy of it in memory."""
import os
import shutil

import pytest

from event_companions.core import program as module
from event_companions.core.files import LEAST_LOG
from event_companions.core.program import Refused, Source

# names the file that it gets, shows what is in it, and refuses one word
PROGRAM = """#!/bin/sh
[ "$3" = fails ] && { echo 'refused 9 AllRoundsPaired' >&2; exit 1; }
echo "$2"
cat "$2"
"""


@pytest.fixture
def source(tmp_path):
    stand_in, file = tmp_path / "program", tmp_path / "e.event"
    stand_in.write_text(PROGRAM)
    stand_in.chmod(0o755)
    file.write_text("bytes\n")
    os.utime(file, ns=(1_000_000_001, 1_000_000_001))
    return Source(str(stand_in), str(file), most_tries=1)


def asked(source, *words):
    """The path that the program got, and what lay there."""
    path, _, text = source.read_now("players", *words).partition("\n")
    return path, text


def test_a_reading_asks_a_copy_in_memory_which_is_gone_then(source):
    path, text = asked(source)
    assert path.startswith(f"{module.IN_MEMORY}/") and text == "bytes\n"
    assert not os.path.exists(os.path.dirname(path))


def test_a_command_goes_to_the_file(source):
    assert source.ask("result").startswith(f"{source.file}\n")


def test_what_the_program_refuses_of_a_copy_is_refused(source):
    with pytest.raises(Refused):
        asked(source, "fails")


def test_where_the_log_holds_something_the_file_is_asked(source):
    for size, is_copied in ((0, True), (LEAST_LOG - 1, True), (LEAST_LOG, False)):
        with open(f"{source.file}-wal", "wb") as log:
            log.write(b"\0" * size)
        assert (asked(source)[0] != source.file) == is_copied


def test_where_the_stamp_does_not_tell_of_each_command_the_file_is_asked(source):
    os.utime(source.file, ns=(1_000_000_000, 1_000_000_000))
    assert asked(source) == (source.file, "bytes\n")


def test_where_no_copy_can_be_made_the_file_is_asked(source, monkeypatch, tmp_path):
    monkeypatch.setattr(module, "IN_MEMORY", f"{tmp_path}/none")
    assert asked(source) == (source.file, "bytes\n")


def test_where_a_command_came_meanwhile_the_file_is_asked(source, monkeypatch):
    copyfile = shutil.copyfile

    def late(path, copy):
        copyfile(path, copy)
        with open(path, "a") as written:
            written.write("more\n")

    monkeypatch.setattr(module.shutil, "copyfile", late)
    assert asked(source) == (source.file, "bytes\nmore\n")
