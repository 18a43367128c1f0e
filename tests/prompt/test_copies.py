"""Copies that the prompt makes, and how it goes back to one: what came since, stopped after each move, and what lies beside an event of the same name."""
import contextlib
import glob
import os
import re
import shutil
import subprocess
import sys

import pytest

from second_reading.plain_file import read
from tests.support.event_files import rows_alone, rows_of
from tests.support.prompt import LETTERS, check_said, keys_of, unfilled
from tests.support.waiting import PATIENCE


def test_copies(prompt, room, started):
    """What comes after a copy, and how the prompt goes back to it."""
    event, file = started(*(f"P{it}" for it in range(1, 9)))
    prompt.said(
        file,
        "pair",
        "1 2 0",
        "2 2 1",
        "3 2 0",
        "4 0 2",
        "drop 3",
        "y",
        "fix 1 2 1",
        "enrol Late",
        "pair",
        "1 2 0",
    )
    before = rows_alone(file)
    copies = sorted(os.listdir(f"{file}.copies"))
    assert [re.sub(r"^(\d+)-\d+-\d+-", r"\1 ", it) for it in copies] == [
        "0001 before-pair-1.event",
        "0002 before-drop-3.event",
        "0003 before-pair-2.event",
    ], "copies"
    held = {it: open(f"{file}.copies/{it}", "rb").read() for it in copies}
    text = prompt.said(file, "back")
    check_said(
        "back lists them",
        text,
        "   1  20",
        "before the pairing of round 1\n",
        "   2  20",
        "before the drop of P3 (3)\n",
        "   3  20",
        "before the pairing of round 2\n",
        "as: back 3",
    )
    check_said(
        "no is no",
        unfilled(prompt.said(file, "back 2", "n")),
        "That takes back: the pairing of round 2, 2 scores, 1 player who came, 1 drop. Go on from this copy?",
        "The event stays as it is.",
    )
    assert rows_alone(file) == before, "no is no, the file"
    key = dict(keys_of(file))[2].hex()
    text = prompt.said(file, "back 2", "y")
    check_said(
        "back",
        text,
        "before the drop of P3 (3)",
        f"is {file}.away-0004-",
        "round 1 has all its scores",
        "What came since",
        "  fix 1 1 2 1 0",
        "  drop 3",
        "  enrol Late",
        "Round 2 was paired since",
        key,
        "  1 2 0 0",
    )
    away = [it for it in os.listdir(room) if re.fullmatch(r"e\.event\.away-0004-\d{8}-\d{6}", it)]
    assert (
        rows_alone(f"{room}/{away[0]}") if len(away) == 1 else away
    ) == before, "the event in use is put away"
    assert {it: open(f"{file}.copies/{it}", "rb").read() for it in copies} == held, "the copies stay"
    assert (read(file).dropped, len(read(file).stored), len(read(file).names)) == (
        set(),
        1,
        8,
    ), "the event of the copy goes on"
    text = prompt.said(file, "drop 3", "y", "fix 1 1 2 1 0", "enrol Late", "pair again")
    check_said("the same pairing again", text, key)
    assert sorted((a, b) for a, b, _ in read(file).stored[1]) == played(before), "the same round"
    assert len(keys_of(file)) == 2, "no key was added"
    text = prompt.said(file, "back 4", "y", "back")
    check_said(
        "back to what was put away",
        text,
        "put away by back",
        "That takes back: nothing.\nIt has, and the event in use has not: 1 score.\n",
        "round 2, 3 tables open: 2-4",
        "   7  20",
        "put away by back",
    )
    assert rows_alone(file) == before, "back to what was put away, the file"
    goes_on_after_a_stop(prompt, file)


def goes_on_after_a_stop(prompt, file):
    """If `back` was stopped in its middle, its second run ends it."""
    os.rename(file, f"{file}.away-0099-20260101-000000")
    with open(f"{file}-wal", "wb") as it:
        it.write(b"log of another file" * 100)
    with open(f"{file}.back", "wb") as it:
        it.write(b"half a copy")
    shutil.copy(f"{file}-wal", f"{file}.back-wal")
    text = prompt.said(file, "back 1", "y")
    check_said("back was stopped", text, "before the pairing of round 1", "no round is paired yet")
    assert len(read(file).stored) == 0, "back was stopped, the file"
    assert os.path.exists(f"{file}.away-0099-20260101-000000"), "back was stopped, nothing is lost"


def played(rows):
    """The matches of round 2 in the rows of a file, first and second."""
    return sorted(
        (hi, lo) if swapped else (lo, hi) for number, _, lo, hi, swapped, *_ in rows[2] if number == 2
    )


# the prompt, stopped right after one of the moves of `back`: that of two names in one step is one, if the system has it
STOPPED = """
import os, sys
sys.path.insert(0, {companions!r})
import event_companions.beside.copies
moves = []
def stopping(move):
    def moved(source, target):
        answer = move(source, target)
        moves.append(target)
        if len(moves) == {stop}:
            os._exit(9)
        return answer
    return moved
event_companions.beside.copies.move = stopping(event_companions.beside.copies.move)
event_companions.beside.copies.exchange = stopping(event_companions.beside.copies.exchange) if {in_one_step} else lambda *_: False
from event_companions.prompt.main import main
main()
"""


@pytest.mark.parametrize("stop, in_one_step", [(1, False), (2, False), (3, False), (1, True)])
def test_back_stopped(prompt, program, room, started, companions, stop, in_one_step):
    """Stopped after each of the moves of `back`: nothing is lost, `init` is declined if the file is gone, and a second `back` ends it. If two names are
    exchanged in one step, the file is the old event or the new one at each moment.
    """
    event, file = started("Ana", "Bo", "Cy", "Di")
    prompt.said(file, "pair", "1 2 0")
    before = rows_alone(file)
    code = STOPPED.format(companions=companions, stop=stop, in_one_step=in_one_step)
    words = [sys.executable, "-S", "-B", "-c", code, file, "--program", program.path]
    ran = subprocess.run(words, input=b"back 1\ny\n", capture_output=True, timeout=PATIENCE, env=LETTERS)
    assert ran.returncode == 9, "back, stopped"
    if in_one_step:
        assert rows_alone(file) == rows_alone(
            glob.glob(f"{file}.copies/*before-pair-1.event")[0]
        ), "in one step"
    if not os.path.exists(file):
        text = prompt.said(file, "init Other 3 0")
        check_said(
            "no file",
            text,
            "The event's file is missing",
            "Go on from a copy: back",
            "copies of it are there",
        )
    prompt.said(file, "back 1", "y")
    assert (read(file).stored, read(file).names) == ([], event.names), "the second one"
    away = [
        rows_alone(f"{room}/{it}")
        for it in os.listdir(room)
        if re.fullmatch(r"e\.event\.away-\d+-\d+-\d+", it)
    ]
    assert before in away, "the event in use is not lost"


def test_back_over_the_cut(prompt, started):
    """What came since names the cut and the scores of the playoff; `undo` names the copy."""
    event, file = started("Ana", "Bo", "Cy", "Di", rounds=1, cut=2)
    prompt.said(file, "pair", "1 2 0", "2 2 0", "drop 4", "y")
    check_said(
        "undo after a drop",
        prompt.said(file, "undo"),
        "take back drop 7",
        "The last one: back 2, made before the drop of Di (4)\n",
    )
    text = prompt.said(file, "cut", "y", "undo", "play final 2 1", "undo")
    check_said(
        "undo in the playoff",
        text,
        "back 3, made before the cut\n",
        "back 4, made before the score of the final\n",
    )
    check_said(
        "back over the cut",
        prompt.said(file, "back 3", "y"),
        "That takes back: the cut, 1 score of the playoff.\n",
        "The playoff was begun since. To begin it again: cut",
        "  play final 2 1  ",
        " 2-1-0 ",
    )


def test_copy_by_hand(prompt, started):
    event, file = started("Ana", "Bo")
    text = prompt.said(file, "pair", "copy", "1 2 0", "copy")
    folders = [it for it in sorted(os.listdir(f"{file}.copies")) if it.endswith("-copy")]
    check_said("copies by hand", text, "Copied, and opened: ", folders[0], "Copied, and opened: ", folders[1])
    stored = [read(f"{file}.copies/{it}/e.event").stored[0][0][2] for it in folders]
    assert stored == [None, (2, 0, 0)], "copies by hand, what they hold"
    check_said(
        "copies by hand are listed",
        prompt.said(file, "back"),
        "before the pairing of round 1",
        "copy, made by hand",
        "copy, made by hand",
    )


def test_copy_of_a_log(prompt, program, started, serve):
    """If `serve` was killed, what is new stands in the log. The prompt copies the event with it."""
    event, file = started("Ana", "Bo", "Cy")
    program.run("pair", file, "1", "0" * 64)
    event.pair(1, bytes(32))
    serving = serve(file, 100)
    serving.ask(b'POST /rounds/1/tables/1 HTTP/1.1\r\nContent-Length: 19\r\n\r\n{"a":2,"b":1,"d":0}')
    serving.kill()
    event.report(1, 1, (2, 1, 0), True)
    prompt.said(file, "pair")
    (copy,) = os.listdir(f"{file}.copies")
    assert rows_alone(f"{file}.copies/{copy}") == rows_of(event, "E"), "a copy after a kill"


def test_init_again(prompt, room, started):
    """What lay beside an earlier event of the same name is put away with the first `init`. If its copies are there and it is gone, `back` comes first:
    it may have been stopped between its two moves.
    """
    event, file = started("Ana", "Bo")
    prompt.said(file, "pair", "1 2 0", "doubt 1")
    os.unlink(file)
    with contextlib.suppress(FileNotFoundError):
        os.unlink(f"{file}-wal")
    text = prompt.said(file, "init Sunday 2 0")
    check_said(
        "init beside copies",
        text,
        "Go on from a copy: back",
        "refused 27 NoEvent",
        "is missing, and copies of it are there. Go on from one: back",
    )
    assert not os.path.exists(file), "init beside copies, no file"
    check_said(
        "back where the file is gone",
        unfilled(prompt.said(file, "back 1", "y")),
        "no round is paired yet. Next: pair",
    )
    os.unlink(file)
    shutil.rmtree(f"{file}.copies")
    text = prompt.said(file, "init Sunday 2 0", "keys", "back", "doubt")
    check_said(
        "init beside old keys",
        text,
        "ok 0",
        "e.event.keys was there before",
        "e.event.doubts was there before",
        "Sunday",
        "There is no key yet",
        "There is no copy yet",
        "No score is in doubt",
    )
    assert len([it for it in os.listdir(room) if ".old-" in it]) == 2, "init beside old keys, they stay"
