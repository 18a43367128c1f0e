"""The words of the prompt, one by one: what is typed and is not understood, doubts, lists, the clock, the plan."""
import os
import random
import re
import subprocess
import time

from second_reading.plain_file import read
from tests.support.event_files import rows_alone, rows_of
from tests.support.prompt import (
    LETTERS,
    PYTHON,
    check_said,
    keys_of,
    match_shown,
    player_shown,
    slot_named,
    unfilled,
)
from tests.support.random_evenings import ENDED, IN_PLAYOFF, evening, laid
from tests.support.waiting import PATIENCE


def test_words(prompt, room, started):
    """What is typed and isn't understood, and the options."""
    event, file = started("Ana", "Bo", "Cy", "Di")
    cases = {
        "17 2": "Type numbers, such as 17 2 1",
        "17 2 1 1 1": "Type numbers, such as 17 2 1",
        "1 2 x": "Type numbers",
        "1 -2 0": "Type numbers",
        "1 300 0": "is no whole number from 0 to 255",
        "fix 1 1": "such as fix 17 0 2",
        "play 1": "such as play qf2 2 1",
        "drop": "as: drop 23, or drop Ana",
        "drop Zed": "Nobody has Zed in the name",
        "who": "as: who an",
        "who zed": "Nobody has zed in the name",
        "who 99": "No player has number 99",
        "back 9": "There is no copy",
        "pair xyz": "64 hexadecimal digits",
        "pair again": "has no key for round 1",
        "init Friday": "as: init Friday Night 3 0",
        "standing": "Is it standings?",
        "standings x": "standings 8 for the first eight",
        "standings 9 9": "standings 8 for the first eight",
        "standings after 3": "Round 3 is not complete",
        "xyzzy": "xyzzy is no command. See: help",
        "undo": "There is no undo for all",
        "help": "17 2 1 1",
        "keys": "There is no key yet",
        "round": "refused 12 NoSuchMatch",
    }
    check_said("words", prompt.said(file, *cases), *cases.values())
    check_said(
        "who",
        prompt.said(file, "pair", "who a", "who 3"),
        "   1   Ana  table ",
        "Ana (1)",
        "   3   Cy  table ",
    )
    check_said(
        "drop, two of a part",
        prompt.said(file, "enrol Anna", "drop an"),
        "Who of these?",
        "   1  Ana",
        "   5  Anna",
    )
    check_said(
        "drop, the whole name", prompt.said(file, "drop Ana", "n"), "Drop Ana (1)?", "Nobody was dropped."
    )
    status, text = prompt.typed(file, "drop Ana", "pair")
    check_said("a question that isn't answered", text, "has to be y or n. Nothing more is done.")
    assert (status, read(file).dropped) == (2, set()), "a question that isn't answered, the status"
    check_said("a question at the end", prompt.said(file, "drop Ana"), "Drop Ana (1)?", "Nobody was dropped.")
    check_said(
        "a title",
        prompt.said(file, "title Friday <Night>", "where"),
        f"Friday <Night> ({file})",
        f"Friday <Night> ({file}), Swiss rounds: round 1",
    )
    assert prompt.typed(file, "where", "", "quit", "xyzzy")[0] == 0, "all is well"
    for word in ("--help", "--version"):
        ran = subprocess.run(
            [*PYTHON, prompt.desk, word],
            capture_output=True,
            timeout=PATIENCE,
            env={**LETTERS, "COLUMNS": "80"},
        )
        text = ran.stdout.decode()
        assert (ran.returncode, ran.stderr, text.startswith(("usage: ", "event-desk (event_reporter) "))) == (
            0,
            b"",
            True,
        ), word
        assert [it for it in text.split("\n") if len(it) > 80] == [], f"{word} fits 80 columns"
    for words in ([], ["e.event", "more"], ["e.event", "--nope"]):
        ran = subprocess.run(
            [*PYTHON, prompt.desk, *words], capture_output=True, timeout=PATIENCE, env=LETTERS
        )
        assert (ran.returncode, ran.stdout, ran.stderr.startswith(b"usage: ")) == (
            2,
            b"",
            True,
        ), f"usage {words}"
    ran = subprocess.run(
        prompt.words("e.event", by=f"{room}/none"),
        capture_output=True,
        timeout=PATIENCE,
        env=LETTERS,
        cwd=room,
    )
    assert (ran.returncode, ran.stdout, b"--program PATH" in ran.stderr) == (3, b"", True), "no program"


def test_typed(prompt, started):
    """Results as people type them, and the words of the command line."""
    event, file = started(*(f"P{it}" for it in range(1, 13)))
    prompt.said(file, "pair")
    event.pair(1, keys_of(file)[0][1])
    first = event.stored[0][5][0]
    scores = [(2, 1, 0), (0, 2, 0), (1, 1, 1), (2, 0, 0), (0, 0, 3), (2, 1, 0)]
    lines = ["1 2-1", "2 0:2", "3,1,1,1", "4\t2\t0", "result 1 5 0 0 3", f"6 2 1 drop {first}", "y"]
    text = prompt.said(file, *lines)
    for table, score in enumerate(scores, 1):
        answer = event.report(1, table, score, True)
        check_said(
            f"typed: {lines[table - 1]}",
            unfilled(text),
            f"{match_shown(event, event.stored[0][table - 1], score)} {answer[0]}",
        )
    event.drop(first)
    check_said("a drop by the same slip", text, f"Drop {player_shown(event, first)}?", "is dropped.")
    assert rows_alone(file) == rows_of(event, "E"), "typed, the file"
    check_said("slips", prompt.said(file, "slips 1"), "\n".join(event.slips(1)))
    check_said("correct", prompt.said(file, "correct 1 1 0 2 0"), "ok ", "0-2-0", "in place of 2-1-0")
    for line in ("1 draw", "1 1-1 draw", "17 tie"):
        check_said(line, prompt.said(file, line), "17 1 1 1 with a drawn game", "17 0 0 3")
    check_said(
        "a drop after a refused result",
        prompt.said(file, f"1 2 1 drop {first}"),
        "fix 1 1 2 1 0",
        "refused 14 AlreadyReported",
    )
    check_said(
        "help all", prompt.said(file, "help all"), "17 2 1", "init NAME ROUNDS CUT", "result 3 17 2 1 0"
    )


def test_doubts(prompt, started):
    """A score at a wrong table is kept in mind until it is replaced."""
    event, file = started("Ana", "Bo", "Cy", "Di")
    prompt.said(file, "pair", "1 2 0", "2 2 1")
    event.pair(1, keys_of(file)[0][1])
    event.report(1, 1, (2, 0, 0), True)
    event.report(1, 2, (2, 1, 0), True)
    shown = f"In doubt: round 1, table 1: {match_shown(event, event.stored[0][0], (2, 0, 0))}"
    check_said("doubt", prompt.said(file, "doubt 1"), shown, "fix 1 X Y")
    text = prompt.said(file, "open", "doubt", "where", "pair", "n")
    check_said(
        "a doubt is listed",
        unfilled(text),
        "round 1 has all its scores. Next: pair. In doubt by round and table: 1 1",
        shown,
        shown,
        "In doubt by",
    )
    check_said(
        "pair asks back",
        text,
        "In doubt: table 1 of round 1 (2-0-0).",
        "Pair all the same? (y or n) n",
        "Nothing was paired.",
    )
    check_said(
        "the same score again ends it",
        prompt.said(file, "fix 1 2 0", "doubt"),
        "ok ",
        "No score is in doubt.",
    )
    check_said(
        "another score ends it",
        prompt.said(file, "doubt 1 1", "fix 1 0 2", "doubt", "pair"),
        "In doubt",
        "ok ",
        "No score is in doubt.",
        "Show it",
    )
    prompt.said(file, "doubt 1 2")
    check_said("an older round", unfilled(prompt.said(file, "where")), "In doubt by round and table: 1 2")
    for line, words in (
        ("doubt 9", "no table 9"),
        ("doubt 1", "has no score"),
        ("doubt x", "such as doubt 9"),
        ("doubt 1 9", "no table 9"),
    ):
        check_said(line, prompt.said(file, line), words)
    check_said(
        "cut asks back",
        prompt.said(file, "1 2 0", "2 2 0", "cut", "n"),
        "table 2 of round 1 (2-1-0)",
        "Cut all the same? (y or n) n",
        "not begun",
    )


def test_listing(prompt, program, room, started):
    """CSV, the final ranking, and all matches of a player."""
    event = evening(random.Random(2), 9, ENDED, 2, 4, False)
    file = laid(program.path, f"{room}/e.event", event, "E")
    named = (
        "export results names",
        "export playoff names",
        "export final",
        "export players names",
        "export nope",
    )
    text = prompt.said(file, "export standings", "export playoff", "export players", "export results", *named)
    rows = [
        "rank,no,points,omw,gwp,ogw,dropped,name",
        "stage,slot,a,b,x,y,d",
        "no,name,dropped",
        "round,table,a,b,x,y,d",
    ]
    rows += [
        "round,table,a,b,x,y,d,name_a,name_b",
        "stage,slot,a,b,x,y,d,name_a,name_b",
        "rank,no,points,won,lost,drawn,name",
    ]
    rows += [
        "It has names already. Of matches: export results names, export playoff names",
        "There are players",
    ]
    check_said("lists", text, *(f"{it}\n" for it in rows[:-1]), rows[-1])
    prompt.said(file, f"export results names {room}/r.csv")
    with open(f"{room}/r.csv", encoding="utf-8") as it:
        assert it.readline() == "round,table,a,b,x,y,d,name_a,name_b\n", "with names, in a file"
    check_said(
        "a list in a file",
        prompt.said(file, f"export standings {room}/s.csv", f"export standings {room}/s.csv"),
        "Written: ",
        "is there already",
    )
    with open(f"{room}/s.csv", encoding="utf-8") as it:
        assert len(it.read().split("\n")) == len(event.names) + 2, "a list in a file, its lines"
    champion = int(event.bracket()[-1].split()[1])
    check_said(
        "the final ranking",
        prompt.said(file, "final"),
        f"   1  {player_shown(event, champion)}\n",
        "   2  ",
        "   3  ",
        "   3  ",
        "   5  ",
    )
    due = [
        f"round {number}, table {table}: {match_shown(event, match, match[2])}"
        for number, matches in enumerate(event.stored, 1)
        for table, match in enumerate(matches, 1)
        if champion in match[:2] and match[1]
    ]
    due += [
        f"{slot_named(event, stage, slot)}: {match_shown(event, match, match[2])}"
        for stage, matches in enumerate(event.stages, 1)
        for slot, match in enumerate(matches, 1)
        if champion in match[:2]
    ]
    check_said("all matches of a player", prompt.said(file, f"who {champion}"), *due)
    check_said(
        "no champion yet",
        prompt.said(started("Ana", "Bo", called="two")[1], "final"),
        "There is no champion yet",
    )


def test_clock(prompt, started):
    event, file = started("Ana", "Bo")
    text = prompt.said(file, "clock", "clock 50", "clock", "clock off", "clock 0", "clock x")
    check_said(
        "the clock",
        text,
        "No clock runs.",
        "50 min, until ",
        "50 min, until ",
        "No clock runs.",
        "1 to 600 minutes",
        "such as clock 50",
    )
    prompt.said(file, "clock 30")
    with open(f"{file}.clock") as it:
        found = re.fullmatch("until ([0-9]+) of 30\n", it.read())
    assert abs(int(found[1]) - time.time() - 1800) < 60, "the clock, when it ends"


def test_plan(prompt, program, room):
    """Rounds and cut are said: by `init`, and by `where`."""
    file = f"{room}/e.event"
    text = prompt.said(file, "init Friday Night 6 8", "enrol Ana", "enrol Bo", "start", "pair", "where")
    pieces = [
        "6 rounds, cut to 8",
        "until the playoff: plan 6 8",
        "no round is paired yet",
        "6 rounds, cut to 8",
        "Round 1 of 6, cut to 8",
    ]
    check_said("the plan", unfilled(text), *pieces)
    check_said(
        "the plan, without a cut",
        prompt.said(f"{room}/other.event", "init Friday 1 0", "where"),
        "1 round, no cut\n",
        "1 round, no cut\n",
    )
    event = evening(random.Random(1), 9, IN_PLAYOFF, 2, 4, False)
    check_said(
        "the plan, in the playoff",
        prompt.said(laid(program.path, f"{room}/playoff.event", event, "E")),
        "2 rounds, cut to 4\n",
    )
    with open(file, "rb") as it:
        before = it.read()
    prompt.said(file, "where")
    assert (open(file, "rb").read() == before, os.path.exists(f"{file}-shm")) == (
        True,
        False,
    ), "the plan is read from a copy"
