"""The scorekeeper's prompt over the program as it is built: a whole evening to the champion through a pipe and through a terminal, each beside the plain
reading of the rules; completion, history, menus and Ctrl-C.
"""
import os
import re
import subprocess
import sys

import pytest

from second_reading.plain_file import read
from tests.support.prompt import LETTERS, TypedEvening, check_said
from tests.support.waiting import PATIENCE
from tools import TOP

# the evening that README shows, whose lines are typed behind a prompt
EVENING = re.compile(r"(?<=^```\n\$ event-desk friday\.event\n)(.*?)(?=^```)", re.M | re.S)
TYPED = re.compile(r"((?:desk|r\d|playoff)> )(.*)")
# that of GUIDE, in blocks of their own
PART_OF_EVENING = re.compile(r"(?<=^```prompt\n)(.*?)(?=^```)", re.M | re.S)
KEY = "0" * 64


def test_an_evening_through_a_pipe(prompt, room):
    file = f"{room}/friday.event"
    piped = prompt.piped(file)
    played = TypedEvening(file, piped.send)
    played.enrol()
    played.play()
    assert piped.end() == 1, "the pipe ends"
    played.end("through a pipe")


def test_an_evening_through_a_terminal(prompt, room):
    """With completion, history and Ctrl-C; Ctrl-D ends it."""
    file = f"{room}/friday.event"
    terminal = prompt.terminal(file)
    check_said(
        "the beginning", terminal.began, "friday.event is new. Begin with", "init Friday 6 8", "desk> "
    )
    played = TypedEvening(file, terminal.send)
    played.enrol()
    terminal.keys("who Zo\t\r")
    check_said("a name is completed", terminal.read(), "who Zoë <b>", "4   Zoë <b>")
    terminal.keys("stand\t\r")
    check_said("a command is completed", terminal.read(), "standings", "Rank   No Pts")
    terminal.keys("print stan\t")
    assert "print standings" in terminal.read_for(b"print standings"), "a part of the sheets is completed"
    terminal.interrupt()
    terminal.keys("standings\r")
    terminal.read()
    terminal.keys("\x1b[A\r")
    check_said("the line before comes again", terminal.read(), "standings", "Rank   No Pts")
    terminal.keys("drop 1")
    assert "drop 1" in terminal.read_for(b"drop 1"), "what is typed is shown"
    check_said("Ctrl-C takes a line away", terminal.interrupt(), "Ctrl-D ends.", "desk> ")
    terminal.send("drop 1")
    check_said("Ctrl-C is no yes", terminal.interrupt(), "Nobody was dropped.")
    played.play()
    status, text = terminal.end()
    assert (status, "Traceback" in text) == (0, False), "Ctrl-D ends it"
    played.end("through a terminal")


def test_without_readline(prompt, room, started):
    """A Python that has no `readline`: the prompt goes on without completion and history."""
    with open(f"{room}/readline.py", "w") as it:
        it.write("raise ImportError\n")
    event, file = started("Ana", "Bo")
    terminal = prompt.terminal(file, env={**LETTERS, "PYTHONPATH": room})
    check_said("without readline, a command", terminal.send("standings"), *event.standings())
    assert terminal.end()[0] == 0


@pytest.mark.needs("menus at a terminal", module="prompt_toolkit", package="python3-prompt-toolkit")
def test_menus(prompt, started):
    """By prompt_toolkit, if it is installed: a part of a name brings a menu, from which TAB takes the player; and lines that are pasted behind a
    question are no answer to it.
    """
    _, file = started("Ana Lima", "Bo Sato", "Cy Young", "Di Ito")
    prompt.said(file, "pair")
    terminal = prompt.terminal(
        file, env={**LETTERS, "TERM": "xterm"}, python=(sys.executable, "-B"), begins=b"r1>"
    )
    terminal.keys("who sat")
    assert "Bo Sato (2)" in terminal.read_for(b"Bo Sato (2)"), "what is offered"
    terminal.keys("\t\r")
    assert " Bo Sato  table " in terminal.read_for(b" Bo Sato  table "), "TAB takes it"
    terminal.keys("\x1b[200~drop Ana\n1 2 0\n2 2 1\x1b[201~\r")
    assert "all its scores" in terminal.read_for(b"all its scores"), "pasted lines are no answer"
    assert terminal.end()[0] == 0, "the end"
    event = read(file)
    assert (event.dropped, [score for _, _, score in event.stored[0]]) == (
        set(),
        [(2, 0, 0), (2, 1, 0)],
    ), "the file"


class ShownEvening:
    """An evening as README shows it. What it leaves out is played too: each other table ends 2-0, and the first die of a round is its number."""

    pair = "pair"

    def __init__(self, terminal, file):
        self.terminal, self.file, self.said, self.line, self.shown, self.typed = (
            terminal,
            file,
            terminal.began,
            "",
            [],
            0,
        )

    def check(self, *pieces):
        """What the line before was answered."""
        check_said(self.line, self.said.replace(f"{os.path.dirname(self.file)}/", ""), *self.shown, *pieces)
        self.shown = []

    def type(self, line):
        self.said = self.terminal.send(
            re.sub("^pair(?= [0-9]+$|$)", self.pair, line.replace("examples/", f"{TOP}/examples/"))
        )

    def read(self, line):
        """A line of README."""
        found = TYPED.fullmatch(line)
        if found:
            self.check()
            self.go_on_to(found[2])
            assert self.said.endswith(found[1])
            self.line, self.typed = found[2], self.typed + 1
            if self.line != "quit":
                self.type(self.line)
        elif line.endswith("(y or n) y"):
            self.check(line[:-1])
            self.type("y")
        elif line == "(Here come the other scores, and five rounds more.)":
            self.check()
            self.play_on()
        elif line != "..":
            self.shown.append(f"{line}\n")

    def go_on_to(self, line):
        if line == "final 8":
            self.type("play sf2 2 0")
            self.type("play final 1 2")

    def play_on(self):
        self.score()
        for number in range(2, read(self.file).rounds + 1):
            self.type("pair")
            self.type(f"pair {number} 8 11 17")
            self.score()

    def score(self):
        still_open = [
            table
            for table, (_, second, score) in enumerate(read(self.file).stored[-1], 1)
            if second and not score
        ]
        for table in still_open:
            self.type(f"{table} 2 0")


@pytest.mark.needs("the evening of README", module="jinja2", package="python3-jinja2")
def test_the_evening_of_the_readme(prompt, room, companions):
    """What is typed there, and what it is answered, to the champion and to a second reading of it all."""
    with open(f"{TOP}/README.md", encoding="utf-8") as readme:
        lines, check = EVENING.search(readme.read())[1].split("$ event-check friday.event\n..\n")
    file = f"{room}/friday.event"
    terminal = prompt.terminal(file, python=(sys.executable, "-B"))
    evening = ShownEvening(terminal, file)
    for line in lines.splitlines():
        evening.read(line)
    assert (evening.line, evening.typed) == ("quit", 14)
    assert terminal.end("quit\r")[0] == 0
    ran = subprocess.run(
        [sys.executable, "-B", f"{companions}/bin/event-check", file], capture_output=True, timeout=PATIENCE
    )
    assert ran.stdout.decode().endswith(f"\n{check}")


class GuidedEvening(ShownEvening):
    """An evening as GUIDE shows it, with a key that is known."""

    pair = f"pair {KEY}"


def test_the_evening_of_the_guide(prompt, room):
    """What is typed there, and what it is answered, from the first player to the champion."""
    with open(f"{TOP}/docs/GUIDE.md", encoding="utf-8") as guide:
        blocks = PART_OF_EVENING.findall(guide.read())
    file = f"{room}/friday.event"
    terminal = prompt.terminal(file)
    evening = GuidedEvening(terminal, file)
    for line in "".join(blocks).replace("$ event-desk friday.event\n", "").splitlines():
        evening.read(line)
    assert (evening.line, len(blocks)) == ("quit", 4)
    assert terminal.end("quit\r")[0] == 0
