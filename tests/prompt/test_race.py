"""Windows that race: two or three prompts in terminals of their own, phones and a board at one event, taking turns at random from the first player to the
champion, now and then two at the same moment, with every word of the prompt. After each step the file is what the plain reading of the rules has, with
what was typed or without it, and nothing else.

At each window sits somebody who holds slips: a round, a table, two players and a score. Who sees the round of the slip in the prompt types the score
alone, and otherwise the round too; a question is answered yes only if it names the slip's round, its players and its score. So each slip is stored
at its own round and table, or declined.
"""
import copy
import fcntl
import glob
import os
import re
import select
import subprocess
import sys
import tempfile
import threading
import time
from dataclasses import dataclass, field, replace

import pytest

from second_reading.plain_event import ENROLLING, FINISHED, PLAYOFF, SWISS, Event, is_complete
from second_reading.plain_file import read
from tests.support.event_files import copied, rows_of, rows_of_copy
from tests.support.plain_page import Page, final_rows, ranks_due, shown_rows, shown_standings
from tests.support.prompt import LETTERS, Terminal
from tests.support.random_evenings import is_of_playoff, is_of_swiss, lawful
from tests.support.random_play import random_playoff_score, random_score
from tests.support.waiting import PATIENCE, comes

# of windows alone, and with phones and a board beside them
CASES = {"evening": (2, 150), "crowded": (2, 80)}
TITLE = "Friday <Night>"
MOST_STEPS = 400
PROMPT = rb"(?:desk|playoff|r[0-9]+)> "
QUESTION = b"(y or n) "
# no page opens a browser
HEADLESS = {name: value for name, value in LETTERS.items() if name not in ("DISPLAY", "WAYLAND_DISPLAY")}
FIRST_NAMES = "Ana", "Bo", "Cy", "Zoë", "Łukasz", "Øystein", "O'Brien", "Anna-Lena"
# what may change the event, and what never does, whatever stands behind it
MOVES = "init enrol enroll import rename start pair result fix correct drop cut play playoff back quit exit".split()
LOOKS = """\
where
open
phones
judge {table}
note
note {table} +5 min
note {table} off
round
round {round}
slips {round}
entries
entries on
entries out 2
check
check {round}
keys
standings
players
bracket
final
export results
export standings
export playoff
export results names
export final
export players {room}/{unique}.csv
who an
who {player}
title Friday, still
clock
clock 30
clock off
doubt
doubt {table}
migrate
undo
copy
back
print
print slips
help
help all
foo
init Another One 3 0
plan
copies
draw
draw maybe
number 1 3 8 11 17
take back 999
take back drop 999
remove 999
""".splitlines()


# ---- who sits there


@dataclass(frozen=True)
class Slip:
    """What two players signed."""

    number: int
    table: int
    first: int
    second: int
    score: tuple
    # how often it was declined already
    tries: int = 0

    def stands_in(self, event):
        """Whether these two sit there; a round that is not paired, or no longer, may still come so."""
        matches = event.stored[self.number - 1] if self.number <= len(event.stored) else []
        return not matches or (
            self.table <= len(matches) and matches[self.table - 1][:2] == [self.first, self.second]
        )

    def is_stored_in(self, event):
        return (
            self.number <= len(event.stored)
            and self.stands_in(event)
            and event.stored[self.number - 1][self.table - 1][2] == self.score
        )

    def enters(self):
        return act(lambda event: event.report(self.number, self.table, self.score, True))

    def replaces(self):
        return act(lambda event: event.report(self.number, self.table, self.score, False))

    def is_meant(self, text):
        """Whether a question is about this slip, as far as it names a round, players, and a score between them."""
        rounds, players = (set(map(int, re.findall(it, text))) for it in (r"[Rr]ound (\d+)", r"\((\d+)\)"))
        scores = set(re.findall(r"\(\d+\) (\d-\d-\d) ", text))
        is_here = rounds <= {self.number} and players <= {self.first, self.second} and bool(rounds or players)
        return is_here and scores <= {"-".join(map(str, self.score))}


class Window(Terminal):
    """A prompt in a terminal of its own. `round` is the one that it shows."""

    def __init__(self, words, name):
        self.name, self.words, self.round, self.slips = name, words, 0, []
        super().__init__(words, HEADLESS)
        self.look(self.began)

    def read(self, echo=None):
        """What is said, up to a question or the next prompt; of a line that was typed, what it is answered."""
        said, until = b"", time.monotonic() + PATIENCE
        while not ends(said, echo):
            assert (
                time.monotonic() < until
            ), f"{self.name}: nothing came after {said.decode(errors='replace')!r}"
            if select.select([self.master], [], [], 1)[0]:
                said += os.read(self.master, 65536)
        answer = said[echo.search(said).end() :] if echo else said
        return answer.decode().replace("\r\n", "\n")

    def look(self, said):
        """Which round the last prompt shows. That of the playoff names none."""
        shown = re.findall(r"(?:^|\n)(?:desk|playoff|r(\d+))> ", said)
        self.round = int(shown[-1] or 0) if shown else self.round

    def drain(self):
        """What came in above the line since the last one was answered."""
        if select.select([self.master], [], [], 0)[0]:
            self.look(self.read())

    def type(self, line):
        self.keys(f"{line}\r")
        # as it is shown again where something came in above it
        return self.read(re.compile(rb"(?:^|%s)%s\r\n" % (PROMPT, re.escape(line.encode()))))

    def say(self, move):
        """A line, and an answer to each question."""
        said = self.type(move.line)
        while said.endswith(QUESTION.decode()):
            # what came since a copy is not typed again here, since that may be much
            is_offer = "\nType it again" in said
            answer = "y" if not is_offer and move.says_yes(said) else "n"
            move.has_declined = move.has_declined or (answer == "n" and not is_offer)
            said += f"{answer}\n{self.type(answer)}"
        self.look(said)
        move.said = said

    def leave(self, keys):
        """Its status, and what it said."""
        self.drain()
        return self.end(keys)

    def begin_again(self):
        super().__init__(self.words, HEADLESS)
        self.look(self.began)


def ends(said, echo=None):
    """Whether a line was answered. What comes in just as it is entered stands beneath it, with the prompt once more."""
    if echo:
        found = echo.search(said)
        if not found:
            return False
        said = said[found.end() :]
        if said.startswith(b"\r\n"):
            first = re.search(rb"\n%s" % PROMPT, said)
            said = said[first.end() :] if first else b""
    return bool(re.search(rb"(?:^|\n)%s$" % PROMPT, said)) or said.endswith(QUESTION)


class Phone:
    """Hands in by the code of a table, over HTTP. Each has an address of its own."""

    def __init__(self, gateway, secret, number):
        self.gateway, self.secret, self.name, self.number = gateway, secret, f"phone {number}", number

    def say(self, move):
        from event_companions.core.lists import Match
        from tests.support.phone_rooms import address

        slip = move.slip
        target = self.secret.target(slip.number, Match(slip.table, slip.first, slip.second))
        status, location = self.gateway.hand_in(target, "-".join(map(str, slip.score)), address(self.number))
        move.said = f"{status} {location}"


# ---- what is done


@dataclass
class Move:
    """A line, what each of its commands may make of an event, and how its questions are answered."""

    who: object
    line: str
    acts: tuple = ()
    says_yes: object = lambda said: True
    slip: object = None
    said: str = ""
    has_declined: bool = False


def act(command):
    """What a command may make of an event: what is sent to the plain one, unless that refuses it."""

    def become(event):
        new = copy.deepcopy(event)
        return [new] if command(new)[0].startswith("ok ") else []

    return become


def outcomes(event, lines):
    """What the event may be, once the commands of several lines are through that ran at once: each was taken or not, in whatever order."""
    found = [event]
    for at, (first, *rest) in ((at, acts) for at, acts in enumerate(lines) if acts):
        others = [*lines[:at], rest, *lines[at + 1 :]]
        for state in (event, *first(event)):
            found += outcomes(state, others)
    return found


@dataclass
class Race:
    """An event, who sits at it, and the plain event beside it."""

    prompt: object
    dice: object
    room: str
    event: Event
    windows: list = field(default_factory=list)
    phones: list = field(default_factory=list)
    # slips that a phone hands in, some of them late
    scanned: list = field(default_factory=list)
    states: dict = field(default_factory=dict)
    copies: dict = field(default_factory=dict)
    told: list = field(default_factory=list)
    backs: int = 0

    def __post_init__(self):
        self.file = f"{self.room}/e.event"

    def seat(self, count):
        for name in "abc"[:count]:
            self.windows.append(
                self.prompt.keep(Window(self.prompt.words(self.file, reads_slowly=True), f"window {name}"))
            )

    # ---- a step, and what the file is after it

    def rows(self):
        with open(f"{self.file}.turn", "a") as turn:
            fcntl.flock(turn, fcntl.LOCK_EX)
            return rows_of_copy(self.file)

    def do(self, *moves):
        """Does one, or several at the same moment, and finds out what the event is then."""
        for move in moves:
            if isinstance(move.who, Window):
                move.who.drain()
        threads = [threading.Thread(target=move.who.say, args=(move,)) for move in moves]
        for it in threads:
            it.start()
        for it in threads:
            it.join()
        self.told += [f"{move.who.name}: {move.line}\n{move.said}" for move in moves]
        assert all(move.said for move in moves), self.story("somebody heard nothing")
        before, rows = self.event, self.rows()
        # a no is a no
        due = outcomes(before, [move.acts for move in moves if not move.has_declined])
        found = [it for it in due if rows_of(it, TITLE) == rows]
        assert found != [], self.story(elsewhere(before, rows))
        self.event = found[0]
        self.keep_states(due)
        for move in moves:
            is_taken = re.search(r"\bok \d+", move.said) or re.fullmatch(r"303 (?!.*said=).*", move.said)
            if move.slip and is_taken and len(moves) == 1:
                assert move.slip.is_stored_in(self.event), self.story(f"{move.slip} was said to be stored")
            self.put_away(move)
        self.deal()

    def put_away(self, move):
        """A slip that was typed, or scanned. If it was declined, and its table is open, somebody tries again: at a window in more words."""
        slip = move.slip
        is_phone = isinstance(move.who, Phone)
        if slip is None or not (is_phone or slip in move.who.slips):
            return
        held = self.scanned if is_phone else move.who.slips
        if not is_phone:
            held.remove(slip)
        is_open = (
            slip.number == len(self.event.stored)
            and slip.stands_in(self.event)
            and self.event.stored[-1][slip.table - 1][2] is None
        )
        if is_open and slip.tries < 9:
            held.append(replace(slip, tries=slip.tries + 1))

    def keep_states(self, due):
        """What each copy that was made is an event of: of those that the event may have been meanwhile."""
        for it in due:
            self.states[repr(rows_of(it, TITLE))] = it
        paths = set(
            filter(
                os.path.isfile,
                map(self.inside, glob.glob(f"{self.file}.copies/*") + glob.glob(f"{self.file}.away-*")),
            )
        )
        for path in paths - self.copies.keys():
            if not path.endswith(("-wal", "-shm", ".part")):
                copied = repr(rows_of_copy(path))
                assert copied in self.states, self.story(f"{path} is a copy of what the event never was")
                self.copies[path] = self.states[copied]
        self.copies = {path: state for path, state in self.copies.items() if path in paths}

    def inside(self, path):
        return f"{path}/{os.path.basename(self.file)}" if os.path.isdir(path) else path

    def story(self, what):
        event = self.event
        event_before = f"the event before: {len(event.names)} players, {event.stored}, {event.stages}"
        return "\n".join([what, "what was said last:", *self.told[-14:], event_before])

    # ---- slips

    def deal(self):
        """Each open table of the newest round has a slip at some window; another window or a phone may have the same score, and be late with it."""
        number = len(self.event.stored)
        for window in self.windows:
            window.slips = [it for it in window.slips if it.stands_in(self.event)]
        held = {it.table for window in self.windows for it in window.slips if it.number == number}
        for table, (first, second, score) in enumerate(self.event.stored[-1] if number else [], 1):
            if second and score is None and table not in held:
                self.hand_out(
                    Slip(number, table, first, second, lawful(self.dice, random_score, is_of_swiss))
                )

    def hand_out(self, slip):
        holders = self.dice.sample(self.windows, 2 if self.dice.random() < 0.6 else 1)
        for window in holders:
            window.slips.append(slip)
        if self.phones and self.dice.random() < 0.5:
            said = lawful(self.dice, random_score, is_of_swiss) if self.dice.random() < 0.1 else slip.score
            self.scanned.append(replace(slip, score=said))

    def enter(self, window, slip=None):
        """A slip, as somebody types it who sees which round the window shows."""
        slip = slip or self.dice.choice(window.slips)
        x, y, d = slip.score
        counts = f"{x} {y} {d}" if d else self.dice.choice((f"{x} {y}", f"{x}-{y}", f"{x},{y}", f"{x} {y} 0"))
        line, acts = f"{slip.table} {counts}", [slip.enters()]
        if slip.number != window.round or slip.tries:
            line = f"result {slip.number} {slip.table} {x} {y} {d}"
        elif self.can_drop() and self.dice.random() < 0.1:
            leaves = self.dice.choice((slip.first, slip.second))
            line, acts = f"{line} drop {leaves}", [*acts, act(lambda event: event.drop(leaves))]

        def says_yes(said):
            return bool(re.search(r"(?:^|\n)Drop ", said)) or slip.is_meant(said)

        return Move(window, line, tuple(acts), says_yes, slip)

    def come_late(self, before):
        """Right after the round has changed, a slip of the round before comes to a window that shows that one still."""
        behind = [
            it
            for it in self.windows
            if 0 < it.round <= len(before.stored) and it.round != len(self.event.stored)
        ]
        if behind:
            window = self.dice.choice(behind)
            tables = [
                (table, *match) for table, match in enumerate(before.stored[window.round - 1], 1) if match[1]
            ]
            table, first, second, score = self.dice.choice(tables)
            slip = Slip(
                window.round, table, first, second, score or lawful(self.dice, random_score, is_of_swiss)
            )
            window.slips.append(slip)
            self.do(self.enter(window, slip))

    def correct(self, window):
        """A score of some round that was wrong, in one of the ways to type it."""
        event, dice = self.event, self.dice
        number = dice.randint(1, len(event.stored))
        table = dice.randint(1, len(event.stored[number - 1]))
        first, second, score = event.stored[number - 1][table - 1]
        if not second or score is None:
            return self.look(window)
        slip = Slip(number, table, first, second, lawful(dice, random_score, is_of_swiss))
        x, y, d = slip.score
        ways = [f"{number} {table} {x} {y} {d}", *[f"{number} {table} {x} {y}"] * (d == 0)]
        if number == window.round:
            ways += [f"{table} {x} {y} {d}", *[f"{table} {x} {y}"] * (d == 0)]
        line = f"{dice.choice(('fix', 'fix', 'fix', 'correct'))} {dice.choice(ways)}"
        return Move(window, line, (slip.replaces(),), slip.is_meant, slip)

    def scan(self):
        slip = self.scanned.pop(self.dice.randrange(len(self.scanned)))
        phone = self.dice.choice(self.phones)
        line = f"round {slip.number}, table {slip.table}, {slip.score}"
        enters = slip.enters()
        return Move(phone, line, (lambda event: enters(event) if slip.stands_in(event) else [],), slip=slip)

    # ---- the other words

    def keys(self, number):
        if not os.path.exists(f"{self.file}.keys"):
            return []
        with open(f"{self.file}.keys", encoding="utf-8") as kept:
            return [
                bytes.fromhex(it)
                for it in re.findall(rf"^round {number} ([0-9a-f]{{64}})$", kept.read(), re.M)
            ]

    def pair(self, window):
        ways = ["pair", "pair", "pair new", f"pair {self.dice.getrandbits(256):064x}"]
        if self.keys(len(self.event.stored) + 1):
            ways += ["pair again"] * 4

        def paired(event):
            number = len(event.stored) + 1
            return [it for key in self.keys(number) for it in act(lambda new: new.pair(number, key))(event)]

        return Move(window, self.dice.choice(ways), (paired,))

    def sometimes(self):
        """Yes in most cases."""
        says = self.dice.random() < 0.8
        return lambda said: says

    def enrol(self, window):
        name = f"{self.dice.choice(FIRST_NAMES)} {len(self.event.names) + 1}{self.dice.choice('ABC')}"
        word = self.dice.choice(("enrol", "enrol", "enroll"))
        return Move(window, f"{word} {name}", (act(lambda event: event.enrol(name)),))

    def import_list(self, window):
        names = [f"List {len(self.event.names)}{it}" for it in "xy"]
        with open(f"{self.room}/l.csv", "w") as written:
            written.write("\n".join(["Name", *names, ""]))
        acts = tuple(act(lambda event, name=name: event.enrol(name)) for name in names)
        return Move(window, f"import {self.room}/l.csv", acts, self.sometimes())

    def rename(self, window):
        """Before the start the event is made again with the name; it has taken as many commands."""
        number = self.dice.randint(1, len(self.event.names))
        first = self.dice.choice((self.event.names[number - 1].split()[0], "Newly"))
        name = f"{first} Renamed {self.dice.randrange(1000)}"

        def renamed(event):
            new = copy.deepcopy(event)
            new.names[number - 1] = name
            return [new] if event.phase == ENROLLING else []

        return Move(window, f"rename {number} {name}", (renamed,), self.sometimes())

    def can_drop(self):
        return len(self.event.names) - len(self.event.dropped) > max(self.event.cut, 4) + 1

    def drop(self, window):
        number = self.dice.randint(1, len(self.event.names))
        return Move(window, f"drop {number}", (act(lambda event: event.drop(number)),), self.sometimes())

    def cut(self, window):
        return Move(window, "cut", (act(Event.end_rounds),), self.sometimes())

    def play(self, window):
        matches, stage = self.event.stages[-1], len(self.event.stages)
        slot = self.dice.choice([at for at, match in enumerate(matches, 1) if not match[2]])
        x, y, d = score = lawful(self.dice, random_playoff_score, is_of_playoff)
        counts = f"{x} {y} {d}" if d else f"{x} {y}"
        named = {1: "final", 2: f"sf{slot}", 4: f"qf{slot}"}[len(matches)]
        line = self.dice.choice(
            (f"play {stage} {slot} {counts}", f"play {named} {counts}", f"playoff {stage} {slot} {x} {y} {d}")
        )
        return Move(window, line, (act(lambda event: event.play(stage, slot, score)),))

    def back(self, window):
        """To one of the last copies that there are."""
        path = self.dice.choice(sorted(self.copies, key=number_of)[-5:])
        self.backs += 1
        return Move(window, f"back {number_of(path)}", (lambda event: [self.copies[path]],), self.sometimes())

    def look(self, window):
        """What changes nothing in the event."""
        dice, event = self.dice, self.event
        places = {"round": len(event.stored) + 1, "player": len(event.names) + 1, "table": 5}
        words = {name: dice.randint(0, most) for name, most in places.items()}
        line = dice.choice(LOOKS).format(room=self.room, unique=len(self.told), **words)
        return Move(window, line, says_yes=lambda said: False)

    def start(self, window):
        return Move(window, "start", (act(Event.start),))

    # ---- an evening

    def is_over(self):
        event = self.event
        if event.phase == SWISS and event.stored and is_complete(event.stored[-1]):
            number = len(event.stored) + 1
            return not act(lambda it: it.pair(number, bytes(32)))(event) and not act(Event.end_rounds)(event)
        return event.phase == FINISHED

    def choices(self, window):
        """What may be done at a window now, and how often it is beside the others."""
        event = self.event
        found = [(self.look, 3)]
        if event.phase == ENROLLING:
            is_full = len(event.names) >= max(event.cut, 4) + 2
            found += [
                (self.enrol, 1 if is_full else 12),
                (self.import_list, 0.7),
                (self.start, 3 if is_full else 0),
            ]
            return found + [(self.rename, 1 if event.names else 0)]
        found += [
            (self.enter, 10 if window.slips else 0),
            (self.back, 0.4 if self.backs < 3 and self.copies else 0),
        ]
        if event.phase == SWISS:
            is_open = event.is_open()
            found += [
                (self.correct, 1.2 if event.stored else 0),
                (self.drop, 0.4 if self.can_drop() else 0),
                (self.enrol, 0.3),
            ]
            # who pairs doesn't wait for slips whose score is there already
            found += [
                (self.pair, 0.2 if is_open or len(event.stored) == event.rounds else 20),
                (self.cut, 0.2 if is_open else 2),
            ]
        if event.phase == PLAYOFF:
            found += [(self.play, 10)]
        return found

    def move_of(self, actor):
        if isinstance(actor, Phone):
            return self.scan()
        moves, weights = zip(*self.choices(actor))
        return self.dice.choices(moves, weights)[0](actor)

    def step(self):
        """Somebody does something, or two do at the same moment."""
        dice = self.dice
        count = 2 if self.event.phase != ENROLLING and dice.random() < 0.3 else 1
        actors = dice.sample(self.windows, min(count, len(self.windows)))
        if self.scanned and dice.random() < 0.4:
            actors[-1] = dice.choice(self.phones)
        moves = [self.move_of(it) for it in actors]
        # each of two that go back, or of two that rename, would undo the other one's
        if len(moves) > 1 and sum(move.line.split()[0] in ("back", "rename", "import") for move in moves) > 1:
            moves = moves[:1]
        before = self.event
        self.do(*moves)
        if len(self.event.stored) != len(before.stored) and dice.random() < 0.7:
            self.come_late(before)
        if dice.random() < 0.03:
            window = dice.choice(self.windows)
            assert window.leave(dice.choice(("quit\r", "exit\r")))[0] == 0, f"{window.name} ends"
            window.begin_again()
        if dice.random() < 0.02:
            # what other windows did is told above the line
            time.sleep(1.2)

    def play_on(self):
        steps = 0
        while not self.is_over():
            steps += 1
            assert steps < MOST_STEPS, self.story("the evening doesn't end")
            self.step()
        # what lies there still, and a few looks
        for window in self.windows:
            for _ in range(min(4, len(window.slips))):
                self.do(self.enter(window))
            self.do(self.look(window))

    def begin(self, count):
        """One window makes the event, and the others find it."""
        self.seat(count)
        first = self.dice.choice(self.windows)
        line = f"init {TITLE} {self.event.rounds} {self.event.cut}"
        first.say(Move(first, line))
        assert self.rows() == rows_of(self.event, TITLE), self.story("init")
        self.states[repr(rows_of(self.event, TITLE))] = self.event

    def end(self):
        """What the plain reading reads from the file is the event."""
        for window in self.windows:
            status, said = window.leave("\x04")
            assert (status, "Traceback" in said) == (0, False), f"{window.name} ends: {said}"
        with tempfile.TemporaryDirectory() as folder:
            assert rows_of(read(copied(self.file, folder)), TITLE) == rows_of(self.event, TITLE), self.story(
                "the file"
            )


def number_of(path):
    """Of a copy, or of an event that was put away."""
    return int(re.search(r"(?:copies/|away-)(\d{4,})-", path)[1])


def elsewhere(before, rows):
    """What the file has that nobody meant: scores at other places, above all."""
    if rows is None:
        return "there is no event any more"
    scores = lambda pairing: {
        (number, table): (done, x, y, d) for number, table, _, _, _, done, x, y, d in pairing
    }
    old, new = scores(rows_of(before, TITLE)[2]), scores(rows[2])
    moved = [
        f"round {number}, table {table}: {old.get((number, table))} is {it}"
        for (number, table), it in new.items()
        if old.get((number, table)) != it
    ]
    return f"the file is not what was typed. Scores that changed (stored, and the counts): {moved}; the first row: {rows[0]}"


def race_of(prompt, dice, room):
    rounds, cut = dice.randint(2, 3), dice.choice((0, 2, 4))
    return Race(prompt, dice, room, Event(rounds, cut))


def test_windows(prompt, dice, room, evening):
    race = race_of(prompt, dice, room)
    race.begin(dice.choice((2, 2, 3)))
    race.play_on()
    race.end()


@pytest.fixture
def gateways(program):
    """`event-phones` over a file. What still serves at the end is killed."""
    begun = []

    def begin(file):
        from tests.support.phone_rooms import Gateway

        begun.append(Gateway(program.path, file))
        return begun[-1]

    yield begin
    for it in begun:
        it.kill()


@pytest.fixture
def boards(program, companions):
    """`event-sheets --board --watch` over a file. What still watches at the end is killed."""
    begun = []

    def begin(file, page):
        words = [
            sys.executable,
            "-B",
            f"{companions}/bin/event-sheets",
            file,
            "--program",
            program.path,
            "--board",
            "--watch",
            page,
        ]
        begun.append(
            subprocess.Popen(
                words, stdin=subprocess.DEVNULL, stdout=subprocess.DEVNULL, stderr=subprocess.PIPE
            )
        )
        return begun[-1]

    yield begin
    for it in begun:
        it.kill()
        it.communicate(timeout=PATIENCE)


def shows(page, event):
    """Whether a board has the standings of the event, or its final ranking, and nothing else."""
    if not os.path.exists(page):
        return False
    with open(page, encoding="utf-8") as written:
        parts = Page(written.read()).parts()
    if event.phase == FINISHED:
        return "final" in parts and shown_rows(parts["final"]) == final_rows(event)
    # who has never sat at a table is left out
    return "standings" in parts and shown_standings(parts["standings"])[0] == [
        it for it in ranks_due(event) if it[4]
    ]


@pytest.mark.needs("phones and a board that race", module="waitress", package="python3-waitress")
@pytest.mark.needs("phones and a board that race", module="jinja2", package="python3-jinja2")
def test_windows_phones_and_a_board(prompt, dice, room, gateways, boards, crowded):
    from tests.support.phone_rooms import kept_secret

    race = race_of(prompt, dice, room)
    race.begin(2)
    gateway, board = gateways(race.file), boards(race.file, f"{room}/board.html")
    race.phones = [Phone(gateway, kept_secret(race.file), number) for number in range(1, 6)]
    race.play_on()
    while race.scanned:
        race.do(race.scan())
    assert comes(lambda: shows(f"{room}/board.html", race.event)), race.story("the board shows another event")
    assert board.poll() is None, "the board goes on"
    race.end()


# ---- what was once stored elsewhere


@pytest.fixture
def two(prompt, dice, room):
    """Two windows at an event of four players whose first round is paired, with nobody who acts at random."""
    race = Race(prompt, dice, room, Event(3, 0))
    race.begin(2)
    one, _ = race.windows
    for name in ("Ana", "Bo", "Cy", "Di"):
        race.do(Move(one, f"enrol {name}", (act(lambda event, name=name: event.enrol(name)),)))
    race.do(race.start(one))
    race.do(race.pair(one))
    return race


def slip_of(event, number, table, score):
    return Slip(number, table, *event.stored[number - 1][table - 1][:2], score)


def typed(window, slip, line):
    return Move(window, line, (slip.enters(),), slip.is_meant, slip)


def test_a_slip_of_round_1_is_never_one_of_round_2(two):
    one, other = two.windows
    two.do(typed(other, slip_of(two.event, 1, 1, (2, 1, 0)), "1 2 1"))
    slip = slip_of(two.event, 1, 2, (2, 0, 0))
    two.do(typed(one, slip, "2 2 0"))
    two.do(two.pair(one))
    two.do(typed(other, slip, "2 2 0"))
    assert two.event.stored[1][1][2] is None, two.story("round 2, table 2, is open")


def test_a_slip_of_round_2_after_the_other_window_went_back(two):
    one, other = two.windows
    for table in (1, 2):
        two.do(typed(one, slip_of(two.event, 1, table, (2, 0, 0)), f"{table} 2 0"))
    path = next(it for it in two.copies if "before-pair-1" in it)
    two.do(two.pair(other))
    slip = slip_of(two.event, 2, 2, (0, 2, 0))
    two.do(Move(one, f"back {number_of(path)}", (lambda event: [two.copies[path]],)))
    two.do(two.pair(one))
    two.do(typed(other, slip, "2 0 2"))
    assert two.event.stored[0][1][2] is None, two.story("round 1, table 2, is open")


def test_a_correction_of_table_1_is_none_of_table_2(two):
    one, _ = two.windows
    for table in (1, 2):
        two.do(typed(one, slip_of(two.event, 1, table, (2, 0, 0)), f"{table} 2 0"))
    slip = slip_of(two.event, 1, 1, (2, 1, 0))
    two.do(Move(one, "fix 1 2 1 0", (slip.replaces(),), slip.is_meant, slip))


def test_each_word_of_the_prompt_is_typed_here(companions):
    """Of those that come later too."""
    with open(f"{companions}/event_companions/prompt/desk.py", encoding="utf-8") as source:
        words = re.findall(r"^    (?:def )?do_([a-z]+)", source.read(), re.M)
    assert set(words) - {*MOVES, *(line.split()[0] for line in LOOKS)} == set()
