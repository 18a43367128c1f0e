"""The scorekeeper's prompt, `companions/bin/event-desk`, over the program as it is built: by a pipe, and in a terminal of its own; what is said, beside the plain
reading of the rules; and a whole evening. An `assert` here is a check.
"""
import contextlib
import os
import pty
import re
import select
import signal
import stat
import subprocess
import sys
import time

from second_reading.plain_event import ENROLLING, FINISHED, PLAYOFF, SWISS, Event
from tests.support.event_files import rows_alone, rows_of
from tests.support.waiting import PATIENCE

# before the first round, in a round, and in the playoff
PROMPTS, QUESTION = (b"desk> ", *(b"r%d> " % number for number in range(1, 13)), b"playoff> "), b"(y or n) "
# without any package beside: the standard library is all that they need
PYTHON = sys.executable, "-S", "-B"
# the prompt, at which nobody has read what came in above a line until the next one was answered, however long a busy machine takes
SLOW_READER = """
import sys
sys.path.insert(0, {companions!r})
import event_companions.prompt.session as session
from event_companions.prompt.main import main
session.SECONDS_TO_READ = 1e9
sys.exit(main())
"""
LETTERS = {**os.environ, "LC_ALL": "C.UTF-8", "TERM": "dumb", "INPUTRC": "/dev/null"}
NAMES = ["Ana Lima", "Bo", "Ana - Bo", "Zoë <b>", "محمد", "007", "-x", 'O\'Neil "Z"', "大会"]


def check_said(name, text, *pieces):
    """What is said has these pieces, in this order. It is one check."""
    at, missing = 0, None
    for piece in pieces:
        found = text.find(piece, at)
        if found < 0:
            missing = piece
            break
        at = found + len(piece)
    assert missing is None, f"{name}: {text[at:]!r} lacks {missing!r}"


def keys_of(file):
    """The rounds and keys of FILE.keys, in their order, without those that are marked as unused."""
    with open(f"{file}.keys", encoding="utf-8") as it:
        lines = it.read().splitlines()
    assert [
        it for it in lines if not re.fullmatch("round [0-9]+ [0-9a-f]{64}( unused)?", it)
    ] == [], f"{file}.keys"
    assert stat.S_IMODE(os.stat(f"{file}.keys").st_mode) == 0o600, f"{file}.keys, for its owner alone"
    unused = {it[: -len(" unused")] for it in lines if it.endswith(" unused")}
    return [
        (int(it.split()[1]), bytes.fromhex(it.split()[2]))
        for it in lines
        if not it.endswith(" unused") and it not in unused
    ]


# ---- the plain reading of what is said


def player_shown(event, number):
    return f"{event.names[number - 1]} ({number})"


def match_shown(event, match, score):
    a, b, _ = match
    return f"{player_shown(event, a)} {'-'.join(map(str, score))} {player_shown(event, b)}"


def ranges(numbers):
    text, at = "", 0
    while at < len(numbers):
        last = at
        while last + 1 < len(numbers) and numbers[last + 1] == numbers[last] + 1:
            last += 1
        if last - at >= 2:
            text += f", {numbers[at]}-{numbers[last]}"
            at = last + 1
        else:
            text += f", {numbers[at]}"
            at += 1
    return text[2:]


STAGES = {8: ("quarterfinal", "semifinal", "final"), 4: ("semifinal", "final"), 2: ("final",)}


def slot_named(event, stage, slot):
    """A match of the playoff, by the name of its stage."""
    name = STAGES[event.cut][stage - 1]
    return name if name == "final" else f"{name} {slot}"


def slot_typed(event, stage, slot):
    return {"quarterfinal": f"qf{slot}", "semifinal": f"sf{slot}", "final": "final"}[
        STAGES[event.cut][stage - 1]
    ]


def begun(text):
    """As the beginning of a line."""
    return text[0].upper() + text[1:]


def next_due(event):
    """Where the event is, and what comes next."""
    number = len(event.stored)
    if event.phase == ENROLLING:
        return f"{len(event.names)} player{'s' * (len(event.names) != 1)} so far. Next: enrol Ana Lima, import names.csv, or start"
    if event.phase == FINISHED:
        return f"the champion is {player_shown(event, int(event.bracket()[-1].split()[1]))}. See: final"
    if event.phase == PLAYOFF:
        places = [
            (stage, slot)
            for stage, matches in enumerate(event.stages, 1)
            for slot, match in enumerate(matches, 1)
            if not match[2]
        ]
        return f"open: {', '.join(slot_named(event, *it) for it in places)}. Next: play {slot_typed(event, *places[0])} 2 0"
    if not number:
        return "no round is paired yet. Next: pair"
    tables = [place for place, match in enumerate(event.stored[-1], 1) if not match[2]]
    if tables:
        return f"round {number}, {len(tables)} table{'s' * (len(tables) > 1)} open: {ranges(tables)}"
    return f"round {number} has all its scores. {'All rounds are paired. Next: standings, or cut' if number == event.rounds else 'Next: pair'}"


def where_due(title, file, event):
    """The line with which the prompt begins."""
    phase = {ENROLLING: "enrolling", SWISS: "Swiss rounds", PLAYOFF: "playoff", FINISHED: "finished"}[
        event.phase
    ]
    return f"{title} ({file}), {phase}: {next_due(event)}"


def unfilled(text):
    """Without the ends of lines at which a long one is broken."""
    return " ".join(text.split())


# ---- whole evenings


class TypedEvening:
    """An event that is played at the prompt, and the plain event beside it. The key of each round is the one in FILE.keys."""

    def __init__(self, file, send):
        self.file, self.send, self.event = file, send, Event(3, 4)

    def expect(self, line, *pieces):
        check_said(line, unfilled(self.send(line)), *map(unfilled, pieces))

    def taken(self, line, answer, *pieces):
        self.expect(line, answer[0], *pieces)

    def enrol(self):
        event = self.event
        self.expect("init Friday Night 3 4", "ok 0", where_due("Friday Night", self.file, event))
        for name in NAMES:
            answer = event.enrol(name)
            # as a word the program takes it for an option, so that it goes in as a list
            self.taken(
                f"enrol {name}",
                ["added 1 already 0"] if name == "-x" else answer,
                f"{player_shown(event, len(event.names))} is enrolled.",
            )
        self.taken("start", event.start(), where_due("Friday Night", self.file, event))

    def pair(self):
        event, number = self.event, len(self.event.stored) + 1
        said = self.send("pair")
        keys = keys_of(self.file)
        assert keys[-1][0] == number, "the round of the newest key"
        assert len({it for _, it in keys}) == len(keys), "no key comes twice"
        answer = event.pair(number, keys[-1][1])
        check_said(
            f"pair {number}",
            said,
            answer[0],
            "\n".join(event.slips(number)),
            f"{self.file}.keys",
            keys[-1][1].hex(),
        )

    def result(self, table, score):
        event, number = self.event, len(self.event.stored)
        match, counts = event.stored[-1][table - 1], score if score[2] else score[:2]
        answer = event.report(number, table, score, True)
        self.expect(
            f"{table} {' '.join(map(str, counts))}",
            f"Round {number}, table {table}: {match_shown(event, match, score)}",
            f"{answer[0]}: {next_due(event)}",
        )

    def fix(self, table, score):
        """Of the newest round."""
        event, number = self.event, len(self.event.stored)
        match = event.stored[-1][table - 1]
        before = "-".join(map(str, match[2]))
        answer = event.report(number, table, score, False)
        line = f"fix {table} {' '.join(map(str, score[:2]))}"
        self.expect(
            line,
            answer[0],
            f"Round {number}, table {table}: {match_shown(event, match, score)}, in place of {before}",
        )

    def drop(self, word, number):
        self.expect(f"drop {word}", f"Drop {player_shown(self.event, number)}?")
        self.expect("n", "Nobody was dropped.")
        self.expect(f"drop {word}", f"Drop {player_shown(self.event, number)}?")
        self.taken("y", self.event.drop(number), f"{player_shown(self.event, number)} is dropped.")

    def show(self):
        event = self.event
        self.expect("standings", *event.standings())
        self.expect("players", *event.players())
        self.expect("round 1", *event.slips(1))
        self.expect("where", where_due("Friday Night", self.file, event))

    def play(self):
        """The rounds, with a late player, a drop and corrections, and the playoff."""
        event = self.event
        for number in (1, 2, 3):
            self.pair()
            tables = len([it for it in event.stored[-1] if it[1]])
            self.expect(
                "open",
                *(
                    f"{table} {player_shown(event, it[0])} - {player_shown(event, it[1])}"
                    for table, it in enumerate(event.stored[-1], 1)
                    if it[1]
                ),
            )
            for table in range(1, tables + 1):
                self.result(
                    table, ((2, 1, 0), (0, 0, 3), (1, 2, 1), (2, 0, 0), (0, 2, 0))[(table + number) % 5]
                )
            self.fix(1, (0, 2, 0))
            if number == 1:
                answer = event.enrol("Late Lou")
                self.taken(
                    "enrol Late Lou",
                    answer,
                    "Late Lou (10) is enrolled.",
                    "Round 1 is lost, without an opponent.",
                )
                self.drop("Lou", 10)
            if number == 2:
                self.drop("2", 2)
            self.show()
        self.cut()
        while event.phase == PLAYOFF:
            self.score_slot()
        self.expect("bracket", *event.bracket())
        self.expect("where", where_due("Friday Night", self.file, event))

    def cut(self):
        """It shows who is in, and asks back."""
        self.expect("cut", "The playoff would begin so:")
        self.expect("n", "The playoff was not begun.")
        answer = self.event.end_rounds()
        self.expect("cut", "The playoff would begin so:")
        self.taken("y", answer, *self.event.bracket(), begun(next_due(self.event)))

    def score_slot(self):
        event = self.event
        stage = len(event.stages)
        slot = next(at for at, match in enumerate(event.stages[-1], 1) if not match[2])
        match = event.stages[-1][slot - 1]
        answer = event.play(stage, slot, (1, 2, 0))
        named = f"{begun(slot_named(event, stage, slot))}: {match_shown(event, match, (1, 2, 0))}"
        self.expect(f"play {slot_typed(event, stage, slot)} 1 2", answer[0], named, begun(next_due(event)))

    def end(self, name):
        assert rows_alone(self.file) == rows_of(self.event, "Friday Night"), f"{name}, the file"
        assert [number for number, _ in keys_of(self.file)] == [1, 2, 3], f"{name}, a key a round"
        befores = [re.sub(r"^\d+-\d+-\d+-", "", it) for it in sorted(os.listdir(f"{self.file}.copies"))]
        due = ["pair-1", "drop-10", "pair-2", "drop-2", "pair-3", "cut", "play-1-1", "play-1-2", "play-2-1"]
        assert befores == [f"before-{it}.event" for it in due], f"{name}, the copies"


# ---- how it is begun, fed and heard


class Piped:
    """The prompt, fed by a pipe line by line. There is no prompt, so what a line is answered is told by a line `keys` behind it, whose answer is known."""

    def __init__(self, words):
        self.process = subprocess.Popen(
            words,
            stdin=subprocess.PIPE,
            stdout=subprocess.PIPE,
            stderr=subprocess.STDOUT,
            env=LETTERS,
            bufsize=0,
        )
        self.said = b""
        self.asks = False

    def read_until(self, is_end):
        said = b""
        while not is_end(said):
            if not select.select([self.process.stdout], [], [], PATIENCE)[0]:
                return said + b".. and then nothing came"
            more = os.read(self.process.stdout.fileno(), 65536)
            if not more:
                break
            said += more
        return said

    def send(self, line):
        """What a line is answered. A question is said once its answer came."""
        lines = [line] if self.asks else [line, "foo bar"]
        if line.startswith(("drop ", "cut")):
            # the answer comes with the next line
            self.pending, self.asks = line, True
            return "The playoff would begin so:" if line == "cut" else f"Drop {self.shown(line)}?"
        if self.asks:
            lines, self.asks = [self.pending, line, "foo bar"], False
        self.process.stdin.write("".join(f"{it}\n" for it in lines).encode())
        return self.read_until(lambda text: text.endswith(b"foo is no command. See: help\n")).decode()

    def shown(self, line):
        return {"drop Lou": "Late Lou (10)", "drop 2": "Bo (2)"}[line]

    def end(self):
        self.process.stdin.close()
        self.process.wait(PATIENCE)
        return self.process.returncode

    def kill(self):
        self.process.kill()
        self.process.wait()


class Terminal:
    """The prompt in a terminal of its own."""

    def __init__(self, words, env=LETTERS, begins=None):
        self.child, self.master = pty.fork()
        if self.child == 0:
            os.execvpe(words[0], words, env)
        self.began = self.read_for(begins) if begins else self.read()

    def read_for(self, piece):
        """What comes until this piece of it is there, among all that moves the cursor."""
        said, until = b"", time.monotonic() + PATIENCE
        while piece not in said and time.monotonic() < until:
            if select.select([self.master], [], [], 0.2)[0]:
                said += os.read(self.master, 65536)
        return said.decode("utf-8", "replace")

    def read(self, ends=(*PROMPTS, QUESTION)):
        said = b""
        while not said.endswith(ends):
            if not select.select([self.master], [], [], PATIENCE)[0]:
                return said.decode() + ".. and then nothing came"
            try:
                more = os.read(self.master, 65536)
            except OSError:
                break
            if not more:
                break
            said += more
        return said.decode().replace("\r\n", "\n")

    def keys(self, text):
        os.write(self.master, text.encode())

    def send(self, line):
        self.keys(f"{line}\r")
        return self.read()

    def interrupt(self):
        """Ctrl-C, and what is said then. Python passes over one that comes just before it waits for a key, so it is pressed until something is said. If
        it was pressed twice, the first one may have been answered late, and the second one too: then a line whose answer is known ends what is said.
        """
        presses = 0
        while presses < PATIENCE // 5:
            self.keys("\x03")
            presses += 1
            if select.select([self.master], [], [], 5)[0]:
                break
        said = self.read()
        if presses > 1:
            self.keys("foo bar\r")
            self.read_for(b"foo is no command. See: help")
            self.read()
        return said

    def end(self, keys="\x04"):
        """The status once it has ended, and what is said by then. The keys are pressed each second until then, since those that come just before it waits
        for one are dropped; a prompt that goes on all the same is killed.
        """
        said = b""
        for _ in range(PATIENCE):
            with contextlib.suppress(OSError):
                self.keys(keys)
            until = time.monotonic() + 1
            while time.monotonic() < until:
                child, ended = os.waitpid(self.child, os.WNOHANG)
                said += self.said_now()
                if child:
                    os.close(self.master)
                    self.child = 0
                    status = os.WEXITSTATUS(ended) if os.WIFEXITED(ended) else -os.WTERMSIG(ended)
                    return status, said.decode(errors="replace").replace("\r\n", "\n")
        self.kill()
        return -signal.SIGKILL, said.decode(errors="replace")

    def kill(self):
        """Ends it, if it still runs."""
        if self.child:
            os.kill(self.child, signal.SIGKILL)
            os.waitpid(self.child, 0)
            os.close(self.master)
            self.child = 0

    def said_now(self):
        """What is written to the terminal now, if anything is."""
        said = b""
        with contextlib.suppress(OSError):
            while select.select([self.master], [], [], 0 if said else 0.05)[0]:
                more = os.read(self.master, 65536)
                if not more:
                    break
                said += more
            return said
        time.sleep(0.05)
        return said


class Prompt:
    """How the prompt is begun. What still runs at the end of a `with` is killed."""

    def __init__(self, program, desk):
        self.program, self.desk, self.begun = program, desk, []

    def __enter__(self):
        return self

    def __exit__(self, *_):
        for it in self.begun:
            it.kill()

    def words(self, file, by=None, python=PYTHON, reads_slowly=False):
        companions = os.path.dirname(os.path.dirname(self.desk))
        desk = ["-c", SLOW_READER.format(companions=companions)] if reads_slowly else [self.desk]
        return [*python, *desk, file, "--program", by or self.program]

    def typed(self, file, *lines, by=None, **how):
        """The status and what is said, to lines that come from a pipe."""
        text = "".join(f"{line}\n" for line in lines).encode("utf-8", "surrogateescape")
        ran = subprocess.run(
            self.words(file, by), input=text, capture_output=True, timeout=PATIENCE, env=LETTERS, **how
        )
        assert ran.stderr.decode() == "", f"{lines[-1:]}, errors"
        return ran.returncode, ran.stdout.decode()

    def said(self, file, *lines, **how):
        return self.typed(file, *lines, **how)[1]

    def piped(self, file):
        return self.keep(Piped(self.words(file)))

    def terminal(self, file, by=None, python=PYTHON, reads_slowly=False, **how):
        return self.keep(Terminal(self.words(file, by, python, reads_slowly), **how))

    def keep(self, it):
        self.begun.append(it)
        return it
