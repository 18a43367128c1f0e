"""Damages files of random events in either version, each in one way, and has the program print their standings, players and bracket. What C SQLite reads
of a copy says what is due. A file that was damaged by SQL is answered by just the event that its rows stand for, or refused 27 or 29. If bytes were
damaged, a refusal 25, 27 or 29 is always lawful, and the texts of an event where its rows are read; only of a file that C SQLite
can't read may the texts be those of another event, one that the file once held. A file that is refused keeps its bytes, but for an empty one, which
is begun anew. A log beside it may be ended, or begun anew if nothing of it is read; one that wasn't there isn't left, and one that was stays. A
file that is read is the event alone, without its log, then. An event in version 1 that is left by SQL is moved to version 2, or stays where the name of a
table is taken.
"""
import collections
import concurrent.futures
import copy
import itertools
import os
import random
import shutil
import sqlite3
import subprocess
import sys
import tempfile

from second_reading import plain_file
from second_reading.plain_event import PLAYOFF, SWISS, Event
from tests.faults import damaged_bytes
from tests.faults import damaged_events
from tests.faults import damaged_rows
from tests.faults.stopping import run_unclosed
from tests.support.event_files import (
    bytes_in,
    copied,
    due,
    make_old,
    rows_alone,
    rows_of,
    rows_of_copy,
    words_of,
)
from tests.support.plain_log import FRAME, HEAD, committed
from tests.support.program import Program
from tests.support.random_play import random_event, version_of
from tests.support.tally import check, dice_of, end
from tests.support.words import LIBRARY, PROGRAM, SEED, Word, given_by

READINGS = ("standings", "players", "bracket")
WRONGLY = "wrongly"
REFUSALS = {
    number: (due([f"refused {number} {name}"]),) * 3
    for number, name in ((25, "Store"), (27, "NoEvent"), (29, "Damaged"))
}
# how many of the damages of a round are of this kind, if it is more than one
WEIGHTS = {
    "a value set": 4,
    "tables without keys": 3,
    "a trick": 6,
    "rows of another event": 9,
    "bytes turned": 2,
}

Outcome = collections.namedtuple("Outcome", "kind read answer change faults")


def texts_of(event):
    return due(event.standings()), due(event.players()), due(event.bracket())


# ---- the files before any damage


class Template:
    """A random event in three files: one with all of it in its log, as when the program was stopped after each answer; one that the program has
    closed; and one into which C SQLite has put the log, and has taken it away.
    """

    def __init__(self, states):
        self.states, self.event = states, states[-1][1]
        self.kept = {}

    def make(self, program, library, folder):
        self.program, self.library = program, library
        self.logged, self.closed, self.whole = (
            f"{folder}/{it}/e.event" for it in ("logged", "closed", "whole")
        )
        for file in (self.logged, self.closed, self.whole):
            os.makedirs(os.path.dirname(file))
        (begin, first), *others = self.states
        names = [
            line.split("\t")[1]
            for line, _ in itertools.takewhile(lambda it: it[0].startswith("enrol\t"), others)
        ]
        with open(f"{folder}/names.csv", "w", encoding="utf-8") as it:
            it.writelines(f"{line}\n" for line in ["name", *names])
        if first.version == 1:
            make_old(self.logged, first, has_log=True)
        else:
            self.send(words_of(begin, self.logged), "ok 0")
        self.send(["import", self.logged, f"{folder}/names.csv"], f"added {len(names)} already 0")
        for line, event in others[len(names) :]:
            self.send(words_of(line, self.logged), f"ok {event.serial}")
        check("rows of an undamaged file", rows_of_copy(self.logged), rows_of(self.event))
        check("it has not closed", os.path.getsize(f"{self.logged}-wal") > HEAD + FRAME, True)
        for file in (self.closed, self.whole):
            copied(self.logged, os.path.dirname(file))
        check("closed", Program(program).run("players", self.closed), due(self.event.players()))
        check("rows of a closed file", rows_alone(self.closed), rows_of(self.event))
        base = sqlite3.connect(self.whole)
        base.execute("PRAGMA wal_checkpoint(TRUNCATE)").fetchall()
        base.close()

    def send(self, words, answer):
        """A command line that ends before it closes the file."""
        check(words, run_unclosed(self.program, self.library, words), due([answer])[1:])

    def held(self):
        """The texts of all the events that the file has held."""
        if not self.kept:
            self.kept = {texts_of(event) for _, event in self.states}
        return self.kept


class TooLong(Exception):
    """An event has more lines than are wanted."""


def random_states(dice, number, longest):
    """The lines of a random event that are taken, each with the event then. Of enrolments, which are the first, and of others there are this many at most."""
    states = []

    def note(line, answer, event):
        if answer[0].startswith("ok "):
            states.append((line, copy.deepcopy(event)))
        if max(len(event.names), len(states) - len(event.names)) > longest:
            raise TooLong

    random_event(note, dice, number, version=version_of(number))
    return states[: dice.randint(1, len(states))] if dice.random() < 0.3 else states


def chosen(dice, count, longest):
    """This many random events of at most this many command lines; every third has a playoff."""
    found = []
    for number in itertools.count():
        try:
            it = Template(random_states(dice, number, longest))
        except TooLong:
            continue
        if len(found) % 3 or it.event.phase >= PLAYOFF:
            found.append(it)
        if len(found) == count:
            return found


def check_other_playoffs():
    """If the standings can no longer seed it, another playoff has the seeds that were there."""
    for what, change in (
        ("a player less", lambda event: event.names.pop()),
        ("a cut of 3", lambda event: setattr(event, "cut", 3)),
    ):
        for number in range(10):
            event = Event(1, 2)
            event.names, event.phase, event.stored = (
                [*"ABCD"],
                SWISS,
                [[[1, 4, (2, 0, 0)], [2, 3, (2, 1, 0)]]],
            )
            event.end_rounds()
            change(event)
            damaged_events.other_playoff(random.Random(number), event)
            check(f"another playoff with {what}", [it[:2] for it in event.stages[0]], [[1, 2]])


# ---- one damage


def kinds():
    """What is damaged, and the kinds of damage to it, each as many times as it comes in a round of them."""
    parts = (
        ("rows", damaged_rows.KINDS),
        ("whole", damaged_bytes.FILE_KINDS),
        ("logged", damaged_bytes.LOG_KINDS),
    )
    return [(part, kind) for part, those in parts for kind in those for _ in range(WEIGHTS.get(kind, 1))]


def read_by_sqlite(file, takes=copied):
    """What is due to the three readings by what C SQLite reads of a copy; nothing if it can't read it."""
    with tempfile.TemporaryDirectory() as room:
        try:
            return texts_of(plain_file.read(takes(file, room)))
        except plain_file.NoEvent:
            return REFUSALS[27]
        except plain_file.Damaged:
            return REFUSALS[29]
        except sqlite3.Error:
            return ()


def change_of_log(before, after):
    """How opening a file changed its log, in which nothing that is read may change; or None."""
    if after == before:
        return None
    same = next(
        (at for at, (one, other) in enumerate(zip(before, after)) if one != other),
        min(len(before), len(after)),
    )
    read = committed(before)
    if read > same:
        return WRONGLY
    return (
        "an end put to its log"
        if read
        else "a log without a head begun anew"
        if len(before) > HEAD + FRAME
        else "an empty log begun anew"
    )


def change_of(before, after):
    """How a refused file was changed. A log is there or not, as before."""
    file, log = "e.event", "e.event-wal"
    if set(after) != set(before):
        return WRONGLY
    if after[file] != before[file]:
        return (
            WRONGLY
            if before[file]
            else "an empty file begun, with the log that was there"
            if log in before
            else "an empty file begun"
        )
    return change_of_log(before.get(log, b""), after.get(log, b"")) or "none"


def is_name_taken(file):
    """Whether a migration can't make its table."""
    base = sqlite3.connect(file)
    found = base.execute("SELECT 1 FROM sqlite_schema WHERE lower(name) = 'player2'").fetchall()
    base.close()
    return found != []


def name_of(answers):
    """A refusal that is lawful, an event, or what is neither."""
    if answers in REFUSALS.values():
        return next(f"refused {number}" for number, them in REFUSALS.items() if them == answers)
    return "an event" if answers and all(status == 0 for status, _, _ in answers) else "nothing"


class Damages:
    def __init__(self, program, templates, seed):
        self.program, self.templates, self.seed = os.path.abspath(program), templates, seed
        self.kinds = kinds()

    def damage(self, room, number):
        """A damaged copy of a template: its file, the template, and in which way it was damaged."""
        dice = random.Random(f"{self.seed} {number}")
        part, kind = self.kinds[number % len(self.kinds)]
        template = dice.choice(self.templates)
        is_logged = part == "logged" or part == "rows" and dice.random() < 0.5
        file = copied(template.logged if is_logged else dice.choice((template.closed, template.whole)), room)
        if part == "rows":
            damaged_rows.damage(dice, file, kind, template.event)
        else:
            those = damaged_bytes.LOG_KINDS if part == "logged" else damaged_bytes.FILE_KINDS
            those[kind](dice, file, [it.logged for it in self.templates if it is not template])
        return file, template, f"{'SQL' if part == 'rows' else 'bytes'}: {kind}"

    def answers(self, file):
        """What the three readings are answered; nothing if one doesn't end."""
        try:
            return tuple(Program(self.program).run(name, file) for name in READINGS)
        except subprocess.TimeoutExpired:
            return ()

    def is_lawful(self, template, kind, due_answers, answers):
        """Whether the answers are due to what C SQLite reads."""
        if answers == due_answers:
            return True
        if answers in REFUSALS.values():
            return kind.startswith("bytes: ") or kind == f"SQL: {damaged_rows.UNREAD_KIND}"
        return not due_answers and any(answers in it.held() for it in self.templates)

    def migration_fault(self, file):
        """What is wrong with the migration of an event in version 1, or None."""
        event = plain_file.read(file)
        if event.version == 2:
            return None
        answer = due(["refused 25 Store"] if is_name_taken(file) else event.migrate())
        got = Program(self.program).run("migrate", file)
        if got != answer:
            return f"migrate: {got}, and not {answer}"
        found = plain_file.read(file)
        return None if vars(found) == vars(event) else f"migrate left {vars(found)}"

    def tried(self, number):
        with tempfile.TemporaryDirectory() as room:
            file, template, kind = self.damage(room, number)
            before, due_answers = bytes_in(room), read_by_sqlite(file)
            answers = self.answers(file)
            after, faults = bytes_in(room), []
            change = change_of(before, after) if answers in REFUSALS.values() else ""
            if not self.is_lawful(template, kind, due_answers, answers):
                faults.append(f"{str(answers)[:500]}, and not {str(due_answers)[:500]}")
            if change == WRONGLY:
                faults.append("a refused file was changed")
            if not change and due_answers and read_by_sqlite(file) != due_answers:
                faults.append("C SQLite reads something else afterwards")
            if not change and due_answers and read_by_sqlite(file, shutil.copy) != due_answers:
                faults.append("C SQLite reads something else of the file alone afterwards")
            if (
                not faults
                and name_of(answers) == "an event"
                and kind.startswith("SQL: ")
                and kind != f"SQL: {damaged_rows.UNREAD_KIND}"
            ):
                faults += filter(None, [self.migration_fault(file)])
            return Outcome(
                kind,
                name_of(due_answers),
                name_of(answers),
                change,
                [f"seed {self.seed}, damage {number}, {kind}: {it}" for it in faults],
            )


def told(outcomes):
    """The counts of each kind of damage, of what C SQLite reads, and of the answers; and of how refused files were changed."""
    counts = collections.Counter(it[:3] for it in outcomes)
    changes = collections.Counter(it.change for it in outcomes if it.change)
    lines = [
        f"{count:6} {kind}: C SQLite reads {read}, answered: {answer}"
        for (kind, read, answer), count in sorted(counts.items())
    ]
    return lines + [
        f"{count:6} refused files, changed: {change}" for change, count in sorted(changes.items())
    ]


def main(program, library, count, seed, jobs, templates, longest):
    check_other_playoffs()
    with tempfile.TemporaryDirectory() as folder:
        dice, outcomes = dice_of(seed), []
        chosen_ones = chosen(dice, templates, longest)
        # one in which nobody is enrolled, whose only row is the event's
        chosen_ones.append(Template(chosen_ones[0].states[:1]))
        for number, template in enumerate(chosen_ones):
            template.make(program, library, f"{folder}/{number}")
        damages = Damages(program, chosen_ones, seed)
        with concurrent.futures.ThreadPoolExecutor(jobs) as pool:
            for outcome in pool.map(damages.tried, range(count)):
                outcomes.append(outcome)
                if len(outcomes) % 1000 == 0:
                    print(f"{len(outcomes)} damages", file=sys.stderr)
    faults = [it for outcome in outcomes for it in outcome.faults]
    print("\n".join(told(outcomes)))
    print("\n".join(faults), file=sys.stderr, end="\n" if faults else "")
    print(f"{count} damages, {len(faults)} wrong")
    check("damages", len(faults), 0)
    end(f"damaged files of {templates} random events")


if __name__ == "__main__":
    count, jobs = Word(int, "how many damages are tried"), Word(int, "how many at once")
    templates, longest = Word(int, "how many random events have files that are damaged"), Word(
        int, "how many enrolments each of them has at most, and how many other commands"
    )
    main(
        **given_by(
            __doc__,
            program=PROGRAM,
            library=LIBRARY,
            count=count,
            seed=SEED,
            jobs=jobs,
            templates=templates,
            longest=longest,
        )
    )
