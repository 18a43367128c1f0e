"""Random events for what stands around the program: of this many players, some with names of many kinds, and as far on as is wanted. Players drop and come
late, and odd numbers have byes. Each is also laid into a file.
"""
import sqlite3

from second_reading.plain_event import FINISHED, PLAYOFF, Event
from second_reading.plain_file import tables_of
from tests.support.event_files import rows_of
from tests.support.program import Program
from tests.support.random_play import random_playoff_score, random_score

# how far on an event is
ENROLLING, STARTED, OPEN, COMPLETE, IN_PLAYOFF, ENDED = WAYS = (
    "enrolling",
    "started",
    "open",
    "complete",
    "in the playoff",
    "ended",
)

FIRST_NAMES = (
    "Ana",
    "bo",
    "Cy",
    "Zoë",
    "Óscar",
    "Émile",
    "Łukasz",
    "Øystein",
    "Æsa",
    "Đorđe",
    "O'Brien",
    "Anna-Lena",
)

HOSTILE = [
    "<script>alert(1)</script>",
    "W" * 60,
    "Ana - Bo",
    "Ana - bye",
    "\"Q\" & 'q' &amp; &lt;b&gt;",
    "</bdi></td></table>",
    "bye",
    "Champion 3 Cy",
    "=1+1",
    "-x",
    "007",
    "two  spaces,   three",
    "\u0645\u062d\u0645\u062f \u0639\u0644\u064a",
    "\u202eesrever \u2066isolate",
    "\u5927\u4f1a" * 10,
    "Z\u0301\u0302\u0323\u0330oe\u0308",
    "\u2028line\u2029and\u0085next",
    "\u009b31m red",
    "\U0001f0a1\ufe0f\u200d\U0001f0a1",
    "\ufeffmark\ufffe",
    "\u00a0nbsp\u00a0",
    "; TAB, \\ `$HOME` %s {0}",
    "]]> <!-- x -->",
]


def names_for(dice, count, has_hostile):
    names = [f"{dice.choice(FIRST_NAMES)} {dice.choice('ABCDEFGH')}{it}" for it in range(1, count + 1)]
    if has_hostile:
        names[: min(count, len(HOSTILE))] = HOSTILE[:count]
        dice.shuffle(names)
    return names


def lawful(dice, make, is_lawful):
    while True:
        score = make(dice)
        if is_lawful(score):
            return score


def is_of_swiss(score):
    x, y, d = score
    return max(x, y) <= 2 and d <= 3 and (x, y) != (2, 2)


def is_of_playoff(score):
    x, y, d = score
    return max(score) <= 3 and x != y


def report_round(dice, event, share=1.0):
    """Scores for the newest round, or for a share of its tables."""
    number = len(event.stored)
    for place, match in enumerate(list(event.stored[-1]), 1):
        if not match[2] and dice.random() < share:
            event.report(number, place, lawful(dice, random_score, is_of_swiss), True)


def evening(dice, players, way, rounds=3, cut=0, has_hostile=False):
    """An event that is so far on, or as far as it comes: where whoever is left has met, it ends earlier."""
    event = Event(rounds, cut)
    names = names_for(dice, players + 3, has_hostile)
    for name in names[:players]:
        event.enrol(name)
    if way == ENROLLING:
        return event
    event.start()
    late = names[players:]
    last = dice.randint(1, rounds) if way in (OPEN, COMPLETE) else 0 if way == STARTED else rounds
    for number in range(1, last + 1):
        if not event.pair(number, dice.getrandbits(256).to_bytes(32, "little"))[0].startswith("ok "):
            break
        is_open = way == OPEN and number == last
        if late and number < rounds and dice.random() < 0.5:
            event.enrol(late.pop())
        report_round(dice, event, dice.choice((0, 0.5, 0.9)) if is_open else 1.0)
        if len(event.names) - len(event.dropped) > max(cut, 3) and dice.random() < 0.6:
            event.drop(dice.randint(1, len(event.names)))
    if way in (IN_PLAYOFF, ENDED):
        event.end_rounds()
        play_bracket(dice, event, way == ENDED)
    return event


def play_bracket(dice, event, to_the_end):
    """Scores of the playoff, all of them or some."""
    left = dice.randrange(2 * event.cut) if event.cut and not to_the_end else 100
    while event.phase == PLAYOFF and left:
        stage = len(event.stages)
        slot = next(at for at, match in enumerate(event.stages[-1], 1) if not match[2])
        event.play(stage, slot, lawful(dice, random_playoff_score, is_of_playoff))
        left -= 1
    assert not to_the_end or event.phase in (FINISHED, 1)


def laid(program, file, event, title):
    """The event's file: made by the program, and filled by SQL, since thousands of command lines would take long."""
    assert Program(program).run("init", file, title, str(event.rounds), str(event.cut))[0] == 0
    base = sqlite3.connect(file, isolation_level=None)
    base.execute("BEGIN")
    for table, rows in zip(tables_of(2), rows_of(event, title)):
        base.execute(f"DELETE FROM {table}")
        for row in rows:
            base.execute(f"INSERT INTO {table} VALUES ({', '.join('?' * len(row))})", row)
    base.execute("COMMIT")
    base.close()
    return file
