"""Random evenings whose rounds are drawn, by the plain reading: the texts that they leave, with the event as it was when each round was drawn."""
import copy

from second_reading.plain_csv import players_rows, results_rows, written
from second_reading.plain_draw import FIRST, due, event_of, key_of, sha256, tables_due
from second_reading.plain_event import Event
from tests.support.random_evenings import is_of_swiss, lawful, names_for, report_round
from tests.support.random_play import random_score


def text_bytes(event, number, drawing, after, drawn, by="-", instead="-"):
    """The text of the next round of an event, which is not paired by it."""
    players, results = written(players_rows(event)), written(results_rows(event))
    key = key_of(number, drawn)
    tables = tables_due(event, number, due(event_of(players, results), bytes.fromhex(key)))
    mark = sha256(players + results)
    head = f"event_reporter draw 2\nround {number}\ndrawing {drawing}\nafter {after}\nmark {mark}\nnumber {drawn}\nby {by}\ninstead {instead}\nkey {key}\n"
    return (
        head.encode()
        + b"players.csv\n"
        + players
        + b"results.csv\n"
        + results
        + b"drawn.csv\n"
        + tables
        + b"end\n"
    )


def thrown(dice):
    """A throw of four dice, sometimes with more."""
    return " ".join(map(str, sorted(dice.randint(1, 20) for _ in range(dice.choice((4, 4, 4, 5, 9))))))


def begun(names, rounds=3):
    event = Event(rounds, 0)
    for name in names:
        event.enrol(name)
    event.start()
    return event


def can_be_paired(event, number, drawn):
    return copy.deepcopy(event).pair(number, bytes.fromhex(key_of(number, drawn)))[0].startswith("ok ")


def drop_somebody(dice, event):
    if len(event.names) - len(event.dropped) > 3:
        event.drop(dice.randint(1, len(event.names)))


def drawn_evening(dice, players, rounds):
    """The texts in the order in which they were written, each with the event before its round. Some rounds are drawn twice, most of them after a drop; some
    scores are corrected after the next round was drawn; players come late.
    """
    event = begun(names_for(dice, players, dice.random() < 0.3), rounds)
    found, after = [], FIRST
    for number in range(1, rounds + 1):
        drawn = thrown(dice)
        for drawing in range(1, dice.choice((1, 1, 1, 2)) + 1):
            if drawing > 1:
                drop_somebody(dice, event)
            if not can_be_paired(event, number, drawn):
                return found
            found.append((text_bytes(event, number, drawing, after, drawn), copy.deepcopy(event)))
            after = sha256(found[-1][0])
        event.pair(number, bytes.fromhex(key_of(number, drawn)))
        report_round(dice, event)
        if number > 1 and dice.random() < 0.3:
            event.report(1, 1, lawful(dice, random_score, is_of_swiss), False)
        if number < rounds and dice.random() < 0.4:
            event.enrol(f"Late {number}")
        if dice.random() < 0.4:
            drop_somebody(dice, event)
    return found


def changes(dice, text, count):
    """Texts that differ in a byte: another one in its place, one less, or one more."""
    for _ in range(count):
        at, put = dice.randrange(len(text)), bytes([dice.choice(b"0 7a,\n-;zA\xff")])
        changed = dice.choice(
            (text[:at] + put + text[at + 1 :], text[:at] + text[at + 1 :], text[:at] + put + text[at:])
        )
        if changed != text:
            yield changed
