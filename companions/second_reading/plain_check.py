"""Says of each round whether it is the one that the rules give by its key (docs/RULES.md, Swiss pairing). It takes the two lists of `export` and the
keys, and asks nothing of the program, so that somebody who doubts it can check a round.
"""
import itertools
import re

from second_reading.chacha20 import words_of
from second_reading.plain_csv import Fault, number, records
from second_reading.plain_event import OutOfSteps, earliest

AS_THE_RULES, OTHERWISE = (
    "as the rules pair it by its key",
    "not as the rules pair it from the scores as they are now",
)
CORRECTED = "Where a score of an earlier round was corrected since, this can't be told"


def keys_of(text):
    """The keys of each round, but for those that are marked as unused. A round that was paired again after `back` has several."""
    lines = re.findall(r"^round (\d+) ([0-9A-Fa-f]{64})( unused)?$", text, re.M)
    unused = {(round_number, key) for round_number, key, mark in lines if mark}
    keys = {}
    for round_number, key, mark in lines:
        if not mark and (round_number, key) not in unused:
            keys.setdefault(int(round_number), []).append(bytes.fromhex(key))
    return keys


def points_of(matches):
    """What each player has from these matches."""
    points = {}
    for a, b, (x, y, _) in matches:
        for player, won, lost in ((a, x, y), (b, y, x)):
            points[player] = points.get(player, 0) + (3 if won > lost else 1 if won == lost else 0)
    return points


def due(before, sitting, key):
    """The round that the rules give to those who sit in it, after these matches; None if none is legal."""
    points, words = points_of(before), dict(zip(sitting, words_of(key, len(sitting))))
    order = sorted(sitting, key=lambda it: (-points.get(it, 0), words[it], it)) + [0] * (len(sitting) % 2)
    pairs = earliest(order, {frozenset(match[:2]) for match in before}, itertools.count(1))
    return None if pairs is None else [it for it in pairs if it[1]] + [it for it in pairs if not it[1]]


def missing(rounds, number):
    """Who sits in a round before this one and in one after it, and not in it: nobody who has dropped comes back."""
    sit = [{player for match in matches for player in match[:2] if player} for matches in rounds]
    return sorted(set().union(*sit[: number - 1]) & set().union(*sit[number:]) - sit[number - 1])


def is_due(before, sitting, key, matches):
    try:
        return due(before, sitting, key) == [tuple(match[:2]) for match in matches]
    except OutOfSteps:
        return False


def verdict(rounds, number, keys):
    matches = rounds[number - 1]
    if missing(rounds, number):
        return f"it leaves out {', '.join(map(str, missing(rounds, number)))}, who sit before and after it"
    before = [match for earlier in rounds[: number - 1] for match in earlier]
    if not all(score for _, _, score in before):
        return "a table of an earlier round has no score"
    if not keys:
        return "its key is not in the list of keys"
    sitting = sorted(player for match in matches for player in match[:2] if player)
    if any(is_due(before, sitting, key, matches) for key in keys):
        return AS_THE_RULES
    return f"{OTHERWISE}. {CORRECTED}" if number > 1 else OTHERWISE


def verdicts(results, keys):
    """A line for each round. Results are (round, table, a, b, score or None), as the list has them."""
    rounds = []
    for round_number, _, a, b, score in results:
        if round_number > len(rounds):
            rounds.append([])
        rounds[-1].append((a, b, score))
    return [
        f"round {round_number}: {verdict(rounds, round_number, keys.get(round_number, []))}"
        for round_number in range(1, len(rounds) + 1)
    ]


def results_of(data, players):
    """The matches of a list of results: round, table, first, second or 0, score or None."""
    heading, *rows = records(data) or [None]
    if heading != [b"round", b"table", b"a", b"b", b"x", b"y", b"d"]:
        raise Fault("bad csv heading\n")
    found = []
    for place, row in enumerate(rows, 1):
        numbers = [number(it) for it in row[:4]]
        score = None if row[4:] == [b"", b"", b""] else tuple(number(it) for it in row[4:])
        if (
            len(row) != 7
            or None in numbers
            or (score and None in score)
            or not all(it <= players for it in numbers[2:])
        ):
            raise Fault(f"bad csv row {place}\n")
        found.append((*numbers, score))
    return found
