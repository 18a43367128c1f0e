"""Changes to events that are as often unlawful as not. The rows of a changed event break one rule of files alone, or none, since their totals are
made anew.
"""
import copy

from second_reading.plain_event import BYE, PLAYOFF, SLOTS, SWISS

NAMES = (
    "Ana",
    "Zoë",
    "大会 3",
    "-",
    "D",
    "a" * 60,
    "é" * 30,
    "大" * 20,
    "\u00a0x\u00a0",
    "\u0085",
    "007",
    "a  b",
    "\U0001f3b2",
    "\ufeffx",
)
NO_NAMES = ("", " ", " Ana", "Ana ", "a" * 61, "é" * 31, "a\tb", "a\nb", "a\0b", "\0", "\x7f", "a" * 100_000)
SCORES = (
    None,
    (2, 0, 0),
    (0, 2, 0),
    (2, 1, 0),
    (1, 1, 1),
    (0, 0, 0),
    (0, 0, 3),
    (2, 2, 0),
    (3, 0, 0),
    (0, 0, 4),
    (3, 3, 0),
    (0, 3, 0),
    (-1, 0, 0),
)


def any_match(dice, event):
    found = [match for matches in dice.choice((event.stored, event.stages)) for match in matches]
    return dice.choice(found) if found else None


# ---- matches


def other_player(dice, event):
    match = any_match(dice, event)
    if match:
        match[dice.randrange(2)] = dice.randint(0, len(event.names) + 1)


def exchange_players(dice, event):
    """Two who sit in the same round or stage."""
    matches = dice.choice(event.stored + event.stages or [[]])
    if matches:
        (one, at), (other, place) = ((dice.choice(matches), dice.randrange(2)) for _ in range(2))
        one[at], other[place] = other[place], one[at]


def exchange_sides(dice, event):
    match = any_match(dice, event)
    if match:
        match[0], match[1] = match[1], match[0]


def other_score(dice, event):
    match = any_match(dice, event)
    if match:
        match[2] = dice.choice(SCORES)


def score_round(dice, event):
    for match in dice.choice(event.stored or [[]]):
        match[2] = match[2] or dice.choice(((2, 0, 0), (1, 2, 0), (0, 0, 3)))


# ---- rounds and stages


def less(dice, event):
    """A match, a round or a stage less."""
    part = dice.choice((event.stored, event.stages, *event.stored, *event.stages))
    if part:
        part.pop(dice.randrange(len(part)))


def once_more(dice, event):
    """A match or a round once more."""
    matches = dice.choice(event.stored or [[]])
    if matches and dice.random() < 0.5:
        matches.insert(0, copy.deepcopy(dice.choice(matches)))
    elif matches:
        event.stored.append(copy.deepcopy(matches))


def another_round(dice, event):
    most = len(event.names)
    event.stored.append(
        dice.choice(([[dice.randint(1, most + 1), 0, BYE]], [[1, 2, None]], [[most, 1, (2, 0, 0)]]))
    )


def another_stage(dice, event):
    most = len(event.names)
    event.stages.append(
        dice.choice(([[1, 2, None]], [[2, 1, (2, 0, 0)], [3, 4, (0, 2, 0)]], [[most, 1, (0, 1, 0)]]))
    )


def can_seed(event):
    """Whether the standings can seed a playoff. An earlier change may have taken away a player who has played, or set a cut that can't be."""
    return event.cut in (0, *SLOTS) and all(
        it in (0, *event.numbers()) for matches in event.stored for match in matches for it in match[:2]
    )


def other_playoff(dice, event):
    """The playoff of the same seeds, or the one that the standings give, with other scores, to its end or not."""
    if event.phase < PLAYOFF:
        return
    event.stages, event.phase = [[[a, b, None] for a, b, _ in it] for it in event.stages[:1]], PLAYOFF
    if dice.random() < 0.5 and can_seed(event):
        event.stages, event.phase = [], SWISS
        event.end_rounds()
    for _ in range(dice.randrange(12)):
        is_open = [
            (stage, slot)
            for stage, matches in enumerate(event.stages, 1)
            for slot, match in enumerate(matches, 1)
            if not match[2]
        ]
        if is_open:
            event.play(*dice.choice(is_open), dice.choice(((2, 0, 0), (0, 3, 1), (1, 0, 3))))


# ---- players, and numbers of the event


def other_number(dice, event):
    what = dice.choice(("rounds", "cut", "phase", "phase", "serial"))
    setattr(
        event,
        what,
        dice.choice((0, 1, 2, 3, 4, 8, 9, 10, 12, 13, getattr(event, what) + dice.choice((-1, 1)))),
    )


def other_players(dice, event):
    what, number = dice.randrange(5), dice.randint(1, len(event.names) or 1)
    if what == 0:
        event.dropped ^= {number}
    elif what == 1:
        event.names.append(dice.choice(("Late", "P1", *NAMES)))
    elif what == 2:
        event.late[dice.choice([number, *event.late])] = dice.choice(
            (0, 1, len(event.stored), len(event.stored) + 1, event.rounds, event.rounds + 1, -1, 256)
        )
    elif what == 3 and event.names:
        event.names[number - 1] = dice.choice(NAMES + NO_NAMES + ("P1", "P2"))
    elif event.names:
        event.names.pop()


def most_players(dice, event):
    """As many players as there may be, or one more."""
    event.names.extend(f"Q{it}" for it in range(len(event.names), dice.choice((512, 513))))


CHANGES = (
    other_player,
    exchange_players,
    exchange_sides,
    other_score,
    other_score,
    score_round,
    less,
    once_more,
    another_round,
    another_stage,
    other_playoff,
    other_playoff,
    other_number,
    other_players,
    other_players,
)


def changed(dice, event):
    """A copy of the event after some changes."""
    event = copy.deepcopy(event)
    if dice.random() < 0.02:
        most_players(dice, event)
    for _ in range(dice.choice((0, 1, 1, 1, 1, 2, 2, 3))):
        dice.choice(CHANGES)(dice, event)
    return event
