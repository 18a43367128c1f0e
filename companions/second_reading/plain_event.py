"""A plain and slow reading of the rules (docs/RULES.md): an event, what each command is answered, and what each text shows."""
import itertools
import re
from fractions import Fraction

from second_reading.chacha20 import words_of

LEAST = Fraction(33, 100)
BYE = (2, 0, 0)
MOST_STEPS = 1_000_000
LAST_SERIAL, MOST_PLAYERS, LONGEST_NAME = 999_999, 512, 60
ENROLLING, SWISS, PLAYOFF, FINISHED = range(4)

# which seeds meet in the slots of the first stage
SLOTS = {2: [(1, 2)], 4: [(1, 4), (2, 3)], 8: [(1, 8), (4, 5), (2, 7), (3, 6)]}


def is_lawful(name):
    """Whether these bytes are a name."""
    try:
        text = name.decode()
    except UnicodeDecodeError:
        return False
    return 1 <= len(name) <= LONGEST_NAME and not re.search("[\0-\x1f\x7f]", text) and text == text.strip(" ")


def swiss(score):
    x, y, d = score
    return x <= 2 and y <= 2 and d <= 3 and (x, y) != (2, 2)


def of_playoff(score):
    x, y, d = score
    return x <= 3 and y <= 3 and d <= 3 and x != y


def is_complete(matches):
    return all(score for _, _, score in matches)


def winner(match):
    a, b, (x, y, _) = match
    return a if x > y else b


def shown(score):
    return f"{'-'.join(map(str, score)) if score else '-':5}"


def mean(shares):
    return sum(shares) / len(shares) if shares else LEAST


def printed(share):
    n = (20000 * share.numerator + share.denominator) // (2 * share.denominator)
    return f"{n // 100}.{n % 100:02}"


class Event:
    """Rounds and stages are lists of [first, second or 0, score or None]; the bye stands last. The version is that of its tables. Of those who came
    late, and of nobody else, `late` has how many rounds were stored by then.
    """

    def __init__(self, rounds, cut, version=2):
        self.rounds, self.cut, self.version, self.serial, self.phase = rounds, cut, version, 0, ENROLLING
        self.names, self.dropped, self.late, self.stored, self.stages = [], set(), {}, [], []

    def is_open(self):
        """Whether a match of the newest round has no score."""
        return bool(self.stored) and not is_complete(self.stored[-1])

    def players(self):
        lines = ["  No D Name"]
        return lines + [
            f"{it:4} {'D' if it in self.dropped else ' '} {self.names[it - 1]}" for it in self.numbers()
        ]

    def numbers(self):
        return range(1, len(self.names) + 1)

    def joined(self, player):
        """How many rounds were stored when the player was enrolled."""
        return self.late.get(player, 0)

    def missed(self, player):
        """How many complete rounds the player missed. Each is a round without a point, a game and an opponent."""
        return sum(map(is_complete, self.stored[: self.joined(player)]))

    def played(self, player):
        """The matches of a player in complete rounds: the opponent, and the score from the player's side."""
        for matches in self.stored:
            if is_complete(matches):
                for a, b, (x, y, d) in matches:
                    if a == player:
                        yield b, (x, y, d)
                    elif b == player:
                        yield a, (y, x, d)

    def points(self, player):
        return sum(3 if x > y else 1 if x == y else 0 for _, (x, y, _) in self.played(player))

    def totals(self, player):
        """What the player's complete rounds come to: points, rounds, game points and games."""
        scores = [score for _, score in self.played(player)]
        return (
            self.points(player),
            len(scores) + self.missed(player),
            sum(3 * x + d for x, _, d in scores),
            sum(map(sum, scores)),
        )

    def match_wins(self, player):
        points, rounds, _, _ = self.totals(player)
        return max(LEAST, Fraction(points, 3 * rounds)) if rounds else LEAST

    def game_wins(self, player):
        _, _, points, games = self.totals(player)
        return max(LEAST, Fraction(points, 3 * games)) if games else LEAST

    def merit(self, player, match_wins, game_wins):
        opponents = [other for other, _ in self.played(player) if other]
        return (
            self.points(player),
            mean([match_wins[it] for it in opponents]),
            game_wins[player],
            mean([game_wins[it] for it in opponents]),
        )

    def merits(self):
        """What the players are ranked by, in the order of the standings."""
        match_wins, game_wins = (
            {it: of(it) for it in self.numbers()} for of in (self.match_wins, self.game_wins)
        )
        merits = {it: self.merit(it, match_wins, game_wins) for it in self.numbers()}
        return {
            it: merits[it] for it in sorted(merits, key=lambda it: ([-value for value in merits[it]], it))
        }

    def standings(self):
        merits = self.merits()
        lines = ["Rank   No Pts    OMW    GWP    OGW D Name"]
        for it in merits:
            rank = 1 + sum(other > merits[it] for other in merits.values())
            shares = " ".join(f"{printed(share):>6}" for share in merits[it][1:])
            lines.append(
                f"{rank:4} {it:4} {merits[it][0]:3} {shares} {'D' if it in self.dropped else ' '} {self.names[it - 1]}"
            )
        return lines

    def slips(self, number):
        if not 1 <= number <= len(self.stored):
            return ["refused 12 NoSuchMatch"]
        lines = [" Tab    A    B Score Names"]
        for place, (a, b, score) in enumerate(self.stored[number - 1], 1):
            other = self.names[b - 1] if b else "bye"
            lines.append(f"{place if b else 0:4} {a:4} {b:4} {shown(score)} {self.names[a - 1]} - {other}")
        return lines

    def bracket(self):
        lines = [" Stg Slot    A    B Score Names"]
        for stage, matches in enumerate(self.stages, 1):
            for slot, (a, b, score) in enumerate(matches, 1):
                lines.append(
                    f"{stage:4} {slot:4} {a:4} {b:4} {shown(score)} {self.names[a - 1]} - {self.names[b - 1]}"
                )
        if self.phase == FINISHED:
            champion = winner(self.stages[-1][0])
            lines.append(f"Champion {champion} {self.names[champion - 1]}")
        return lines

    def taken(self):
        self.serial += 1
        return [f"ok {self.serial}"]

    def migrate(self):
        """The tables of version 1 are moved to version 2. The event and its serial stay."""
        self.version = 2
        return [f"ok {self.serial}"]

    def enrol(self, name):
        if self.phase in (PLAYOFF, FINISHED):
            return ["refused 4 NotEnrolling"]
        if self.phase == SWISS and len(self.stored) == self.rounds:
            return ["refused 9 AllRoundsPaired"]
        if not is_lawful(name.encode()):
            return ["refused 1 BadName"]
        if name in self.names:
            return ["refused 2 NameTaken"]
        if len(self.names) == MOST_PLAYERS:
            return ["refused 3 PlayersFull"]
        if self.serial == LAST_SERIAL:
            return ["refused 23 SerialFull"]
        if self.phase == SWISS and self.version == 1:
            return ["refused 30 BadSetup"]
        self.names.append(name)
        if self.stored:
            self.late[len(self.names)] = len(self.stored)
        return self.taken()

    def start(self):
        if self.phase != ENROLLING:
            return ["refused 4 NotEnrolling"]
        if len(self.names) < 2:
            return ["refused 5 TooFewPlayers"]
        self.phase = SWISS
        return self.taken()

    def pair(self, number, seed):
        if self.phase != SWISS:
            return ["refused 6 NotSwiss"]
        if number != len(self.stored) + 1:
            return ["refused 7 WrongRound"]
        if number > self.rounds:
            return ["refused 9 AllRoundsPaired"]
        if self.is_open():
            return ["refused 8 RoundOpen"]
        active = [it for it in self.numbers() if it not in self.dropped]
        if len(active) < 2:
            return ["refused 5 TooFewPlayers"]
        key = dict(zip(active, words_of(seed, len(active))))
        order = sorted(active, key=lambda it: (-self.points(it), key[it], it)) + [0] * (len(active) % 2)
        met = {frozenset(match[:2]) for matches in self.stored for match in matches}
        try:
            pairs = earliest(order, met, itertools.count(1))
        except OutOfSteps:
            return ["refused 11 Budget"]
        if pairs is None:
            return ["refused 10 NoPairing"]
        self.stored.append([[a, b, None] for a, b in pairs if b] + [[a, b, BYE] for a, b in pairs if not b])
        return self.taken()

    def report(self, number, table, score, is_new):
        if self.phase != SWISS:
            return ["refused 6 NotSwiss"]
        matches = self.stored[number - 1] if 1 <= number <= len(self.stored) else []
        found = [it for place, it in enumerate(matches, 1) if table == (place if it[1] else 0)]
        if not found:
            return ["refused 12 NoSuchMatch"]
        if not found[0][1]:
            return ["refused 16 IsBye"]
        if is_new and found[0][2]:
            return ["refused 14 AlreadyReported"]
        if not is_new and not found[0][2]:
            return ["refused 15 NotReported"]
        if not swiss(score):
            return ["refused 13 BadScore"]
        found[0][2] = score
        return self.taken()

    def drop(self, player):
        if self.phase != SWISS:
            return ["refused 6 NotSwiss"]
        if player not in self.numbers():
            return ["refused 17 NoSuchPlayer"]
        if player in self.dropped:
            return ["refused 18 AlreadyDropped"]
        self.dropped.add(player)
        return self.taken()

    def end_rounds(self):
        if self.phase != SWISS:
            return ["refused 6 NotSwiss"]
        if self.cut == 0:
            return ["refused 20 NoCut"]
        if len(self.stored) < self.rounds or not all(map(is_complete, self.stored)):
            return ["refused 19 RoundsNotDone"]
        seeds = [it for it in self.merits() if it not in self.dropped]
        if len(seeds) < self.cut:
            return ["refused 21 TooFewForCut"]
        self.phase = PLAYOFF
        self.stages.append([[seeds[one - 1], seeds[other - 1], None] for one, other in SLOTS[self.cut]])
        return self.taken()

    def play(self, stage, slot, score):
        if self.phase != PLAYOFF:
            return ["refused 22 NotPlayoff"]
        if not 1 <= stage <= len(self.stages) or not 1 <= slot <= len(self.stages[stage - 1]):
            return ["refused 12 NoSuchMatch"]
        matches = self.stages[stage - 1]
        if matches[slot - 1][2]:
            return ["refused 14 AlreadyReported"]
        if not of_playoff(score):
            return ["refused 13 BadScore"]
        matches[slot - 1][2] = score
        if is_complete(matches):
            if len(matches) == 1:
                self.phase = FINISHED
            else:
                on = [winner(match) for match in matches]
                self.stages.append([[a, b, None] for a, b in zip(on[::2], on[1::2])])
        return self.taken()


class OutOfSteps(Exception):
    """The search has made as many steps as it may."""


def earliest(order, met, steps):
    """The first pairing by the smaller partner that repeats nothing, or None. Each pair that is tried is a step."""
    if not order:
        return []
    for at in range(1, len(order)):
        if frozenset((order[0], order[at])) not in met:
            if next(steps) > MOST_STEPS:
                raise OutOfSteps
            rest = earliest(order[1:at] + order[at + 1 :], met, steps)
            if rest is not None:
                return [(order[0], order[at])] + rest
    return None
