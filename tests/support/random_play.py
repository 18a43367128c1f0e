"""Random events: small ones, of 2 to 11 players, in which pairings, results, corrections, drops and cuts come in any order, and whole
ones, of 8 to 64 players, which are played from the first round to the champion, where they have a cut and enough players for it. Every fifth of these
is a long one, of twice as many players and up to the most rounds. Others enrol at any time: in a round that is open or complete, once all rounds are
paired, and in the playoff. An event that begins in version 1 is moved to version 2 at a random place.
"""
from second_reading.plain_event import PLAYOFF, SWISS, Event
from second_reading.plain_file import MOST_ROUNDS

FEWEST_LONG, FEWEST_ROUNDS_LONG = 24, 8


def random_score(dice):
    if dice.random() < 0.8:
        return dice.choice(
            [
                (2, 0, 0),
                (2, 1, 0),
                (1, 2, 0),
                (0, 2, 0),
                (1, 1, 1),
                (1, 1, 0),
                (0, 0, 0),
                (0, 0, 3),
                (1, 0, 0),
                (2, 0, 3),
                (0, 1, 2),
            ]
        )
    return dice.randrange(4), dice.randrange(4), dice.randrange(5)


def random_playoff_score(dice):
    if dice.random() < 0.7:
        return dice.choice(
            [
                (2, 0, 0),
                (2, 1, 0),
                (1, 2, 0),
                (0, 2, 0),
                (1, 0, 3),
                (0, 1, 0),
                (3, 2, 0),
                (2, 3, 1),
                (3, 0, 3),
            ]
        )
    return dice.randrange(5), dice.randrange(5), dice.randrange(5)


class Play:
    """An event, and `sends`: what becomes of each line and of the answer that is due to it."""

    def __init__(self, sends, dice, players, rounds, cut, version):
        self.sends, self.dice, self.event = sends, dice, Event(rounds, cut, version)
        self.send(f"init\tE\t{rounds}\t{cut}", ["ok 0"])
        for number in range(1, players + 1):
            self.send(f"enrol\tP{number}", self.event.enrol(f"P{number}"))
        if dice.random() < 0.1:
            self.cut()
        self.send("start", self.event.start())

    def send(self, line, answer):
        self.sends(line, answer, self.event)
        if self.dice.random() < (0.03 if self.event.version == 1 else 0.003):
            self.sends("migrate", self.event.migrate(), self.event)

    def enrol(self):
        """Somebody comes, in most cases nobody who is there."""
        name = f"P{len(self.event.names) + 1 if self.dice.random() < 0.9 else self.dice.randint(1, len(self.event.names))}"
        self.send(f"enrol\t{name}", self.event.enrol(name))

    def any_table(self):
        return self.dice.randint(0, len(self.event.names) // 2 + 1)

    def standings(self):
        self.send("standings", self.event.standings())

    def pair(self, number):
        seed = self.dice.randbytes(32)
        self.send(f"pair\t{number}\t{seed.hex()}", self.event.pair(number, seed))
        self.send(f"slips\t{number}", self.event.slips(number))

    def report(self, is_new, number, table, score):
        verb = "result" if is_new else "correct"
        self.send(
            f"{verb}\t{number}\t{table}\t{score[0]}\t{score[1]}\t{score[2]}",
            self.event.report(number, table, score, is_new),
        )

    def drop(self):
        """Anybody, or nobody, or in some cases one of those who came late."""
        is_late = self.event.late and self.dice.random() < 0.3
        player = (
            self.dice.choice([*self.event.late])
            if is_late
            else self.dice.randint(0, len(self.event.names) + 1)
        )
        self.send(f"drop\t{player}", self.event.drop(player))

    def cut(self):
        self.send("cut", self.event.end_rounds())
        self.send("bracket", self.event.bracket())

    def playoff(self):
        """A score of a match that is open, or of any, or of none."""
        stages, dice = self.event.stages, self.dice
        is_open = [
            (stage, slot)
            for stage, matches in enumerate(stages, 1)
            for slot, match in enumerate(matches, 1)
            if not match[2]
        ]
        any_at = dice.randint(0, len(stages) + 1), dice.randint(0, self.event.cut // 2 + 1)
        stage, slot = dice.choice(is_open) if is_open and dice.random() < 0.7 else any_at
        score = random_playoff_score(dice)
        self.send(
            f"playoff\t{stage}\t{slot}\t{score[0]}\t{score[1]}\t{score[2]}",
            self.event.play(stage, slot, score),
        )
        self.send("bracket", self.event.bracket())

    def late(self):
        """A command for which it is too late once the rounds are over."""
        number, what = len(self.event.stored), self.dice.randrange(8)
        if what == 0:
            self.pair(number + self.dice.randrange(2))
        elif what in (1, 2):
            self.report(what == 1, number, 1, random_score(self.dice))
        elif what == 3:
            self.drop()
        elif what == 4:
            self.cut()
        elif what == 5:
            self.send("start", self.event.start())
        else:
            self.enrol()


def this_and_that(sends, dice, version):
    """A small event, to which one thing after another is done, in order or not."""
    play = Play(
        sends,
        dice,
        dice.randint(2, 11),
        dice.randint(1, MOST_ROUNDS[version]),
        dice.choice((0, 0, 2, 4, 8)),
        version,
    )
    for _ in range(dice.randint(1, 60)):
        what, number, is_open = dice.random(), len(play.event.stored), play.event.is_open()
        if play.event.phase != SWISS and what < 0.8:
            play.playoff()
        elif what < (0.1 if is_open else 0.6):
            play.pair(number + 1 if dice.random() < 0.95 else dice.randrange(14))
        elif what < 0.9:
            is_new = dice.random() < (0.85 if is_open else 0.2)
            number = number if is_new or dice.random() < 0.3 else dice.randint(0, number + 1)
            play.report(is_new, number, play.any_table(), random_score(dice))
        elif what < 0.94:
            play.drop()
        elif what < 0.97:
            play.enrol()
        elif what < 0.99:
            play.cut()
        else:
            play.playoff()
        if dice.random() < 0.05:
            play.enrol()
        if dice.random() < 0.7:
            play.standings()
    return play


def to_the_champion(sends, dice, version, players, rounds):
    """An event of this many players and rounds that is played from its first round to its end."""
    play = Play(sends, dice, players, rounds, dice.choice((0, 2, 4, 8, 8)), version)
    event = play.event
    for number in range(1, event.rounds + 1):
        if dice.random() < 0.15:
            play.enrol()
        play.pair(number)
        while play.event.is_open():
            tables = [table for table, (_, _, score) in enumerate(event.stored[-1], 1) if not score]
            table = dice.choice(tables) if dice.random() < 0.95 else play.any_table()
            play.report(dice.random() < 0.95, number, table, random_score(dice))
            if dice.random() < 0.02:
                play.enrol()
        if dice.random() < 0.3:
            play.drop()
        if dice.random() < 0.1:
            play.report(False, dice.randint(1, number), play.any_table(), random_score(dice))
        if dice.random() < 0.2:
            play.cut()
    while event.phase == SWISS and dice.random() < 0.5:
        play.drop()
    play.standings()
    play.cut()
    before = event.standings()
    while event.phase == PLAYOFF:
        if dice.random() < 0.9:
            play.playoff()
        else:
            play.late()
    play.send("standings", before)
    for _ in range(dice.randrange(3)):
        if dice.random() < 0.5:
            play.late()
        else:
            play.playoff()
    return play


def random_event(sends, dice, number, most=64, version=2):
    """Every second event is a whole one, of at most this many players, or twice as many where it is a long one. The event at its end is given."""
    if number % 2 == 0:
        return this_and_that(sends, dice, version).event
    if number % 10 == 7 and most >= FEWEST_LONG:
        players, rounds = dice.randint(FEWEST_LONG, 2 * most), dice.randint(
            FEWEST_ROUNDS_LONG, MOST_ROUNDS[version]
        )
    else:
        players, rounds = dice.randint(8, most), dice.randint(1, 5)
    return to_the_champion(sends, dice, version, players, rounds).event


def version_of(number):
    """The version in which a random event of a file begins: two of four in each."""
    return 1 if number % 4 in (2, 3) else 2
