"""A plain reading of drawn rounds (docs/RULES.md, The draw): what a text of a round has to be, to the byte, and what the texts of an evening come to one
after the other. It is written from the documents, and uses nothing of the companions that write texts.
"""
import copy
import hashlib
import itertools

from second_reading.plain_csv import Fault, names_of, number, players_rows, records, results_rows, written
from second_reading.plain_event import SWISS, Event

FIRST_LINE, FIRST = b"event_reporter draw 2", "0" * 64
HEAD = ("round", "drawing", "after", "mark", "number", "by", "instead", "key")
HEADING = ["round", "table", "a", "b", "x", "y", "d"]
MOST_ROUNDS, MOST_DRAWINGS = 12, 9999
# what a line of a report begins with: it follows, it does not, it is worth knowing, and nobody here can know it
RIGHT, WRONG, TOLD, ASK = "right", "WRONG", "told", "is that so?"


class NoText(Exception):
    """It is no text of a round, and this is why."""


def need(is_so, why):
    if not is_so:
        raise NoText(why)


def sha256(data):
    return hashlib.sha256(data).hexdigest()


# ---- numbers and keys


def whole(word, most):
    """The number of a word without a leading zero, from 1 to the most; or None."""
    is_one = word.isascii() and word.isdigit() and not word.startswith("0") and len(word) <= len(str(most))
    return int(word) if is_one and int(word) <= most else None


def is_number(text):
    values = [whole(word, 999_999) for word in text.split(" ")]
    return len(values) <= 20 and None not in values and values == sorted(values)


def key_of(number_of_round, drawn):
    return sha256(f"event_reporter draw 2\nround {number_of_round}\nnumber {drawn}\n".encode("ascii"))


def is_digits(text):
    return len(text) == 64 and set(text) <= set("0123456789abcdef")


def is_by_rule(rule, drawn):
    """Whether a number is one by the rule of the evening: each 4d20, once 4d20, each papers."""
    values = [int(word) for word in drawn.split(" ")]
    what = rule.partition(" ")[2]
    if what == "papers":
        return len(values) >= 2 and max(values) <= 9999
    dice, _, sides = what.partition("d")
    return len(values) >= int(dice) and max(values) <= int(sides)


# ---- the event that two lists stand for


def match_of(row, players):
    """A row of the results, or of the tables of a text: round, table, first, second or 0, and the score or None."""
    need(len(row) == 7, "a row of results has another length")
    numbers = [number(it) for it in row[:4]]
    score = None if row[4:] == [b"", b"", b""] else tuple(number(it) for it in row[4:])
    need(None not in numbers and not (score and None in score), "a row of results has no numbers")
    need(1 <= numbers[2] <= players and 0 <= numbers[3] <= players, "a row of results has no such player")
    return (*numbers, score)


def event_of(players, results):
    """The event as far as `export` lists it. Who came late is told by the first round in which they sit."""
    try:
        names = names_of(players)
        dropped = {int(row[0]) for row in records(players)[1:] if row[2:] == [b"1"]}
        heading, *rows = records(results) or [None]
    except (Fault, ValueError, IndexError) as fault:
        raise NoText(f"its players are no list: {fault}") from None
    need(heading == [it.encode() for it in HEADING], "its results have another heading")
    event = Event(MOST_ROUNDS, 0)
    event.names, event.dropped, event.phase = names, dropped, SWISS
    for row in rows:
        round_number, _, a, b, score = match_of(row, len(names))
        need(
            round_number >= 1 and round_number in (len(event.stored), len(event.stored) + 1),
            "its rounds are not in their order",
        )
        if round_number > len(event.stored):
            event.stored.append([])
        event.stored[-1].append([a, b, score])
    sat = {}
    for at, matches in enumerate(event.stored):
        for match in matches:
            for player in match[:2]:
                sat.setdefault(player, at)
    event.late = {player: at for player, at in sat.items() if player and at}
    need(written(players_rows(event)) == players, "its players are not written as `export` writes them")
    need(written(results_rows(event)) == results, "its results are not written as `export` writes them")
    return event


def due(event, key):
    """The tables of the next round by a key, as [first, second or 0]; None if there are none."""
    paired = copy.deepcopy(event)
    is_paired = paired.pair(len(event.stored) + 1, key)[0].startswith("ok ")
    return [match[:2] for match in paired.stored[-1]] if is_paired else None


def tables_due(event, round_number, pairs):
    """The bytes of `drawn.csv` for these tables."""
    drawn = [
        [str(round_number), str(place), str(a), str(b), "", "", ""]
        if b
        else [str(round_number), "0", str(a), "0", "2", "0", "0"]
        for place, (a, b) in enumerate(pairs, 1)
    ]
    return written([HEADING, *drawn])


# ---- a text


class Text:
    """The lines of the head by their names, and the three lists."""

    def __init__(self, data):
        self.data, self.sum = data, sha256(data)
        need(data.endswith(b"\n"), "it has no end")
        lines = data.split(b"\n")[:-1]
        need(lines[:1] == [FIRST_LINE], "it does not begin as one")
        head = {}
        for name, line in itertools.zip_longest(HEAD, lines[1:9]):
            need(
                line is not None and line.startswith(f"{name} ".encode()),
                f"it has no line `{name}` in its place",
            )
            need(all(byte < 128 for byte in line), f"its line `{name}` is not in plain letters")
            head[name] = line.decode()[len(name) + 1 :]
        self.round, self.drawing = whole(head["round"], MOST_ROUNDS), whole(head["drawing"], MOST_DRAWINGS)
        need(self.round and self.drawing, "its round or drawing is no number")
        self.after, self.mark, self.key = head["after"], head["mark"], head["key"]
        need(all(map(is_digits, (self.after, self.mark, self.key))), "what should be 64 digits is not")
        self.number, self.by, self.instead = head["number"], head["by"], head["instead"]
        need(self.number == "-" or is_number(self.number), "its number is none")
        self.mistyped = [] if self.instead == "-" else self.instead.split("; ")
        need(all(map(is_number, self.mistyped)), "a number in its line `instead` is none")
        throwers = [] if self.by == "-" else [whole(word, 512) for word in self.by.split(" ")]
        need(
            None not in throwers and throwers == sorted(set(throwers)), "its throwers are not in their order"
        )
        self.cut(lines[9:])
        need(all(it <= len(self.event.names) for it in throwers), "one who threw is no player")

    def cut(self, lines):
        """The lists below the head, each from its name to the next one."""
        need(
            lines[:1] == [b"players.csv"] and lines[-1:] == [b"end"] and b"results.csv" in lines,
            "it has not its three lists",
        )
        one = lines.index(b"results.csv")
        need(b"drawn.csv" in lines[one:], "it has not its three lists")
        other = lines.index(b"drawn.csv", one)
        joined = lambda rows: b"".join(row + b"\n" for row in rows)
        self.players, self.results, self.tables = (
            joined(lines[1:one]),
            joined(lines[one + 1 : other]),
            joined(lines[other + 1 : -1]),
        )
        self.event = event_of(self.players, self.results)
        need(len(self.event.stored) == self.round - 1, "its results are not those of the rounds before")
        need(
            all(score for matches in self.event.stored for _, _, score in matches),
            "a table of an earlier round has no score",
        )
        heading, *rows = records(self.tables) or [None]
        need(heading == [it.encode() for it in HEADING] and rows, "its tables are no list")
        self.seats = [[a, b] for _, _, a, b, _ in (match_of(row, len(self.event.names)) for row in rows)]
        need(
            tables_due(self.event, self.round, self.seats) == self.tables,
            "its tables are not written as such",
        )

    @property
    def named(self):
        return f"round {self.round}, drawing {self.drawing}"

    @property
    def is_drawn(self):
        return self.number != "-"


def read_of(text):
    """What follows from a text alone."""
    is_marked = sha256(text.players + text.results) == text.mark
    yield (
        RIGHT if is_marked else WRONG
    ), f"its lists {'are' if is_marked else 'are not'} those of its mark, {text.mark[:16]}"
    if text.is_drawn:
        is_key = key_of(text.round, text.number) == text.key
        yield (
            RIGHT if is_key else WRONG
        ), f"its key {'follows' if is_key else 'does not follow'} from round {text.round} and the number {text.number}"
    else:
        yield TOLD, "KEY CHOSEN BY THE SCOREKEEPER: no number was drawn" + (
            f", in place of {text.instead}" if text.mistyped else ""
        )
    pairs = due(text.event, bytes.fromhex(text.key))
    is_due = pairs == text.seats
    yield (
        RIGHT if is_due else WRONG
    ), f"its tables {'are' if is_due else 'are not'} those that the rules give to its lists by its key"
    if text.is_drawn:
        threw = "" if text.by == "-" else f" by {text.by}"
        yield ASK, f"{text.number} was thrown{threw}. Whoever was there knows"
        if text.mistyped:
            yield ASK, f"{text.instead} was mistyped, and never thrown for this round"


# ---- the texts of an evening


def in_order(texts):
    """As they follow on each other; where they don't, by round and drawing."""
    left = sorted({text.sum: text for text in texts}.values(), key=lambda it: (it.round, it.drawing))
    sums, found = {it.sum for it in left}, []
    while left:
        begins = [it for it in left if it.after not in sums] or left[:1]
        text = begins[0]
        while text:
            found.append(text)
            left.remove(text)
            text = next((it for it in left if it.after == found[-1].sum), None)
    return found


def read_chain(texts, is_whole):
    """Whether each text follows on the one before it. Of texts that are not all of an event, the first may follow on one that isn't here."""
    before = None
    for text in texts:
        is_beginning = before is None and text.after == FIRST
        if is_beginning or (before and text.after == before.sum):
            yield text, RIGHT, "it is the first text" if is_beginning else f"it follows on the text before it, {before.named}"
        elif before is None and not is_whole:
            yield text, TOLD, f"it follows on a text that is not here, {text.after[:16]}"
        else:
            yield text, WRONG, f"it does not follow on the text before it{f', {before.named}' if before else ''}: a text was changed, or left out"
        before = text


def players_between(old, new):
    """What has changed of the players between two lists."""
    for it in new.numbers():
        if it > len(old.names):
            yield f"player {it} came" + (", and dropped" if it in new.dropped else "")
        elif old.names[it - 1] != new.names[it - 1]:
            yield f"player {it} has another name"
        elif (it in old.dropped) != (it in new.dropped):
            yield f"player {it} {'dropped' if it in new.dropped else 'is in again'}"
    if len(old.names) > len(new.names):
        yield f"players {len(new.names) + 1} to {len(old.names)} are gone"


def scores_between(old, new):
    """What has changed of the rounds that both lists have."""
    for at, (one, other) in enumerate(zip(old.stored, new.stored), 1):
        if [it[:2] for it in one] != [it[:2] for it in other]:
            yield f"round {at} has other tables"
            continue
        for place, (before, after) in enumerate(zip(one, other), 1):
            if before[2] != after[2]:
                yield f"round {at}, table {place if before[1] else 0}: {shown(before[2])} became {shown(after[2])}"


def shown(score):
    return "-".join(map(str, score)) if score else "no score"


def read_drawings(texts, shut):
    """What differs between the drawings of a round. `shut` are lists that were shut, by round and drawing: (players, results)."""
    lists = {**shut, **{(it.round, it.drawing): (it.players, it.results) for it in texts}}
    for text in texts:
        same = [it for it in texts if it is not text and (it.round, it.drawing) == (text.round, text.drawing)]
        if same:
            yield text, WRONG, f"there is another text of {text.named}"
        if text.drawing == 1:
            continue
        yield text, TOLD, f"the lists were shut {text.drawing} times"
        before = lists.get((text.round, text.drawing - 1))
        if before is None:
            yield text, TOLD, f"drawing {text.drawing - 1} is not here, so what differs from it can't be told"
            continue
        old, differs = event_of(*before), []
        differs = [*players_between(old, text.event), *scores_between(old, text.event)]
        yield text, TOLD, f"since drawing {text.drawing - 1} " + (
            "; ".join(differs) if differs else "nothing has changed in its lists"
        )


def read_numbers(texts):
    """A round has one number for good. Another one says what it is in place of."""
    had = {}
    for text in texts:
        before = had.get(text.round)
        if before and text.is_drawn and text.number != before and before not in text.mistyped:
            yield text, WRONG, f"an earlier drawing of round {text.round} had the number {before}, and a number is for good"
        if text.is_drawn:
            had[text.round] = text.number


def read_play(texts):
    """Whether the rounds were played at the tables that were drawn, and which scores were corrected since."""
    drawn = {}
    for text in texts:
        for at, matches in enumerate(text.event.stored, 1):
            known = drawn.get(at, [])
            if known and [match[:2] for match in matches] not in known:
                yield text, WRONG, f"round {at} was not played at the tables that were drawn"
        drawn.setdefault(text.round, []).append(text.seats)
    last = {}
    for text in texts:
        earlier = last.get(text.round - 1)
        if earlier:
            for told in scores_between(earlier.event, text.event):
                yield text, TOLD, f"since round {earlier.round} was drawn, {told}"
        last[text.round] = text


def report(texts, is_whole=False, shut=None):
    """For each text in its order what is to be said of it: (what it begins with, the words)."""
    texts = in_order(texts)
    said = {id(text): [] for text in texts}
    for text, kind, words in read_chain(texts, is_whole):
        said[id(text)].append((kind, words))
    for text in texts:
        said[id(text)] += read_of(text)
    for text, kind, words in (*read_drawings(texts, shut or {}), *read_numbers(texts), *read_play(texts)):
        said[id(text)].append((kind, words))
    return [(text, said[id(text)]) for text in texts]
