"""A plain reading of the pages of `companions/bin/event-sheets`: a page as a tree, what each of its lists shows, and what they have to show of an event as the
plain reading of the rules has it. It uses nothing of the program, nor of the sheets.
"""
import copy
import html.parser
import operator
import re
import unicodedata

from second_reading.plain_event import FINISHED, is_complete, winner

VOID = {"meta", "col"}
STAGES = {1: "Final", 2: "Semifinals", 4: "Quarterfinals"}


class Node:
    def __init__(self, tag, attributes, parent):
        self.tag, self.attributes, self.parent, self.children = tag, attributes, parent, []

    def kinds(self):
        return (self.attributes.get("class") or "").split()

    def text(self):
        return "".join(it if isinstance(it, str) else it.text() for it in self.children)

    def nodes(self):
        """This one and all beneath it, in the order of the text."""
        yield self
        for it in self.children:
            if not isinstance(it, str):
                yield from it.nodes()

    def of(self, tag, kind=None):
        return [it for it in self.nodes() if it.tag == tag and (kind is None or kind in it.kinds())]

    def one(self, tag, kind):
        """The text of what there is one of."""
        found = self.of(tag, kind)
        return found[0].text() if len(found) == 1 else f"{len(found)} of {tag} {kind}"


class Page(html.parser.HTMLParser):
    """A page as a tree. Faults are noted: an end without its beginning, and what is left open."""

    def __init__(self, text):
        super().__init__(convert_charrefs=True)
        self.root = self.at = Node("", {}, None)
        self.faults = []
        self.feed(text)
        self.close()
        if self.at is not self.root:
            self.faults.append(f"{self.at.tag} is left open")

    def handle_starttag(self, tag, attributes):
        node = Node(tag, dict(attributes), self.at)
        self.at.children.append(node)
        if tag not in VOID:
            self.at = node

    def handle_startendtag(self, tag, attributes):
        self.at.children.append(Node(tag, dict(attributes), self.at))

    def handle_endtag(self, tag):
        if tag != self.at.tag:
            self.faults.append(f"{tag} ends in {self.at.tag}")
        else:
            self.at = self.at.parent

    def handle_data(self, data):
        self.at.children.append(data)

    def parts(self):
        """The parts by their kind, in their order."""
        return {it.kinds()[1]: it for it in self.root.of("section", "part")}


# ---- what a page shows


def heading(part):
    return part.one("span", "event"), part.one("span", "what")


def rows(part):
    """The cells of each row: their kind and their text."""
    for row in body_rows(part):
        yield [(it.kinds()[0], it.text()) for it in row.of("td")]


def body_rows(part):
    """In each column of the screen the headings come again."""
    return [row for body in part.of("tbody") for row in body.of("tr") if "heads" not in row.kinds()]


def shown_rows(part):
    return [tuple(text for _, text in row) for row in rows(part)]


def shown_standings(part):
    """The rows, with a D at those who have dropped; and the width of each bar, on paper."""
    found, bars = [], []
    for row in body_rows(part):
        cells = row.of("td")
        name = cells[2].of("bdi")[0].text()
        has_dropped = cells[2].text() == f"{name} dropped"
        found.append(
            (
                cells[0].text(),
                cells[1].text(),
                name,
                "D" if has_dropped else "",
                *(it.text() for it in cells[3:]),
            )
        )
        bars.append(tuple(bar.attributes["width"] for it in cells[5:] for bar in it.of("rect", "filled")))
    return found, bars


def last_in(part):
    """The numbers of the players beneath whom there is a line."""
    return [row.of("td")[1].text() for row in body_rows(part) if "last-in" in row.kinds()]


def shown_slips(part):
    found = []
    for it in part.of("article", "slip"):
        players = [(line.one("span", "no"), line.one("span", "name")) for line in it.of("div", "who")]
        boxes = [len(it.of("span", kind)) for kind in ("box", "won", "drawn", "drop", "signature")]
        found.append(
            (it.one("span", "event"), it.one("span", "round"), it.one("span", "table"), *players, boxes)
        )
    return found


def shown_bracket(part):
    """The headings of the stages, the players in their boxes and who of them is through, and how many boxes there are."""
    seats = [
        (it.one("span", "name"), it.one("span", "games"), "through" in it.kinds())
        for it in part.of("div", "seat")
    ]
    return (
        [it.text() for it in part.of("text", "stage")],
        seats,
        len(part.of("rect", "match")),
        [it.text() for it in part.of("text", "even")],
    )


# ---- what it has to show


def record_due(event, player, number=None):
    """Matches won, lost and drawn in the complete rounds, or in those before a round. A round that was missed is lost."""
    before = copy.copy(event)
    before.stored = event.stored if number is None else event.stored[: number - 1]
    found = [
        sum(is_so(x, y) for _, (x, y, _) in before.played(player))
        for is_so in (operator.gt, operator.lt, operator.eq)
    ]
    return f"{found[0]}-{found[1] + before.missed(player)}-{found[2]}"


def table_rows(event, number):
    """Number, name and record of both, and once a round is complete their points."""
    before = copy.copy(event)
    before.stored = event.stored[: number - 1]

    def seat(player):
        points = [str(before.points(player)) if player else ""] if rounds_counted(before) else []
        return (str(player), with_record(event, player, number), *points) if player else ("", "", *points)

    for place, (a, b, score) in enumerate(event.stored[number - 1], 1):
        yield (str(place) if b else "bye", *seat(a), *seat(b), "-".join(map(str, score)) if score else "")


def with_record(event, player, number, name=None):
    """A name in the pairings of a round."""
    name = event.names[player - 1] if name is None else name
    return (
        f"{name} {record_due(event, player, number)}"
        if any(map(is_complete, event.stored[: number - 1]))
        else name
    )


# what Unicode calls letters that are no letter with a mark, and how they are typed
CALLED = {
    "AE": "ae",
    "OE": "oe",
    "SHARP S": "ss",
    "THORN": "th",
    "ETH": "d",
    "AFRICAN D": "d",
    "ENG": "ng",
    "KRA": "k",
    "DOTLESS I": "i",
    "SCHWA": "e",
    "TURNED E": "e",
    "REVERSED E": "e",
    "OPEN E": "e",
    "OPEN O": "o",
    "GAMMA": "g",
    "U BAR": "u",
}
UNTYPED = re.compile(
    "APOSTROPHE|SINGLE (HIGH-REVERSED-9 )?(LEFT |RIGHT )?QUOTATION MARK|PRIME|(GRAVE|ACUTE) ACCENT|TURNED COMMA|REVERSED COMMA|HALF RING|MIDDLE DOT"
)


def folded_letter(letter):
    """By what Unicode calls it: LATIN CAPITAL LETTER L WITH STROKE is an l, an apostrophe is nothing."""
    called, category = unicodedata.name(letter, ""), unicodedata.category(letter)
    found = re.fullmatch("LATIN (?:SMALL|CAPITAL) (?:LETTER|LIGATURE) (.+?)(?: WITH .+)?", called)
    if found and (len(found[1]) == 1 or found[1] in CALLED):
        return CALLED.get(found[1], found[1].lower())
    is_sign = category not in ("Ll", "Lu") and UNTYPED.search(called)
    if is_sign or called == "MINUS SIGN" or category in ("Pd", "Cf"):
        return ""
    return letter


def folded(name):
    """Letter by letter, and with one space between words."""
    without = "".join(map(folded_letter, name))
    apart = "".join(map(folded_letter, unicodedata.normalize("NFKD", without)))
    return " ".join("".join(it for it in apart if not unicodedata.combining(it)).casefold().split())


def parted(name, last=""):
    """The part that leads in a list by last name, and the one that follows: by a comma, by the last name where that is known, or the last word if it has
    a letter. What stands in parentheses at the end follows.
    """
    whole, beside = name, ""
    if name.endswith(")") and "(" in name:
        at = name.rindex("(")
        inside, before = name[at + 1 : -1], name[:at]
        if ")" not in inside and before.rstrip() and before != before.rstrip():
            whole, beside = before.rstrip(), " " + name[at:]
    if last and whole.endswith(" " + last):
        return last, whole[: len(whole) - len(last)].rstrip() + beside
    if last and whole.startswith(last + " "):
        return last, whole[len(last) :].lstrip() + beside
    halves = whole.split(",")
    if (
        len(halves) == 2
        and halves[0].strip()
        and halves[0] == halves[0].rstrip()
        and halves[1].strip()
        and halves[1] != halves[1].lstrip()
        and halves[1] == halves[1].rstrip()
    ):
        return halves[0], halves[1].strip() + beside
    words = whole.split()
    if len(words) > 1 and whole.endswith(words[-1]) and any(letter.isalpha() for letter in words[-1]):
        return words[-1], whole[: len(whole) - len(words[-1])].rstrip() + beside
    return name, ""


def in_order(names, by_first=False):
    """Of numbers and names: the letter where it changes, the name as it is listed, and the number."""
    parts = {number: (name, "") if by_first else parted(name) for number, name in names}
    found, letter = [], ""
    for number in sorted(parts, key=lambda it: (*map(folded, parts[it]), *parts[it])):
        leads, follows = parts[number]
        own = folded(leads)[:1].upper()
        found.append((own if own != letter else "", f"{leads}, {follows}" if follows else leads, number))
        letter = own
    return found


def player_rows(event, by_first=False):
    return [
        (letter, name, str(number)) for letter, name, number in in_order(enumerate(event.names, 1), by_first)
    ]


def name_rows(event, number, by_first=False):
    """A row for each who sits in the round, by name."""
    seats = {}
    for place, (a, b, _) in enumerate(event.stored[number - 1], 1):
        for one, other in ((a, b), (b, a)):
            if one:
                seats[one] = str(place) if b else "bye", with_record(event, other, number) if other else ""
    names = [(it, event.names[it - 1]) for it in seats]
    return [
        (letter, with_record(event, it, number, name), str(it), *seats[it])
        for letter, name, it in in_order(names, by_first)
    ]


def in_stack(slips, a_sheet=5):
    """The slips as they stand on paper, five a sheet: where the sheets are cut as one stack, the first pile has the first slips, and so on."""
    sheets = -(-len(slips) // a_sheet)
    piles = [slips[at : at + sheets] for at in range(0, len(slips), sheets)] if slips else []
    return [pile[sheet] for sheet in range(sheets) for pile in piles if sheet < len(pile)]


def slips_due(event, number, title):
    """A slip for each match that has no score: games won twice, drawn once, two drops, two signatures."""
    matches = [
        (f"Round {number}", f"Table {place}", match)
        for place, match in enumerate(event.stored[number - 1] if number else [], 1)
    ]
    for stage, slots in enumerate(event.stages, 1):
        name = ("Final", "Semifinal", "Quarterfinal")[len(event.stages[0]).bit_length() - stage]
        matches += [
            ("Playoff", name if name == "Final" else f"{name} {slot}", match)
            for slot, match in enumerate(slots, 1)
        ]
    players = lambda it: [(str(number), event.names[number - 1]) for number in it[:2]]
    return in_stack(
        [
            (title, where, table, *players(match), [5, 3, 1, 2, 2])
            for where, table, match in matches
            if not match[2]
        ]
    )


def seat_rows(event):
    """Two at a table, by name."""
    return [(*row, str(place // 2 + 1)) for place, row in enumerate(player_rows(event))]


def standings_due(event):
    """The plain reading's text by its columns."""
    lines = event.standings()[1:]
    return [
        (
            it[:4].strip(),
            it[5:9].strip(),
            it[37:],
            it[35].strip(),
            it[10:13].strip(),
            it[14:20].strip(),
            it[21:27].strip(),
            it[28:34].strip(),
        )
        for it in lines
    ]


def ranks_due(event):
    """The same with the record before the points, of each player who has sat at a table, once a round is complete."""
    sat = (
        {player for matches in event.stored for match in matches for player in match[:2]}
        if rounds_counted(event)
        else set()
    )
    return [
        (*row[:4], record_due(event, int(row[1])) if int(row[1]) in sat else "", *row[4:])
        for row in standings_due(event)
    ]


def last_in_due(event):
    """The last one who goes on to the playoff as the standings are, or who went on: nobody if all do."""
    ranked = [int(row[1]) for row in standings_due(event)]
    if event.stages:
        there = {player for match in event.stages[0] for player in match[:2]}
        return [str([it for it in ranked if it in there][-1])]
    active = [it for it in ranked if it not in event.dropped]
    return [str(active[event.cut - 1])] if 0 < event.cut < len(active) else []


def spans(numbers):
    """Numbers that follow on each other, three or more, as the first and the last."""
    text = ""
    for number in numbers:
        text += f", {number}" if number - 1 not in numbers or not text else f" {number}"
    runs = [run.split() for run in text[2:].split(", ")]
    return ", ".join(f"{run[0]}-{run[-1]}" if len(run) > 2 else ", ".join(run) for run in runs)


def foot_due(event):
    """What stands beneath a board in the rounds: how many tables have finished, which still play, and what comes next."""
    if not event.stored or event.stages:
        return []
    number, tables = len(event.stored), [
        (place, score) for place, (_, second, score) in enumerate(event.stored[-1], 1) if second
    ]
    still = [place for place, score in tables if not score]
    done = len(tables) - len(still)
    playing = (
        f"Tables finished: {done} of {len(tables)}. Still playing: {spans(still)}"
        if still
        else "All scores are in."
    )
    last = f"Next: the playoff of the first {event.cut}" if event.cut else "This is the last round."
    playing = playing if len(still) <= 30 else playing[: playing.index(" Still")]
    return [playing, f"Next: round {number + 1} of {event.rounds}" if number < event.rounds else last]


def shown_foot(root):
    return [
        it.text()
        for foot in root.of("footer", "foot")
        for kind in ("playing", "next")
        for it in foot.of("p", kind)
    ]


def bracket_due(event):
    first = len(event.stages[0])
    sizes = [first >> it for it in range(first.bit_length())]
    seats = []
    even = []
    for matches in event.stages:
        for match in matches:
            a, b, score = match
            games = score or ("", "", 0)
            seats += [
                (event.names[one - 1], str(count), bool(score) and one == winner(match))
                for one, count in zip((a, b), games)
            ]
            even += [f"{games[2]} drawn"] if games[2] else []
    if len(event.stages) < len(sizes):
        # who has won stands in the next stage at once
        through = [winner(match) for match in event.stages[-1] if match[2]]
        seats += [(event.names[one - 1], "", False) for one in through]
    stages = [STAGES[it] for it in sizes]
    champion = event.bracket()[-1]
    if champion.startswith("Champion "):
        number = int(champion.split()[1])
        seats.append((event.names[number - 1], "", False))
        stages.append("Champion")
    return stages, seats, sum(sizes) + len(stages) - len(sizes), even


def final_due(event):
    """The last standing first. Who went out in one stage shares a rank; of the others, those share one whom the standings rank so."""
    beaten = [
        [a if winner(match) == b else b for match in matches for a, b in [match[:2]]]
        for matches in event.stages
    ]
    merits = event.merits()
    tied = {}
    for it in merits:
        if not any(it in match[:2] for match in event.stages[0]):
            tied.setdefault(merits[it], []).append(it)
    found = []
    for group in [[winner(event.stages[-1][0])], *beaten[::-1], *tied.values()]:
        rank = 1 + len(found)
        found += [(str(rank), str(it), event.names[it - 1]) for it in merits if it in group]
    return found


def final_rows(event):
    """The same with the record and the points of the rounds."""
    sat = {player for matches in event.stored for match in matches for player in match[:2]}
    return [
        (*row, record_due(event, int(row[1])) if int(row[1]) in sat else "", str(event.points(int(row[1]))))
        for row in final_due(event)
    ]


def champion_due(event):
    """Who has won the final, and how."""
    final = event.stages[-1][0]
    number = winner(final)
    x, y, d = final[2]
    won, lost = max(x, y), min(x, y)
    other = event.names[(final[1] if final[0] == number else final[0]) - 1]
    return event.names[number - 1], f"won the final {won}-{lost}{f'-{d}' if d else ''} against {other}"


def shown_champion(part):
    return part.one("p", "name"), part.one("p", "how")


def rounds_counted(event):
    return sum(all(score for _, _, score in matches) for matches in event.stored)


def parts_due(event, number, is_board=False, names_a_round=False):
    """The parts of a page, in their order. On paper there are no standings before a round is complete, and in the playoff no tables of the last round,
    unless a round is named.
    """
    if is_board and event.phase == FINISHED:
        return ["champion", "bracket", "final"]
    if is_board and event.stages:
        return ["bracket", "standings"]
    due = []
    if not event.stored:
        due.append("players")
    if number and (is_board or not event.stages or names_a_round):
        due += ["names", "tables"] if is_board else ["tables", "names"]
    if not is_board and slips_due(event, number, ""):
        due.append("slips")
    if event.stored and rounds_counted(event):
        due.append("standings")
    if event.stages:
        due.append("bracket")
    if event.phase == FINISHED:
        due.append("final")
    return due
