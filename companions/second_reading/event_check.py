"""The command `event-check`: checks an event by a second reading of the rules (docs/RULES.md), and never by the program. It takes an event's file with what
lies beside it, the texts of drawn rounds, or what `export` prints with the keys.
"""
import argparse
import contextlib
import fcntl
import os
import re
import shutil
import sqlite3
import sys
import tempfile
import textwrap

from second_reading import plain_draw
from second_reading.plain_check import AS_THE_RULES, keys_of, results_of, verdicts
from second_reading.plain_csv import Fault, names_of, records, results_rows
from second_reading.plain_draw import ASK, RIGHT, TOLD, WRONG, NoText, Text, event_of
from second_reading.plain_event import printed
from second_reading.plain_file import Damaged, NoEvent
from second_reading.plain_file import read as read_tables

COMMAND = "event-check"
PURPOSE = "checks an event of event_reporter by a second reading of the rules"
HELP = """\
Checks an event without asking the program: by a second reading of the rules, in
another language. Of each drawn round it says whether key and tables follow from
the number and the lists, whether a text was changed or left out, and what
differs between two drawings; of the standings, whether they are those of the
rules. What it can't know it asks: was this number thrown?
"""
EXAMPLES = """\
what may be checked:
  an event's file, with FILE.draws and FILE.keys beside it; or the folder
  of a copy that has them
  texts of drawn rounds, as FILE.draws, the board or /draw/3 of the phones
  has them
  players and results as `export` prints them, with FILE.keys
  standings as the program prints them or `export standings` writes them,
  with the event or with its players and results

examples:
  event-check friday.event
  event-check round-1-1.txt round-2-1.txt
  event-check friday.event standings.txt --who 12
      with the working behind the tiebreakers of player 12
  event-check players.csv results.csv friday.event.keys

exit status:
  0  nothing is wrong
  1  something is WRONG, or a round is not as its key gives it
  2  the words are not understood, or a file can't be read
"""
DATABASE = b"SQLite format 3\0"
SHUT = re.compile(r"round-([1-9][0-9]?)-([1-9][0-9]{0,3})\.shut")
KEPT = re.compile(r"round ([1-9][0-9]?) ([0-9]+(?: [0-9]+)*)(?: by [0-9 ]+)?")
# once the draw was ended, by which rule rounds were drawn until then; earlier files have `off` alone
ENDED = "off after "
RULE = re.compile(rf"(?:{ENDED})?(?:(?:each|once) [1-9][0-9]?d[1-9][0-9]{{0,5}}|each papers)|off")
CHOSEN = "KEY CHOSEN BY THE SCOREKEEPER: it has no text"


def read(path):
    with open(path, "rb") as it:
        return it.read()


def kind_of(data):
    """What bytes are, by how they begin. What is nothing else ought to be a text of a round."""
    if data.startswith(DATABASE):
        return "event"
    first = data.split(b"\n")[0].strip(b"\xef\xbb\xbf\r")
    headings = {
        b"no,name,dropped": "players",
        b"round,table,a,b,x,y,d": "results",
        b"rank,no,points,omw,gwp,ogw,dropped,name": "standings",
    }
    if first in headings:
        return headings[first]
    if first.split() == [b"Rank", b"No", b"Pts", b"OMW", b"GWP", b"OGW", b"D", b"Name"]:
        return "standings"
    return "keys" if re.match(rb"round \d+ [0-9A-Fa-f]{64}( unused)?\s*$", data.split(b"\n")[0]) else "text"


# ---- an event in a file


@contextlib.contextmanager
def copied(file):
    """A copy of the file and its log, in whose folder nothing of the event is touched. The turn of the companions is held meanwhile."""
    with tempfile.TemporaryDirectory() as room, contextlib.ExitStack() as stack:
        if os.path.exists(f"{file}.turn"):
            turn = stack.enter_context(open(f"{file}.turn", "rb"))
            with contextlib.suppress(OSError):
                fcntl.flock(turn, fcntl.LOCK_SH)
        for log in ("-wal", ""):
            if os.path.exists(file + log):
                shutil.copyfile(file + log, f"{room}/copy.event{log}")
        yield f"{room}/copy.event"


def event_in(file):
    try:
        with copied(file) as copy:
            return read_tables(copy)
    except NoEvent:
        raise Fault("there is no event in it") from None
    except (Damaged, sqlite3.Error) as fault:
        raise Fault(f"it holds what no event can be: {fault}") from None


# ---- FILE.draws


def draws_in(folder):
    """The texts with the names of their files, what is none, the lists that were shut, the numbers, and the rule."""
    texts, wrong, shut, numbers, rule = [], [], {}, {}, ""
    for name in sorted(os.listdir(folder)):
        path = f"{folder}/{name}"
        found = SHUT.fullmatch(name)
        if name.endswith(".txt"):
            try:
                texts.append((name, Text(read(path))))
                if name != f"round-{texts[-1][1].round}-{texts[-1][1].drawing}.txt":
                    wrong.append((name, f"it is the text of {texts[-1][1].named}, under another name"))
            except NoText as fault:
                wrong.append((name, f"no text of a round: {fault}"))
        elif found:
            players, cut, results = read(path).partition(b"\nresults.csv\n")
            lists = (players[len(b"players.csv\n") :] + b"\n", results)
            try:
                event_of(*lists)
                shut[int(found[1]), int(found[2])] = lists
            except NoText as fault:
                wrong.append((name, f"no lists that were shut: {fault}"))
        elif name == "rule":
            rule = read(path).decode("ascii", "replace").rstrip("\n")
        elif name == "numbers":
            for line in filter(
                None, map(KEPT.fullmatch, read(path).decode("ascii", "replace").split("\n")[:-1])
            ):
                numbers.setdefault(int(line[1]), []).append(line[2])
    return texts, wrong, shut, numbers, rule


def read_kept(text, numbers, rule):
    """What the folder says of a text besides: the number that was kept, and the rule of the evening."""
    made_by = rule.replace(ENDED, "", 1)
    kept = numbers.get(1 if made_by.startswith("once") else text.round, [])
    if text.is_drawn and text.number not in kept:
        yield WRONG, f"the number {text.number} was not kept before the key was made"
    if (
        text.is_drawn
        and RULE.fullmatch(rule)
        and rule != "off"
        and not plain_draw.is_by_rule(made_by, text.number)
    ):
        yield WRONG, f"the number {text.number} is none by the rule of the evening, {made_by}"
    passed_over = (
        [it for it in kept[: kept.index(text.number)] if it not in text.mistyped]
        if text.number in kept
        else []
    )
    if passed_over:
        yield WRONG, f"an earlier number of the round is not told: {'; '.join(passed_over)}"


class Report:
    """What is said, and what it comes to: how much was checked, what was wrong, what can't be told, and how much is asked of those who were there."""

    def __init__(self):
        self.status, self.asked, self.at = 0, 0, ""
        self.checked, self.wrong_at, self.unsure_at = {}, [], []

    def count(self, one, many, number=1):
        self.checked[one, many] = self.checked.get((one, many), 0) + number

    def head(self, words, at=None):
        """What the next lines are about, and the short name that the end has for it."""
        self.at = at or words
        print(words)

    def say(self, kind, words):
        if kind == WRONG:
            self.status = 1
            self.note(self.wrong_at)
        self.asked += kind == ASK
        print(f"  {kind}: {words}")

    def note(self, places):
        if self.at not in places:
            places.append(self.at)

    def end(self):
        """The last lines."""
        what = ", ".join(
            f"{number} {one if number == 1 else many}" for (one, many), number in self.checked.items()
        )
        found = [f"WRONG: {'; '.join(self.wrong_at)}. See there."] * bool(self.wrong_at)
        found += [f"Not shown to be right: {'; '.join(self.unsure_at)}. See there."] * bool(self.unsure_at)
        told = " ".join([f"Checked: {what or 'nothing'}.", *(found or ["Nothing is wrong."])])
        print(textwrap.fill(told, 79, break_long_words=False, break_on_hyphens=False))
        if self.asked:
            print(
                f"{self.asked} question{'' if self.asked == 1 else 's'} to those who were there: is that so?"
            )

    def texts(self, texts, is_whole=False, shut=None, kept=None, rule=""):
        """Texts with the names of their files."""
        names = {text.sum: name for name, text in texts}
        for text, said in plain_draw.report([text for _, text in texts], is_whole, shut):
            self.count("text of a round", "texts of rounds")
            self.head(f"{text.named} ({names[text.sum]}), text {text.sum[:16]}", text.named)
            for kind, words in (*said, *(read_kept(text, kept, rule) if kept is not None else ())):
                self.say(kind, words)

    def wrong(self, name, words):
        self.head(name)
        self.say(WRONG, words)


def check_event(report, file, name=None):
    """An event's file, and what lies beside it. What is asked of the event besides is asked of what this gives."""
    try:
        event = event_in(file)
    except Fault as fault:
        report.wrong(name or file, str(fault))
        return None
    texts = []
    if os.path.isdir(f"{file}.draws"):
        texts = check_draws(report, f"{file}.draws")
    keys = keys_of(read(f"{file}.keys").decode("utf-8", "replace")) if os.path.exists(f"{file}.keys") else {}
    results = [
        (int(row[0]), int(row[1]), int(row[2]), int(row[3]), tuple(map(int, row[4:])) if row[4] else None)
        for row in results_rows(event)[1:]
    ]
    lines = verdicts(results, keys)
    report.count("round in the event", "rounds in the event", len(event.stored))
    for number, matches in enumerate(event.stored, 1):
        seats = [match[:2] for match in matches]
        of_round = [text for text in texts if text.round == number]
        if any(text.seats == seats for text in of_round):
            newest = [text for text in of_round if text.seats == seats][-1]
            report.head(f"round {number} in the event")
            report.say(RIGHT, f"it has the tables of {newest.named}")
        elif of_round and os.path.isdir(f"{file}.draws"):
            report.wrong(f"round {number} in the event", "its tables are those of none of its texts")
        else:
            report.head(f"round {number} in the event")
            report.say(TOLD, CHOSEN)
            is_right = lines[number - 1].endswith(AS_THE_RULES)
            report.say(RIGHT if is_right else TOLD, lines[number - 1].partition(": ")[2])
            if not is_right:
                report.note(report.unsure_at)
    return event


def check_draws(report, folder):
    """FILE.draws as a whole. Its texts."""
    texts, wrong, shut, numbers, rule = draws_in(folder)
    for name, words in wrong:
        report.wrong(name, words)
    if rule and not RULE.fullmatch(rule):
        report.wrong("rule", f"no rule of an evening: {rule[:40]!r}")
    report.texts(texts, True, shut, numbers, rule)
    return [text for _, text in texts]


# ---- standings, and the working behind them


def rows_printed(data):
    """The standings as they were printed or exported: rank, number, points, and the three percentages."""
    if data.startswith(b"rank,"):
        return [tuple(cell.decode() for cell in row[:6]) for row in records(data)[1:]]
    return [tuple(line.split()[:6]) for line in data.decode("utf-8", "replace").split("\n")[1:] if line]


def rows_due(event):
    return [tuple(line.split()[:6]) for line in event.standings()[1:]]


def check_standings(report, name, data, event):
    said, rules = rows_printed(data), rows_due(event)
    report.count("list of standings", "lists of standings")
    report.head(f"standings ({name})")
    if said == rules:
        report.say(RIGHT, "they are those of the rules, by the results as they are now")
        return
    report.say(WRONG, "they are not those of the rules, by the results as they are now")
    for one, other in zip(said, rules):
        if one != other:
            report.say(WRONG, f"printed is {' '.join(one)}; by the rules it is {' '.join(other)}")
            break


def visible(name):
    """A name for the terminal, in which no letter moves or turns what stands beside it."""
    return "".join(it if it.isprintable() else it.encode("unicode_escape").decode() for it in name)


def say_working(event, player):
    """Rank, points and tiebreakers of a player, with each opponent's part in them."""
    if player not in event.numbers():
        raise Fault(f"no player has number {player}")
    share = lambda it: f"{it.numerator}/{it.denominator} = {printed(it)}"
    merits, row = event.merits(), next(it for it in rows_due(event) if it[1] == str(player))
    points, rounds, game_points, games = event.totals(player)
    print(f"{visible(event.names[player - 1])} ({player}): rank {row[0]}. Points: {points}, rounds: {rounds}")
    print(f"  GWP: {game_points} of {3 * games} game points: {share(merits[player][2])}")
    for number, matches in enumerate(event.stored, 1):
        other = next((b if a == player else a for a, b, score in matches if player in (a, b)), None)
        if other:
            p, n, g, m = event.totals(other)
            told = f"MWP {p}/{3 * n}: {share(event.match_wins(other))}; GWP {g}/{3 * m}: {share(event.game_wins(other))}"
            print(f"  round {number}, against {visible(event.names[other - 1])} ({other}): {told}")
        elif other == 0:
            print(f"  round {number}, bye: nobody's opponent")
    print(f"  OMW, the average of the opponents' MWP: {share(merits[player][1])}")
    print(f"  OGW, the average of the opponents' GWP: {share(merits[player][3])}")
    print("  no MWP or GWP counts as less than 33")


# ---- the command


def files_of(path):
    """What a path names: a file, or in a folder the events or FILE.draws."""
    if not os.path.isdir(path):
        return [path]
    path = path.rstrip("/") or path
    names = [f"{path}/{name}" for name in sorted(os.listdir(path))]
    if path.endswith(".draws"):
        return [path]
    events = [
        it
        for it in names
        if os.path.isfile(it) and not it.endswith(("-wal", "-shm")) and read(it)[:16] == DATABASE
    ]
    return events or [it for it in names if it.endswith(".draws")]


def check_lists(report, given):
    """Players, results and keys. Without anything else it is a line for each round."""
    if "players" not in given or "results" not in given:
        raise Fault("players and results go together, as `export` prints them, and with them the keys")
    players, results = given["players"][0][1], given["results"][0][1]
    event = event_of(players, results)
    if "keys" in given:
        keys = keys_of(b"".join(data for _, data in given["keys"]).decode("utf-8", "replace"))
        lines = verdicts(results_of(results, len(names_of(players))), keys)
        report.count("round", "rounds", len(lines))
        for number, line in enumerate(lines, 1):
            report.head(line, f"round {number}")
            if not line.endswith(AS_THE_RULES):
                report.status = 1
                report.note(report.unsure_at)
    return event


def run(given):
    report, by_kind, event = Report(), {}, None
    for path in (file for it in given.paths for file in files_of(it)):
        if os.path.isdir(path):
            check_draws(report, path)
            continue
        data = read(path)
        by_kind.setdefault(kind_of(data), []).append((path, data))
    for path, _ in by_kind.get("event", ()):
        event = check_event(report, path) or event
    texts = []
    for path, data in by_kind.get("text", ()):
        try:
            texts.append((path, Text(data)))
        except NoText as fault:
            report.wrong(path, f"no text of a round: {fault}")
    report.texts(texts)
    if {"players", "results"} & set(by_kind):
        event = check_lists(report, by_kind)
    elif "keys" in by_kind and event is None:
        raise Fault("keys go with players and results, as `export` prints them")
    for path, data in by_kind.get("standings", ()):
        if event is None:
            raise Fault("standings are checked beside the event, or beside its players and results")
        check_standings(report, path, data, event)
    if given.who:
        if event is None:
            raise Fault("--who needs the event, or its players and results")
        say_working(event, given.who)
    report.end()
    return report.status


def parser():
    words = argparse.ArgumentParser(
        prog=COMMAND, description=HELP, epilog=EXAMPLES, formatter_class=argparse.RawDescriptionHelpFormatter
    )
    words.add_argument("paths", nargs="+", metavar="PATH", help="an event, texts of rounds, or lists")
    words.add_argument(
        "--who", type=int, metavar="NUMBER", help="show how the tiebreakers of this player come about"
    )
    return words


def main(arguments=None):
    given = parser().parse_args(arguments)
    try:
        return run(given)
    except (Fault, NoText) as fault:
        print(f"{COMMAND}: {str(fault).strip()}", file=sys.stderr)
        return 1
    except BrokenPipeError:
        os.dup2(os.open(os.devnull, os.O_WRONLY), 1)
        return 1
    except OSError as fault:
        print(f"{COMMAND}: {fault.filename}: {fault.strerror}", file=sys.stderr)
        return 2


if __name__ == "__main__":
    sys.exit(main())
