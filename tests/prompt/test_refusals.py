"""Each refusal at the prompt, by its number and in words that say what to type next. For `26 NeedsReopen` and `24 Memory` a stand-in answers instead of
the program.
"""
import importlib
import os

import pytest

from second_reading.plain_event import Event
from tests.support.event_files import by_sqlite, make_old, rows_alone
from tests.support.prompt import check_said
from tests.support.random_evenings import laid


@pytest.fixture
def refused_by(prompt):
    """The last line is refused so, and this is said of it. Nothing of it is in the file."""

    def refuse(file, number, name, lines, *words, by=None):
        before = rows_alone(file) if os.path.exists(file) and by is None and number not in (25, 29) else None
        status, text = prompt.typed(file, *lines, by=by)
        check_said(f"refusal {number}", text, *words, f"(refused {number} {name})\n")
        assert status == 1, f"refusal {number}, the status"
        if before is not None and len(lines) == 1:
            assert rows_alone(file) == before, f"refusal {number}, the file"

    return refuse


def without_end(program, room):
    """An event whose next pairing takes more than a million steps: twelve who never met stand above twelve of whom all have met all."""
    event, size = Event(12, 0), 12
    for number in range(3 * size):
        event.enrol(f"P{number + 1}")
    event.start()
    upper, middle, lower = (list(range(at * size + 1, (at + 1) * size + 1)) for at in range(3))
    for number in range(size - 1):
        matches = [[one, middle[(at + number) % size], (2, 0, 0)] for at, one in enumerate(upper)]
        ring = [lower[0], *(lower[1 + (at + number) % (size - 1)] for at in range(size - 1))]
        event.stored.append(matches + [[ring[at], ring[size - 1 - at], (0, 0, 0)] for at in range(size // 2)])
    event.dropped |= set(middle)
    return laid(program.path, f"{room}/long.event", event, "E")


def test_refusals_of_players(prompt, program, room, started, refused_by):
    event, file = started("Ana", "Bo", "Cy", cut=8)
    other = f"{room}/other.event"
    check_said("no event yet", prompt.said(other), f"{other} is new. Begin with", "init Other 6 8")
    refused_by(other, 27, "NoEvent", ["where"], "init Friday Night 3 0")
    assert not os.path.exists(other), "refusal 27, no file is made"
    refused_by(file, 28, "EventExists", ["init Friday 3 0"], "another FILE")
    refused_by(other, 30, "BadSetup", ["init Friday 13 0"], "1 to 12 rounds")
    refused_by(file, 1, "BadName", [f"enrol {'x' * 61}"], "1 to 60 bytes", "enrol Ana Lima")
    refused_by(file, 2, "NameTaken", ["enrol Ana"], "enrol Bo (Owls)")
    refused_by(file, 4, "NotEnrolling", ["start"], "See: where")
    refused_by(other, 5, "TooFewPlayers", ["init One 3 0", "enrol Ana", "start"], "enrol Ana Lima")
    refused_by(other, 6, "NotSwiss", ["1 2 0"], "The Swiss rounds have not begun", "start")
    refused_by(file, 17, "NoSuchPlayer", ["drop 99"], "See: players")
    refused_by(other, 6, "NotSwiss", ["drop 1"], "Nobody drops before the start")
    event.drop(1)
    by_sqlite(file, "UPDATE player2 SET dropped = 1 WHERE no = 1")
    refused_by(file, 18, "AlreadyDropped", ["drop Ana"], "has dropped already")
    full = Event(3, 0)
    full.names = [f"P{it}" for it in range(1, 513)]
    refused_by(
        laid(program.path, f"{room}/full.event", full, "E"),
        3,
        "PlayersFull",
        ["enrol Ana"],
        "no room for more",
    )
    old = Event(3, 0, 1)
    for name in ("Ana", "Bo"):
        old.enrol(name)
    old.start()
    make_old(f"{room}/old.event", old)
    refused_by(f"{room}/old.event", 30, "BadSetup", ["enrol Cy"], "Migrate it")
    check_said(
        "refusal 30, of init alone",
        prompt.said(f"{room}/none.event", "init Friday 13 0"),
        "a cut of 0, 2, 4\nor 8: init Friday Night 3 0\n",
    )
    text = prompt.said(f"{room}/old.event", "migrate", "enrol Cy")
    check_said("after a migration", text, f"ok {old.serial}", f"ok {old.serial + 1}", "Cy (3) is enrolled.")


def test_refusals_of_rounds(prompt, program, room, started, stand_in, refused_by):
    event, file = started("Ana", "Bo", "Cy", cut=8)
    refused_by(file, 19, "RoundsNotDone", ["cut"], "has no score")
    assert not ("would begin" in prompt.said(file, "cut")), "refusal 19, nothing is shown before it"
    refused_by(file, 22, "NotPlayoff", ["play qf1 2 0"], "Next: cut, or bracket")
    prompt.said(file, "pair")
    refused_by(file, 8, "RoundOpen", ["pair"], "then: pair", "Round 1, 1 table open: 1")
    refused_by(file, 12, "NoSuchMatch", ["99 2 0"], "See: round, or bracket")
    refused_by(file, 13, "BadScore", ["1 2 2"], "2 games at most")
    refused_by(file, 15, "NotReported", ["fix 1 1 2 0"], "Enter it: 17 2 1")
    refused_by(file, 16, "IsBye", ["0 2 0"], "stays 2-0-0")
    check_said("a score", prompt.said(file, "1 0 2"), "ok ", "round 1 has all its scores. Next: pair")
    refused_by(
        file,
        14,
        "AlreadyReported",
        ["1 0 2"],
        "Not stored: round 1, table 1",
        "Stored is 0-2-0, the very same. All is well.",
    )
    refused_by(
        file,
        14,
        "AlreadyReported",
        ["1 2 1"],
        "Not stored: round 1, table 1",
        "Stored is 0-2-0. If that is wrong: fix 1 1 2 1 0",
    )
    prompt.said(file, "pair", "1 2 0", "pair", "1 2 0")
    refused_by(file, 9, "AllRoundsPaired", ["pair"], "standings, or cut")
    refused_by(
        file, 21, "TooFewForCut", ["cut"], "3 players are left, and the cut is to 8", "plan 3 2, and then cut"
    )
    _, two = started("Ana", "Bo", called="two")
    refused_by(two, 20, "NoCut", ["pair", "1 2 0", "cut"], "with no cut")
    refused_by(two, 10, "NoPairing", ["pair"], "The standings are final")
    assert sorted(it[-18:] for it in os.listdir(f"{two}.copies")) == [
        "before-pair-1.event"[-18:]
    ], "refusal 10, no copy is left"
    hurried = stand_in(
        f'[ "$1" = pair ] && "$REAL" pair "$2" "$3" {"0" * 64} > "$2.other"\nexec "$REAL" "$@"'
    )
    _, paired = started("Ana", "Bo", "Cy", "Di", called="paired")
    refused_by(paired, 7, "WrongRound", ["pair"], "See: where", by=hurried)
    refused_by(without_end(program, room), 11, "Budget", ["pair"], "pair new")


def test_refusals_of_phases(prompt, started, refused_by):
    """Refusals 6 and 13 speak of the case at hand."""
    event, file = started("Ana", "Bo", "Cy", "Di", rounds=1, cut=2)
    prompt.said(file, "pair", "1 2 0", "2 2 0", "cut", "y")
    refused_by(file, 6, "NotSwiss", ["1 2 0"], "the playoff has begun. See: open")
    refused_by(file, 6, "NotSwiss", ["drop 1"], "nobody drops any more", "wins: play final 2 0")
    refused_by(
        file,
        13,
        "BadScore",
        ["play final 2 2"],
        "Not stored: final: ",
        "No match of the playoff ends so",
        "play final 2 1",
    )
    prompt.said(file, "play final 2 1")
    refused_by(file, 6, "NotSwiss", ["fix 1 2 0"], "The event is over")


def test_refusals_of_the_file(prompt, room, started, stand_in, serve, refused_by):
    event, file = started("Ana", "Bo")
    prompt.said(file, "pair")
    by_sqlite(file, "UPDATE event SET serial = 999999")
    refused_by(file, 23, "SerialFull", ["1 2 0"], "takes no more")
    refused_by(
        file,
        24,
        "Memory",
        ["1 2 0"],
        "Close something",
        by=stand_in('[ "$1" = result ] && { echo "refused 24 Memory" >&2; exit 4; }\nexec "$REAL" "$@"'),
    )
    text = f"{room}/text"
    with open(text, "w") as it:
        it.write("Ana\n" * 200)
    refused_by(text, 25, "Store", ["where"], "another program", "as `serve`: end that")
    assert open(text).read() == "Ana\n" * 200, "refusal 25, the text stays"
    serving = serve(file, 100)
    refused_by(file, 25, "Store", ["1 2 0"], "another program", "as `serve`: end that")
    serving.kill()
    refused_by(
        file,
        26,
        "NeedsReopen",
        ["1 2 0"],
        "opened again",
        by=stand_in('[ "$1" = result ] && { echo "refused 26 NeedsReopen" >&2; exit 3; }\nexec "$REAL" "$@"'),
    )
    by_sqlite(file, "UPDATE event SET phase = 3")
    refused_by(file, 29, "Damaged", ["where"], "Go on from a copy: back")
    check_said(
        "back from a damaged file",
        prompt.said(file, "back 1", "y", "where"),
        "before the pairing of round 1",
        f"is {file}.away-0002-",
        "no round is paired yet",
    )


def test_texts():
    """Each refusal has its words, and all that stands fixed fits a terminal."""
    module = importlib.import_module("event_companions.prompt.texts")
    assert sorted(module.REFUSALS) == list(range(1, 31)), "refusals with words"
    texts = [
        *module.REFUSALS.values(),
        module.ALL_COMMANDS,
        module.BEGINNING,
        module.PLAYOFF,
        module.UNDO,
        module.MISSING,
    ]
    assert [it for text in texts for it in text.split("\n") if len(it) > 80] == [], "words fit 80 columns"
