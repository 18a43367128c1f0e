"""What came since a copy. An event is read from the texts of the plain reading."""
from event_companions.core.event import Event
from event_companions.draw.draw import rule_of
from event_companions.draw.draws import Draws, Kept
from event_companions.prompt.since import Missing, came_since, counted_since, left_in, missing_since
from second_reading.plain_event import Event as PlainEvent
from tests.support.from_model import FromModel

NOT_DRAWN = Draws("/nowhere/e.event")


class OfRounds:
    def __init__(self, keys):
        self.keys = keys

    def last(self, number):
        return self.keys.get(number)


def played(*, results=(), dropped=(), late=(), rounds=1):
    event = PlainEvent(3, 0)
    for name in ("P1", "P2", "P3", "P4"):
        event.enrol(name)
    event.start()
    event.pair(1, bytes(32))
    for table, score in results:
        event.report(1, table, score, True)
    for number in dropped:
        event.drop(number)
    for name in late:
        event.enrol(name)
    if rounds == 2:
        event.pair(2, bytes(32))
    return Event(FromModel(event))


def test_nothing_came():
    assert came_since(played(), played(), OfRounds({}), NOT_DRAWN) == []


def test_results_drops_and_players_come_as_lines_to_type():
    before = played(results=((1, (2, 1, 0)), (2, (0, 2, 0))), dropped=(3,), late=("Late Lou",))
    lines = came_since(before, played(results=((1, (2, 0, 0)),)), OfRounds({}), NOT_DRAWN)
    assert lines[1:] == [
        "  fix 1 1 2 1 0  P4 (4) 2-1-0 P2 (2)",
        "  2 0 2 0       P1 (1) 0-2-0 P3 (3)",
        "  drop 3        P3",
        "  enrol Late Lou",
    ]


def test_a_round_that_was_paired_since_comes_with_its_key():
    both = ((1, (2, 0, 0)), (2, (2, 0, 0)))
    lines = came_since(
        played(results=both, rounds=2), played(results=both), OfRounds({2: "ab" * 32}), NOT_DRAWN
    )
    assert lines == ["Round 2 was paired since. Its key, for: pair again\n  " + "ab" * 32]


def test_scores_of_a_round_that_was_paired_since_have_a_heading_and_names():
    before = played(results=((1, (2, 1, 0)), (2, (0, 0, 3))))
    event = PlainEvent(3, 0)
    for name in ("P1", "P2", "P3", "P4"):
        event.enrol(name)
    event.start()
    lines = came_since(before, Event(FromModel(event)), OfRounds({1: "ab" * 32}), NOT_DRAWN)
    assert lines[1:] == [
        "Its scores, to type once it is paired so again:",
        "  1 2 1 0       P4 (4) 2-1-0 P2 (2)",
        "  2 0 0 3       P1 (1) 0-0-3 P3 (3)",
    ]


def cut_of_four(scores):
    event = PlainEvent(1, 2)
    for name in ("P1", "P2", "P3", "P4"):
        event.enrol(name)
    event.start()
    event.pair(1, bytes(32))
    event.report(1, 1, (2, 0, 0), True)
    event.report(1, 2, (2, 0, 0), True)
    if scores is not None:
        event.end_rounds()
        for stage, slot, score in scores:
            event.play(stage, slot, score)
    return Event(FromModel(event))


def test_the_cut_and_scores_of_the_playoff_come_as_lines_to_type():
    lines = came_since(cut_of_four([(1, 1, (2, 1, 0))]), cut_of_four(None), OfRounds({}), NOT_DRAWN)
    assert [line for line in lines if "cut" in line or "play " in line] == [
        "The playoff was begun since. To begin it again: cut",
        "  play final 2 1  P1 (1) 2-1-0 P4 (4)",
    ]
    lines = came_since(cut_of_four([(1, 1, (2, 1, 0))]), cut_of_four([]), OfRounds({}), NOT_DRAWN)
    assert [line for line in lines if line.startswith("  ")] == ["  play final 2 1  P1 (1) 2-1-0 P4 (4)"]


def test_what_can_be_typed_again_is_sent_so():
    before = played(results=((1, (2, 1, 0)), (2, (0, 2, 0))), dropped=(3,), late=("-x, Lou",))
    assert missing_since(before, played(results=((1, (2, 0, 0)),))) == [
        Missing("fix 1 1 2 1 0", ("correct", "1", "1", "2", "1", "0"), "P4 (4) 2-1-0 P2 (2)"),
        Missing("2 0 2 0", ("result", "1", "2", "0", "2", "0"), "P1 (1) 0-2-0 P3 (3)"),
        Missing("drop 3", ("drop", "3"), "P3"),
        Missing("enrol -x, Lou", ("enrol", "-x, Lou")),
    ]


def test_what_is_left_out():
    one, two, three = (Missing(str(number), ()) for number in (1, 2, 3))
    missing = [one, two, three]
    assert left_in("y", missing) == left_in("YES", missing) == missing
    assert left_in("n", missing) == []
    assert left_in("but 1 3", missing) == left_in("But 3,1", missing) == [two]
    for answer in ("", "but", "but 4", "but 0", "but x", "1 3", "1 2 0", "maybe"):
        assert left_in(answer, missing) is None


def test_a_round_that_was_drawn_comes_with_its_number(tmp_path):
    draws = Draws(f"{tmp_path}/e.event")
    draws.keep_rule(rule_of("each 4d20"))
    draws.keep_number(2, Kept("3 8 11 17"))
    before, now = played(results=((1, (2, 0, 0)), (2, (2, 0, 0))), rounds=2), played(
        results=((1, (2, 0, 0)), (2, (2, 0, 0)))
    )
    lines = came_since(before, now, OfRounds({2: "ab" * 32}), draws)
    assert lines[0] == "Round 2 was paired since. To pair it by its number, 3 8 11 17: pair"
    draws.keep_rule(rule_of("off"))
    assert came_since(before, now, OfRounds({2: "ab" * 32}), draws)[0].startswith(
        "Round 2 was paired since. Its key"
    )


def test_what_a_copy_takes_back_is_counted():
    """All of it, since a copy is named by what came right after it; a correction is taken back, and brings nothing."""
    copy = played(results=((1, (2, 0, 0)),))
    now = played(results=((1, (2, 1, 0)), (2, (0, 2, 0))), dropped=(3,), late=("Lou", "Moe"), rounds=2)
    assert counted_since(now, copy) == "the pairing of round 2, 2 scores, 2 players who came, 1 drop"
    assert counted_since(copy, now, with_other_scores=False) == ""
    assert counted_since(copy, copy) == ""
    assert (
        counted_since(cut_of_four([(1, 1, (2, 1, 0))]), cut_of_four(None))
        == "the cut, 1 score of the playoff"
    )
