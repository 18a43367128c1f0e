"""FILE.reports, and what the scorekeeper has to look at."""
import dataclasses
import json
import os

import pytest
from event_companions.beside import reports as module
from event_companions.beside.reports import (
    CALLS,
    HOME,
    NO_SCORE,
    OTHER,
    SAME,
    SETTLED,
    STAYS,
    STORED,
    WAITS,
    WRONG,
    GoingHome,
    Report,
    Reports,
    all_half_said,
    going_home,
    half_said,
    judge_calls,
    judged,
    settle,
    two_scores,
    words_to_mend,
    words_to_store,
)
from event_companions.core.lists import Match, Player
from event_companions.core.score import Score
from event_companions.prompt.news import lines_of

STORED_AT_9 = Match(9, 1, 2, Score(2, 1))
OPEN_AT_9 = Match(9, 1, 2)
PLAYERS = {number: Player(number, f"P{number}", number == 3) for number in range(1, 5)}


def report(outcome=OTHER, score=Score(0, 2), **words):
    made = Report("2026-11-28T20:14:05", 3, 9, 1, 2, score, outcome, Score(2, 1), "10.0.0.7")
    return dataclasses.replace(made, **words)


@pytest.fixture
def kept(tmp_path):
    return Reports(f"{tmp_path}/e.event")


def test_a_report_is_a_line_of_json_in_ascii(kept):
    kept.add(report(drops=(1,)))
    line = open(kept.path, "rb").read()
    assert line.isascii() and line.endswith(b"}\n") and line.count(b"\n") == 1
    assert json.loads(line)["drops"] == [1]
    assert Reports(kept.path[: -len(".reports")]).all == kept.all == [report(drops=(1,))]
    assert os.stat(kept.path).st_mode & 0o777 == 0o600


def test_a_line_that_was_broken_off_stays_alone(kept):
    kept.add(report())
    with open(kept.path, "ab") as written:
        written.write(b'{"at": "2026-')
    kept.add(report(STORED))
    assert [found.outcome for found in kept.all] == [OTHER, STORED]
    assert Reports(kept.path[: -len(".reports")]).all == kept.all


@pytest.mark.parametrize(
    "line",
    [
        b"",
        b"1",
        b"[]",
        b"{}",
        b"null",
        b"\xff",
        b'{"at": 1}',
        report().line().replace(b'"round": 3', b'"round": "3"'),
        report().line().replace(b'"drops": []', b'"drops": [null]'),
        report().line().replace(b'"seat"', b'"seats"'),
    ],
)
def test_what_is_no_report_is_passed_over(kept, line):
    with open(kept.path, "wb") as written:
        written.write(line.rstrip(b"\n") + b"\n" + report().line())
    assert kept.more() == [report()]


def test_lines_of_another_companion_are_read(kept):
    other = Reports(kept.path[: -len(".reports")])
    other.add(report())
    assert kept.more() == [report()] and kept.more() == []
    os.rename(kept.path, f"{kept.path}.old")
    assert kept.more() == [] and kept.all == []
    other.add(report(STORED))
    assert kept.more() == [report(STORED)]


def test_a_disk_that_is_full_keeps_it_in_memory(tmp_path):
    os.symlink("/dev/full", f"{tmp_path}/e.event.reports")
    kept = Reports(f"{tmp_path}/e.event")
    with pytest.raises(OSError):
        kept.add(report())
    assert kept.unwritten == [report()] and kept.of_round(3) == [report()]


def test_what_the_disk_had_no_room_for_is_written_later(kept, monkeypatch):
    with monkeypatch.context() as full:
        full.setattr(module, "MOST_BYTES", 10)
        for score in (Score(0, 2), Score(2, 0)):
            with pytest.raises(OSError):
                kept.add(report(score=score))
        assert not kept.write_again() and len(kept.unwritten) == 2
    assert kept.write_again() and kept.unwritten == []
    assert [found.score for found in Reports(kept.path[: -len(".reports")]).all] == [Score(0, 2), Score(2, 0)]
    assert len(kept.of_round(3)) == 2


def test_the_file_ends_at_its_limit(kept, monkeypatch):
    monkeypatch.setattr(module, "MOST_BYTES", 2 * len(report().line()))
    kept.add(report())
    kept.add(report())
    with pytest.raises(OSError, match="takes no more"):
        kept.add(report())
    assert os.path.getsize(kept.path) == module.MOST_BYTES


def test_a_table_has_two_scores_until_it_is_settled(kept):
    kept.add(report())
    kept.add(report(score=Score(1, 2)))
    (found,) = two_scores(kept, 3, [STORED_AT_9, Match(1, 3, 4)])
    assert found.match == STORED_AT_9 and [said.score for said in found.said] == [Score(0, 2), Score(1, 2)]
    # the score that the newest one says, or one that was entered at the prompt since
    assert len(two_scores(kept, 3, [Match(9, 1, 2, Score(1, 2))])[0].said) == 1
    settle(kept, 3, STORED_AT_9)
    assert kept.all[-1].outcome == SETTLED and two_scores(kept, 3, [STORED_AT_9]) == []
    settle(kept, 3, STORED_AT_9)
    assert len(kept.all) == 3
    kept.add(report(score=Score(0, 2)))
    assert len(two_scores(kept, 3, [STORED_AT_9])) == 1


def test_a_stored_score_is_said_to_be_wrong_until_it_is_settled(kept):
    """Which one is right may be said later; of a seat the newest word counts."""
    kept.add(report(WRONG, Score(2, 1), seat=1))
    (found,) = two_scores(kept, 3, [STORED_AT_9])
    assert found.told == "A wrong score at table 9: stored is 2-1, and a phone says that it is wrong"
    assert words_to_mend(3, STORED_AT_9, found.said[-1]) == "fix 3 9 X Y"
    kept.add(report(OTHER, seat=1))
    (found,) = two_scores(kept, 3, [STORED_AT_9])
    assert found.told == "Two scores at table 9: stored is 2-1, and a phone says 0-2"
    assert words_to_mend(3, STORED_AT_9, found.said[-1]) == "fix 3 9 0 2 0"
    kept.add(report(WRONG, Score(2, 1), seat=1))
    settle(kept, 3, STORED_AT_9)
    assert two_scores(kept, 3, [STORED_AT_9]) == []
    # another window has replaced it since, or it is right after all
    kept.add(report(WRONG, Score(2, 1), seat=1))
    assert two_scores(kept, 3, [Match(9, 1, 2, Score(1, 2))]) == []
    kept.add(report(SAME, Score(2, 1), seat=1))
    assert two_scores(kept, 3, [STORED_AT_9]) == []


def test_what_others_said_at_the_table_does_not_count(kept):
    for other in (report(first=3), report(second=4), report(table=8), report(round=2), report(STORED)):
        kept.add(other)
    assert two_scores(kept, 3, [STORED_AT_9]) == []


def test_the_newest_word_of_each_seat_waits(kept):
    kept.add(report(WAITS, Score(2, 0), seat=1))
    kept.add(report(WAITS, Score(2, 1), seat=1))
    kept.add(report(WAITS, Score(0, 2), seat=2))
    said = half_said(kept, 3, OPEN_AT_9)
    assert {seat: found.score for seat, found in said.items()} == {1: Score(2, 1), 2: Score(0, 2)}
    assert [half.match for half in all_half_said(kept, 3, [OPEN_AT_9, Match(1, 3, 4)])] == [OPEN_AT_9]
    # the scorekeeper stored what one seat said
    assert [said.score for said in two_scores(kept, 3, [STORED_AT_9])[0].said] == [Score(0, 2)]


@pytest.mark.parametrize("mended", [report(WAITS, Score(2, 1), seat=1), report("same", Score(2, 1), seat=1)])
def test_a_seat_that_mends_its_own_score_says_no_other(kept, mended):
    kept.add(report(WAITS if mended.outcome == WAITS else OTHER, Score(2, 0), seat=1))
    kept.add(mended)
    kept.add(report(STORED, Score(2, 1), seat=2))
    assert two_scores(kept, 3, [STORED_AT_9]) == []
    # another seat's word is not taken back by it
    kept.add(report(OTHER, Score(0, 2), seat=2))
    kept.add(report("same", Score(2, 1), seat=1))
    assert [said.seat for said in two_scores(kept, 3, [STORED_AT_9])[0].said] == [2]


def test_who_wants_to_go_home(kept):
    kept.add(report(STORED, drops=(1, 3)))
    kept.add(report(STORED, drops=(2, 99), round=2))
    assert going_home(kept, 3, PLAYERS) == [GoingHome(PLAYERS[1], 9)]
    kept.add(report(STAYS, drops=(1,)))
    assert going_home(kept, 3, PLAYERS) == []
    kept.add(report(HOME, drops=(1,), table=8))
    assert going_home(kept, 3, PLAYERS) == [GoingHome(PLAYERS[1], 8)]
    # no score is said by it
    assert two_scores(kept, 3, [STORED_AT_9]) == [] and half_said(kept, 3, OPEN_AT_9) == {}


def test_a_judge_is_called_until_one_has_been_there(kept):
    assert judge_calls(kept, 3, [OPEN_AT_9]) == []
    kept.add(report(CALLS, NO_SCORE, seat=2, stored=None))
    (call,) = judge_calls(kept, 3, [OPEN_AT_9, Match(1, 3, 4)])
    assert (call.match, call.caller) == (OPEN_AT_9, 2)
    # a score that comes in meanwhile ends nothing
    kept.add(report(STORED, Score(2, 1)))
    assert judge_calls(kept, 3, [STORED_AT_9]) and not judge_calls(kept, 3, [Match(9, 1, 3)])
    judged(kept, 3, STORED_AT_9)
    assert judge_calls(kept, 3, [STORED_AT_9]) == [] and two_scores(kept, 3, [STORED_AT_9]) == []
    kept.add(report(CALLS, NO_SCORE, seat=1, stored=None))
    kept.add(report("calls off", NO_SCORE, seat=2, stored=None))
    assert judge_calls(kept, 3, [STORED_AT_9]) == []


def test_lines_to_type():
    assert words_to_store(3, STORED_AT_9, Score(0, 2)) == "fix 3 9 0 2 0"
    assert words_to_store(3, OPEN_AT_9, Score(0, 2, 1)) == "9 0 2 1"


def test_what_the_prompt_tells():
    came = [
        report(STORED, table=4),
        report(STORED, table=7),
        report(STORED, table=8),
        report(),
        report(STORED, table=11, drops=(2,)),
        report(STAYS, table=11, drops=(2,)),
        report(CALLS, table=11, seat=2),
        report("calls off", table=11),
        report(WRONG, Score(2, 1)),
    ]
    assert lines_of(came, PLAYERS) == [
        "From phones: 4 scores, tables 4, 7, 8, 11",
        "Table 9: stored is 2-1, and a phone says 0-2. If that is right: fix 3 9 0 2 0",
        "Table 11: P2 (2) wants to go home after the round: drop 2",
        "Table 11: P2 (2) stays after all",
        "Table 11: P2 (2) calls a judge, 20:14. Once one has been there: judge 11",
        "Table 11: no judge is needed any more",
        "Table 9: a phone says that the stored 2-1 is wrong. If so: fix 3 9 X Y",
    ]
    assert lines_of([report(WAITS, Score(2, 0), seat=2, stored=None)], {}) == [
        "Table 9: player 2 says 2-0. The other seat is to say it."
    ]
    assert lines_of([], {}) == []
