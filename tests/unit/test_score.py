"""A score as it is read and shown."""
import pytest
from event_companions.core.score import Score


def test_a_score_is_read_and_written():
    assert Score.parse("2-1-0") == Score(2, 1) == (2, 1, 0)
    assert str(Score(2, 1)) == f"{Score(2, 1)}" == "2-1-0"
    assert Score(1, 1, 1).words == ("1", "1", "1")


@pytest.mark.parametrize("text", ["", "-", "2-1", "2-1-", "2-1-0-0", "2-1-x", " 2-1-0", "2-1-0\n", "٢-1-0"])
def test_what_is_no_score(text):
    with pytest.raises(ValueError):
        Score.parse(text)


def test_a_score_is_a_score_also_if_nobody_won():
    assert Score(0, 0)


def test_a_score_is_typed_with_all_three_counts_and_shown_without_draws():
    assert (Score(2, 1).typed, Score(2, 1).short) == ("2 1 0", "2-1")
    assert (Score(1, 1, 1).typed, Score(1, 1, 1).short) == ("1 1 1", "1-1-1")
