"""Events, played by command lines on the program as it is built, one process a line, beside a plain reading of the rules: random ones, and two with a
playoff. Half of them begin in version 1, in a file made by SQL, and are migrated on the way; some players enrol late. Compared are each answer, its
stream and the exit status, and after each command the rows of the tables, as C SQLite reads them of the file alone, without its log. In half of the
cases C SQLite opens the file itself too, and so may end the log. Of those with a playoff the program is given the file alone as well, and has to print
its players, standings and bracket.
"""
import random
import shutil
import tempfile

import pytest

from tests.support.event_files import (
    due,
    has_begun_old,
    play_migration,
    play_playoff,
    rows_alone,
    rows_of,
    rows_read,
    words_of,
)
from tests.support.random_play import random_event, version_of

CASES = {"number": (24, 300)}


@pytest.fixture
def play(program, room, dice):
    file, reading = f"{room}/e.event", random.Random(dice.random())

    def line_by_line(line, answer, event):
        if not has_begun_old(line, answer, event, file):
            assert program.run(*words_of(line, file)) == due(answer), line
        assert rows_alone(file) == rows_of(event), line
        if reading.random() < 0.5:
            assert rows_read(file) == rows_of(event), line
        return file

    return line_by_line


def test_random_event(play, dice, number, request):
    random_event(play, dice, number, 64 if request.config.option.long else 48, version_of(number))


@pytest.mark.parametrize("plays", [play_playoff, play_migration])
def test_with_a_playoff(program, play, plays):
    def play_and_show(line, answer, event):
        """The same, and what the program shows of the file alone."""
        with tempfile.TemporaryDirectory() as folder:
            alone = shutil.copy(play(line, answer, event), folder)
            shown = [program.run(name, alone) for name in ("players", "standings", "bracket")]
        assert shown == [due(event.players()), due(event.standings()), due(event.bracket())], line

    plays(play_and_show)
