"""FILE.phones while phones are served."""
import os

import pytest
from event_companions.beside.codes import Secret, keep_secret, kept_secret, path_of
from event_companions.core.event import Event
from event_companions.core.program import Declined
from event_companions.phones.cache import EventCache
from event_companions.phones.kept_codes import KeptCodes, locked, must_be_alone
from second_reading.plain_event import Event as Played
from tests.support.from_model import FromModel

SECRET = Secret("http://192.168.1.10:8080", bytes(32))


@pytest.fixture
def file(tmp_path):
    return f"{tmp_path}/e.event"


@pytest.fixture
def codes(file):
    kept = KeptCodes(file, SECRET)
    yield kept
    kept.close()


def test_what_is_kept_and_locked(file, codes):
    assert kept_secret(file) == SECRET
    with pytest.raises(Declined, match="Another event-phones serves"):
        must_be_alone(file)


def test_a_file_that_was_touched_is_the_same(file, codes):
    os.utime(path_of(file), (1, 1))
    assert codes.are_good(lambda: False)
    # written whole again, as an editor or a copier does, it is locked again
    os.rename(path_of(file), f"{file}.away")
    keep_secret(file, SECRET)
    assert codes.are_good(lambda: False)
    with pytest.raises(Declined):
        locked(file)


def test_a_file_that_was_lost_is_written_again_beside_the_same_event(file, codes):
    os.unlink(path_of(file))
    assert codes.are_good(lambda: None) and kept_secret(file) is None
    assert codes.are_good(lambda: True) and kept_secret(file) == SECRET
    with pytest.raises(Declined):
        locked(file)
    os.unlink(path_of(file))
    assert not codes.are_good(lambda: False) and kept_secret(file) is None


@pytest.mark.parametrize("other", [Secret(SECRET.at, b"k" * 32), Secret("http://a:1", bytes(32))])
def test_another_secret_ends_it(file, codes, other):
    keep_secret(file, other)
    assert not codes.are_good(lambda: True)


def test_what_is_no_secret_ends_it(file, codes):
    with open(path_of(file), "w") as written:
        written.write("{}")
    assert not codes.are_good(lambda: True)


def test_a_link_is_declined(file):
    open(file, "w").close()
    os.symlink(file, f"{file}-link")
    with pytest.raises(Declined, match="symbolic link. Name the file itself"):
        must_be_alone(f"{file}-link")


# ---- the same event


def played(names, pairings=()):
    event = Played(3, 0)
    for name in names:
        event.enrol(name)
    if pairings:
        event.start()
    for number, key in enumerate(pairings, 1):
        event.pair(number, bytes([key]) * 32)
        for place in range(1, len(event.stored[-1]) + 1):
            event.report(number, place, (2, 0, 0), True)
    return event


NAMES = ["Ana", "Bo", "Cy", "Di", "Ed", "Fay", "Gil", "Hu"]


@pytest.mark.parametrize(
    "now, is_same",
    [
        (played(NAMES, (1, 2)), True),
        (played(NAMES, (1,)), True),
        (played(NAMES, (1, 3)), True),
        (played([*NAMES, "Ida"]), False),
        (played(NAMES), False),
        (played(NAMES[::-1], (1,)), False),
        (played([]), False),
    ],
)
def test_an_event_is_the_same_by_its_players_and_rounds(file, now, is_same):
    cache = EventCache("none", file, "Friday")
    cache.keep(*cache.read_all(Event(FromModel(played(NAMES, (1,))), file)))
    cache.source = FromModel(now)
    assert cache.is_same_event() == is_same
