"""FILE.phones, and the codes that are made of it."""
import argparse
import hashlib
import hmac
import os
import stat

import pytest
from event_companions.beside.codes import (
    FIRST_SEAT,
    SECOND_SEAT,
    TABLE,
    Secret,
    keep_secret,
    kept_secret,
    path_of,
    secret_for,
    shown_code,
)
from event_companions.core.arguments import address_word
from event_companions.core.lists import Match, Player
from event_companions.core.program import Declined
from event_companions.core.score import Score

AT = "http://192.168.1.10:8080"
MATCH = Match(17, 4, 2)


def plain_code_of(key, text):
    """Eight digits in base 20 of the HMAC as a number, the lowest first (docs/FORMATS.md, section 7)."""
    value, letters = int(hmac.new(key, text, hashlib.sha256).hexdigest(), 16), "BCDFGHJKLMNPQRSTVWXZ"
    return "".join(letters[value // 20**place % 20] for place in range(8))


def test_a_code_is_made_of_the_key_and_of_who_sits_where():
    key = bytes(range(32))
    assert Secret(AT, key).code(3, MATCH) == plain_code_of(key, b"event_reporter slip 1: 3 17 4 2")
    assert Secret(AT, key).code(3, MATCH, 2) == plain_code_of(key, b"event_reporter slip 1: 3 17 4 2 seat 2")


def test_another_round_table_seat_or_key_has_another_code():
    secret = Secret(AT, bytes(32))
    codes = {
        secret.code(3, MATCH),
        secret.code(4, MATCH),
        secret.code(3, Match(16, 4, 2)),
        secret.code(3, Match(17, 2, 4)),
        secret.code(3, MATCH, FIRST_SEAT),
        secret.code(3, MATCH, SECOND_SEAT),
        Secret(AT, b"k" * 32).code(3, MATCH),
    }
    assert len(codes) == 7
    assert secret.code(3, MATCH) == secret.code(3, Match(17, 4, 2, Score(2, 0)))


@pytest.mark.parametrize("shape", ["{}", " {} ", "{0}\u00ad", "x{}"])
def test_a_code_as_it_is_typed(shape):
    secret = Secret(AT, bytes(32))
    code = secret.code(3, MATCH)
    typed = shape.format(code)
    assert secret.seat_of(3, MATCH, typed) == (None if "x" in typed else TABLE)
    assert secret.seat_of(3, MATCH, shown_code(code).lower()) == TABLE


def test_what_is_no_code_of_the_table():
    secret = Secret(AT, bytes(32))
    code = secret.code(3, MATCH)
    for typed in (
        "",
        code[:-1],
        f"{code}B",
        secret.code(4, MATCH),
        secret.code(3, MATCH, FIRST_SEAT),
        "ÄÖÜßÄÖÜß",
    ):
        assert secret.seat_of(3, MATCH, typed) is None


def test_where_both_have_to_say_it_each_seat_has_a_code():
    secret = Secret(AT, bytes(32), asks_both=True)
    assert secret.seat_of(3, MATCH, secret.code(3, MATCH, FIRST_SEAT)) == FIRST_SEAT
    assert secret.seat_of(3, MATCH, secret.code(3, MATCH, SECOND_SEAT)) == SECOND_SEAT
    assert secret.seat_of(3, MATCH, secret.code(3, MATCH)) is None


def test_a_link_is_made_of_the_player():
    key = bytes(range(32))
    ana = Player(12, "Zoë Kim", False)
    value, letters = (
        int(hmac.new(key, "event_reporter player 1: 12 Zoë Kim".encode(), hashlib.sha256).hexdigest(), 16),
        "BCDFGHJKLMNPQRSTVWXZ",
    )
    due = "".join(letters[value // 20**place % 20] for place in range(12))
    secret = Secret(AT, key)
    assert (secret.link_code(ana), secret.link(ana)) == (due, f"/p/12/{due}")
    assert (
        secret.is_link(ana, shown_code(due).lower()) and shown_code(due) == f"{due[:4]}-{due[4:8]}-{due[8:]}"
    )
    for other in (Player(13, "Zoë Kim", False), Player(12, "Zoe Kim", False)):
        assert not secret.is_link(other, due)


def kept_for(file, at, asks_both=None):
    secret = secret_for(file, at, asks_both)
    keep_secret(file, secret)
    return secret


def test_the_secret_is_made_once_for_its_owner(tmp_path):
    file = f"{tmp_path}/e.event"
    assert kept_secret(file) is None
    made = kept_for(file, AT)
    assert (made.at, len(made.key), made.asks_both) == (AT, 32, False)
    assert stat.S_IMODE(os.stat(path_of(file)).st_mode) == 0o600
    assert kept_for(file, AT) == kept_secret(file) == made
    assert os.listdir(tmp_path) == ["e.event.phones"]


def test_another_address_or_switch_keeps_the_key(tmp_path):
    file = f"{tmp_path}/e.event"
    made = kept_for(file, AT, True)
    other = kept_for(file, "https://scores.example.org")
    assert (other.key, other.at, other.asks_both) == (made.key, "https://scores.example.org", True)
    assert not kept_for(file, AT, False).asks_both


def test_nothing_is_kept_before_it_is_tried(tmp_path):
    file = f"{tmp_path}/e.event"
    secret_for(file, AT, None)
    assert kept_secret(file) is None


@pytest.mark.parametrize("text", ["", "{}", "at x\n", "at http://a\nkey 00\nboth no\n"])
def test_a_secret_that_is_none(tmp_path, text):
    file = f"{tmp_path}/e.event"
    with open(path_of(file), "w") as written:
        written.write(text)
    with pytest.raises(Declined, match="Move it away"):
        secret_for(file, AT, None)
    assert open(path_of(file)).read() == text


def test_addresses():
    assert address_word("192.168.1.10:8080") == AT == address_word(f"{AT}/")
    assert address_word("https://scores.example.org") == "https://scores.example.org"
    assert address_word("http://[fd00::1]:8080") == "http://[fd00::1]:8080"
    for text in (
        "",
        "ftp://a",
        "http://a/b",
        "http://a b",
        "http://u:p@a",
        "http://a?b",
        "a:b:c",
        "192.168.1.10:99999",
        "192.168.1.10:0",
        "0.0.0.0:8080",
        "http://[::]:8080",
        "http://a\nb",
    ):
        with pytest.raises(argparse.ArgumentTypeError):
            address_word(text)
