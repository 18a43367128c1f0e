"""At which address phones reach this machine, and where it listens."""
import argparse
import subprocess

import pytest

pytest.importorskip("waitress")

from event_companions.beside.codes import Secret
from event_companions.core.arguments import place_word
from event_companions.core.program import Declined
from event_companions.phones import addresses, serving
from event_companions.phones.door import NO_LIMIT, AnotherMachines, door_at
from event_companions.phones.main import not_installed
from event_companions.phones.serving import host_and_port


def finds(_port):
    return ["http://192.168.1.10:8080", "http://10.0.0.7:8080"]


def test_addresses_are_offered_by_their_numbers(capsys):
    asked = []
    assert (
        addresses.address_chosen("Which?", ask=lambda text: asked.append(text) or " 2 ", find=finds)
        == finds(0)[1]
    )
    assert capsys.readouterr().out.split("\n")[:4] == [
        "Which?",
        "This machine has:",
        "  1  http://192.168.1.10:8080",
        "  2  http://10.0.0.7:8080",
    ]
    for typed in ("", "0", "3", "x"):
        with pytest.raises(Declined, match="Nothing was chosen"):
            addresses.address_chosen("Which?", ask=lambda _: typed, find=finds)


def test_without_a_terminal_they_are_named():
    with pytest.raises(Declined, match="(?s)Which.*1  http://192.168.1.10:8080"):
        addresses.address_chosen("Which?", find=finds)
    with pytest.raises(Declined, match="Which.$"):
        addresses.address_chosen("Which?", find=lambda _: [])


def test_what_reaches_no_other_machine_is_not_offered(monkeypatch):
    said = subprocess.CompletedProcess([], 0, "fd00::2 127.0.0.1 192.168.1.10 fe80::1 \n")
    monkeypatch.setattr(subprocess, "run", lambda *_, **__: said)
    assert addresses.offered(8081) == ["http://192.168.1.10:8081", "http://[fd00::2]:8081"]


@pytest.mark.parametrize(
    "at, is_alone",
    [
        ("http://127.0.0.1:8080", True),
        ("http://localhost", True),
        ("http://[::1]:1", True),
        ("http://192.168.1.10", False),
        ("https://a.example", False),
    ],
)
def test_an_address_of_this_machine_alone(at, is_alone):
    assert addresses.is_of_this_machine_alone(at) == is_alone


@pytest.mark.parametrize(
    "text, place",
    [
        ("127.0.0.1:80", ("127.0.0.1", 80)),
        ("a", ("a", 8080)),
        ("::1", ("::1", 8080)),
        ("[::1]", ("::1", 8080)),
        ("[fd00::1]:81", ("fd00::1", 81)),
    ],
)
def test_where_to_listen(text, place):
    assert host_and_port(text, 8080) == place
    assert place_word(text) == text


@pytest.mark.parametrize("text", ["127.0.0.1:99999", "[::1]:65536", "a:0", ":123456"])
def test_what_is_no_port_to_listen_at(text):
    with pytest.raises(argparse.ArgumentTypeError, match="is no port from 1 to 65535"):
        place_word(text)


def test_an_address_of_another_machine_is_told_apart_from_a_port_that_is_held(monkeypatch):
    with pytest.raises(AnotherMachines, match="no address of this machine"):
        door_at("192.0.2.1", 0, NO_LIMIT, "")
    words = argparse.Namespace(listen=None, behind_proxy=False, from_one=24)
    monkeypatch.setattr(serving, "address_chosen", lambda why, port: "http://127.0.0.1:0")
    secret, door = serving.opened_for_phones(words, Secret("http://192.0.2.1:8080", bytes(32)))
    door.close()
    assert (secret.at, secret.key) == ("http://127.0.0.1:0", bytes(32))


def test_the_python_that_lacks_a_package_is_named(monkeypatch):
    monkeypatch.setattr("sys.executable", "/opt/other/bin/python3")
    text = not_installed(["python3-waitress"])
    assert (
        "not installed for /opt/other/bin/python3" in text and "sudo apt-get install python3-waitress" in text
    )
    assert "by Debian's Python: /usr/bin/python3 " in text
    monkeypatch.setattr("sys.executable", "/usr/bin/python3")
    assert "by Debian's Python" not in not_installed(["python3-waitress"])
