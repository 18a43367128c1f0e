"""The menus of prompt_toolkit, fed with keys."""
import asyncio
import threading
import time

import pytest
from event_companions.core.lists import Player
from event_companions.prompt.offers import offers_of_players, offers_of_words

toolkit = pytest.importorskip("prompt_toolkit")

PLAYERS = [
    Player(1, "Ana Lima", False),
    Player(7, "Bo Sato", False),
    Player(9, "Sara Bo", False),
    Player(10, "x\u202ey", False),
    Player(12, "Łukasz O’Brien", False),
]


def offers(text):
    name, space, part = text.partition(" ")
    return (
        offers_of_players(part, PLAYERS)
        if space
        else offers_of_words(name, ["drop", "standings", "start", "who"])
    )


def test_a_part_of_a_name_offers_the_players_who_have_it():
    assert [(it.text, it.shown) for it in offers("who sa")] == [
        ("Sara Bo", "Sara Bo (9)"),
        ("Bo Sato", "Bo Sato (7)"),
    ]
    assert [it.text for it in offers("who ")] == ["Ana Lima", "Bo Sato", "Sara Bo", "Łukasz O’Brien"]
    assert [it.text for it in offers("who obrien luk")] == ["Łukasz O’Brien"]


def within_seconds(is_so):
    until = time.monotonic() + 60
    while not is_so() and time.monotonic() < until:
        time.sleep(0.01)


@pytest.mark.parametrize(
    "typed, line",
    [
        ("who sat", "who Bo Sato"),
        ("who lim", "who Ana Lima"),
        ("drop o'brien", "drop Łukasz O’Brien"),
        ("stan", "standings"),
    ],
)
def test_the_tab_key_takes_what_the_menu_offers(typed, line):
    from prompt_toolkit.application import create_app_session
    from prompt_toolkit.input import create_pipe_input
    from prompt_toolkit.output import DummyOutput
    from event_companions.prompt.menus import Menus

    with create_pipe_input() as keys, create_app_session(input=keys, output=DummyOutput()):
        menus = Menus(offers)
        buffer = menus.lines.default_buffer

        def press():
            keys.send_text(typed)
            within_seconds(lambda: buffer.complete_state)
            keys.send_text("\t")
            within_seconds(lambda: buffer.text == line)
            keys.send_text("\r")

        thread = threading.Thread(target=press)
        thread.start()
        assert menus.line("desk> ") == line
        thread.join()


def test_what_was_said_keeps_the_screen_until_something_is_typed():
    """Help of a round is 22 lines of 24, and the menu would take six of them."""
    from prompt_toolkit.application import create_app_session
    from prompt_toolkit.input import create_pipe_input
    from prompt_toolkit.output import DummyOutput
    from event_companions.prompt.menus import Menus

    with create_pipe_input() as keys, create_app_session(input=keys, output=DummyOutput()):
        menus = Menus(offers)
        buffer = menus.lines.default_buffer
        assert not buffer.complete_while_typing()

        # what is typed starts tasks, in the loop of a prompt that reads
        async def typed():
            buffer.insert_text("w")

        asyncio.run(typed())
        assert buffer.complete_while_typing()
