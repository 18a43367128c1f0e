"""The draw: keys and texts to the byte, as docs/RULES.md has them."""
import itertools
import random

import pytest

from event_companions.draw.draw import (
    BEFORE_THE_FIRST,
    DrawText,
    Lists,
    NoNumber,
    NoText,
    key_of,
    lists_of,
    number_of,
    rule_of,
    shown_digits,
    tables_of,
    text_of,
)

PLAYERS = b"no,name,dropped\n" + b"".join(b"%d,P%d,0\n" % (it, it) for it in range(1, 8))
NO_RESULTS = b"round,table,a,b,x,y,d\n"
DRAWN = NO_RESULTS + b"1,1,2,3,,,\n1,2,5,1,,,\n1,3,4,7,,,\n1,0,6,0,2,0,0\n"
OF_SEVEN = DrawText(
    1, 1, BEFORE_THE_FIRST, "3 8 11 17", "-", "-", key_of(1, "3 8 11 17"), Lists(PLAYERS, NO_RESULTS), DRAWN
)


def test_keys_of_the_documents():
    assert key_of(1, "1 1 1 1") == "57aa33b8c676ff7443a4f72446665cab0562c9678c3b68d8b73239823b71a776"
    assert key_of(12, "20 20 20 20") == "c7527eb8a2957183a08e48af68a9f4fb7114935c7686d6ab4b806f18e5b8d444"
    # as numbers, not as texts
    assert number_of(["4711", "815"]) == "815 4711"
    assert key_of(4, "815 4711") == "844f0cbd8d14ebba8077424461a570ce39ad89a55ecb0ace3e005e452b1fbd40"


def test_the_order_of_the_dice_is_no_choice():
    keys = {key_of(3, number_of(it)) for it in itertools.permutations(["17", "3", "8", "11"])}
    assert keys == {"5bafb8cd4c77e4ad54fb527649a9592acdc22a37c3de270d9743594c6cabf71b"}


@pytest.mark.parametrize(
    "values", [["0"], ["07"], ["1000000"], ["-1"], ["\u0661"], ["1"] * 21, [], ["1\n"], ["+1"], ["1.0"]]
)
def test_what_is_no_number(values):
    with pytest.raises(NoNumber):
        number_of(values)


def test_the_text_of_seven_players():
    assert OF_SEVEN.key == "4b6911f1d1ff51892df45e2505be141e451fae7b2bd23577ae0a9522098bd2a9"
    assert len(PLAYERS + NO_RESULTS) == 87
    assert OF_SEVEN.lists.mark == "63b9acf9fd09825e956fe9a626a5703aa4a3d003dc9ff309414f1ff866d28902"
    assert OF_SEVEN.sum == "5d014256fdbc02910c032a167689ab331067849aef87354364eb3751b54dde66"
    assert shown_digits(OF_SEVEN.sum) == "5d01 4256 fdbc 0291"
    assert text_of(OF_SEVEN.data) == OF_SEVEN
    assert OF_SEVEN.seats == [[1, 2, 3], [2, 5, 1], [3, 4, 7], [0, 6, 0]]


def test_the_same_drawn_again():
    again = DrawText(
        1, 2, OF_SEVEN.sum, "3 8 11 17", "-", "-", OF_SEVEN.key, Lists(PLAYERS, NO_RESULTS), DRAWN
    )
    assert again.sum == "214aae08fca831125c52be78de8a715a51dd9869627c4ab839209364a7e90807"


def test_nothing_but_round_and_number_enters_the_key():
    marks = {
        "b6400c6d7f5e8dad3cc4715758add21a00e9379bf4db631b88af8e3645e9d406": PLAYERS + b"8,Al,1\n",
        "53395867297d3bf14a10c3703f5d75e8bf7644431a0a61386d7666477fcfa629": PLAYERS.replace(
            b"3,P3,0", b"3,P3,1"
        ),
    }
    for mark, players in marks.items():
        lists = Lists(players, NO_RESULTS)
        assert lists.mark == mark
        other = DrawText(1, 2, OF_SEVEN.sum, "3 8 11 17", "-", "-", OF_SEVEN.key, lists, DRAWN)
        assert text_of(other.data) == other


def test_names_that_look_like_a_part_of_a_text():
    names = ['"Bo\u20297,Zed"', "results.csv", "Cy\u0085X", '"""q"""', "drawn.csv", "end", "key 00"]
    players = b"no,name,dropped\n" + "".join(f"{at},{it},0\n" for at, it in enumerate(names, 1)).encode()
    text = DrawText(
        2, 1, "ab" * 32, "1 1", "1 3", "1 2; 2 2", key_of(2, "1 1"), Lists(players, DRAWN), NO_RESULTS
    )
    tabled = DrawText(**{**vars(text), "tables": NO_RESULTS + b"2,1,1,2,,,\n"})
    assert text_of(tabled.data) == tabled
    with pytest.raises(NoText):
        # a round has a table
        text_of(text.data)


def test_the_tables_of_a_round_without_its_scores():
    results = NO_RESULTS + b"1,1,2,3,2,1,0\n1,0,4,0,2,0,0\n2,1,4,2,,,\n2,0,3,0,2,0,0\n"
    assert tables_of(results, 1) == NO_RESULTS + b"1,1,2,3,,,\n1,0,4,0,2,0,0\n"
    assert tables_of(results, 2) == NO_RESULTS + b"2,1,4,2,,,\n2,0,3,0,2,0,0\n"


def test_lists_are_cut_in_one_way():
    lists = Lists(PLAYERS, DRAWN)
    assert lists_of(lists.data) == lists
    for wrong in (b"", PLAYERS, lists.data[1:], lists.data[:-1], lists.data.replace(b"results.csv\n", b"")):
        with pytest.raises(NoText):
            lists_of(wrong)


def test_a_changed_text_is_no_text_or_another_one():
    """Changes of what stands for itself, K, `after`, `by`, `instead` and the tables, make another text."""
    dice, data = random.Random(20261129), OF_SEVEN.data
    refused = 0
    for at in range(len(data)):
        for put in (b"0", b"7", b"a", b",", b" ", b"\n", b""):
            changed = data[:at] + put + data[at + 1 :]
            if changed == data:
                continue
            try:
                assert text_of(changed).sum != OF_SEVEN.sum
            except NoText:
                refused += 1
    assert refused > 2900
    whole = [
        b"\xef\xbb\xbf" + data,
        data.replace(b"\n", b"\r\n"),
        data + b"\n",
        data + b"end\n",
        data.replace(OF_SEVEN.key.encode(), OF_SEVEN.key.upper().encode()),
        data[: dice.randrange(len(data))],
        b"",
    ]
    for wrong in whole:
        with pytest.raises(NoText):
            text_of(wrong)


def test_rules():
    rule = rule_of("each 4d20")
    assert rule and (rule.fault_of("3 8 11 17"), rule.fault_of("1 1 1 1 1")) == ("", "")
    assert rule.fault_of("3 8 11") == rule.fault_of("3 8 11 21")
    assert rule.fault_of("3 8 11") == "The rule is each 4d20: 4 values or more, each from 1 to 20"
    assert rule.example == "pair 17 3 8 11"
    assert rule_of("each papers").fault_of("815 4711") == "" != rule_of("each papers").fault_of("4711")
    assert rule_of("once 8d6").is_once and not rule.is_once and rule_of("off").is_off
    ended = rule_of("once 4d20").ended
    assert (ended.text, ended.is_off, ended.is_once) == ("off after once 4d20", True, True)
    assert rule_of(ended.text) == ended == ended.ended and not rule.ended.is_once
    wrong = "", "4d20", "each 1d20", "each 21d20", "each 4d1", "each 04d20", "once papers", "each 4d20 "
    wrong += "off after off", "off after each 1d20", "off each 4d20"
    assert [rule_of(it) for it in wrong] == [None] * len(wrong)
    examples = [rule_of(it).example for it in ("each 8d6", "each 20d4", "each papers")]
    for text, example in zip(("each 8d6", "each 20d4", "each papers"), examples):
        assert rule_of(text).fault_of(number_of(example.split()[1:])) == ""
