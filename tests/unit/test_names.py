import pytest
from event_companions.core.lists import Player
from event_companions.core.names import (
    Listed,
    all_but_the_first,
    compared,
    found_by,
    listed,
    may_lead_earlier,
    plain,
    sort_key,
    visible,
)
from event_companions.sheets.parts import name_rows
from tests.support.plain_page import folded, parted
from tests.support.random_evenings import FIRST_NAMES, HOSTILE


@pytest.mark.parametrize(
    "name, shown",
    [
        ("Zoë <b>", "Zoë <b>"),
        ("محمد", "محمد"),
        ("\u202eesrever", "\\u202eesrever"),
        ("\x1b[31mred", "\\x1b[31mred"),
        ("\u009b31m red", "\\x9b31m red"),
        ("a\u2028b\u0085c", "a\\u2028b\\x85c"),
        ("bell\x07", "bell\\x07"),
    ],
)
def test_names_are_made_visible(name, shown):
    assert visible(name) == shown


def test_a_visible_name_moves_nothing():
    for name in HOSTILE:
        assert not [
            letter
            for letter in visible(name)
            if letter in "\u202a\u202b\u202c\u202d\u202e\u2066\u2067\u2068\u2069\u2028\u2029\r\n\t\x1b"
        ]


def test_names_are_looked_for_without_accents_and_letter_case():
    assert plain("Óscar ÉMILE") == "oscar emile"
    assert plain("Zoe\u0308") == plain("Zoë") == "zoe"


LETTERS = [
    *map(chr, [*range(0xC0, 0xD7), *range(0xD8, 0xF7), *range(0xF8, 0x180)]),
    *"ẞǤǥǾǿƏəƁɓƊɗƉɖƐɛƑƒƔɣƗɨƘƙƝɲƆɔɄʉƲʋƳƴƎǝƠơƯư",
]


def test_each_letter_of_a_latin_alphabet_is_typed_with_26():
    for letter in LETTERS:
        assert plain(letter).isascii() and plain(letter), letter
        assert plain(letter) == folded(letter), letter


@pytest.mark.parametrize(
    "typed, name",
    [
        ("lukasz", "Łukasz Wiśniewski"),
        ("soren", "Søren Æbelø"),
        ("aebelo", "Søren Æbelø"),
        ("ostergard", "Øystein Østergård"),
        ("djordje dordevic", "Djordje Đorđević"),
        ("isik", "Ayşe IŞIK"),
        ("isik", "Ayşe ışık"),
        ("strasse", "Hugo STRAẞE"),
        ("thorunn gudmundsdottir", "Þórunn Guðmundsdóttir"),
        ("aliyev", "Aliyev Elçin"),
        ("obrien", "Pat O'Brien"),
        ("o'brien", "Pat O’Brien"),
        ("o’brien", "Pat O'Brien"),
        ("o´brien", "Pat O'Brien"),
        ("O`BRIEN", "Pat OBrien"),
        ("annalena", "Anna-Lena Voss"),
        ("anna-lena", "Anna Lena Voss"),
        ("lena voss", "Anna\u2010Lena Voss"),
        ("smith anna", "Anna Smith"),
        ("Smith, Anna", "Anna Smith"),
        ("ann two", "Ann  Two"),
        ("ann\u00a0two", "Ann Two"),
        ("ann two", "Ann\u2003Two"),
        ("owls", "Bo (Owls)"),
        ("galla", "Gal·la"),
        ("大会", "大会 Zoë"),
    ],
)
def test_who_is_found(typed, name):
    assert found_by(typed, [name, "Jo Qux"], str) == [name]


NAMES = [
    "Paul Hoffmann",
    "Lea Annis",
    "Anna Smith",
    "Eva Neumann",
    "Holm Ann",
    "Ann",
    "Annika Holm",
    "Pat O'Brien",
    "-x",
]


@pytest.mark.parametrize(
    "typed, found",
    [
        (
            "ann",
            ["Ann", "Anna Smith", "Annika Holm", "Lea Annis", "Holm Ann", "Paul Hoffmann", "Eva Neumann"],
        ),
        ("anna s", ["Anna Smith"]),
        ("smith a", ["Anna Smith"]),
        ("holm ann", ["Holm Ann", "Annika Holm"]),
        ("mann e", ["Eva Neumann"]),
        ("brien", ["Pat O'Brien"]),
        ("", NAMES),
        ("-", ["-x"]),
        ("x-", ["-x"]),
        ("quux", []),
    ],
)
def test_names_that_begin_so_come_first(typed, found):
    assert found_by(typed, NAMES, str) == found


SPACES = [chr(it) for it in range(0x110000) if chr(it).isspace()]


@pytest.mark.parametrize(
    "one, other, is_alike",
    [
        *((f"Ann{space}Two", "Ann Two", True) for space in SPACES),
        ("Ann  Two", "Ann Two", True),
        (" Ann Two\u00a0", "Ann Two", True),
        ("Ann\u200bTwo", "AnnTwo", True),
        ("O'Brien", "O’Brien", True),
        ("O´Brien", "O’Brien", True),
        ("Anna-Lena", "Anna\u2011Lena", True),
        ("Anna\u2013Lena", "Anna-Lena", True),
        ("Anna-Lena", "Anna Lena", False),
        ("OBrien", "O'Brien", False),
        ("Łukasz", "Lukasz", False),
        ("Ann Two", "AnnTwo", False),
    ],
)
def test_names_that_look_alike_whatever_stands_between_letters(one, other, is_alike):
    assert (compared(one) == compared(other)) == is_alike


def test_a_name_stands_where_people_look_for_it():
    names = [
        "Ada",
        "Ærø",
        "Ali",
        "Dina",
        "Đorđe",
        "Eva",
        "Lena",
        "Łukasz",
        "Mo",
        "Obama",
        "O'Brien",
        "Ödön",
        "Olga",
        "Øystein",
        "Pia",
        "Zoé",
    ]
    assert sorted(reversed(names), key=sort_key) == names


def test_names_are_sorted_as_the_plain_reading_sorts_them():
    more = ["ana", "Oscar", "Lukas", "O’Brien", "Obrian", "Anna Lena", "Annalena"]
    names = [*HOSTILE, *FIRST_NAMES, *more]
    assert sorted(names, key=sort_key) == sorted(names, key=lambda name: (folded(name), name))


@pytest.mark.parametrize(
    "name, last, leads, follows",
    [
        ("Ana Lima", "", "Lima", "Ana"),
        ("Anna Maria Smith", "", "Smith", "Anna Maria"),
        ("Bo", "", "Bo", ""),
        # as a list of first and last names has told it
        ("Pieter-Jan van der Berg", "", "Berg", "Pieter-Jan van der"),
        ("Pieter-Jan van der Berg", "van der Berg", "van der Berg", "Pieter-Jan"),
        ("Li Wei", "Li", "Li", "Wei"),
        ("Ana Lima", "Sato", "Lima", "Ana"),
        # what tells two apart stands at the end
        ("Jo Sato (Owls)", "", "Sato", "Jo (Owls)"),
        ("Jo van der Berg (2)", "van der Berg", "van der Berg", "Jo (2)"),
        ("(Owls)", "", "(Owls)", ""),
        # written so already
        ("Lima, Ana", "", "Lima", "Ana"),
        ("Lima, Ana (2)", "", "Lima", "Ana (2)"),
        ("Lima, Ana, Jo", "", "Jo", "Lima, Ana,"),
        # no word with a letter leads
        ("Player 12", "", "Player 12", ""),
        ("Ana - bye", "", "bye", "Ana -"),
    ],
)
def test_what_leads_in_a_list_by_last_name(name, last, leads, follows):
    assert listed(name, last) == Listed(leads, follows)
    assert parted(name, last) == (leads, follows)


@pytest.mark.parametrize(
    "name, longer",
    [
        ("Paul García Pérez", "García Pérez, Paul"),
        ("Anna Maria Smith", "Maria Smith, Anna"),
        ("Jo van der Berg (2)", "van der Berg, Jo (2)"),
    ],
)
def test_a_last_name_that_may_begin_before_the_word_that_leads(name, longer):
    assert may_lead_earlier(name) and all_but_the_first(name).text == longer
    # and so it is listed if it is typed so
    assert listed(longer) == all_but_the_first(name)


@pytest.mark.parametrize(
    "name", ["Bo", "Ana Lima", "Jo Berg (Owls and more)", "García Pérez, Paul", "Player number 12"]
)
def test_a_last_name_that_is_no_guess(name):
    assert not may_lead_earlier(name)


def test_the_plain_reading_parts_names_as_the_companions_do():
    for name in [
        *HOSTILE,
        *FIRST_NAMES,
        *NAMES,
        "a (b) c",
        "a (b)(c)",
        "a (b (c)",
        ",a",
        "a,",
        "a ,b",
        "a, b ",
        "x \u2028 y",
    ]:
        assert (listed(name).leads, listed(name).follows) == parted(name), name


def test_last_names_stand_where_people_look_for_them():
    """Under a letter as it is typed: Ł under L, Ø under O, Đ under D, Æ under A."""
    names = [
        "Bo Ærø",
        "Ana Åström",
        "Tim Becker",
        "Tom Becker",
        "Zoë Đorđe",
        "Eva Hoffmann",
        "Jan Łukasz",
        "Jo O'Brien",
        "Al Østergård",
        "Mia Šimák",
        "Ana Zed",
    ]
    rows = name_rows([Player(at, name, False) for at, name in enumerate(reversed(names), 1)], False)
    assert [row.player.name for row in rows] == names
    assert [row.letter for row in rows] == ["A", "", "B", "", "D", "H", "L", "O", "", "S", "Z"]
    # a Korean name, under its consonant as a letter of its own (U+3131, and not U+1100)
    assert listed("\uae40\uc9c0\uc6b0").letter == "\u3131"
    by_first = name_rows([row.player for row in rows], True)
    assert [row.name.leads for row in by_first][:3] == ["Al Østergård", "Ana Åström", "Ana Zed"]
