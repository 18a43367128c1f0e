import csv

import pytest
from event_companions.core.program import Declined
from event_companions.core.rosters import path_and_codec, read_list, roster_of, tidy, written_list
from tests.support.random_evenings import HOSTILE

# as COMMANDS shows them
CLUB = b"Club;First name;Last name\nOwls;Gus;Lima\n;Hal;Sato\n;Gus;Lima\n"


def test_the_list_of_the_document():
    roster = roster_of(CLUB, set())
    assert roster.how == "UTF-8, semicolons, the columns First name and Last name"
    assert roster.names == ["Gus Lima", "Hal Sato"]
    assert roster.left_out == [
        "row 4: Gus Lima, as in row 2. If these are two, tell them apart,\n         as: Gus Lima (2)"
    ]


@pytest.mark.parametrize(
    "rows, told",
    [
        # the row's own club, and never that of the row before
        (["Jo,Owls", "Jo,Falken"], ["Jo (Falken)"]),
        (["Jo,", "Jo,Falken", "Jo,Falken", "Jo,Owls"], ["Jo (Falken)", "Jo (2)", "Jo (Owls)"]),
        (["Jo,Owls", "Jo, owls", "Jo,"], ["Jo (2)", "Jo (3)"]),
        # a name that somebody has already tells nobody apart
        (["Jo,Owls", "Jo (Falken),", "Jo,Falken"], ["Jo (2)"]),
        (["Jo,Owls", "Jo," + "x" * 60], ["Jo (2)"]),
        (["Jo,Owls", "Jo"], ["Jo (2)"]),
    ],
)
def test_two_of_one_name_are_told_apart_by_their_own_club(rows, told):
    roster = roster_of("\n".join(["Name,Club", *rows, ""]).encode(), set())
    assert [line.split("as: ")[1] for line in roster.left_out] == told


def test_enrolled_names_tell_nobody_apart():
    roster = roster_of(b"Name,Team\nJo,Owls\nJo,Falken\n", {"Jo (Falken)", "Jo (2)"})
    assert roster.left_out[0].endswith("as: Jo (3)")


@pytest.mark.parametrize(
    "text, tidied",
    [
        (" \u00a0Ann\u00a0 Two\u3000", "Ann Two"),
        ("Ann\u2003\u2009\u202f\u205f\u1680\u2028Two", "Ann Two"),
        # joiners make other letters of those beside them
        ("\u0645\u06cc\u200c\u062e\u0648\u0627\u0647", "\u0645\u06cc\u200c\u062e\u0648\u0627\u0647"),
        ("\u0d95\u0dca\u200d\u0dbb\u0dd3", "\u0d95\u0dca\u200d\u0dbb\u0dd3"),
    ],
)
def test_spaces_of_any_kind_are_one_space(text, tidied):
    assert tidy(text) == tidied


@pytest.mark.parametrize(
    "data, names",
    [
        (b"name\nAna\nBo\n", ["Ana", "Bo"]),
        (b"no,name,dropped\n1,Ana,0\n", ["Ana"]),
        ("\ufeffName\r\nZoë\r\nLima, Ed\r\n".encode(), ["Zoë", "Lima, Ed"]),
        ("First\tLast\nZoë\t大会\n".encode("utf-16"), ["Zoë 大会"]),
        ("Name,x\nZoë,1\n".encode("utf-16-le"), ["Zoë"]),
        (b'sep=;\nName;Club\n"Lima; Ed";Owls\n', ["Lima; Ed"]),
        (b"\n\nPlayer Name,Club\n  Ana   Lima ,Owls\n,\n", ["Ana Lima"]),
        (b"LAST_NAME,FIRST-NAME\nLima,Ana\n", ["Ana Lima"]),
    ],
)
def test_lists_as_people_have_them(data, names):
    assert roster_of(data, set()).names == names


@pytest.mark.parametrize(
    "data, said",
    [
        (b"PK\3\4....", "Save it there as CSV"),
        (b"Ana\nBo\n", "no column Name"),
        (b"", "no column Name"),
        (b"Club,Age\nOwls,7\n", "no column Name"),
        (b'Name\n"Ana\nBo\n', "in the middle of a name in quotes"),
        (b'Name;Club\nAna;Owls\n"Bo;', "in the middle of a name in quotes"),
    ],
)
def test_what_is_no_list_of_players(data, said):
    with pytest.raises(Declined, match=said):
        roster_of(data, set())


def test_names_that_look_like_others_are_asked_for():
    roster = roster_of("Name\nZoe\u0308\nana\nAna\nBo\n".encode(), {"Zo\u00eb"})
    assert [(it.place, it.name, it.other) for it in roster.alike] == [
        (2, "Zoe\u0308", "Zo\u00eb"),
        (4, "Ana", "ana"),
    ]
    assert roster.names == ["ana", "Bo"]


def test_letters_that_are_guessed():
    data = "Name\n\u0141ukasz Wi\u015bniewski\n".encode("cp1250")
    assert roster_of(data, set()).is_guess
    roster = roster_of(data, set(), "cp1250")
    assert (roster.names, roster.is_guess) == (["\u0141ukasz Wi\u015bniewski"], False)
    assert not roster_of("Name\nZo\u00eb\n".encode(), set()).is_guess


@pytest.mark.parametrize(
    "names, codec",
    [
        (["Zo\u00eb M\u00fcller", "Jos\u00e9 N\u00fa\u00f1ez", "O\u2019Neil"], "cp1252"),
        (["\u0141ukasz Wi\u015bniewski", "Bo\u0159ivoj Nov\u00e1kov\u00e1"], "cp1250"),
        (["\u0141ukasz"], "cp1250"),
    ],
)
def test_guesses_that_need_no_package(names, codec):
    assert roster_of("\n".join(["Name", *names, ""]).encode(codec), set()).names == names


def test_an_encoding_after_the_path(tmp_path):
    with open(f"{tmp_path}/my list.csv", "w") as written:
        written.write("name\n")
    path = f"{tmp_path}/my list.csv"
    assert path_and_codec(path) == (path, "")
    assert path_and_codec(f"{path} cp1250") == (path, "cp1250")
    assert path_and_codec(f"{path} nonesuch") == (f"{path} nonesuch", "")


def test_a_path_that_is_none():
    for path, said in (("a\0b", "no name of a file"), ("/none/there.csv", "was not read: No such file")):
        with pytest.raises(Declined, match=said):
            read_list(path)


def test_rows_that_are_left_out_are_counted_as_a_spreadsheet_does():
    roster = roster_of(b"Name,Club\nAna,x\n,x\nBo,x\nAna,x\n" + b"x" * 61 + b",x\nbad\x01one,x\n,\n", {"Bo"})
    assert (roster.names, roster.already) == (["Ana"], ["Bo"])
    assert [line.split(":")[0] for line in roster.left_out] == ["row 3", "row 5", "row 6", "row 7"]


def test_the_program_gets_a_list_that_csv_reads_back():
    names = [" ".join(name.split()) for name in HOSTILE]
    with written_list(names) as path, open(path, encoding="utf-8", newline="") as written:
        assert list(csv.reader(written)) == [["name"], *([name] for name in names)]


def test_last_names_are_kept_if_the_last_word_is_not_all_of_them():
    rows = "First,Last", "Ana,Lima", "José María,García Pérez", "Pieter-Jan,van der Berg", "Zoë,"
    roster = roster_of("\n".join([*rows, ""]).encode(), set())
    assert roster.lasts == {
        "José María García Pérez": "García Pérez",
        "Pieter-Jan van der Berg": "van der Berg",
    }
    assert roster.unparted == set(), "all last names are told"
    alone = roster_of(b"Name\nJo van der Berg\nAna Lima\n", set())
    assert (alone.lasts, alone.unparted) == ({}, {"Jo van der Berg"})
