"""Lists of players as people have them, and names that look alike, at the prompt."""
import os

import pytest

from second_reading.plain_file import read
from tests.support.plain_page import parted
from tests.support.program import laid
from tests.support.prompt import check_said
from tests.support.random_evenings import HOSTILE


LISTS = [
    (
        "a column Name",
        "Club,Name,Age\nOwls,Ana Lima,7\n,Bo,\n".encode(),
        ["Ana Lima", "Bo"],
        "UTF-8, commas, the column Name",
    ),
    (
        "first and last",
        "Nr;Last name;First Name\n1;Lima;Ana\n2;Sato;Bo\n".encode("cp1252"),
        ["Ana Lima", "Bo Sato"],
        "semicolons, the columns First Name and Last name",
    ),
    ("cp1252", "name;x\nZo\xeb;\nO\x92Neil;\n".encode("latin-1"), ["Zoë", "O’Neil"], "cp1252, semicolons"),
    (
        "a mark and CR LF",
        "\ufeffName\r\nZoë\r\nLima, Ed\r\n".encode(),
        ["Zoë", "Lima, Ed"],
        "UTF-8, the column Name",
    ),
    ("UTF-16 with TABs", "First\tLast\nZoë\t大会\n".encode("utf-16"), ["Zoë 大会"], "UTF-16, TABs"),
    ("UTF-16 without a mark", "Name,x\nZoë,1\n".encode("utf-16-le"), ["Zoë"], "UTF-16, commas"),
    ("a line for a spreadsheet", 'sep=;\nName;Club\n"Lima; Ed";Owls\n'.encode(), ["Lima; Ed"], "semicolons"),
    (
        "quotes and an empty line",
        b'name\n"Lima, ""Ed"""\n\n=1+1\n-x\n',
        ['Lima, "Ed"', "=1+1", "-x"],
        "the column name",
    ),
    (
        "names of many kinds",
        ("name\n" + "".join('"{}"\n'.format(it.replace('"', '""')) for it in HOSTILE)).encode(),
        [" ".join(it.split()) for it in HOSTILE],
        "UTF-8",
    ),
]


@pytest.mark.parametrize("data, names, how", [pytest.param(*rest, id=name) for name, *rest in LISTS])
def test_list(prompt, room, data, names, how):
    """Lists as people have them. The program gets one that it takes."""
    file, path = f"{room}/e.event", laid(room, "list.csv", data)
    text = prompt.said(file, "init E 3 0", f"import {path}", "n", f"import {path}", "y", f"import {path}")
    check_said(
        "a list",
        text,
        how,
        "Nobody was enrolled.",
        f"added {len(names)} already 0",
        "It would enrol nobody.",
        f"{len(names)} enrolled already.",
    )
    assert read(file).names == names, "who is enrolled"


def test_rows_that_are_left_out(prompt, room):
    rows = ["Name", "Ana", "", "Bo", "Ana", "x" * 61, "bad\x01one", "Ana "]
    file, path = f"{room}/rows.event", f"{room}/rows.csv"
    with open(path, "w") as it:
        it.write("\n".join(f"{row},club" if row != "Name" else "Name,Club" for row in rows) + "\n,\n")
    text = prompt.said(file, "init E 3 0", "enrol Bo", f"import {path}", "y")
    left = [
        "row 3: no name",
        "row 5: Ana, as in row 2",
        "Ana (2)",
        "row 6: x",
        "more than 60 bytes",
        "row 7: bad\\x01one",
        "row 8: Ana, as in row 2",
    ]
    check_said(
        "rows that are left out",
        text,
        "It would enrol:\n  Ana\n",
        "1 enrolled already.",
        "Left out:",
        *left,
        "Enrol 1 player?",
        "added 1 already 0",
    )
    assert read(file).names == ["Bo", "Ana"], "rows that are left out, who is enrolled"
    for name, data, words in (
        ("a spreadsheet", b"PK\3\4....", "Save it there as CSV"),
        ("no heading", b"Ana\nBo\n", "no column Name"),
        ("nothing", b"", "no column Name"),
        ("other letters", b"name\n\x81\n", "neither UTF-8"),
    ):
        with open(path, "wb") as it:
            it.write(data)
        check_said(f"a list, {name}", prompt.said(file, f"import {path}"), words)
    for word, words in (
        ("", "as: import names.csv"),
        (f"{room}/none.csv", "was not read: No such file"),
        (room, "was not read: Is a directory"),
    ):
        check_said(f"a list, {word}", prompt.said(file, f"import {word}"), words)
    with open(path, "w") as it:
        it.write("name\n" + "".join(f"P{at}\n" for at in range(513)))
    check_said(
        "a list of 513",
        prompt.said(file, f"import {path}", "y"),
        "Enrol 513 players?",
        "bad csv row 513",
        "Nobody was enrolled.",
    )
    with open(path, "wb") as it:
        it.write(b"name\n" + b"x\n" * 2_000_000)
    check_said(
        "a list that is far too long",
        prompt.said(file, f"import {path}"),
        "is too long for a list of players.",
    )
    assert read(file).names == ["Bo", "Ana"], "lists that are turned down"


def test_names(prompt, room):
    """Names that look alike are asked for, letters that are guessed are said to be, and a wrong name is put right."""
    file, path = f"{room}/e.event", f"{room}/list.csv"
    prompt.said(file, "init E 3 0", "enrol Zo\u00eb", "enrol Petr Mayer", "enrol Cy", "enrol Di")
    text = prompt.said(file, "enrol Zoe\u0308", "n", "enrol cy", "y", "enrol  Di")
    pieces = [
        "Zo\u00eb (1) looks the same",
        "Nobody was enrolled.",
        "Cy (3) looks the same",
        "cy (5) is enrolled.",
        "refused 2 NameTaken",
    ]
    check_said("names that look alike", text, *pieces)
    with open(path, "wb") as it:
        it.write("Name\nDI\nAb\n\u0141uk\nab\n".encode("cp1250"))
    text = prompt.said(file, f"import {path}", "n", f"import {path} cp1250", "y", "n")
    pieces = [
        ": cp1250",
        "Its letters are a guess.",
        " cp1252\n",
        "It would enrol:\n  \u0141uk\n  Ab\n",
        "row 2: DI, beside Di",
        "row 5: ab, beside Ab",
    ]
    check_said("a guess", text, *pieces)
    check_said(
        "an encoding that is named",
        text,
        ": cp1250",
        "It would enrol:\n  Ab\n  \u0141uk\n",
        "Enrol 2 players?",
        "Enrol also 2 players who may be there",
    )
    check_said(
        "a list of names that are there",
        prompt.said(file, f"import {path} cp1250", "n"),
        "It would enrol nobody.",
        "Nobody was enrolled.",
    )
    assert read(file).names == [
        "Zo\u00eb",
        "Petr Mayer",
        "Cy",
        "Di",
        "cy",
        "Ab",
        "\u0141uk",
    ], "a list, who is enrolled"
    text = prompt.said(
        file, "rename 2 Peter Meyer", "players", "rename 9 X", "rename 3 di", "rename 4", "where"
    )
    check_said(
        "a name before the start",
        text,
        "back 1",
        "Petr Mayer (2) is Peter Meyer now.",
        "   2   Peter Meyer",
        "No player has number 9",
        "has this name",
    )
    check_said(
        "a name before the start, the plan",
        text,
        "as: rename 4 Peter Meyer",
        "7 players so far",
        "3 rounds, no cut",
    )
    assert read(file).names == [
        "Zo\u00eb",
        "Peter Meyer",
        "Cy",
        "Di",
        "cy",
        "Ab",
        "\u0141uk",
    ], "a name before the start, the file"
    copies = [it for it in os.listdir(f"{file}.copies") if it.endswith(".event")]
    assert [read(f"{file}.copies/{it}").names[1] for it in copies] == [
        "Petr Mayer"
    ], "a name before the start, the old file"
    text = prompt.said(
        file, "start", "pair", "rename 3 Cyril", "players", "standings", "round 1", "who cyr", "drop 3", "n"
    )
    check_said(
        "a name after the start",
        text,
        "Cy (3) is shown as Cyril",
        "   3   Cyril\n",
        " Cyril\n",
        "Cyril",
        "   3   Cyril",
        "Drop Cyril (3)?",
    )
    assert read(file).names[2] == "Cy", "a name after the start, the file"
    check_said(
        "the enrolled name again",
        prompt.said(file, "rename 3 Cy", "players"),
        "Cyril (3) is shown as Cy",
        "   3   Cy\n",
    )


def test_last_names_that_a_list_does_not_tell(prompt, room):
    """Under which word lists have them is said, and what is typed where that is another one."""
    file = f"{room}/e.event"
    with open(f"{room}/list.csv", "w", encoding="utf-8") as it:
        it.write("Name\nAna Lima\nPaul García Pérez\nAnna Maria Smith\n")
    text = prompt.said(file, "init E 3 0", f"import {room}/list.csv", "y", "rename 2 García Pérez, Paul")
    said = "Lists by name have:\n   2  Pérez, Paul García\n   3  Smith, Anna Maria\n"
    check_said(
        "under the last word", text, said, "so:\n  rename 2 García Pérez, Paul\n", "García Pérez, Paul now."
    )
    assert max(map(len, text[text.index("This list") :].split("\n"))) <= 80
    assert parted(read(file).names[1]) == ("García Pérez", "Paul"), "under the word that was typed"
    with open(f"{room}/list.csv", "w", encoding="utf-8") as it:
        it.write("Name\n" + "".join(f"Jo Lima Sato{at}\n" for at in "abcdefghij"))
    text = prompt.said(file, f"import {room}/list.csv", "y")
    check_said("many", text, "  11  Satoh, Jo Lima\n  and 2 more\n")


def test_last_names_that_a_list_has_apart(prompt, room):
    """They are kept for lists by name, go along with another name that has them still, and are gone with the player."""
    file = f"{room}/e.event"
    with open(f"{room}/list.csv", "w", encoding="utf-8") as it:
        it.write("First name,Last name\nAna,Lima\nPieter-Jan,van der Berg\nJosé,García Pérez\n")
    kept = lambda: open(f"{file}.names", encoding="utf-8").read()
    prompt.said(file, "init E 3 0", f"import {room}/list.csv", "y")
    assert (
        kept()
        == "2\tPieter-Jan van der Berg\tPieter-Jan van der Berg\tvan der Berg\n3\tJosé García Pérez\tJosé García Pérez\tGarcía Pérez\n"
    )
    prompt.said(
        file, "rename 2 Piet van der Berg", "y", "remove 1", "y", "start", "rename 2 Pepe García Pérez", "y"
    )
    assert (
        kept()
        == "1\tPiet van der Berg\tPiet van der Berg\tvan der Berg\n2\tJosé García Pérez\tPepe García Pérez\tGarcía Pérez\n"
    )
