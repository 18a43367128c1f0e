"""Asks of the sources of the crates what no contract says."""
import glob
import os
import re

from tools import TOP
from tools.gate.contracts import code_in, lines_that_are_read

# calls of the system that take a file away, or put another in its place
REMOVES = re.compile(r"\b(remove_file|remove_dir\w*|rename|hard_link)\s*\(")


def removing(crates):
    """Returns the files of crates that take a file away, each as often as it does; but for crates of tests."""
    found = []
    for path in sorted(glob.glob(f"{crates}/*/src/**/*.rt", recursive=True)):
        name = os.path.relpath(path, crates)
        if not name.split(os.sep)[0].endswith("_tests"):
            with open(path, encoding="utf-8") as source:
                found += [name] * len(REMOVES.findall(source.read()))
    return found


def test_one_place_removes_a_file():
    assert removing(f"{TOP}/crates") == ["er_cli/src/logs.rt"]


def test_another_place_is_seen(tmp_path):
    folder = tmp_path / "er_more" / "src" / "inside"
    folder.mkdir(parents=True)
    (folder / "more.rt").write_text("let _ = fs::remove_file(rt, path);\nlet _ = fs::rename(rt, a, b);\n")
    assert removing(tmp_path) == ["er_more/src/inside/more.rt"] * 2


def test_what_is_read_is_there():
    assert all(count > 1 for _place, count in lines_that_are_read())


def test_clauses_and_comments_are_no_code():
    lines = [
        "/// Says.",
        "fn say()",
        "    ensures {",
        "        Says }",
        "{",
        "    // why",
        "",
        "    say_more()",
        "}",
    ]
    assert code_in(lines) == ["fn say()", "{", "    say_more()", "}"]
