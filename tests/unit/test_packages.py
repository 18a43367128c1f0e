"""Asks that what names packages of Debian names those of scripts/packages.txt, by which they are installed."""
import glob
import os
import re

from event_companions.phones.main import NEEDED, USEFUL
from tools import TOP
from tools.package.debian import RECOMMENDS
from tools.packages import modules, packages

PLACES = (
    "README.md",
    "pyproject.toml",
    "scripts/README.md",
    "docs/*.md",
    "companions/**/*.py",
    "tests/**/*.py",
)


def text_of(path):
    with open(os.path.join(TOP, path), encoding="utf-8") as text:
        return text.read()


def named():
    """Returns the packages of Python that any place names, each with the places."""
    found = {}
    for place in PLACES:
        for path in glob.glob(f"{TOP}/{place}", recursive=True):
            place = os.path.relpath(path, TOP)
            for package in re.findall(r"\bpython3-[a-z0-9-]*[a-z0-9]", text_of(place)):
                found.setdefault(package, set()).add(place)
    return found


def test_each_is_in_the_list():
    assert {it: places for it, places in named().items() if it not in packages()} == {}
    assert "docs/PHONES.md" in named()["python3-segno"]


def test_tests_name_a_module_and_its_package():
    pairs = {
        (package, module)
        for path in glob.glob(f"{TOP}/tests/*/*.py")
        for module, package in re.findall(r'module="(\w+)", package="([\w-]+)"', text_of(path))
    }
    assert pairs and pairs <= modules("tests", "companions").items()


def test_the_companions_name_a_module_and_its_package():
    assert {(package, module) for module, package in NEEDED + USEFUL} <= modules("companions").items()


def test_all_that_the_companions_use_is_recommended():
    assert set(RECOMMENDS.split(", ")) == {*modules("companions"), "openssl"}
    line = re.search(r"^sudo apt-get install ((?:.*\\\n)*.*)$", text_of("docs/TESTING.md"), re.M)[1]
    assert line.replace("\\", "").split() == [*modules("companions")]
