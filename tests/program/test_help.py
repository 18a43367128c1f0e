"""Each script that takes words says which by `--help`, and the import of a module runs nothing."""
import os
import subprocess
import sys

import pytest

from tests.support.waiting import PATIENCE
from tools import TOP

PAGES = pytest.mark.needs("scripts that draw pages", module="jinja2", package="python3-jinja2")


def text_of(module):
    with open(f"{TOP}/{module.replace('.', '/')}.py", encoding="utf-8") as file:
        return file.read()


def modules_in(folder):
    """Those that pytest doesn't run."""
    names = (
        name
        for name, ending in map(os.path.splitext, sorted(os.listdir(f"{TOP}/{folder}")))
        if ending == ".py"
    )
    return [f"{folder.replace('/', '.')}.{name}" for name in names if not name.startswith(("test_", "__"))]


FOLDERS = "tools/bench", "tests/faults", "tests/support"
MODULES = ["tools.pictures", *(it for folder in FOLDERS for it in modules_in(folder))]
TAKE_WORDS = [
    it
    for it in MODULES
    if '__name__ == "__main__"' in text_of(it)
    and ("given_by(" in text_of(it) or "parse_args(" in text_of(it))
]


def run(*words):
    ran = subprocess.run(
        [sys.executable, "-B", *words],
        cwd=TOP,
        stdin=subprocess.DEVNULL,
        capture_output=True,
        timeout=PATIENCE,
    )
    return ran.returncode, ran.stdout.decode(), ran.stderr.decode()


@PAGES
def test_an_import_runs_nothing():
    assert run("-c", f"import {', '.join(MODULES)}") == (0, "", "")


@pytest.mark.parametrize(
    "module", [pytest.param(it, marks=PAGES) if it.endswith(".pictures") else it for it in TAKE_WORDS]
)
def test_help(module):
    status, out, err = run("-m", module, "--help")
    assert (status, out.split()[:1], err) == (0, ["usage:"], "")
