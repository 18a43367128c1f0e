"""What the documents show: in each block of kind `console` the lines after `$` are typed, where `event_reporter` is the program as it is built. What they
print, errors too, has to be what stands beneath them.
"""
import glob
import os
import re

import pytest

from tests.support.tour import BLOCK, TOURS, Tour, is_left_out, steps_of
from tools import TOP


@pytest.fixture
def tour(program, room):
    tour = Tour(room, program.path)
    yield tour
    tour.end()


@pytest.mark.parametrize("documents", TOURS, ids=" ".join)
def test_documents(tour, documents):
    for document in documents:
        with open(f"{TOP}/{document}", encoding="utf-8") as file:
            blocks = BLOCK.findall(file.read())
        assert blocks, f"{document} shows something"
        for typed, shown in (step for block in blocks for step in steps_of(block)):
            if is_left_out(typed):
                pytest.skip(f"{document} from `{typed}` on, as curl is not installed")
            assert tour.run(typed, shown) == shown, typed


# ---- what they lead to

FENCED = re.compile(r"^ *```.*?^ *```$", re.M | re.S)
DOCUMENTS = sorted(
    os.path.relpath(it, TOP)
    for kind in (
        "*.md",
        "docs/*.md",
        "companions/*.md",
        "scripts/*.md",
        "tools/*/*.md",
        "tests/*.md",
        "tests/*/*.md",
    )
    for it in glob.glob(f"{TOP}/{kind}")
)


def prose_of(document):
    with open(f"{TOP}/{document}", encoding="utf-8") as file:
        return FENCED.sub("", file.read())


def anchors_of(document):
    """The headings, by the names under which they are led to."""
    headings = re.findall("^#+ (.*)$", prose_of(document), re.M)
    return {re.sub(r"[^\w\- ]", "", it.lower()).replace(" ", "-") for it in headings}


@pytest.mark.parametrize("document", DOCUMENTS)
def test_links(document):
    for path, anchor in re.findall(r"\]\(([^)#:\s]*)(?:#([^)\s]*))?\)", prose_of(document)):
        target = os.path.normpath(os.path.join(os.path.dirname(document), path)) if path else document
        assert os.path.exists(f"{TOP}/{target}"), f"{path} is there"
        assert not anchor or anchor in anchors_of(target), f"{path}#{anchor} is there"
    assert prose_of(document).count("```") == 0, "each block ends"
