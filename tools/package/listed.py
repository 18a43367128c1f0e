"""Reads `tools/package/files`, the one list of what is installed."""
import collections
import glob
import os

from tools import TOP

LIST = f"{TOP}/tools/package/files"
LINK = "link"

# one file: its mode in octal digits, or `link`; its source in the checkout, or what the link leads to; its mark, if it has one; its place below the prefix
Entry = collections.namedtuple("Entry", "mode source mark place")


class BadList(Exception):
    """A line of the list that can't be followed."""


def sources(pattern):
    """Each file that a source of the list names, with what its name is below a folder."""
    if pattern.endswith("/"):
        for folder, folders, names in os.walk(f"{TOP}/{pattern}"):
            folders[:] = [name for name in folders if name != "__pycache__"]
            for name in names:
                if not name.startswith(".") and not name.endswith("~"):
                    path = os.path.relpath(f"{folder}/{name}", TOP)
                    yield path, os.path.relpath(path, pattern)
    elif "*" in pattern:
        for path in glob.glob(f"{TOP}/{pattern}"):
            yield os.path.relpath(path, TOP), os.path.basename(path)
    else:
        yield pattern, os.path.basename(pattern)


def entries():
    """Each file of the list, by its place."""
    found = {}
    with open(LIST, encoding="utf-8") as lines:
        for line in lines:
            if line.startswith("#"):
                continue
            mode, source, place = line.split()
            mark, _, place = place.rpartition(":")
            named = [(source, "")] if mode == LINK or source == "-" else list(sources(source))
            if not named:
                raise BadList(f"{LIST}: nothing is named {source}")
            for path, name in named:
                whole = place + name if place.endswith("/") else place
                if whole in found:
                    raise BadList(f"{LIST}: two lines have {whole}")
                found[whole] = Entry(mode, path, mark, whole)
    return [found[place] for place in sorted(found)]
