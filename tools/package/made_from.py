"""What a release is made from: the commit, the built program, and whether the two belong together."""
import os
import re
import subprocess

import tools
from tools import TOP
from tools.gate.progress import under_way

PROGRAM = "crates/event_reporter/out/event_reporter"
PACKED = ("README.md", "CHANGELOG.md", "docs", "examples", "companions", "tools/package")


class Unfit(Exception):
    """Why nothing is made."""


def output(*words):
    return subprocess.run(words, cwd=TOP, stdout=subprocess.PIPE, check=True, text=True).stdout.strip()


def read(path):
    with open(os.path.join(TOP, path), "rb") as file:
        return file.read()


def version():
    """The version that the built program prints. It has to be that of the sources."""
    printed = output(f"{TOP}/{PROGRAM}", "--version").split(" ")[-1]
    written = tools.version()
    if printed != written:
        raise Unfit(
            f"the program prints version {printed}, and the sources have {written}. Build it: sh scripts/build"
        )
    return printed


def commit():
    return output("git", "rev-parse", "HEAD")


def epoch():
    """The time that all files get: that of the commit, or SOURCE_DATE_EPOCH."""
    return int(os.environ.get("SOURCE_DATE_EPOCH") or output("git", "log", "-1", "--format=%ct"))


def maintainer():
    return os.environ.get("MAINTAINER") or output("git", "log", "-1", "--format=%an <%ae>")


def glibc():
    """The lowest version of glibc that has each symbol that the program asks for, by the versions named in it."""
    return max(re.findall(rb"\0GLIBC_2\.(\d+)(?=\0)", read(PROGRAM)), key=int).decode()


def must_not_be_building():
    how_far = under_way()
    if how_far:
        raise Unfit(f"a build of the program is at work: {how_far}. Once it has ended: bash scripts/release")


def must_be_built():
    if not os.access(f"{TOP}/{PROGRAM}", os.X_OK):
        must_not_be_building()
        raise Unfit("the program isn't built. Build it: sh scripts/build")


def newer_source():
    prune = ("(", "-name", "out", "-o", "-name", "er_*test*", ")", "-prune")
    found = output("find", "crates", *prune, "-o", "-name", "*.rt", "-newer", PROGRAM, "-print")
    return found.split("\n")[0]


def changes():
    """What no commit has: a change anywhere, or a new file where the list may take it."""
    tracked = output("git", "status", "--porcelain", "--untracked-files=no")
    return tracked or output("git", "status", "--porcelain", "--", *PACKED)


def why_draft():
    """Why what is made from this checkout can't be a release, or nothing."""
    newer, changed = newer_source(), changes()
    if newer:
        return f"a source is newer than the program: {newer}"
    return f"the checkout has changes that no commit has:\n{changed}" if changed else ""
