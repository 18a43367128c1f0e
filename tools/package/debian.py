"""The same files as a package of Debian has them, with what belongs to a package besides."""
import gzip
import hashlib
import io
import os
import time

from tools import TOP, packages
from tools.package.listed import LINK
from tools.package.made_from import epoch, glibc, maintainer, read, version

PACKAGE = "event-reporter"
DOC = f"usr/share/doc/{PACKAGE}"
# the lowest glibc that has the program's symbols, and the lowest Python that the companions run on
DEPENDS = "libc6 (>= {glibc}), python3 (>= 3.8)"
RECOMMENDS = ", ".join([*packages.modules("companions"), "openssl"])
SUGGESTS = "www-browser, bash-completion, man-db"
DESCRIPTION = """\
pairings, standings and playoff of a Swiss tournament of Magic
 The scorekeeper's program for organisers, judges and players. It enrols the
 players, pairs each round, takes results and corrections, ranks everybody with
 tiebreakers, and runs a playoff to its champion. It needs no network. One event
 is one file, and what was answered `ok' is in it after a crash.
 .
 event-desk is a prompt for the scorekeeper. event-sheets makes pages to print
 and a board for the screen. event-phones takes scores from the players' phones.
 event-check is a second reading of the rules, by which anybody can check an
 event.
 .
 Each function of the program is proved to meet its contract. The file PROVED
 says which commit this is, and what was proved. The processor must have SSE4.2
 and POPCNT (x86-64-v2), as PCs since about 2010 do.
"""
COPYRIGHT = f"""\
{PACKAGE}

Copyright (C) 2026 the authors whom the history of the project names.

No licence has been chosen yet. Until the owner chooses one, nobody but the
authors may pass this package on or change it. Ask them first.
"""
OVERRIDES = f"""\
# the program is the file that was proved, built and tested, with its symbols; PROVED has its SHA-256
{PACKAGE}: unstripped-binary-or-object [usr/bin/event_reporter]
"""
# Python keeps compiled modules beside these; they are made here and taken away again, so that nothing is left when the package is removed
COMPILE = f"""\
#!/bin/sh
set -e
if [ "$1" = configure ] && command -v py3compile > /dev/null; then
    py3compile -p {PACKAGE} /usr/share/{PACKAGE}
fi
"""
CLEAN = f"""\
#!/bin/sh
set -e
if command -v py3clean > /dev/null; then
    py3clean -p {PACKAGE}
fi
"""


def packed(data):
    room = io.BytesIO()
    with gzip.GzipFile("", "wb", 9, room, mtime=0) as file:
        file.write(data)
    return room.getvalue()


def place_of(place):
    return (
        "usr/"
        + place.replace("share/zsh/site-functions/", "share/zsh/vendor-completions/")
        + (".gz" if "/man/" in place else "")
    )


def contents_of(place, data):
    if "/man/" in place:
        return packed(data)
    return (
        data.replace(b"#!/usr/bin/env python3\n", b"#!/usr/bin/python3\n", 1)
        if data.startswith(b"#!/usr/bin/env python3\n")
        else data
    )


def licence():
    """A file of this name at the top of the checkout, once the owner has chosen one."""
    named = next((name for name in ("LICENCE", "LICENSE") if os.path.exists(f"{TOP}/{name}")), None)
    return read(named) if named else COPYRIGHT.encode()


def changelog():
    day = time.strftime("%a, %d %b %Y %H:%M:%S +0000", time.gmtime(epoch()))
    head = f"{PACKAGE} ({version()}) unstable; urgency=medium"
    return f"{head}\n\n  * CHANGELOG.md says what changed for users.\n\n -- {maintainer()}  {day}\n".encode()


def installed(files):
    """Each file that the package brings, by its place below the root."""
    tree = {
        place_of(place): (mode, data if mode == LINK else contents_of(place, data))
        for place, (mode, data) in files.items()
    }
    tree[f"{DOC}/changelog.gz"] = ("0644", packed(changelog()))
    tree[f"{DOC}/copyright"] = ("0644", licence())
    tree[f"usr/share/lintian/overrides/{PACKAGE}"] = ("0644", OVERRIDES.encode())
    return tree


def control(tree):
    kilobytes = sum(-(-len(data) // 1024) for _, data in tree.values()) + len(
        {os.path.dirname(place) for place in tree}
    )
    return (
        f"Package: {PACKAGE}\nVersion: {version()}\nSection: misc\nPriority: optional\nArchitecture: amd64\n"
        f"Maintainer: {maintainer()}\nInstalled-Size: {kilobytes}\n"
        f"Depends: {DEPENDS.format(glibc=f'2.{glibc()}')}\nRecommends: {RECOMMENDS}\nSuggests: {SUGGESTS}\n"
        f"Description: {DESCRIPTION}"
    ).encode()


def tree_of(files):
    """All that dpkg-deb packs."""
    tree = installed(files)
    sums = "".join(
        f"{hashlib.md5(data).hexdigest()}  {place}\n"
        for place, (mode, data) in sorted(tree.items())
        if mode != LINK
    )
    return {
        **tree,
        "DEBIAN/control": ("0644", control(tree)),
        "DEBIAN/md5sums": ("0644", sums.encode()),
        "DEBIAN/postinst": ("0755", COMPILE.encode()),
        "DEBIAN/prerm": ("0755", CLEAN.encode()),
    }
