"""Makes from the built program the Debian package, the tarball for other systems, and their checksums.

Both have the files that tools/package/files lists. It proves and builds nothing. The same commit and the same built program give the same bytes. It
refuses a program that is older than a source, a program whose build has left no log, and a checkout with changes.
"""
import argparse
import hashlib
import os
import re
import subprocess
import sys
import tempfile
import time

from tools import TOP
from tools.package import debian, proved
from tools.package.listed import LINK, BadList, entries
from tools.package.made_from import Unfit, epoch, must_be_built, read, version, why_draft

PACKAGE = debian.PACKAGE
DOC = f"share/doc/{PACKAGE}"
EXAMPLES = """\
examples:
  sh scripts/release                 makes them in the folder out
  sh scripts/release --to /tmp/made
  sh scripts/release --proved        shows the page PROVED
"""


def stamped(page):
    """A man page with the date and the version on its first line."""
    day = time.strftime("%Y-%m-%d", time.gmtime(epoch())).encode()
    made, count = re.subn(
        rb'\A(\.TH \S+ 1) "" "event_reporter"',
        rb'\1 "%s" "event_reporter %s"' % (day, version().encode()),
        page,
    )
    if not count:
        raise Unfit("a man page has another first line than release expects")
    return made


def contents(is_draft):
    """Each place below the prefix, with its mode and its bytes; of a link, what it leads to."""
    makers = {
        "": read,
        "manual": lambda source: stamped(read(source)),
        "proved": lambda _: proved.page(is_draft),
    }
    return {
        it.place: (it.mode, it.source.encode() if it.mode == LINK else makers[it.mark](it.source))
        for it in entries()
    }


def write_tree(room, tree):
    """Writes the files with modes and times that depend on nothing else."""
    for place, (mode, data) in sorted(tree.items()):
        path = f"{room}/{place}"
        os.makedirs(os.path.dirname(path), exist_ok=True)
        if mode == LINK:
            os.symlink(data, path)
        else:
            with open(path, "wb") as file:
                file.write(data)
            os.chmod(path, int(mode, 8))
    for folder, _, names in os.walk(room, topdown=False):
        # the outermost too, which a package has as `./`
        os.chmod(folder, 0o755)
        for path in (*(f"{folder}/{name}" for name in names), folder):
            os.utime(path, (epoch(), epoch()), follow_symlinks=False)


def make_package(files, to):
    path = f"{to}/{PACKAGE}_{version()}_amd64.deb"
    with tempfile.TemporaryDirectory() as room:
        os.mkdir(f"{room}/tree", 0o755)
        write_tree(f"{room}/tree", debian.tree_of(files))
        # one thread, since several cut the text in pieces by how many they are
        fixed = {**os.environ, "SOURCE_DATE_EPOCH": str(epoch()), "DPKG_DEB_THREADS_MAX": "1"}
        words = ["dpkg-deb", "--root-owner-group", "-Zxz", "-z6", "--build", f"{room}/tree", path]
        subprocess.run(words, env=fixed, check=True, stdout=subprocess.DEVNULL)
    return path


def unpacked(files):
    """What the tarball unpacks to: the files, and what installs them."""
    lines = "".join(
        f"{mode} {place}{' ' + data.decode() if mode == LINK else ''}\n"
        for place, (mode, data) in sorted(files.items())
    )
    scripts = {name: ("0755", read(f"scripts/{name}")) for name in ("install", "uninstall")}
    return {
        **files,
        **scripts,
        "files": (
            "0644",
            f"# What install puts below the prefix: mode and place, or a link and what it leads to.\n{lines}".encode(),
        ),
    }


def make_tarball(files, to):
    name = f"{PACKAGE}-{version()}"
    path = f"{to}/{name}-x86_64-linux.tar.gz"
    with tempfile.TemporaryDirectory() as room:
        os.mkdir(f"{room}/{name}")
        write_tree(f"{room}/{name}", unpacked(files))
        # not by Python's own tarfile, whose bytes are those of its version
        words = [
            "tar",
            "--format=ustar",
            "--sort=name",
            "--owner=root:0",
            "--group=root:0",
            f"--mtime=@{epoch()}",
            "-C",
            room,
            "-cf",
            "-",
            name,
        ]
        made = subprocess.run(words, stdout=subprocess.PIPE, check=True).stdout
    with open(path, "wb") as file:
        file.write(debian.packed(made))
    return path


def write_sums(paths, to):
    with open(f"{to}/SHA256SUMS", "w", encoding="utf-8") as sums:
        for path in paths:
            with open(path, "rb") as file:
                line = f"{hashlib.sha256(file.read()).hexdigest()}  {os.path.basename(path)}"
            print(line)
            print(line, file=sums)


def dead_links(files):
    """What the installed documents lead to and the list doesn't have."""
    for place, (mode, data) in files.items():
        if place.endswith(".md") and mode != LINK:
            for target in re.findall(rb"\]\(([^)#:]+)(?:#[^)]*)?\)", data):
                asked = os.path.normpath(os.path.join(os.path.dirname(place), target.decode()))
                if asked not in files and not any(other.startswith(f"{asked}/") for other in files):
                    yield f"{os.path.relpath(place, DOC)} leads to {os.path.relpath(asked, DOC)}"


def run(given):
    must_be_built()
    is_draft = given.draft or given.tree is not None
    if not is_draft and why_draft():
        raise Unfit(why_draft())
    if given.proved:
        sys.stdout.buffer.write(proved.page(is_draft))
        return
    files = contents(is_draft)
    if given.links:
        print(*dead_links(files), sep="\n")
    elif given.tree is not None:
        write_tree(given.tree, unpacked(files))
    else:
        os.makedirs(given.to, exist_ok=True)
        write_sums([make_package(files, given.to), make_tarball(files, given.to)], given.to)


def main():
    as_it_is = argparse.RawDescriptionHelpFormatter
    words = argparse.ArgumentParser(
        prog="scripts/release", description=__doc__, epilog=EXAMPLES, formatter_class=as_it_is
    )
    words.add_argument(
        "--to",
        metavar="FOLDER",
        default=f"{TOP}/out",
        help="where they are put; without it the folder out of the checkout",
    )
    words.add_argument(
        "--draft",
        action="store_true",
        help="take the checkout and the program as they are, for tests; PROVED says so",
    )
    words.add_argument("--proved", action="store_true", help="print the page PROVED and make nothing")
    words.add_argument(
        "--links",
        action="store_true",
        help="list the links of installed documents that lead nowhere, and make nothing",
    )
    words.add_argument(
        "--tree",
        metavar="FOLDER",
        help="put into this folder what the tarball unpacks to, as scripts/install does",
    )
    try:
        run(words.parse_args())
    except (Unfit, BadList) as fault:
        print(f"scripts/release: {fault}", file=sys.stderr)
        return 3
    except (subprocess.CalledProcessError, FileNotFoundError) as fault:
        print(f"scripts/release: it needs a clone, git, find, tar and dpkg-deb: {fault}", file=sys.stderr)
        return 3
    return 0


if __name__ == "__main__":
    sys.exit(main())
