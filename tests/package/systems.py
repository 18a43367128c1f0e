"""Installs the package by `apt` in minimal systems that debootstrap makes, which needs root and the packages of Debian and Ubuntu, and has lintian look at it.

    python3 -B -m tests.package.systems
"""
import glob
import os
import re
import shutil
import tempfile
import time

from tests.package.installed import COMMANDS, run
from tests.support.tally import check, end, left_out
from tools import TOP

# the oldest systems that have the glibc which the program needs, the newest Debian, and one that must refuse it
SYSTEMS = {"bookworm": True, "trixie": True, "jammy": True, "bullseye": False}
FIRST_PAIRING = (
    "printf 'name\\nAna\\nBo\\nCy\\nDi\\n' > names.csv; event_reporter init a.event Friday 3 0 && event_reporter import a.event names.csv && "
    "event_reporter start a.event && printf 'pair\\nround\\n' | event-desk a.event && event-sheets a.event > a.html && grep -c 'Ana' a.html"
)


def ask_lintian(package):
    if not shutil.which("lintian"):
        left_out("the package by Debian's own checks", "lintian is not installed")
        return
    ran = run("lintian", "--allow-root", "--fail-on", "error,warning", package)
    check(
        "lintian",
        (ran.returncode, [line for line in ran.stdout.split("\n") if line[:2] in ("E:", "W:")]),
        (0, []),
    )


def in_systems(package, room):
    if os.geteuid() or not shutil.which("debootstrap"):
        left_out("minimal systems", "they need root and debootstrap")
        return
    for name, runs in SYSTEMS.items():
        root = f"{room}/{name}"
        if run("debootstrap", "--variant=minbase", name, root, *mirror_of(name)).returncode:
            left_out(f"a minimal {name}", "its packages are not reached")
            continue
        in_system(package, name, root, runs)


def in_system(package, name, root, runs):
    """From the package to the first pairing, with man pages; then it is removed, and the events stay."""
    shutil.copy(package, f"{root}/root/it.deb")
    shutil.copy("/etc/resolv.conf", f"{root}/etc/resolv.conf")
    inside = (
        "env",
        "-i",
        "PATH=/usr/sbin:/usr/bin:/sbin:/bin",
        "DEBIAN_FRONTEND=noninteractive",
        "LC_ALL=C.UTF-8",
        "chroot",
        root,
    )
    run(*inside, "apt-get", "update")
    before, begun = listing(root), time.monotonic()
    ran = run(*inside, "apt-get", "install", "-y", "/root/it.deb")
    check(f"{name}: installed", ran.returncode == 0, runs)
    if not runs:
        check(f"{name}: says why", "libc6 (>= " in ran.stdout + ran.stderr, True)
        return
    ran = run(*inside, "sh", "-c", f"cd /root; {FIRST_PAIRING}")
    check(
        f"{name}: to the first pairing",
        (ran.returncode, ran.stderr, " Tab    A    B Score Names" in ran.stdout),
        (0, "", True),
    )
    print(f"{name}: {time.monotonic() - begun:.0f} seconds from the package to the first pairing")
    run(*inside, "apt-get", "install", "-y", "man-db")
    for command in COMMANDS:
        check(
            f"{name}: man {command}",
            f"NAME {command} - " in " ".join(run(*inside, "man", command).stdout.split()),
            True,
        )
    run(*inside, "apt-get", "purge", "-y", "event-reporter")
    # what man keeps of the pages that it has shown is its own
    ours = re.compile("(?!var/cache/man/).*event[-_](reporter|desk|sheets|phones|check|companions)")
    check(f"{name}: nothing is left", sorted(path for path in listing(root) - before if ours.match(path)), [])
    check(f"{name}: the events are", os.path.exists(f"{root}/root/a.event"), True)


def mirror_of(name):
    """Of what is not Debian, debootstrap's own script names the mirror; by itself it asks Debian's."""
    with open(f"/usr/share/debootstrap/scripts/{name}", encoding="utf-8") as script:
        found = re.findall(r"^\s*default_mirror (\S+)", script.read(), re.M)
    return [mirror for mirror in found if "/archive." in mirror][:1]


def listing(root):
    found = set()
    for folder, folders, names in os.walk(root):
        folders[:] = [it for it in folders if f"{folder}/{it}" not in (f"{root}/proc", f"{root}/root")]
        found.update(os.path.relpath(f"{folder}/{name}", root) for name in (*names, *folders))
    return found


def main():
    with tempfile.TemporaryDirectory() as room:
        ran = run("bash", "scripts/release", "--draft", "--to", f"{room}/release", cwd=TOP)
        check("the package is made", (ran.returncode, ran.stderr), (0, ""))
        (package,) = glob.glob(f"{room}/release/*.deb")
        ask_lintian(package)
        in_systems(package, room)
    end("the package in minimal systems")


if __name__ == "__main__":
    main()
