"""scripts/setup and the first steps of scripts/test on a machine whose commands, apt, sudo and toolchain are stand-ins: as root, by sudo, and where nothing
can be installed. Nothing is proved or installed.
"""
import os
import shutil
import subprocess
import sys

import pytest

from tests.support.waiting import PATIENCE
from tools import TOP

LIST = """# package, sign, what
python3  python3                     everything
git      git                         everything
one      one-command                 what one does
two      two-command,second-command  what two does
file     /usr                        what a file does
there    tests:json                  what json does
"""
ABSENT = "absent   companions:no_such_module   what no module does\n"
TOOLS = "sh bash true cp grep cut tr cat dirname mktemp rm mkdir env timeout date tee python3".split()
# what it is called with is noted; it brings the commands of one and two, but for what it can't
APT = """#!/bin/sh
echo "$DEBIAN_FRONTEND $*" >> "$ROOM/called"
echo "apt says: $*"
[ ! -e "$ROOM/fails" ] || { echo 'E: no network' >&2; exit 100; }
case "$*" in
    *' install '*) for it in one two; do cp /bin/true "$ROOM/bin/$it-command"; done ;;
esac
"""
SUDO = """#!/bin/sh
[ "$1" = -n ] && [ -e "$ROOM/no-password" ] || { echo 'sudo: a password is required' >&2; exit 1; }
shift
exec "$@"
"""


class Machine:
    """A checkout with the scripts, and the commands of a machine on which one and two are missing."""

    def __init__(self, room, user="1000"):
        self.room, self.top = room, f"{room}/a checkout"
        os.makedirs(f"{self.top}/scripts")
        os.makedirs(f"{room}/bin")
        for name in ("setup", "test"):
            shutil.copy(f"{TOP}/scripts/{name}", f"{self.top}/scripts/{name}")
        self.write("a checkout/scripts/packages.txt", LIST)
        for name in TOOLS:
            found = sys.executable if name == "python3" else os.path.realpath(shutil.which(name))
            os.symlink(found, f"{room}/bin/{name}")
        self.command("git", "exit 1")
        self.command("id", f"echo {user}")
        self.write("bin/apt-get", APT, 0o755)

    def write(self, name, text, mode=0o644):
        with open(f"{self.room}/{name}", "w", encoding="utf-8") as file:
            file.write(text)
        os.chmod(f"{self.room}/{name}", mode)

    def command(self, name, text):
        self.write(f"bin/{name}", f"#!/bin/sh\n{text}\n", 0o755)

    def run(self, *line):
        how = {"cwd": self.room, "env": {"PATH": f"{self.room}/bin", "ROOM": self.room}, "timeout": PATIENCE}
        ran = subprocess.run(line, stdin=subprocess.DEVNULL, capture_output=True, text=True, **how)
        return ran.returncode, ran.stdout, ran.stderr

    def setup(self, *words):
        return self.run("sh", f"{self.top}/scripts/setup", *words)

    def test(self, *words):
        return self.run("bash", f"{self.top}/scripts/test", *words)

    def called(self):
        """Returns what apt was called with."""
        path = f"{self.room}/called"
        if not os.path.exists(path):
            return []
        with open(path, encoding="utf-8") as text:
            return text.read().splitlines()


@pytest.fixture
def machine(room):
    return Machine(os.path.realpath(room))


@pytest.fixture
def as_root(room):
    return Machine(os.path.realpath(room), user="0")


def test_nothing_is_done_if_all_is_there(machine):
    for name in ("one", "second"):
        machine.command(f"{name}-command", "")
    os.remove(f"{machine.room}/bin/apt-get")
    assert machine.setup() == machine.setup("--without") == (0, "", ""), "no apt is needed"


def is_installed(machine):
    status, printed, said = machine.setup()
    assert (status, printed, said) == (
        0,
        "",
        "scripts/setup: installs through apt: one two\n",
    ), "what is said"
    update, install = machine.called()
    assert update.startswith("noninteractive ") and update.endswith(" update"), "the newest lists"
    assert install.endswith(" install -y --no-install-recommends one two"), "what is missing"
    assert (machine.setup(), len(machine.called())) == ((0, "", ""), 2), "and not again"


def test_root_installs_what_is_missing(as_root):
    is_installed(as_root)


def test_sudo_installs_what_is_missing(machine):
    machine.write("bin/sudo", SUDO, 0o755)
    machine.write("no-password", "")
    is_installed(machine)


def is_refused(machine, to_type):
    """With the line to type as the last one, and at once, as nothing else is tried."""
    status, printed, said = machine.setup()
    assert (status, printed, said.splitlines()[-1]) == (3, "", to_type), "the line to type"
    assert machine.called() == [], "apt isn't called"


INSTALL = "apt-get update && apt-get install -y --no-install-recommends one two"


def test_nobody_is_asked_for_a_password(machine):
    machine.write("bin/sudo", SUDO, 0o755)
    is_refused(machine, f"sudo sh -c '{INSTALL}'")


def test_without_sudo_the_line_is_of_su(machine):
    is_refused(machine, f"su -c '{INSTALL}'")


def test_without_apt_the_packages_are_named(as_root):
    os.remove(f"{as_root.room}/bin/apt-get")
    status, printed, said = as_root.setup()
    assert (status, printed) == (3, ""), "refused"
    assert "no apt" in said and said.endswith(": one two\n"), "what is missing"


def test_what_apt_said_is_shown_if_it_fails(as_root):
    as_root.write("fails", "")
    status, printed, said = as_root.setup()
    assert (status, printed, said.splitlines()[-1]) == (3, "", INSTALL), "the line to type"
    assert "apt says: " in said and "E: no network" in said, "what apt said"


def test_what_apt_did_not_bring_is_missed(as_root):
    as_root.write("a checkout/scripts/packages.txt", LIST + ABSENT)
    status, _, said = as_root.setup()
    assert (status, said.splitlines()[-1].split()[-1]) == (3, "absent"), "a module that isn't there"
    assert "apt says: " in said, "what apt said"


def test_without_says_what_is_left_out(as_root):
    as_root.write("a checkout/scripts/packages.txt", LIST + ABSENT)
    status, printed, said = as_root.setup("--without")
    assert (status, said, as_root.called()) == (0, "", []), "nothing is installed"
    assert printed.splitlines() == [
        "left out: what one does, as one is not installed",
        "left out: what two does, as two is not installed",
        "left out: what no module does, as absent is not installed",
    ], "what is left out"
    os.remove(f"{as_root.room}/bin/git")
    assert as_root.setup("--without")[0] == 3, "nothing goes without git"


def test_the_test_command_begins_with_it(machine):
    status, _, said = machine.test()
    assert (status, "the toolchain (rt) is not on the PATH" in said) == (3, True), "no toolchain"
    machine.command("rt", 'echo "rt $*" >> "$ROOM/called"')
    status, _, said = machine.test()
    assert (status, INSTALL in said, machine.called()) == (3, True, []), "nothing is proved"


def test_what_needs_no_program_is_tried_first(machine):
    """If it fails, nothing is proved."""
    for name in ("one", "two"):
        machine.command(f"{name}-command", "")
    machine.command("rt", 'echo "rt $*" >> "$ROOM/called"')
    machine.write("a checkout/scripts/check-quick", "echo FAILED: a unit test\nexit 1\n")
    assert machine.test()[:2] == (1, "FAILED: a unit test\n"), "how it ends"
    assert machine.called() == [], "nothing is proved"
