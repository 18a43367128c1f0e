"""scripts/release, install and uninstall, over the program as it is built: twice to the byte, all from one list; the package is unpacked into an empty root,
where the README's evening is played by command lines, prompt and sheets, with man pages and completions. In minimal systems it is installed by `systems.py`.
"""
import concurrent.futures
import filecmp
import glob
import os
import re
import subprocess
import sys
import tempfile

import pytest

import tools
from tests.package.installed import COMMANDS, COMPANIONS, SECONDS, described, files_below, run
from tools import TOP
from tools import manuals
from tools.package import debian, release
from tools.package.listed import entries
from tools.package.made_from import PROGRAM

pytestmark = pytest.mark.needs("the package", command="dpkg-deb")
EVENING = "init Friday Night 2 2\nimport names.csv\ny\nstart\npair\n1 2 0\n2 2 1\npair\n1 2 0\n2 1 1 1\ncut\ny\nplay 1 1 2 0\n"


@pytest.fixture(scope="module")
def place():
    with tempfile.TemporaryDirectory() as place:
        yield place


@pytest.fixture(scope="module")
def released(place):
    """What two releases said, with another umask, time zone and language."""
    ways = ("", "umask 077; export TZ=Asia/Tokyo LC_ALL=C;")
    lines = [
        ("sh", "-c", f'{before} exec bash scripts/release --draft --to "$0"', f"{place}/{number}")
        for number, before in enumerate(ways)
    ]
    with concurrent.futures.ThreadPoolExecutor(len(ways)) as pool:
        return [*pool.map(lambda line: run(*line, cwd=TOP), lines)]


@pytest.fixture(scope="module")
def root(place, released):
    """The package, unpacked."""
    run("dpkg-deb", "-x", glob.glob(f"{place}/0/*.deb")[0], f"{place}/root")
    return f"{place}/root"


@pytest.fixture(scope="module")
def unpacked(place, released):
    """The tarball, unpacked."""
    os.mkdir(f"{place}/tarball")
    run("tar", "-xzf", glob.glob(f"{place}/0/*.tar.gz")[0], "-C", f"{place}/tarball")
    return glob.glob(f"{place}/tarball/*")[0]


def test_twice_the_same_bytes(place, released):
    for ran in released:
        assert (ran.returncode, ran.stderr) == (0, "")
    names, version = sorted(os.listdir(f"{place}/0")), tools.version()
    assert names == [
        "SHA256SUMS",
        f"event-reporter-{version}-x86_64-linux.tar.gz",
        f"event-reporter_{version}_amd64.deb",
    ]
    assert (
        filecmp.cmpfiles(f"{place}/0", f"{place}/1", names, shallow=False)[0] == names
    ), "twice the same bytes"
    assert run("sha256sum", "--quiet", "-c", "SHA256SUMS", cwd=f"{place}/0").returncode == 0, "checksums"


def test_files(root, unpacked):
    """The package and the tarball have the files of the list, and no others."""
    places = [entry.place for entry in entries()]
    assert sorted(files_below(unpacked)) == sorted([*places, "files", "install", "uninstall"]), "the tarball"
    inside = files_below(root)
    own = {
        f"{debian.DOC}/copyright",
        f"{debian.DOC}/changelog.gz",
        "usr/share/lintian/overrides/event-reporter",
    }
    assert set(inside) == {debian.place_of(place) for place in places} | own, "the package"
    assert inside["usr/bin/event_reporter"][1] == described(f"{TOP}/{PROGRAM}")[1], "the program"
    with open(f"{root}/usr/share/doc/event-reporter/PROVED", encoding="utf-8") as file:
        proved = file.read()
    assert [
        name
        for name in ("commit ", "toolchain ", "SHA-256 ", "How the test command ended:")
        if f"\n{name}" not in proved
    ] == [], "PROVED"


def test_install(unpacked, room):
    """Below an empty prefix, over an older version that had one file more, and uninstalled with what Python keeps beside its modules."""
    prefix, modes = f"{room}/a prefix", {it.place: it.mode for it in entries()}
    record = "share/doc/event-reporter/INSTALLED"
    assert run("sh", f"{unpacked}/install", prefix).returncode == 0, "installed"
    installed = files_below(prefix)
    assert {place: mode for place, (mode, _) in installed.items()} == {
        **modes,
        record: "0644",
    }, "what is installed"
    with open(f"{prefix}/bin/event-gone", "w", encoding="utf-8"), open(
        f"{prefix}/{record}", "a", encoding="utf-8"
    ) as file:
        file.write("file bin/event-gone\n")
    assert run("sh", f"{unpacked}/install", prefix).returncode == 0, "installed over it"
    assert files_below(prefix) == installed, "the same, and no file that is not on the list"
    ran = run(f"{prefix}/bin/event-desk", "--version", env={"PATH": os.environ["PATH"]})
    assert (ran.returncode, ran.stdout) == (
        0,
        f"event-desk (event_reporter) {tools.version()}\n",
    ), "it runs"
    assert run("sh", f"{unpacked}/uninstall", prefix).returncode == 0, "uninstalled"
    assert list(os.walk(prefix)) == [(prefix, [], [])], "nothing is left"
    assert run("sh", f"{unpacked}/uninstall", prefix).returncode == 3, "not twice"
    for name in ("install", "uninstall"):
        assert run("sh", f"{unpacked}/{name}").returncode == 2, f"{name}, no prefix"
        assert run("sh", f"{unpacked}/{name}", "--nope").returncode == 2, f"{name}, an option"
        assert run("sh", f"{unpacked}/{name}", "--help").stdout.startswith(
            f"usage: {name} PREFIX"
        ), f"{name} --help"


def test_install_from_checkout(unpacked, room):
    """It puts the same files there as the tarball's; PROVED may say that the checkout is in work."""
    prefix, tarball_files = f"{room}/another prefix", files_below(unpacked)
    assert run("sh", f"{TOP}/scripts/install", prefix).returncode == 0, "installed from the checkout"
    installed = files_below(prefix)
    own = ("share/doc/event-reporter/INSTALLED", "share/doc/event-reporter/PROVED")
    same = {place: it for place, it in installed.items() if place not in own}
    assert same == {place: it for place, it in tarball_files.items() if place in same}, "as from the tarball"
    assert run("sh", f"{TOP}/scripts/uninstall", prefix).returncode == 0, "uninstalled"
    assert list(os.walk(prefix)) == [(prefix, [], [])], "nothing is left"


def test_evening(root, room):
    """The README's, by command lines, with no checkout and nothing but the root on the PATH."""
    env = {"PATH": f"{root}/usr/bin:/usr/bin:/bin", "HOME": room}
    with open(f"{root}/usr/share/doc/event-reporter/README.md", encoding="utf-8") as readme:
        block = re.search(r"## By command lines\n.*?```console\n(.*?)```", readme.read(), re.S)[1]
    for step in re.split(r"^\$ ", block, flags=re.M)[1:]:
        line, _, printed = step.partition("\n")
        ran = subprocess.run(
            ["sh", "-c", f"{line} 2>&1"],
            cwd=room,
            env=env,
            stdout=subprocess.PIPE,
            text=True,
            timeout=SECONDS,
        )
        assert ran.stdout == printed, line


@pytest.fixture
def at_the_prompt(root, room):
    """An evening at the prompt, by a path alone, with nothing on the PATH."""
    with open(f"{room}/names.csv", "w", encoding="utf-8") as names:
        names.write("name\nAna\nBo\nCy\nDi\n")
    return run(
        sys.executable,
        f"{root}/usr/bin/event-desk",
        "friday.event",
        env={"PATH": "/nowhere"},
        cwd=room,
        input=EVENING,
    )


def test_prompt(at_the_prompt):
    assert (at_the_prompt.returncode, at_the_prompt.stderr, "champion" in at_the_prompt.stdout) == (
        0,
        "",
        True,
    )


@pytest.mark.needs("the sheets of the package", module="jinja2", package="python3-jinja2")
def test_sheets(at_the_prompt, root, room):
    ran = run(
        sys.executable, f"{root}/usr/bin/event-sheets", "friday.event", env={"PATH": "/nowhere"}, cwd=room
    )
    assert (ran.returncode, ran.stderr, "Friday Night" in ran.stdout) == (0, "", True)


def test_desktop_entry(root, room):
    """It asks for an event's name, and starts the prompt on that file in the user's folder."""
    with open(f"{root}/usr/share/applications/event_reporter.desktop", encoding="utf-8") as file:
        entry = dict(line.split("=", 1) for line in file.read().splitlines()[1:])
    assert entry["Terminal"] == "true"
    # a string's backslashes come first, then those within quotes, and then the percent
    shell, option, line = entry["Exec"].replace("\\\\", "\\").split(" ", 2)
    line = re.sub(r'\\(["`$\\])', r"\1", line.strip('"')).replace("%%", "%")
    env = {"PATH": f"{root}/usr/bin:{os.path.dirname(sys.executable)}:/usr/bin:/bin", "HOME": room}
    for name in ("friday", "friday.event"):
        ran = run(shell, option, line, env=env, input=f"{name}\ninit Friday Night 3 0\n")
        assert ran.stdout.startswith(
            f"{'friday.event' + chr(10) if name == 'friday.event' else ''}An event of these"
        ), "the events that are there"
        assert "Friday Night (friday.event)" in ran.stdout, "the prompt"


@pytest.mark.parametrize("name", COMMANDS)
def test_page(root, name):
    page = f"{root}/usr/share/man/man1/{name}.1.gz"
    head = subprocess.run(
        ["gzip", "-dc", page], capture_output=True, text=True, check=True, timeout=SECONDS
    ).stdout.split("\n")[0]
    assert re.findall(r'^\.TH \S+ 1 "\d{4}-\d\d-\d\d" "(.*?)"', head) == [f"event_reporter {tools.version()}"]


@pytest.mark.needs("pages as they are shown", command="man")
@pytest.mark.parametrize("name", COMMANDS)
def test_page_as_it_is_shown(root, name):
    ran = run(
        "man",
        "--warnings",
        "-l",
        f"{root}/usr/share/man/man1/{name}.1.gz",
        env={**os.environ, "MANWIDTH": "80"},
    )
    assert (ran.returncode, ran.stderr) == (0, "")


def test_pages_as_help_says():
    for path, made in manuals.pages().items():
        assert manuals.read(f"{TOP}/{path}") == made, path
    assert (
        sorted(os.path.basename(path)[:-2] for path in manuals.pages()) == COMPANIONS
    ), "a page for each companion"


def test_files_beside_an_event():
    """The pages name what FORMATS says of what the companions keep."""
    with open(f"{TOP}/docs/FORMATS.md", encoding="utf-8") as file:
        section = re.search(r"^## 7\. .*?(?=^###? )", file.read(), re.M | re.S)[0]
    rows = [it.partition(", and ")[0] for it in re.findall(r"^\| (`FILE.*?) \|", section, re.M)]
    due = {
        re.sub("(-NNNN)?-DATE-TIME$", "-*", it) for row in rows for it in re.findall(r"`FILE(\.[^`]*)`", row)
    }
    assert {it[0] for it in manuals.FILES} == due


def options_of(help_text):
    return sorted(set(re.findall(r"^  (?:-[a-z](?: [A-Z]+)?, )?(--[a-z][a-z-]*)", help_text, re.M)))


@pytest.fixture
def offered(root):
    """What bash offers for the last word."""
    script = '. "$1"; shift; COMP_WORDS=("$@"); COMP_CWORD=$(($# - 1)); COMPREPLY=(); "$(complete -p "$1" | sed "s/.*-F \\([^ ]*\\).*/\\1/")"; printf "%s\\n" "${COMPREPLY[@]}"'

    def complete(*words):
        path = f"{root}/usr/share/bash-completion/completions/{words[0]}"
        return run("bash", "-c", script, "bash", path, *words).stdout.split()

    return complete


def test_completions(offered):
    assert offered("event_reporter", "st") == ["start", "standings"]
    assert offered("event-desk", "--p") == ["--program"]
    assert offered("event-sheets", "--parts", "s") == ["slips", "standings", "seats"]


@pytest.mark.parametrize("name", COMPANIONS)
def test_completions_of_options(root, offered, name):
    asked = options_of(run(sys.executable, f"{root}/usr/bin/{name}", "--help").stdout)
    assert sorted(offered(name, "-")) == asked, "bash"
    with open(f"{root}/usr/share/fish/vendor_completions.d/{name}.fish", encoding="utf-8") as fish:
        assert sorted(f"--{it}" for it in re.findall(r" -l ([a-z][a-z-]*)", fish.read())) == asked, "fish"


def test_links():
    """No installed document leads to what is not installed."""
    assert sorted(release.dead_links(release.contents(True))) == []
