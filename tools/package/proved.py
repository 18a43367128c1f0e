"""Makes the page PROVED: the commit, the toolchain, the program's SHA-256, the build's verdict on each crate, and how the test command ended. Both
scripts/build and scripts/test leave the log of the build beside the program, with the program's SHA-256 as its last line.
"""
import hashlib
import re
import shutil

from tools.package.made_from import (
    PROGRAM,
    Unfit,
    commit,
    must_not_be_building,
    output,
    read,
    version,
    why_draft,
)

LOG = "crates/event_reporter/out/build.log"
ENDED = "out/gate"
KEPT = re.compile(r"rt: (\w+) is (kept: .*)")


def crates_below(crate):
    """The crate and all that it stands on, by crates.txt."""
    lines = dict(line.split(":") for line in read("crates.txt").decode().split("\n") if line)
    found, left = set(), [crate]
    while left:
        name = left.pop()
        if name in lines and name not in found:
            found.add(name)
            left += lines[name].split()
    return found


def verdicts_in(log):
    """Each crate with its verdict line, or with the line that says that an earlier run has proved the same. The build logs a crate when it ends, in another
    order each time; here they are in the order of crates.txt.
    """
    order = [line.split(":")[0] for line in read("crates.txt").decode().split("\n")]
    crate, found = "", {}
    for line in log.decode(errors="replace").split("\n"):
        if line.startswith("== "):
            crate = line[3:].strip()
        elif line.startswith("logic="):
            found[crate] = line.strip()
        elif KEPT.match(line):
            found[KEPT.match(line)[1]] = KEPT.match(line)[2]
    return sorted(
        ((name, line) for name, line in found.items() if name in crates_below("event_reporter")),
        key=lambda it: order.index(it[0]),
    )


def verdicts_on(program):
    """The verdicts, if the log is of this program and has one on each crate that the program stands on."""
    try:
        log = read(LOG)
    except FileNotFoundError:
        log = b""
    if f"\nprogram {program}\n".encode() not in log:
        must_not_be_building()
        raise Unfit(
            "there is no log of this program's build. In a fresh clone: bash scripts/test, or sh scripts/build"
        )
    found = verdicts_in(log)
    unproved = crates_below("event_reporter") - {
        crate for crate, line in found if line.startswith(("logic=proved ", "kept: "))
    }
    if unproved:
        raise Unfit(
            f"the log of the build has no verdict on {', '.join(sorted(unproved))}. Build in a fresh clone"
        )
    return found


def toolchain(verdicts):
    """The program and each verdict have the sum of its logic; `rt version` says its name."""
    inside = re.search(rb"rattle logic=([0-9a-f]{64})", read(PROGRAM))[1].decode()
    if any(
        not inside.startswith(part) for _, line in verdicts for part in re.findall(r"\bsum=([0-9a-f]+)", line)
    ):
        raise Unfit("the log of the build is of another toolchain than the program")
    if not shutil.which("rt"):
        return f"name unknown, as rt is not on the PATH; logic {inside}"
    named = output("rt", "version")
    if inside[:16] not in named:
        raise Unfit(f"the program is of another toolchain than the one on the PATH: {named}")
    return f"{named.split(' logic ')[0]}, logic {inside}"


def how_tests_ended():
    """What scripts/test has kept of its end on this commit."""
    try:
        tested, _, lines = read(ENDED).decode().partition("\n")
    except FileNotFoundError:
        tested = lines = ""
    return lines.strip() if tested == commit() else "It was not run on this commit."


def page(is_draft):
    program = hashlib.sha256(read(PROGRAM)).hexdigest()
    draft = why_draft()
    try:
        verdicts = verdicts_on(program)
    except Unfit as fault:
        if not is_draft:
            raise
        verdicts, draft = [], draft or str(fault)
    functions = sum(int(count) for _, line in verdicts for count in re.findall(r"functions=(\d+)", line))
    width = max((len(crate) for crate, _ in verdicts), default=0)
    return "\n".join(
        (
            f"event_reporter {version()}",
            "",
            f"commit     {commit()}",
            *([f"           A draft: {draft}"] if draft else []),
            f"toolchain  {toolchain(verdicts)}",
            "SHA-256 of bin/event_reporter",
            f"           {program}",
            "",
            f"What the build says of each crate: {len(verdicts)} crates; where it counts them, {functions} functions.",
            "",
            *(f"{crate:<{width}} {line}" for crate, line in verdicts),
            *([""] if verdicts else []),
            "How the test command ended:",
            how_tests_ended(),
            "",
        )
    ).encode()
