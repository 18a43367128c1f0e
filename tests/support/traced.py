"""Companions that are killed before one of their system calls that write, by strace."""
import re
import subprocess

from tests.support.prompt import LETTERS
from tests.support.waiting import PATIENCE

WRITES = "openat,write,pwrite64,ftruncate,fsync,fdatasync,link,linkat,rename,renameat,renameat2,unlink,unlinkat,mkdir,mkdirat"
CALL = re.compile(r"([a-z0-9]+)\(")
MAY_WRITE = re.compile("O_WRONLY|O_RDWR|O_CREAT")


def can_trace():
    """Whether this machine lets one process look at another."""
    return subprocess.run(["strace", "-o", "/dev/null", "true"], capture_output=True).returncode == 0


def system_calls(words, typed, log):
    """The system calls of a command that write, each by its name and how often that came by then. What it runs has others."""
    run = subprocess.run(
        ["strace", "-o", log, "-e", f"trace={WRITES}", *words],
        input=typed,
        capture_output=True,
        timeout=PATIENCE,
        env=LETTERS,
    )
    assert (run.returncode in (0, 1), run.stderr) == (True, b""), (run.returncode, run.stderr)
    counts, found = {}, []
    with open(log, errors="replace") as it:
        for line in it:
            call = CALL.match(line)
            if call:
                name = call[1]
                counts[name] = counts.get(name, 0) + 1
                if name != "openat" or MAY_WRITE.search(line):
                    found.append((name, counts[name]))
    return found


def killing(name, nth):
    """The words before a command that is killed as it enters this system call."""
    return ["strace", "-o", "/dev/null", "-e", f"trace={name}", "-e", f"inject={name}:signal=KILL:when={nth}"]


def is_killed_in(call, words, typed):
    """Whether the command was killed there."""
    ran = subprocess.run(
        [*killing(*call), *words], input=typed, capture_output=True, timeout=PATIENCE, env=LETTERS
    )
    return ran.returncode in (-9, 137)
