"""Types the lines that a document shows after `$`, in blocks of kind `console`, one after the other in one new folder, in which the examples are and a
program of the caller's choice is called `event_reporter`. A line that ends with `&` goes on beside the ones that follow; what stands beneath it is what it
prints at once, and beneath `wait` stands the rest. The port that is shown stands for one that is free.
"""
import os
import re
import shutil
import subprocess

from tests.support.serving import free_port
from tests.support.waiting import PATIENCE
from tools import TOP

# documents whose lines are typed, each after the one before it in one folder
TOURS = (("README.md",), ("docs/COMMANDS.md", "docs/REPAIR.md"))
PORT = "8080"
BLOCK = re.compile(r"(?<=^```console\n)(.*?)(?=^```)", re.M | re.S)


def steps_of(block):
    """Each line that is typed, and what is shown beneath it."""
    for step in re.split(r"^\$ ", block, flags=re.M)[1:]:
        typed, _, shown = step.partition("\n")
        yield typed, shown


class Tour:
    """One document, or several that belong together, in their folder."""

    def __init__(self, room, program):
        os.mkdir(f"{room}/commands")
        for place in (f"{room}/commands", room):
            os.symlink(os.path.abspath(program), f"{place}/event_reporter")
        shutil.copytree(f"{TOP}/examples", f"{room}/examples")
        path = ":".join((f"{room}/commands", f"{TOP}/companions/bin", os.environ["PATH"]))
        env = {
            **os.environ,
            "PATH": path,
            "EVENT_REPORTER": f"{room}/commands/event_reporter",
            "PYTHONDONTWRITEBYTECODE": "1",
        }
        self.port, self.behind = str(free_port()), None
        self.how = {
            "shell": True,
            "cwd": room,
            "env": env,
            "stdout": subprocess.PIPE,
            "stderr": subprocess.STDOUT,
            "stdin": subprocess.DEVNULL,
        }

    def printed(self, typed, lines):
        """What the line prints; of one that goes on behind the others, this many lines."""
        if typed == "wait":
            return self.behind.communicate(timeout=PATIENCE)[0]
        if typed.endswith(" &"):
            self.behind = subprocess.Popen("exec " + typed[: -len(" &")], bufsize=0, **self.how)
            return b"".join(self.behind.stdout.readline() for _ in range(lines))
        return subprocess.run(typed, timeout=PATIENCE, **self.how).stdout

    def run(self, typed, shown):
        printed = self.printed(typed.replace(PORT, self.port), shown.count("\n"))
        return printed.decode().replace(self.port, PORT)

    def end(self):
        if self.behind and self.behind.poll() is None:
            self.behind.kill()
            self.behind.wait()


def is_left_out(typed):
    """What goes on behind is asked by curl. If that isn't installed, a document ends there."""
    return typed.endswith(" &") and not shutil.which("curl")
