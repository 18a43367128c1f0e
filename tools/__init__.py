"""What makes or judges. Each module is run from the top of the repository by its whole name: `python3 -B -m tools.manuals`."""
import os
import re
import subprocess
import sys
import time

TOP = os.path.dirname(os.path.dirname(os.path.abspath(__file__)))
# what is installed is imported by its own name: event_companions, second_reading
if f"{TOP}/companions" not in sys.path:
    sys.path.insert(0, f"{TOP}/companions")


def version():
    """The version, from the one place that has it."""
    with open(f"{TOP}/crates/er_cli/src/help.rt", encoding="utf-8") as source:
        return re.search(
            r'^pub const VERSION: &str = "event_reporter (\d+\.\d+\.\d+)\\n";$', source.read(), re.M
        )[1]


def commit_time():
    """The time of the commit, by which what is random begins: each commit plays other events, and one commit the same."""
    ran = subprocess.run(
        ["git", "log", "-1", "--format=%ct"],
        cwd=TOP,
        stdout=subprocess.PIPE,
        stderr=subprocess.DEVNULL,
        text=True,
    )
    return int(ran.stdout.strip() or time.time())
