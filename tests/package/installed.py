"""What the tests of the package share."""
import glob
import hashlib
import os
import subprocess

from tools import TOP
from tools.package.listed import LINK

COMPANIONS = sorted(map(os.path.basename, glob.glob(f"{TOP}/companions/bin/event-*")))
COMMANDS = ["event_reporter", *COMPANIONS]
SECONDS = 900


def run(*words, env=None, **more):
    return subprocess.run(words, capture_output=True, text=True, timeout=SECONDS, env=env, **more)


def described(path):
    """What a file is: its mode and the sum of its bytes, or what a link leads to."""
    if os.path.islink(path):
        return LINK, os.readlink(path)
    with open(path, "rb") as file:
        return f"{os.stat(path).st_mode & 0o7777:04o}", hashlib.sha256(file.read()).hexdigest()


def files_below(folder):
    found = {}
    for place, folders, names in os.walk(folder):
        for name in (*names, *(it for it in folders if os.path.islink(f"{place}/{it}"))):
            found[os.path.relpath(f"{place}/{name}", folder)] = described(f"{place}/{name}")
    return found
