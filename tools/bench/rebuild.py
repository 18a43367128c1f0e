"""Proves and builds the program once more, over the libraries that are in the checkout's out folders, and prints its SHA-256.

Copy a checkout that the gate has built, say which copy it is, and compare what is printed with the program of the first: the copy's own program is
taken away before. With --cpu the program is built for another processor than x86-64-v2.
"""
import argparse
import hashlib
import os
import shutil
import sys


def rebuild(top, cpu):
    """Builds the program of the copy, and gives its bytes, or nothing."""
    # it loads the toolchain, which `--help` needs not
    from tools.gate import build

    rt = build.rt
    os.chdir(top)
    os.environ.pop(rt.rtlib.ALLOW_C, None)
    rt.rtlib.guarded()
    rt.rtlib.Crate = build.Crate
    program = next(it for it in rt.rtlib.crates_below(top) if it.name == "event_reporter")
    build.Crate.allowed, build.Crate.cuts_libraries = rt.handles_of(top), True
    shutil.rmtree(f"{program.folder}/out", ignore_errors=True)
    os.makedirs(f"{program.folder}/out")
    program.out = sys.stderr
    if program.ci(["--jobs", "1", f"--cpu={cpu}"], False):
        return None
    with open(f"{program.folder}/out/event_reporter", "rb") as file:
        return file.read()


def main():
    words = argparse.ArgumentParser(description=__doc__.split("\n")[0])
    words.add_argument("checkout", help="a copy of a checkout that is built; its program is replaced")
    words.add_argument("--cpu", default="x86-64-v2", help="x86-64, x86-64-v2 or x86-64-v3")
    given = words.parse_args()
    built = rebuild(os.path.abspath(given.checkout), given.cpu)
    if built is None:
        return 1
    print(hashlib.sha256(built).hexdigest())
    return 0


if __name__ == "__main__":
    sys.exit(main())
