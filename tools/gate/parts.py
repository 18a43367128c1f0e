"""Runs the parts of the test command that need not wait for one another side by side, as many at once as there are processors.

What a part prints goes to a file, its errors too. It is printed whole once the part has ended and those named before it are printed, so that the
order is always the same. A part that fails ends no other one; the last lines name those that failed.
"""
import argparse
import concurrent.futures
import shlex
import subprocess
import sys
import tempfile
import time

from tools import TOP
from tools.gate import toolchain


def run(part):
    """The status of a part, the seconds that it took, and what it printed."""
    begun = time.monotonic()
    with tempfile.TemporaryFile("w+", encoding="utf-8", errors="replace") as out:
        status = subprocess.run(
            ["bash", *shlex.split(part)],
            cwd=TOP,
            stdin=subprocess.DEVNULL,
            stdout=out,
            stderr=subprocess.STDOUT,
        ).returncode
        out.seek(0)
        return status, time.monotonic() - begun, out.read()


def main():
    words = argparse.ArgumentParser(
        description="Runs scripts side by side, as many at once as there are processors, and prints what each said."
    )
    words.add_argument(
        "parts",
        nargs="+",
        metavar="PART",
        help="a script with its words, in quotes; they are begun and printed in this order",
    )
    parts, failed = words.parse_args().parts, []
    with concurrent.futures.ThreadPoolExecutor(toolchain.load().processors()) as pool:
        for part, (status, seconds, said) in zip(parts, pool.map(run, parts)):
            print(
                f"== {part}, {seconds:.0f} seconds\n{said}",
                end="" if said.endswith("\n") else "\n",
                flush=True,
            )
            failed += [f"FAILED: {part}, with status {status}"] * (status != 0)
    print("\n".join(failed), end="\n" if failed else "")
    return 1 if failed else 0


if __name__ == "__main__":
    sys.exit(main())
