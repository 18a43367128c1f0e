"""Starts a build, waits for its program, and leaves the build at work: `python3 -m tools.gate.first PROGRAM COMMAND ..`. If the build ends before, this
ends as it did. If this is stopped before, so is the build. What the build says meanwhile is said on standard error.

With `--script` before PROGRAM it also answers the script that standard input holds. Beside the build `rt try` compiles the program without a proof and
runs it, which touches no file and keeps nothing. Its answer is printed if it is there before the program; otherwise the program answers.
"""
import os
import re
import signal
import subprocess
import sys
import tempfile
import time

# read at once of what the build says
MOST_BYTES = 65536
# shown of what `rt try` says if it has not answered
MOST_LINES = 20
# `rt try` takes up to 6 GB for two minutes, and the build 2 of its own meanwhile
ROOM = 8_000_000
# a longer script is answered the same, whatever follows
MOST_OF_A_SCRIPT = 65537
STOPPING = (signal.SIGINT, signal.SIGTERM, signal.SIGHUP)
# The last line of `rt try` if the program ended, with its status.
ENDED = re.compile(rb"^run=ended status=(\d+) .*proved=no\n\Z", re.M)
UNPROVED = """this answer is of a program whose proof is still under way. It takes 10 to 50 minutes, and a call with words waits for it.
event_reporter: how far it is: cat '{folder}/building'"""


def say(text):
    print(f"event_reporter: {text}", file=sys.stderr, flush=True)


class Trying:
    """The program without a proof, compiled and run on a script by `rt try`."""

    def __init__(self, crate, script):
        self.answer, self.said = tempfile.TemporaryFile(), tempfile.TemporaryFile()
        self.at_work = subprocess.Popen(
            ["rt", "try"],
            cwd=crate,
            stdin=script,
            stdout=self.answer,
            stderr=self.said,
            start_new_session=True,
        )

    def has_ended(self):
        return self.at_work.poll() is not None

    def stop(self):
        """Asks it to end, and waits until it has removed what it had made."""
        self.at_work.terminate()
        self.at_work.wait()

    def status(self):
        """The program's status, or None if it has not answered."""
        self.said.seek(0)
        found = ENDED.search(self.said.read())
        return int(found[1]) if found else None

    def tell(self):
        self.answer.seek(0)
        sys.stdout.buffer.write(self.answer.read())
        sys.stdout.flush()

    def why_not(self):
        """The last lines of what it said."""
        self.said.seek(0)
        return "\n".join(self.said.read().decode(errors="replace").splitlines()[-MOST_LINES:])


def has_room():
    """Whether there is memory for `rt try` beside the build."""
    with open("/proc/meminfo", encoding="ascii") as it:
        return int(re.search(r"^MemAvailable: *(\d+) kB$", it.read(), re.M)[1]) > ROOM


def read_script():
    script = tempfile.TemporaryFile()
    # it is None where standard input is closed
    script.write(sys.stdin.buffer.read(MOST_OF_A_SCRIPT) if sys.stdin else b"")
    script.seek(0)
    return script


def main():
    *is_script, file = sys.argv[1 : 2 + (sys.argv[1] == "--script")]
    command = sys.argv[2 + len(is_script) :]
    script = read_script() if is_script else None
    # a signal may come before the command is known, so that it is only noted here
    stopped = []
    for it in STOPPING:
        signal.signal(it, lambda number, _frame: stopped.append(number))
    trying = Trying(os.path.dirname(os.path.dirname(file)), script) if is_script and has_room() else None
    # it says all in a file, since whoever reads standard error may wait for its end, and is in a session of its own, so that Ctrl-C doesn't stop it later
    with tempfile.TemporaryFile() as said:
        at_work = subprocess.Popen(
            command, stdin=subprocess.DEVNULL, stdout=said, stderr=said, start_new_session=True
        )
        is_over, told = False, 0
        while not is_over and not stopped:
            is_over = at_work.poll() is not None or os.access(file, os.X_OK)
            told += os.write(2, os.pread(said.fileno(), MOST_BYTES, told))
            if not is_over and trying and trying.has_ended():
                if trying.status() is not None:
                    trying.tell()
                    say(UNPROVED.format(folder=os.path.dirname(file)))
                    return trying.status()
                say(
                    f"{trying.why_not()}\nevent_reporter: rt try has not answered, so the script waits for the proof"
                )
                trying = None
            time.sleep(0.1)
        if trying:
            trying.stop()
        if stopped and not is_over:
            os.killpg(at_work.pid, signal.SIGTERM)
            at_work.wait()
            return 128 + stopped[0]
    if not os.access(file, os.X_OK):
        return at_work.returncode
    if is_script:
        script.seek(0)
        os.dup2(script.fileno(), 0)
        os.execv(file, [file])
    return 0


if __name__ == "__main__":
    sys.exit(main())
