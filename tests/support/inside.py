"""The prompt in this process, to which the same lines come as from a pipe: to start one of its own takes longer than most lines. A prompt that stays is
asked again and again; one that is to be killed is a fork of this process.
"""
import contextlib
import io
import os
import sys
import traceback

from tests.support.prompt import Prompt

KILLED = 9
# a file system in memory, where nothing waits for a disk, if there is one
IN_MEMORY = "/dev/shm" if os.access("/dev/shm", os.W_OK) else None


@contextlib.contextmanager
def streams(lines):
    """What is read comes from these lines. What is said, and what goes to standard error."""
    text = "".join(f"{line}\n" for line in lines).encode("utf-8", "surrogateescape")
    given, said, errors = (
        io.TextIOWrapper(io.BytesIO(it), "utf-8", "surrogateescape") for it in (text, b"", b"")
    )
    before = sys.stdin, sys.stdout, sys.stderr
    sys.stdin, sys.stdout, sys.stderr = given, said, errors
    try:
        yield said, errors
    finally:
        sys.stdin, sys.stdout, sys.stderr = before


def text_of(stream):
    stream.flush()
    return stream.buffer.getvalue().decode()


class InsidePrompt(Prompt):
    """Lines are typed at a prompt in this process; terminals and pipes are processes of their own."""

    def typed(self, file, *lines, by=None):
        from event_companions.prompt.main import main

        with streams(lines) as (said, errors):
            status = main([file, "--program", by or self.program])
        assert text_of(errors) == "", f"{lines[-1:]}, errors"
        return status, text_of(said)

    def stays(self, file):
        return StayingPrompt(self.program, file)

    def is_killed(self, file, lines, stop, begins):
        """Whether it was killed before its call of this number, counted from this method of `Drawing` on."""
        from event_companions.prompt.drawing import Drawing
        from event_companions.prompt.main import main

        def body():
            method = getattr(Drawing, begins)

            def begun(*words):
                count(stop)
                return method(*words)

            setattr(Drawing, begins, begun)
            with streams(lines):
                return main([file, "--program", self.program])

        return ends_killed(body)


class StayingPrompt:
    """One prompt to which lines are typed as they come."""

    def __init__(self, program, file):
        from event_companions.core.program import Source, ready
        from event_companions.core.turn import Turn
        from event_companions.prompt.desk import Desk

        with streams(()) as (said, _):
            self.desk = Desk(Source(ready(program), file, Turn(file, makes_file=True)), file)
            self.desk.begin()
        self.began = text_of(said)

    def type(self, *lines):
        with streams(lines) as (said, errors):
            self.desk.go_on()
        assert text_of(errors) == "", f"{lines[-1:]}, errors"
        return text_of(said)


# ---- what is killed


def count(stop):
    """From here on this process ends before its call of this number that opens, writes, syncs, links, renames or removes a file, or runs the program."""
    import builtins
    import shutil
    import subprocess

    import event_companions.beside.copies

    left = [stop]

    def stopping(call):
        def called(*words, **more):
            left[0] -= 1
            if left[0] == 0:
                os._exit(KILLED)
            return call(*words, **more)

        return called

    calls = (
        (os, "open link unlink fsync makedirs replace rename chmod"),
        (shutil, "copyfileobj"),
        (subprocess, "run"),
        (builtins, "open"),
        (event_companions.beside.copies, "exchange"),
    )
    for place, names in calls:
        for name in names.split():
            setattr(place, name, stopping(getattr(place, name)))


def ends_killed(body):
    """Whether a fork of this process was killed. What has fewer calls ends with what it gives back: 1 of a prompt that was refused something."""
    child = os.fork()
    if child == 0:
        status = 70
        with contextlib.suppress(BaseException):
            try:
                status = body() or 0
            except BaseException:
                traceback.print_exc(file=sys.__stderr__)
        os._exit(status)
    ended = os.waitpid(child, 0)[1]
    status = os.WEXITSTATUS(ended) if os.WIFEXITED(ended) else -os.WTERMSIG(ended)
    assert status in (0, 1, KILLED), f"it ended with {status}"
    return status == KILLED


def exchange_is_killed(file, new, stop):
    """While another event is put in the place of one."""
    from event_companions.beside.copies import Copies, Copy
    from event_companions.core.turn import Turn

    def body():
        count(stop)
        Copies(file, Turn(file)).put_in_place(Copy(0, "", "", new), "plan")

    return ends_killed(body)
