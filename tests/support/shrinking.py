"""Makes what a test failed on small enough to be read."""
import time

from tests.support.plain_script import Script

PATIENCE = 30


def shrunk(pieces, fails):
    """As few of these pieces as still fail, in their order: runs of them are left out, long ones first, as long as that goes on. It ends after half a
    minute with what it has then.
    """
    until, size = time.monotonic() + PATIENCE, max(len(pieces) // 2, 1)
    while size:
        before, at = len(pieces), 0
        while at < len(pieces) and time.monotonic() < until:
            fewer = pieces[:at] + pieces[at + size :]
            if fails(fewer):
                pieces = fewer
            else:
                at += size
        # single ones until none can go
        size = 1 if size == 1 and len(pieces) < before and time.monotonic() < until else size // 2
    return pieces


def text_of(lines):
    return "".join(f"{line}\n" for line in lines).encode()


def shrunk_script(program, lines):
    """The shortest script of these lines that the program answers otherwise than the plain reading, as a transcript with the answers that are due, fit
    for a file in examples/transcripts; and what it answers in their place.
    """

    def wrong(some):
        return program.fed(text_of(some)) != (0, text_of(Script().run(text_of(some))), b"")

    if not wrong(lines):
        return "the plain reading of scripts answers it as the program does, so the two plain readings differ"
    lines, plain = shrunk(lines, wrong), Script()
    due = [f"{text}\n" for line in lines for text in (f"> {line}", *plain.answer(line.encode()))]
    return f"shrunk to\n{''.join(due)}which is answered\n{program.fed(text_of(lines))[1].decode(errors='replace')}"
