"""Reads transcripts: lines that are sent, each after `>` and a space, and beneath them what they are answered. In a line that is sent \\t, \\r
and \\xNN stand for one byte, `\\c` at its end says that it has no line feed, and ZERO is the seed of 64 digits 0. An empty line begins the
next part, with no event. A line that begins with `#` says what is shown.
"""
import re

ESCAPES = {b"t": b"\t", b"r": b"\r", b"c": b""}


def sent(line):
    """The bytes of a line that is sent."""
    end = b"" if line.endswith(b"\\c") else b"\n"
    text = line[2:].replace(b"ZERO", b"0" * 64)
    return (
        re.sub(
            rb"\\(?:x([0-9a-f]{2})|([trc]))",
            lambda it: bytes([int(it[1], 16)]) if it[1] else ESCAPES[it[2]],
            text,
        )
        + end
    )


def parts_of(file):
    """The line at which each part begins, and its lines with their answers."""
    at = 1
    for part in open(file, "rb").read().split(b"\n\n"):
        lines = []
        for line in part.strip(b"\n").split(b"\n"):
            if line.startswith(b">"):
                lines.append((sent(line), []))
            elif line and not line.startswith(b"#"):
                lines[-1][1].append(line.decode())
        yield at, lines
        at += part.count(b"\n") + 2
