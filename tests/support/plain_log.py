"""A plain reading of the log beside an event's file (SQLite's write-ahead log): its checksums, and how much of it was committed."""
import struct

PAGE = 4096
# the head of the log, and that of each of its frames
HEAD, FRAME = 32, 24
MAGIC = (b"\x37\x7f\x06\x82", b"\x37\x7f\x06\x83")


def added(order, data, a, b):
    """The two checksums of more data."""
    words = struct.unpack(f"{order}{len(data) // 4}I", data)
    for one, other in zip(words[::2], words[1::2]):
        a = (a + one + b) % 2**32
        b = (b + other + a) % 2**32
    return a, b


def order_of(data):
    return ">" if data[3] & 1 else "<"


def starts(data):
    """Where whole frames begin."""
    return range(HEAD, len(data) - FRAME - PAGE + 1, FRAME + PAGE)


def sums_of_frame(order, frame, a, b):
    return added(order, frame[FRAME:], *added(order, frame[:8], a, b))


def with_sums(data):
    """The log with the checksums of its head and of all its whole frames made right."""
    data, order = bytearray(data), order_of(data)
    sums = added(order, bytes(data[:24]), 0, 0)
    data[24:HEAD] = struct.pack(">2I", *sums)
    for at in starts(data):
        data[at + 8 : at + 16] = data[16:24]
        sums = sums_of_frame(order, bytes(data[at : at + FRAME + PAGE]), *sums)
        data[at + 16 : at + FRAME] = struct.pack(">2I", *sums)
    return data


def has_head(data):
    """Whether the log begins with a head that is right."""
    return (
        data[:4] in MAGIC
        and len(data) >= HEAD
        and struct.pack(">2I", *added(order_of(data), data[:24], 0, 0)) == data[24:HEAD]
    )


def committed(data):
    """How many bytes of the log are read: up to the end of the last frame that commits, before any that isn't right."""
    data = bytes(data)
    if not has_head(data):
        return 0
    order, end = order_of(data), 0
    sums = added(order, data[:24], 0, 0)
    for at in starts(data):
        frame = data[at : at + FRAME + PAGE]
        sums = sums_of_frame(order, frame, *sums)
        if (
            frame[8:16] != data[16:24]
            or frame[16:FRAME] != struct.pack(">2I", *sums)
            or frame[:4] == bytes(4)
        ):
            break
        if frame[4:8] != bytes(4):
            end = at + FRAME + PAGE
    return end


def without_salts(data):
    """The log without what is drawn anew each time that it is begun: its salts, and the checksums over them; but whether they are right, and how far."""
    frames = [data[at : at + 8] + data[at + FRAME : at + FRAME + PAGE] for at in starts(data)]
    return len(data), data[:12], has_head(data), committed(data), *frames
