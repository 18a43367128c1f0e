"""Damages to the bytes of an event's file and of the log beside it, as a device, a copy that was cut short or a mix of two copies may do them."""
import os
import shutil

from tests.support.plain_log import FRAME, HEAD, PAGE, with_sums


def changed(name, change):
    with open(name, "rb") as it:
        data = bytearray(it.read())
    data = change(data)
    with open(name, "wb") as it:
        it.write(data)


def any_part(dice, file):
    """The file or its log, whichever is there and has bytes."""
    return dice.choice([it for it in (file, f"{file}-wal") if os.path.exists(it) and os.path.getsize(it)])


def any_place(dice, data):
    """A place in the data: any, one in a head, or one that is used, by its byte that isn't 0."""
    what, last = dice.random(), len(data) - 1
    if what < 0.2:
        return dice.randint(0, last)
    if what < 0.4:
        return min(last, dice.randrange(100))
    if what < 0.6:
        return min(last, dice.randrange(0, last + 1, PAGE) + dice.randrange(48))
    at = dice.randint(0, last)
    return next((it for it in range(at, last + 1) if data[it]), at)


def turn(dice, data):
    for _ in range(dice.choice((1, 1, 1, 2, 4, 16))):
        at = any_place(dice, data)
        data[at] = dice.choice(
            (data[at] ^ 1 << dice.randrange(8), dice.randrange(256), 0, 255, (data[at] + 1) % 256)
        )
    return data


def exchange_parts(dice, data, head, size):
    count = (len(data) - head) // size
    if count:
        one, other = (
            slice(head + it * size, head + (it + 1) * size)
            for it in (dice.randrange(count), dice.randrange(count))
        )
        data[one], data[other] = data[other], data[one]
    return data


def exchange(dice, data):
    return exchange_parts(dice, data, 0, PAGE)


def wipe(dice, data):
    """A page, or a sector of one, of zeros, or of bytes of chance."""
    size = dice.choice((PAGE, PAGE, 512))
    at = dice.randrange(0, len(data), size)
    end = min(len(data), at + size)
    data[at:end] = bytes(end - at) if dice.random() < 0.8 else dice.randbytes(end - at)
    return data


def cut(dice, data):
    size = dice.randint(0, len(data))
    return data[: dice.choice((size, size // PAGE * PAGE, size // 512 * 512))]


def cut_log(dice, data):
    """A log cut anywhere, or between two frames."""
    size = dice.randint(0, len(data))
    return data[: dice.choice((size, min(len(data), HEAD + size // (FRAME + PAGE) * (FRAME + PAGE))))]


def exchange_frames(dice, data):
    return exchange_parts(dice, data, HEAD, FRAME + PAGE)


def turn_with_sums(dice, data):
    """Checksums are right again after it, so that what is wrong lies deeper."""
    return with_sums(turn(dice, data))


# ---- a damage as a whole


def turn_any(dice, file, _others):
    changed(any_part(dice, file), lambda data: turn(dice, data))


def of_file(change):
    return lambda dice, file, _others: changed(file, lambda data: change(dice, data) if data else data)


def of_log(change):
    return lambda dice, file, _others: changed(
        f"{file}-wal", lambda data: change(dice, data) if len(data) > HEAD else data
    )


def others_log(dice, file, others):
    shutil.copy(f"{dice.choice(others)}-wal", f"{file}-wal")


def others_file(dice, file, others):
    shutil.copy(dice.choice(others), file)


def no_log(_dice, file, _others):
    os.remove(f"{file}-wal")


def add_bytes(dice, file, _others):
    changed(
        any_part(dice, file),
        lambda data: data
        + dice.choice((dice.randbytes, bytes))(dice.choice((1, 512, PAGE, FRAME + PAGE, 10_000))),
    )


# what is done to a file alone, and what to one with a log beside it
FILE_KINDS = {
    "bytes turned": turn_any,
    "two pages exchanged": of_file(exchange),
    "a page wiped": of_file(wipe),
    "the file cut": of_file(cut),
    "bytes added": add_bytes,
    "another event's log": others_log,
}
LOG_KINDS = {
    "bytes turned": turn_any,
    "its log turned": of_log(turn),
    "its log turned, with right sums": of_log(turn_with_sums),
    "its log cut": of_log(cut_log),
    "frames exchanged": of_log(exchange_frames),
    "its log wiped": of_log(wipe),
    "its log gone": no_log,
    "another event's log": others_log,
    "another event's file": others_file,
    "the file cut": of_file(cut),
}
