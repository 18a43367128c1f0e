"""A plain reading of the rules of CSV (docs/FORMATS.md), over Python's own `csv`: what a list of players is read as, what enrolling it answers, and
the rows of an event's tables.
"""
import csv
import io
import re

from second_reading.plain_event import MOST_PLAYERS, is_lawful

MOST_BYTES = 131072
csv.field_size_limit(10 * MOST_BYTES)


class Fault(Exception):
    """What is said of a list that has a fault."""


def records(data):
    """The records of a text, as lists of bytes. Up to two byte order marks are taken off, and an empty line is no record."""
    for _ in range(2):
        data = data[3:] if data.startswith(b"\xef\xbb\xbf") else data
    rows = csv.reader(io.StringIO(data.decode("latin-1"), newline=""))
    return [[it.encode("latin-1") for it in row] for row in rows if row]


def number(data):
    """The number that 1 to 6 digits are, or None."""
    return int(data) if re.fullmatch(rb"[0-9]{1,6}", data) else None


def is_full(place, row):
    return len(row) == 3 and number(row[0]) == place and is_lawful(row[1]) and number(row[2]) in (0, 1)


def is_lone(_place, row):
    return len(row) == 1 and is_lawful(row[0])


def names_of(data):
    """The names of a list of players."""
    heading, *rows = records(data) or [None]
    if heading == [b"no", b"name", b"dropped"]:
        is_line, at = is_full, 1
    elif heading == [b"name"]:
        is_line, at = is_lone, 0
    else:
        raise Fault("bad csv heading\n")
    for place, row in enumerate(rows, 1):
        if place > MOST_PLAYERS or not is_line(place, row):
            raise Fault(f"bad csv row {place}\n")
    return [row[at].decode() for row in rows]


def imported(event, data):
    """The status, the output and the errors of an import, which is done to the event."""
    if len(data) > MOST_BYTES:
        return 3, b"", b"cannot read\n"
    try:
        names = names_of(data)
    except Fault as fault:
        return 1, b"", str(fault).encode()
    added = already = 0
    why = ""
    for name in names:
        answer = event.enrol(name)[0]
        if answer.startswith("ok "):
            added += 1
        elif answer.startswith("refused 2 "):
            already += 1
        else:
            why = f"{answer}\n"
            break
    return 1 if why else 0, f"added {added} already {already}\n".encode(), why.encode()


def players_rows(event):
    return [["no", "name", "dropped"]] + [
        [str(it), event.names[it - 1], str(int(it in event.dropped))] for it in event.numbers()
    ]


def results_rows(event):
    rows = [["round", "table", "a", "b", "x", "y", "d"]]
    for number, matches in enumerate(event.stored, 1):
        for place, (a, b, score) in enumerate(matches, 1):
            rows.append(
                [
                    str(number),
                    str(place if b else 0),
                    str(a),
                    str(b),
                    *(map(str, score) if score else ("", "", "")),
                ]
            )
    return rows


def written(rows):
    """The bytes that Python's `csv` writes for these rows."""
    text = io.StringIO(newline="")
    csv.writer(text, lineterminator="\n").writerows(rows)
    return text.getvalue().encode()
