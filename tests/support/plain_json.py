"""A plain reading of JSON (RFC 8259) within the bounds of serde_json: 127 levels, numbers that a float can hold, and no half of a surrogate
pair. Of a key that comes twice the last value stands.
"""
import math
import re

DEEPEST = 127
SPACE = re.compile(r"[ \t\n\r]*")
STRING = re.compile(r'"((?:[^"\\\x00-\x1f]|\\(?:["\\/bfnrt]|u[0-9a-fA-F]{4}))*)"')
NUMBER = re.compile(r"-?(?:0|[1-9][0-9]*)(\.[0-9]+)?([eE][+-]?[0-9]+)?")
WORDS = {"true": True, "false": False, "null": None}
ESCAPES = {"b": "\b", "f": "\f", "n": "\n", "r": "\r", "t": "\t"}


class NoJson(ValueError):
    pass


def string_of(text):
    """The string that stands between quotes so."""

    def plain(found):
        return chr(int(found[1], 16)) if found[1] else ESCAPES.get(found[2], found[2])

    units = re.sub(r"\\(?:u([0-9a-fA-F]{4})|(.))", plain, text)
    # a pair of escapes is one character, and a half of one is none
    return units.encode("utf-16-le", "surrogatepass").decode("utf-16-le")


def number_of(found):
    """An integer that 64 bits hold, and else a float. `-0` is a float."""
    whole = None if found[1] or found[2] else int(found[0])
    if whole is not None and found[0] != "-0" and -(2**63) <= whole < 2**64:
        return whole
    value = float(found[0])
    if math.isinf(value):
        raise NoJson("a number too great")
    return value


class Reader:
    def __init__(self, text):
        self.text, self.at = text, 0

    def found(self, pattern):
        found = pattern.match(self.text, self.at)
        if found:
            self.at = found.end()
        return found

    def takes(self, mark):
        """Whether this mark comes next, behind white space. It is taken then."""
        self.found(SPACE)
        is_next = self.text.startswith(mark, self.at)
        self.at += len(mark) * is_next
        return is_next

    def needs(self, mark):
        if not self.takes(mark):
            raise NoJson(f"no {mark!r}")

    def string(self):
        self.found(SPACE)
        found = self.found(STRING)
        if not found:
            raise NoJson("no string")
        return string_of(found[1])

    def rows(self, end, row):
        """What stands between commas, up to the end mark."""
        if self.takes(end):
            return
        while True:
            row()
            if self.takes(end):
                return
            self.needs(",")

    def value(self, depth):
        for word, value in WORDS.items():
            if self.takes(word):
                return value
        number = self.found(NUMBER)
        if number:
            return number_of(number)
        if self.text.startswith('"', self.at):
            return self.string()
        if depth == DEEPEST:
            raise NoJson("too deep")
        if self.takes("["):
            items = []
            self.rows("]", lambda: items.append(self.value(depth + 1)))
            return items
        self.needs("{")
        members = {}

        def member():
            key = self.string()
            self.needs(":")
            members[key] = self.value(depth + 1)

        self.rows("}", member)
        return members


def json_of(text):
    """The value that the bytes are. Raises ValueError where they are none."""
    reader = Reader(text.decode())
    value = reader.value(0)
    reader.found(SPACE)
    if reader.at < len(reader.text):
        raise NoJson("more than one value")
    return value


def quoted(text):
    """A string as it is written: only what must be is escaped."""
    return '"' + re.sub(r'["\\]', lambda found: "\\" + found[0], text) + '"'
