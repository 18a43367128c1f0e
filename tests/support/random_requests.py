"""Requests to an event: each oddity of the lists once, and random ones, which are lawful, or refused, or no requests at all."""
import random

from tests.support.random_play import random_score

METHODS = b"HEAD PUT DELETE PATCH OPTIONS CONNECT get Post POSTS G GE T@G GET,POST P:OST \x80GET".split()
METHODS += [b"", b"GET ", b" GET", b"GET\t", b"GET\0"]
VERSIONS = b"HTTP/1.0 HTTP/1.0 HTTP/1.0 HTTP/1.2 HTTP/2 HTTP/2.0 HTTP/0.9 HTTP/1.10 HTTP/1. http/1.1 HTTPS/1.1 HTTP/1.1x".split()
VERSIONS += [b"", b"HTTP/1.1 ", b" HTTP/1.1"]
TARGETS = (
    b"/ * /standing /standingss /Standings /standings/ //standings /standings/1 standings ?/standings /standings?a=b /standings??"
    b" /standings?/rounds/1 /standings#a /standings;a /standings%20 /rounds /rounds/ /rounds? /rounds/1/ /rounds/1? /rounds/1?/tables/1"
    b" /rounds/0 /rounds/00 /rounds/000 /rounds/0000 /rounds/001 /rounds/0001 /rounds/255 /rounds/256 /rounds/257 /rounds/999 /rounds/1000"
    b" /rounds/511 /rounds/+1 /rounds/-1 /rounds/1. /rounds/a /rounds/0x1 /rounds/%31 /rounds/{r} /rounds/1a /rounds//tables/1"
    b" /rounds/1//tables/1 /rounds/1/tables /rounds/1/tables/ /rounds/1/tables/1/ /rounds/1/tables/1? /rounds/1/tables/01"
    b" /rounds/1/tables/001 /rounds/1/tables/0001 /rounds/001/tables/001 /rounds/1/tables/255 /rounds/1/tables/256 /rounds/1/tables/257"
    b" /rounds/1/tables/512 /rounds/1/tables/513 /rounds/1/tables/999 /rounds/1/tables/1000 /rounds/257/tables/1 /rounds/256/tables/1"
    b" /rounds/0/tables/0 /rounds/1/tables/1/tables/1 /rounds/1/table/1 /rounds/1/Tables/1 /rounds/1/tables/1a /rounds/1/tables/+1"
    b" /rounds/1/tables/-0 /rounds/1/tables/%31 /rounds/1%2Ftables/1 /rounds/{r}/tables/{t} /rounds/1/tables/1?x=\xc3\xa9 /standings?\xff"
    b" /standings\xff /rounds/\xef\xbc\x91 /rounds/\xd9\xa1 /rounds/1/tables/\xef\xbc\x91 /standings?\xed\xa0\x80 /standings?\x7f"
    b" /standings?\x01 http://127.0.0.1/standings /rounds/1/../1"
).split() + [b"", b"/standings ", b"/rounds/ 1", b"/rounds/1/tables/1\t", b"/standings?\0"]
NAMES = b"Host User-Agent Accept X-A x_b Cookie Connection Expect Content-Type A !#$%&'*+-.^_`|~ 0".split()
NAMES += b"Content-Lengths Content_Length Content-Lengt Transfer-Encodings".split()
VALUES = [
    b"",
    b"a",
    b"127.0.0.1:8080",
    b"curl/8.5.0",
    b"*/*",
    b"100-continue",
    b"close",
    b"a, b",
    b"a\tb",
    b"\xc3\xa9",
    b"\xff\x80",
    b'"quoted"',
    b"a:b",
    b"HTTP/1.1",
    b"5",
]
ODD_LINES = [
    b"Host",
    b": a",
    b" Host: a",
    b"\tHost: a",
    b"Host : a",
    b"Ho st: a",
    b"Host\t: a",
    b"H\xc3\xb6st: a",
    b"Host: a\0b",
    b"Host: a\x01",
    b"Host: \x7f",
    b"Host: a\rb",
    b"Host: a\r\n b",
    b"(Host): a",
    b"Host@: a",
    b"\0: a",
]
LENGTHS = b"+%d -%d %d, %d,%d %d.0 0x%d %da a%d 0 4096 4097 65536 4294967296 18446744073709551615 18446744073709551616".split()
LENGTHS += [
    b"340282366920938463463374607431768211456",
    b"9" * 40,
    b"0" * 40 + b"%d",
    b"000000000000004097",
    b"",
    b"%d %d",
    b"\xd9\xa1",
    b"%d\x01",
]
CODINGS = [b"chunked", b"identity", b"", b"gzip, chunked"]
SPACES = [b" ", b"\t", b"\n", b"\r", b"\r\n", b"  "]
ODD_VALUES = (
    b"0 1 2 3 4 9 10 255 256 257 65535 65536 4294967298 18446744073709551615 18446744073709551616 99999999999999999999999999 -0 -1 -2 2.0"
    b' 2. .5 1e0 1E0 2e0 20e-1 0.0 1e400 -1e400 1e-400 00 01 +1 0x1 null true false "1" "" [] [1] {} {"a":1} NaN Infinity -Infinity nul tru'
    b' 1_000 \xd9\xa1 - e1 1e 1e+ \'1\' 0e0 0e999999 9223372036854775808 -9223372036854775808 "\\ud83d\\ude00" "\\ud83d" "\\ude00" "\\x"'
    b' "\\u00g0" "\xff" "\x01"'
).split()
ODD_BODIES = [
    b"",
    b" ",
    b"{}",
    b"[]",
    b"null",
    b"2",
    b'"a"',
    b"[2,1,0]",
    b'[{"a":2,"b":1,"d":0}]',
    b'{"a":2}',
    b'{"a":2,"b":1}',
    b'{"a":2,"b":1,"d":0',
    b'{"a":2,"b":1,"d":0}}',
    b'{"a":2,"b":1,"d":0} {}',
    b'{"a":2,"b":1,"d":0},',
    b'{"a":2,"b":1,"d":0,}',
    b'{,"a":2,"b":1,"d":0}',
    b'{"a":2 "b":1,"d":0}',
    b'{"a":2,,"b":1,"d":0}',
    b'{"a" 2,"b":1,"d":0}',
    b'{"a"::2,"b":1,"d":0}',
    b"{a:2,b:1,d:0}",
    b"{'a':2,'b':1,'d':0}",
    b'{"A":2,"b":1,"d":0}',
    b'{"a":2,"b":1,"c":0}',
    b'{"a":2,"b":1,"d":0,"e":0}',
    b'{"a":2,"b":1,"d":0,"":0}',
    b'{"a":2,"b":1,"d ":0}',
    b'{"x":2,"y":1,"d":0}',
    b'{"score":{"a":2,"b":1,"d":0}}',
    b'\xef\xbb\xbf{"a":2,"b":1,"d":0}',
    b'{"a":2,"b":1,"d":0}\xef\xbb\xbf',
    b'{"a":2,"b":1,"d":0}\0',
    b'\x0b{"a":2,"b":1,"d":0}',
    b'\xc2\xa0{"a":2,"b":1,"d":0}',
    b'{"a":2,"b":1,"d":0}//',
    b'/**/{"a":2,"b":1,"d":0}',
    b'{"\\u0061":2,"\\u0062":1,"\\u0064":0}',
    b'{"\\u0061":2,"a":0,"b":1,"d":0}',
    b'{"a\\u0000":2,"b":1,"d":0}',
    b'{"\\a":2,"b":1,"d":0}',
    b'{"\xff":2,"b":1,"d":0}',
    b"a=2&b=1&d=0",
    b'{"a":2,"b":1,"d":0}\r\n\r\n',
    b'13\r\n{"a":2,"b":1,"d":0}\r\n0\r\n\r\n',
    '{"a":2,"b":1,"d":0}'.encode("utf-16"),
    '{"a":2,"b":1,"d":0}'.encode("utf-16-le"),
]
HEAD_SIZES = (8191, 8192, 8193)
LINE_ENDS = [(b"\r\n",), (b"\n",), (b"\r\n", b"\n"), (b"\r\n",) * 9 + (b"\r", b"\n\r")]


def spaced(dice, parts):
    """The parts, with white space between some of them."""
    often = dice.choice((0, 0, 0.3))
    return b"".join(part + (dice.choice(SPACES) if dice.random() < often else b"") for part in parts)


def deep(dice):
    """A value of this many levels, about as many as may be."""
    levels = dice.choice((1, 2, 100, 125, 126, 127, 128, 129, 1000))
    return dice.choice((b"[" * levels + b"]" * levels, b'{"a":' * levels + b"1" + b"}" * levels))


def slip(dice, score):
    """The body that hands in a score, well-formed, with its keys in any order."""
    members = [
        [b'"a"', b":", b"%d" % score[0]],
        [b'"b"', b":", b"%d" % score[1]],
        [b'"d"', b":", b"%d" % score[2]],
    ]
    if dice.random() < 0.3:
        dice.shuffle(members)
    if dice.random() < 0.08:
        members[dice.randrange(3)][2] = dice.choice(ODD_VALUES)
    if dice.random() < 0.06:
        # a key that comes twice: the last value counts, whatever the first one is
        twice = dice.choice(members)
        members.insert(
            dice.randrange(members.index(twice) + 1),
            [twice[0], b":", deep(dice) if dice.random() < 0.3 else dice.choice(ODD_VALUES)],
        )
    if dice.random() < 0.03:
        members.append([b'"e"', b":", dice.choice((b"0", b"null", deep(dice)))])
    parts = [b"{"]
    for number, member in enumerate(members):
        parts += [b","] * (number > 0) + member
    return spaced(dice, parts + [b"}"])


def matches_of(event, is_open):
    placed = [
        (number, place, match)
        for number, matches in enumerate(event.stored, 1)
        for place, match in enumerate(matches, 1)
    ]
    return [
        (number, place if match[1] else 0) for number, place, match in placed if not is_open or not match[2]
    ]


def a_match(dice, event):
    """An open match in most cases, else any, or one that isn't there."""
    chosen = matches_of(event, dice.random() < 0.7)
    if chosen and dice.random() < 0.9:
        return dice.choice(chosen)
    return dice.randint(0, len(event.stored) + 1), dice.randint(0, len(event.names) // 2 + 1)


def target(dice, event, method):
    what = dice.random()
    if what < 0.15:
        return dice.choice(TARGETS)
    if method == b"POST" and what < 0.95 or what < 0.5:
        path = b"/rounds/%d/tables/%d" % a_match(dice, event)
    elif what < 0.7:
        path = b"/rounds/%d" % dice.randint(0, len(event.stored) + 1)
    else:
        path = b"/standings"
    return path + (
        dice.choice((b"?", b"?a=1", b"?/", b"?%00", b"?" + b"a" * 100)) if dice.random() < 0.1 else b""
    )


def in_any_case(dice, name):
    return (
        bytes(dice.choice((it, it ^ 32)) if chr(it).isalpha() else it for it in name)
        if dice.random() < 0.3
        else name
    )


def field(dice, name, value):
    return (
        name
        + b":"
        + dice.choice((b" ", b" ", b" ", b"", b"\t", b"  "))
        + value
        + dice.choice((b"", b"", b"", b" ", b"\t "))
    )


def length_fields(dice, body):
    """The field that tells the length of the body. In some cases it is missing, wrong or twice there, or another coding is told."""

    def one():
        if dice.random() < 0.06:
            value = dice.choice(LENGTHS)
            return value.replace(b"%d", b"%d" % len(body))
        return b"%d" % (len(body) + (dice.choice((-1, 1, 2)) if dice.random() < 0.03 else 0))

    count = dice.choices((0, 1, 2, 3), (3, 94, 2, 1))[0]
    fields = [field(dice, in_any_case(dice, b"Content-Length"), one()) for _ in range(count)]
    if dice.random() < 0.03:
        fields.insert(
            dice.randint(0, count), field(dice, in_any_case(dice, b"Transfer-Encoding"), dice.choice(CODINGS))
        )
    return fields


def fields(dice, body):
    lines = length_fields(dice, body) if body is not None else []
    count = (
        dice.choice((30, 31, 32, 33, 34)) - len(lines)
        if dice.random() < 0.06
        else dice.choice((0, 1, 1, 2, 3, 5))
    )
    for _ in range(count):
        lines.insert(dice.randint(0, len(lines)), field(dice, dice.choice(NAMES), dice.choice(VALUES)))
    if dice.random() < 0.04:
        lines.insert(dice.randint(0, len(lines)), dice.choice(ODD_LINES))
    return lines


def filled(dice, lines, size):
    """The lines and one more, so that the head has this size: with a long value, with much white space, or with a long name."""
    rest = size - sum(len(it) + 2 for it in lines) - 2
    if rest < 6:
        return lines
    return [
        *lines,
        dice.choice((b"X: " + b"a" * (rest - 5), b"X:" + b" " * (rest - 4), b"X" * (rest - 3) + b":")),
    ]


def head(dice, event, method, body):
    version = dice.choice(VERSIONS) if dice.random() < 0.05 else b"HTTP/1.1"
    lines = [b" ".join([method, target(dice, event, method), version]), *fields(dice, body)]
    size = dice.choice(HEAD_SIZES) if dice.random() < 0.06 else 0
    if size:
        return b"".join(line + b"\r\n" for line in filled(dice, lines, size)) + b"\r\n"
    kinds = dice.choices(LINE_ENDS, (80, 8, 8, 4))[0]
    first = b"".join(dice.choice(kinds) for _ in range(dice.randint(1, 3))) if dice.random() < 0.05 else b""
    return first + b"".join(line + dice.choice(kinds) for line in (*lines, b""))


def body_of(dice):
    if dice.random() < 0.08:
        return dice.choice(ODD_BODIES)
    body = slip(dice, random_score(dice))
    if dice.random() < 0.05:
        size = dice.choice((4095, 4096, 4096, 4097, 5000))
        body = dice.choice((body.ljust(size), body.rjust(size)))
    return body


def damaged(dice, sent):
    """The bytes with one fault, which may be none."""
    at, to = dice.randint(0, len(sent)), dice.randint(0, len(sent))
    what = dice.randrange(6)
    if what == 0:
        return sent[:at]
    if what == 1:
        return sent[:at] + bytes([dice.randrange(256)]) + sent[at + 1 :]
    if what == 2:
        return sent[:at] + bytes([dice.choice(b"\0\t\n\r /:?{}\x7f\x80\xff0")]) + sent[at:]
    if what == 3:
        return sent[:at] + sent[at + 1 :]
    if what == 4:
        return sent[: max(at, to)] + sent[min(at, to) :]
    return sent[: min(at, to)] + sent[max(at, to) :]


def random_request(dice, event):
    """The whole input of a connection."""
    what = dice.random()
    method = b"POST" if what < 0.62 else b"GET" if what < 0.94 else dice.choice(METHODS)
    body = body_of(dice) if method != b"GET" or dice.random() < 0.1 else None
    sent = head(dice, event, method, body) + (body or b"")
    if dice.random() < 0.04:
        sent += dice.choice((b"\r\n", b" ", b"GET /standings HTTP/1.1\r\n\r\n", b"\0" * 100, sent))
    if dice.random() < 0.07:
        sent = damaged(dice, sent)
    if dice.random() < 0.01:
        sent = dice.choice(
            (
                b"",
                b"\r\n",
                b"\n" * 8193,
                b"\r\n" * 4096,
                b"A" * 8193,
                b"\x16\x03\x01\x02\x00\x01\x00\x01\xfc",
                dice.randbytes(dice.randrange(200)),
            )
        )
    return sent


def posted(body, lines=None, to=b"/rounds/1/tables/1", method=b"POST", version=b"HTTP/1.1"):
    lines = [b"Content-Length: %d" % len(body)] if lines is None else lines
    return b"".join(line + b"\r\n" for line in (b" ".join([method, to, version]), *lines, b"")) + body


def each_oddity():
    """Each entry of the lists once, in a request that is right beside it."""
    whole, length = b'{"a":2,"b":1,"d":0}', b"Content-Length: 19"
    for it in TARGETS:
        yield posted(whole, to=it)
        yield posted(b"", [], it, b"GET")
    for it in METHODS:
        yield posted(whole, method=it)
        yield posted(b"", [], b"/standings", it)
        yield posted(b"", [], b"/nope", it)
    for it in VERSIONS:
        yield posted(whole, version=it)
    for it in ODD_LINES:
        yield posted(whole, [it, length])
        yield posted(whole, [length, it])
    for it in VALUES:
        yield posted(whole, [length, b"X-A: " + it])
    for it in LENGTHS:
        yield posted(whole, [b"content-LENGTH: " + it.replace(b"%d", b"19")])
        yield posted(whole, [length, b"Content-Length: " + it.replace(b"%d", b"19")])
    for size in (0, 18, 20, 21):
        yield posted(whole, [b"Content-Length: %d" % size])
    for it in CODINGS:
        yield posted(whole, [length, b"transfer-ENCODING:" + it])
        yield posted(whole, [b"Transfer-Encoding: " + it, b"Content-Length: 5000"])
    for it in ODD_VALUES:
        yield posted(b'{"a":%b,"b":1,"d":0}' % it)
        yield posted(b'{"a":2,"b":%b,"d":0}' % it)
        yield posted(b'{"a":2,"b":1,"d":%b}' % it)
        yield posted(b'{"a":%b,"a":2,"b":1,"d":0}' % it)
        yield posted(b'{"a":2,"b":1,"d":0,"a":%b}' % it)
    for it in ODD_BODIES:
        yield posted(it)
    for levels in (126, 127, 128):
        yield posted(b'{"a":' + b"[" * levels + b"]" * levels + b"," + whole[1:])
        yield posted(b"[" * levels + b"]" * levels)
    for space in SPACES:
        yield posted(
            space.join(
                [b"", b"{", b'"a"', b":", b"2", b",", b'"b"', b":", b"1", b",", b'"d"', b":", b"0", b"}", b""]
            )
        )
    for size in (4095, 4096, 4097):
        yield posted(whole.ljust(size))
    for size in HEAD_SIZES:
        for first in (b"GET /standings", b"GET /nope", b"POST /rounds/1/tables/1"):
            line = first + b" HTTP/1.1"
            for lines in ([line, length], [line]):
                yield b"".join(
                    it + b"\r\n" for it in filled(random.Random(size), lines, size)
                ) + b"\r\n" + whole
            rest = size - len(line) - 4
            yield b"\n" * (rest % 2) + b"\r\n" * (rest // 2) + line + b"\r\n\r\n"
    for count in (31, 32, 33):
        yield posted(whole, [b"X: a"] * (count - 1) + [length])
        yield posted(whole, [length] + [b"X: a"] * (count - 1))
