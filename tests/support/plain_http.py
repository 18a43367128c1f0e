"""A plain reading of the rules of slips over HTTP (docs/FORMATS.md, section 5): for an event and the whole input of a connection, the bytes
of the answer, and the score that is submitted. It uses nothing of the program, and no HTTP of Python's.
"""
import copy
import re

from tests.support.plain_json import json_of, quoted

MAX_HEAD, MAX_FIELDS, MAX_BODY = 8192, 32, 4096
LAST_SERIAL = 999_999

# As httparse takes them by default: a line ends with CR LF or LF, empty lines may come first, one space stands on each side of the target, and
# no value goes on in a second line.
END = rb"\r?\n"
TOKEN = rb"[!#$%&'*+\-.^_`|~0-9A-Za-z]+"
FIELD = rb"(" + TOKEN + rb"):([\t\x20-\x7e\x80-\xff]*)" + END
HEAD = re.compile(
    rb"(?:"
    + END
    + rb")*("
    + TOKEN
    + rb") ([\x21-\x7e\x80-\xff]+) HTTP/1\.[01]"
    + END
    + rb"((?:"
    + FIELD
    + rb")*)"
    + END
)

ROUND = re.compile(rb"/rounds/([0-9]{1,3})")
TABLE = re.compile(rb"/rounds/([0-9]{1,3})/tables/([0-9]{1,3})")

REASONS = {
    200: "OK",
    400: "Bad Request",
    404: "Not Found",
    405: "Method Not Allowed",
    409: "Conflict",
    413: "Content Too Large",
}
REASONS[503] = "Service Unavailable"
STATUSES = {12: 404, 24: 503, 25: 503, 26: 503}
TEXT, JSON = "text/plain; charset=utf-8", "application/json"


class Fault(Exception):
    """The first check that fails: its status, what the body says, and the methods that the route has."""

    def __init__(self, status, error, methods=None):
        super().__init__(error)
        self.status, self.error, self.methods = status, error, methods


def bad():
    return Fault(400, "bad request")


# ---- the checks


def is_utf8(text):
    try:
        text.decode()
        return True
    except UnicodeDecodeError:
        return False


def head_of(sent):
    """Method, target and fields of the head that the input begins with, and how long it is. Names are in small letters."""
    found = HEAD.match(sent[:MAX_HEAD])
    if not found or not is_utf8(found[2]):
        raise bad()
    fields = [(name.lower(), value.strip(b" \t")) for name, value in re.findall(FIELD, found[3])]
    if len(fields) > MAX_FIELDS:
        raise bad()
    return found[1], found[2], fields, found.end()


def route_of(target):
    """The numbers of the route: none of the standings, that of a round, or those of a round and a table."""
    path = target.split(b"?")[0]
    found = ROUND.fullmatch(path) or TABLE.fullmatch(path)
    numbers = [int(it) for it in found.groups()] if found else []
    if path != b"/standings" and not numbers or numbers and numbers[0] > 255:
        raise Fault(404, "not found")
    return numbers


def check_method(method, route):
    methods = ["GET", "POST"] if len(route) == 2 else ["GET"]
    if method not in [it.encode() for it in methods]:
        raise Fault(405, "method not allowed", ", ".join(methods))


def length_of(fields):
    lengths = [value for name, value in fields if name == b"content-length"]
    if (
        len(lengths) != 1
        or not re.fullmatch(rb"[0-9]+", lengths[0])
        or b"transfer-encoding" in [name for name, _ in fields]
    ):
        raise bad()
    length = int(lengths[0].lstrip(b"0")[:5] or b"0")
    if length > MAX_BODY:
        raise Fault(413, "body too large")
    return length


def score_of(body):
    try:
        slip = json_of(body)
    except ValueError:
        raise bad() from None
    if not isinstance(slip, dict) or sorted(slip) != ["a", "b", "d"]:
        raise bad()
    score = slip["a"], slip["b"], slip["d"]
    if not all(type(it) is int and 0 <= it <= 255 for it in score):
        raise bad()
    return score


def asked_of(sent):
    """The route that is asked for, and the score of a POST."""
    method, target, fields, size = head_of(sent)
    route = route_of(target)
    check_method(method, route)
    if method == b"GET":
        return route, None
    end = size + length_of(fields)
    if len(sent) < end:
        raise bad()
    return route, score_of(sent[size:end])


def read_of(sent):
    """How many bytes are read before the answer is due, where that doesn't wait for the input's end; else None."""
    try:
        method, target, fields, size = head_of(sent)
    except Fault:
        return None
    try:
        route = route_of(target)
        check_method(method, route)
        end = size + (length_of(fields) if method == b"POST" else 0)
    except Fault:
        return size
    return end if end <= len(sent) else None


# ---- the answers


def answer(status, kind, body, methods=None):
    allow = f"Allow: {methods}\r\n" if methods else ""
    body = body.encode()
    head = f"HTTP/1.1 {status} {REASONS[status]}\r\n{allow}Content-Type: {kind}\r\nContent-Length: {len(body)}\r\nConnection: close\r\n\r\n"
    return head.encode() + body


def score_text(score):
    return '{"a":%d,"b":%d,"d":%d}' % score if score else "null"


def refusal(line, stored=None):
    """The answer that stands for `refused N NAME`."""
    _, number, name = line.split()
    score = f',"score":{score_text(stored)}' if number == "14" else ""
    return answer(STATUSES.get(int(number), 409), JSON, f'{{"name":"{name}","refused":{number}{score}}}')


def text_answer(lines):
    return answer(200, TEXT, "".join(line + "\n" for line in lines))


def match_of(event, number, table):
    """The match of a round at a table, which is 0 for the bye; or None."""
    if not 1 <= number <= len(event.stored):
        return None
    return next(
        (it for place, it in enumerate(event.stored[number - 1], 1) if table == (place if it[1] else 0)), None
    )


def side(event, number):
    return f'{{"name":{quoted(event.names[number - 1])},"no":{number}}}' if number else "null"


def slip(event, number, table):
    match = match_of(event, number, table)
    if not match:
        return refusal("refused 12 NoSuchMatch")
    a, b, score = match
    body = f'{{"first":{side(event, a)},"round":{number},"score":{score_text(score)},"second":{side(event, b)},"table":{table}}}'
    return answer(200, JSON, body)


def shown(event, route):
    """The answer to a GET."""
    if len(route) == 2:
        return slip(event, *route)
    if not route:
        return text_answer(event.standings())
    lines = event.slips(*route)
    return refusal(lines[0]) if lines[0].startswith("refused") else text_answer(lines)


def submitted(event, route, score):
    """The answer to a score that is handed in. If it is accepted, the event has it then."""
    match = match_of(event, *route)
    stored = match[2] if match else None
    if event.serial == LAST_SERIAL and copy.deepcopy(event).report(*route, score, True)[0].startswith("ok"):
        return refusal("refused 23 SerialFull")
    line = event.report(*route, score, True)[0]
    if line.startswith("refused"):
        return refusal(line, stored)
    return answer(200, JSON, f'{{"serial":{line.split()[1]}}}')


def served(event, sent):
    """The answer to a whole input, and the round, table and score that are submitted, or None. The event has then what was accepted."""
    try:
        route, score = asked_of(sent)
    except Fault as fault:
        return answer(fault.status, JSON, f'{{"error":"{fault.error}"}}', fault.methods), None
    if score is None:
        return shown(event, route), None
    return submitted(event, route, score), (*route, score)
