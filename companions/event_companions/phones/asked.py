"""Requests taken apart: what is understood of them, and what is turned down before anything is looked at."""
from __future__ import annotations

import io
import re
import sys
import urllib.parse
from dataclasses import dataclass
from functools import lru_cache
from typing import Any, Callable, Dict, Iterable, Optional

from event_companions.core.score import Score
from event_companions.languages import DEFAULT, language_for, plain_in, quality_of
from event_companions.phones.limits import origin_of
from event_companions.phones.pages import REASONS, Reply, rendered

MOST_BODY = 2048
MOST_FIELDS = 12

Environ = Dict[str, Any]
Fields = Dict[str, str]


@dataclass(frozen=True)
class Asked:
    """A request, as far as it is looked at."""

    method: str
    path: str
    query: Fields
    form: Fields
    origin: str
    language: str
    # of the page that the phone has
    tag: str = ""


class Settled(Exception):
    """It is answered by this, from deep inside."""

    def __init__(self, reply: Reply):
        super().__init__(reply.status)
        self.reply = reply


def fields_of(text: str) -> Optional[Fields]:
    """Fields, each once, or None if they are none."""
    if len(text) > MOST_BODY:
        return None
    try:
        pairs = urllib.parse.parse_qsl(
            text,
            keep_blank_values=True,
            strict_parsing=bool(text),
            max_num_fields=MOST_FIELDS,
            errors="strict",
        )
    except ValueError:
        return None
    return dict(pairs) if len(dict(pairs)) == len(pairs) else None


def score_of(text: str) -> Optional[Score]:
    """A score as phones say it, or None."""
    return Score.parse(text) if re.fullmatch("[0-3]-[0-3]-[0-3]", text) else None


def score_in(fields: Fields) -> Optional[Score]:
    """The score of a button, or of three counts."""
    return score_of(fields.get("s") or "-".join(fields.get(name, "") for name in "xyd"))


def form_of(environ: Environ) -> Optional[Fields]:
    kind = environ.get("CONTENT_TYPE", "").split(";")[0].strip().lower()
    length = environ.get("CONTENT_LENGTH") or "0"
    if kind != "application/x-www-form-urlencoded" or not re.fullmatch("[0-9]{1,6}", length):
        return None
    if int(length) > MOST_BODY:
        return None
    return fields_of(environ["wsgi.input"].read(int(length)).decode("latin-1"))


def is_gzip_taken(accepted: str) -> bool:
    """By the field Accept-Encoding (RFC 9110, section 12.5.3)."""
    for part in accepted[:200].split(","):
        coding, _, parameters = part.strip().partition(";")
        if coding.strip().lower() == "gzip":
            return quality_of(parameters) > 0
    return False


class Pages:
    """What phones and scorekeeper share: requests taken apart, and answers put together."""

    def __init__(self, hosts: set[str], at: str):
        """At: the address that is right, for those who come by another one."""
        self.hosts, self.at = hosts, at

    def __call__(self, environ: Environ, start_response: Callable[..., object]) -> Iterable[bytes]:
        language = language_for(environ.get("HTTP_ACCEPT_LANGUAGE", ""), self.room_language)
        try:
            self.admit(environ, language)
            reply = self.reply(self.taken_apart(environ, language))
        except Settled as settled:
            reply = settled.reply
        except Exception as fault:
            # what is wrong is said where it can be mended, and not to the phone
            shown = f"{type(fault).__name__} at {ascii(environ.get('PATH_INFO', ''))[:80]}"
            print(f"event-phones: {shown}: {ascii(str(fault))[:200]}", file=sys.stderr, flush=True)
            reply = self.told(500, language, "went_wrong")
        if reply.tag and environ.get("HTTP_IF_NONE_MATCH") == reply.tag:
            start_response(f"304 {REASONS[304]}", reply.tag_headers())
            return []
        takes_gzip = is_gzip_taken(environ.get("HTTP_ACCEPT_ENCODING", ""))
        start_response(f"{reply.status} {REASONS[reply.status]}", reply.headers(takes_gzip))
        if environ["REQUEST_METHOD"] == "HEAD":
            return [b""]
        body = reply.body_for(takes_gzip)
        # the server would copy a body for each connection, but not what it reads as a file
        as_file: Optional[Callable[[io.BytesIO], Iterable[bytes]]] = environ.get("wsgi.file_wrapper")
        return as_file(io.BytesIO(body)) if as_file and reply.gzipped else [body]

    @property
    def room_language(self) -> str:
        """For phones of other languages."""
        return DEFAULT

    def admit(self, environ: Environ, language: str) -> None:
        """What is asked too often is settled before anything is looked at."""

    def taken_apart(self, environ: Environ, language: str) -> Asked:
        method = environ["REQUEST_METHOD"]
        if environ.get("HTTP_HOST", "").lower() not in self.hosts:
            raise Settled(self.told(421, language, "not_this_address", "this_address"))
        if method not in ("GET", "HEAD", "POST"):
            raise Settled(Reply(405, b"", [("Allow", "GET, HEAD, POST")], "text/plain"))
        query, form = fields_of(environ.get("QUERY_STRING", "")), self.form(environ, language)
        if query is None or form is None:
            raise Settled(self.told(400, language, "not_understood"))
        origin = origin_of(environ.get("REMOTE_ADDR", ""))
        tag = environ.get("HTTP_IF_NONE_MATCH", "")
        return Asked(method, environ.get("PATH_INFO", ""), query, form, origin, language, tag)

    def form(self, environ: Environ, language: str) -> Optional[Fields]:
        """What is handed in, which comes from pages of this place alone."""
        if environ["REQUEST_METHOD"] != "POST":
            return {}
        origin = environ.get("HTTP_ORIGIN", "")
        if origin and urllib.parse.urlsplit(origin).netloc.lower() not in self.hosts:
            raise Settled(self.told(403, language, "another_site"))
        return form_of(environ)

    def told(self, status: int, language: str, *keys: str) -> Reply:
        """What is said in place of a page."""
        more = [("Retry-After", "60")] if status == 429 else []
        return Reply(status, page_told(language, keys, self.at), more)

    def reply(self, asked: Asked) -> Reply:
        raise NotImplementedError


@lru_cache(maxsize=None)
def page_told(language: str, keys: tuple[str, ...], at: str) -> bytes:
    """Made once, so that to refuse takes nothing."""
    return rendered("told.html", language, heading=plain_in(language, "scores"), clock="", keys=keys, at=at)


def hosts_of(at: str, port: int) -> set[str]:
    """What may stand in the field Host: the address on the slips, and this machine."""
    parts = urllib.parse.urlsplit(at)
    default = 443 if parts.scheme == "https" else 80
    hosts: list[str] = [parts.netloc.lower(), f"127.0.0.1:{port}", f"localhost:{port}", f"[::1]:{port}"]
    if parts.port is None:
        hosts.append(f"{parts.netloc.lower()}:{default}")
    elif parts.port == default:
        hosts.append(parts.netloc.lower().rpartition(":")[0])
    return set(hosts)
