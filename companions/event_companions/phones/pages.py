"""Pages by templates, which escape each text that they are given."""
from __future__ import annotations

import hashlib
import os
from dataclasses import dataclass, field
from functools import lru_cache, partial
from typing import Any, Callable

from event_companions.core.templates import templates_in
from event_companions.languages import plain_in
from event_companions.languages.marked import text_in

FOLDER = os.path.join(os.path.dirname(os.path.abspath(__file__)), "templates")
TEMPLATES = templates_in(FOLDER)
POLICY = "default-src 'none'; style-src 'self'; form-action 'self'; frame-ancestors 'none'; base-uri 'none'"
SAFE_HEADERS = [
    ("X-Frame-Options", "DENY"),
    ("X-Content-Type-Options", "nosniff"),
    ("Referrer-Policy", "same-origin"),
    ("Cross-Origin-Opener-Policy", "same-origin"),
    ("Cross-Origin-Resource-Policy", "same-origin"),
]
REASONS = {
    200: "OK",
    303: "See Other",
    304: "Not Modified",
    400: "Bad Request",
    403: "Forbidden",
    404: "Not Found",
    405: "Method Not Allowed",
    409: "Conflict",
    421: "Misdirected Request",
    429: "Too Many Requests",
    500: "Internal Server Error",
    503: "Service Unavailable",
}


@dataclass
class Reply:
    status: int
    body: bytes = b""
    more: list[tuple[str, str]] = field(default_factory=list)
    kind: str = "text/html; charset=utf-8"
    policy: str = POLICY
    # the body, compressed, if it is long and the same for all
    gzipped: bytes = b""
    # of a page that loads itself again: by it the phone asks whether it has changed
    tag: str = ""

    def body_for(self, takes_gzip: bool) -> bytes:
        return self.gzipped if takes_gzip and self.gzipped else self.body

    def headers(self, takes_gzip: bool = False) -> list[tuple[str, str]]:
        found = [("Content-Security-Policy", self.policy), *SAFE_HEADERS, ("Content-Type", self.kind)]
        found.append(("Content-Length", str(len(self.body_for(takes_gzip)))))
        if self.gzipped:
            found += [("Vary", "Accept-Encoding"), *[("Content-Encoding", "gzip")] * takes_gzip]
        if self.tag:
            found += self.tag_headers()
        elif not any(name == "Cache-Control" for name, _ in self.more):
            found.append(("Cache-Control", "no-store"))
        return found + self.more

    def tag_headers(self) -> list[tuple[str, str]]:
        """The phone keeps it for itself, and asks each time whether it has changed."""
        return [("ETag", self.tag), ("Cache-Control", "private, no-cache")]


def tag_of(body: bytes) -> str:
    """Another one for another page (RFC 9110, section 8.8.3)."""
    return f'"{hashlib.sha256(body).hexdigest()[:20]}"'


@lru_cache(maxsize=None)
def style() -> bytes:
    with open(os.path.join(FOLDER, "style.css"), "rb") as text:
        return text.read()


def style_reply() -> Reply:
    return Reply(200, style(), [("Cache-Control", "max-age=600")], "text/css; charset=utf-8")


def rendered(name: str, language: str, **words: Any) -> bytes:
    """A page of a language. `t` is a text of it, and `plain` one for an attribute."""
    texts: dict[str, Callable[..., object]] = {
        "t": partial(text_in, language),
        "plain": partial(plain_in, language),
    }
    return TEMPLATES.get_template(name).render(language=language, **texts, **words).encode("utf-8")
