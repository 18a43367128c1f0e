"""FILE.look: how sheets and board look, lines `key = value` as TOML has them."""
from __future__ import annotations

import base64
import os
import re
from dataclasses import dataclass, field, replace
from typing import Callable, Dict, Optional

from event_companions.beside.title import shown_text
from event_companions.languages import DEFAULT, LANGUAGES

ACCENT = "#d9a400"
MOST_BYTES, MOST_BYTES_OF_A_LOGO = 4_000, 200_000
# how pictures begin that browsers show
PICTURES = (
    (b"\x89PNG\r\n", "image/png"),
    (b"\xff\xd8\xff", "image/jpeg"),
    (b"GIF8", "image/gif"),
    (b"RIFF", "image/webp"),
    (b"<svg", "image/svg+xml"),
    (b"<?xml", "image/svg+xml"),
)
TRUTHS = {"true": True, "yes": True, "false": False, "no": False}
LINE = re.compile(r'([A-Za-z_-]+)\s*=\s*(?:"([^"]*)"|([^"#][^"]*?|#[0-9A-Fa-f]+))\s*(?:#.*)?')


class BadLook(ValueError):
    """What is wrong with a value."""


@dataclass(frozen=True)
class Look:
    """`logo` is a picture as an address of its own; `is_dark` is None if the device decides. What can't be
    read is left out, and said in `faults`.
    """

    subtitle: str = ""
    accent: str = ACCENT
    logo: str = ""
    is_dark: Optional[bool] = None
    language: str = DEFAULT
    faults: tuple[str, ...] = field(default=(), compare=False)


def look_of(file: str) -> Look:
    """What FILE.look says, or what holds without one."""
    path = f"{file}.look"
    try:
        with open(path, "rb") as kept:
            text = kept.read(MOST_BYTES).decode("utf-8-sig")
    except FileNotFoundError:
        return Look()
    except (OSError, UnicodeDecodeError) as fault:
        why = fault.strerror if isinstance(fault, OSError) else "it is not UTF-8"
        return Look(faults=(f"{shown_text(path)} was not read: {why}.",))
    look, folder = Look(), os.path.dirname(file)
    for number, line in enumerate(text.splitlines(), 1):
        try:
            look = with_line(look, line.strip(), folder)
        except BadLook as fault:
            told = f"{shown_text(path)}, line {number}: {fault}"
            look = replace(look, faults=(*look.faults, told))
    return look


def with_line(look: Look, line: str, folder: str) -> Look:
    if not line or line.startswith("#"):
        return look
    found = LINE.fullmatch(line)
    if not found:
        raise BadLook('It is no line, as: subtitle = "Owls Game Shop"')
    key, value = found[1].lower(), found[3] if found[2] is None else found[2]
    if key not in KEYS:
        raise BadLook(f"There is no {key}. There are {', '.join(KEYS)}.")
    return KEYS[key](look, value.strip(), folder)


def with_subtitle(look: Look, value: str, _folder: str) -> Look:
    return replace(look, subtitle=value)


def with_accent(look: Look, value: str, _folder: str) -> Look:
    found = re.fullmatch("#(?:[0-9A-Fa-f]{3}){1,2}", value)
    if not found:
        raise BadLook('It is no colour, as: accent = "#b33a00"')
    digits = value[1:].lower()
    return replace(look, accent="#" + (digits if len(digits) == 6 else "".join(2 * it for it in digits)))


def with_dark(look: Look, value: str, _folder: str) -> Look:
    if value.lower() not in TRUTHS:
        raise BadLook("It is neither true nor false, as: dark = true")
    return replace(look, is_dark=TRUTHS[value.lower()])


def with_language(look: Look, value: str, _folder: str) -> Look:
    if value.lower() not in LANGUAGES:
        raise BadLook(f"There is no language {value}. There are {', '.join(LANGUAGES)}.")
    return replace(look, language=value.lower())


def with_logo(look: Look, value: str, folder: str) -> Look:
    """A picture beside the event, and from nowhere else."""
    if os.path.basename(value) != value:
        raise BadLook('Name a file that lies beside the event, as: logo = "owls.png"')
    try:
        with open(os.path.join(folder, value), "rb") as read:
            data = read.read(MOST_BYTES_OF_A_LOGO + 1)
    except (OSError, ValueError):
        raise BadLook(f"There is no {value} beside the event that can be read.") from None
    if len(data) > MOST_BYTES_OF_A_LOGO:
        raise BadLook(f"{value} has more than {MOST_BYTES_OF_A_LOGO // 1000} kB. Make it smaller.")
    kind = next((kind for beginning, kind in PICTURES if data.startswith(beginning)), "")
    if not kind:
        raise BadLook(f"{value} is no picture. There are PNG, JPEG, GIF, WebP and SVG.")
    return replace(look, logo=f"data:{kind};base64,{base64.b64encode(data).decode()}")


KEYS: Dict[str, Callable[[Look, str, str], Look]] = {
    "subtitle": with_subtitle,
    "accent": with_accent,
    "logo": with_logo,
    "dark": with_dark,
    "language": with_language,
}
