"""What players read, on phones, on sheets and on the board: a table for each language, CODE.json. A text keeps its
words in braces, and what is filled in comes in as it is. A table with an empty text is begun, and not offered.
"""
from __future__ import annotations

import json
import os
import re
from functools import partial
from typing import Callable, Dict

Table = Dict[str, str]
# a text by its key, with what is filled in
Say = Callable[..., str]

FOLDER = os.path.dirname(os.path.abspath(__file__))
DEFAULT = "en"


def read_tables() -> dict[str, Table]:
    """By code, the default first."""
    found = {}
    for name in sorted(os.listdir(FOLDER), key=lambda it: (it != f"{DEFAULT}.json", it)):
        if name.endswith(".json"):
            with open(os.path.join(FOLDER, name), encoding="utf-8") as table:
                found[name[: -len(".json")]] = json.load(table)
    return found


def missing_in(table: Table, whole: Table) -> list[str]:
    return [key for key in whole if not table.get(key)]


TABLES = read_tables()
# those that are whole
LANGUAGES = {code: table for code, table in TABLES.items() if not missing_in(table, TABLES[DEFAULT])}


def plain_in(language: str, key: str, **words: object) -> str:
    """A text of a language."""
    return LANGUAGES[language][key].format(**words)


def say_in(language: str) -> Say:
    """What says the texts of a language."""
    return partial(plain_in, language)


def quality_of(parameters: str) -> float:
    """How much a language is liked, as RFC 9110, section 12.4.2, has it."""
    found = re.fullmatch(r"\s*q=([01](?:\.[0-9]{0,3})?)\s*", parameters)
    return float(found[1]) if found else 0.0 if parameters else 1.0


def language_for(accepted: str, default: str = DEFAULT) -> str:
    """The language that a phone likes best of those that are there (the field Accept-Language), or the room's."""
    liked = []
    for place, part in enumerate(accepted[:200].split(",")[:10]):
        tag, _, parameters = part.strip().partition(";")
        liked.append((-quality_of(parameters), place, tag.split("-")[0].lower()))
    found = (tag for quality, _, tag in sorted(liked) if quality < 0 and tag in LANGUAGES)
    return next(found, default)
