"""Texts and names for templates, where what is filled in is escaped."""
from __future__ import annotations

from markupsafe import Markup, escape

from event_companions.languages import LANGUAGES


def named(name: str) -> Markup:
    """A name as it is, whatever its letters do: it may run from the right, and doesn't turn what stands beside."""
    return Markup("<bdi>{}</bdi>").format(name)


def text_in(language: str, key: str, **words: object) -> Markup:
    """A text of a language."""
    return escape(LANGUAGES[language][key]).format(**words)
