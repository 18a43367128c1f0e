"""Templates of pages: they escape each text that they are given, and take none that isn't given."""
from __future__ import annotations

from jinja2 import Environment, FileSystemLoader, StrictUndefined

from event_companions.languages.marked import named


def templates_in(folder: str) -> Environment:
    environment = Environment(
        loader=FileSystemLoader(folder),
        autoescape=True,
        undefined=StrictUndefined,
        trim_blocks=True,
        lstrip_blocks=True,
        keep_trailing_newline=True,
    )
    environment.globals["named"] = named
    return environment
