"""The colours of sheets and board: five for light and five for dark, an accent, and what is made of them.

Letters have a contrast of 4.5 at least to what they stand on, and bars one of 3 (WCAG 2.2, 1.4.3 and 1.4.11).
"""
from __future__ import annotations

from typing import Dict

LETTERS, BARS = 4.5, 3.0
WHITE, BLACK = "#ffffff", "#000000"

Colours = Dict[str, str]

LIGHT: Colours = {
    "ink": "#14161a",
    "paper": "#f7f6f2",
    "faint": "#5a5f66",
    "rule": "#c9c6bd",
    "band": "#1d2b4f",
}
DARK: Colours = {
    "ink": "#f1f1ee",
    "paper": "#12141a",
    "faint": "#a6acb6",
    "rule": "#3f4451",
    "band": "#0b1226",
}
# paper is white
PRINTED: Colours = {**LIGHT, "paper": WHITE}
# the clock at ten minutes, and at the end
CLOCK: Colours = {"soon": "#ffc233", "on-soon": "#14161a", "over": "#b00020", "on-over": WHITE}
# how much of the rules every second row has
MARKED = 0.3


def parts_of(colour: str) -> tuple[int, int, int]:
    return int(colour[1:3], 16), int(colour[3:5], 16), int(colour[5:7], 16)


def mixed(one: str, other: str, share: float) -> str:
    """The first colour with a share of the other one."""
    parts = (round(a + (b - a) * share) for a, b in zip(parts_of(one), parts_of(other)))
    return "#" + "".join(f"{it:02x}" for it in parts)


def linear(part: int) -> float:
    share = part / 255
    return share / 12.92 if share <= 0.04045 else float(((share + 0.055) / 1.055) ** 2.4)


def luminance(colour: str) -> float:
    red, green, blue = map(linear, parts_of(colour))
    return 0.2126 * red + 0.7152 * green + 0.0722 * blue


def contrast(one: str, other: str) -> float:
    """WCAG 2.2, contrast ratio."""
    lower, upper = sorted((luminance(one), luminance(other)))
    return (upper + 0.05) / (lower + 0.05)


def readable(colour: str, ink: str, papers: tuple[str, ...], least: float) -> str:
    """The colour itself, or with as much of the ink as is needed to be told from all papers."""
    steps = (mixed(colour, ink, step / 20) for step in range(20))
    return next((it for it in steps if min(contrast(it, paper) for paper in papers) >= least), ink)


def palette(five: Colours, accent: str) -> Colours:
    """The five and the accent, with what is made of them: every second row, and the accent as letters and as
    a bar.
    """
    mark = mixed(five["paper"], five["rule"], MARKED)
    return {
        **five,
        "on-band": WHITE,
        "accent": accent,
        # one of the two is told from any colour
        "on-accent": max(BLACK, WHITE, key=lambda letters: contrast(letters, accent)),
        "mark": mark,
        "accent-ink": readable(accent, five["ink"], (five["paper"], mark), LETTERS),
        "accent-bar": readable(accent, five["ink"], (five["paper"], five["rule"]), BARS),
        **CLOCK,
    }


def variables(five: Colours, accent: str) -> str:
    """As a style has them."""
    return " ".join(f"--{name}: {colour};" for name, colour in palette(five, accent).items())
