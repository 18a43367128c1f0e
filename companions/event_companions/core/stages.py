"""The stages of a playoff by their names: quarterfinal, semifinal, final."""
from __future__ import annotations

import re
from typing import Optional

from event_companions.languages import Say

# counted from the end
NAMES = ("final", "semifinal", "quarterfinal")
# above the matches of a stage, by how many it has
HEADINGS = {1: "final", 2: "semifinals", 4: "quarterfinals"}
# as they are typed
SHORT = {"final": "final", "semifinal": "sf", "quarterfinal": "qf"}
# there is one final, so a number after a space belongs to its score
TYPED = re.compile(
    r"(?:(f|final)([1-4])?|(sf|semi|semifinal|qf|quarter|quarterfinal)s?\s*([1-4])?)(?:\s+(.*))?", re.I
)


def stage_name(stage: int, first: int) -> str:
    """The name of a stage. `first`: how many matches the first stage has, 1, 2 or 4, or 0 if nobody knows."""
    to_the_end = first.bit_length() - stage
    return NAMES[to_the_end] if first and 0 <= to_the_end < len(NAMES) else f"stage {stage}"


def slot_shown(stage: int, slot: int, first: int) -> str:
    """A match of the playoff, as: semifinal 2. There is one final only."""
    name = stage_name(stage, first)
    if name not in NAMES:
        return f"{name}, slot {slot}"
    return name if name == NAMES[0] else f"{name} {slot}"


def slot_said(stage: int, slot: int, first: int, say: Say) -> str:
    """The same for players, in their language."""
    return say(stage_name(stage, first), number=slot)


def slot_typed(stage: int, slot: int, first: int) -> str:
    """The same as it is typed after `play`: sf2."""
    name = stage_name(stage, first)
    if name not in NAMES:
        return f"{stage} {slot}"
    return SHORT[name] if name == NAMES[0] else f"{SHORT[name]}{slot}"


def stage_of(name: str, first: int) -> int:
    """Which stage has the name; 0 or less if the playoff begins later."""
    whole = next(known for known in NAMES if known.startswith(name[0].lower()))
    return first.bit_length() - NAMES.index(whole)


def words_of_slot(text: str, first: int) -> Optional[tuple[int, int, str]]:
    """Stage, slot, and what comes after them, of words such as `qf2 2 1`; None if no stage is named."""
    found = TYPED.fullmatch(text.strip())
    if not found:
        return None
    name, slot = found[1] or found[3], found[2] or found[4] or "1"
    return stage_of(name, first), int(slot), found[5] or ""
