"""Names of players as they are shown, looked for and sorted."""
from __future__ import annotations

import re
import unicodedata
from dataclasses import dataclass
from functools import lru_cache
from typing import Callable, Iterable, Tuple, TypeVar

# marks by which a name could turn what stands beside it
TURNING = set("\u202a\u202b\u202c\u202d\u202e\u2066\u2067\u2068\u2069\u200e\u200f\u061c")

# letters that Unicode doesn't take apart, as they are typed where a keyboard hasn't them
SPELT = str.maketrans(
    {
        "ł": "l",
        "ø": "o",
        "đ": "d",
        "ð": "d",
        "ħ": "h",
        "ŧ": "t",
        "ǥ": "g",
        "ı": "i",
        "ĸ": "k",
        "æ": "ae",
        "œ": "oe",
        "þ": "th",
        "ŋ": "ng",
        "ə": "e",
        "ǝ": "e",
        "ɓ": "b",
        "ɖ": "d",
        "ɗ": "d",
        "ɛ": "e",
        "ƒ": "f",
        "ɣ": "g",
        "ɨ": "i",
        "ƙ": "k",
        "ɲ": "n",
        "ɔ": "o",
        "ʉ": "u",
        "ʋ": "v",
        "ƴ": "y",
    }
)
# what people type for an apostrophe, and what stands for one in other spellings
APOSTROPHES = "'`\u00b4\u2018\u2019\u201b\u2032\u02b9\u02bb\u02bc\u02bd\u02be\u02bf"
MINUS, MIDDLE_DOT = "\u2212", "\u00b7"

# of a syllable of Korean, which is taken apart, the consonant in the form in which it stands by itself
CONSONANTS = {unicodedata.normalize("NFKD", chr(code)): chr(code) for code in range(0x3131, 0x314F)}

# what tells two of one name apart, as (Owls), stands after the name
TOLD_APART = re.compile(r"(.*\S)\s+(\([^()]*\))", re.S)
WITH_COMMA = re.compile(r"([^,]*[^\s,]),\s+([^,]*[^\s,])", re.S)
LAST_WORD = re.compile(r"(.*\S)\s+(\S+)", re.S)

SortKey = Tuple[str, ...]
Thing = TypeVar("Thing")


def visible(text: str) -> str:
    """A text for the terminal, in which no letter of a name moves or turns what stands beside it."""
    return "".join(
        letter.encode("unicode_escape").decode() if is_turning(letter) else letter for letter in text
    )


def begun(text: str) -> str:
    """As the beginning of a line."""
    return text[:1].upper() + text[1:]


def is_turning(letter: str) -> bool:
    return letter in TURNING or (unicodedata.category(letter) in ("Cc", "Zl", "Zp") and letter != "\n")


def is_hyphen(letter: str) -> bool:
    return letter == MINUS or unicodedata.category(letter) == "Pd"


def is_passed_over(letter: str) -> bool:
    """What nobody types to find a name: accents, apostrophes, hyphens, and what is not seen."""
    return (
        unicodedata.combining(letter) != 0
        or letter in APOSTROPHES
        or letter == MIDDLE_DOT
        or is_hyphen(letter)
        or unicodedata.category(letter) == "Cf"
    )


def plain(text: str) -> str:
    """A name as people look for it: without accents, letter case, apostrophes and hyphens, with one space
    if there are several, and with L for a letter such as Ł.
    """
    # an acute accent that stands alone would become a space
    letters = unicodedata.normalize("NFKD", text.replace("\u00b4", ""))
    kept = "".join(letter for letter in letters if not is_passed_over(letter))
    return " ".join(kept.casefold().translate(SPELT).split())


def compared(name: str) -> str:
    """Two names that agree in this look alike: composed and decomposed letters, small and capital ones, one
    space or several, apostrophes and hyphens of any kind, and what is not seen.
    """
    letters = (same_sign(letter) for letter in name if unicodedata.category(letter) != "Cf")
    text = " ".join("".join(letters).split())
    return unicodedata.normalize("NFC", unicodedata.normalize("NFC", text).casefold())


def same_sign(letter: str) -> str:
    return "'" if letter in APOSTROPHES else "-" if is_hyphen(letter) else letter


@lru_cache(maxsize=4096)
def plain_name(name: str) -> str:
    """The same of a name, which is asked for again and again."""
    return plain(name)


@lru_cache(maxsize=4096)
def words_of(name: str) -> tuple[str, ...]:
    """The words that may be typed for a name. Lima-Sato is one word, and two."""
    parts = re.findall(r"\w+", unicodedata.normalize("NFC", name))
    return *plain_name(name).split(), *map(plain, parts)


def sort_key(name: str) -> SortKey:
    """Accents, letter case, apostrophes and hyphens don't part what people look for in one place."""
    return plain_name(name), name


@dataclass(frozen=True)
class Listed:
    """A name as lists by last name have it: what leads, and what follows on it."""

    leads: str
    follows: str = ""

    @property
    def text(self) -> str:
        return f"{self.leads}, {self.follows}" if self.follows else self.leads

    @property
    def key(self) -> SortKey:
        return plain_name(self.leads), plain_name(self.follows), self.leads, self.follows

    @property
    def letter(self) -> str:
        """Under which letter people look for it."""
        first = plain_name(self.leads)[:1].upper()
        return CONSONANTS.get(first, first)


def told_apart(name: str) -> tuple[str, str]:
    """The name, and what stands after it with a space and in parentheses."""
    told = TOLD_APART.fullmatch(name)
    return (told[1], f" {told[2]}") if told else (name, "")


@lru_cache(maxsize=4096)
def listed(name: str, last: str = "") -> Listed:
    """By the last name, if a list has told it; else the last word leads, if it has a letter. A name with one
    comma is listed so already.
    """
    whole, beside = told_apart(name)
    if last and whole.endswith(f" {last}"):
        return Listed(last, whole[: -len(last)].rstrip() + beside)
    if last and whole.startswith(f"{last} "):
        return Listed(last, whole[len(last) :].lstrip() + beside)
    with_comma = WITH_COMMA.fullmatch(whole)
    if with_comma:
        return Listed(with_comma[1], with_comma[2] + beside)
    words = LAST_WORD.fullmatch(whole)
    if words and any(map(str.isalpha, words[2])):
        return Listed(words[2], words[1] + beside)
    return Listed(name)


def may_lead_earlier(name: str) -> bool:
    """Whether the last name may begin before the word that leads: it has three words or more, and no comma."""
    whole, _ = told_apart(name)
    return len(whole.split()) > 2 and "," not in whole and listed(name) != Listed(name)


def all_but_the_first(name: str) -> Listed:
    """The name if its last name begins with the second word."""
    whole, beside = told_apart(name)
    first, _, last = whole.partition(" ")
    return Listed(last, first + beside)


def found_by(part: str, things: Iterable[Thing], name_of: Callable[[Thing], str]) -> list[Thing]:
    """Those in whose name each typed word is, in whatever order they were typed. The name itself comes first,
    then names that begin so, then those with words that begin so, and then those that only hold it.
    """
    whole = plain(part)
    typed = plain("".join(" " if letter == "," or is_hyphen(letter) else letter for letter in part)).split()
    if not typed:
        # nothing, or signs alone, as a hyphen
        return [thing for thing in things if part.strip() in name_of(thing)]
    found = [thing for thing in things if all(word in plain_name(name_of(thing)) for word in typed)]
    return sorted(found, key=lambda thing: how_far_off(name_of(thing), whole, typed))


def how_far_off(name: str, whole: str, typed: list[str]) -> int:
    if plain_name(name) == whole:
        return 0
    if plain_name(name).startswith(whole):
        return 1
    return 2 if all(any(word.startswith(it) for word in words_of(name)) for it in typed) else 3
