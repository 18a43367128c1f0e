"""What the players read, by language."""
import os
import re
import string
import sys

import pytest
from event_companions.languages import DEFAULT, FOLDER, LANGUAGES, TABLES, language_for, missing_in
from tools import TOP
from tools import languages


def braces(text):
    return sorted({name for _, name, _, _ in string.Formatter().parse(text) if name})


ENGLISH = TABLES["en"]


@pytest.mark.parametrize("language", TABLES)
def test_each_text_keeps_its_words(language):
    """Each table has each key, in one order. A text that is missing is empty."""
    table = TABLES[language]
    assert list(table) == list(ENGLISH)
    there = {key: text for key, text in table.items() if text}
    assert {key: braces(text) for key, text in there.items()} == {key: braces(ENGLISH[key]) for key in there}
    assert [key for key, text in there.items() if text != text.strip()] == []


def test_english_and_german_are_whole_and_what_is_begun_is_not_offered():
    assert list(LANGUAGES) == ["en", "de"] and list(TABLES) == ["en", "de", "fr"]
    assert [missing_in(table, ENGLISH) for table in LANGUAGES.values()] == [[], []]
    missing = missing_in(TABLES["fr"], ENGLISH)
    assert missing == [key for key in ENGLISH if TABLES["fr"][key] == ""] and missing


@pytest.mark.parametrize("language", TABLES)
def test_a_table_is_laid_out_as_the_template_writes_it(language):
    with open(os.path.join(FOLDER, f"{language}.json"), encoding="utf-8") as table:
        text = table.read()
    assert text == languages.written(languages.template(TABLES[language]))


def test_the_template_says_what_is_missing(monkeypatch, capsys):
    assert languages.template({"name": "Nome", "of no use": "x"}) == {
        **dict.fromkeys(ENGLISH, ""),
        "name": "Nome",
    }
    monkeypatch.setattr(sys, "argv", ["languages", "fr"])
    languages.main()
    *named, last = capsys.readouterr().out.splitlines()
    missing = missing_in(TABLES["fr"], ENGLISH)
    assert named == [f"{key}: {ENGLISH[key]}" for key in missing]
    assert last == f"fr: {len(missing)} of {len(ENGLISH)} texts are missing"


def sources():
    for folder, _, names in os.walk(f"{TOP}/companions/event_companions"):
        for name in names:
            if name.endswith((".py", ".html")):
                with open(os.path.join(folder, name), encoding="utf-8") as source:
                    yield source.read()


def test_each_text_is_shown_somewhere():
    text = "\n".join(sources())
    assert [key for key in ENGLISH if not re.search(rf"[\"\']{key}[\"\']", text)] == []


@pytest.mark.parametrize(
    "accepted, language",
    [
        ("", DEFAULT),
        ("de", "de"),
        ("de-AT,de;q=0.9,en;q=0.8", "de"),
        ("fr-FR, fr;q=0.9, de;q=0.4, en;q=0.7", "en"),
        ("en;q=0.1, DE;q=0.2", "de"),
        ("de;q=0, en;q=0.1", "en"),
        ("de;q=0", DEFAULT),
        ("fr", DEFAULT),
        ("*", DEFAULT),
        ("de;q=x", DEFAULT),
        (";;,,=,de;;", DEFAULT),
        (",".join(["fr"] * 500) + ",de", DEFAULT),
    ],
)
def test_the_language_that_a_phone_likes_best(accepted, language):
    assert language_for(accepted) == language


def test_other_phones_are_answered_in_the_language_of_the_room():
    assert [language_for(accepted, "de") for accepted in ("", "fr", "en", "fr, en;q=0.1")] == [
        "de",
        "de",
        "en",
        "en",
    ]
