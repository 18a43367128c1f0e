"""FILE.look, and the colours of sheets and board."""
import base64
import re

import pytest
from event_companions.beside.look import ACCENT, Look, look_of
from event_companions.sheets.colours import DARK, LIGHT, PRINTED, palette
from tests.support.contrasts import contrast

PNG = b"\x89PNG\r\n\x1a\n and the rest"


@pytest.fixture
def file(tmp_path):
    return f"{tmp_path}/friday.event"


def written(file, text):
    with open(f"{file}.look", "wb") as look:
        look.write(text if isinstance(text, bytes) else text.encode())
    return look_of(file)


def test_without_a_file_all_is_as_ever(file):
    assert look_of(file) == Look("", ACCENT, "", None) and look_of(file).faults == ()


def test_lines_as_toml_has_them_and_as_people_write_them(file, tmp_path):
    (tmp_path / "owls.png").write_bytes(PNG)
    logo = f"data:image/png;base64,{base64.b64encode(PNG).decode()}"
    due = Look("Modern, Owls # 1", "#b33a00", logo, True, "de")
    toml = '# ours\nsubtitle = "Modern, Owls # 1"\naccent = "#b33a00" # red\n\nlogo = "owls.png"\ndark = true\nlanguage = "de"\n'
    assert written(file, toml) == due and look_of(file).faults == ()
    plain = "\ufeffSubtitle=Modern, Owls \r\naccent = #B30 # red\r\n dark = No\r\n"
    assert written(file, plain) == Look("Modern, Owls", "#bb3300", "", False) and look_of(file).faults == ()


@pytest.mark.parametrize(
    "line, fault",
    [
        ("subtitle", 'line 2: It is no line, as: subtitle = "Owls Game Shop"'),
        ("colour = red", "line 2: There is no colour. There are subtitle, accent, logo, dark, language."),
        ("accent = red", 'line 2: It is no colour, as: accent = "#b33a00"'),
        ('accent = "#12345"', "It is no colour"),
        ("language = fr", "line 2: There is no language fr. There are en, de."),
        ("dark = maybe", "line 2: It is neither true nor false, as: dark = true"),
        ("logo = none.png", "There is no none.png beside the event that can be read."),
        ("logo = ../owls.png", "Name a file that lies beside the event"),
        ('logo = "/etc/passwd"', "Name a file that lies beside the event"),
        ("logo = ", "It is no line"),
        ("logo = text.png", "text.png is no picture. There are PNG, JPEG, GIF, WebP and SVG."),
        ("logo = large.png", "large.png has more than 200 kB. Make it smaller."),
    ],
)
def test_what_can_not_be_read_is_left_out_and_said(file, tmp_path, line, fault):
    (tmp_path / "text.png").write_text("a text")
    (tmp_path / "large.png").write_bytes(PNG + bytes(200_000))
    look = written(file, f"subtitle = Owls\n{line}\n")
    assert look == Look("Owls")
    (told,) = look.faults
    assert told.startswith(f"{file}.look, line 2: ") and fault in told


def test_a_file_that_is_no_text(file):
    look = written(file, b"subtitle = \xff\xfe\n")
    assert look == Look() and look.faults == (f"{file}.look was not read: it is not UTF-8.",)


@pytest.mark.parametrize("five", [LIGHT, DARK, PRINTED])
@pytest.mark.parametrize("accent", [ACCENT, "#b33a00", "#ffffff", "#000000", "#ffff00", "#0000ff", "#777777"])
def test_contrast_is_that_of_level_aa_with_each_accent(five, accent):
    colour = palette(five, accent)
    for paper in ("paper", "mark"):
        for letters in ("ink", "faint", "accent-ink"):
            assert contrast(colour[letters], colour[paper]) >= 4.5
    grounds = ("on-band", "band"), ("on-soon", "soon"), ("on-over", "over"), ("on-accent", "accent")
    for letters, behind in grounds:
        assert contrast(colour[letters], colour[behind]) >= 4.5
    # what a bar shows, beside the rest of it and beside what it stands on
    assert min(contrast(colour["accent-bar"], colour[it]) for it in ("rule", "paper")) >= 3


def test_the_default_accent_is_kept_where_it_can_be_read():
    assert palette(DARK, ACCENT)["accent-ink"] == ACCENT
    assert palette(LIGHT, "#b33a00")["accent-ink"] == "#b33a00"
    assert len(LIGHT) == len(DARK) == 5 and all(
        re.fullmatch("#[0-9a-f]{6}", it) for it in palette(DARK, ACCENT).values()
    )
