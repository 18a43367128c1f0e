"""What the end says of tests that were left out."""
from tests.conftest import left_out


def test_each_file_that_was_left_out_has_a_line():
    jinja = "Skipped: could not import 'jinja2': No module named 'jinja2'"
    skipped = [
        ("tests/unit/test_page.py", 9, jinja),
        ("tests/unit/test_page.py", 9, jinja),
        ("tests/unit/test_look.py", 3, "Skipped: it is late"),
    ]
    assert left_out(skipped) == [
        "left out: tests of test_look.py, as it is late",
        "left out: tests of test_page.py, as jinja2 is not installed",
    ]
    assert left_out([]) == []
