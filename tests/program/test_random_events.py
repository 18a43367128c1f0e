"""Random events, played by scripts on the program as it is built, beside a plain reading of the rules.

Each answer is compared: of commands that are taken and refused, slips after each pairing, and the standings after most steps. Of the
playoff, the whole bracket after each score, and the standings at its end, which are those before the cut. Some players enrol late.
"""
from tests.support.random_play import random_event
from tests.support.shrinking import shrunk_script, text_of

CASES = {"number": (400, 4_000)}


def test_in_a_script(program, dice, number):
    lines, answers = [], []

    def note(line, answer, _event):
        lines.append(line)
        answers.extend(answer)

    random_event(note, dice, number)
    is_right = program.fed(text_of(lines)) == (0, text_of(answers), b"")
    assert is_right, shrunk_script(program, lines)
