"""Counts what was as it had to be, and says what was not."""
import random
import sys

wrong = right = 0
# what a failure is played again by, where something is random
seed = ""


def dice_of(number):
    """The dice that a seed begins, which each failure names from then on."""
    global seed
    seed = f" (seed {number})"
    return random.Random(number)


def check(name, got, want):
    global wrong, right
    if got == want:
        right += 1
    else:
        wrong += 1
        print(f"{name}: {got!r}, and not {want!r}{seed}", file=sys.stderr)


def left_out(what, why):
    """Says that a part is not tried. The test command ends with these lines."""
    print(f"left out: {what}, as {why}", flush=True)


def end(what):
    """Ends the script, with the status that comes with the count."""
    print(what)
    print(f"{right} passed, {wrong} failed")
    sys.exit(1 if wrong or not right else 0)
