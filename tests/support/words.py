"""The words of a script that tries a program: what each stands for, and what `--help` says of it."""
import argparse
import collections
import os
import sys
import textwrap

# how a word is read, what is said of it, how many there may be, and what holds without it
Word = collections.namedtuple("Word", "read help nargs default", defaults=(None, None))

PROGRAM = Word(os.path.abspath, "the program that is tried")
LIBRARY = Word(os.path.abspath, "what is loaded before the program: stop_nth.c or refuse_nth.c, compiled")
SEED = Word(int, "the number with which the dice begin")

COLUMNS = 96


def told(text):
    """The text of a script, but for the lines that show how it is called."""
    return "\n\n".join(
        textwrap.fill(it, COLUMNS) for it in text.strip().split("\n\n") if not it.startswith("    ")
    )


def given_by(text, **words):
    """What the line has of each of these words, by name, in their order."""
    # a script is called by the whole name of its module
    spec = sys.modules["__main__"].__spec__
    as_it_is = argparse.RawDescriptionHelpFormatter
    parser = argparse.ArgumentParser(
        prog=spec.name if spec else None, description=told(text), formatter_class=as_it_is
    )
    for name, word in words.items():
        parser.add_argument(
            name, type=word.read, metavar=name.upper(), help=word.help, nargs=word.nargs, default=word.default
        )
    return vars(parser.parse_args())
