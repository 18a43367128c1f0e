"""Writes the answers that examples and documents show, from the plain reading, and never from the program.

These are the transcripts and *.answers in examples, the output of the script that the gate runs, what stands beneath the lines that README,
COMMANDS and REPAIR show, and the lists that EXAMPLES, RULES and other blocks of the documents have in common with these. A line is typed with a program of the plain reading. What that
one doesn't have, such as a usage text, stays as it is. Read the diff; `scripts/test examples` then compares the program with all of it.
"""
import argparse
import glob
import os
import re
import sys
import tempfile

from tests.support import plain_program
from tests.support.plain_script import Script
from tests.support.tour import BLOCK, TOURS, Tour, is_left_out, steps_of
from tests.support.transcripts import sent
from tools import TOP

SHOWN = (
    "README.md",
    "docs/GUIDE.md",
    "docs/COMMANDS.md",
    "docs/REPAIR.md",
    "docs/EXAMPLES.md",
    "docs/RULES.md",
)
# the script that the gate runs too
FIRST, FIRST_ANSWERS = "crates/event_reporter/stdin", "crates/event_reporter/stdout"
FENCED = re.compile(r"(?<=^```\n)(.*?)(?=^```)", re.M | re.S)
HEADINGS = ("Rank   No ", "  No D Name", " Tab    A ", " Stg Slot ", "no,name,dropped", "round,table,")
EXAMPLES = """\
examples:
  python3 -B -m tools.answers           writes them; then: git diff
  python3 -B -m tools.answers --check   says what would be written
"""


def read(path):
    with open(f"{TOP}/{path}", encoding="utf-8", newline="") as file:
        return file.read()


def is_list(text):
    return text.startswith(HEADINGS)


class Answers:
    """What is to be written, and which list has taken the place of which."""

    def __init__(self):
        self.texts, self.lists, self.unknown = {}, {}, []

    def pair(self, shown, due):
        """Remembers what a list that is shown has to be."""
        if is_list(shown):
            self.lists.setdefault(shown, set()).add(due)

    def transcript(self, path):
        parts = [self.part(part) for part in read(path).split("\n\n")]
        self.texts[path] = "\n\n".join(parts)

    def part(self, part):
        """A part of a transcript: the lines that are sent, each with its answer, and what is said of them."""
        script, made = Script(), []
        steps = re.split(r"^(?=>)", part, flags=re.M)
        for step in steps:
            line, has_more, below = step.partition("\n")
            if not line.startswith(">"):
                made.append(step)
                continue
            due = "".join(f"{answer}\n" for answer in script.answer(sent(line.encode())))
            comments = "".join(f"{it}\n" for it in below.split("\n") if it.startswith("#"))
            shown = "".join(f"{it}\n" for it in below.split("\n") if it and not it.startswith("#"))
            self.pair(shown, due)
            made.append(f"{line}\n{due}{comments}")
        text = "".join(made)
        return text if part.endswith("\n") else text.rstrip("\n")

    def script(self, path, answers):
        with open(f"{TOP}/{path}", "rb") as file:
            self.texts[answers] = "".join(f"{answer}\n" for answer in Script().run(file.read()))

    def documents(self, paths):
        """What stands beneath the lines that are typed, in one folder."""
        with tempfile.TemporaryDirectory() as room:
            tour = Tour(room, plain_program.__file__)
            for path in paths:
                self.document(path, tour)
            tour.end()

    def document(self, path, tour):
        self.texts[path] = BLOCK.sub(lambda block: self.block(path, tour, block[1]), read(path))

    def block(self, path, tour, block):
        made = []
        for typed, shown in steps_of(block):
            due = None if is_left_out(typed) else tour.run(typed, shown)
            if due is None or plain_program.UNKNOWN in due:
                self.unknown.append(f"{path}: {typed}")
                due = shown
            self.pair(shown, due)
            made.append(f"$ {typed}\n{due}")
        return "".join(made)

    def fenced(self, path):
        """The lists in blocks in which nothing is typed are those of transcripts and typed lines."""
        self.texts[path] = FENCED.sub(
            lambda block: self.replaced(path, block[1]), self.texts.get(path) or read(path)
        )

    def replaced(self, path, block):
        for shown in sorted(self.lists, key=len, reverse=True):
            if shown in block and self.lists[shown] != {shown}:
                if len(self.lists[shown]) > 1:
                    self.unknown.append(f"{path}: one of several lists:\n{shown}")
                else:
                    block = block.replace(shown, *self.lists[shown])
        return block


def made():
    answers = Answers()
    for path in sorted(glob.glob(f"{TOP}/examples/transcripts/*.txt")):
        answers.transcript(os.path.relpath(path, TOP))
    for path in sorted(glob.glob(f"{TOP}/examples/*.answers")):
        name = os.path.relpath(path, TOP)
        answers.script(name.replace(".answers", ".txt"), name)
    answers.script(FIRST, FIRST_ANSWERS)
    for paths in TOURS:
        answers.documents(paths)
    for path in SHOWN:
        answers.fenced(path)
    return answers


def main():
    as_it_is = argparse.RawDescriptionHelpFormatter
    words = argparse.ArgumentParser(
        prog="tools.answers", description=__doc__, epilog=EXAMPLES, formatter_class=as_it_is
    )
    words.add_argument(
        "--check", action="store_true", help="write nothing; the status is 1 if something would be written"
    )
    is_check = words.parse_args().check
    answers = made()
    changed = [path for path, text in answers.texts.items() if text != read(path)]
    for left in answers.unknown:
        print(f"left as it is: {left}")
    for path in changed:
        print(f"{'would change' if is_check else 'changed'}: {path}")
        if not is_check:
            with open(f"{TOP}/{path}", "w", encoding="utf-8", newline="") as file:
                file.write(answers.texts[path])
    print(f"{len(answers.texts)} files, {len(changed)} of them changed")
    return 1 if changed and is_check else 0


if __name__ == "__main__":
    sys.exit(main())
