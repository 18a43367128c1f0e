"""Makes the man pages of the companions from what they say with --help, or says which page is not as it would be made.

    python3 -B -m tools.manuals           compares
    python3 -B -m tools.manuals --write   writes event-desk.1, event-sheets.1, event-phones.1 and event-check.1 into companions/man
"""
import argparse
import importlib
import os
import re
import sys

from tools import TOP

# the module of each companion that reads its command line
COMPANIONS = (
    "event_companions.prompt.main",
    "event_companions.sheets.main",
    "event_companions.phones.main",
    "second_reading.event_check",
)
DESK, SHEETS, PHONES, CHECK = "event-desk", "event-sheets", "event-phones", "event-check"
# what lies beside FILE, as docs/FORMATS.md says more of it, and who makes or reads it
FILES = (
    (".keys", "the key of each round", DESK, CHECK),
    (".draws", "a folder: numbers and texts of rounds that dice drew", DESK, SHEETS, PHONES, CHECK),
    (".copies", "a folder: the copies that are made before what can't be taken back", DESK),
    (".copies-to", "the folder to which each copy goes too", DESK),
    (".away-*", "an event that `back` put away", DESK),
    (".back", "what `back` is just putting in place", DESK),
    (".title", "the heading of sheets, board and phones", DESK, SHEETS, PHONES),
    (".names", "names that are shown in place of the enrolled ones", DESK, SHEETS, PHONES),
    (".doubts", "scores that are marked as doubtful", DESK, SHEETS, PHONES),
    (".notes", "notes for tables", DESK, SHEETS, PHONES),
    (".clock", "the clock, while one runs", DESK, SHEETS, PHONES),
    (".look", "how sheets and board look; made by hand", SHEETS, PHONES),
    (".sheets.html", "the page that was written last", DESK, SHEETS),
    (".board.html", "the board, without --watch", SHEETS),
    (".phones", "the address and the key of the codes", SHEETS, PHONES),
    (".reports", "what phones handed in, with their addresses: delete it after the event", DESK, PHONES),
    (".entries", "names that players entered by phone, with their addresses: delete it too", DESK, PHONES),
    (".troubles", "what goes wrong with the phones now", DESK, PHONES),
    (".turn", "empty; the lock by which they take turns", DESK, SHEETS, PHONES),
    (".keys.old-*", "keys of an earlier event of this name; so with the other files", DESK),
)


def escaped(text):
    """As roff reads it: no hyphen that it makes longer, no letter at the beginning of a line that it takes for a request."""
    text = text.replace("\\", "\\e").replace("-", "\\-")
    return re.sub(r"^([.'])", r"\\&\1", text, flags=re.M)


def option(action):
    names = ", ".join(f"\\fB{escaped(name)}\\fR" for name in action.option_strings)
    return f"{names} \\fI{escaped(action.metavar)}\\fR" if action.metavar else names


def synopsis(actions):
    for action in actions:
        yield f"[{option(action)}]".replace(
            ", ", " | "
        ) if action.option_strings else f"\\fI{escaped(action.metavar)}\\fR"


def described(actions):
    for action in actions:
        head = option(action) if action.option_strings else f"\\fI{escaped(action.metavar)}\\fR"
        yield f".TP\n{head}\n{escaped(action.help % {'prog': ''})}"


def sections(text):
    """What stands below the options: a line that ends with a colon heads a section, whose lines stay as they are."""
    for block in re.split(r"\n\n(?! )", text.strip("\n")):
        head, _, rest = block.partition("\n")
        if re.fullmatch(r"[a-z ]+:", head):
            yield f".SH {head[:-1].upper()}\n.nf\n{escaped(rest)}\n.fi"
        elif not block.startswith("Beside FILE it keeps"):
            yield f".PP\n{escaped(block)}"


def files_of(command):
    """What lies beside FILE and is the command's to make or to read."""
    return "\n".join(
        f".TP\n.I FILE{escaped(ending)}\n{escaped(text[0].upper() + text[1:])}."
        for ending, text, *whose in FILES
        if command in whose
    )


def page(module, others):
    parser = module.parser()
    shown = [action for action in parser._actions if action.help != argparse.SUPPRESS]
    actions = sorted(shown, key=lambda action: not action.option_strings)
    see = " ,\n".join(f".BR {name} (1)" for name in ("event_reporter", *others))
    return (
        "\n".join(
            (
                f'.TH {module.COMMAND.upper()} 1 "" "event_reporter" "User Commands"',
                f".SH NAME\n{module.COMMAND} \\- {escaped(module.PURPOSE)}",
                f".SH SYNOPSIS\n\\fB{escaped(module.COMMAND)}\\fR " + " ".join(synopsis(actions)),
                f".SH DESCRIPTION\n{escaped(parser.description.strip())}",
                ".SH OPTIONS\n" + "\n".join(described(actions)),
                *sections(parser.epilog),
                f".SH FILES\nBeside\n.I FILE\nlie these.\n{files_of(module.COMMAND)}",
                f".SH SEE ALSO\n{see}",
            )
        )
        + "\n"
    )


def pages():
    """Each page by its path in the checkout."""
    modules = [importlib.import_module(name) for name in COMPANIONS]
    names = [module.COMMAND for module in modules]
    return {
        f"companions/man/{it.COMMAND}.1": page(it, [name for name in names if name != it.COMMAND])
        for it in modules
    }


def read(path):
    return open(path, encoding="utf-8").read() if os.path.exists(path) else ""


def main():
    words = argparse.ArgumentParser(prog="tools.manuals", description=__doc__.split("\n")[0])
    words.add_argument("--write", action="store_true", help="write the pages")
    is_written = words.parse_args().write
    status = 0
    for path, made in pages().items():
        if is_written:
            with open(f"{TOP}/{path}", "w", encoding="utf-8") as file:
                file.write(made)
        elif read(f"{TOP}/{path}") != made:
            status = 1
            print(
                f"{path} is not what --help says. Make it: python3 -B -m tools.manuals --write",
                file=sys.stderr,
            )
    return status


if __name__ == "__main__":
    sys.exit(main())
