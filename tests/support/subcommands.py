"""The subcommands with their words, as `--help` of the program as it is built lists them, and those that the program reads."""
import os
import re

SOURCE = os.path.join(os.path.dirname(__file__), "../../crates/er_words/src/line.rt")


def listed(help_text):
    """Each name with the words after it, in the order of the help."""
    return re.findall(r"^  ([a-z]+) (FILE(?: [A-Z]+)*)  ", help_text, re.M)


def read():
    """Each name that is read, in the order of the source."""
    return re.findall(r'^ +"([a-z]+)" => ', open(SOURCE, encoding="utf-8").read(), re.M)


def kinds(export_help):
    """The lists that `export --help` names."""
    return re.findall(r"^  (?:KIND {4}| {8})([a-z]+): ", export_help, re.M)
