"""Says what is missing of a language, or begins one: the tables of texts for phones, sheets and board, in `companions/event_companions/languages`.

    python3 -B -m tools.languages            says of each language how many of its texts are missing
    python3 -B -m tools.languages fr         names each text that is missing of French, with the English one
    python3 -B -m tools.languages it --write begins it.json, or brings it up to date: each key, and an empty text where one is missing
"""
import argparse
import json
import re


from event_companions.languages import DEFAULT, FOLDER, TABLES, missing_in


def template(table):
    """The table with each key of the default one, in its order. What the default one no longer has is left out."""
    return {key: table.get(key, "") for key in TABLES[DEFAULT]}


def written(table):
    return json.dumps(table, ensure_ascii=False, indent=1) + "\n"


def code_word(text):
    if not re.fullmatch("[a-z]{2,3}", text):
        raise argparse.ArgumentTypeError(f"{text!r} is no code of a language, as fr")
    return text


def main():
    words = argparse.ArgumentParser(description=__doc__, formatter_class=argparse.RawDescriptionHelpFormatter)
    words.add_argument("code", nargs="?", type=code_word, help="the code of the language, as fr")
    words.add_argument("--write", action="store_true", help="write its table")
    given = words.parse_args()
    whole = TABLES[DEFAULT]
    if given.code is None:
        for code, table in TABLES.items():
            print(f"{code}: {len(missing_in(table, whole))} of {len(whole)} texts are missing")
        return
    table = template(TABLES.get(given.code, {}))
    if given.write:
        with open(f"{FOLDER}/{given.code}.json", "w", encoding="utf-8") as file:
            file.write(written(table))
    missing = missing_in(table, whole)
    for key in missing:
        print(f"{key}: {whole[key]}")
    print(f"{given.code}: {len(missing)} of {len(whole)} texts are missing")


if __name__ == "__main__":
    main()
