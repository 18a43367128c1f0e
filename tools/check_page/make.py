"""Makes docs/check.html, the page by which players check a round on their own phones, from its sources in tools/check_page, which it has as they stand
there; or says that it is not as it would be made.

    python3 -B -m tools.check_page.make           compares
    python3 -B -m tools.check_page.make --write   writes docs/check.html
"""
import argparse
import sys

from tools import TOP

SOURCES, PAGE = f"{TOP}/tools/check_page", f"{TOP}/docs/check.html"


def read(path):
    with open(path, encoding="utf-8") as file:
        return file.read()


def made():
    page = read(f"{SOURCES}/page.html")
    for name in ("page.css", "core.js", "page.js"):
        page = page.replace(f"{name.upper()}\n", read(f"{SOURCES}/{name}"))
    return page


def main():
    words = argparse.ArgumentParser(prog="tools.check_page.make", description=__doc__.split("\n")[0])
    words.add_argument("--write", action="store_true", help="write the page")
    if words.parse_args().write:
        with open(PAGE, "w", encoding="utf-8") as file:
            file.write(made())
        return 0
    if read(PAGE) == made():
        return 0
    print(
        "docs/check.html is not what its sources make. Make it: python3 -B -m tools.check_page.make --write",
        file=sys.stderr,
    )
    return 1


if __name__ == "__main__":
    sys.exit(main())
