"""The packages of Debian that the test command uses, by scripts/packages.txt, which scripts/setup reads too."""
from tools import TOP

LIST = f"{TOP}/scripts/packages.txt"


def packages():
    """Returns each package, and how it is seen that it is there."""
    with open(LIST, encoding="utf-8") as text:
        lines = [line.split() for line in text if not line.startswith("#")]
    return {package: sign for package, sign, *_ in lines}


def modules(*whose):
    """Returns each package that brings a module of Python, and the module: those that "tests" import, or the "companions"."""
    found = {package: sign.partition(":") for package, sign in packages().items()}
    return {package: module for package, (who, _, module) in found.items() if who in whose and module}
