"""The toolchain's own command, `rt`, as a module: how it reads crates, and what it calls for them."""
import importlib.machinery
import importlib.util
import os
import shutil
import sys


def load():
    path = os.path.realpath(shutil.which("rt") or sys.exit("rt is not on the path"))
    sys.path.insert(0, os.path.dirname(path))
    loader = importlib.machinery.SourceFileLoader("rt", path)
    module = importlib.util.module_from_spec(importlib.util.spec_from_loader("rt", loader))
    sys.modules["rt"] = module
    loader.exec_module(module)
    return module
