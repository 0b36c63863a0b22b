"""Scripts as modules: those beside this file, or, in a clone, in examples/."""

import importlib.machinery
import importlib.util
from pathlib import Path

HERE = Path(__file__).resolve().parent


def script(name):
    """A script, also one whose name has no ending, as a module."""
    file = next(file for file in (HERE / name, HERE.parent / "examples" / name) if file.exists())
    loader = importlib.machinery.SourceFileLoader(file.stem, str(file))
    found = importlib.util.module_from_spec(importlib.util.spec_from_loader(file.stem, loader))
    loader.exec_module(found)
    return found
