"""Modules and scripts of `deploy/`, as tests import them."""

import atexit
import functools
import importlib
import importlib.machinery
import importlib.util
import shutil
import sys
import tempfile

from tests.support.case import ROOT
from tests.support.programs.forked_tools import keep_templates
from tests.support.site import DEPLOY

# The modules of deploy/ import one another by these names.
sys.path.append(str(DEPLOY))
# The folders of programs that tests start, and of scripts that they run in a page.
PROGRAMS = ROOT / "tests/support/programs"
IN_PAGES = ROOT / "tests/support/in_pages"


@functools.cache
def keep_compiled_templates():
    """Templates are compiled once in a suite, as by runs of tools (tools.py)."""
    folder = tempfile.mkdtemp(prefix="office-templates-")
    atexit.register(shutil.rmtree, folder, ignore_errors=True)
    keep_templates(folder)


def module(name):
    """A module of deploy/."""
    found = importlib.import_module(name)
    if "jinja2" in sys.modules:
        keep_compiled_templates()
    return found


def loaded(name):
    """A script of deploy/ as a module of its own: what is changed in it changes nothing else."""
    loader = importlib.machinery.SourceFileLoader(name.removesuffix(".py"), str(DEPLOY / name))
    found = importlib.util.module_from_spec(importlib.util.spec_from_loader(loader.name, loader))
    loader.exec_module(found)
    return found


def in_page(name):
    """A script that runs in a page."""
    return (IN_PAGES / name).read_text(encoding="utf-8")
