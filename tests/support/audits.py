"""The audit of seats, as a module and as a command."""

import sys

from tests.support import tools
from tests.support.program import Ran
from tests.support.running import PATIENCE
from tests.support.scripts import module
from tests.support.site import DEPLOY

TOOL = DEPLOY / "audit.py"
tool = module("audit")
SEED = "31415926535897932384"
METHODS = ("dhondt", "sainte-lague", "modified-sainte-lague", "hare")


def audit(*words, run=tools.run):
    ran = run([sys.executable, TOOL, *map(str, words)], capture_output=True, text=True,
              timeout=PATIENCE)
    return Ran(ran.returncode, ran.stdout, ran.stderr)


def con_of(method, seats, lists, electors, threshold=0, base="valid"):
    stations = {f"s{n}": many for n, many in enumerate(electors, 1)}
    return tool.Constituency("c1", "Town", seats, method, threshold, base, list("ABCDEFGH"[:lists]),
                             stations)


def audit_of(con, rows):
    """An audit of counts: of each station the votes of the lists, the blank and the spoiled
    ones."""
    return tool.Audit(con, dict(zip(con.electors, rows)))
