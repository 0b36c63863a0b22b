"""The requests that `deploy/desk` answers, and the roles that may give each command.

These are the rules of `nginx.conf` as a table. `tests/deploy/test_desk_roles.py` compares the two,
request by request: whoever changes one changes the other.
"""

import re
from dataclasses import dataclass

ROLES = ("clerk", "second", "board", "station")
# A name, as the record has it. A station's name is its code.
NAME = "[A-Za-z0-9_-]{1,32}"
# The roles of each act. A station lodges its own return alone.
ACTS = {
    "lodge": ("clerk", "station"),
    "query": ("clerk", "second"),
    "correct": ("clerk",),
    "close": ("clerk",),
    "confirm": ("second",),
    "import": ("clerk",),
    "trial": ("clerk",),
    "draw": ("board",),
    "certify": ("board",),
    "reopen": ("board",),
    "vacate": ("board",),
    "history": ("clerk", "second", "board"),
    "typed": ("clerk", "second", "board"),
}
# Bytes that the body of an import, and of another command, may have.
MOST_OF_IMPORT, MOST_OF_COMMAND = 1_048_576, 16_384

# The source of the answer to each kind of request: `page` is the clerks' page, `setup` the lists of
# the setup, `file` a press page. The reader has each `table`, also those that are asked for `now`,
# for who acts on them; what says `slips`, for who may see these; and `all` stations of a
# constituency, as a role may see them. The recorder has a `history` and who `typed` how much, and
# passes on each `command`.
READ = ("GET", "HEAD")
METHODS = {"page": READ, "logout": READ, "setup": READ, "file": READ, "table": READ, "slips": READ,
           "now": ("GET",), "now_slips": ("GET",), "now_all": ("GET",), "history": ("GET",),
           "typed": ("GET",), "command": ("POST",)}
# Of these a web page of the site asks, and no typed address leads there.
FROM_A_PAGE = ("now", "now_slips", "now_all", "history", "typed", "command", "logout")
# Who sees what a slip says before it is closed; a station sees its own.
SEE_SLIPS = ("clerk", "board")
# Who sees seats before they are certified where the site shows them to nobody.
SEE_HIDDEN = ("clerk", "board")

CODE = "[A-Za-z0-9_-]{1,16}"
STATION, CON = f"/station/(?P<station>{CODE})", f"/con/(?P<con>{CODE})"
REPORTS = "tally|seats|quotients|awards|quota|short|holders|past|provisional|result"
OF_ALL = "stations|returns"
# The kinds by the patterns of their targets: the first that fits decides.
TARGETS = [(kind, re.compile(pattern)) for kind, pattern in (
    ("table", "/progress|/country|/results"),
    ("slips", STATION),
    ("table", f"{CON}(/({REPORTS}))?"),
    ("slips", f"{CON}/({OF_ALL})"),
    ("now_all", f"/now{CON}/(?P<table>{OF_ALL})"),
    ("now_slips", f"/now(?P<table>{STATION})"),
    ("typed", f"/now{CON}/(?P<act>typed)"),
    ("now", f"/now(?P<table>/progress|/country|/results|{CON}(/[a-z]+)?)"),
    ("history", f"/now{STATION}/(?P<act>history)"),
    ("command", f"{STATION}/(?P<act>lodge|query|correct|close|confirm)"),
    ("command", f"{CON}/(?P<act>draw|certify|reopen|vacate)"),
    ("command", f"{CON}/(?P<act>import|trial)(/semicolon)?"),
    ("page", "/clerk.html"),
    ("logout", "/logout"),
    ("setup", "/setup.json"),
    ("file", "/(?P<file>([a-z]{2}/)?([A-Za-z0-9_-][A-Za-z0-9_.-]*)?)"),
)]
# Reports with seats that may not be certified yet.
PROVISIONAL = re.compile(f"/results|{CON}/(provisional|result)")
# Of these a target with a question is the same without.
FILES = ("page", "logout", "setup", "file")


@dataclass(frozen=True)
class Request:
    """A request by its target; empty texts where it names no station, constituency or act."""
    kind: str
    path: str
    station: str = ""
    con: str = ""
    act: str = ""
    file: str = ""

    @property
    def methods(self):
        return METHODS[self.kind]

    @property
    def most(self):
        """How many bytes its body may have."""
        if self.kind != "command":
            return 0
        return MOST_OF_IMPORT if self.act in ("import", "trial") else MOST_OF_COMMAND

    @property
    def has_provisional(self):
        """Whether it is a report with seats that may not be certified yet."""
        return self.kind in ("table", "now") and bool(PROVISIONAL.fullmatch(self.path))

    def is_there(self, role, is_hidden):
        """Whether there is such a report for a role, on a site that may hide provisional seats."""
        return not (is_hidden and self.has_provisional) or role in SEE_HIDDEN

    def is_allowed(self, name, role):
        """Whether a name of a role may do it, or see it. Whoever has a name may read the rest."""
        is_own = role == "station" and name == self.station
        if self.kind in ("slips", "now_slips"):
            return role in SEE_SLIPS or is_own
        return not self.act or role in ACTS[self.act] and (is_own or role != "station")


def request_of(target):
    """The request of a target, or None where there is nothing of that name."""
    path, question, _ = target.partition("?")
    for kind, pattern in TARGETS:
        found = pattern.fullmatch(path)
        if found and question and kind not in FILES:
            return None
        if found:
            parts = {name: value or "" for name, value in found.groupdict().items()}
            return Request(kind, parts.pop("table", path), **parts)
    return None
