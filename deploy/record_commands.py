"""The commands of a record, and what their bodies say: the figures of a return, the rows of a file of returns,
notes and lots. For `entries`, `papers` and `replay`."""

import base64
import contextlib
import csv
import io
import json
import re
import sys
from typing import NamedTuple

OF_STATIONS = ("lodge", "query", "correct", "close", "confirm")
OF_CONSTITUENCIES = ("draw", "certify", "reopen", "vacate", "import", "import/semicolon")
CODE = re.compile(r"[A-Za-z0-9_-]{1,16}")
NUMBER = re.compile(r"[0-9]{1,9}")
LARGEST = 1_000_000
HEADER, MOST_ROWS = ("station", "slip", "blank", "spoiled"), 20_000
# An office passes over a row with a long field, and records the others: so do all that read its
# record by this file.
csv.field_size_limit(sys.maxsize)

# A database's numbers for the statuses of a return, and for spoiled votes among those of a slip.
RECEIVED, QUERIED, CORRECTED, CLOSED = 1, 2, 3, 4
SPOILED = 61
LEAVES = {"query": QUERIED, "correct": CORRECTED, "close": CLOSED, "confirm": CLOSED}


class Command(NamedTuple):
    """A command of a record: its line's number, who gave it and when, what was asked for, of which code, its body, from where
    it came, and where two names gave it the line of the first one."""
    number: int
    name: str
    time: str
    what: str
    code: str
    body: str
    address: str | None
    first: int | None = None


def command_of(entry, number):
    """The command that the object of this line is. Its further keys are passed over."""
    kind, code, what = re.fullmatch(r"/(station|con)/([A-Za-z0-9_-]+)/(\w+(?:/\w+)?)", entry["path"]).groups()
    if entry["method"] != "POST" or what not in (OF_STATIONS if kind == "station" else OF_CONSTITUENCIES):
        raise ValueError("no command of the office")
    if "body_base64" in entry:
        body = base64.b64decode(entry["body_base64"], validate=True).decode(errors="surrogateescape")
    else:
        body = entry["body"]
    return Command(number, entry["name"], entry["time"], what, code, body, entry.get("address"))


def items(votes, blank, spoiled):
    """The numbers of a slip as a database has them: blank votes, those of each list, spoiled ones, without those that are 0."""
    return frozenset((item, number) for item, number in [(0, blank), *enumerate(votes, 1), (SPOILED, spoiled)] if number)


def rows_of(body, semicolons, con):
    """The stations of the rows of a file that an import lodges where nothing is recorded yet."""
    most = {station["code"]: station["electors"] + station.get("agents", 0) for station in con["station"]}
    rows = judged_rows(body, semicolons, most, [one["code"] for one in con["list"]])
    return [(station, found) for station, found in rows if not isinstance(found, int)]


def judged_rows(body, semicolons, most=None, lists=None):
    """Each row of a file of returns: its station, and its slip and numbers or the number of what an import refuses it for, 0
    where it is bad. A station is one of these, each with the most votes that it may have; where nobody says it, any of any votes.
    None of a file that is refused as a whole."""
    rows = [row for row in csv.reader(io.StringIO(body.removeprefix("\ufeff"), newline=""), delimiter=";" if semicolons else ",") if row]
    if not rows or len(rows) > MOST_ROWS + 1 or rows[0] != [*HEADER, *(lists or rows[0][4:])]:
        return
    width = len(rows[0])
    for station, *fields in rows[1:]:
        slip, *numbers = fields if len(fields) == width - 1 > 3 else [""]
        is_there = CODE.fullmatch(station) and (most is None or station in most)
        if not is_there or not CODE.fullmatch(slip) or not all(map(NUMBER.fullmatch, numbers)):
            yield station, 0
            continue
        votes = [int(number) for number in numbers]
        if max(votes) > LARGEST:
            yield station, 4
        elif most is not None and sum(votes) > most[station]:
            yield station, 6
        else:
            yield station, (slip, items(votes[2:], *votes[:2]))


def lot_of(body):
    """The lists of a lot in the order drawn."""
    order = json.loads(body)["order"]
    if not isinstance(order, list) or not all(isinstance(code, str) for code in order):
        raise ValueError("no order of lists")
    return tuple(order)


def figures_of(body):
    """The slip and the numbers that a command says, in the order of a database: votes, blank, spoiled."""
    with contextlib.suppress(ValueError, KeyError, TypeError, RecursionError):
        said = json.loads(body)
        # (an office takes no other slip)
        if isinstance(said["slip"], str):
            return said["slip"], items(said["votes"], said["blank"], said["spoiled"])
    return None


def answer_of(entry):
    """The object that the answer in a line is; an empty one where it has none."""
    with contextlib.suppress(ValueError, KeyError, TypeError, RecursionError):
        return dict(json.loads(entry["answer"]))
    return {}


def said_in(body, key):
    """The value that a command has under a key, or None."""
    with contextlib.suppress(ValueError, KeyError, TypeError, RecursionError):
        return json.loads(body)[key]
    return None


def note_of(body):
    return said_in(body, "note")
