"""A copy of an office's database, as `entries` compares it with a record of commands."""

import contextlib
import re
import sqlite3
import tomllib
from pathlib import Path


def lines_of(file):
    """How many lines the record had when a copy was made, by its name; None where that does not say it."""
    found = re.fullmatch(r"office-[0-9]{8}T[0-9]{6}Z-([0-9]+)\.db", Path(file).name)
    return int(found[1]) if found else None


def cons_of(text):
    """The constituencies of a setup, each with its rule beside the rule's code."""
    setup = tomllib.loads(text.removeprefix("\ufeff"))
    rules = {rule["code"]: rule for rule in setup["profile"]}
    return [con | {"rule": rules[con["profile"]]} for con in setup["constituency"]]


def is_certified(value):
    """Whether a constituency is certified, as its row says."""
    if value not in (0, 1):
        raise ValueError(f"certified {value}")
    return bool(value)


class Office:
    """The contents of a copy of an office's database."""

    def __init__(self, file):
        # A copy without a log beside it, or with one that has not a byte, stays one file.
        log = Path(f"{Path(file).resolve()}-wal")
        how = "mode=ro" if log.exists() and log.stat().st_size else "mode=ro&immutable=1"
        with contextlib.closing(sqlite3.connect(f"{Path(file).resolve().as_uri()}?{how}", uri=True)) as it:
            numbers = {}
            for station, item, number in it.execute("SELECT station, item, n FROM counts WHERE n <> 0"):
                numbers.setdefault(station, set()).add((item, number))
            self.returns = {
                station: (revision, (status, (slip, frozenset(numbers.get(station, ())))))
                for station, revision, status, slip in it.execute("SELECT station, rev, status, slip FROM returns")}
            self.editions = {con: (edition, is_certified(certified)) for con, edition, certified in it.execute("SELECT con, edition, certified FROM cons")}
            self.notes = dict(it.execute("SELECT station, note FROM returns"))
            self.reasons = dict(it.execute("SELECT con, note FROM cons"))
            self.gone = {tuple(who): note for *who, note in it.execute("SELECT con, list, place, note FROM gone")}
            self.lots, self.past = {}, {}
            for con, place in it.execute("SELECT con, list FROM lots ORDER BY con, place"):
                self.lots.setdefault(con, []).append(place)
            # (tables of version 1 have no such table)
            if it.execute("SELECT name FROM sqlite_master WHERE name = 'past'").fetchone():
                for con, edition, place, seats in it.execute("SELECT con, edition, list, n FROM past"):
                    self.past.setdefault(con, {}).setdefault(edition, {})[place] = seats
            [(text,)] = it.execute("SELECT text FROM setup")
            self.cons = cons_of(text)
