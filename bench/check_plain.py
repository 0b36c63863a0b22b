#!/usr/bin/env python3
"""A plain Python program that does what `office check` does: the measure for its speed.

It reads a CSV of returns on the standard input and writes the check text on the standard output.
"""

import csv
import io
import re
import sys

FIXED_NAMES = ["station", "slip", "blank", "spoiled"]
MOST_LISTS = 60
MOST_ROWS = 20_000
MOST_BYTES = 16 * 1024 * 1024
GREATEST = 1_000_000
ELECTORS = 1_000_000

# The numbers of refusals; a bad row has 0.
BAD_ROW, BAD_COUNTS, TOO_MANY_VOTES, DIFFERS = 0, 4, 6, 7

CODE = re.compile(r"[A-Za-z0-9_-]{1,16}")
NUMBER = re.compile(r"[0-9]{1,9}")
# (a row with a long field is bad, and the others are read)
csv.field_size_limit(sys.maxsize)


class BadText(Exception):
    """The text is not a file of returns."""


class BadRow(Exception):
    """The row is no return."""


def code(text):
    if not CODE.fullmatch(text):
        raise BadRow
    return text


def number(text):
    if not NUMBER.fullmatch(text):
        raise BadRow
    return int(text)


def lists_of(header):
    """The lists that a header names."""
    lists = header[4:]
    if header[:4] != FIXED_NAMES or not 1 <= len(lists) <= MOST_LISTS:
        raise BadText("bad_header")
    if len(set(lists)) != len(lists) or not all(CODE.fullmatch(name) for name in lists):
        raise BadText("bad_header")
    return lists


def return_of(row, lists):
    """The station of a row, and its return: the slip, the blank votes, the spoiled ones, the votes."""
    if len(row) != len(FIXED_NAMES) + len(lists):
        raise BadRow
    station, slip, blank, spoiled, *votes = row
    return code(station), (code(slip), number(blank), number(spoiled), [number(n) for n in votes])


def refusal_of(entry, standing):
    """The number of the refusal of a return, or None where it is lodged or recorded already."""
    _, blank, spoiled, votes = entry
    if max(blank, spoiled, *votes) > GREATEST:
        return BAD_COUNTS
    if blank + spoiled + sum(votes) > ELECTORS:
        return TOO_MANY_VOTES
    if standing is not None and standing != entry:
        return DIFFERS
    return None


class Check:
    """The rows so far: how many were answered what, and the returns that were lodged, by station."""

    def __init__(self, lists):
        self.lists = lists
        self.lodged = {}
        self.same = self.differs = self.refused = self.bad = 0
        self.first = None

    def take(self, place, row):
        try:
            station, entry = return_of(row, self.lists)
        except BadRow:
            self.bad += 1
            self.note(place, BAD_ROW)
            return
        standing = self.lodged.get(station)
        refusal = refusal_of(entry, standing)
        if refusal is None and standing is None:
            self.lodged[station] = entry
        elif refusal is None:
            self.same += 1
        else:
            if refusal == DIFFERS:
                self.differs += 1
            else:
                self.refused += 1
            self.note(place, refusal)

    def note(self, place, refusal):
        if self.first is None:
            self.first = f"{place} {refusal}"

    def text(self):
        returns = self.lodged.values()
        totals = [0] * len(self.lists)
        for _, _, _, votes in returns:
            totals = [total + n for total, n in zip(totals, votes)]
        lines = [
            f"lodged {len(self.lodged)}",
            f"same {self.same}",
            f"differs {self.differs}",
            f"refused {self.refused}",
            f"bad {self.bad}",
            f"first {self.first or '-'}",
            f"blank {sum(blank for _, blank, _, _ in returns)}",
            f"spoiled {sum(spoiled for _, _, spoiled, _ in returns)}",
        ]
        lines += [f"{name} {total}" for name, total in zip(self.lists, totals)]
        return "\n".join(lines) + "\n"


def check(text):
    """The check text of a text of returns."""
    if len(text) > MOST_BYTES:
        raise BadText("too_long")
    characters = io.StringIO(text.decode("utf-8-sig", "surrogateescape"), newline="")
    rows = (row for row in csv.reader(characters) if row)
    checked = Check(lists_of(next(rows, [])))
    for place, row in enumerate(rows, 1):
        if place > MOST_ROWS:
            raise BadText("too_long")
        checked.take(place, row)
    return checked.text()


def main():
    try:
        sys.stdout.write(check(sys.stdin.buffer.read()))
    except BadText as refusal:
        sys.exit(f"refused: {refusal}")


if __name__ == "__main__":
    main()
