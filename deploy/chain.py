"""The lines of a record of commands as one after the other, for `replay` and `entries`.

Each line has its number and the SHA-256 of the line before it. The first may say of which setup the
record is, by the SHA-256 of setup.json.
"""

import csv
import hashlib
import json
import os
import re
import stat

FIRST = "0" * 64
# The most bytes of what the pages have shown: a row has some hundred, and ten seconds have one.
MOST_SHOWN = 64 << 20
# How many characters one of its rows may have: a time, a number, a hash and two commas.
LONGEST_ROW = 256
# One of its rows: a time, the number of lines, and the hash of the last of them.
ROW = re.compile("[^,]*,[0-9]+,[0-9a-f]{64}")
# How long a first line may be that says of which setup a record is.
LONGEST_FIRST = 4096


def printable(said):
    """One line: what somebody has sent may have line breaks, and what a terminal obeys."""
    return "".join(c if c.isprintable() else c.encode("unicode_escape").decode() for c in said)


def read_shown(file):
    """The hashes that were shown, by the numbers of their lines. Before the first there is none.
    A file without the header or without a row is refused: nothing would be compared with it.

    The user of the pages may put something else in the place of the file: a pipe, which root would
    wait for, a link, which root would follow, or a file without an end."""
    shown = {}
    with open(os.open(file, os.O_RDONLY | os.O_NONBLOCK | os.O_NOFOLLOW), encoding="utf-8",
              newline="") as rows:
        found = os.fstat(rows.fileno())
        if not stat.S_ISREG(found.st_mode):
            raise ValueError("it is no file")
        if found.st_size > MOST_SHOWN:
            raise ValueError(f"it has more than {MOST_SHOWN} bytes")
        try:
            table = csv.DictReader(rows_of(rows))
            if not {"lines", "sha256"} <= set(table.fieldnames or ()):
                raise ValueError("it has no header with lines and sha256")
            for row in table:
                shown.setdefault(int(row["lines"]), set()).add(row["sha256"])
        except csv.Error as error:
            raise ValueError(str(error)) from None
    if not shown:
        raise ValueError("it has no row")
    shown.pop(0, None)
    return shown


def rows_of(file):
    """The rows of a file, one after the other. One that is too long is not read to its end, as of a
    file of zeros alone, which takes no room on the disk. The last is passed over where it was cut,
    as while the file was fetched."""
    while row := file.readline(LONGEST_ROW + 1):
        if len(row) > LONGEST_ROW:
            raise ValueError(f"one of its rows has more than {LONGEST_ROW} characters")
        if row.endswith(("\n", "\r")) or ROW.fullmatch(row):
            yield row


def hash_of_file(file):
    with open(file, "rb") as data:
        return hashlib.file_digest(data, "sha256").hexdigest()


def setup_of(entry):
    """The hash of the setup with which a record begins, where this is its first line; or None."""
    found = entry.get("setup") if isinstance(entry, dict) and entry.get("n") == 1 else None
    return found if isinstance(found, str) else None


def begins_with(record, file):
    """Whether a record begins with the hash of this setup.json; not where one of them is missing."""
    if not record.is_file() or not file.is_file():
        return False
    # (the recorder's user may have put a pipe there, which root would wait for)
    with open(os.open(record, os.O_RDONLY | os.O_NONBLOCK), "rb") as lines:
        first = lines.readline(LONGEST_FIRST)
    try:
        return setup_of(json.loads(first)) == hash_of_file(file)
    except (ValueError, RecursionError):
        return False


def has_commands(record):
    """Whether a record has more than its first line, if that says of which setup it is."""
    # (its user may have put a link there, which root would follow, or a pipe)
    try:
        descriptor = os.open(record, os.O_RDONLY | os.O_NONBLOCK | os.O_NOFOLLOW)
    except FileNotFoundError:
        return False
    with open(descriptor, "rb") as lines:
        if not stat.S_ISREG(os.fstat(descriptor).st_mode):
            raise OSError(f"{record} is no file")
        first = lines.readline(LONGEST_FIRST)
        try:
            begins = setup_of(json.loads(first)) is not None
        except (ValueError, RecursionError):
            begins = not first
        return not begins or bool(lines.read(1))


class Chain:
    """The facts known of the lines so far, and of those that were shown."""

    def __init__(self, shown=None):
        self.number, self.hash, self.setup, self.shown = 0, FIRST, None, dict(shown or {})

    def take(self, line):
        """The faults of a line, which is one of bytes without its end."""
        self.number, before, faults = self.number + 1, self.hash, []
        self.hash = hashlib.sha256(line).hexdigest()
        if self.shown.pop(self.number, {self.hash}) != {self.hash}:
            faults.append(f"line {self.number}: another one was shown")
        try:
            entry = json.loads(line)
            self.setup = setup_of(entry) or self.setup
            is_next = (entry["n"], entry["before"]) == (self.number, before)
        except (ValueError, TypeError, KeyError, RecursionError):
            is_next = False
        if not is_next:
            faults.append(f"line {self.number}: not as it was written, or one before it")
        return faults

    def end(self):
        """The faults of the end: lines that were shown, and are not there."""
        return [f"line {number}: it was shown, and is not there" for number in sorted(self.shown)]
