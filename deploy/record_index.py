"""Which lines of the record of commands are about each station, and how many returns each name
typed in the last hour. recorder.py keeps both beside the record, and asks them."""

import base64
import collections
import csv
import io
import json
import sys
import threading
from array import array
from datetime import datetime

# A history has the last lines, this many of what was done and as many of what was not.
LINES = 200
# The acts by which somebody types a return, and for how many minutes they are counted.
TYPING, HOUR = ("lodge", "confirm", "correct"), 60
# The statuses that leave it open: the command may have been done.
UNKNOWN = (None, 502, 503, 504)
# An office passes over a row with a long field, and records the others.
csv.field_size_limit(sys.maxsize)


class Typed:
    """How many returns each name typed in each minute of the last hour, by constituency. A return
    counts once it was accepted, and not where the same was recorded before."""

    def __init__(self, stations):
        # The constituency of each station.
        self.stations, self.minutes = stations, {}

    def take(self, path, name, role, entry):
        """A command of this path, name and role was answered by this line."""
        _, _, code, act = path.split("/", 3)
        if act not in TYPING or code not in self.stations or entry["status"] != 200 or not is_done(entry):
            return
        minute = int(datetime.fromisoformat(entry["time"]).timestamp()) // 60
        if minute not in self.minutes:
            self.minutes = {one: counts for one, counts in self.minutes.items() if one > minute - HOUR}
            self.minutes[minute] = collections.Counter()
        self.minutes[minute][self.stations[code], name, role, act] += 1

    def of(self, con, now):
        """The names that typed returns of a constituency in the last hour, that with the most first."""
        minute, found = int(now.timestamp()) // 60, {}
        for one, counts in self.minutes.items():
            for (home, name, role, act), many in counts.items():
                if home == con and minute - HOUR < one <= minute:
                    row = found.setdefault((name, role), {"name": name, "role": role, **dict.fromkeys(TYPING, 0)})
                    row[act] += many
        return sorted(found.values(), key=lambda row: (-sum(row[act] for act in TYPING), row["name"]))


class Index:
    """Where the lines of the record are that are about each station, and who typed returns."""

    def __init__(self, known=None, typed=None):
        # The stations of the setup, each with its constituency, where it is known: no memory is
        # spent on the names that a file makes up.
        self.known = known
        # Of what was done to a station and of what was not, so that no repetition pushes out an
        # act; and of commands without an answer by their numbers.
        self.places, self.waiting, self.lock = {}, {}, threading.Lock()
        self.typed = typed or Typed({})

    def take(self, line, place):
        """A line of the record at its place, whatever is in it."""
        self.take_entry(entry_of(line), place)

    def take_entry(self, entry, place):
        """The content of a line at this place."""
        try:
            if "to" in entry:
                self.answered(entry, place)
                return
            stations = self.of_setup(stations_of(entry), entry["path"])
            with self.lock:
                if "status" in entry:
                    self.add(stations, False, place)
                else:
                    self.waiting[entry["n"]] = place, stations, (entry["path"], entry.get("name"), entry.get("role"))
        except (ValueError, KeyError, TypeError, AttributeError, RecursionError, csv.Error):
            # No recorder wrote it.
            return

    def of_setup(self, stations, path):
        """Those that the setup has; of a file, in its constituency. A row of another one's station is bad there: it
        would push acts out of that station's history, and who sent it may act in the one constituency alone."""
        if self.known is None:
            return stations
        _, kind, con, _ = path.split("/", 3)
        return {code for code in stations if code in self.known and (kind == "station" or self.known[code] == con)}

    def answered(self, entry, place):
        with self.lock:
            command, stations, (path, name, role) = self.waiting.pop(entry["to"])
            self.typed.take(path, name, role, entry)
            # A file of which nothing was lodged is about no station. What was sent twice was
            # lodged perhaps the first time.
            if path.startswith("/station/") or entry["status"] in UNKNOWN or "again" in entry or json.loads(entry["answer"])["lodged"]:
                self.add(stations, is_done(entry), command, place)

    def add(self, stations, done, *places):
        for station in stations:
            self.places.setdefault((station, done), array("Q")).extend(places)

    def of(self, station):
        """The places of its last lines, in their order, and whether these are all."""
        with self.lock:
            waiting = [place for place, stations, _ in self.waiting.values() if station in stations]
            sorts = [self.places.get((station, done), ()) for done in (True, False)] + [waiting]
            return sorted(place for sort in sorts for place in sort[-LINES:]), all(len(sort) <= LINES for sort in sorts)

    def typed_of(self, con, now):
        with self.lock:
            return self.typed.of(con, now)


def entry_of(line):
    """The content of a line of the record; None where it is no JSON."""
    try:
        return json.loads(line)
    except (ValueError, RecursionError):
        return None


def is_done(entry):
    """Whether an answer says that something was done, or leaves it open. What was sent twice was done perhaps the first time."""
    return entry["status"] in UNKNOWN or entry["status"] == 200 and ("again" in entry or '"ok":"same"' not in entry.get("answer", ""))


def stations_of(entry):
    """The stations that a command is about: the one that it names, or those of the rows of a file."""
    _, kind, code, act = entry["path"].split("/", 3)
    if kind == "station":
        return {code}
    if not act.startswith("import") or "bytes" in entry:
        return set()
    text = entry["body"] if "body" in entry else base64.b64decode(entry["body_base64"]).decode(errors="replace")
    rows = csv.reader(io.StringIO(text.removeprefix("\ufeff"), newline=""), delimiter=";" if act == "import/semicolon" else ",")
    return {row[0] for row in rows if row}
