#!/usr/bin/env python3
"""Answers who reads reports of the office, by GET alone: nobody but it and the recorder reaches the office.

    deploy/reader.py FOLDER [--desk HOST:PORT].. [--read HOST:PORT].. [--group NAME]

    deploy/reader.py /run/office-reader --desk 127.0.0.1:8080 --read 127.0.0.1:8090

In FOLDER it listens on two sockets for each desk, for the proxy: `1.sock`, `2.sock`, .., for what
everybody asks for, and `1-names.sock`, .., for those whose password the proxy has seen, who do not
wait for strangers. For each desk it listens on a port of --read, in the same order, for the press
pages. Whatever is not a GET is answered 405, and the office does not hear of it. Nor does it hear a
head or a body.

The office answers one request after the other. Two reports are asked for at once, so that a command
waits for two at most. Past the cache a name of the proxy may have four under way at a desk, all
stations twenty-four, and all seconds as many; where half of these are, a name may have two. More
are answered 429. Of a name one is asked for at a time, and of all strangers. Of stations and
seconds together too, and three times as long as it took is left to others, so that clerks do not
wait for all of theirs. One station at a time waits for that, so that seconds do not wait for all of
the stations'. So one at a time is asked for of what has all constituencies (/results and /country),
whoever asks; and of the tables of all stations of a constituency, for which one of each name waits.

The proxy says with each request what its name may see. `Office-Allowed` other than 1 is answered
403, and `Office-There` other than 1 is answered 404. /stations/CODE and /returns/CODE are the
tables of a constituency past the cache: a name of the staff gets twenty at once, and then two a
second. To a role that does not see what slips say, a line of /stations/CODE ends with the revision,
and /returns/CODE is 403. With `Office-Wait: no` a desk that does not listen is not waited for.

It goes on until it is ended. The status is 2 where its words are wrong. Python 3.11 or later.
"""

import argparse
import contextlib
import re
import socket
import sys
import threading
import time
from pathlib import Path

from recorder import (
    FORBIDDEN,
    NOT_ALLOWED,
    SEE_FIGURES,
    TOO_MANY,
    Answer,
    Desk,
    listen,
    serve,
)
from turns import Places, Turn

# How many requests of names are read at once; of strangers, whose answers the proxy keeps, and of a
# port there are few.
THREADS, OTHER_THREADS = 64, 4
# How many reports of a desk are asked for at once. After a table of all stations the next waits
# three times as long as it took, this many seconds at most; this many wait, and others are answered
# 429.
AT_ONCE, REST, LONGEST_REST, WAITING = 2, 3, 4.0, 16
NOT_THERE = Answer(404)
# What has all constituencies.
WHOLES = ("/results", "/country")
# Columns of the table of stations: its code, electors, a blank, the status and the revision.
TO_REVISION = 16 + 8 + 1 + 9 + 5
# How long a desk that takes no connection is waited for.
CONNECTING = 5
# How many tables of all stations a name may ask for at once, and one more each this many seconds.
TABLES, TABLE_SECONDS = 20, 0.5
# How many reports of a name may wait or be under way past the cache, and how many of all stations,
# whose passwords are in many hands, and of all seconds. Clerks and the board have other threads.
OF_NAME, OF_ROLE, HELD = 4, 24, ("station", "second")


class Often:
    """How often each name asks for a table of all stations past the cache, at whichever desk. The
    proxy has seen its password."""

    def __init__(self):
        self.spent, self.lock = {}, threading.Lock()

    def is_over(self, name):
        now = time.monotonic()
        with self.lock:
            moment = max(self.spent.get(name, 0), now) + TABLE_SECONDS
            if moment > now + TABLES * TABLE_SECONDS:
                return True
            self.spent[name] = moment
            return False


def without_slips(table):
    """A table of stations of which each line ends with the revision. The first two are its head.
    Whatever comes after the revision is left out."""
    lines = table.split(b"\n")
    return b"\n".join(lines[:2] + [line[:TO_REVISION] for line in lines[2:]])


def lock_of(locks, name):
    """The lock of a name, or the one of all strangers."""
    return locks.setdefault(name, threading.Lock())


class Reader:
    """Asks a desk for reports: those of the proxy, with their names, or those of a port."""

    def __init__(self, desk, turns, often=None):
        self.desk, self.turns, self.often = desk, turns, often
        # How many reports of each name may wait or be under way: at this desk, so that one that is
        # away takes no place of another.
        self.places_of_names = Places(OF_NAME, THREADS)
        self.places_of = {role: Places(OF_NAME, OF_ROLE) for role in HELD}
        # The tables of all stations: one at a time, not before a moment, for this many who wait.
        self.large, self.moment = threading.Lock(), 0.0
        self.places = threading.BoundedSemaphore(WAITING)
        # Of stations and seconds one report at a time, and most of the time is left to others; one
        # station at a time waits for this. Of another name, and of strangers, one at a time.
        self.others, self.stations, self.names = Turn(), threading.Lock(), {}
        # Of what has all constituencies one at a time, whoever asks. One of all stations and
        # seconds waits for that, and meanwhile no other report of theirs waits for it.
        self.wholes, self.whole_of_others = Turn(), threading.Lock()
        # Of the tables of all stations one at a time for each name.
        self.tables = {}

    def answered(self, method, path, fields, _):
        if method != "GET":
            return NOT_ALLOWED
        if fields.get("Office-Allowed", "1") != "1":
            return FORBIDDEN
        if fields.get("Office-There", "1") != "1":
            return NOT_THERE
        name, role = fields.get("Office-Name"), fields.get("Office-Role")
        if not self.often:
            return self.asked(path, fields, contextlib.nullcontext())
        turn = self.turn_of(name, role, path in WHOLES)
        if not name:
            return self.asked(path, fields, turn)
        with self.places_of.get(role, self.places_of_names).taken(name) as has_place:
            return self.asked(path, fields, turn) if has_place else TOO_MANY

    @contextlib.contextmanager
    def turn_of(self, name, role, is_whole):
        """The turn of a report that a name of a role has asked for, or a stranger."""
        with contextlib.ExitStack() as held:
            if is_whole:
                held.enter_context(self.whole_of_others if role in HELD else contextlib.nullcontext())
                held.enter_context(self.wholes)
            elif role == "station":
                held.enter_context(self.stations)
            held.enter_context(self.others if role in HELD else lock_of(self.names, name))
            yield

    def asked(self, path, fields, turn):
        wait, name = 0 if fields.get("Office-Wait") == "no" else None, fields.get("Office-Name")
        found = re.fullmatch("/(stations|returns)/([A-Za-z0-9_-]+)", path)
        if found and self.often:
            with lock_of(self.tables, name):
                return self.past_the_cache(*found.groups(), fields)
        if re.fullmatch("/con/[^/]+/(stations|returns)", path) and self.often:
            with lock_of(self.tables, name):
                return self.ask_large(path)
        with turn:
            return self.ask(path, wait)

    def past_the_cache(self, table, con, fields):
        """A table of all stations for a name of the staff, as its role may see it."""
        sees = fields.get("Office-Role") in SEE_FIGURES
        if not sees and (table == "returns" or fields.get("Office-Role") != "second"):
            return FORBIDDEN
        if self.often.is_over(fields.get("Office-Name")):
            return TOO_MANY
        found = self.ask_large(f"/con/{con}/{table}")
        if sees or found.status != 200:
            return found
        return Answer(200, without_slips(found.body), found.kind)

    def ask_large(self, path):
        if not self.places.acquire(blocking=False):
            return TOO_MANY
        try:
            with self.large:
                time.sleep(max(0.0, self.moment - time.monotonic()))
                began = time.monotonic()
                found = self.ask(path)
                took = time.monotonic() - began
                self.moment = time.monotonic() + min(REST * took, LONGEST_REST)
                return found
        finally:
            self.places.release()

    def ask(self, path, wait=None):
        with self.turns:
            return self.desk.ask("GET", path, wait=wait)


def listen_to_port(address):
    host, port = address.rsplit(":", 1)
    return socket.create_server((host, int(port)), backlog=512)


def main():
    command = argparse.ArgumentParser(
        description=__doc__, formatter_class=argparse.RawDescriptionHelpFormatter
    )
    command.add_argument("folder", type=Path, help="where the sockets are")
    command.add_argument(
        "--desk", action="append", metavar="HOST:PORT", help="an office; 127.0.0.1:8080 if none"
    )
    command.add_argument(
        "--read", action="append", metavar="HOST:PORT", default=[], help="a port for GET alone"
    )
    command.add_argument("--group", help="who may write to the sockets, beside this program's user")
    given = command.parse_args()
    desks = given.desk or ["127.0.0.1:8080"]
    if len(given.read) > len(desks):
        command.error("there are more ports than desks")
    given.folder.mkdir(parents=True, exist_ok=True)
    often = Often()
    for number, address in enumerate(desks, 1):
        desk, turns = Desk(address, CONNECTING), threading.Semaphore(AT_ONCE)
        of_proxy, of_pages = Reader(desk, turns, often), Reader(desk, turns)
        sources = [(listen(given.folder / f"{number}.sock", given.group), OTHER_THREADS, of_proxy),
                   (listen(given.folder / f"{number}-names.sock", given.group), THREADS, of_proxy)]
        if number <= len(given.read):
            sources.append((listen_to_port(given.read[number - 1]), OTHER_THREADS, of_pages))
        for listener, threads, reader in sources:
            for _ in range(threads):
                threading.Thread(target=serve, args=(listener, reader), daemon=True).start()
    threading.Event().wait()


if __name__ == "__main__":
    with contextlib.suppress(KeyboardInterrupt):
        sys.exit(main())
