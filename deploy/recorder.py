#!/usr/bin/env python3
"""Passes commands from the proxy to the office, each recorded on the disk before the office has it.

    deploy/recorder.py FOLDER RECORD [--desk HOST:PORT].. [--group NAME] [--room BYTES]
                       [--setup setup.json] [--shown record.csv] [--two-of-board] [--staff staff.conf]

    deploy/recorder.py /run/office-recorder /var/log/office/commands.log --desk 127.0.0.1:8080

In FOLDER it listens on a socket for each desk, `1.sock`, `2.sock`, .., to which the proxy sends commands with the name, the
role and the address of who gave them. A command that cannot be recorded is answered 503 and goes no further: so is each
one while the file system of RECORD has less than --room bytes left, and while RECORD is another file than the one that was
written to, or longer or shorter. A command that its role may not give is recorded and answered 403. The trial of an import
changes nothing and is not recorded.

With --setup, the file that setup-json writes, the first line of a new record has the SHA-256 of that file, and a record that
begins with another is not gone on with: each command is answered 503. So it is where the record lacks a line whose hash the
press pages have shown (--shown), or has another in its place: it was cut, or written again. Standard error says so.

The record has a line of JSON for each command, with `n`, its own number, and another for the answer, with `to`, the number of
the command; each has in `before` the SHA-256 of the line before it. So no line can be changed, removed or put between others
without changing the hash of the last, which is in FOLDER/head with its number. Hashes are published; `salt`, which nobody can
guess, keeps them from bearing out a guess of what a slip says. Each line goes to standard output too.

With --two-of-board a lot, a certificate, a reopening and a vacancy need two names of the board: the first request is recorded and
answered 202, `waits_for_second_name`, and the same request from another name within an hour is sent to the office. It is another request
where its body differs, as where it names another edition. What changes a return of the constituency in between, or its edition, or may
have done so, ends the wait: the next request is a first one. Of a station whose constituency is not known, as without --setup, it ends
each wait. With --staff a name counts as the first one while that file gives it the role of the board there: not once it is removed.

Files are imported and tried one at a time, each after the commands that wait. While others give commands, the desk is left to
them three times as long as a file took: ten seconds at most before the next file, forty before the next one of the same name.
Of a name four may wait or be under way, and others are answered 429.

While a desk starts again a command waits for it. A desk that ended without an answer is sent the command again: no command
acts a second time. A browser sends a command again too, by itself, where its connection ended without an answer. It is the same
one where its name, path, body and field Office-Once are the same: it is recorded once, and has the answer of the first. The last
eight answers of each name are kept for that, and none over a start: then it is recorded again, and the office decides.

It answers who did what to a station (GET /history/CODE), to the roles that may see it: the names, the times and the acts; to
a clerk and to the board with what was sent and answered, to a second without. Where the lines of each station are it knows
from reading the record once, as it starts; with --setup, of the stations of the setup. Reports are for reader.py to answer.

With --setup it also answers who typed how many returns of a constituency in the last hour (GET /typed/CODE): to the board of
each name, to another name its own alone.

Both are read one at a time. Commands are then left three times as long as that took, a second at most. Of a name two may wait or
be under way, and sixteen of all names; others are answered 429.

It goes on until it is ended. The status is 1 where it cannot begin, as where another has the record. Python 3.11 or later.
"""

import argparse
import collections
import contextlib
import fcntl
import grp
import hashlib
import http.client
import http.server
import json
import os
import re
import secrets
import signal
import socket
import stat
import sys
import threading
import time
from datetime import datetime, timedelta
from pathlib import Path
from typing import NamedTuple

import second_name
import staff
import turns
from record_index import HOUR, Index, Typed, entry_of
from record_lines import before_texts, command_of, hash_of, setup_of, text_or_bytes

# This many requests of a desk are under way at once; others wait.
THREADS = 64
# How long a command waits for a desk that does not listen, and for the answer of one that does.
WAIT, PATIENCE = 60, 300
# How often a command is sent to a desk that ends without an answer.
TRIES = 5
# A station gives few commands: this many at once, and then one each this many seconds.
STATION_COMMANDS, STATION_SECONDS = 20, 15
# One of the staff sends this many bytes at once, and then this many a second, each command as if it
# had this many more.
STAFF_BYTES, STAFF_RATE, COMMAND_BYTES = 32 << 20, 20_000, 1000
# This many files of a name, and of all, may wait for their turn or be under way. After one the next
# waits three times as long as it took where others give commands: this many seconds at most, and
# one of the same name this many. How often those that wait look whether it is their turn.
FILES_OF_NAME, FILES, REST, LONGEST_REST, LONGEST_OF_NAME, STEP = 4, 16, 3, 10.0, 40.0, 0.02
# Seconds that a recorder that ends leaves to what is under way, and then to answers on their way.
ENDING, LAST_ANSWERS = 20, 0.3
# A history has not what was sent of a line that is longer.
LONGEST = 65_536
# The roles that see what a slip says. Who enters it a second time is not to see the first entry.
SEE_FIGURES = ("clerk", "board")
FIRST = "0" * 64
# The most bytes of what the pages have shown: a row has some hundred, and ten seconds have one.
MOST_SHOWN = 64 << 20


class Answer(NamedTuple):
    """An answer to a request, or to one sent again. Its status is None where nobody knows whether a command was done."""

    status: int | None
    body: bytes = b""
    kind: str = "application/json"
    again: bool = False


FORBIDDEN = Answer(403)
NOT_ALLOWED = Answer(405)
TOO_MANY = Answer(429)
NO_DESK = Answer(502)
TOO_LATE = Answer(504)
UNAVAILABLE = Answer(503, b'{"word": "unavailable"}')


class Setup(NamedTuple):
    """A setup as the proxy knows it: the hash of setup.json, and the constituency of each station."""

    hash: str
    stations: dict


def read_setup(file):
    data = file.read_bytes()
    stations = {station["code"]: con["code"] for con in json.loads(data) for station in con["stations"]}
    return Setup(hashlib.sha256(data).hexdigest(), stations)


def read_shown(file):
    """The hashes of lines that were shown, by their numbers. A row that is cut says nothing.

    Who writes the pages may write no more than they: a pipe would be waited for, and a device has no end."""
    shown = {}
    if file and os.path.lexists(file):
        with open(os.open(file, os.O_RDONLY | os.O_NOFOLLOW | os.O_NONBLOCK), encoding="utf-8", errors="replace") as it:
            found = os.fstat(it.fileno())
            if not stat.S_ISREG(found.st_mode) or found.st_size > MOST_SHOWN:
                raise ValueError(f"no file of at most {MOST_SHOWN} bytes")
            rows = it.read(MOST_SHOWN).splitlines()[1:]
        for row in rows:
            found = re.fullmatch(r"[^,]*,([0-9]{1,15}),([0-9a-f]{64})", row)
            if found and found[1] != "0":
                shown.setdefault(int(found[1]), set()).add(found[2])
    return shown


class Record:
    """A file of numbered lines, each with the hash of the one before."""

    def __init__(self, file, room, setup=None, shown=None, names=None):
        self.file, self.room, self.lock = file, room, threading.Lock()
        # The file of the staff's names, where there is one.
        self.names = names
        self.index = Index(setup.stations if setup else None, Typed(setup.stations if setup else {}))
        self.reading, self.once = turns.Reading(), turns.Once()
        self.waiting = second_name.Waiting(setup.stations if setup else None)
        self.descriptor = os.open(file, os.O_WRONLY | os.O_APPEND | os.O_CREAT, 0o640)
        self.setup, begins, shown = setup, "", dict(shown or {})
        self.number, self.size, line = 0, 0, b"\n"
        with open(file, "rb") as lines:
            for self.number, line in enumerate(lines, 1):
                entry = entry_of(line)
                self.index.take_entry(entry, self.size)
                self.take_of_board(entry)
                self.size += len(line)
                begins = setup_of(line) if self.number == 1 else begins
                if shown.get(self.number) == {hash_of(line.removesuffix(b"\n"))}:
                    del shown[self.number]
        self.waiting.begin()
        self.last = hash_of(line.removesuffix(b"\n")) if self.number else FIRST
        # A line that was cut, as by a power cut or a full disk, is ended and counts as a line.
        self.is_cut = not line.endswith(b"\n")
        # Whether no further command is taken.
        self.is_ending = False
        # Why nothing may be added to this record, where that is so.
        self.fault = None
        if shown:
            self.fault = f"{file}: line {min(shown)} is not the one that was shown: it was cut, or written again"
        elif setup and begins not in ("", setup.hash):
            self.fault = f"{file} is the record of another setup, whose hash is {begins}"

    def add(self, entry):
        """Adds a line, and returns its number; an OSError where that cannot be done. A new record begins with its setup."""
        with self.lock:
            if "to" not in entry:
                self.begin()
            line, place = self.write(entry)
            number = self.number
        self.index.take(line, place)
        return number

    def add_of_board(self, entry):
        """Adds a request that needs two names: its number, and the answer to it where it waits for the second one."""
        with self.lock:
            self.begin()
            moment, is_board = datetime.now().astimezone(), staff.board_of(self.names, entry["path"].split("/")[2])
            firsts, others, early = (of(entry, moment) for of in (self.waiting.firsts, self.waiting.others, self.waiting.too_early))
            firsts = {number: name for number, name in firsts.items() if is_board(name)}
            line, place = self.write(entry | ({"first": max(firsts)} if firsts else {"status": second_name.WAITS}), moment)
            number = self.number
        self.index.take(line, place)
        return number, None if firsts else waits(moment, others, early)

    def take_of_board(self, entry):
        """A line of the record, whatever is in it: what waits for a second name follows from it."""
        with contextlib.suppress(ValueError, KeyError, TypeError, AttributeError, IndexError):
            self.waiting.take(entry)

    def lost(self, number):
        """The answer to a command is not in the record: nobody will know it after a start, so nobody does now."""
        with self.lock:
            self.take_of_board({"to": number, "status": None})

    def settled(self, office):
        """An office has shown what it has, and so has done what it was sent before."""
        with self.lock:
            self.waiting.unsettled.discard(office)

    def begin(self):
        """A further command: a new record begins with its setup."""
        if self.is_ending:
            raise OSError("the recorder ends")
        if self.setup and not self.number:
            self.write({"setup": self.setup.hash})

    def write(self, entry, moment=None):
        """Writes a line; the line, and its place in the file."""
        number, moment = self.number + 1, moment or datetime.now().astimezone()
        # The hash of a line is published, and its figures are few: without a salt one can try all.
        entry = {"n": number, "time": moment.isoformat(timespec="milliseconds"), **entry}
        line = json.dumps(entry | {"salt": secrets.token_hex(16), "before": self.last}, ensure_ascii=False).encode()
        whole = b"\n" * self.is_cut + line + b"\n"
        if self.fault:
            raise OSError(self.fault)
        if not self.is_as_left():
            raise OSError(f"{self.file} is another file, or longer or shorter than it was left")
        disk = os.statvfs(self.file)
        if disk.f_bavail * disk.f_frsize < self.room + len(whole):
            raise OSError(f"less than {self.room} bytes are left for {self.file}")
        written = os.write(self.descriptor, whole)
        self.size += written
        if written < len(whole):
            line = whole[self.is_cut:written]
        self.number, self.last, self.is_cut = number, hash_of(line), written < len(whole)
        if self.is_cut:
            raise OSError(f"line {number} was cut")
        self.take_of_board(entry)
        with contextlib.suppress(OSError):
            os.write(sys.stdout.fileno(), whole)
        return line, self.size - len(line) - 1

    def is_as_left(self):
        """Whether nobody has moved the file, put another in its place, or cut it or added to it."""
        there, own = os.stat(self.file), os.fstat(self.descriptor)
        return (there.st_dev, there.st_ino, there.st_size) == (own.st_dev, own.st_ino, self.size)

    def sync(self):
        os.fdatasync(self.descriptor)

    def history(self, station, is_whole=True):
        """The last commands that are about a station, each with its answer, and whether these are all. Where
        the commands are not to be whole, what was sent and answered is not even read."""
        (places, whole), commands = self.index.of(station), {}
        with open(self.file, "rb") as lines:
            for place in places:
                lines.seek(place)
                line = lines.readline(LONGEST)
                # An import may be long, and is cut before its body.
                entry = json.loads(line if is_whole and len(line) < LONGEST else before_texts(line))
                if "to" in entry:
                    commands.get(entry["to"], {}).update({key: entry[key] for key in ("status", "answer") if key in entry})
                else:
                    commands[entry["n"]] = command_of(entry)
        return {"station": station, "whole": whole, "commands": list(commands.values())}

    def typed(self, con):
        """Who typed how many returns of a constituency since a moment an hour ago."""
        now = datetime.now().astimezone()
        since = now.replace(second=0) - timedelta(minutes=HOUR - 1)
        return {"con": con, "since": since.isoformat(timespec="seconds"), "names": self.index.typed_of(con, now)}

    def head(self):
        with self.lock:
            found = {"n": self.number, "hash": self.last, "time": datetime.now().astimezone().isoformat(timespec="seconds")}
            return found | ({"fault": self.fault} if self.fault else {})


def waits(moment, others, early):
    """The answer to a request that waits for a second name: until when, what else waits there, and who asked too early, before what changed."""
    until = (moment + second_name.PATIENCE).isoformat(timespec="seconds")
    said = [{"name": name, "time": first.isoformat(timespec="seconds"), "act": act, "body": body}
            for name, first, act, body in others]
    said = {"word": "waits_for_second_name", "until": until, "others": said,
            "too_early": [{"name": name, "time": first.isoformat(timespec="seconds"), "changed": why} for name, first, why in early[-5:]]}
    return Answer(second_name.WAITS, json.dumps(said).encode())


class Limit:
    """The commands that a name may still give. The proxy has seen its password: nobody else uses it up."""

    def __init__(self):
        self.spent, self.lock = {}, threading.Lock()

    def is_over(self, name, role, length):
        seconds, most = STATION_SECONDS, STATION_COMMANDS * STATION_SECONDS
        if role != "station":
            seconds, most = (length + COMMAND_BYTES) / STAFF_RATE, STAFF_BYTES / STAFF_RATE
        now = time.monotonic()
        with self.lock:
            # The moment at which all that was given counts no more.
            moment = max(self.spent.get(name, 0), now) + seconds
            if moment > now + most:
                return True
            self.spent[name] = moment
            return False


class Rest(NamedTuple):
    """The time that is left to others after a file, where another command came after the file began."""

    began: float
    until: float


class File:
    """A file that waits; what came before it, once it is its turn, are commands up to this number."""

    def __init__(self, name):
        self.name, self.before = name, None


class Files:
    """The files of a desk, imported or tried one at a time, while others have their share of its time."""

    def __init__(self):
        self.lock, self.names, self.waiting, self.is_busy = threading.Lock(), collections.Counter(), [], False
        # What is left to others after the last file, and after the last one of each name.
        self.rest, self.rest_of = Rest(0.0, 0.0), {}
        # When another command came, the number of the last one, and of those that are under way.
        self.other, self.number, self.under_way = -1.0, 0, set()

    @contextlib.contextmanager
    def another(self):
        """A command that is no file: it goes before each file that waits."""
        with self.lock:
            self.number += 1
            number, self.other = self.number, time.monotonic()
            self.under_way.add(number)
        try:
            yield
        finally:
            with self.lock:
                self.under_way.remove(number)

    def left(self, name):
        """How long a file of this name has to wait for others yet."""
        rests = self.rest, self.rest_of.get(name, self.rest)
        return max([rest.until - time.monotonic() for rest in rests if self.other >= rest.began] + [0.0])

    def wait(self, file):
        """Where it is the turn of a file, it begins: None. Else how long it waits before it looks again."""
        with self.lock:
            first = next((other for other in self.waiting if not self.left(other.name)), None)
            if self.is_busy or first is not file:
                return min(STEP, self.left(file.name) or STEP)
            if file.before is None:
                file.before = self.number
            if min(self.under_way, default=self.number + 1) <= file.before:
                return STEP
            self.waiting.remove(file)
            self.is_busy = True
            return None

    def passed(self, name, act):
        """The answer to an act, once it has its turn; 429 where too many wait."""
        file = File(name)
        with self.lock:
            if self.names[name] == FILES_OF_NAME or self.names.total() == FILES:
                return TOO_MANY
            self.names[name] += 1
            self.waiting.append(file)
        while (seconds := self.wait(file)) is not None:
            time.sleep(seconds)
        began = time.monotonic()
        try:
            return act()
        finally:
            end = time.monotonic()
            with self.lock:
                self.is_busy = False
                self.names[name] -= 1
                self.rest = Rest(began, end + min(REST * (end - began), LONGEST_REST))
                self.rest_of[name] = Rest(began, end + min(REST * (end - began), LONGEST_OF_NAME))


class Desk:
    """An office on a port of this machine, which answers one connection after the other."""

    def __init__(self, address, connecting=PATIENCE):
        host, port = address.rsplit(":", 1)
        self.address, self.connecting = (host, int(port)), connecting
        self.lock, self.files = threading.Lock(), Files()

    def connected(self, wait):
        """A connection, once the desk listens; None where it does not for long."""
        end = time.monotonic() + wait
        while True:
            connection = http.client.HTTPConnection(*self.address, timeout=self.connecting)
            try:
                connection.connect()
                connection.sock.settimeout(PATIENCE)
                return connection
            except TimeoutError:
                # It listens, and takes nobody.
                raise
            except OSError:
                connection.close()
                if time.monotonic() > end:
                    return None
                time.sleep(0.05)

    def ask_once(self, method, path, body, wait):
        """The answer; its status is None where the desk ended without one. None where it was not reached."""
        connection = self.connected(wait)
        if connection is None:
            return None
        with contextlib.closing(connection):
            try:
                connection.putrequest(method, path, skip_host=True, skip_accept_encoding=True)
                connection.putheader("Host", "office")
                if method == "GET":
                    connection.putheader("Connection", "close")
                else:
                    connection.putheader("Content-Length", str(len(body)))
                connection.endheaders(body or None)
                found = connection.getresponse()
                return Answer(found.status, found.read(), found.headers.get("Content-Type", ""))
            except TimeoutError:
                raise
            except (OSError, http.client.IncompleteRead):
                return Answer(None)

    def ask(self, method, path, body=b"", wait=None):
        """The answer of the desk; its status is None where nobody knows whether the command was done."""
        for again in range(TRIES):
            try:
                found = self.ask_once(method, path, body, WAIT if wait is None else wait)
            except TimeoutError:
                return TOO_LATE
            if found is None:
                return Answer(None) if again else NO_DESK
            if found.status and again and method == "POST" and found.status != 200:
                # Refused now, perhaps since it was done the first time.
                break
            if found.status:
                return found._replace(again=again > 0)
            # It may be about to end, and listen still.
            time.sleep(0.1 * 2 ** again)
        return Answer(None)


class Handler(http.server.BaseHTTPRequestHandler):
    """Reads one request of a connection whole, and sends what `answered` of its server says."""

    protocol_version, timeout = "HTTP/1.1", PATIENCE

    def handle_whole(self):
        length = int(self.headers.get("Content-Length", 0))
        body = self.rfile.read(length)
        if len(body) < length:
            raise OSError("a message that was cut")
        found = self.server.answered(self.command, self.path, self.headers, body)
        self.send_response_only(found.status or NO_DESK.status)
        self.send_header("Content-Type", found.kind)
        self.send_header("Content-Length", str(len(found.body)))
        self.send_header("Connection", "close")
        self.end_headers()
        # (without a body the proxy has all of it by now and has closed, and nothing can be written)
        if found.body:
            self.wfile.write(found.body)

    do_GET = do_HEAD = do_POST = do_PUT = do_PATCH = do_DELETE = do_OPTIONS = handle_whole

    def log_message(self, *_):
        """Nothing: a refused request of the proxy is in its own log."""


def serve(listener, server):
    """Answers one connection after the other."""
    while True:
        connection, address = listener.accept()
        with connection:
            try:
                Handler(connection, address, server)
            except Exception as error:  # whatever was sent or answered, the next one is served
                print(f"no answer: {error!r}", file=sys.stderr, flush=True)


class Recorder:
    def __init__(self, record, desk, office, limit, two_of_board=False):
        self.record, self.desk, self.office, self.limit = record, desk, office, limit
        self.two_of_board = two_of_board

    def history(self, station, fields):
        """Who did what to a station, as a role may see it."""
        found = self.record.history(station, fields["office-role"] in SEE_FIGURES)
        return Answer(200, json.dumps(found, ensure_ascii=False).encode())

    def typed(self, con, fields):
        """Who typed how many returns in the last hour, for the board; of any other name what it typed itself."""
        found = self.record.typed(con)
        if fields["office-role"] != "board":
            found["names"] = [row for row in found["names"] if row["name"] == fields["office-name"]]
        return Answer(200, json.dumps(found).encode())

    def answered(self, method, path, fields, body):
        if method == "GET" and path.startswith(("/history/", "/typed/")):
            if fields["office-allowed"] != "1":
                return FORBIDDEN
            _, what, code = path.split("/", 2)
            read = self.history if what == "history" else self.typed
            return self.record.reading.passed(fields["office-name"], lambda: read(code, fields)) or TOO_MANY
        if method != "POST":
            return NOT_ALLOWED
        name, role = fields["office-name"], fields["office-role"]
        if self.limit.is_over(name, role, len(body)):
            return TOO_MANY
        act = path.split("/")[3]
        if fields["office-allowed"] == "1" and act in ("import", "trial"):
            return self.desk.files.passed(name, lambda: self.commanded(method, path, fields, body))
        with self.desk.files.another():
            return self.commanded(method, path, fields, body)

    def commanded(self, method, path, fields, body):
        """The answer to a command; a trial is not recorded. One that is sent again is known by what its page gave it."""
        if path.split("/")[3] == "trial":
            return self.desk.ask(method, path, body) if fields["office-allowed"] == "1" else FORBIDDEN
        if not (once := fields.get("office-once")):
            return self.recorded(method, path, fields, body)
        command = hashlib.sha256(f"{path} {once} ".encode() + body).digest()
        return self.record.once.passed(fields["office-name"], command, lambda: self.recorded(method, path, fields, body),
                                       lambda found: found.status not in (None, 502, 503, 504))

    def recorded(self, method, path, fields, body):
        """The answer to a command: it is recorded, and the desk has it."""
        name, role = fields["office-name"], fields["office-role"]
        entry = {"name": name, "role": role, "address": fields["office-address"], "office": self.office, "method": method, "path": path}
        try:
            if fields["office-allowed"] != "1":
                self.record.add(entry | {"bytes": len(body), "status": 403})
                return FORBIDDEN
            entry |= text_or_bytes("body", body)
            if self.two_of_board and second_name.needs_two(path):
                return self.of_board(entry, body)
            number = self.record.add(entry)
            self.record.sync()
        except OSError as error:
            print(f"not recorded, and not done: {name} {method} {path}: {error}", file=sys.stderr, flush=True)
            return UNAVAILABLE
        with self.desk.lock:
            return self.done(number, entry, body)

    def of_board(self, entry, body):
        """The answer to a request that needs two names. While the desk's lock is held no command is under way: each is done
        before this request, and its answer is recorded, or it comes after it."""
        with self.desk.lock:
            if self.office in self.record.waiting.unsettled:
                # A command whose answer is not known may be done yet. Once the desk shows what it
                # has, it was, or never will be. One that a failed disk has shut shows nothing: its
                # next opening finds the command done, or not.
                try:
                    found = self.desk.ask("GET", "/progress")
                except http.client.HTTPException:
                    found = Answer(None)
                if found.status != 200:
                    # The line says itself that the request was not sent: nothing was done by it.
                    found = found if found.status in second_name.NOT_SENT else NO_DESK
                    self.record.add(entry | {"status": found.status})
                    self.record.sync()
                    return found
                self.record.settled(self.office)
            number, waiting = self.record.add_of_board(entry)
            self.record.sync()
            return waiting or self.done(number, entry, body)

    def done(self, number, entry, body):
        """The answer of the desk, whose lock is held: answers are in the order in which the desk did what they answer."""
        try:
            found = self.desk.ask(entry["method"], entry["path"], body)
        except http.client.HTTPException:
            self.record.lost(number)
            raise
        return self.answer(number, found)

    def answer(self, number, found):
        """The answer to a command, once it is recorded."""
        try:
            again = {"again": True} if found.again else {}
            self.record.add({"to": number, "status": found.status} | again | text_or_bytes("answer", found.body))
        except OSError as error:
            print(f"the answer to {number} is not recorded: {error}", file=sys.stderr, flush=True)
            self.record.lost(number)
        return found


def listen(file, group):
    """A socket that the proxy's group alone may write to."""
    file.unlink(missing_ok=True)
    listener = socket.socket(socket.AF_UNIX)
    before = os.umask(0o177)
    listener.bind(str(file))
    os.umask(before)
    if group:
        os.chown(file, -1, grp.getgrnam(group).gr_gid)
    file.chmod(0o660)
    listener.listen(4096)
    return listener


def show_head(folder, record):
    """Writes number and hash of the last line, once a second where there is a new one."""
    shown = None
    while True:
        head = record.head()
        if head["n"] != shown:
            record.sync()
            beside = folder / ".head.new"
            beside.write_text(json.dumps(head) + "\n", encoding="utf-8")
            beside.chmod(0o644)
            os.replace(beside, folder / "head")
            shown = head["n"]
        time.sleep(1)


def end(record):
    """Ends the recorder once each command that is under way has its answer: so a restart leaves no line without one."""
    with record.lock:
        record.is_ending = True
    until = time.monotonic() + ENDING
    while record.waiting.under_way and time.monotonic() < until:
        time.sleep(0.02)
    time.sleep(LAST_ANSWERS)
    os._exit(0)


def main():
    command = argparse.ArgumentParser(description=__doc__.splitlines()[0])
    command.add_argument("folder", type=Path, help="where the sockets and the head are")
    command.add_argument("record", type=Path, help="the file of the record")
    command.add_argument("--desk", action="append", metavar="HOST:PORT", help="an office; 127.0.0.1:8080 where none is named")
    command.add_argument("--group", help="who may write to the sockets, beside the user of this program")
    command.add_argument("--room", type=int, default=256 << 20, metavar="BYTES", help="what has to be left on the disk of the record")
    command.add_argument("--setup", type=Path, metavar="FILE", help="setup.json, as setup-json writes it")
    command.add_argument("--shown", type=Path, metavar="FILE", help="what the press pages have shown of the record: record.csv")
    command.add_argument("--two-of-board", action="store_true", help="a lot, a certificate, a reopening and a vacancy need two names")
    command.add_argument("--staff", type=Path, metavar="FILE", help="staff.conf: of two names the first has to be of the board still")
    given = command.parse_args()
    try:
        file = given.setup
        setup = read_setup(file) if file else None
        file = given.shown
        shown = read_shown(file)
    except (OSError, ValueError, KeyError, TypeError) as error:
        sys.exit(f"failed: {file}: {error!r}")
    given.folder.mkdir(parents=True, exist_ok=True)
    # A second recorder would number the same lines: it ends here, with an error.
    locked = os.open(given.record, os.O_RDONLY | os.O_CREAT, 0o640)
    fcntl.flock(locked, fcntl.LOCK_EX | fcntl.LOCK_NB)
    desks = given.desk or ["127.0.0.1:8080"]
    # Who asks while the record is read waits.
    listeners = [listen(given.folder / f"{office}.sock", given.group) for office in range(1, len(desks) + 1)]
    record, limit = Record(given.record, given.room, setup, shown, given.staff), Limit()
    if record.fault:
        print(f"no command is done: {record.fault}", file=sys.stderr, flush=True)
    elif given.shown and record.number and not shown:
        print(f"{given.shown} has no line that was shown: nobody knows whether {given.record}, of {record.number} lines, is as it "
              "was", file=sys.stderr, flush=True)
    # Before the first command is taken: where it is ended right then, that one has its answer too.
    signal.signal(signal.SIGTERM, lambda *_: threading.Thread(target=end, args=(record,), daemon=True).start())
    for office, (listener, address) in enumerate(zip(listeners, desks), 1):
        desk = Desk(address)
        for _ in range(THREADS):
            one = Recorder(record, desk, office, limit, given.two_of_board)
            threading.Thread(target=serve, args=(listener, one), daemon=True).start()
    show_head(given.folder, record)


if __name__ == "__main__":
    try:
        sys.exit(main())
    except KeyboardInterrupt:
        sys.exit(0)
