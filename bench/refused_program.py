#!/usr/bin/env python3
"""Refuses the program its memory over databases in files, once at each place where it asks for some.

The library of `refused_memory.py` refuses a command the first request for memory, then in another run the second, and so on
through all that a run with ample memory makes; and again so that every request from the chosen one on is refused. Each run
has to end as it does with ample memory, or with status 3 and `failed: memory`. Afterwards the rows of all tables are those
before the command or those after it, the file is whole (`PRAGMA integrity_check`), and the program opens it again with ample
memory and leaves those rows. Those after a command that failed may be there only where that took a database of version 1
over; a `new` that fails leaves no file that it made, but an empty one that it could not lock; else a log may be left, and the
rows are in the file without it.

A server is refused its memory in the same way, from the request at which it listens on; what it asks for before that is
what `show` asks for, and has runs of its own. Each message has to get the answer that it gets with ample memory, or status
503. After a 503 the rows are those before the message, and asked once more it gets its own answer; where all memory is
refused from there on, so is every later message. The server ends with its usual line.

    bench/refused_program.py [--program FILE] [--jobs N] [--every N] [NAME..]

With `--every N` only every Nth request is refused, alone and with all after it. With parts of names of workloads, only
those. A C compiler is needed, as `cc`. The last line is `N passed, M failed, K skipped`: workloads, or the script where there
is no compiler.
"""

import argparse
import hashlib
import json
import os
import socket
import sqlite3
import struct
import subprocess
import sys
import tempfile
import threading
import time
from collections import Counter
from concurrent.futures import ThreadPoolExecutor
from pathlib import Path

# The modules imported from here are not to be left beside it in compiled form.
sys.dont_write_bytecode = True
ROOT = Path(__file__).resolve().parent.parent
sys.path[:0] = [str(ROOT / "bench"), str(ROOT)]
from building import PROGRAM
from refused_memory import WHOLE, NotPromised, Runs, ended, has_no_compiler, library_in
from tests.support.office import RETURNS, SETUP, THREE_STATIONS, constituency, party_list, profile, station
from tests.support.program import close_return, database
from tests.support.twin_town import SCRIPT

DB, LOG = "office.db", "office.db-wal"

MEMORY = (3, b"", b"failed: memory\n")

UNAVAILABLE = (
    b"HTTP/1.1 503 Service Unavailable\r\nContent-Type: application/json\r\nContent-Length: 22\r\nConnection: close\r\n\r\n"
    b'{"word":"unavailable"}'
)

# A second constituency, by Hare: its certificate has a report of quotas.
RIVERS = "\n" + profile("h0", "hare", 0, "lists") + constituency("h1", "Three Rivers", 5, "h0") + (
    party_list("C", "Gamma", "Cid", "Cora") + party_list("D", "Delta", "Dan") + station("r1", 1000)
)

REPORTS = ("tally", "seats", "quotients", "awards", "quota", "short", "holders", "past", "provisional", "stations",
           "returns", "result")


# ---- messages


def message(path, body=None):
    """The bytes of a message: a GET, or a POST of a text or of an object of JSON."""
    if body is None:
        return f"GET {path} HTTP/1.1\r\n\r\n".encode()
    text = body if isinstance(body, str) else json.dumps(body)
    return f"POST {path} HTTP/1.1\r\nContent-Length: {len(text)}\r\n\r\n{text}".encode()


LODGE = message("/station/s1/lodge", {"slip": "p1", "votes": [50, 40], "blank": 2, "spoiled": 1})

# Of a client that is gone in the middle of its message.
GONE = LODGE[:60]

PROGRESS = message("/progress")

# The requests that leave both constituencies certified, the first one for the second time, and a
# candidate of it gone.
ELECTION = (
    message("/con/c1/import", RETURNS),
    *(message(f"/station/s{n}/close", {"rev": 1}) for n in (1, 2, 3)),
    message("/con/c1/certify", {"edition": 1}),
    message("/con/c1/vacate", {"list": "A", "place": 1, "note": "resigned"}),
    message("/con/c1/reopen", {"edition": 2, "note": "recount"}),
    message("/con/c1/certify", {"edition": 3}),
    message("/station/r1/lodge", {"slip": "q1", "votes": [300, 210], "blank": 0, "spoiled": 5}),
    message("/station/r1/confirm", {"rev": 1, "slip": "q1", "votes": [300, 210], "blank": 0, "spoiled": 5}),
    message("/con/h1/certify", {"edition": 1}),
)

ROUTES = (PROGRESS, message("/country"), message("/results"), message("/station/s1"), message("/con/c1"), *(message(f"/con/c1/{report}") for report in REPORTS))


def ask(port, text):
    """All bytes of what is answered to a message; of a client that is gone, none."""
    with socket.create_connection(("127.0.0.1", port), timeout=60) as it:
        it.sendall(text)
        if text == GONE:
            # So that the server reads what came, and then meets a connection that was reset.
            time.sleep(0.02)
            it.setsockopt(socket.SOL_SOCKET, socket.SO_LINGER, struct.pack("ii", 1, 0))
            return b""
        it.shutdown(socket.SHUT_WR)
        found = b""
        while piece := it.recv(65536):
            found += piece
        return found


def status_and_body(answer):
    head, _, body = answer.decode().partition("\r\n\r\n")
    return int(head.split()[1]), body


# ---- what lies in a folder


def without_salts(held):
    """The bytes of a file. Those of a log that has no frame are taken without the salts and the sum of its header, which are
    others in each run."""
    return held if len(held) > 56 else held[:16] + held[32:]


def rows_of(db):
    """All rows of all tables and their definitions, where SQLite's own check finds nothing."""
    with sqlite3.connect(db) as it:
        names = [name for (name,) in it.execute("SELECT name FROM sqlite_schema WHERE type = 'table'")]
        found = {name: sorted(it.execute(f"SELECT * FROM {name}")) for name in names}
        found["schema"] = sorted(it.execute("SELECT type, name, tbl_name, sql FROM sqlite_schema"), key=repr)
        check = it.execute("PRAGMA integrity_check").fetchall()
    it.close()
    if check != [("ok",)]:
        raise sqlite3.DatabaseError(check)
    return found


class Judge:
    """The contents of the databases of folders. What was found of the same bytes is known again."""

    def __init__(self, program, folder):
        self.program, self.folder, self.known, self.seen = program, folder, {}, {}

    def state(self, folder, names=(DB, LOG)):
        """The rows, and those that the program leaves when it opens the database again; where there is no file, nothing."""
        files = {name: (folder / name).read_bytes() for name in names if (folder / name).exists()}
        if DB not in files:
            return None
        key = tuple((name, hashlib.sha256(without_salts(held)).digest()) for name, held in files.items())
        if key not in self.known:
            found = (self.looked(files, rows_of), self.looked(files, self.rows_opened))
            # Few databases differ in their rows, though many do in their bytes.
            self.known[key] = self.seen.setdefault(repr(found), found)
        return self.known[key]

    def looked(self, files, look):
        """The contents of a copy of the files, or why none are seen."""
        with tempfile.TemporaryDirectory(dir=self.folder) as copy:
            for name, held in files.items():
                (Path(copy) / name).write_bytes(held)
            try:
                return look(Path(copy) / DB)
            except (sqlite3.Error, ChildProcessError) as error:
                return f"{type(error).__name__}: {error}"

    def rows_opened(self, db):
        words = [self.program, "show", "--db", db, "--report", "progress"]
        ran = subprocess.run(words, capture_output=True, timeout=60)
        if ran.returncode or ran.stderr:
            raise ChildProcessError(f"status {ran.returncode}, {ran.stderr}")
        if set(os.listdir(db.parent)) != {DB}:
            raise ChildProcessError(f"the files {os.listdir(db.parent)}")
        return rows_of(db)


def is_office(state):
    """Whether the rows were read, and the program opened the database."""
    return state is not None and not any(isinstance(seen, str) for seen in state)


# ---- workloads


class Bench:
    """The parts that the workloads share: the program, runs that are refused memory, a judge, folders."""

    def __init__(self, program, folder):
        self.program, self.folder = program, Path(folder)
        self.runs = Runs(library_in(folder))
        self.judge = Judge(program, folder)
        self.own = threading.local()
        self.ports = iter(range(20_000, 32_000))
        self.lock = threading.Lock()

    def fresh(self, files):
        """A folder of this thread's own, with these files alone."""
        if not hasattr(self.own, "folder"):
            self.own.folder = Path(tempfile.mkdtemp(dir=self.folder, prefix="run-"))
        for name in os.listdir(self.own.folder):
            os.unlink(self.own.folder / name)
        for name, held in files.items():
            (self.own.folder / name).write_bytes(held)
        return self.own.folder

    def port(self):
        """A port that nobody listens on. It has five digits, so that it takes the same memory in each run."""
        with self.lock:
            for port in self.ports:
                with socket.socket() as it:
                    it.setsockopt(socket.SOL_SOCKET, socket.SO_REUSEADDR, 1)
                    try:
                        it.bind(("127.0.0.1", port))
                        return port
                    except OSError:
                        pass
            self.ports = iter(range(20_000, 32_000))
        return self.port()


class Command:
    """A command over the files of a folder."""

    def __init__(self, bench, name, words, files, first=1, takes_over=False, opens=True):
        self.bench, self.name, self.files, self.first = bench, name, files, first
        self.words = [bench.program, *words]
        # Whether it opens a database of version 1, which is then taken over though the command
        # fails after that; whether the database is one that opens.
        self.takes_over, self.opens = takes_over, opens

    def ample(self):
        """Runs it with ample memory: the last request for memory that it makes."""
        self.before = self.bench.judge.state(self.bench.fresh(self.files))
        asked, self.answer, self.after, left = self.run(WHOLE, WHOLE)
        if self.answer[0] not in (0, 1) or LOG in left or is_office(self.after) != self.opens:
            sys.exit(f"{self.name}: with ample memory {self.answer}, {left} and {self.after}")
        return asked

    def run(self, first, last):
        """How many requests for memory there were, what was answered, and what lies in the folder then."""
        folder = self.bench.fresh(self.files)
        asked, answer = self.bench.runs.run(self.words, b"", first, last, folder)
        return asked, answer, self.bench.judge.state(folder), sorted(os.listdir(folder))

    def outcome(self, first, last):
        """The outcome of a run, in words, and whether that is as promised."""
        asked, answer, state, left = self.run(first, last)
        if asked is None or asked < first:
            return f"{answer} after {asked} requests", False
        # The log may be left, as where its name or the opening found no memory, but the rows are in
        # the file.
        is_whole = state == self.bench.judge.state(self.bench.own.folder, [DB])
        beside = ", a log is left" if LOG in left else ""
        if is_whole and answer == self.answer and state == self.after:
            return "did without" + beside, True
        if is_whole and answer == MEMORY and state == self.before and (state or left == sorted(self.files)):
            return "failed: memory, as before" + beside, True
        is_made_alone = self.before is None and left == sorted([DB, *self.files])
        if answer == MEMORY and is_made_alone and (self.bench.own.folder / DB).read_bytes() == b"":
            return "failed: memory, an empty file is left", True
        if is_whole and answer == MEMORY and state == self.after and self.takes_over:
            return "failed: memory, taken over" + beside, True
        return f"{answer}, {self.rows_in_words(state)}, {left}", False

    def rows_in_words(self, state):
        """Which rows these are, in words."""
        if state == self.before:
            return "as before"
        return "done" if state == self.after else f"other rows: {state}"


class Server:
    """A server that is sent messages, one connection after the other. With a message that is answered 503 the same is asked
    once more; one connection is kept for that, and used for a GET at the end where it was not needed."""

    def __init__(self, bench, name, files, messages, wanted=None, starts=False):
        self.bench, self.name, self.files, self.messages = bench, name, files, messages
        # The statuses and the bodies of the answers, where they are known; whether only its start
        # is refused its memory.
        self.wanted, self.starts = wanted, starts

    def ample(self):
        """Runs it with ample memory, and learns the rows after each message: the last request for memory that it makes."""
        self.states = [self.bench.judge.state(self.bench.fresh(self.files))]
        asked, ended, answers = self.run(WHOLE, WHOLE, self.learn)
        self.answers, self.end, self.opening = answers, ended, asked[0]
        self.states.append(self.bench.judge.state(self.bench.own.folder))
        if len(asked) != 2 or ended[0] != 0 or ended[2] or not all(map(is_office, self.states)):
            sys.exit(f"{self.name}: with ample memory {ended} after {asked}")
        if self.wanted and list(map(status_and_body, answers)) != self.wanted:
            sys.exit(f"{self.name}: with ample memory the answers are {answers}")
        self.first = 1 if self.starts else self.opening + 1
        return self.opening if self.starts else asked[1]

    def learn(self, port):
        answers = []
        for text in self.messages:
            answers.append(ask(port, text))
            self.states.append(self.bench.judge.state(self.bench.own.folder))
        ask(port, PROGRESS)
        return answers

    def run(self, first, last, talk):
        """How many requests for memory there were as it listened and at its end, how it ended, and what was made of it."""
        folder, port = self.bench.fresh(self.files), self.bench.port()
        count = str(len(self.messages) + 1)
        words = [self.bench.program, "serve", "--db", DB, "--port", str(port), "--count", count]
        process, counts = self.bench.runs.begin(words, first, last, folder)
        made = None
        with process, counts:
            try:
                line = process.stderr.readline()
                if line == f"listening on 127.0.0.1:{port} for {count} connections\n".encode():
                    made, line = talk(port), b""
                output, error = process.communicate(timeout=60)
            except (NotPromised, OSError, subprocess.TimeoutExpired) as error:
                time.sleep(0.1)
                raise NotPromised(f"{error}, status {process.poll()}") from error
            finally:
                process.kill()
            asked = [int(n) for n in counts.read().split()]
        return asked, (process.returncode, output, line + error), made

    def outcome(self, first, last):
        """The outcome of a run, in words, and whether that is as promised."""
        try:
            asked, ended, made = self.run(first, last, lambda port: self.talk(port, first == last))
        except NotPromised as error:
            return str(error), False
        state, left = self.bench.judge.state(self.bench.own.folder), sorted(os.listdir(self.bench.own.folder))
        if not asked or asked[-1] < first:
            return f"{ended} after {asked} requests", False
        words, done = made or ("failed: memory, as before", 0)
        is_end = self.is_end(ended) if made else ended == MEMORY
        if is_end and self.states[done] == state == self.bench.judge.state(self.bench.own.folder, [DB]):
            return words + (", a log is left" if LOG in left else ""), True
        return f"{words}; {ended}, {left}, {self.rows_in_words(state)}", False

    def rows_in_words(self, state):
        """After which messages the rows are these, in words."""
        places = [place for place, known in enumerate(self.states[:-1]) if known == state]
        return f"as after the messages {places}" if places else f"other rows: {state}"

    def is_end(self, ended):
        """Whether it ended as with ample memory; a client that is gone may or may not have got an answer."""
        if GONE not in self.messages:
            return ended == self.end
        lines = [f"answered {len(self.messages) + 1 - failed} failed {failed}\n".encode() for failed in (0, 1)]
        return ended[0] == 0 and ended[1] in lines and not ended[2]

    def talk(self, port, one_alone):
        """The outcome of the messages, in words, and after how many of them the rows are to be those that are left."""
        refused = None
        for place, (text, wanted) in enumerate(zip(self.messages, self.answers)):
            answer = ask(port, text)
            if answer == UNAVAILABLE and refused is None:
                refused = place
                state = self.bench.judge.state(self.bench.own.folder)
                if state != self.states[place]:
                    raise NotPromised(f"503 to message {place + 1}, {self.rows_in_words(state)}")
                if one_alone:
                    answer = ask(port, text)
            if refused is not None and not one_alone:
                wanted = UNAVAILABLE if text != GONE else b""
            if answer != wanted:
                raise NotPromised(f"to message {place + 1} {answer}" + ("" if refused is None else f", 503 to {refused + 1}"))
        if refused is None:
            return ("503 to the last GET" if ask(port, PROGRESS) == UNAVAILABLE else "did without"), len(self.messages)
        if one_alone:
            return "503, and then its answer", len(self.messages)
        if ask(port, PROGRESS) != UNAVAILABLE:
            raise NotPromised("an answer to the last GET")
        return "503 from there on", refused


def made(bench, setup):
    """The database of a setup."""
    folder = bench.fresh({"setup.toml": setup.encode()})
    subprocess.run([bench.program, "new", "--db", DB, "--setup", "setup.toml"], cwd=folder, check=True, stdout=subprocess.DEVNULL)
    return {DB: (folder / DB).read_bytes()}


def certified(bench):
    """The database of an office that certified twice."""
    server = Server(bench, "an election", made(bench, THREE_STATIONS + RIVERS), ELECTION)
    server.ample()
    wrong = [answer for answer in server.answers if status_and_body(answer)[0] != 200]
    if wrong:
        sys.exit(f"the election is answered {wrong}")
    return {DB: (bench.own.folder / DB).read_bytes()}


def of_version_1(bench):
    """A database of version 1, with a closed return and a constituency that was reopened."""
    folder = bench.fresh(made(bench, SETUP))
    db = str(folder / DB)
    close_return("s1", "c1", [120, 120], rev=5, slip="p2", note="sum", db=db)
    with database(db) as it:
        it.execute("UPDATE cons SET edition = 4, note = 'recount'")
        it.execute("DROP TABLE past")
        it.execute("UPDATE setup SET version = 1")
    return {DB: (folder / DB).read_bytes()}


def after_import(bench, files, text):
    """The database after an import of a text."""
    folder = bench.fresh({**files, "returns.csv": text.encode()})
    words = [bench.program, "import", "--db", DB, "--con", "c1", "--csv", "returns.csv"]
    subprocess.run(words, cwd=folder, check=True, stdout=subprocess.DEVNULL)
    return {DB: (folder / DB).read_bytes()}


def changed(bench, files, statements):
    """The database after statements of C SQLite."""
    folder = bench.fresh(files)
    with database(str(folder / DB)) as it:
        it.executescript(statements)
    return {DB: (folder / DB).read_bytes()}


def show(bench, files, report, con="c1", first=1):
    words = ("show", "--db", DB, "--report", report, "--con", con)
    return Command(bench, f"show {report} of {con}", words, files, first)


def imports(bench, name, files, text, con="c1", first=1):
    words = ("import", "--db", DB, "--con", con, "--csv", "returns.csv")
    return Command(bench, name, words, {**files, "returns.csv": text.encode()}, first)


def imports_into_open(bench, name, files, text):
    """An import that is refused memory after the opening."""
    return imports(bench, name, files, text, first=opening(imports(bench, name, files, text, "zz")))


def refused_opening(bench, name, files):
    words = ("show", "--db", DB, "--report", "progress")
    return Command(bench, f"show of {name}", words, files, opens=False)


def opening(command):
    """A request for memory that a command makes shortly before the database is open, by this one, which names no constituency
    that there is: it opens the database and closes it, which takes the name of the log."""
    return command.ample() - 20


def workloads(bench):
    """The workloads. What `show` asks for up to its report is the same for all reports, and is refused with one of them."""
    new, past = ("new", "--db", DB, "--setup", "setup.toml"), ("show", "--db", DB, "--report", "past", "--con", "c1")
    setup = {"setup.toml": SETUP.encode()}
    one, three, election = made(bench, SETUP), made(bench, THREE_STATIONS), certified(bench)
    lodged = after_import(bench, three, RETURNS)
    differing, bad = RETURNS.replace("30,40", "31,40"), RETURNS.replace("30,40", "x,40")
    script = [message(path, body) for path, body, _, _ in SCRIPT]
    wanted = [(status, text) for _, _, status, text in SCRIPT]
    is_open = opening(show(bench, election, "tally", "zz"))
    return [
        Command(bench, "new", new, setup),
        Command(bench, "new in a file without a byte", new, {**setup, DB: b""}),
        Command(bench, "new where an office is", new, {**setup, **one}),
        imports(bench, "import", three, RETURNS),
        imports_into_open(bench, "import that is repeated", lodged, RETURNS),
        imports_into_open(bench, "import that differs", lodged, differing),
        imports_into_open(bench, "import with a bad row", three, bad),
        show(bench, election, "progress"),
        show(bench, election, "country"),
        show(bench, election, "results"),
        *(show(bench, election, report, first=is_open) for report in REPORTS),
        show(bench, election, "quota", "h1", is_open),
        Command(bench, "show of version 1", past, of_version_1(bench), takes_over=True),
        refused_opening(bench, "a file without a byte", {DB: b""}),
        refused_opening(bench, "a seat that was moved", changed(bench, election, "UPDATE seats SET n = 3 - n WHERE con = 'c1'")),
        refused_opening(bench, "a table that is not there", changed(bench, election, "DROP TABLE lots")),
        Server(bench, "serve, up to listening", election, [PROGRESS], starts=True),
        Server(bench, "serve a lodge", one, [LODGE]),
        Server(bench, "serve a client that is gone, and a lodge", one, [GONE, LODGE]),
        Server(bench, "serve an import", three, [message("/con/c1/import", RETURNS)]),
        Server(bench, "serve an import that is repeated", lodged, [message("/con/c1/import", RETURNS)]),
        Server(bench, "serve an import that differs", lodged, [message("/con/c1/import", differing)]),
        Server(bench, "serve an import with a bad row", three, [message("/con/c1/import", bad)]),
        Server(bench, "serve each GET", election, [*ROUTES, message("/con/h1/quota")]),
        Server(bench, "serve a script", one, script, wanted),
    ]


def ranges(numbers, every):
    """Ascending numbers as text, with a dash for those that follow one another in such steps."""
    found = []
    for number in numbers:
        if found and number == found[-1][1] + every:
            found[-1][1] = number
        else:
            found.append([number, number])
    return ", ".join(f"{low}" if low == high else f"{low}-{high}" for low, high in found)


def refuse_each(work, every, pool):
    """Refuses each request of a workload: how many runs there were, and how many were not as promised."""
    last = work.ample()
    places = range(work.first, last + 1, every)
    wrong = 0
    print(f"{work.name}: requests {work.first} to {last}" + (f", every {every}th" if every > 1 else ""), flush=True)
    for words, end in (("alone", lambda at: at), ("and all after it", lambda at: WHOLE)):
        came, bad = Counter(), {}
        for at, (what, fine) in zip(places, pool.map(lambda at: work.outcome(at, end(at)), places)):
            if fine:
                came[what] += 1
            else:
                bad.setdefault(what, []).append(at)
        print(f"    {words}: " + "; ".join(f"{what}: {count}" for what, count in sorted(came.items())), flush=True)
        for what, numbers in bad.items():
            print(f"    {words}, NOT AS PROMISED, {len(numbers)} times, at {ranges(numbers, every)}: {what[:2000]}", flush=True)
            wrong += len(numbers)
    return 2 * len(places), wrong


def main():
    words = argparse.ArgumentParser(description=__doc__.splitlines()[0])
    words.add_argument("names", nargs="*", metavar="NAME", help="parts of names of workloads")
    words.add_argument("--program", type=Path, default=PROGRAM)
    words.add_argument("--jobs", type=int, default=2, help="how many runs at a time")
    words.add_argument("--every", type=int, default=1, metavar="N", help="refuse only every Nth request")
    given = words.parse_args()
    if has_no_compiler():
        return ended(0, 0, 1)
    runs = wrong = passed = failed = 0
    with tempfile.TemporaryDirectory() as folder, ThreadPoolExecutor(given.jobs) as pool:
        bench = Bench(str(given.program.resolve()), folder)
        try:
            for work in workloads(bench):
                if not given.names or any(name in work.name for name in given.names):
                    count, bad = refuse_each(work, given.every, pool)
                    runs, wrong = runs + count, wrong + bad
                    passed, failed = passed + (count > 0 and bad == 0), failed + (count == 0 or bad > 0)
        finally:
            pool.shutdown(cancel_futures=True)
    print(f"{runs} runs, {wrong} not as promised")
    return ended(passed, failed)


if __name__ == "__main__":
    sys.exit(main())
