"""Running the program, and the databases that it makes."""

import contextlib
import functools
import hashlib
import os
import shutil
import sqlite3
import subprocess
import sys
import tomllib
import unittest
from pathlib import Path

from tests.support import tools
from tests.support.case import PROGRAM, ROOT, Case
from tests.support.office import SETUP, TABLES, constituency, party_list, profile, station
from tests.support.running import PATIENCE, free_port


class Ran:
    def __init__(self, status, out, err):
        self.status, self.out, self.err = status, out, err

    def __eq__(self, other):
        return (self.status, self.out, self.err) == (other.status, other.out, other.err)

    def __repr__(self):
        return f"status {self.status}, output {self.out!r}, errors {self.err!r}"


def office(*words, given=""):
    ran = subprocess.run(
        [PROGRAM, *words], input=given.encode(), capture_output=True, timeout=PATIENCE
    )
    return Ran(ran.returncode, ran.stdout.decode(), ran.stderr.decode())


# An assertion of what is found, what is wanted and a label, outside of a test's class.
same = Case().assertEqual


def lines_of(table):
    """The lines of a table. One that begins with four spaces goes on with the line before it."""
    return table.strip("\n").replace("\n    ", " ").split("\n")


def done(text, *words):
    same(office(*words), Ran(0, text, ""))


def refused(word, *words):
    same(office(*words), Ran(1, "", f"refused: {word}\n"))


def failed(word, *words):
    same(office(*words), Ran(3, "", f"failed: {word}\n"))


def write(name, text):
    Path(name).write_bytes(text if isinstance(text, bytes) else text.encode())
    return name


def new(setup=SETUP, db="office.db", constituencies=1):
    write("setup.toml", setup)
    done(f"constituencies {constituencies}\n", "new", "--db", db, "--setup", "setup.toml")
    return db


def show(report, con="c1", db="office.db"):
    return office("show", "--db", db, "--report", report, *(["--con", con] if con else []))


def shows(report, text, con="c1", db="office.db"):
    same(show(report, con, db), Ran(0, text, ""))


def imports(counts, text, con="c1", db="office.db", flags=()):
    write("returns.csv", text)
    lines = "".join(
        f"{name} {counts.get(name, '-' if name == 'first' else 0)}\n"
        for name in ("lodged", "same", "differs", "refused", "bad", "first")
    )
    done(lines, "import", "--db", db, "--con", con, "--csv", "returns.csv", *flags)


@contextlib.contextmanager
def database(db="office.db"):
    connection = sqlite3.connect(db)
    try:
        yield connection
        connection.commit()
    finally:
        connection.close()


def rows(db="office.db"):
    """All rows of the office's tables, in any order."""
    with database(db) as it:
        return {table: sorted(it.execute(f"SELECT * FROM {table}")) for table in TABLES}


def put(table, *values, db="office.db"):
    with database(db) as it:
        for row in values:
            it.execute(f"INSERT INTO {table} VALUES ({', '.join('?' * len(row))})", row)


def close_return(
    station, con, votes, blank=0, spoiled=0, rev=2, slip="p1", note="", db="office.db"
):
    """A closed return, and its votes in the totals."""
    items = {0: blank, **{place: n for place, n in enumerate(votes, 1)}, 61: spoiled}
    with database(db) as it:
        it.execute("INSERT INTO returns VALUES (?, ?, ?, ?, 4, ?)", (station, con, rev, slip, note))
        for item, n in items.items():
            it.execute("INSERT INTO counts VALUES (?, ?, ?)", (station, item, n))
            it.execute("UPDATE totals SET n = n + ? WHERE con = ? AND item = ?", (n, con, item))


def certify(con, edition, seats, lot=(), db="office.db"):
    """A certificate with these seats, over the closed returns that are there."""
    with database(db) as it:
        it.execute("UPDATE cons SET edition = ?, certified = 1 WHERE con = ?", (edition, con))
        for place, n in enumerate(seats, 1):
            it.execute("INSERT INTO seats VALUES (?, ?, ?)", (con, place, n))
        for place, of in enumerate(lot, 1):
            it.execute("INSERT INTO lots VALUES (?, ?, ?)", (con, place, of))


def recount(db="office.db", text="c1 agrees\n", status=0):
    ran = tools.run(
        [sys.executable, ROOT / "examples/recount.py", db],
        capture_output=True,
        text=True,
        timeout=PATIENCE,
    )
    same(Ran(ran.returncode, ran.stdout, ran.stderr), Ran(status, text, ""))


# The databases that a test leaves spoiled: what a recount says of each.
SPOILED = {}


def spoiled(text, db="office.db"):
    """This database is no office's: a recount says so now, and at the end of the test."""
    SPOILED[os.path.realpath(db)] = text
    recount(db, text, 1)


@functools.cache
def codes_of(setup):
    """The codes of the constituencies of a setup, which is as long as 8 MiB in some tests."""
    return [con["code"] for con in tomllib.loads(setup)["constituency"]]


def offices():
    """Each office's database in this folder and below it, with the codes of its constituencies."""
    for file in sorted(Path(".").rglob("*")):
        if (
            file.is_symlink()
            or not file.is_file()
            or not file.read_bytes().startswith(b"SQLite format 3\0")
        ):
            continue
        uri = f"{file.resolve().as_uri()}?mode=ro&immutable=1"
        with contextlib.closing(sqlite3.connect(uri, uri=True)) as it:
            if it.execute("SELECT name FROM sqlite_master WHERE name = 'setup'").fetchall():
                yield file, codes_of(it.execute("SELECT text FROM setup").fetchone()[0])


def recount_all():
    """Counts again what is there at the end of a test: each office agrees, unless the test said
    what differs.
    """
    for file, codes in offices():
        differs = SPOILED.pop(os.path.realpath(file), None)
        recount(
            f"./{file}",
            differs or "".join(f"{code} agrees\n" for code in codes),
            1 if differs else 0,
        )
    same(SPOILED, {})


def only(*names):
    """The files of this folder, those that the tests themselves write left out."""
    found = sorted(set(os.listdir(".")) - {"setup.toml", "returns.csv"})
    same(found, sorted(names))


def check(text, **streams):
    """A check of a text or of a stream, and the streams that it writes on."""
    given = {"input": text} if isinstance(text, bytes) else {"stdin": text}
    ran = subprocess.run(
        [PROGRAM, "check"],
        **given,
        **{"stdout": subprocess.PIPE, "stderr": subprocess.PIPE, **streams},
        timeout=PATIENCE,
    )
    return ran.returncode, ran.stdout, ran.stderr


def opening(db):
    """The commands that open a database."""
    return (
        ("show", "--db", db, "--report", "progress"),
        ("import", "--db", db, "--con", "c1", "--csv", "returns.csv"),
        ("serve", "--db", db, "--port", str(free_port()), "--count", "1"),
    )


def making(db):
    return "new", "--db", db, "--setup", "setup.toml"


def held():
    """All files below this folder, with their length and a checksum, and all folders."""
    sums = {it: None if it.is_dir() else it.read_bytes() for it in Path(".").rglob("*")}
    return {
        str(it): "a folder" if text is None else (len(text), hashlib.sha256(text).hexdigest()[:16])
        for it, text in sums.items()
    }


def leaves_all(word, *words):
    """A command fails with this word, and each file and folder is as it was."""
    before = held()
    same(office(*words), Ran(3, "", f"failed: {word}\n"), words)
    same(held(), before, words)


def before_the_library(source):
    """The environment of a program that finds the functions of a C source before those of the C
    library.
    """
    if not shutil.which("cc"):
        raise unittest.SkipTest("no C compiler")
    write("before.c", source)
    subprocess.run(
        ["cc", "-O1", "-shared", "-fPIC", "-o", "before.so", "before.c", "-ldl"], check=True
    )
    return {**os.environ, "LD_PRELOAD": os.path.abspath("before.so")}


def setup_of(method, seats, lists):
    """The setup of a village with one station."""
    each = "".join(party_list(code, f"List {code}", "x") for code in lists)
    return (
        profile("p", method)
        + constituency("c1", "Village", seats, "p")
        + each
        + station("s1", 1000000)
    )


def change(sql, db="office.db"):
    with database(db) as it:
        it.execute(sql)


# The servers that a test starts. Those that still run at its end are killed.
STARTED = []


def end_all():
    """Ends the servers that a test started."""
    for process in STARTED:
        process.kill()
        process.wait()
        for pipe in (process.stdin, process.stdout, process.stderr):
            if pipe:
                pipe.close()
    STARTED.clear()


class ProgramCase(Case):
    """A test of the program.

    At its end no server runs on, and each database that it leaves is counted again.
    """

    of_the_program = True

    def setUp(self):
        super().setUp()
        SPOILED.clear()
        self.addCleanup(end_all)

    def tearDown(self):
        end_all()
        recount_all()
        super().tearDown()
