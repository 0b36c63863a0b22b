"""The programs that `deploy/desk` starts, and the database that they work on."""

import contextlib
import signal
import sqlite3
import subprocess
import sys
import time
from pathlib import Path
from urllib.parse import quote

from desk_walls import die_with_parent

HERE = Path(__file__).resolve().parent
# How many connections an office takes before it ends; it is started again.
COUNT = 1_000_000
# Seconds: until a part is ready, within which it should not end again, until it ends, and between
# two rounds of the press pages.
START, SOON, END, EVERY = 60, 5, 10, 5


class Fault(Exception):
    """Why the office cannot be opened, in a line."""


# ---- the database


def ran(*words):
    """Status and fault of a program that ends by itself."""
    done = subprocess.run(words, stdin=subprocess.DEVNULL, stdout=subprocess.PIPE,
                          stderr=subprocess.PIPE, text=True, errors="replace")
    return done.returncode, ", ".join(done.stderr.split("\n")).strip(", ")


def ready_database(program, setup, files):
    """Makes the database, or looks whether it is the one of this setup and can be opened."""
    if files.db.is_symlink():
        # (beside the link there would be another record than beside the file)
        raise Fault(f"{files.db} is a link: name the file to which it leads, {files.db.resolve()}")
    if other := files.shared_with():
        raise Fault(f"{other} has the same record and the same pages as {files.db} would have: "
                    "give that one another name")
    if files.db.exists():
        close_database(program, files.db)
        if text_in(files.db) != setup.read_bytes():
            raise Fault(f"{files.db} was made from another setup than {setup}: "
                        "open it with that one, or name another --db")
        return
    if left := [str(file) for file in (files.record, files.pages) if file.exists()]:
        raise Fault(f"{' and '.join(left)} belong to a database that is gone: "
                    "put them aside, or name another --db")
    status, fault = ran(program, "new", "--db", files.db, "--setup", setup)
    if status:
        raise Fault(f"no database was made from {setup}: {fault}")


def close_database(program, db):
    """Opens and closes the database, which leaves it in one file, whatever was left beside it."""
    status, fault = ran(program, "show", "--db", db, "--report", "progress")
    if "failed: store" in fault:
        raise Fault(f"{db} is in use by another program, as by another desk, "
                    "or cannot be read and written")
    if status:
        raise Fault(f"{db} cannot be opened: {fault}")


def text_in(db):
    """The setup that a database was made from; the file is one that no program has open."""
    address = f"file:{quote(str(db.resolve()))}?mode=ro&immutable=1"
    with contextlib.closing(sqlite3.connect(address, uri=True)) as it:
        return it.execute("SELECT CAST(text AS BLOB) FROM setup").fetchone()[0]


# ---- the programs


class Files:
    """The database, what is beside it, and a folder for the time that the office is open."""

    def __init__(self, db, folder):
        self.db, self.folder = db, Path(folder)
        # (evening.bak, a copy of evening.db, has its own: only .db is left out)
        name = db.stem if db.suffix == ".db" else db.name
        self.record = db.with_name(f"{name}.commands.log")
        self.pages = db.with_name(f"{name}.pages")
        self.sockets, self.reader = self.folder / "recorder", self.folder / "reader"
        self.share = self.folder / "share"
        self.said = self.folder / "office.log"

    def shared_with(self):
        """The database that is beside this one and has the same record and pages, or None."""
        other = self.db.with_name(f"{self.db.name}.db")
        return other if self.db.suffix != ".db" and other.exists() else None


class Part:
    """A program that runs as long as the office is open, and how to see that it is ready."""

    def __init__(self, name, words, is_ready=None, said=None):
        self.name, self.words = name, list(map(str, words))
        self.is_ready, self.said = is_ready, said
        self.process, self.began = None, 0.0

    def start(self):
        said = open(self.said, "wb") if self.said else contextlib.nullcontext()
        with said as errors:
            # Ctrl-C is for this program, which ends its parts in their order.
            self.process = subprocess.Popen(
                self.words, stdin=subprocess.DEVNULL, stdout=subprocess.DEVNULL, stderr=errors,
                start_new_session=True, preexec_fn=lambda: die_with_parent(signal.SIGTERM))
        self.began = time.monotonic()
        while self.is_ready and not self.is_ready():
            if self.process.poll() is not None or time.monotonic() - self.began > START:
                raise Fault(f"{self.name} does not start{self.fault()}")
            time.sleep(0.01)

    def fault(self):
        said = self.said and self.said.read_text(encoding="utf-8", errors="replace").strip()
        return f": {said}" if said else ""

    def look(self):
        """Starts it again where it ended, unless it ended right after its start."""
        if self.process.poll() is None:
            return
        if time.monotonic() - self.began < SOON:
            status = self.process.returncode
            raise Fault(f"{self.name} ended with status {status}{self.fault()}")
        print(f"desk: {self.name} ended, and is started again", file=sys.stderr, flush=True)
        self.start()

    def end(self):
        if self.process is None or self.process.poll() is not None:
            return
        self.process.terminate()
        try:
            self.process.wait(END)
        except subprocess.TimeoutExpired:
            self.process.kill()
            self.process.wait()


def parts_of(program, given, files, port):
    """The office, its recorder, reader and press pages, in the order in which they start."""
    head, address = files.sockets / "head", f"127.0.0.1:{port}"
    serve = (program, "serve", "--db", files.db, "--port", port, "--count", COUNT)
    record = (sys.executable, HERE / "recorder.py", files.sockets, files.record, "--desk", address,
              "--setup", files.share / "setup.json", "--shown", files.pages / "record.csv")
    read = (sys.executable, HERE / "reader.py", files.reader, "--desk", address)
    press = (sys.executable, HERE / "press.py", f"http://{address}", files.pages,
             "--every", EVERY, "--setup", given.setup, "--head", head)
    site = ("--site", given.site) if given.site else ()
    return (Part("the office", serve, lambda: b"listening on" in files.said.read_bytes(),
                 files.said),
            Part("the recorder", record, head.exists),
            Part("the reader", read, (files.reader / "1-names.sock").exists),
            Part("the press pages", press + site))
