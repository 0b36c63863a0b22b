"""`office new`: a database is made, or no file stays."""

import contextlib
import os
import sqlite3
import subprocess
import time
from pathlib import Path

from tests.support.case import PROGRAM
from tests.support.office import RETURNS, SETUP, TABLES, THREE_STATIONS, station
from tests.support.program import (
    STARTED,
    ProgramCase,
    Ran,
    before_the_library,
    check,
    database,
    done,
    failed,
    making,
    new,
    office,
    only,
    recount,
    refused,
    rows,
    shows,
    write,
)
from tests.support.running import PATIENCE, until
from tests.support.twin_town import PROGRESS


# Comes before the C library: a file that a call has made (O_EXCL) is given back once there is a
# file `go` in the program's folder.
WAITING_AFTER_A_FILE_IS_MADE = r"""
#define _GNU_SOURCE
#include <dlfcn.h>
#include <fcntl.h>
#include <stdarg.h>
#include <unistd.h>

static int opened(int file, int flags)
{
    while (file >= 0 && (flags & O_EXCL) && access("go", F_OK))
        usleep(1000);
    return file;
}

#define OPEN(name, before, given)                                       \
    int name(before const char *path, int flags, ...)                   \
    {                                                                   \
        va_list more;                                                   \
        va_start(more, flags);                                          \
        mode_t mode = flags & O_CREAT ? va_arg(more, mode_t) : 0;       \
        va_end(more);                                                   \
        int (*real)(before const char *, int, ...) = dlsym(RTLD_NEXT, #name); \
        return opened(real(given path, flags, mode), flags);            \
    }

#define NOTHING
#define FOLDER int folder,
#define GIVEN_FOLDER folder,
OPEN(open, NOTHING, NOTHING)
OPEN(open64, NOTHING, NOTHING)
OPEN(openat, FOLDER, GIVEN_FOLDER)
OPEN(openat64, FOLDER, GIVEN_FOLDER)
"""


def new_that_waits():
    """A `new` that has made a file, and waits before it opens it until there is a file `go`."""
    environment = before_the_library(WAITING_AFTER_A_FILE_IS_MADE)
    write("setup.toml", SETUP)
    first = subprocess.Popen(
        [PROGRAM, *making("office.db")],
        env=environment,
        stdout=subprocess.PIPE,
        stderr=subprocess.PIPE,
    )
    STARTED.append(first)
    until(lambda: os.path.exists("office.db"))
    return first


class New(ProgramCase):
    def test_a_new_database_is_read_by_others(self):
        new(THREE_STATIONS)
        only("office.db")
        with database() as it:
            self.assertEqual(it.execute("PRAGMA integrity_check").fetchall(), [("ok",)])
            self.assertEqual(
                {
                    name: strict
                    for _, name, kind, _, _, strict in it.execute("PRAGMA table_list")
                    if kind == "table" and not name.startswith("sqlite_")
                },
                dict.fromkeys(TABLES, 1),
            )
        self.assertEqual(
            rows(),
            {
                "setup": [(1, 2, THREE_STATIONS)],
                "returns": [],
                "counts": [],
                "cons": [("c1", 1, 0, "")],
                "lots": [],
                "seats": [],
                "gone": [],
                "totals": [("c1", item, 0) for item in (0, 1, 2, 61)],
                "past": [],
            },
        )
        recount()
        only("office.db")

    def test_a_database_is_not_made_twice(self):
        new()
        before = Path("office.db").read_bytes()
        refused("not_empty", "new", "--db", "office.db", "--setup", "setup.toml")
        self.assertEqual(Path("office.db").read_bytes(), before)
        only("office.db")

    def test_setups_that_are_refused_leave_no_file(self):
        long = SETUP + "#" * (8388609 - len(SETUP))
        for text, word in (
            ("[[", "not_toml\nat line 1, column 3"),
            (b'a = "\xff"\n', "not_toml\nat line 1, column 6"),
            ("", "missing profile"),
            (SETUP.replace("seats = 3\n", ""), "missing seats\nat constituency 1 c1"),
            (SETUP.replace("seats = 3", "seats = 501"), "bad_value seats\nat constituency 1 c1"),
            (SETUP.replace("seats = 3", 'seats = "3"'), "bad_value seats\nat constituency 1 c1"),
            (
                SETUP + '\n[[constituency.station]]\ncode = "s1"\nelectors = 1\n',
                (
                    "duplicate s1\nat constituency 1 c1, station 2; first at constituency 1 c1,"
                    " station 1 s1"
                ),
            ),
            (
                SETUP.replace('profile = "d0"', 'profile = "zz"'),
                "unknown_profile\nat constituency 1 c1",
            ),
            (
                SETUP
                + "".join(
                    f'\n[[constituency.list]]\ncode = "L{n}"\nname = "L"\ncandidates = ["x"]\n'
                    for n in range(59)
                ),
                "over_limit list\nat constituency 1 c1",
            ),
            (
                SETUP.replace('method = "dhondt"', 'method = "coin"'),
                "bad_value method\nat profile 1 d0",
            ),
            (long, "over_limit text"),
        ):
            with self.subTest(text=text, word=word):
                write("setup.toml", text)
                refused(word, "new", "--db", "office.db", "--setup", "setup.toml")
                only()
        new(long[:-1])

    def test_files_that_come_in_pieces_and_files_without_an_end(self):
        """Through a pipe a read gives some of the bytes.

        What goes on without an end is too long, and is not read further.
        """
        setup = (THREE_STATIONS + "#").ljust(8388608, "x")
        returns = (RETURNS + "\n").ljust(16777216, "\n")
        for name, text in (("setup", setup), ("returns", returns)):
            os.mkfifo(f"{name}.pipe")
            write(f"{name}.text", text)
            STARTED.append(subprocess.Popen(["bash", "-c", f"exec cat {name}.text > {name}.pipe"]))
        done("constituencies 1\n", "new", "--db", "office.db", "--setup", "setup.pipe")
        with database() as it:
            self.assertEqual(it.execute("SELECT text FROM setup").fetchall() == [(setup,)], True)
        counts = "lodged 3\nsame 0\ndiffers 0\nrefused 0\nbad 0\nfirst -\n"
        done(counts, "import", "--db", "office.db", "--con", "c1", "--csv", "returns.pipe")
        refused("over_limit text", "new", "--db", "other.db", "--setup", "/dev/zero")
        refused("too_long", "import", "--db", "office.db", "--con", "c1", "--csv", "/dev/zero")
        with open("/dev/zero", "rb") as zeros:
            self.assertEqual(check(zeros), (1, b"", b"refused: too_long\n"))
        only("office.db", "setup.pipe", "setup.text", "returns.pipe", "returns.text")

    def test_a_setup_that_is_no_file(self):
        failed("file", "new", "--db", "office.db", "--setup", "nowhere.toml")
        os.mkdir("folder")
        failed("read", "new", "--db", "office.db", "--setup", "folder")
        only("folder")

    def test_a_setup_in_another_folder(self):
        """The one that is named is read, and not one of its name in the current folder."""
        os.mkdir("folder")
        write("folder/setup.toml", THREE_STATIONS)
        write("setup.toml", SETUP)
        paths = ("folder/setup.toml", os.path.abspath("folder/setup.toml"))
        for db, path in zip(("one.db", "two.db"), paths):
            with self.subTest(path=path):
                done("constituencies 1\n", "new", "--db", db, "--setup", path)
                self.assertEqual(rows(db)["setup"], [(1, 2, THREE_STATIONS)])
        only("folder", "one.db", "two.db")

    def test_a_database_that_cannot_be_made(self):
        write("setup.toml", SETUP)
        os.mkdir("folder")
        failed("store", "new", "--db", "folder", "--setup", "setup.toml")
        write("text.db", "this is no database, and it is long enough to be looked at as one " * 20)
        before = Path("text.db").read_bytes()
        failed("store", "new", "--db", "text.db", "--setup", "setup.toml")
        self.assertEqual(Path("text.db").read_bytes(), before)
        only("folder", "text.db")

    def test_an_empty_file_stays_where_no_office_is_made_in_it(self):
        write("office.db", "")
        write("setup.toml", "[[")
        refused(
            "not_toml\nat line 1, column 3", "new", "--db", "office.db", "--setup", "setup.toml"
        )
        only("office.db")
        new()
        only("office.db")

    def test_offices_that_are_made_at_once(self):
        """One is made, whichever it is, and the file is not taken from it."""
        write("setup.toml", SETUP)
        words = [PROGRAM, "new", "--db", "office.db", "--setup", "setup.toml"]
        for _ in range(20):
            running = [
                subprocess.Popen(words, stdout=subprocess.PIPE, stderr=subprocess.PIPE)
                for _ in range(4)
            ]
            found = sorted((*ran.communicate(timeout=PATIENCE), ran.returncode) for ran in running)
            self.assertEqual(found[-1], (b"constituencies 1\n", b"", 0))
            for out, err, status in found[:-1]:
                self.assertIn(
                    (out, err, status),
                    ((b"", b"failed: store\n", 3), (b"", b"refused: not_empty\n", 1)),
                    found,
                )
            shows(
                "progress",
                "c1                    1      1      0      0      0      0      1 open\n",
                con=None,
            )
            only("office.db")
            os.remove("office.db")

    def test_an_office_that_another_made_first_stays(self):
        """A `new` makes a file, and before it opens that a second `new` makes its office in it: the
        first leaves the office as it is.
        """
        first = new_that_waits()
        done("constituencies 1\n", *making("office.db"))
        made = Path("office.db").read_bytes()
        write("go", "")
        self.assertEqual(
            (*first.communicate(timeout=PATIENCE), first.returncode),
            (b"", b"refused: not_empty\n", 1),
        )
        self.assertEqual(Path("office.db").read_bytes(), made)
        shows("progress", PROGRESS, con=None)
        only("before.c", "before.so", "go", "office.db")

    def test_a_file_that_another_has_locked_stays(self):
        """A `new` makes a file, and before it opens that another program locks it: the file is that
        program's.
        """
        first = new_that_waits()
        with contextlib.closing(sqlite3.connect("office.db", isolation_level=None)) as other:
            other.execute("BEGIN EXCLUSIVE")
            write("go", "")
            self.assertEqual(
                (*first.communicate(timeout=PATIENCE), first.returncode),
                (b"", b"failed: store\n", 3),
            )
            other.execute("CREATE TABLE other (a INTEGER)")
            other.execute("COMMIT")
        with database() as it:
            self.assertEqual(it.execute("SELECT name FROM sqlite_master").fetchall(), [("other",)])
        only("before.c", "before.so", "go", "office.db")

    def test_a_new_that_is_killed(self):
        """Whenever it ends, the next one makes the office, or the office is there and opens."""
        setup = THREE_STATIONS + "".join(station(f"t{n}") for n in range(4997)) + "#" * 4000000
        write("setup.toml", setup)
        began = time.monotonic()
        done("constituencies 1\n", *making("office.db"))
        whole = time.monotonic() - began
        for turn in range(6):
            for name in Path(".").glob("office.db*"):
                name.unlink()
            process = subprocess.Popen(
                [PROGRAM, *making("office.db")],
                stdout=subprocess.DEVNULL,
                stderr=subprocess.DEVNULL,
            )
            time.sleep(whole * (turn + 1) / 7)
            process.kill()
            process.wait()
            ran = office(*making("office.db"))
            self.assertIn(
                ran, (Ran(0, "constituencies 1\n", ""), Ran(1, "", "refused: not_empty\n"))
            )
            shows(
                "progress",
                "c1                 5000   5000      0      0      0      0      1 open\n",
                con=None,
            )
            only("office.db")
