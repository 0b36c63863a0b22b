"""Which files are opened and made, under which names, and what lies beside them."""

import contextlib
import os
import shutil
import sqlite3
import subprocess
from pathlib import Path

from tests.support.case import PROGRAM
from tests.support.desk import Desk, serving, take
from tests.support.office import RETURNS, SETUP, THREE_STATIONS
from tests.support.program import (
    STARTED,
    ProgramCase,
    Ran,
    before_the_library,
    close_return,
    database,
    done,
    failed,
    held,
    imports,
    leaves_all,
    making,
    new,
    office,
    only,
    opening,
    recount,
    refused,
    rows,
    same,
    shows,
    write,
)
from tests.support.running import PATIENCE, until
from tests.support.twin_town import SCRIPT


def hot_journal(name):
    """A rollback journal such as C SQLite leaves where it is stopped in a transaction."""
    with contextlib.closing(sqlite3.connect("other.db", isolation_level=None)) as it:
        it.execute("PRAGMA cache_size = 1")
        it.execute("CREATE TABLE other (text TEXT)")
        it.execute("BEGIN")
        it.executemany("INSERT INTO other VALUES (?)", [("x" * 1000,)] * 100)
        shutil.copy("other.db-journal", name)
        it.execute("ROLLBACK")
    os.remove("other.db")
    # Its magic number, and after it a number of pages: without one no page would be rolled back.
    text = Path(name).read_bytes()
    assert text[:8] == bytes.fromhex("d9d505f920a163d7") and text[8:12] != bytes(4), text[:12]


def has_all_at(db):
    """An office is made at this path, takes returns, shows them and serves them.

    No file is left beside those of the test.
    """
    folder, progress = (
        os.path.dirname(db) or ".",
        "c1                    3      0      3      0      0      0      1 open\n",
    )
    os.makedirs(folder, exist_ok=True)
    setup, returns = (os.path.join(folder, name) for name in ("setup.toml", "returns.csv"))
    write(setup, THREE_STATIONS)
    write(returns, RETURNS)
    done("constituencies 1\n", "new", "--db", db, "--setup", setup)
    done(
        "lodged 3\nsame 0\ndiffers 0\nrefused 0\nbad 0\nfirst -\n",
        "import",
        "--db",
        db,
        "--con",
        "c1",
        "--csv",
        returns,
    )
    shows("progress", progress, con=None, db=db)
    with serving(db, 1) as desk:
        desk.get("/progress", progress)
    same(
        sorted(it.name for it in os.scandir(folder) if it.is_file()),
        sorted((os.path.basename(db), "returns.csv", "setup.toml")),
    )


# Comes before the C library: a command that is about to remove a log makes a file `waits`, and
# waits until there is a file `go`.
WAITING_AT_A_LOG = r"""
#define _GNU_SOURCE
#include <dlfcn.h>
#include <fcntl.h>
#include <string.h>
#include <unistd.h>

static void wait_at(const char *path)
{
    size_t length = strlen(path);
    if (length < 4 || strcmp(path + length - 4, "-wal"))
        return;
    close(open("waits", O_CREAT | O_WRONLY, 0600));
    while (access("go", F_OK))
        usleep(1000);
}

int unlink(const char *path)
{
    wait_at(path);
    return ((int (*)(const char *))dlsym(RTLD_NEXT, "unlink"))(path);
}

int unlinkat(int folder, const char *path, int flags)
{
    wait_at(path);
    return ((int (*)(int, const char *, int))dlsym(RTLD_NEXT, "unlinkat"))(folder, path, flags);
}
"""


class Files(ProgramCase):
    def test_names_that_name_no_file(self):
        """SQLite takes these for a database in memory or for a URI.

        Here nothing is made under such a name, and no office opened.
        """
        write("setup.toml", SETUP)
        write("returns.csv", RETURNS)
        for name in (
            ":memory:",
            "file:x",
            "file:office.db",
            "file::memory:",
            "file:x?mode=memory&cache=shared",
            "file:///x",
        ):
            with self.subTest(name=name):
                leaves_all("store", *making(name))
                for words in opening(name):
                    with self.subTest(words=words):
                        ran = office(*words)
                        self.assertIn(
                            ran, (Ran(1, "", "refused: no_tables\n"), Ran(3, "", "failed: store\n"))
                        )
                        only()

    def test_a_folder_that_is_not_there(self):
        """No database there can be opened; in a folder that is there, a file that is not has no
        tables.
        """
        write("setup.toml", SETUP)
        write("returns.csv", RETURNS)
        os.mkdir("folder")
        for db in ("nowhere/office.db", "folder/nowhere/office.db", "setup.toml/office.db"):
            for words in (making(db), *opening(db)):
                with self.subTest(words=words):
                    leaves_all("store", *words)
        for db in ("office.db", "folder/office.db"):
            for words in opening(db):
                with self.subTest(words=words):
                    refused("no_tables", *words)
        self.assertEqual(sorted(held()), ["folder", "returns.csv", "setup.toml"])

    def test_what_lies_beside_a_database(self):
        """A folder in the place of the log, a journal of another program: nothing is opened or
        made, and nothing stays that was not there.
        """
        new(db="made.db")
        write("returns.csv", RETURNS)
        for name, lay, take_away in (
            ("office.db-wal", os.mkdir, os.rmdir),
            ("office.db-journal", hot_journal, os.remove),
        ):
            with self.subTest(name=name, lay=lay, take_away=take_away):
                lay(name)
                leaves_all("store", *making("office.db"))
                write("office.db", "")
                leaves_all("store", *making("office.db"))
                shutil.copy("made.db", "office.db")
                for words in (making("office.db"), *opening("office.db")):
                    with self.subTest(words=words):
                        leaves_all("store", *words)
                os.remove("office.db")
                take_away(name)
                new()
                only("made.db", "office.db")
                os.remove("office.db")

    def test_a_database_through_a_link(self):
        os.mkdir("kept")
        new(db="kept/office.db")
        os.symlink("kept/office.db", "link.db")
        imports(
            {"lodged": 1}, RETURNS.splitlines(keepends=True)[0] + "s1,p1,0,0,10,20\n", db="link.db"
        )
        self.assertEqual(os.listdir("kept"), ["office.db"])
        only("kept", "link.db")
        self.assertEqual(len(rows("kept/office.db")["returns"]), 1)

    def test_a_database_with_two_names(self):
        new()
        os.link("office.db", "other.db")
        failed("store", "show", "--db", "office.db", "--report", "progress")
        only("office.db", "other.db")

    def test_files_in_a_folder_of_a_long_name(self):
        """As long as C SQLite takes, which reads the file at the end: 512 bytes in all."""
        has_all_at(f"{'x' * 200}/{'y' * 180}/office.db")

    def test_files_of_the_longest_names(self):
        """As long as a name and a path may be, beside which a journal of SQLite has eight bytes
        more: of letters, of characters of many bytes and of others, in this folder, by the whole
        path, and in folders as deep as may be.
        """
        folders = "/".join(["x" * 250] * 15)
        long, of_many_bytes, odd = "o" * 247, "ñ" * 118 + "o" * 11, "'\"$;#%? ~\\"
        deep = f"{folders}/{'y' * (4087 - len(f'{os.getcwd()}/{folders}//'.encode()) - 247)}"
        for place in (
            f"{deep}/{long}",
            f"{deep}/{of_many_bytes}",
            os.path.abspath(of_many_bytes),
            odd,
        ):
            with self.subTest(place=place):
                has_all_at(place)
                os.remove(place)

    def test_a_database_that_is_not_there_is_not_made(self):
        write("returns.csv", RETURNS)
        refused("no_tables", "show", "--db", "office.db", "--report", "progress")
        refused("no_tables", "import", "--db", "office.db", "--con", "c1", "--csv", "returns.csv")
        refused("no_tables", "serve", "--db", "office.db", "--port", "8080", "--count", "1")
        only()

    def test_files_that_are_no_office(self):
        write("text.db", "this is no database, and it is long enough to be looked at as one " * 20)
        failed("store", "show", "--db", "text.db", "--report", "progress")
        os.mkdir("folder")
        failed("store", "show", "--db", "folder", "--report", "progress")
        write("empty.db", "")
        refused("no_tables", "show", "--db", "empty.db", "--report", "progress")
        self.assertEqual(os.path.getsize("empty.db"), 0)
        only("empty.db", "folder", "text.db")
        with database("other.db") as it:
            it.execute("CREATE TABLE other (a INTEGER)")
        refused("no_tables", "show", "--db", "other.db", "--report", "progress")
        new()
        with database() as it:
            it.execute("CREATE TABLE other (a INTEGER)")
        failed("store", "show", "--db", "office.db", "--report", "progress")

    def test_version_1_is_taken_over(self):
        new()
        close_return("s1", "c1", [120, 120], rev=5, slip="p2", note="sum")
        with database() as it:
            it.execute("UPDATE cons SET edition = 4, note = 'recount'")
            it.execute("DROP TABLE past")
            it.execute("UPDATE setup SET version = 1")
        shows("past", "PAST c1 Twin Town\n")
        self.assertEqual(rows()["setup"], [(1, 2, SETUP)])
        only("office.db")
        with serving("office.db", 5) as desk:
            for step in SCRIPT[20:]:
                take(desk, step)
        recount()

    def test_two_commands_at_once(self):
        """One command has the database alone; another is answered so, and nothing is lost."""
        new(THREE_STATIONS)
        os.mkfifo("pipe")
        words = [PROGRAM, "import", "--db", "office.db", "--con", "c1", "--csv", "pipe"]
        first = subprocess.Popen(words, stdout=subprocess.PIPE, stderr=subprocess.PIPE)
        with open("pipe", "w", encoding="utf-8") as pipe:
            pipe.write(RETURNS[:60])
            pipe.flush()
            failed("store", "show", "--db", "office.db", "--report", "progress")
            failed("store", "new", "--db", "office.db", "--setup", "setup.toml")
            pipe.write(RETURNS[60:])
        out, err = first.communicate(timeout=PATIENCE)
        self.assertEqual(
            (first.returncode, out, err),
            (0, b"lodged 3\nsame 0\ndiffers 0\nrefused 0\nbad 0\nfirst -\n", b""),
        )
        self.assertEqual(len(rows()["returns"]), 3)

    def test_a_log_is_removed_before_the_database_is_given_back(self):
        """Else it might be the log of the command that has it next, with returns that were
        acknowledged.
        """
        new(THREE_STATIONS)
        write("returns.csv", RETURNS)
        environment = before_the_library(WAITING_AT_A_LOG)
        words = [PROGRAM, "show", "--db", "office.db", "--report", "progress"]
        first = subprocess.Popen(
            words, env=environment, stdout=subprocess.PIPE, stderr=subprocess.PIPE, text=True
        )
        STARTED.append(first)
        until(lambda: os.path.exists("waits"))
        failed("store", "import", "--db", "office.db", "--con", "c1", "--csv", "returns.csv")
        write("go", "")
        out, err = first.communicate(timeout=PATIENCE)
        self.assertEqual(
            (first.returncode, out, err),
            (0, "c1                    3      3      0      0      0      0      1 open\n", ""),
        )
        imports({"lodged": 3}, RETURNS)

    def test_a_log_stays_where_an_opening_fails(self):
        """A server was killed, and then the database cannot be opened: what was answered as done is
        in the log, which stays byte for byte.
        """
        new()
        desk = Desk("office.db", 1000)
        take(desk, SCRIPT[0])
        desk.process.kill()
        desk.process.communicate()
        good, log = Path("office.db").read_bytes(), Path("office.db-wal").read_bytes()
        assert log
        write("returns.csv", RETURNS)
        for spoilt in (b"no database" + good[11:], good[:100] + bytes(len(good) - 100)):
            with self.subTest(spoilt=spoilt):
                for words in (*opening("office.db"), making("office.db")):
                    with self.subTest(words=words):
                        write("office.db", spoilt)
                        leaves_all("store", *words)
                self.assertEqual(Path("office.db-wal").read_bytes(), log)
        write("office.db", good)
        shows(
            "progress",
            "c1                    1      0      1      0      0      0      1 open\n",
            con=None,
        )
