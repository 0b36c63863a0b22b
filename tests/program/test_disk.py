"""Disks that are full or fail."""

import itertools
import json
import os
import shutil
import subprocess

from tests.support.case import PROGRAM
from tests.support.desk import Desk
from tests.support.office import RETURNS, THREE_STATIONS, station
from tests.support.program import (
    ProgramCase,
    Ran,
    before_the_library,
    imports,
    making,
    new,
    only,
    rows,
    show,
    write,
)
from tests.support.running import PATIENCE


def limited(most, *words):
    """The outcome of a command where no file may grow beyond this many bytes."""
    words = [
        "bash",
        "-c",
        'trap "" XFSZ && ulimit -f "$0" && exec "$@"',
        str(most // 1024),
        PROGRAM,
        *words,
    ]
    ran = subprocess.run(words, capture_output=True, text=True, timeout=PATIENCE)
    return Ran(ran.returncode, ran.stdout, ran.stderr)


# Comes before the C library: while there is a file `broken` in the program's folder, a call that
# brings a file to its disk fails.
FAILING_DISK = r"""
#define _GNU_SOURCE
#include <dlfcn.h>
#include <errno.h>
#include <unistd.h>

static int sync_by(const char *name, int file)
{
    int (*real)(int) = dlsym(RTLD_NEXT, name);
    if (access("broken", F_OK))
        return real(file);
    errno = EIO;
    return -1;
}

int fsync(int file)
{
    return sync_by("fsync", file);
}

int fdatasync(int file)
{
    return sync_by("fdatasync", file);
}
"""


# Comes before the C library: each call that brings a file to its disk leaves a byte in a file
# `synced` of the program's folder.
COUNTING_DISK = r"""
#define _GNU_SOURCE
#include <dlfcn.h>
#include <fcntl.h>
#include <unistd.h>

static int sync_by(const char *name, int file)
{
    int (*real)(int) = dlsym(RTLD_NEXT, name);
    int noted = open("synced", O_WRONLY | O_CREAT | O_APPEND, 0600);
    if (noted < 0 || write(noted, "x", 1) != 1 || close(noted))
        _exit(99);
    return real(file);
}

int fsync(int file)
{
    return sync_by("fsync", file);
}

int fdatasync(int file)
{
    return sync_by("fdatasync", file);
}
"""


class Disk(ProgramCase):
    def test_commands_where_the_disk_is_full(self):
        """At each size at which it may be full: a `new` leaves no file, an import no row.

        The one that has room is done.
        """
        setup = THREE_STATIONS + "".join(station(f"t{n}") for n in range(4997))
        returns = RETURNS + "".join(f"t{n},p-{n},0,0,1,2\n" for n in range(4997))
        write("setup.toml", setup)
        write("returns.csv", returns)
        failures = 0
        for most in itertools.count(0, 65536):
            ran = limited(most, *making("office.db"))
            if ran == Ran(0, "constituencies 1\n", ""):
                break
            self.assertEqual(ran, Ran(3, "", "failed: store\n"), most)
            only()
            failures += 1
        self.assertGreaterEqual(failures, 3)
        shutil.copy("office.db", "good.db")
        before, counts = rows(), "lodged 5000\nsame 0\ndiffers 0\nrefused 0\nbad 0\nfirst -\n"
        for most in itertools.count(65536, 262144):
            ran = limited(
                most, "import", "--db", "office.db", "--con", "c1", "--csv", "returns.csv"
            )
            # Where the log has all of it, and the file no room for that, it is done.
            self.assertIn(ran, (Ran(0, counts, ""), Ran(3, "", "failed: store\n")), most)
            lodged = f"c1                 5000 {'     0   5000'}      0      0      0      1 open\n"
            found = show("progress", con=None)
            only("good.db", "office.db")
            if found == Ran(0, lodged, ""):
                break
            self.assertEqual(
                (ran.status, found.out, rows() == before),
                (3, lodged.replace("     0   5000", "  5000      0"), True),
                most,
            )
            failures += 1
        self.assertGreaterEqual(failures, 6)
        imports({"same": 5000}, returns)

    def test_a_disk_that_fails_shuts_an_office(self):
        """From then on each answer is 503, also once the disk is well again.

        At its end the server says so, and its status is 3. What it answered as done before is there
        at the next opening.
        """
        library = before_the_library(FAILING_DISK)
        shut = (503, '{"word":"unavailable"}')
        lodge = json.dumps({"slip": "p1", "votes": [100, 100], "blank": 0, "spoiled": 0})
        new(THREE_STATIONS)
        desk = Desk("office.db", 9, env=library)
        self.assertEqual(desk.ask("GET", "/progress")[0], 200)
        self.assertEqual(
            desk.ask("POST", "/station/s1/lodge", lodge)[::2], (200, '{"ok":"lodged","rev":1}')
        )
        write("broken", "")
        self.assertEqual(desk.ask("POST", "/station/s2/lodge", lodge)[::2], shut)
        os.remove("broken")
        for words in (
            ("GET", "/progress"),
            ("GET", "/con/c1/tally"),
            ("GET", "/con/c1/provisional"),
            ("GET", "/con/c1/result"),
            ("GET", "/results"),
            ("POST", "/station/s3/lodge", lodge),
        ):
            with self.subTest(words=words):
                self.assertEqual(desk.ask(*words)[::2], shut)
        self.assertEqual(desk.end(), Ran(3, "", "failed: store\n"))
        # Whether the return that was not acknowledged is there only this opening says.
        lodged = "c1                    3      {}      {}      0      0      0      1 open\n"
        found = show("progress", con=None)
        self.assertIn(found, (Ran(0, lodged.format(2, 1), ""), Ran(0, lodged.format(1, 2), "")))
        self.assertEqual(
            [row[:4] for row in rows()["returns"] if row[0] != "s2"], [("s1", "c1", 1, "p1")]
        )
        write("broken", "")
        ran = subprocess.run(
            [PROGRAM, *making("other.db")],
            env=library,
            capture_output=True,
            text=True,
            timeout=PATIENCE,
        )
        self.assertEqual(Ran(ran.returncode, ran.stdout, ran.stderr), Ran(3, "", "failed: store\n"))

    def test_each_commit_is_brought_to_the_disk_twice(self):
        """A write that a crash tears may leave any bytes: what is committed is on the disk before
        the word that it is. Each command that is answered as done waits for both, and what is shown
        for none.
        """
        library = before_the_library(COUNTING_DISK)
        new(THREE_STATIONS)
        desk = Desk("office.db", 9, env=library)

        def synced(method, path, body=None, status=200):
            before = os.path.getsize("synced") if os.path.exists("synced") else 0
            self.assertEqual(desk.ask(method, path, body)[0], status)
            return (os.path.getsize("synced") if os.path.exists("synced") else 0) - before

        lodge = json.dumps({"slip": "p1", "votes": [100, 100], "blank": 0, "spoiled": 0})
        # (the first commit also begins the log)
        first = synced("POST", "/station/s1/lodge", lodge)
        self.assertGreaterEqual(first, 2)
        for path, body in (
            ("/station/s2/lodge", lodge),
            ("/station/s1/close", '{"rev":1}'),
            ("/con/c1/import", RETURNS),
        ):
            with self.subTest(path=path, body=body):
                self.assertEqual(synced("POST", path, body), 2)
        for path, body, status in (
            ("/station/s2/lodge", lodge, 200),
            ("/station/s1/close", '{"rev":1}', 409),
        ):
            with self.subTest(path=path, body=body, status=status):
                self.assertEqual(synced("POST", path, body, status), 0)
        for path in ("/progress", "/con/c1/stations"):
            with self.subTest(path=path):
                self.assertEqual(synced("GET", path), 0)
        # After the last answer the office is closed, which is brought to the disk too.
        self.assertEqual(desk.ask("GET", "/progress")[0], 200)
        self.assertEqual(desk.end(), Ran(0, "answered 9 failed 0\n", ""))
