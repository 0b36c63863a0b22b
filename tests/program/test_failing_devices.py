"""Reads and syncs that fail in the middle of a command: nothing is printed as done or as whole."""

import os
import shutil
import subprocess

from tests.support.case import PROGRAM
from tests.support.office import RETURNS, THREE_STATIONS
from tests.support.program import ProgramCase, Ran, before_the_library, new, office, write
from tests.support.running import PATIENCE

# Comes before the C library. From the call FAIL_FROM on, reads of the files whose names end with
# FAIL_FILE fail, or all syncs where it is empty; a file `refused` says that one did. A first read
# gives FAIL_CUT bytes at most.
FAILING = r"""
#define _GNU_SOURCE
#include <dlfcn.h>
#include <errno.h>
#include <fcntl.h>
#include <limits.h>
#include <stdio.h>
#include <stdlib.h>
#include <string.h>
#include <unistd.h>

static long calls;

static int fails(int file, const char *wanted)
{
    char link[64], name[PATH_MAX];
    if (*wanted) {
        snprintf(link, sizeof link, "/proc/self/fd/%d", file);
        ssize_t length = readlink(link, name, sizeof name - 1);
        if (length < (ssize_t)strlen(wanted))
            return 0;
        name[length] = 0;
        if (strcmp(name + length - strlen(wanted), wanted))
            return 0;
    }
    if (++calls < atol(getenv("FAIL_FROM")))
        return 0;
    close(open("refused", O_WRONLY | O_CREAT, 0600));
    errno = EIO;
    return 1;
}

static int read_fails(int file)
{
    return *getenv("FAIL_FILE") && fails(file, getenv("FAIL_FILE"));
}

ssize_t read(int file, void *to, size_t length)
{
    ssize_t (*real)(int, void *, size_t) = dlsym(RTLD_NEXT, "read");
    long before = calls, cut = atol(getenv("FAIL_CUT"));
    if (read_fails(file))
        return -1;
    return real(file, to, calls > before && cut && length > (size_t)cut ? (size_t)cut : length);
}

ssize_t pread(int file, void *to, size_t length, off_t at)
{
    ssize_t (*real)(int, void *, size_t, off_t) = dlsym(RTLD_NEXT, "pread");
    return read_fails(file) ? -1 : real(file, to, length, at);
}

ssize_t pread64(int file, void *to, size_t length, off64_t at)
{
    ssize_t (*real)(int, void *, size_t, off64_t) = dlsym(RTLD_NEXT, "pread64");
    return read_fails(file) ? -1 : real(file, to, length, at);
}

int fsync(int file)
{
    int (*real)(int) = dlsym(RTLD_NEXT, "fsync");
    return !*getenv("FAIL_FILE") && fails(file, "") ? -1 : real(file);
}

int fdatasync(int file)
{
    int (*real)(int) = dlsym(RTLD_NEXT, "fdatasync");
    return !*getenv("FAIL_FILE") && fails(file, "") ? -1 : real(file);
}
"""


class FailingDevices(ProgramCase):
    def setUp(self):
        super().setUp()
        self.library = before_the_library(FAILING)

    def ran(self, *words, file="", first=1, cut=0):
        """A command whose calls fail from this one on, and whether one did."""
        failing = {"FAIL_FILE": file, "FAIL_FROM": str(first), "FAIL_CUT": str(cut)}
        ran = subprocess.run(
            [PROGRAM, *words],
            env={**self.library, **failing},
            capture_output=True,
            text=True,
            timeout=PATIENCE,
        )
        refused = os.path.exists("refused")
        if refused:
            os.remove("refused")
        return Ran(ran.returncode, ran.stdout, ran.stderr), refused

    def test_a_setup_whose_second_piece_cannot_be_read(self):
        """The first piece is a setup too, of fewer stations."""
        write("setup.toml", THREE_STATIONS)
        cut = THREE_STATIONS.index('\n[[constituency.station]]\ncode = "s2"')
        words = ("new", "--db", "office.db", "--setup", "setup.toml")
        ran, refused = self.ran(*words, file="setup.toml", first=2, cut=cut)
        self.assertEqual((ran, refused), (Ran(3, "", "failed: read\n"), True))
        self.assertFalse(os.path.exists("office.db"))

    def test_an_import_whose_syncs_fail(self):
        """Counts are printed only where every sync was done, that of the closing too."""
        new(THREE_STATIONS, "new.db")
        write("returns.csv", RETURNS)
        words = ("import", "--db", "office.db", "--con", "c1", "--csv", "returns.csv")
        refused, first = True, 0
        while refused:
            first += 1
            self.assertLess(first, 100)
            with self.subTest(first=first):
                shutil.copy("new.db", "office.db")
                for end in ("-wal", "-shm"):
                    if os.path.exists(f"office.db{end}"):
                        os.remove(f"office.db{end}")
                ran, refused = self.ran(*words, first=first)
                if refused:
                    self.assertEqual(ran, Ran(3, "", "failed: store\n"))
                else:
                    self.assertEqual((ran.status, ran.out.splitlines()[0]), (0, "lodged 3"))
        self.assertGreater(first, 2)

    def test_a_report_of_a_database_that_cannot_be_read(self):
        """It is printed whole, or not at all."""
        new(THREE_STATIONS)
        words = ("show", "--db", "office.db", "--report", "tally", "--con", "c1")
        whole, outcomes = office(*words), set()
        first, step = 1, 1
        while len(outcomes) < 2 or first < 40:
            with self.subTest(first=first):
                ran, refused = self.ran(*words, file="office.db", first=first)
                outcomes.add(refused)
                wanted = Ran(3, "", "failed: store\n") if refused else whole
                self.assertEqual(ran, wanted)
            first, step = first + step, min(2 * step, 8)
            self.assertLess(first, 4000)
