#!/usr/bin/env python3
"""Refuses a check, an allotment and a recount their memory, once at each place where they ask for some.

A library of a few lines of C comes before the allocator of the C library. It refuses the first
request for memory, then in another run the second, and so on until a run makes fewer requests than
that; and again so that every request from the chosen one on is refused. Each run of `office check`,
`office allot` and `office recount` has to end with status 3 and `failed: memory`, with nothing on standard output, or to do without
what was refused and answer as it does with ample memory.

    bench/refused_memory.py [--program PATH] [--every N]

With `--every N` only every Nth request is refused, alone and with all after it. A C compiler is needed, as
`cc`. The last line is `N passed, M failed, K skipped`: commands and texts, or the script where there is no compiler.
"""

import argparse
import os
import shutil
import subprocess
import sys
import tempfile
from pathlib import Path

# The modules imported from here are not to be left beside it in compiled form.
sys.dont_write_bytecode = True
from building import PROGRAM, ROOT

# Counts the requests, and writes how many there were when the program listens for connections, and
# at the end.
LIBRARY = r"""
#define _GNU_SOURCE
#include <dlfcn.h>
#include <stdio.h>
#include <stdlib.h>

static long asked, first, last;

static void write_count(void)
{
    dprintf(atoi(getenv("REFUSE_COUNTS")), "%ld\n", asked);
}

static int is_refused(void)
{
    asked++;
    return first <= asked && asked <= last;
}

__attribute__((constructor)) static void begin(void)
{
    first = atol(getenv("REFUSE_FIRST"));
    last = atol(getenv("REFUSE_LAST"));
    asked = 0;
}

__attribute__((destructor)) static void end(void)
{
    write_count();
}

int listen(int socket, int waiting)
{
    int (*real)(int, int) = dlsym(RTLD_NEXT, "listen");
    write_count();
    return real(socket, waiting);
}

void *malloc(size_t size)
{
    static void *(*real)(size_t);
    if (!real)
        real = dlsym(RTLD_NEXT, "malloc");
    return is_refused() ? NULL : real(size);
}

void *realloc(void *old, size_t size)
{
    static void *(*real)(void *, size_t);
    if (!real)
        real = dlsym(RTLD_NEXT, "realloc");
    return is_refused() ? NULL : real(old, size);
}
"""

WHOLE = 2**62


def cases():
    """Short texts, and one that makes every container grow, each with the words of its command."""
    checks = {name: (["check"], text) for name, text in texts().items()}
    lists = "list,votes\n" + "".join(f"L{n},100\n" for n in range(60))
    law = "list,votes\nA,168000\nB,104000\nC,72000\nD,64000\nE,40000\nF,32000\n"
    words = ["allot", "--seats", "8", "--threshold", "100", "--awards", "--method"]
    lot = ["--lot", ",".join(f"L{n}" for n in range(60))]
    again = ["recount", "--setup", str(ROOT / "examples/setup.toml"), "--con", "montehondo"]
    returns = (ROOT / "examples/returns.csv").read_text(encoding="utf-8")
    return checks | {
        "seats by divisors": ([*words, "dhondt"], law),
        "seats by quotas": ([*words, "hare"], law),
        "a lot among 60 lists": ([*words, "dhondt", *lot], lists),
        "a lot that is missing": ([*words, "dhondt"], lists),
        "a lot that is not needed": ([*words, "dhondt", "--lot", "A,B"], law),
        "votes of a list twice": ([*words, "dhondt"], law + "A,1\n"),
        "returns counted again": ([*again, "--awards", "--decisive", "--without", "01-001-A"], returns),
        "a station that is not there": ([*again, "--without", "01-001-A,x"], returns),
        "returns of other lists": (again, texts()["a header"]),
    }


def texts():
    """Texts of returns."""
    header = "station,slip,blank,spoiled,A,B\n"
    rows = [f"s{n},p{n},0,0,{n},{2 * n}\n" for n in range(2_000)]
    quoted = [f'"s{n}","p\n{n}",0,0,"{n}",x\r\n' for n in range(100)]
    return {
        "a header": header,
        "one row of each kind": header + "s1,p1,0,0,1,2\ns1,p1,0,0,1,2\ns1,p2,0,0,1,2\ns2,p1,0,0,1,1000001\nx\n",
        "2,000 stations": header + "".join(rows),
        "fields in quotes": header + "".join(quoted),
    }


def library_in(folder):
    """Builds the library in a folder: its path."""
    source = Path(folder) / "refuse.c"
    library = Path(folder) / "refuse.so"
    source.write_text(LIBRARY)
    subprocess.run(["cc", "-O1", "-shared", "-fPIC", "-o", library, source, "-ldl"], check=True)
    return str(library)


class Runs:
    """Runs of a command under the library."""

    def __init__(self, library):
        self.library = library

    def begin(self, command, first, last, folder=None):
        """Begins a run in which these requests are refused: the process, and the file to which it writes how many there were."""
        reader, writer = os.pipe()
        names = {"LD_PRELOAD": self.library, "REFUSE_FIRST": str(first), "REFUSE_LAST": str(last), "REFUSE_COUNTS": str(writer)}
        # Fresh memory by large pages, which else takes most of the time of a run over a database.
        names["GLIBC_TUNABLES"] = "glibc.malloc.top_pad=16777216:glibc.malloc.hugetlb=1"
        pipes = {"stdin": subprocess.PIPE, "stdout": subprocess.PIPE, "stderr": subprocess.PIPE}
        process = subprocess.Popen(command, env=names, pass_fds=[writer], cwd=folder, **pipes)
        os.close(writer)
        return process, os.fdopen(reader)

    def run(self, command, text, first, last, folder=None):
        """Refuses these requests: how many there were, or nothing where the program was killed, and what the run wrote and
        answered."""
        process, written = self.begin(command, first, last, folder)
        output, error = process.communicate(text, timeout=600)
        with written:
            counts = written.read().split()
        if not counts:
            return None, (process.returncode, output, error)
        return int(counts[-1]), (process.returncode, output, error)


class NotPromised(Exception):
    """An outcome of a refusal that is not allowed."""


class Checks:
    """Runs of a command under the library, in which one of every few requests is refused."""

    def __init__(self, program, library, every):
        self.program, self.every = program, every
        self.runs = Runs(library)

    def run(self, case, first, last):
        words, text = case
        return self.runs.run([self.program, *words], text.encode(), first, last)

    def is_done_without(self, case, ample, at, last):
        """Whether a command with this request refused came to the same as with ample memory. It may
        fail out of memory.
        """
        count, answer = self.run(case, at, last)
        if count is None or count < at:
            raise NotPromised(f"request {at} was not made, or the program was killed: {answer}")
        if answer not in (ample, (3, b"", b"failed: memory\n")):
            raise NotPromised(f"with request {at} refused the answer is {answer}")
        return answer == ample

    def refuse_each(self, case):
        """The outcomes of the refusals, in words."""
        asked, ample = self.run(case, WHOLE, WHOLE)
        if ample[0] not in (0, 1) or not asked:
            raise NotPromised(f"with ample memory the answer is {ample}, after {asked} requests")
        places = range(1, asked + 1, self.every)
        alone = sum(self.is_done_without(case, ample, at, at) for at in places)
        with_all = sum(self.is_done_without(case, ample, at, WHOLE) for at in places)
        words = requests_refused(len(places), asked)
        return f"{words}, alone and with all after it; {alone + with_all} times it did without"


def requests_refused(refused, asked):
    """How many requests for memory were refused, in words."""
    return f"each of {asked} requests refused" if refused == asked else f"{refused} of {asked} requests refused"


def each_judged(cases, judge, wrong=NotPromised):
    """Prints what is found of each case, by its name, and what was not as promised: how many passed, and how many failed."""
    failed = 0
    for name, case in cases:
        try:
            print(f"{name}: {judge(case)}", flush=True)
        except wrong as error:
            failed += 1
            print(f"{name}: NOT AS PROMISED: {error}", flush=True)
    return len(cases) - failed, failed


def ended(passed, failed, skipped=0):
    """Prints the last line: the exit status."""
    print(f"{passed} passed, {failed} failed, {skipped} skipped")
    return 1 if failed else 0


def has_no_compiler():
    """Says so where there is no C compiler: the script is then skipped."""
    if shutil.which("cc"):
        return False
    print("skipped: there is no C compiler, as `cc`, for the library that refuses memory")
    return True


def main():
    words = argparse.ArgumentParser(description=__doc__.splitlines()[0])
    words.add_argument("--program", type=Path, default=PROGRAM)
    words.add_argument("--every", type=int, default=1, metavar="N", help="refuse only every Nth request")
    given = words.parse_args()
    if has_no_compiler():
        return ended(0, 0, 1)
    with tempfile.TemporaryDirectory() as folder:
        checks = Checks(given.program.resolve(), library_in(folder), given.every)
        return ended(*each_judged(cases().items(), checks.refuse_each))


if __name__ == "__main__":
    sys.exit(main())
