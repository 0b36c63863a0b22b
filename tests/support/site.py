"""An office as tests run it, with the examples, and what is asked of it without a proxy."""

import collections
import contextlib
import http.server
import json
import re
import resource
import signal
import sqlite3
import subprocess
import unittest
from pathlib import Path

from tests.support import tools
from tests.support.case import PROGRAM, ROOT, Case
from tests.support.office import TABLES, with_stations
from tests.support.running import PATIENCE, free_port

DEPLOY = ROOT / "deploy"
NAME = "office.example"
EXAMPLES = (ROOT / "examples/setup.toml").read_text(encoding="utf-8")
# The stations of the example, of which the first file of returns lacks two.
STATIONS = re.findall(r'constituency\.station\]\]\ncode = "(.*)"', EXAMPLES)
LATE = {"04-001-B": {"slip": "r213", "votes": [73, 68, 31, 14, 3], "blank": 2, "spoiled": 1},
        "04-002-A": {"slip": "r214", "votes": [40, 40, 20, 0, 0], "blank": 0, "spoiled": 0}}


class SiteCase(Case):
    """A test of a site, with the program: what a server still writes may be left in its folder."""

    of_the_program = True
    may_leave_files = True
    prefix = "office-site-"


def same(found, wanted):
    """Says what is wanted, where no test is at hand to say it."""
    unittest.TestCase().assertEqual(found, wanted)


def ran(*words, status=0):
    done = tools.run(words, capture_output=True, text=True, timeout=PATIENCE)
    assert done.returncode == status, (f"{words}: status {done.returncode}, "
                                       f"{done.stdout}{done.stderr}")
    return done.stdout + done.stderr


def printed(*words):
    """The output of a program, without its standard error."""
    return tools.run(words, capture_output=True, text=True, timeout=PATIENCE,
                     check=True).stdout


def new(setup, db="office.db"):
    Path("setup.toml").write_text(setup, encoding="utf-8")
    ran(PROGRAM, "new", "--db", db, "--setup", "setup.toml")
    return db


class Office:
    """The program, serving a database on a port."""

    def __init__(self, db, port):
        self.db, self.port, self.process = db, port, None

    def start(self):
        self.process = subprocess.Popen(
            [PROGRAM, "serve", "--db", self.db, "--port", str(self.port), "--count", "1000000"],
            stdout=subprocess.DEVNULL, stderr=subprocess.PIPE, text=True)
        said = self.process.stderr.readline()
        assert said.startswith("listening on "), said

    def end(self, number=signal.SIGTERM):
        if self.process:
            self.process.send_signal(number)
            self.process.wait(timeout=PATIENCE)
            self.process.stderr.close()
            self.process = None


@contextlib.contextmanager
def serving(setup, db="office.db"):
    it = Office(new(setup, db), free_port())
    try:
        it.start()
        yield it
    finally:
        it.end()


def rows(db="office.db"):
    """All rows of the office's tables, in any order, of a database that no program has open."""
    with contextlib.closing(sqlite3.connect(db)) as it:
        return {table: sorted(it.execute(f"SELECT * FROM {table}")) for table in TABLES}


Answer = collections.namedtuple("Answer", "status body head")


def plain(port, method, target, body=None):
    """An answer of the desk itself."""
    connection = http.client.HTTPConnection("127.0.0.1", port, timeout=PATIENCE)
    with contextlib.closing(connection):
        connection.request(method, target, body)
        answer = connection.getresponse()
        return Answer(answer.status, answer.read(), answer.headers)


def backup(*words, largest=resource.RLIM_INFINITY):
    """Runs the script, with a limit of bytes that a file may have."""
    done = subprocess.run(
        [DEPLOY / "backup", *words], capture_output=True, text=True, timeout=PATIENCE,
        preexec_fn=lambda: resource.setrlimit(resource.RLIMIT_FSIZE, (largest, largest)))
    return done.returncode, done.stdout, done.stderr


def readme_election(desk):
    """README's first election, by requests to the desk itself."""
    def ask(target, body, *_):
        same(plain(desk.port, "POST", target, body).status, 200)

    ask("/con/montehondo/import", (ROOT / "examples/returns.csv").read_bytes())
    for station, lodged in LATE.items():
        ask(f"/station/{station}/lodge", json.dumps(lodged))
    for station in STATIONS:
        ask(f"/station/{station}/close", '{"rev":1}')
    ask("/con/montehondo/certify", '{"edition":1}')


BOTH = EXAMPLES + "\n" + with_stations(1).replace('"d0"', '"d1"')
