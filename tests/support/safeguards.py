"""The safeguards of a site: the proxy, the recorder with its setup, and the reader, in a folder."""

import contextlib
import hashlib
import json
import subprocess
import sys
from pathlib import Path

from tests.support import tools
from tests.support.case import Case
from tests.support.office import DOUBLE, LISTS, PROFILE, constituency, station
from tests.support.proxy import STAFF, Proxy
from tests.support.running import PATIENCE, until
from tests.support.site import DEPLOY, plain, serving


# Two entries are needed in the one, and one in the other.
TWO_TOWNS = (
    PROFILE + constituency("c1", "Twin Town", 3, "d0") + DOUBLE + LISTS
    + "".join(station(f"s{n}") for n in range(1, 4))
    + constituency("c2", "Once", 3, "d0") + LISTS + station("t1")
)
SLIP = {"slip": "p1", "votes": [120, 71], "blank": 2, "spoiled": 1}


class Safeguards(Case):
    """A test of safeguards, whose servers may still write into its folder."""

    may_leave_files = True
    prefix = "office-safeguards-"


def run(name, *words, data=b"", status=0):
    """The output and the errors of a script of deploy/, with this status."""
    done = tools.run([DEPLOY / name, *words], input=data, capture_output=True,
                     timeout=PATIENCE)
    said = done.stdout.decode(), done.stderr.decode()
    assert done.returncode == status, (name, words, done.returncode, said)
    return said


class WithSetup(Proxy):
    """The proxy whose recorder knows the setup, as in the units."""

    recorder_words = ()

    def start_recorder(self):
        words = ["--setup", self.folder / "share/setup.json", "--room", "0", *self.recorder_words]
        for desk in self.desks:
            words += ["--desk", f"127.0.0.1:{desk}"]
        with open(self.folder / "log/recorder", "ab") as said:
            self.recorder = subprocess.Popen(
                [sys.executable, DEPLOY / "recorder.py", self.folder / "recorder",
                 self.folder / "log/commands.log", *words],
                stdout=subprocess.DEVNULL, stderr=said)
        head = self.folder / "recorder/head"
        until(lambda: head.exists() or self.recorder.poll() is not None)

    def lines(self):
        """Those of commands and answers, without the first, which has the setup."""
        return [line for line in super().lines() if "setup" not in line]


@contextlib.contextmanager
def site(desk, stations=("s1",), embargo=None):
    """The proxy with sara, who enters slips a second time, and with some stations."""
    front = WithSetup(desk)
    front.configure(STAFF + "sara second;\n")
    for name in stations:
        front.name("stations", name)
    if embargo:
        front.put("embargo.conf", run("embargo", embargo)[0])
    try:
        front.start()
        yield front
    finally:
        front.end()


@contextlib.contextmanager
def office_and_site(setup, **words):
    with serving(setup) as desk, site(desk.port, **words) as front:
        yield desk, front


@contextlib.contextmanager
def started(name, *words):
    """A program of deploy/ that goes on until it is ended, beside the folder of its sockets."""
    with open("said", "ab") as said:
        process = subprocess.Popen([sys.executable, DEPLOY / name, *map(str, words)],
                                   stdout=subprocess.DEVNULL, stderr=said)
    try:
        yield process
    finally:
        process.kill()
        process.wait()


def hash_of_file(file):
    return hashlib.sha256(Path(file).read_bytes()).hexdigest()


def post(desk, target, body):
    """A command to the desk itself, past the recorder: its status."""
    return plain(desk.port, "POST", target, json.dumps(body)).status
