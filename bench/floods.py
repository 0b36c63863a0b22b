#!/usr/bin/env python3
"""Measures how many returns a clerk lodges while others flood the site, with and without passwords.

    bench/floods.py [--program PATH] [--rounds N] [--seconds S] [--only WORD] [--spare]

    bench/floods.py --only second

The office has 60,008 stations in 52 constituencies, and the returns of most of them. A clerk lodges
through the proxy and the recorder, one return after the other with a short pause. What the clerks'
page reads after a lodge is part of its time. In each round
that is measured alone, under a flood, alone again, under the next one, and so on, in one run on
this machine: each flood beside the measures before and after it. All is on the loopback interface
(127.0.0.0/8), and ends by itself: floods last S seconds (at most 30), rounds are at most 5.

The attackers take processors from what they attack. With --spare they take what is left over, as if
they were other computers.

It prints for each flood what the attackers were answered, and of the clerk the lodges, the median
of their times and their share of those alone. The status is 1 where a share is below 0.6, 2 where
the words are wrong or nginx is not there. Python 3.11 or later.
"""

import argparse
import contextlib
import http.client
import json
import os
import socket
import statistics
import subprocess
import sys
import tempfile
import time
from dataclasses import dataclass
from pathlib import Path

# The modules imported from here are not to be left beside it in compiled form.
sys.dont_write_bytecode = True
sys.path.insert(0, str(Path(__file__).resolve().parent.parent))
from tests.support import site
from tests.support.office import constituency, party_list, profile, station
from tests.support.proxy import NGINX
from tests.support.safeguards import WithSetup
from tests.support.scripts import PROGRAMS

CONS, STATIONS, LODGED, LISTS = 52, 1154, 1054, 10
# The pause of a clerk between two returns, and the share of lodges that a flood has to leave.
PAUSE, WANTED = 0.05, 0.6
STAFF = "clara clerk;\nbruno clerk;\nberta board;\nsara second;\n"


def code(con, number):
    return f"k{con:02}-{number:04}"


def setup():
    lists = "".join(party_list(f"L{n}", f"List {n}", f"First of {n}") for n in range(LISTS))
    return profile("d0") + "".join(
        constituency(f"c{con}", f"Town {con}", 7, "d0") + lists
        + "".join(station(code(con, n), 1000) for n in range(1, STATIONS + 1))
        for con in range(1, CONS + 1)
    )


def rows(con):
    """The returns of most stations of a constituency."""
    head = "station,slip,blank,spoiled," + ",".join(f"L{n}" for n in range(LISTS))
    lines = [f"{code(con, n)},p{n},1,1," + ",".join(str(n % 20 + k) for k in range(LISTS))
             for n in range(1, LODGED + 1)]
    return "\n".join([head, *lines]) + "\n"


def megabyte(con):
    """The largest file of returns: the same rows again and again."""
    head, *lines = rows(con).splitlines(keepends=True)
    text = head + "".join(lines * 20)
    return text[:text.rindex("\n", 0, 1_048_576) + 1]


@dataclass
class Flood:
    """Who asks for what: under which name, from how many addresses, how many of them at once; `#`
    in the target or the body is another number each time, from 1 to `every`. It lasts this many
    seconds at least: where each request holds the office for some, shorter ones see only one."""

    name: str
    target: str
    addresses: int
    at_once: int
    password_of: str = ""
    every: int = CONS
    method: str = "GET"
    body: str = ""
    password: str | None = None
    processes: int = 2
    seconds: int = 0


OWN = code(1, 1)
# A station with a long history of large lines: a second's refused commands.
LONG, REFUSED = code(2, 1), 200
NEVER = 10**9
FLOODS = (
    Flood("a station, past the cache, 1 address", "/now/con/c#/returns", 1, 3, OWN),
    Flood("a station, past the cache, 10 addresses", "/now/con/c#/returns", 10, 10, OWN),
    Flood("a station, past the cache, 40 addresses", "/now/con/c#/stations", 40, 20, OWN),
    Flood("a station, kept tables, 40 addresses", "/con/c#/returns", 40, 20, OWN),
    Flood("a station, its own return, 10 addresses", f"/now/station/{OWN}", 10, 10, OWN),
    Flood("a station, results past the cache, 40 addresses", "/now/results", 40, 80, OWN),
    Flood("a station, one result past the cache, 40 addresses", "/now/con/c#/result", 40, 80, OWN),
    Flood("a station, its own return, 40 addresses", f"/now/station/{OWN}", 40, 80, OWN),
    Flood("a station, stations that are not there", "/now/station/x#", 10, 10, OWN, NEVER),
    Flood("a station that lodges without end", f"/station/{OWN}/lodge", 10, 10, OWN,
          method="POST", body='{"slip":"#","votes":[],"blank":0,"spoiled":0}'),
    Flood("a station that lodges without end, 40 addresses", f"/station/{OWN}/lodge", 40, 80, OWN,
          method="POST", body='{"slip":"#","votes":[],"blank":0,"spoiled":0}'),
    Flood("a second, stations, 10 addresses", "/now/con/c#/stations", 10, 10, "sara"),
    Flood("a second, results past the cache, 40 addresses", "/now/results", 40, 80, "sara"),
    Flood("a second, one result past the cache, 40 addresses", "/now/con/c#/result", 40, 80,
          "sara"),
    Flood("a second, who did what", f"/now/station/{OWN}/history", 10, 10, "sara"),
    Flood("a second, who did what, 40 addresses", f"/now/station/{OWN}/history", 40, 80, "sara"),
    Flood("a second, a long history of large lines", f"/now/station/{LONG}/history", 1, 90, "sara"),
    Flood("a clerk's password, returns, 10 addresses", "/now/con/c#/returns", 10, 10, "bruno"),
    Flood("a clerk's password, views, 10 addresses", "/now/con/c#", 10, 10, "bruno"),
    Flood("a clerk's password, results past the cache, 40 addresses", "/now/results", 40, 80,
          "bruno"),
    Flood("a clerk's password, kept tables, 40 addresses", "/con/c#/returns", 40, 80, "bruno"),
    Flood("a clerk's password, views, 40 addresses", "/now/con/c#", 40, 80, "bruno"),
    Flood("a clerk's password, trials", "/con/c1/trial", 10, 4, "bruno", method="POST",
          body=rows(1)),
    Flood("a clerk's password, imports", "/con/c2/import", 10, 10, "bruno", method="POST",
          body=rows(2)),
    Flood("a clerk's password, trials of a megabyte", "/con/c3/trial", 10, 4, "bruno",
          method="POST", body=megabyte(3), seconds=30),
    Flood("a clerk's password, lodges", f"/station/{OWN}/lodge", 10, 10, "bruno", method="POST",
          body=json.dumps({"slip": "p2", "votes": [1] * LISTS, "blank": 1, "spoiled": 0})),
    Flood("a clerk's password, lodges, 40 addresses", f"/station/{OWN}/lodge", 40, 80, "bruno",
          method="POST",
          body=json.dumps({"slip": "p2", "votes": [1] * LISTS, "blank": 1, "spoiled": 0})),
    Flood("strangers, tables, 30 addresses", "/con/c#/quotients", 30, 15),
    Flood("strangers, views and their totals", "/con/c#", 30, 15),
    Flood("strangers, the country", "/country", 30, 15),
    Flood("strangers, constituencies in capitals", "/con/C#/tally", 30, 15),
    Flood("strangers, constituencies that are not there", "/con/y#/tally", 6, 12, every=NEVER),
    Flood("strangers, returns that they may not see", "/con/c#/returns", 30, 15),
    Flood("90 readers of setup.json at one address", "/setup.json", 1, 90, processes=1),
    Flood("unknown names, 4 addresses", "/now/progress", 4, 20, "x-unknown-9", password="guess"),
    Flood("wrong passwords of a clerk", "/station/k01-0001/lodge", 6, 12, "clara", method="POST",
          password="guess"),
    Flood("bodies on GET", "/progress", 6, 12, body="x" * 2000),
    Flood("silent connections", "", 4, 300),
    Flood("heads that never end", "GET /progress HTTP/1.1\r\nX: ", 4, 300),
)


# ---- a clerk


class Clerk:
    """Somebody who lodges one return after the other, and whose page reads what the office has."""

    def __init__(self, front):
        self.front, self.body = front, json.dumps(
            {"slip": "p1", "votes": [3] * LISTS, "blank": 1, "spoiled": 0})
        self.head = {"Authorization": front.authorization("clara")}
        self.left = iter([code(con, n) for n in range(LODGED + 1, STATIONS + 1)
                          for con in range(1, CONS + 1)])
        self.connection = None

    def ask(self, method, target, body=None):
        if self.connection is None:
            self.connection = http.client.HTTPConnection(site.NAME, timeout=120)
            self.connection.sock = self.front.connect("127.0.0.62")
        self.connection.request(method, target, body, self.head)
        answer = self.connection.getresponse()
        text = answer.read()
        if answer.will_close:
            self.connection.close()
            self.connection = None
        if answer.status != 200:
            sys.exit(f"{method} {target} was answered {answer.status} {text[:200]}")
        return text

    def lodge(self):
        station = next(self.left)
        text = self.ask("POST", f"/station/{station}/lodge", self.body)
        if text != b'{"ok":"lodged","rev":1}':
            sys.exit(f"a lodge was answered {text[:200]}")
        self.ask("GET", f"/now/con/c{int(station[1:3])}/result")
        self.ask("GET", f"/now/station/{station}")

    def lodges(self, seconds):
        """The seconds that each lodge took in this time, and how many they are. One that was begun is
        waited for. A connection that nobody used for long is closed, so that this has its own."""
        if self.connection:
            self.connection.close()
        self.connection = None
        end, took = time.monotonic() + seconds, []
        while time.monotonic() < end:
            began = time.monotonic()
            self.lodge()
            took.append(time.monotonic() - began)
            time.sleep(PAUSE)
        # A lodge that took long leaves no time for others: the rate is what counts.
        return took, len(took) / (time.monotonic() - end + seconds) * seconds


# ---- attackers


def attackers(front, flood, seconds, spare):
    """The processes of a flood; their addresses are nobody else's."""
    addresses = [f"127.{55 + n % 40}.{n // 40}.1" for n in range(flood.addresses)]
    head = f"{flood.method} {flood.target} HTTP/1.1\r\n"
    if flood.password_of:
        words = front.authorization(flood.password_of, flood.password)
        head += f"Authorization: {words}\r\n"
    found = []
    for place in range(flood.processes):
        at = addresses[place::flood.processes] or addresses
        sources = (at * flood.at_once)[:max(flood.at_once // flood.processes, len(at))]
        each = max(1, flood.at_once // flood.processes)
        request = {"head": head, "body": flood.body, "every": flood.every}
        asked = json.dumps([request, sources, each])
        command = [sys.executable, PROGRAMS / "attacker.py", str(front.port),
                   str(front.folder / "office/certificate.pem"), str(seconds), "-"]
        found.append(subprocess.Popen((["nice", "-n", "19"] if spare else []) + command,
                                      stdin=subprocess.PIPE, stdout=subprocess.PIPE, text=True))
        found[-1].stdin.write(asked)
        found[-1].stdin.close()
    return found


@contextlib.contextmanager
def held(front, flood):
    """Connections over which nothing comes, or a head that goes on."""
    connections = []
    try:
        for n in range(flood.at_once):
            address = (f"127.{55 + n % flood.addresses}.0.1", 0)
            with contextlib.suppress(OSError):
                there = socket.create_connection(("127.0.0.1", front.port), 10, address)
                connections.append(there)
                if flood.target:
                    connections[-1] = front.tls.wrap_socket(there, server_hostname=site.NAME)
                    connections[-1].sendall(flood.target.encode())
        yield connections
    finally:
        for connection in connections:
            connection.close()


def among(front, clerk, flood, seconds, spare):
    """The returns that the clerk lodged under a flood, and the answers to the attackers."""
    if flood.at_once == 300:
        with held(front, flood) as connections:
            return *clerk.lodges(seconds), {"connections": len(connections)}
    began = attackers(front, flood, seconds + 1, spare)
    time.sleep(0.7)
    took, rate = clerk.lodges(seconds)
    answered = {}
    for process in began:
        for status, many in json.loads(process.stdout.read())[0].items():
            answered[status] = answered.get(status, 0) + many
        process.wait()
    return took, rate, answered


# ---- the whole


@contextlib.contextmanager
def office():
    """The office of 60,008 stations, and its proxy."""
    with site.serving(setup()) as desk:
        front = WithSetup(desk.port)
        front.configure()
        front.put("staff.conf", STAFF)
        for name in ("clara", "bruno", "sara"):
            front.name("staff", name)
        front.name("stations", OWN)
        for con in range(1, CONS + 1):
            found = site.plain(desk.port, "POST", f"/con/c{con}/import", rows(con))
            if found.status != 200:
                sys.exit(f"an import was answered {found.status} {found.body[:200]}")
        try:
            front.start()
            yield front
        finally:
            front.end()


def refused_at_length(front):
    """Puts a second's refused commands, as large as the proxy lets them be, into a history."""
    for n in range(REFUSED):
        found = front.ask("POST", f"/station/{LONG}/query", '"' * 16_384, "sara",
                          source=f"127.0.1.{n % 20 + 1}")
        if found.status not in (400, 409):
            sys.exit(f"a query of quotation marks was answered {found.status} {found.body[:200]}")


def measure(front, given):
    """The shares of each flood, by its name."""
    clerk, shares = Clerk(front), {}
    floods = [flood for flood in FLOODS if given.only in flood.name]
    if any(LONG in flood.target for flood in floods):
        refused_at_length(front)
    clerk.lodges(1)
    for _ in range(given.rounds):
        _, before = clerk.lodges(given.seconds)
        for flood in floods:
            seconds = max(given.seconds, flood.seconds)
            took, rate, answered = among(front, clerk, flood, seconds, given.spare)
            rate *= given.seconds / seconds
            time.sleep(1)
            _, after = clerk.lodges(given.seconds)
            share = rate / statistics.mean((before, after))
            shares.setdefault(flood.name, []).append(share)
            print(f"{flood.name:45} lodges {rate:4.0f} beside {before:4.0f} and {after:4.0f}, "
                  f"p50 {statistics.median(took) * 1000:5.0f} ms, share {share:.2f}; "
                  f"attackers {answered}", flush=True)
            before = after
    return shares


def main():
    command = argparse.ArgumentParser(
        description=__doc__, formatter_class=argparse.RawDescriptionHelpFormatter)
    command.add_argument("--program", type=Path, default=site.PROGRAM)
    command.add_argument("--rounds", type=int, default=1, choices=range(1, 6), metavar="N")
    command.add_argument("--seconds", type=int, default=6, choices=range(1, 31), metavar="S")
    command.add_argument("--only", default="", metavar="WORD", help="floods whose name has it")
    command.add_argument("--spare", action="store_true", help="attackers take what is left over")
    given = command.parse_args()
    if not NGINX:
        command.error("nginx is not there")
    if not any(given.only in flood.name for flood in FLOODS):
        command.error(f"no flood has {given.only!r} in its name")
    site.PROGRAM = given.program.resolve()
    with tempfile.TemporaryDirectory(prefix="office-floods-") as folder:
        os.chdir(folder)
        with office() as front:
            shares = measure(front, given)
        os.chdir("/")
    least = {name: statistics.median(found) for name, found in shares.items()}
    below = {name: share for name, share in least.items() if share < WANTED}
    for name, share in below.items():
        print(f"below {WANTED}: {name}, {share:.2f}")
    print(f"{len(least)} floods, the least share {min(least.values()):.2f}")
    return 1 if below else 0


if __name__ == "__main__":
    sys.exit(main())
