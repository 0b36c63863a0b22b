"""Loads that strangers put on the site of a country, while clerks lodge."""

import contextlib
import itertools
import json
import os
import statistics
import subprocess
import sys
import tempfile
import time
from pathlib import Path

from tests.support.case import needs
from tests.support.office import constituency, party_list, profile, station
from tests.support.proxy import proxy
from tests.support.record import LODGED
from tests.support.running import PATIENCE, tries
from tests.support.scripts import PROGRAMS
from tests.support.site import SiteCase

CLIENT = PROGRAMS / "attacker.py"


def clients(front, head, sources, threads, seconds, body="", name=None, password=None):
    """Starts a process that asks again and again over kept connections.

    There is one connection from each of these addresses, and `threads` ask at once. `#` in the
    request is another number each time.
    """
    if name:
        head += f"Authorization: {front.authorization(name, password)}\r\n"
    asked = json.dumps([{"head": head, "body": body}, sources, threads])
    return subprocess.Popen([sys.executable, CLIENT, str(front.port),
                             str(front.folder / "office/certificate.pem"), str(seconds), asked],
                            stdout=subprocess.PIPE, text=True)


def said(client):
    """How many answers of each status, and how long each took."""
    statuses, took = json.loads(client.communicate(timeout=PATIENCE)[0])
    return {int(status): count for status, count in statuses.items()}, took


# How long each load lasts.
SECONDS = 3
# In place of the office something that answers at once, so that a flood is the proxy's and the
# recorder's to bear.
QUICK = PROGRAMS / "quick_desk.py"


# The stations of each constituency of a country, 60,008 together.
STATIONS = [[f"p{n:02}-{k:04}-A" for k in range(1154)] for n in range(52)]


@contextlib.contextmanager
def a_country():
    """The proxy and the pages of a country of 60,008 stations, before something that answers at
    once."""
    setup = profile("d0") + "".join(
        constituency(f"c{n}", "Twin Town", 3, "d0") + party_list("A", "Alpha", "Ana")
        + "".join(station(code, 1000) for code in codes) for n, codes in enumerate(STATIONS))
    desk = subprocess.Popen([sys.executable, QUICK], stdout=subprocess.PIPE, text=True)
    try:
        with proxy(int(desk.stdout.readline())) as front:
            Path("names.toml").write_text(setup, encoding="utf-8")
            front.publish_setup("names.toml")
            yield front
    finally:
        desk.kill()
        desk.wait()


# The loads take all processors, and what clerks lodge meanwhile is compared with what they lodge
# before and afterwards.
ALONE = True


class Floods(SiteCase):
    front = None

    def country(self):
        """The country, of which no test changes what others look at: made by the first that needs
        it, in a folder of its own, in which the test goes on."""
        if not self.front:
            held = contextlib.ExitStack()
            self.addClassCleanup(held.close)
            os.chdir(held.enter_context(
                tempfile.TemporaryDirectory(prefix=self.prefix, ignore_cleanup_errors=True)))
            type(self).front = held.enter_context(a_country())
        os.chdir(self.front.folder.parent)
        return self.front

    def lodging(self, front, first, seconds):
        """Four clerks lodge as fast as they may; how many a second, and how long a lodge took: half
        of them, and 99 of 100."""
        body = json.dumps(LODGED)
        sources = [f"127.0.2{first}.{n}" for n in range(1, 41)]
        statuses, took = said(clients(front, f"POST /station/s{first}#/lodge HTTP/1.1\r\n", sources,
                                      4, seconds, body, "clara"))
        self.assertEqual(set(statuses), {200})
        return len(took) / seconds, statistics.median(took), statistics.quantiles(took, n=100)[98]

    def keeps_a_quarter(self, front, name, attack, first=1):
        """Whether clerks who lodge keep a quarter of their rate while this runs, and as good as all
        of it on a machine that is not busy: what the attackers were answered, and how many seconds
        it took at most. The clerks' addresses have three numbers from `first` on."""
        alone = self.lodging(front, first, SECONDS)
        began = time.monotonic()
        attackers = attack()
        time.sleep(0.5)
        among = self.lodging(front, first + 1, SECONDS)
        attacked = [said(attacker) for attacker in attackers]
        took = time.monotonic() - began
        after = self.lodging(front, first + 2, SECONDS)
        answered = {status: sum(statuses.get(status, 0) for statuses, _ in attacked)
                    for status in {s for statuses, _ in attacked for s in statuses}}
        for when, (rate, half, most) in (("alone", alone), ("under attack", among),
                                         ("after it", after)):
            print(f"{name}: lodges {when} {rate:.0f} a second, p50 {half * 1000:.1f} ms, p99 "
                  f"{most * 1000:.1f} ms")
        print(f"{name}: attackers were answered {answered}", flush=True)
        self.assertGreaterEqual(among[0], min(alone[0], after[0]) / 4,
                                f"{among[0]:.0f} lodges a second, and without the attack "
                                f"{alone[0]:.0f} and {after[0]:.0f}")
        return answered, took

    @needs("nginx", "openssl")
    def test_ninety_readers_of_the_setup_from_one_address(self):
        """The largest file, over and over, from one address: it is compressed once, and the address
        is limited."""
        front = self.country()
        head, numbers = "GET /setup.json HTTP/1.1\r\nAccept-Encoding: gzip\r\n", iter((1, 4, 7))

        def attacked():
            first = next(numbers)
            answered, took = self.keeps_a_quarter(
                front, "90 readers of setup.json",
                lambda: [clients(front, head, [f"127.9.9.{first}"] * 90, 90, SECONDS + 2)],
                first)
            # 200 at once and 50 a second, where the machine let them ask that often.
            asked = sum(answered.values())
            self.assertLessEqual(min(200, asked), answered[200], (answered, took))
            self.assertLessEqual(answered[200], 200 + 50 * took, (answered, took))

        tries(attacked)
        found = front.ask("GET", "/setup.json", headers={"Accept-Encoding": "gzip"},
                          source="127.9.9.8")
        self.assertEqual((found.status, found.head["Content-Encoding"], found.head["Vary"],
                          found.body),
                         (200, "gzip", "Accept-Encoding",
                          (front.folder / "share/setup.json.gz").read_bytes()))

    @needs("nginx", "openssl")
    def test_unknown_names_from_four_addresses(self):
        """Each guess costs one look for a file, not a search among 60,000 passwords."""
        front = self.country()
        name = STATIONS[34][764]
        front.name("stations", name)
        # What counts is how many there are: all others are links to this one.
        folder = front.folder / "office/stations"
        for code in itertools.chain(*STATIONS):
            if code != name:
                os.link(folder / name, folder / code)
        self.assertEqual(len(os.listdir(folder)), 60_008)
        self.assertEqual([front.ask("GET", "/now/progress", name=name, password=words).status
                          for words in (front.passwords[name], "other")], [200, 401])
        sources, numbers = [f"127.9.8.{n}" for n in range(1, 5)], iter((11, 14, 17))
        tries(lambda: self.keeps_a_quarter(
            front, "unknown names on /now",
            lambda: [clients(front, "GET /now/progress HTTP/1.1\r\n", sources * 5, 20,
                             SECONDS + 2, name="x-unknown-9", password="guess")],
            next(numbers)))
