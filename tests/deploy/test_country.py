"""A country of 52 constituencies."""

import contextlib
import json
import os
import re
import shutil
import sqlite3
import subprocess
import sys
import tempfile
from pathlib import Path

from tests.support import model
from tests.support.case import PROGRAM, ROOT
from tests.support.countries import country
from tests.support.pages import page_of, press, read
from tests.support.running import PATIENCE, slowness, tries, until
from tests.support.site import DEPLOY, SiteCase, plain, ran, serving

# How many stations each of the 52 constituencies has. With 1154 they are a country of 60,000, which
# takes some minutes.
COUNTRY_STATIONS = int(os.environ.get("COUNTRY_STATIONS", 20))
# The limits of the cost of a round of pages to the office, however many stations there are. With
# --every: seconds of a usual processor. Without the returns: the result of one constituency, in
# requests for a return.
ROUND_SECONDS = 1.05
BESIDE_A_RETURN = 10
# The limit of the cost of a round to press.py, also where it writes every page and file.
PAGES_SECONDS = 3


def summed(returns):
    """Per constituency the sums of its returns: blank, spoiled, votes."""
    return {con: [sum(column) for column in zip(*of.values())] for con, of in returns.items()}


def close_all(sums, db="office.db"):
    """Closes every return of an office that was ended. The next opening compares the sums with the
    returns."""
    ran(PROGRAM, "show", "--db", db, "--report", "progress")  # takes the log into the file
    with contextlib.closing(sqlite3.connect(db)) as it, it:
        it.execute("UPDATE returns SET status = 4, rev = 2")
        it.executemany("UPDATE totals SET n = ? WHERE con = ? AND item = ?", [
            (n, con, item) for con, column in sums.items()
            for item, n in zip((0, 61, 1, 2, 3, 4, 5), column)])


def files_of(returns):
    """The returns of each constituency as CSV."""
    return {con: "station,slip,blank,spoiled,A,B,C,D,E\n"
            + "".join(f"{name},p1,{','.join(map(str, row))}\n" for name, row in of.items())
            for con, of in returns.items()}


@contextlib.contextmanager
def without_a_disk():
    """The folder of a test in memory, where that can be: no command then waits for a disk."""
    with contextlib.ExitStack() as held:
        if os.path.isdir("/dev/shm"):
            folder = tempfile.TemporaryDirectory(prefix="office-site-", dir="/dev/shm")
            os.chdir(held.enter_context(folder))
        yield


def spent(process):
    """Seconds that a program of one thread has been on a processor."""
    return int(Path(f"/proc/{process.pid}/schedstat").read_text().split()[0]) / 1e9


def stations_on_pages():
    """The stations that have a row on the pages of stations."""
    names = [name for name in os.listdir("pages") if re.fullmatch(r"stations-.*\.html", name)]
    return [row[0] for name in names
            for row in page_of(name).tables["Returns station by station"][1:]]


def seats_on_pages(folder):
    """The published seats of each list of each constituency."""
    found = {}
    for row in [line.split(",") for line in read("results.csv", folder).splitlines()[1:]]:
        found.setdefault(row[0], {})[row[10]] = int(row[15])
    return found


class Country(SiteCase):
    @contextlib.contextmanager
    def closed_country(self, setup, files, sums, db="office.db"):
        """An office of a country, into which the returns of each constituency were imported from
        its CSV, and closed."""
        with serving(setup, db) as desk:
            for con, text in files.items():
                imported = json.loads(plain(desk.port, "POST", f"/con/{con}/import", text).body)
                self.assertEqual(imported, {"ok": "import", "lodged": text.count("\n") - 1,
                                            "same": 0, "differs": 0, "refused": 0, "bad": 0,
                                            "first": None}, con)
                self.assertEqual(plain(desk.port, "GET", f"/con/{con}/returns").body.decode(), text,
                                 con)
            desk.end()
            close_all(sums, db)
            desk.start()
            yield desk

    def certify_all(self, desk, cons):
        for con in cons:
            self.assertEqual(plain(desk.port, "POST", f"/con/{con}/certify", '{"edition":1}').body,
                             b'{"edition":2,"ok":"edition"}')

    def round_of(self, desk, gets, what, *words):
        """Runs press.py for one round, which takes this number of requests.

        The seconds that the office was on a processor.
        """
        began = spent(desk.process)
        last = press(desk.port, *words)
        took = spent(desk.process) - began
        self.assertIn(f" pages 53 failed 0 GETs {gets} ", last)
        print(f"a round of {52 * COUNTRY_STATIONS} stations, {what}: {took:.2f} s of the office, "
              f"{gets} GETs; {last.split(' in ')[1]} by the clock")
        return took

    def dearest_round(self, desk, folder, name):
        """The most seconds that the office is on a processor in a round of press.py as a service,
        from an empty folder until each constituency has its file of returns."""
        shutil.rmtree(folder, ignore_errors=True)
        os.mkdir(folder)
        began, costs = spent(desk.process), []
        process = subprocess.Popen([sys.executable, DEPLOY / "press.py",
                                    f"http://127.0.0.1:{desk.port}", folder, "--setup",
                                    "setup.toml", "--every", "0.5"], stdout=subprocess.PIPE,
                                   text=True)
        try:
            while len(list(Path(folder).glob(f"stations-*-{name}.csv"))) < 52:
                self.assertIn(" pages 53 failed 0 ", process.stdout.readline())
                costs.append(spent(desk.process) - began - sum(costs))
        finally:
            process.terminate()
            process.wait(timeout=PATIENCE)
            process.stdout.close()
        slow = slowness()
        print(f"rounds of {52 * COUNTRY_STATIONS} stations as a service, {folder}: at most "
              f"{max(costs):.2f} s of the office, {len(costs)} until all is published; "
              f"slowness {slow:.1f}")
        self.assertLess(max(costs), ROUND_SECONDS * slow, (costs, slow))

    def spent_on_rounds(self, port):
        """Seconds that press.py is on a processor until it has read the setup, for the dearest
        round until everything is written, and for one in which nothing changes."""
        shutil.rmtree("fresh", ignore_errors=True)
        process = subprocess.Popen([sys.executable, DEPLOY / "press.py", f"http://127.0.0.1:{port}",
                                    "fresh", "--setup", "setup.toml", "--every", "0.1"],
                                   stdout=subprocess.PIPE, text=True)
        try:
            until(lambda: os.path.exists("fresh/setup.json") or process.poll() is not None)
            ends, gets = [spent(process)], []
            # The last round is the third after which nothing changed.
            while gets.count(1) < 4:
                found = re.search(r" pages 53 failed 0 GETs (\d+) ",
                                  line := process.stdout.readline())
                self.assertTrue(found, (line, gets))
                self.assertLess(len(gets), 600, (line, gets))
                gets.append(int(found[1]))
                ends.append(spent(process))
        finally:
            process.terminate()
            process.wait(timeout=PATIENCE)
            process.stdout.close()
        self.assertEqual(gets[-4:], [1] * 4)
        return ends[0], max(after - before for before, after in zip(ends, ends[1:-4])), (
            ends[-1] - ends[-4]) / 3

    def pages_cost_little(self, port):
        (of_start, of_all, of_none), slow = self.spent_on_rounds(port), slowness()
        print(f"press.py: {of_start:.2f} s of the processor to start, at most {of_all:.2f} s for a "
              "round until everything is written, "
              f"{of_none:.2f} s for one in which nothing changes; slowness {slow:.1f}")
        self.assertLess(max(of_all, of_none), PAGES_SECONDS * slow, f"{of_all} s, {of_none} s")

    def round_beside_returns(self, desk, stations):
        """A round of a certified country, beside requests for a return."""
        took, slow = self.round_of(desk, 1, "certified"), slowness()
        self.assertLess(took, ROUND_SECONDS * slow, slow)
        began = spent(desk.process)
        for name in stations:
            plain(desk.port, "GET", f"/station/{name}")
        of_return = (spent(desk.process) - began) / len(stations)
        print(f"a result {took / 52 * 1e3:.2f} ms, a return {of_return * 1e3:.2f} ms")
        self.assertLess(took, 52 * BESIDE_A_RETURN * of_return, of_return)

    def test_a_country_of_52(self):
        """An office of 52 constituencies, counted and then certified: its pages have the sums of
        the returns and the seats of the rule, and each return, and cost the office little."""
        setup, returns = country(COUNTRY_STATIONS)
        files, sums = files_of(returns), summed(returns)
        with without_a_disk(), self.closed_country(setup, files, sums) as desk:
            # The results, and of the stations of each the table and the returns.
            self.round_of(desk, 1 + 52 * 2, "without a certificate, each return published",
                          "--setup", "setup.toml")
            self.assertEqual({con: read(f"stations-{con}-open.csv") for con in files}, files)
            self.assertEqual(sorted(stations_on_pages()),
                             sorted(name for of in returns.values() for name in of))
            tries(lambda: self.dearest_round(desk, "open", "open"))
            self.certify_all(desk, returns)
            tries(lambda: self.dearest_round(desk, "certified", 2))
            self.assertEqual({con: read(f"stations-{con}-2.csv", "certified") for con in files},
                             files)
            tries(lambda: self.round_beside_returns(desk, list(returns["c1"])[:20] * 5))
            self.look_at_country(returns, sums)
            # With the setup every return is published too: the stations of each, which are those
            # of the setup, the returns, and the edition that they are of.
            self.round_of(desk, 1 + 52 * 3, "certified, each return published", "--setup",
                          "setup.toml")
            self.assertEqual({con: read(f"stations-{con}-2.csv") for con in files}, files)
            tries(lambda: self.pages_cost_little(desk.port))
            self.assertEqual(sorted(stations_on_pages()),
                             sorted(name for of in returns.values() for name in of))
            for name in sorted(os.listdir("pages")):
                if name.endswith(".html"):
                    page_of(name)
            desk.end()
            self.assertEqual(ran(sys.executable, ROOT / "examples/recount.py", "office.db"),
                             "".join(f"{con} agrees\n" for con in returns))

    def test_a_country_from_its_published_returns(self):
        """The published returns of each constituency are imported into a new office, whole, and are
        its returns then; closed and certified it has the same seats. So has a count of the files
        alone."""
        setup, returns = country(COUNTRY_STATIONS)
        sums = summed(returns)
        with without_a_disk():
            with self.closed_country(setup, files_of(returns), sums) as desk:
                self.certify_all(desk, returns)
                press(desk.port, "--setup", "setup.toml")
            published = {con: read(f"stations-{con}-2.csv") for con in returns}
            seats = seats_on_pages("pages")
            self.assertEqual({con: sum(given.values()) for con, given in seats.items()},
                             dict.fromkeys(returns, 7))
            Path("office.db").unlink()
            # The import has what was published, and no return of before.
            with self.closed_country(setup, published, sums, "fresh.db") as desk:
                self.certify_all(desk, returns)
                press(desk.port, "--setup", "setup.toml", folder="fresh")
            self.assertEqual(seats_on_pages("fresh"), seats)
            self.assertEqual({con: read(f"stations-{con}-2.csv", "fresh") for con in returns},
                             published)
            os.mkdir("published")
            for con, text in published.items():
                Path(f"published/{con}.csv").write_text(text, encoding="utf-8")
            said = ran(sys.executable, ROOT / "examples/recount.py", "--setup", "setup.toml",
                       "--returns", "published")
            self.assertEqual(said.splitlines(), [
                " ".join([con, *(f"{code} {many}" for code, many in given.items()),
                          f"({COUNTRY_STATIONS} of {COUNTRY_STATIONS} stations)"])
                for con, given in seats.items()])

    def look_at_country(self, returns, sums):
        """The pages of the country have its sums, and the seats of an allotment in plain Python."""
        self.assertEqual(len(page_of("count.html").tables["Progress of the constituencies"]), 53)
        results = [line.split(",") for line in read("results.csv").splitlines()[1:]]
        self.assertEqual([(row[0], int(row[12])) for row in results],
                         [(con, n) for con in returns for n in sums[con][2:]])
        self.assertEqual(sum(int(row[15]) for row in results), 52 * 7)
        for con in returns:
            blank, spoiled, *votes = sums[con]
            poll = model.Poll({"method": "dhondt", "threshold": 300, "base": "valid"}, 7, votes,
                              blank)
            found = json.loads(read(f"con-{con}.json"))["view"]
            self.assertEqual((found["votes"], found["blank"], found["spoiled"], found["stations"]),
                             (votes, blank, spoiled, COUNTRY_STATIONS))
            self.assertEqual(found["seats"], poll.allotted())
            order = sorted(range(5), key=lambda n: -votes[n])
            self.assertEqual([int(row[1].replace(",", ""))
                              for row in page_of(f"con-{con}.html").tables["Votes of each list"][
                                  1:]], [votes[n] for n in order] + [blank])
            self.assertEqual(
                [row[1] for row in page_of(f"con-{con}.html").tables["Seats of each list"][1:-1]],
                [str(found["seats"][n]) for n in order])
