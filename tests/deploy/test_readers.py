"""Many readers at once, and an office that ends behind the proxy, or is killed."""

import collections
import contextlib
import http.server
import itertools
import json
import shutil
import signal
import statistics
import subprocess
import sys
import threading
import time

from tests.support.case import ROOT, needs
from tests.support.desks import answer_of, answering_desk, desk_with, recording_desk
from tests.support.office import with_stations
from tests.support.proxy import office_and_proxy, proxy
from tests.support.record import LODGED, recorded_200
from tests.support.running import PATIENCE, tries, until
from tests.support.scripts import PROGRAMS
from tests.support.site import NAME, SiteCase, ran, rows

READER = PROGRAMS / "reader.py"


def readers(front, clients=50, asks=400, processes=2):
    """Starts clients in processes of their own: each asks `asks` times, or until told to end."""
    each = clients // processes
    return [subprocess.Popen([sys.executable, READER, str(front.port),
                              str(front.folder / "office/certificate.pem"),
                              str(n * each), str(each), str(asks)], stdin=subprocess.PIPE,
                             stdout=subprocess.PIPE, text=True) for n in range(processes)]


def of_hundred(took, place):
    """How long 50 or 99 of 100 took at most, in milliseconds."""
    return statistics.quantiles(took, n=100)[place - 1] * 1000


# How much longer 99 of 100 lodges may take among many readers than the same lodges alone, or than
# ten usual ones: the readers are on this machine too, and take its processors from the proxy.
SLOWER = 10


class Readers(SiteCase):
    def lodges(self, front, stations):
        """Lodges for each station in turn, from twenty addresses over connections that are kept;
        how long each took."""
        took, connections = [], {}
        with contextlib.ExitStack() as held:
            for n in stations:
                if n % 20 not in connections:
                    connection = http.client.HTTPConnection(NAME, front.port, timeout=PATIENCE)
                    connections[n % 20] = held.enter_context(contextlib.closing(connection))
                    connections[n % 20].sock = front.connect(f"127.0.6.{n % 20 + 1}")
                body = json.dumps({"slip": f"p{n}", "votes": [n % 100, 1], "blank": 0,
                                   "spoiled": 0})
                began = time.monotonic()
                connections[n % 20].request("POST", f"/station/s{n}/lodge", body,
                                            {"Authorization": front.authorization("clara")})
                answer = connections[n % 20].getresponse()
                self.assertEqual((answer.status, answer.read()), (200, b'{"ok":"lodged","rev":1}'))
                took.append(time.monotonic() - began)
        return took

    @needs("nginx", "openssl")
    def test_many_readers_and_lodges(self):
        """Fifty readers read from before the first lodge until after the last."""
        with office_and_proxy(with_stations(1200)) as (_, front):
            stations = iter(range(1, 1201))
            tries(lambda: self.lodges_among_readers(front, stations))
            found = front.ask("GET", "/now/progress", name="clara").body.split()
            left = len(list(stations))
            self.assertEqual(found[1:4], [b"1200", b"%d" % left, b"%d" % (1200 - left)])

    def lodges_among_readers(self, front, stations):
        alone = self.lodges(front, itertools.islice(stations, 200))
        started = readers(front, asks=0)
        time.sleep(1)
        among = self.lodges(front, itertools.islice(stations, 200))
        self.assertEqual([one.poll() for one in started], [None, None])
        said = [one.communicate(timeout=PATIENCE)[0].split(maxsplit=3) for one in started]
        self.assertEqual([(int(failed), rest) for _, failed, _, rest in said], [(0, "[]\n")] * 2)
        rate = sum(int(asked) / float(seconds) for asked, _, seconds, _ in said)
        print(f"readers: {rate:.0f} tables a second; lodges alone p50 {of_hundred(alone, 50):.1f} "
              f"ms, p99 {of_hundred(alone, 99):.1f}; "
              f"among readers p50 {of_hundred(among, 50):.1f} ms, p99 {of_hundred(among, 99):.1f}")
        bound = SLOWER * max(of_hundred(alone, 99), 10 * of_hundred(alone, 50))
        self.assertLessEqual(of_hundred(among, 99), bound,
                             f"{of_hundred(among, 99)} ms, and at most {bound}")

    @needs("nginx", "openssl")
    def test_the_desk_is_asked_once_a_second_for_a_table(self):
        with recording_desk(b"TALLY c1 Twin Town\n", wait=0.2) as (port, messages), proxy(
            port) as front:
            began = time.monotonic()
            started = readers(front, clients=50, asks=250)
            said = [one.communicate(timeout=PATIENCE)[0].split(maxsplit=3) for one in started]
            self.assertEqual([int(failed) for _, failed, *_ in said], [0, 0])
            took = time.monotonic() - began
            self.assertLessEqual(1, len(messages), f"{len(messages)} in {took} s")
            self.assertLessEqual(len(messages), took + 2, f"{len(messages)} in {took} s")

    @needs("nginx", "openssl")
    def test_the_desk_is_asked_once_a_second_for_what_it_refuses(self):
        """No certificate yet, no such constituency, an office that was shut: of forty readers at
        once the desk hears one."""
        refusals = {"/con/c1/seats": 409, "/con/c1": 404, "/progress": 503}
        slow = {target: lambda status=status: time.sleep(0.2) or (status, "{}")
                for target, status in refusals.items()}
        with answering_desk(slow) as (port, asked), proxy(port) as front:
            for target, status in refusals.items():
                with self.subTest(target=target, status=status):
                    began, answers = time.monotonic(), []
                    threads = [threading.Thread(target=lambda: answers.append(
                        front.ask("GET", target))) for _ in range(40)]
                    for thread in threads:
                        thread.start()
                    for thread in threads:
                        thread.join(timeout=PATIENCE)
                    took = time.monotonic() - began
                    self.assertEqual([(one.status, one.body) for one in answers],
                                     [(status, b"{}")] * 40)
                    self.assertTrue(1 <= asked.count(target) <= took + 2,
                                    f"{target}: {asked.count(target)} in {took} s")

    @needs("nginx", "openssl")
    def test_a_table_that_takes_long(self):
        """Thirty readers ask for a table that the desk takes seven seconds for: it is asked once,
        and each gets the answer."""
        with recording_desk(b"TALLY c1 Twin Town\n", wait=7) as (port, messages), proxy(
            port) as front:
            def read():
                messages.clear()
                started = readers(front, clients=30, asks=1)
                said = [one.communicate(timeout=PATIENCE)[0].split(maxsplit=3) for one in started]
                self.assertEqual([words[:2] for words in said], [["15", "0"]] * 2)
                # (a reader that comes when the answer is kept no more asks the desk again)
                self.assertEqual(len(messages), 1)

            tries(read)

    @needs("nginx", "openssl")
    def test_an_office_that_is_killed_behind_the_proxy(self):
        """It is killed with -9 while two clients lodge, and started again: they wait, and what was
        answered is there."""
        with office_and_proxy(with_stations(120)) as (desk, front):
            answered, statuses = set(), collections.Counter()

            def lodge(stations, source):
                for n in stations:
                    body = {"slip": f"p{n}", "votes": [n, 1], "blank": 0, "spoiled": 0}
                    while (found := front.ask("POST", f"/station/s{n}/lodge", body, "clara",
                                              source=source)).status != 200:
                        statuses[found.status] += 1
                        time.sleep(0.2)
                    answered.add((n, json.loads(found.body)["rev"]))

            threads = [threading.Thread(target=lodge,
                                        args=(range(1 + half, 121, 2), f"127.0.7.{half + 1}"))
                       for half in (0, 1)]
            for thread in threads:
                thread.start()
            until(lambda: len(answered) > 30)
            desk.end(signal.SIGKILL)
            time.sleep(1)
            desk.start()
            for thread in threads:
                thread.join(timeout=PATIENCE)
            self.assertEqual((answered, set(statuses)), ({(n, 1) for n in range(1, 121)}, set()))
            self.assertEqual(front.ask("GET", "/progress").body.split()[1:4],
                             [b"120", b"0", b"120"])
            desk.end()
            found = dict(row[:2] for row in rows()["returns"])
            self.assertEqual(len(found), 120)
            self.assertEqual(ran(sys.executable, ROOT / "examples/recount.py", "office.db"),
                             "c1 agrees\n")

    @needs("nginx", "openssl")
    def test_a_desk_that_starts_again(self):
        """It has served its count, or was killed: who asks meanwhile waits, and nobody is
        refused."""
        with office_and_proxy(with_stations(4000)) as (desk, front):
            answers, stop = [], threading.Event()

            def ask(method, name, source):
                n = 0
                while not stop.is_set():
                    n += 1
                    target = "/con/c1/tally" if name is None else "/now/progress"
                    target = f"/station/s{n}/lodge" if method == "POST" else target
                    answers.append((method,
                                    front.ask(method, target, LODGED if method == "POST" else None,
                                              name, source=source).status))

            threads = [threading.Thread(target=ask, args=words)
                       for words in (("POST", "clara", "127.0.9.1"), ("GET", None, "127.0.9.2"),
                                     ("GET", "berta", "127.0.9.3"))]
            for thread in threads:
                thread.start()
            for number in (signal.SIGTERM, signal.SIGKILL, signal.SIGTERM):
                with self.subTest(number=number):
                    before = len(answers)
                    until(lambda: len(answers) > before + 20)
                    desk.end(number)
                    time.sleep(1.5)
                    desk.start()
            before = len(answers)
            until(lambda: len(answers) > before + 20)
            stop.set()
            for thread in threads:
                thread.join(timeout=PATIENCE)
            self.assertEqual({(method, status) for method, status in answers},
                             {("POST", 200), ("GET", 200)})
            lodged = sum(method == "POST" for method, _ in answers)
            self.assertEqual(front.ask("GET", "/now/progress", name="clara").body.split()[3],
                             b"%d" % lodged)
            self.assertEqual(len(recorded_200(front)), lodged)

    @needs("nginx", "openssl")
    def test_a_desk_that_ends_in_the_middle(self):
        """A command whose desk ended without an answer is sent once more: nothing is done twice,
        and a refusal then says nothing."""
        for second, status, recorded in ((answer_of('{"ok":"same","rev":1}'), 200, 200),
                                         (answer_of((409, '{"word":"stale"}')), 502, None),
                                         (b"", 502, None)):
            with self.subTest(second=second, status=status, recorded=recorded):
                answers = iter([b"", second])
                with desk_with(lambda *_: next(answers, b"")) as port, proxy(port) as front:
                    self.assertEqual(front.ask("POST", "/station/s1/lodge", LODGED, "clara").status,
                                     status)
                    self.assertEqual([line["status"] for line in front.record(1)], [recorded])
                shutil.rmtree("proxy")
