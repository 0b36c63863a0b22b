"""The reader's functions at their edges: what each role may see, how often a name may ask, how long
it waits, and what is held meanwhile. Nothing is started, and no clock is waited for.
"""

import contextlib
import io
import sys
import threading
from pathlib import Path
from types import SimpleNamespace
from unittest import mock

from tests.support.case import Case
from tests.support.scripts import loaded

# The columns of a table: the code in 16, the electors in 8, a blank, the status in 9 and the
# revision in 5, and then what the slip says.
ROW = "s1".ljust(16) + "300".rjust(8) + " " + "received " + "    2"
TABLE = f"STATIONS c1 with a long name of a constituency\nstations 1\n{ROW} p1  1  2\n"


class OfTheReader(Case):
    def setUp(self):
        super().setUp()
        self.reader, self.clock, self.waited = loaded("reader.py"), [1000.0], []
        # (the turns have a module of their own)
        turns = loaded("turns.py")
        self.reader.Turn, self.reader.Places = turns.Turn, turns.Places
        time = SimpleNamespace(monotonic=lambda: self.clock[0], sleep=self.sleep)
        self.reader.time = turns.time = time
        self.asked, self.answer, self.took = [], None, 0.0
        self.held, self.locks = [], {}

    def sleep(self, seconds):
        self.waited.append(round(seconds, 6))
        self.clock[0] += seconds

    def ask(self, method, path, wait=None):
        self.asked.append((method, path, wait))
        self.held = sorted(name for name, lock in self.locks.items() if lock.locked())
        self.clock[0] += self.took
        return self.answer or self.reader.Answer(200, TABLE.encode(), "text/plain")

    def made(self, often=True):
        one = self.reader.Reader(self, threading.Semaphore(2),
                                 self.reader.Often() if often else None)
        self.locks = {"large": one.large, "others": one.others.lock, "stations": one.stations,
                      "wholes": one.wholes.lock, "whole of others": one.whole_of_others}
        return one


class Reports(OfTheReader):
    def answered(self, path, method="GET", one=None, **fields):
        """Status and body of an answer, and what the office was asked."""
        self.asked.clear()
        fields = {f"Office-{name.title()}": value for name, value in fields.items()}
        found = (one or self.made()).answered(method, path, fields, b"")
        return found.status, found.body.decode(), list(self.asked)

    def test_what_the_proxy_says(self):
        """Not allowed, not there, and only a request of GET; also of the port of the pages."""
        asked = [("GET", "/progress", None)]
        for often in (True, False):
            for method, fields, status in (
                    ("GET", {}, 200), ("HEAD", {}, 405), ("POST", {}, 405),
                    ("GET", {"allowed": "1", "there": "1"}, 200), ("GET", {"allowed": "0"}, 403),
                    ("GET", {"allowed": ""}, 403), ("GET", {"there": "0"}, 404),
                    ("GET", {"there": ""}, 404), ("GET", {"allowed": "0", "there": "0"}, 403)):
                with self.subTest(often=often, method=method, fields=fields):
                    found = self.answered("/progress", method, self.made(often), **fields)
                    self.assertEqual((found[0], found[2]), (status, asked * (status == 200)))

    def test_who_waits_for_an_office(self):
        for said, wait in (("no", 0), ("yes", None), ("", None)):
            self.assertEqual(self.answered("/progress", wait=said)[2], [("GET", "/progress", wait)])

    def test_tables_past_the_cache(self):
        """Of all stations, for roles that see figures; a second sees them to the revision."""
        short = TABLE.replace(" p1  1  2", "")
        for role, table, wanted in (
                ("clerk", "stations", (200, TABLE)), ("clerk", "returns", (200, TABLE)),
                ("board", "stations", (200, TABLE)), ("board", "returns", (200, TABLE)),
                ("second", "stations", (200, short)), ("second", "returns", (403, "")),
                ("station", "stations", (403, "")), ("station", "returns", (403, "")),
                ("", "stations", (403, ""))):
            with self.subTest(role=role, table=table):
                found = self.answered(f"/{table}/c1", name="clara", role=role)
                self.assertEqual(found[:2], wanted)
                asked = [("GET", f"/con/c1/{table}", None)]
                self.assertEqual(found[2], asked * (wanted[0] == 200))
        for status in (201, 404, None):
            self.answer = self.reader.Answer(status, TABLE.encode(), "text/plain")
            found = self.answered("/stations/c1", name="sara", role="second")
            self.assertEqual(found[:2], (status, TABLE))
        # The pages have none of these, and a place below is another one.
        self.answer = None
        for path, often in (("/stations/c1", False), ("/stations/c1/x", True), ("/con/c1", True),
                            ("/con/c1/returns", False)):
            found = self.answered(path, one=self.made(often), name="clara", role="second")
            self.assertEqual((found[1], found[2]), (TABLE, [("GET", path, None)]))

    def test_a_table_to_the_revision(self):
        """Thirty-nine columns; the first two lines are the head, and have more."""
        self.assertEqual(len(ROW), 39)
        head = b"x" * 60 + b"\n" + b"y" * 60
        self.assertEqual(self.reader.without_slips(head + b"\n" + b"z" * 60 + b"\nshort\n"),
                         head + b"\n" + b"z" * 39 + b"\nshort\n")

    def test_how_often_a_name_has_a_table(self):
        """Twenty at once, and two a second; each name has its own."""
        often = self.reader.Often()
        many = lambda name: next(n for n in range(100) if often.is_over(name))
        self.assertEqual([many("clara"), many("clara"), many("bruno")], [20, 0, 20])
        for seconds, wanted in ((0.25, 0), (0.25, 1), (5, 10), (3600, 20)):
            self.clock[0] += seconds
            self.assertEqual(many("clara"), wanted)
        one = self.made()
        found = [self.answered("/stations/c1", one=one, name="ana", role="clerk")[0]
                 for _ in range(21)]
        self.assertEqual(found, [200] * 20 + [429])

    def test_what_is_left_to_others_after_a_table(self):
        """Three times as long as it took, four seconds at most."""
        one = self.made()
        for took, waited in ((0.5, 0), (2, 1.5), (0, 4), (1, 0), (0, 3)):
            with self.subTest(took=took):
                self.took, before = took, len(self.waited)
                self.assertEqual(self.answered("/con/c1/returns", one=one, name="clara",
                                               role="clerk")[0], 200)
                self.assertEqual(self.waited[before:], [waited])

    def test_how_many_wait_for_a_table(self):
        """Sixteen; the places are free again afterwards, also where one has failed."""
        one = self.made()
        with contextlib.ExitStack() as held:
            for number in range(16):
                self.assertEqual(self.answered("/con/c1/returns", one=one, name=f"n{number}",
                                               role="clerk")[0], 200)
                one.places.acquire()
                held.callback(one.places.release)
            self.assertEqual(self.answered("/con/c1/returns", one=one, name="clara",
                                           role="clerk"), (429, "", []))
        for _ in range(17):
            with mock.patch.object(self.reader.Reader, "ask", mock.Mock(side_effect=OSError)):
                self.assertRaises(OSError, one.ask_large, "/con/c1/returns")
        self.assertEqual(one.ask_large("/con/c1/returns").status, 200)


class Held(OfTheReader):
    def test_what_a_report_holds(self):
        """Of stations and seconds one at a time, of all constituencies one, and of each name."""
        for path, name, role, wanted in (
                ("/con/c1", "", "", []), ("/results", "", "", ["wholes"]),
                ("/con/c1", "clara", "clerk", []), ("/results", "clara", "clerk", ["wholes"]),
                ("/country", "berta", "board", ["wholes"]),
                ("/con/c1", "s1", "station", ["others", "stations"]),
                ("/results", "s1", "station", ["others", "whole of others", "wholes"]),
                ("/con/c1", "sara", "second", ["others"]),
                ("/country", "sara", "second", ["others", "whole of others", "wholes"]),
                ("/con/c1/returns", "clara", "clerk", ["large"]),
                ("/stations/c1", "clara", "clerk", ["large"])):
            with self.subTest(path=path, role=role):
                one = self.made()
                fields = {"Office-Name": name or None, "Office-Role": role}
                self.assertEqual(one.answered("GET", path, fields, b"").status, 200)
                self.assertEqual(self.held, wanted)
                self.assertFalse([name for name, lock in self.locks.items() if lock.locked()])
                one = self.made(often=False)
                one.answered("GET", path, fields, b"")
                self.assertEqual(self.held, [])

    def test_the_lock_of_each_name(self):
        """A report of a name, or of strangers, waits for the one before; of a table too."""
        one, seen = self.made(), []

        def ask(*_, **__):
            seen.append([sorted((name or "strangers", lock.locked())
                                for name, lock in locks.items())
                         for locks in (one.names, one.tables)])
            return self.reader.Answer(200)

        self.ask = ask
        for path, name, role in (("/con/c1", None, None), ("/con/c1", "clara", "clerk"),
                                 ("/con/c1", "s1", "station"),
                                 ("/con/c1/returns", "berta", "board")):
            one.answered("GET", path, {"Office-Name": name, "Office-Role": role}, b"")
        strangers, clara = ("strangers", False), ("clara", False)
        self.assertEqual(seen, [
            [[("strangers", True)], []], [[("clara", True), strangers], []],
            [[clara, strangers], []], [[clara, strangers], [("berta", True)]]])

    def test_how_many_places_a_name_has(self):
        """Four; two where half of all are taken. Clerks have sixty-four, stations and seconds
        twenty-four each."""
        one = self.made()
        for role, of_all in ((None, 64), ("station", 24), ("second", 24)):
            with self.subTest(role=role), contextlib.ExitStack() as held:
                places = one.places_of.get(role, one.places_of_names)
                taken = lambda name, places=places, held=held: held.enter_context(
                    places.taken(name))
                # (four, until half of all are taken, and then two)
                full = of_all // 8
                for number in range(full):
                    self.assertEqual([taken(f"a{number}") for _ in range(5)],
                                     [True] * 4 + [False], number)
                for number in range(of_all // 4):
                    self.assertEqual([taken(f"b{number}") for _ in range(3)],
                                     [True] * 2 + [False], number)
                self.assertFalse(taken("c"))
            self.assertEqual(dict(places.names), {})
            with contextlib.ExitStack() as held:
                self.assertTrue(held.enter_context(places.taken("c")))

    def test_half_of_all_places(self):
        """Until then a name has four, and from then on two, also one that has two already."""
        for before, wanted in ((7, True), (8, False)):
            places = self.reader.Places(4, 16)
            with contextlib.ExitStack() as held:
                for number in range(before):
                    name = "a" if number < 2 else f"b{number // 2}"
                    self.assertTrue(held.enter_context(places.taken(name)))
                self.assertEqual(held.enter_context(places.taken("a")), wanted)

    def test_a_name_without_a_place(self):
        """It is answered 429, and the office is not asked; strangers have no places."""
        one = self.made()
        with contextlib.ExitStack() as held:
            for places, name, role in ((one.places_of_names, "clara", "clerk"),
                                       (one.places_of["station"], "s1", "station")):
                fields = {"Office-Name": name, "Office-Role": role}
                self.assertEqual(one.answered("GET", "/con/c1", fields, b"").status, 200)
                for _ in range(4):
                    held.enter_context(places.taken(name))
                self.asked.clear()
                self.assertEqual(one.answered("GET", "/con/c1", fields, b"").status, 429)
                self.assertEqual(self.asked, [])
            for places in (one.places_of_names, *one.places_of.values()):
                for number in range(64):
                    held.enter_context(places.taken(f"n{number}"))
            self.assertEqual(one.answered("GET", "/con/c1", {}, b"").status, 200)

    def test_one_place_is_less_than_two(self):
        places = self.reader.Places(1, 2)
        with places.taken("a") as first, places.taken("a") as again, places.taken("b") as other, \
                places.taken("c") as more:
            self.assertEqual([first, again, other, more], [True, False, True, False])


class Started(OfTheReader):
    def started(self, *words):
        """The sockets and ports of a reader that these words start, each with its threads."""
        found, threads = [], []

        class Thread:
            def __init__(self, target, args, daemon):
                threads.append((target, *args, daemon))

            def start(self):
                pass

        self.reader.listen = lambda file, group: (str(file), group)
        self.reader.listen_to_port = lambda address: address
        self.reader.threading = SimpleNamespace(
            Thread=Thread, Lock=threading.Lock, Semaphore=threading.Semaphore,
            BoundedSemaphore=threading.BoundedSemaphore,
            Event=lambda: SimpleNamespace(wait=lambda: found.append("waited")))
        said = io.StringIO()
        with mock.patch.object(sys, "argv", ["reader.py", *words]), \
                contextlib.redirect_stderr(said):
            try:
                self.reader.main()
            except SystemExit as ended:
                return ended.code, said.getvalue()
        self.assertEqual((found, {(one[0], one[-1]) for one in threads}),
                         (["waited"], {(self.reader.serve, True)}))
        served = {}
        for _, listener, one, _ in threads:
            key = (listener, one.desk.address[1], one.often is not None)
            served[key] = served.get(key, 0) + 1
        # Each desk has two reports at once, whoever asks.
        turns = {one.desk: one.turns for _, _, one, _ in threads}
        for _, _, one, _ in threads:
            self.assertIs(one.turns, turns[one.desk])
            self.assertEqual((one.turns._value, one.desk.connecting), (2, 5))
        return served

    def test_without_more_words(self):
        """Names have sixty-four threads, and strangers four; an office that takes no connection is
        waited for five seconds."""
        for _ in range(2):
            self.assertEqual(self.started("a/b"), {
                (("a/b/1.sock", None), 8080, True): 4,
                (("a/b/1-names.sock", None), 8080, True): 64})
        self.assertTrue(Path("a/b").is_dir())

    def test_offices_and_ports(self):
        desks = ("--desk", "a:1", "--desk", "b:2", "--group", "g")
        sockets = {((f"run/{n}{more}.sock", "g"), n, True): many
                   for n in (1, 2) for more, many in (("", 4), ("-names", 64))}
        self.assertEqual(self.started("run", *desks), sockets)
        self.assertEqual(self.started("run", *desks, "--read", "c:3"),
                         sockets | {("c:3", 1, False): 4})
        self.assertEqual(self.started("run", *desks, "--read", "c:3", "--read", "d:4"),
                         sockets | {("c:3", 1, False): 4, ("d:4", 2, False): 4})
        status, said = self.started("run", *desks, *3 * ("--read", "c:3"))
        self.assertEqual((status, "there are more ports than desks" in said), (2, True))

    def test_a_port(self):
        with self.reader.listen_to_port("127.0.0.1:0") as it:
            self.assertEqual(it.getsockname()[0], "127.0.0.1")
        given = []
        with mock.patch.object(self.reader.socket, "create_server",
                               lambda address, backlog: given.append(address)):
            self.reader.listen_to_port("::1:8090")
        self.assertEqual(given, [("::1", 8090)])
