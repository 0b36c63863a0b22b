"""Who may read what the office has, and how little of its time that takes: the reader, the routes,
the hour."""

import concurrent.futures
import contextlib
import http.client
import http.server
import shutil
import socket
import threading
import time
from pathlib import Path

from tests.support.case import needs
from tests.support.desks import answer_of, desk_with, recording_desk
from tests.support.office import LISTS, PROFILE, constituency, station, with_stations
from tests.support.pages import press, site_folder
from tests.support.proxy import proxy
from tests.support.running import PATIENCE, free_port, is_listened_to, until
from tests.support.safeguards import (
    SLIP,
    TWO_TOWNS,
    Safeguards,
    office_and_site,
    post,
    site,
    started,
)
from tests.support.scripts import loaded
from tests.support.site import SiteCase, plain

# Every way to what a slip says.
OF_SLIPS = (
    "/station/s1",
    "/con/c1/stations",
    "/con/c1/returns",
    "/now/station/s1",
    "/now/con/c1/stations",
    "/now/con/c1/returns",
)
# One town that is counted, and one that is certified.
TOWNS = (
    PROFILE + constituency("c1", "Twin Town", 3, "d0") + LISTS + station("s1")
    + constituency("c2", "Port", 3, "d0") + LISTS + station("t1")
)
OF_A_CON = ("", "/tally", "/seats", "/quotients", "/awards", "/quota", "/short", "/holders",
            "/past", "/provisional", "/result")
# Each report for everybody, and those of them that have provisional seats.
TABLES = ("/progress", "/country", "/results",
          *(f"/con/{con}{report}" for con in ("c1", "c2") for report in OF_A_CON))
PROVISIONAL = ("/results", "/con/c1/provisional", "/con/c1/result", "/con/c2/provisional",
               "/con/c2/result")
TABLE = (b"STATIONS c1 Twin\nstations 1\n"
         b"s1                   300 received     1 p1                   191       2       1\n")


def asked(address, method, path, headers=None):
    """Status and body that a port, or a socket, answers."""
    connection = http.client.HTTPConnection("office", timeout=PATIENCE)
    if isinstance(address, int):
        connection.sock = socket.create_connection(("127.0.0.1", address), timeout=PATIENCE)
    else:
        connection.sock = socket.socket(socket.AF_UNIX)
        connection.sock.settimeout(PATIENCE)
        connection.sock.connect(str(address))
    connection.request(method, path, b"{}" if method == "POST" else None, headers or {})
    found = connection.getresponse()
    body = found.read()
    connection.close()
    return found.status, body


class Slips(SiteCase):
    @needs("nginx", "openssl")
    def test_who_sees_what_a_slip_says(self):
        """Clerks, the board and the station itself: no other station, no second, and nobody without
        a name."""
        with office_and_site(TWO_TOWNS, stations=("s1", "s2")) as (desk, front):
            self.assertEqual(post(desk, "/station/s1/lodge", SLIP), 200)
            for target in OF_SLIPS:
                own = 200 if target.endswith("/s1") else 403
                short = 200 if target == "/now/con/c1/stations" else 403
                statuses = {
                    "clara": 200,
                    "berta": 200,
                    "s1": own,
                    "s2": 403,
                    "sara": short,
                    None: 401,
                    "unknown": 401,
                }
                for name, wanted in statuses.items():
                    with self.subTest(target=target, name=name):
                        found = front.ask("GET", target, name=name)
                        self.assertEqual(found.status, wanted)
                        if name not in ("clara", "berta", "s1"):
                            self.assertNotIn(b"p1", found.body)
                            self.assertNotIn(b"120", found.body)
                with self.subTest(target=target, name="clara with a wrong password"):
                    self.assertEqual(
                        front.ask("GET", target, name="clara", password="x").status, 401
                    )
            # Of what is kept for a clerk a second gets nothing.
            for _ in range(2):
                self.assertEqual(
                    [
                        front.ask("GET", "/con/c1/returns", name=name).status
                        for name in ("clara", "sara")
                    ],
                    [200, 403],
                )

    @needs("nginx", "openssl")
    def test_what_a_client_says_of_itself_is_nothing(self):
        headers = {"Office-Allowed": "1", "Office-Role": "clerk", "Office-Name": "clara"}
        with recording_desk(TABLE) as (port, messages), site(port) as front:
            for target in OF_SLIPS:
                with self.subTest(target=target):
                    wanted = 200 if target == "/now/con/c1/stations" else 403
                    found = front.ask("GET", target, name="sara", headers=headers)
                    self.assertEqual((found.status, b"191" in found.body), (wanted, False))

    @needs("nginx", "openssl")
    def test_a_station_before_the_hour(self):
        """It sees its own return and the setup; the staff see all, and strangers nothing."""
        Path("setup.toml").write_text(with_stations(2), encoding="utf-8")
        with recording_desk(b"{}") as (port, _), site(
            port, embargo="2100-01-01T00:00:00+00:00"
        ) as front:
            (front.folder / "pages/index.html").write_text("a page", encoding="utf-8")
            rows = {
                "/": (404, 200, 403),
                "/index.html": (404, 200, 403),
                "/progress": (403, 200, 403),
                "/country": (403, 200, 403),
                "/results": (403, 200, 403),
                "/con/c1/result": (403, 200, 403),
                "/con/c1": (403, 200, 403),
                "/con/c1/tally": (403, 200, 403),
                "/now/con/c1": (403, 200, 401),
                "/now/progress": (403, 200, 401),
                "/now/country": (403, 200, 401),
                "/now/results": (403, 200, 401),
                "/station/s1": (200, 200, 401),
                "/now/station/s1": (200, 200, 401),
                "/station/s2": (403, 200, 401),
                "/con/c1/returns": (403, 200, 401),
                "/setup.json": (200, 200, 403),
                "/clerk.html": (200, 200, 401),
            }
            for target, wanted in rows.items():
                with self.subTest(target=target):
                    # The clerk's answer is kept, and no station gets it.
                    found = [
                        front.ask("GET", target, name=name).status for name in ("clara", "s1", None)
                    ]
                    self.assertEqual((found[1], found[0], found[2]), wanted)
            # A name that nobody has is answered as one of the staff with a wrong password.
            for name in ("clara", "s1", "nobody-9"):
                with self.subTest(name=name):
                    self.assertEqual(
                        [
                            front.ask("GET", target, name=name, password="x").status
                            for target in rows
                        ],
                        [401] * len(rows),
                    )

    @needs("nginx", "openssl")
    def test_a_station_after_the_hour(self):
        with recording_desk(b"{}") as (port, _), site(port) as front:
            (front.folder / "pages/index.html").write_text("a page", encoding="utf-8")
            for target in ("/", "/progress", "/con/c1/tally", "/now/con/c1", "/now/progress"):
                with self.subTest(target=target):
                    self.assertEqual(front.ask("GET", target, name="s1").status, 200)

    @needs("nginx", "openssl")
    def test_how_often_a_name_asks_for_a_large_table(self):
        """Twenty at once, from however many addresses; a name of a station asks in vain."""
        with recording_desk(TABLE) as (port, messages), site(port) as front:
            for target in ("/now/con/c1/returns", "/now/con/c1/stations"):
                for number in range(30):
                    found = front.ask("GET", target, name="s1", source=f"127.9.{number}.1")
                    self.assertEqual(found.status, 403)
            self.assertEqual(messages, [])
            found = [
                front.ask("GET", "/now/con/c1/stations", name="clara", source=f"127.9.{n}.1").status
                for n in range(40)
            ]
            self.assertEqual(found[:20], [200] * 20)
            self.assertIn(429, found[20:])
            # Another name is not held up by that.
            self.assertEqual(front.ask("GET", "/now/con/c1/returns", name="bruno").status, 200)


class ProvisionalSeats(SiteCase):
    """Where no seat may be shown before it is certified, clerks and the board alone get a report
    that has some."""

    def found(self, front, desk, name, before=""):
        """Each report that is not answered as the office itself answers it, with its status."""
        found = {}
        for target in TABLES:
            own = plain(desk.port, "GET", target)
            answer = front.ask("GET", before + target, name=name)
            if (answer.status, answer.body) != (own.status, own.body):
                found[target] = answer.status
                self.assertNotIn(b"rovisional", answer.body)
        return found

    @needs("nginx", "openssl")
    def test_who_reads_them(self):
        hidden, pages = dict.fromkeys(PROVISIONAL, 404), "proxy/pages"
        with office_and_site(TOWNS) as (desk, front):
            for one in ("s1", "t1"):
                self.assertEqual(post(desk, f"/station/{one}/lodge", SLIP), 200)
                self.assertEqual(post(desk, f"/station/{one}/close", {"rev": 1}), 200)
            self.assertEqual(post(desk, "/con/c2/certify", {"edition": 1}), 200)
            self.assertEqual(
                [plain(desk.port, "GET", f"/con/{con}/seats").status for con in ("c1", "c2")],
                [409, 200])

            def published(wanted, text=None, status=0):
                """Compares what is read after press.py was started with this site.toml."""
                with self.subTest(site=text):
                    words = () if text is None else site_folder(site=text)
                    if status:
                        with self.assertRaisesRegex(AssertionError, f"^status {status}: "):
                            press(desk.port, *words, folder=pages)
                    else:
                        press(desk.port, *words, folder=pages)
                    time.sleep(1.1)  # so that nothing is kept of what was answered before
                    for name in (None, "clara", "s1"):
                        self.assertEqual(self.found(front, desk, name), wanted, name)
                    for name in ("clara", "bruno", "berta"):
                        self.assertEqual(self.found(front, desk, name, "/now"), {}, name)
                    for name in ("s1", "sara"):
                        self.assertEqual(self.found(front, desk, name, "/now"), wanted, name)
                    self.assertEqual(self.found(front, desk, None, "/now"),
                                     dict.fromkeys(TABLES, 401))

            published({})
            published({}, 'title = "Election"\n')
            published(hidden, "provisional = false\n")
            for target in ("/con/C1/result", "/con/C1/provisional", "/results?x=1"):
                self.assertEqual(front.ask("GET", target).status, 404, target)
            self.assertEqual({front.ask("HEAD", target).status for target in PROVISIONAL}, {404})
            # A file that says nothing, and a folder that is lost, hide them too.
            published({}, "provisional = true\n")
            published(hidden, 'provisional = "no"\n', status=1)
            published({}, "")
            shutil.rmtree(front.folder / "pages")
            self.assertEqual(self.found(front, desk, None), hidden)
            self.assertEqual([self.found(front, desk, name, "/now") for name in ("sara", "clara")],
                             [hidden, {}])
            # Who claims a name has to have its password here as anywhere.
            for name in ("sara", "s1", "clara"):
                self.assertEqual(
                    front.ask("GET", "/now/results", name=name, password="x").status, 401, name)

    @needs("nginx", "openssl")
    def test_below_now(self):
        """A station and a second are answered 404, by the reader: the office is not asked."""
        with recording_desk(b"{}") as (port, messages), site(port) as front:
            targets = [f"/now{target}" for target in PROVISIONAL]

            def statuses():
                return {name: {front.ask("GET", target, name=name).status for target in targets}
                        for name in ("clara", "berta", "sara", "s1")}

            self.assertEqual(set().union(*statuses().values()), {200})
            (front.folder / "pages/.provisional").unlink()
            messages.clear()
            self.assertEqual(statuses(), {"clara": {200}, "berta": {200}, "sara": {404},
                                          "s1": {404}})
            self.assertEqual(len(messages), 2 * len(targets))
            for target in ("/now/con/c1", "/now/con/c1/seats", "/now/progress", "/now/country"):
                self.assertEqual([front.ask("GET", target, name=name).status
                                  for name in ("sara", "s1")], [200, 200], target)

    @needs("nginx", "openssl")
    def test_before_the_hour(self):
        """Strangers are refused all the same, and no name is without its password."""
        Path("setup.toml").write_text(with_stations(2), encoding="utf-8")
        with recording_desk(b"{}") as (port, _), site(
            port, embargo="2100-01-01T00:00:00+00:00"
        ) as front:
            (front.folder / "pages/.provisional").unlink()
            for target in ("/results", "/con/c1/result", "/con/c1/provisional"):
                self.assertEqual(front.ask("GET", target).status, 403, target)
                self.assertEqual(
                    [front.ask("GET", f"/now{target}", name=name).status
                     for name in ("clara", "s1", None)], [200, 403, 401], target)


class Floods(SiteCase):
    @needs("nginx", "openssl")
    def test_a_clerk_reads_while_a_station_asks_without_end(self):
        """Of the station's reports four wait; the page of a clerk has what it asks for."""
        go_on, begun = threading.Event(), []

        class Held(http.server.BaseHTTPRequestHandler):
            def do_GET(self):
                begun.append(self.path)
                if self.path != "/con/c1/result":
                    go_on.wait(PATIENCE)
                self.send_response(200)
                self.send_header("Content-Length", "2")
                self.end_headers()
                self.wfile.write(b"{}")

            def log_message(self, *_):
                pass

        with http.server.ThreadingHTTPServer(("127.0.0.1", 0), Held) as desk:
            threading.Thread(target=desk.serve_forever, args=(0.02,), daemon=True).start()
            with site(desk.server_port) as front:
                with concurrent.futures.ThreadPoolExecutor(8) as at_once, contextlib.ExitStack(
                ) as ended:
                    ended.callback(go_on.set)

                    def ask(name, target):
                        return at_once.submit(lambda: front.ask("GET", target, name=name).status)

                    given = [ask("s1", target) for target in ("/now/progress", "/now/station/s1",
                                                              "/now/results") * 2]
                    until(lambda: sum(one.done() for one in given) == 2)
                    self.assertEqual(ask("clara", "/now/con/c1/result").result(PATIENCE), 200)
                    self.assertEqual(len(begun), 2)
                    go_on.set()
                self.assertEqual(sorted(one.result() for one in given), [200] * 4 + [429] * 2)
            desk.shutdown()


    @needs("nginx", "openssl")
    def test_what_a_name_asks_for_has_a_socket_of_its_own(self):
        with recording_desk(b"{}\n\n") as (port, _), site(port) as front:
            (front.folder / "reader/1.sock").unlink()
            self.assertEqual(front.ask("GET", "/con/c1").status, 502)
            for target in ("/station/s1", "/con/c1/stations", "/con/c1/returns", "/now/progress",
                           "/now/results", "/now/station/s1", "/now/con/c1", "/now/con/c1/result",
                           "/now/con/c1/returns"):
                self.assertEqual(front.ask("GET", target, name="clara").status, 200, target)

    @needs("nginx", "openssl")
    def test_one_name_asks_for_the_tables_of_all_constituencies(self):
        """Four of them wait, so that others have a place; an answer that says so is not kept."""
        with recording_desk(b"{}\n\n", wait=0.1) as (port, _), proxy(port) as front:
            targets = [f"/con/c{n}/returns" for n in range(7)]
            with concurrent.futures.ThreadPoolExecutor(7) as at_once:
                found = list(at_once.map(
                    lambda target: front.ask("GET", target, name="clara").status, targets[:6]))
            self.assertEqual(sorted(found), [200] * 4 + [429] * 2)
            self.assertEqual({front.ask("GET", target, name="bruno").status for target in targets},
                             {200})


class Reader(Safeguards):
    def test_get_alone(self):
        """Whatever else is sent, nothing reaches the desk; and of a GET the target alone does."""
        port = free_port()
        with recording_desk(b"a table") as (desk, messages), started(
            "reader.py", "reader", "--desk", f"127.0.0.1:{desk}", "--read", f"127.0.0.1:{port}"
        ):
            until(lambda: port_listens(port))
            for address in ("reader/1.sock", port):
                for method in ("POST", "PUT", "DELETE", "PATCH", "OPTIONS", "HEAD"):
                    with self.subTest(address=address, method=method):
                        self.assertEqual(asked(address, method, "/station/s1/lodge")[0], 405)
                self.assertEqual(messages, [])
                headers = {"Office-Name": "clara", "Cookie": "a=b", "X-Office": "x"}
                self.assertEqual(asked(address, "GET", "/progress", headers), (200, b"a table"))
                [(head, body)] = messages
                lines = [line.lower() for line in head.split(b"\r\n")]
                self.assertEqual(
                    (lines, body),
                    ([b"get /progress http/1.1", b"host: office", b"connection: close"], b""),
                )
                messages.clear()
            # A text that a socket sends in the middle of a head is no second request.
            with socket.create_connection(("127.0.0.1", port), timeout=PATIENCE) as it:
                it.sendall(
                    b"GET /progress HTTP/1.1\r\nContent-Length: 50\r\n\r\n"
                    + b"POST /station/s1/lodge HTTP/1.1\r\nHost: x\r\n\r\n".ljust(50)
                )
                while it.recv(65536):
                    pass
            self.assertEqual([head.split(b" ")[0] for head, _ in messages], [b"GET"])

    def test_how_many_the_desk_has_at_once(self):
        """Two reports, and one table of all stations or of all constituencies: a command waits for
        no more."""
        reader = loaded("reader.py")
        under_way, most, lock = [0], [0], threading.Lock()

        class Desk:
            def __init__(self, may_answer=None):
                self.may_answer = may_answer

            def ask(self, *_, **__):
                if self.may_answer:
                    self.may_answer.acquire()
                with lock:
                    under_way[0] += 1
                    most[0] = max(most[0], under_way[0])
                time.sleep(0.02)
                with lock:
                    under_way[0] -= 1
                return reader.Answer(200, TABLE, "text/plain")

        one = reader.Reader(Desk(), threading.Semaphore(reader.AT_ONCE), reader.Often())

        def at_once(path, times, names=True):
            found, most[0] = [], 0
            threads = [
                threading.Thread(
                    target=lambda fields: found.append(
                        one.answered("GET", path, fields, b"").status),
                    args=({"Office-Name": f"clerk-{n}", "Office-Role": "clerk"} if names else {},)
                )
                for n in range(times)
            ]
            for thread in threads:
                thread.start()
            for thread in threads:
                thread.join()
            return most[0], sorted(found)

        self.assertEqual(at_once("/con/c1", 40), (2, [200] * 40))
        # Strangers have one of the two.
        self.assertEqual(at_once("/con/c1", 20, names=False), (1, [200] * 20))
        for whole in ("/results", "/country"):
            began = time.monotonic()
            self.assertEqual(at_once(whole, 5), (1, [200] * 5))
            self.assertGreater(time.monotonic() - began, 0.02 * 5 + 0.06 * 4 - 0.05)
        began = time.monotonic()
        self.assertEqual(at_once("/con/c1/returns", 10), (1, [200] * 10))
        # Each takes 0.02 s, and the next waits three times as long.
        self.assertGreater(time.monotonic() - began, 0.02 * 10 + 0.06 * 9 - 0.05)
        # Sixteen wait, however long the first one takes.
        may_answer = threading.Semaphore(0)
        one = reader.Reader(Desk(may_answer), threading.Semaphore(reader.AT_ONCE), reader.Often())
        with concurrent.futures.ThreadPoolExecutor(20) as threads:
            given = [threads.submit(one.answered, "GET", "/con/c1/returns",
                                    {"Office-Name": f"clerk-{n}", "Office-Role": "clerk"}, b"")
                     for n in range(20)]
            until(lambda: sum(it.done() for it in given) >= 4)
            may_answer.release(16)
            found = sorted(it.result().status for it in given)
        self.assertEqual(found, [200] * 16 + [429] * 4)

    def test_how_many_reports_of_a_name(self):
        """Four past the cache at each office, and twenty-four of stations and of seconds; others
        are answered 429. Of these one is asked for at a time: clerks do not wait for them.
        """
        reader, go_on, heard = loaded("reader.py"), threading.Event(), []
        # (what is left to others afterwards, test_history tries)
        reader.Turn = threading.Lock

        class Desk:
            def ask(self, _, path, **__):
                heard.append(path)
                if path != "/con/c1/result":
                    go_on.wait(PATIENCE)
                return reader.Answer(200, TABLE, "text/plain")

        often = reader.Often()
        offices = [reader.Reader(Desk(), threading.Semaphore(reader.AT_ONCE), often)
                   for _ in range(2)]
        places = [each for one in offices
                  for each in (one.places_of_names, *one.places_of.values())]
        with concurrent.futures.ThreadPoolExecutor(60) as at_once, contextlib.ExitStack() as ended:
            ended.callback(go_on.set)

            def asked(name, role, path="/progress", office=0):
                def many():
                    return sum(one.names.total() for one in places)

                before, fields = many(), {"Office-Name": name, "Office-Role": role}
                done = at_once.submit(offices[office].answered, "GET", path, fields, b"")
                until(lambda: many() > before or done.done())
                if not done.done() and path == "/progress":
                    return None
                # (what the desk answers at once is waited for, less long than it holds the others)
                return done.result(PATIENCE / 10).status

            self.assertEqual([asked("s1", "station") for _ in range(5)], [None] * 4 + [429])
            self.assertEqual([asked("sara", "second") for _ in range(5)], [None] * 4 + [429])
            self.assertEqual(asked("clara", "clerk", "/con/c1/result"), 200)
            # Where half of all places are taken, a name has two.
            self.assertEqual([asked(f"t{n // 5}", "station") for n in range(10)],
                             ([None] * 4 + [429]) * 2)
            self.assertEqual([asked(f"u{n // 3}", "station") for n in range(18)],
                             ([None] * 2 + [429]) * 6)
            self.assertEqual(asked("u9", "station"), 429)
            # Stations have no place, and seconds have.
            self.assertEqual([asked("simon", "second") for _ in range(5)], [None] * 4 + [429])
            for name, role in (("clara", "clerk"), ("berta", "board")):
                self.assertEqual(asked(name, role, "/con/c1/result"), 200)
            self.assertEqual(heard.count("/progress"), 1)
            # Another office: of clara's four one is asked for at a time, and others beside it.
            self.assertEqual([asked("clara", "clerk", office=1) for _ in range(5)],
                             [None] * 4 + [429])
            self.assertEqual(asked("berta", "board", "/con/c1/result", office=1), 200)
            # Stations have as many places there: an office that is away keeps nobody from it.
            self.assertIsNone(asked("s1", "station", office=1))
            go_on.set()
        self.assertEqual(heard.count("/progress"), 37)
        self.assertEqual([dict(one.names) for one in places], [{}] * 6)

    def test_names_do_not_wait_for_strangers(self):
        """These hold what reads for them, and what it would ask."""
        with recording_desk(b"a table") as (desk, _), started(
            "reader.py", "reader", "--desk", f"127.0.0.1:{desk}"
        ), contextlib.ExitStack() as held:
            until(lambda: is_listened_to("reader/1-names.sock"))
            for _ in range(20):
                it = held.enter_context(socket.socket(socket.AF_UNIX))
                it.connect("reader/1.sock")
                it.sendall(b"GET /progress")
            fields = {"Office-Name": "clara", "Office-Role": "clerk"}
            self.assertEqual(asked("reader/1-names.sock", "GET", "/progress", fields)[0], 200)

    def test_a_desk_that_is_away(self):
        """It is waited for, unless the proxy says that others are not to wait."""
        desk = free_port()
        with started("reader.py", "reader", "--desk", f"127.0.0.1:{desk}"):
            until(lambda: is_listened_to("reader/1.sock"))
            began = time.monotonic()
            self.assertEqual(
                asked("reader/1.sock", "GET", "/progress", {"Office-Wait": "no"})[0], 502
            )
            # (one that is waited for is waited for as long as a minute)
            self.assertLess(time.monotonic() - began, 20)
            found = []
            waiting = threading.Thread(
                target=lambda: found.append(asked("reader/1.sock", "GET", "/progress"))
            )
            waiting.start()
            time.sleep(0.5)
            with desk_with(lambda *_: answer_of("{}"), desk):
                waiting.join()
            self.assertEqual(found, [(200, b"{}")])

    def test_a_second_sees_revisions_alone(self):
        reader = loaded("reader.py")
        self.assertEqual(
            reader.without_slips(TABLE),
            b"STATIONS c1 Twin\nstations 1\ns1                   300 received     1\n",
        )


def port_listens(port):
    try:
        socket.create_connection(("127.0.0.1", port), timeout=PATIENCE).close()
        return True
    except OSError:
        return False
