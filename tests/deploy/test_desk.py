#!/usr/bin/env python3
"""Tests `deploy/desk`: an office on one computer, from its start to its end.

    OFFICE_PROGRAM=FILE python3 tests/deploy/test_desk.py

Without OFFICE_PROGRAM the tests are skipped. A computer that gives the office no network of its own
runs them with `--open-port`, and skips the test of that network.
"""

import contextlib
import functools
import hashlib
import http.client
import json
import os
import re
import shutil
import signal
import socket
import sqlite3
import subprocess
import sys
import tempfile
import time
import unittest
from pathlib import Path

ROOT = Path(__file__).resolve().parent.parent.parent
DESK = ROOT / "deploy/desk"
PROGRAM = os.environ.get("OFFICE_PROGRAM")
# Seconds for what has to come, on a computer with much else to do.
PATIENCE = 120
# The seconds from the start to a lodged return, and what a program of each kind usually takes: the
# time is longer where these take longer, as on a computer with much else to do.
WANTED, USUAL_OFFICE, USUAL_PYTHON = 10, 0.5, 0.15

SETUP = """\
[[profile]]
code = "d0"
method = "dhondt"
threshold = 0
base = "valid"

[[constituency]]
code = "c1"
name = "Twin Town"
seats = 3
profile = "d0"

[[constituency.list]]
code = "A"
name = "Alpha"
candidates = ["Ana", "Abel"]

[[constituency.list]]
code = "B"
name = "Beta"
candidates = ["Bea"]

[[constituency.station]]
code = "s1"
electors = 300

[[constituency.station]]
code = "s2"
electors = 300
"""
SLIP = {"slip": "p1", "votes": [10, 20], "blank": 1, "spoiled": 2}
NAMES = {"clerk-1": "clerk", "second-1": "second", "board-1": "board", "s1": "station"}


@functools.cache
def more_words():
    """The desk's arguments on a computer that gives no program a network of its own."""
    probe = "import desk_walls; desk_walls.leave_network()"
    done = subprocess.run([sys.executable, "-c", probe], cwd=DESK.parent, capture_output=True)
    return ("--open-port",) if done.returncode else ()


def slowness():
    """How many times as long as usual programs take now, at least once."""
    with tempfile.TemporaryDirectory() as folder:
        setup = Path(folder) / "setup.toml"
        setup.write_text(SETUP, encoding="utf-8")
        office = (PROGRAM, "new", "--db", f"{folder}/a.db", "--setup", setup)
        python = (sys.executable, "-c", "import http.server, sqlite3, tomllib")
        return max(1, seconds(office) / USUAL_OFFICE, seconds(python) / USUAL_PYTHON)


def seconds(words):
    began = time.monotonic()
    subprocess.run(words, check=True, capture_output=True)
    return time.monotonic() - began


def free_ports(many):
    """The first of some ports that are free, one after the other: of those that tests/run.py gives
    this suite, where it does."""
    least, most = map(int, os.environ.get("TEST_PORTS", "20000-29999").split("-"))
    for first in range(least, most - many, 50):
        with contextlib.suppress(OSError), contextlib.ExitStack() as held:
            for port in range(first, first + many):
                held.enter_context(socket.create_server(("127.0.0.1", port)))
            return first
    raise AssertionError("no port is free")


class Answer:
    def __init__(self, answer):
        self.status, self.heads, self.body = answer.status, answer.headers, answer.read()

    @property
    def text(self):
        return self.body.decode()


class Desk:
    """A desk that was started in a folder."""

    def __init__(self, folder, *words, db="evening.db"):
        self.folder, self.db = Path(folder), Path(folder) / db
        self.setup = self.folder / "setup.toml"
        if not self.setup.exists():
            self.setup.write_text(SETUP, encoding="utf-8")
        first = [DESK, self.setup, "--db", self.db, "--office", PROGRAM, "--no-browser"]
        self.process = subprocess.Popen(
            [*first, *more_words(), *words], stdout=subprocess.PIPE, stderr=subprocess.PIPE,
            text=True, env={**os.environ, "LC_ALL": "C"})
        self.said, self.addresses = "", {}

    def its_office(self):
        """The process of the office that it has started."""
        folder = Path(f"/proc/{self.process.pid}/task/{self.process.pid}")
        children = (folder / "children").read_text(encoding="ascii").split()
        words = {one: Path(f"/proc/{one}/cmdline").read_bytes().split(b"\0") for one in children}
        [office] = [int(one) for one, its in words.items() if b"serve" in its]
        return office

    def opened(self):
        """Waits for the addresses."""
        for line in self.process.stdout:
            self.said += line
            if found := re.match(r"  (\S+) .*(http://127\.0\.0\.1:(\d+)/enter/(\S+))$", line):
                self.addresses[found[1]] = int(found[3]), found[4]
            if line.startswith("Ctrl-C"):
                return self
        raise AssertionError(f"{self.said}{self.process.stderr.read()}")

    def ended(self, number=None):
        """Status and texts of a desk that ends by itself, or by a signal."""
        if number:
            self.process.send_signal(number)
        try:
            out, err = self.process.communicate(timeout=PATIENCE)
        except subprocess.TimeoutExpired:
            self.process.kill()
            raise
        return self.process.returncode, self.said + out, err

    def ask(self, name, method, target, body=None, **heads):
        """Asks as a page of this name's door does. A head of None is left out."""
        port, secret = self.addresses[name]
        data = json.dumps(body).encode() if isinstance(body, dict) else body
        usual = {"Host": f"127.0.0.1:{port}", "Cookie": f"office-{port}={secret}"}
        if data is not None:
            usual["Content-Length"] = str(len(data))
        heads = {name.replace("_", "-"): value for name, value in heads.items()}
        connection = http.client.HTTPConnection("127.0.0.1", port, timeout=PATIENCE)
        with contextlib.closing(connection) as there:
            there.putrequest(method, target, skip_host=True, skip_accept_encoding=True)
            for head, value in {**usual, **heads}.items():
                if value is not None:
                    there.putheader(head, value)
            there.endheaders(data)
            return Answer(there.getresponse())


@unittest.skipUnless(PROGRAM, "OFFICE_PROGRAM names no program")
class AnOpenDesk(unittest.TestCase):
    """One desk, a trial, that all tests of this class ask."""

    @classmethod
    def setUpClass(cls):
        cls.folder = cls.enterClassContext(tempfile.TemporaryDirectory())
        more_words()
        cls.slow, began = slowness(), time.monotonic()
        cls.desk = Desk(cls.folder, "--trial", "--name", "station:s1").opened()
        cls.addClassCleanup(cls.desk.ended, signal.SIGINT)
        port, secret = cls.desk.addresses["clerk-1"]
        # As a browser does it: the address first, then the page and its files, then the return.
        cls.entered = cls.desk.ask("clerk-1", "GET", f"/enter/{secret}", Cookie=None)
        cls.page = cls.desk.ask("clerk-1", "GET", "/clerk.html")
        cls.lodged = cls.desk.ask("clerk-1", "POST", "/station/s2/lodge", SLIP,
                                  Origin=f"http://127.0.0.1:{port}", Sec_Fetch_Site="same-origin")
        cls.took = time.monotonic() - began

    def test_a_return_is_lodged_ten_seconds_after_the_start(self):
        self.assertEqual((self.lodged.status, self.lodged.text), (200, '{"ok":"lodged","rev":1}'))
        slow = max(self.slow, slowness())
        print(f"a return is lodged after {self.took:.1f} s; slowness {slow:.1f}")
        self.assertLess(self.took, WANTED * slow)

    def test_the_address_of_a_name_gives_its_cookie_and_leads_to_the_clerks_page(self):
        port, secret = self.desk.addresses["clerk-1"]
        self.assertEqual(self.entered.status, 200)
        self.assertEqual(self.entered.heads["Set-Cookie"],
                         f"office-{port}={secret}; Path=/; HttpOnly; SameSite=Strict")
        self.assertIn('content="0; url=/clerk.html"', self.entered.text)
        self.assertEqual(self.page.status, 200)
        self.assertEqual(self.page.heads["X-Office-Name"], "clerk-1")
        self.assertEqual(self.page.heads["X-Office-Role"], "clerk")

    def test_each_role_on_each_kind_of_route(self):
        # 400 is the office's: {} is no command. Each line has the roles that get as far as that.
        commands = {
            "/station/s1/lodge": ("clerk", "station"), "/station/s2/lodge": ("clerk",),
            "/station/s1/query": ("clerk", "second"), "/station/s1/correct": ("clerk",),
            "/station/s1/close": ("clerk",), "/station/s1/confirm": ("second",),
            "/con/c1/import": ("clerk",), "/con/c1/import/semicolon": ("clerk",),
            "/con/c1/trial": ("clerk",), "/con/c1/trial/semicolon": ("clerk",),
            "/con/c1/draw": ("board",), "/con/c1/certify": ("board",), "/con/c1/reopen": ("board",),
            "/con/c1/vacate": ("board",)}
        for target, roles in commands.items():
            for name, role in NAMES.items():
                with self.subTest(target=target, role=role):
                    found = self.desk.ask(name, "POST", target, {})
                    self.assertEqual(found.status, 400 if role in roles else 403)
                    self.assertEqual('"word":"bad_' in found.text, role in roles)

    def test_a_page_of_another_setup_gives_no_commands(self):
        setup = self.desk.ask("clerk-1", "GET", "/setup.json").body
        for hashed, status in ((hashlib.sha256(setup).hexdigest(), 400), ("0" * 64, 409)):
            with self.subTest(hashed=hashed):
                found = self.desk.ask("clerk-1", "POST", "/station/s1/lodge", {},
                                      Office_Setup=hashed)
                self.assertEqual(found.status, status)

    def test_whoever_has_a_name_reads_everything_but_slips_and_histories(self):
        reads = ("/progress", "/country", "/con/c1", "/con/c1/tally", "/now/con/c1", "/clerk.html",
                 "/setup.json")
        slips = {"/now/station/s2": ("clerk", "board"), "/station/s2": ("clerk", "board"),
                 "/con/c1/returns": ("clerk", "board"), "/con/c1/stations": ("clerk", "board"),
                 "/now/con/c1/returns": ("clerk", "board"),
                 "/now/con/c1/stations": ("clerk", "board", "second")}
        for target, roles in [*((target, NAMES.values()) for target in reads), *slips.items()]:
            for name, role in NAMES.items():
                with self.subTest(target=target, name=name):
                    found = self.desk.ask(name, "GET", target)
                    self.assertEqual(found.status, 200 if role in roles else 403)
        for name, role in NAMES.items():
            with self.subTest(name=name):
                found = self.desk.ask(name, "GET", "/now/station/s2/history")
                self.assertEqual(found.status, 403 if role == "station" else 200)
                if found.status == 200:
                    [first, *_] = json.loads(found.text)["commands"]
                    # Who enters slips a second time sees no figure of the first entry.
                    self.assertEqual(first["name"], "clerk-1")
                    self.assertEqual("body" in first, role != "second")
                found = self.desk.ask(name, "GET", "/now/con/c1/typed")
                self.assertEqual(found.status, 403 if role == "station" else 200)
                if found.status == 200:
                    typed = {one["name"] for one in json.loads(found.text)["names"]}
                    self.assertEqual("clerk-1" in typed, role in ("board", "clerk"))
        for name, line in (("clerk-1", r"s2 +300 received +1 p1 +30 +1 +2"),
                           ("second-1", r"s2 +300 received +1$")):
            with self.subTest(name=name):
                table = self.desk.ask(name, "GET", "/now/con/c1/stations").text
                self.assertRegex(table, f"(?m)^{line}")

    def test_whoever_lacks_the_secret_gets_nothing(self):
        port, secret = self.desk.addresses["clerk-1"]
        other_port, other_secret = self.desk.addresses["board-1"]
        table = {
            "no secret": (403, {"Cookie": None}),
            "a wrong secret": (403, {"Cookie": f"office-{port}={secret[:-1]}"}),
            "a longer secret": (403, {"Cookie": f"office-{port}={secret}x"}),
            "letters beyond ASCII": (403, {"Cookie": f"office-{port}=\xe9\xff"}),
            "the secret of another name": (403, {"Cookie": f"office-{port}={other_secret}"}),
            "the cookie of another name": (403, {"Cookie": f"office-{other_port}={other_secret}"}),
            "a password": (403, {"Cookie": None, "Authorization": "Basic Y2xlcmstMTp4"}),
            "another host": (421, {"Host": "office.example"}),
            "another name of the host": (421, {"Host": f"localhost:{port}"}),
            "another port": (421, {"Host": f"127.0.0.1:{other_port}"}),
            "no host": (421, {"Host": None}),
            "another site": (403, {"Origin": "https://office.example"}),
            "another port of this computer": (403, {"Origin": f"http://127.0.0.1:{other_port}"}),
            "a page without a site": (403, {"Origin": "null"}),
            "a link of another site": (403, {"Sec-Fetch-Site": "cross-site"}),
            "a page of another port": (403, {"Sec-Fetch-Site": "same-site"}),
        }
        asked = (("GET", "/progress", None), ("GET", "/clerk.html", None), ("GET", "/", None),
                 ("GET", "/not/there", None), ("HEAD", "/clerk.html", None),
                 ("POST", "/station/s1/lodge", SLIP), ("DELETE", "/progress", None),
                 ("OPTIONS", "*", None), ("PROPFIND", "/", None),
                 ("POST", "/con/c1/import", b"x" * 2_000_000))
        for what, (status, heads) in table.items():
            for method, target, body in asked:
                with self.subTest(what=what, method=method, target=target):
                    try:
                        found = self.desk.ask("clerk-1", method, target, body, **heads)
                    except (ConnectionResetError, BrokenPipeError):
                        # A long body is not read to its end.
                        self.assertEqual(len(body or b""), 2_000_000)
                        continue
                    # (a method that no rule names is not looked at)
                    self.assertEqual(found.status, 501 if method == "PROPFIND" else status)
                    self.assertEqual(found.body, b"")
                    self.assertEqual(found.heads["Content-Type"], None)
                    self.assertEqual(found.heads["Set-Cookie"], None)
        found = self.desk.ask("clerk-1", "GET", "/now/station/s1")
        self.assertIn('"word":"no_return"', found.text)

    def test_an_address_with_another_secret_gets_no_cookie(self):
        _, secret = self.desk.addresses["clerk-1"]
        table = (("GET", "/enter/", {}), ("GET", f"/enter/{secret}x", {}),
                 ("GET", f"/enter/{secret}?", {}), ("POST", f"/enter/{secret}", {}),
                 ("GET", f"/enter/{self.desk.addresses['board-1'][1]}", {}),
                 ("GET", f"/enter/{secret}", {"Origin": "https://office.example"}))
        for method, target, heads in table:
            with self.subTest(method=method, target=target, **heads):
                found = self.desk.ask("clerk-1", method, target, Cookie=None, **heads)
                self.assertEqual((found.status, found.body), (403, b""))
                self.assertEqual(found.heads["Set-Cookie"], None)

    def test_a_command_is_from_a_page_of_this_site_or_from_a_program(self):
        port, _ = self.desk.addresses["clerk-1"]
        own = {"Sec-Fetch-Site": "same-origin", "Origin": f"http://127.0.0.1:{port}"}
        for heads, status in (({}, 400), (own, 400), ({"Sec-Fetch-Site": "none"}, 403)):
            with self.subTest(heads=heads):
                found = self.desk.ask("clerk-1", "POST", "/station/s1/lodge", {}, **heads)
                self.assertEqual(found.status, status)

    def test_other_methods_targets_and_bodies_are_refused(self):
        table = (("POST", "/progress", {}, 413), ("POST", "/progress", None, 405),
                 ("GET", "/station/s1/lodge", None, 405), ("PUT", "/clerk.html", None, 405),
                 ("DELETE", "/con/c1/certify", None, 405), ("GET", "/con/c1/tally?x", None, 404),
                 ("GET", "/station/s1/nothing", None, 404), ("GET", "/../setup.toml", None, 404),
                 ("GET", "/evening.db", None, 404), ("GET", "/.index.html.new", None, 404),
                 ("POST", "/nothing", b"x", 413),
                 ("POST", "/station/s1/lodge", b"x" * 16_385, 413),
                 ("POST", "/con/c1/import", b"x" * 1_048_577, 413),
                 ("POST", "/con/c1/trial", b"x" * 1_048_576, 400))
        for method, target, body, status in table:
            with self.subTest(method=method, target=target):
                self.assertEqual(self.desk.ask("clerk-1", method, target, body).status, status)
        found = self.desk.ask("clerk-1", "GET", "/station/s1/lodge")
        self.assertEqual(found.heads["Allow"], "POST")
        for heads, status in (({"Transfer-Encoding": "chunked"}, 411),
                              ({"Content-Length": "-1"}, 400), ({"Content-Length": "1x"}, 400)):
            with self.subTest(**heads):
                found = self.desk.ask("clerk-1", "POST", "/station/s1/lodge", **heads)
                self.assertEqual(found.status, status)

    def test_each_page_says_that_it_is_a_trial(self):
        end, pages, folder = time.monotonic() + PATIENCE, [], self.desk.db.with_suffix(".pages")
        while len(pages) < 4:
            self.assertLess(time.monotonic(), end, "no press pages")
            time.sleep(0.1)
            pages = [f"/{file.name}" for file in folder.glob("*.html")]
        secret = self.desk.addresses["clerk-1"][1]
        for target in ("/", "/clerk.html", f"/enter/{secret}", *pages):
            with self.subTest(target=target):
                text = self.desk.ask("clerk-1", "GET", target).text
                self.assertEqual(text.count("PRUEBA · TRIAL"), 2)
                self.assertRegex(text, "<title>PRUEBA · TRIAL: \u2068?\\w")
                self.assertLess(text.index("<body"), text.index('<p class="of-trial"'))
        self.assertIn("This is a trial", self.desk.said)

    def test_the_press_pages_have_the_policy_of_the_proxy(self):
        text = (ROOT / "deploy/nginx/policy.conf").read_text(encoding="utf-8")
        wanted = re.search(r'Content-Security-Policy "(.*?)"', text)
        drawing = self.desk.db.with_suffix(".pages") / "drawing.svg"
        drawing.write_text("<svg xmlns='http://www.w3.org/2000/svg'><script/></svg>", "utf-8")
        for target in ("/index.html", "/results.csv", "/drawing.svg"):
            with self.subTest(target=target):
                found = self.desk.ask("clerk-1", "GET", target)
                self.assertEqual((found.status, found.heads["Content-Security-Policy"]),
                                 (200, wanted[1]))

    def test_other_users_read_no_file_of_it(self):
        """The database, which has slips, the record and the folder of the pages."""
        files = [self.desk.db, *(self.desk.db.with_suffix(f".{name}")
                                 for name in ("commands.log", "pages"))]
        self.assertEqual([file.stat().st_mode & 0o077 for file in files], [0, 0, 0])

    def test_no_answer_is_kept_or_shown_within_another_site(self):
        for target in ("/progress", "/clerk.html", "/setup.json", "/not/there"):
            with self.subTest(target=target):
                heads = self.desk.ask("clerk-1", "GET", target).heads
                wanted = {"Cache-Control": "no-store", "X-Frame-Options": "DENY",
                          "Referrer-Policy": "no-referrer", "Access-Control-Allow-Origin": None,
                          "Cross-Origin-Resource-Policy": "same-origin"}
                self.assertEqual({name: heads[name] for name in wanted}, wanted)

    def test_logging_out_takes_the_cookie_away(self):
        found = self.desk.ask("clerk-1", "GET", "/logout")
        self.assertEqual((found.status, "Max-Age=0" in found.heads["Set-Cookie"]), (204, True))

    def test_another_users_program_is_not_answered_even_with_the_secret(self):
        if os.geteuid():
            self.skipTest("an administrator alone can ask as another user")
        port, secret = self.desk.addresses["clerk-1"]
        code = ("import os, socket, sys; user = int(sys.argv[1]); "
                "os.setgroups([]); os.setresuid(user, user, user); "
                f"there = socket.socket(); there.connect(('127.0.0.1', {port})); "
                f"there.send(b'GET /progress HTTP/1.0\\r\\nHost: 127.0.0.1:{port}\\r\\n"
                f"Cookie: office-{port}={secret}\\r\\n\\r\\n'); print(there.recv(12))")
        words = (sys.executable, "-c", code)
        asked = {user: subprocess.run([*words, str(user)], capture_output=True, text=True)
                 for user in (0, 65_534)}
        self.assertEqual(asked[0].stdout, "b'HTTP/1.0 200'\n")
        self.assertIn(asked[65_534].stdout or asked[65_534].stderr.splitlines()[-1],
                      ("b''\n", "ConnectionResetError: [Errno 104] Connection reset by peer"))

    def test_no_other_program_reaches_the_office_itself(self):
        if more_words():
            self.skipTest("this computer gives a program no network of its own")
        its = os.readlink(f"/proc/{self.desk.its_office()}/ns/net")
        self.assertNotEqual(its, os.readlink("/proc/self/ns/net"))

    def test_the_secrets_are_in_no_file_and_in_no_command_line(self):
        secrets = [secret.encode() for _, secret in self.desk.addresses.values()]
        self.assertEqual(len(set(secrets)), 4)
        lines = []
        for process in Path("/proc").glob("[0-9]*"):
            with contextlib.suppress(OSError):
                lines.append((process / "cmdline").read_bytes())
        files = [file.read_bytes() for file in Path(self.folder).rglob("*") if file.is_file()]
        for secret in secrets:
            self.assertFalse(any(secret in text for text in [*files, *lines]))

    def test_the_record_has_who_did_it(self):
        text = self.desk.db.with_suffix(".commands.log").read_text(encoding="utf-8")
        first = next(line for line in map(json.loads, text.splitlines()) if "name" in line)
        self.assertEqual([first[key] for key in ("name", "role", "address", "path")],
                         ["clerk-1", "clerk", "127.0.0.1", "/station/s2/lodge"])


@unittest.skipUnless(PROGRAM, "OFFICE_PROGRAM names no program")
class TheLifeOfADesk(unittest.TestCase):
    def setUp(self):
        self.folder = Path(self.enterContext(tempfile.TemporaryDirectory()))

    def started(self, *words, **names):
        it = Desk(self.folder, *words, **names)
        self.addCleanup(lambda: it.process.poll() is None and it.ended(signal.SIGTERM))
        self.addCleanup(it.process.stdout.close)
        self.addCleanup(it.process.stderr.close)
        return it

    def wait_for_pages(self, desk):
        """Until they show a line of the record. They may take their time on a computer with much
        else to do."""
        end, record = time.monotonic() + PATIENCE, desk.db.with_suffix(".pages") / "record.csv"
        while not (record.exists() and re.search(r"^[^,]*,[1-9]", record.read_text(), re.M)):
            self.assertLess(time.monotonic(), end, "no press pages with a line of the record")
            time.sleep(0.1)

    def test_it_ends_with_one_file_that_opens_again_with_the_return(self):
        desk = self.started().opened()
        self.assertEqual(desk.ask("clerk-1", "POST", "/station/s1/lodge", SLIP).status, 200)
        self.assertNotIn("trial", desk.said)
        self.assertNotIn("TRIAL", desk.ask("clerk-1", "GET", "/clerk.html").text)
        # A second desk does not open it meanwhile, and the first goes on.
        status, said, fault = self.started().ended()
        self.assertEqual((status, said, fault.count("\n")), (1, "", 1))
        self.assertIn("evening.db is in use by another program", fault)
        self.assertEqual(desk.ask("clerk-1", "GET", "/progress").status, 200)
        self.wait_for_pages(desk)
        status, said, fault = desk.ended(signal.SIGINT)
        self.assertEqual((status, fault), (0, ""))
        self.assertIn("The office has ended. All of it is in", said)
        self.assertEqual({file.name for file in self.folder.iterdir()},
                         {"setup.toml", "evening.db", "evening.commands.log", "evening.pages"})
        address = f"file:{desk.db}?mode=ro&immutable=1"
        with contextlib.closing(sqlite3.connect(address, uri=True)) as it:
            rows = it.execute("SELECT station, slip, rev FROM returns").fetchall()
        self.assertEqual(rows, [("s1", "p1", 1)])
        again = self.started("--name", "clerk:ana").opened()
        self.assertEqual(list(again.addresses), ["second-1", "board-1", "ana"])
        found = again.ask("ana", "POST", "/station/s1/lodge", SLIP)
        self.assertEqual(found.text, '{"ok":"same","rev":1}')
        self.assertEqual(again.ended(signal.SIGTERM)[::2], (0, ""))
        self.assertFalse(desk.db.with_name("evening.db-wal").exists())
        text = desk.db.with_suffix(".commands.log").read_text(encoding="utf-8")
        lines = list(map(json.loads, text.splitlines()))
        self.assertEqual([line["n"] for line in lines], list(range(1, len(lines) + 1)))
        self.assertEqual([line["name"] for line in lines if "name" in line], ["clerk-1", "ana"])

    def test_a_copy_with_another_ending_has_a_record_and_pages_of_its_own(self):
        """Nothing that is tried with it is in those of the database of which it is a copy."""
        desk = self.started().opened()
        desk.ask("clerk-1", "POST", "/station/s1/lodge", SLIP)
        self.assertEqual(desk.ended(signal.SIGINT)[0], 0)
        record = self.folder / "evening.commands.log"
        before = record.read_bytes()
        shutil.copy(desk.db, self.folder / "evening.bak")
        copy = self.started(db="evening.bak").opened()
        closed = copy.ask("clerk-1", "POST", "/station/s1/close", {"rev": 1})
        self.assertEqual(closed.text, '{"ok":"moved","rev":2}')
        for name in ("evening.bak.commands.log", "evening.bak.pages"):
            self.assertIn(f"{self.folder}/{name}", copy.said)
        self.assertEqual(copy.ended(signal.SIGINT)[0], 0)
        self.assertEqual(record.read_bytes(), before)
        self.assertIn('"path": "/station/s1/close"',
                      (self.folder / "evening.bak.commands.log").read_text(encoding="utf-8"))

    def test_a_copy_that_lacks_what_its_record_has_is_not_opened_before_it_is_sent(self):
        desk = self.started().opened()
        desk.ask("clerk-1", "POST", "/station/s1/lodge", SLIP)
        self.assertEqual(desk.ended(signal.SIGINT)[0], 0)
        shutil.copy(desk.db, self.folder / "older")
        desk = self.started().opened()
        desk.ask("clerk-1", "POST", "/station/s2/lodge", SLIP)
        desk.ask("clerk-1", "POST", "/station/s1/close", {"rev": 1})
        self.assertEqual(desk.ended(signal.SIGINT)[0], 0)
        shutil.copy(self.folder / "older", desk.db)
        # (what a crash leaves at its end, a line without its end, is not why)
        record = desk.db.with_suffix(".commands.log")
        before = record.read_bytes()
        status, said, fault = self.started().ended()
        self.assertEqual((status, said), (1, ""))
        lines = fault.splitlines()
        self.assertEqual(lines[0], f"desk: {desk.db} is not what its record {record} leads to:")
        self.assertEqual(lines[1:3], [
            "station s1: the office has something else than line 6 left",
            "station s2: the office has something else than line 4 left"])
        self.assertIn("deploy/README.md", lines[3])
        self.assertEqual(record.read_bytes(), before)
        port = free_ports(1)
        words = ("setup.toml", ".", "codes.conf")
        subprocess.run([DESK.parent / "setup-json", *words], cwd=self.folder, check=True)
        serve = [PROGRAM, "serve", "--db", desk.db, "--port", str(port), "--count", "1000000"]
        with subprocess.Popen(serve, stderr=subprocess.PIPE) as office:
            office.stderr.readline()
            words = ("--after", "3", "--setup", "setup.json", f"http://127.0.0.1:{port}")
            sent = subprocess.run([DESK.parent / "replay", *words], cwd=self.folder,
                                  input=before, capture_output=True)
            office.terminate()
        self.assertEqual(sent.returncode, 0, sent.stdout)
        self.assertEqual(self.started().opened().ended(signal.SIGINT)[0], 0)
        shutil.copy(self.folder / "older", desk.db)
        it = self.started("--as-it-is").opened()
        self.assertEqual(it.ask("clerk-1", "GET", "/station/s2").status, 404)

    def test_a_record_that_a_crash_has_cut_opens_with_its_database(self):
        desk = self.started().opened()
        desk.ask("clerk-1", "POST", "/station/s1/lodge", SLIP)
        self.assertEqual(desk.ended(signal.SIGINT)[0], 0)
        record = desk.db.with_suffix(".commands.log")
        answer = record.read_bytes().splitlines(True)[-1]
        for cut in (len(answer), 40):
            with self.subTest(cut=cut):
                os.truncate(record, record.stat().st_size - cut)
                self.assertEqual(self.started().opened().ended(signal.SIGINT)[0], 0)

    def test_a_copy_whose_record_begins_in_the_middle(self):
        """It says nothing of what was there before: that is no reason not to open it."""
        desk = self.started().opened()
        for name in ("s1", "s2"):
            desk.ask("clerk-1", "POST", f"/station/{name}/lodge", SLIP)
            desk.ask("clerk-1", "POST", f"/station/{name}/close", {"rev": 1})
        found = desk.ask("board-1", "POST", "/con/c1/certify", {"edition": 1})
        self.assertEqual(found.status, 200, found.text)
        self.assertEqual(desk.ended(signal.SIGINT)[0], 0)
        shutil.copy(desk.db, self.folder / "evening.bak")
        acts = ("/station/s1/lodge", SLIP), ("/con/c1/reopen", {"edition": 2, "note": "n"}), (
            "/station/s1/query", {"rev": 2, "note": "n"})
        for path, body in acts:
            copy = self.started(db="evening.bak").opened()
            name = "board-1" if path.startswith("/con") else "clerk-1"
            self.assertEqual(copy.ask(name, "POST", path, body).status, 200)
            self.assertEqual(copy.ended(signal.SIGINT)[0], 0)
        self.assertEqual(self.started(db="evening.bak").opened().ended(signal.SIGINT)[0], 0)

    def test_a_port_that_is_taken_is_named(self):
        first = free_ports(3)
        with socket.create_server(("127.0.0.1", first + 1)):
            status, said, fault = self.started("--port", str(first)).ended()
        self.assertEqual((status, said), (1, ""))
        self.assertRegex(fault, rf"^desk: port {first + 1} is not free for second-1: name another")
        self.assertEqual(fault.count("\n"), 1)

    def test_the_ports_follow_one_another_and_an_office_that_ends_is_started_again(self):
        first = free_ports(3)
        desk = self.started("--port", str(first)).opened()
        ports = [port for port, _ in desk.addresses.values()]
        self.assertEqual(ports, [first, first + 1, first + 2])
        # (one that ends right after its start ends everything)
        time.sleep(5)
        os.kill(desk.its_office(), signal.SIGKILL)
        self.assertEqual(desk.ask("clerk-1", "POST", "/station/s1/lodge", SLIP).status, 200)
        status, _, fault = desk.ended(signal.SIGTERM)
        # (the press pages may have found nobody meanwhile)
        self.assertEqual(status, 0)
        self.assertIn("desk: the office ended, and is started again\n", fault)

    def test_what_does_not_belong_together_is_refused_before_anything_is_written(self):
        other = SETUP.replace("Twin Town", "Other Town")
        (self.folder / "other.toml").write_text(other, encoding="utf-8")
        words = ("--db", self.folder / "other.db", "--setup", self.folder / "other.toml")
        subprocess.run([PROGRAM, "new", *words], check=True, capture_output=True)
        (self.folder / "left.commands.log").write_text("", encoding="utf-8")
        (self.folder / "broken.toml").write_text("[[profile]\n", encoding="utf-8")
        (self.folder / "text.db").write_text("no database", encoding="utf-8")
        shutil.copy(self.folder / "other.db", self.folder / "other")
        # (beside a link there would be a second record, and other pages)
        (self.folder / "link.db").symlink_to("other.db")
        before = {file: file.read_bytes() for file in self.folder.iterdir()}
        table = (
            ({"db": "other.db"}, (), "was made from another setup than"),
            ({"db": "left.db"}, (), "left.commands.log belong to a database that is gone"),
            ({"db": "text.db"}, (), "text.db is in use by another program, as by another desk, "
                                    "or cannot be read and written"),
            ({"db": "no/such/folder.db"}, (), "no database was made from"),
            ({"db": "other"}, (), "other.db has the same record and the same pages as"),
            ({"db": "link.db"}, (), f"link.db is a link: name the file to which it leads, "
                                    f"{self.folder.resolve()}/other.db"),
            ({"db": "a.db"}, ("--name", "station:s3"), "s3 is no station of"),
            ({"db": "b.db"}, ("--name", "board:S2"), "S2 is the code of a station"),
            ({"db": "c.db"}, ("--office", "/no/such/program"), "/no/such/program is no program"),
        )
        for names, words, wanted in table:
            with self.subTest(wanted=wanted):
                status, said, fault = self.started(*words, **names).ended()
                self.assertEqual((status, said, fault.count("\n")), (1, "", 1))
                self.assertIn(wanted, fault)
        self.assertEqual({file: file.read_bytes() for file in before}, before)

    def test_a_wrong_command_line_has_status_2(self):
        table = ((("--name", "king:ana"), "the roles are clerk, second, board, station"),
                 (("--name", "clerk:Ana María"), "Ana María is no name: 1 to 32 letters"),
                 (("--port", "70000"), "'70000' is no port"),
                 (("--name", "clerk:ana", "--name", "board:ANA"), "two have the name ana"),
                 (("--nothing",), "unrecognized arguments: --nothing"))
        for words, wanted in table:
            with self.subTest(words=words):
                status, said, fault = self.started(*words).ended()
                self.assertEqual((status, said), (2, ""))
                self.assertIn(wanted, fault)
        self.assertFalse((self.folder / "evening.db").exists())


if __name__ == "__main__":
    unittest.main()
