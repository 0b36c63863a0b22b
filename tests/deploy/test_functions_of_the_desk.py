"""The server of `desk` at its edges: who gets an answer, which one, and what is asked of the reader
and the recorder. No desk is started.
"""

import contextlib
import dataclasses
import hashlib
import http.client
import io
import os
import socket
import threading
from pathlib import Path
from string import Template
from types import SimpleNamespace
from unittest import mock

from tests.support.case import Case
from tests.support.scripts import loaded

SECRET, HOST = "a-secret", "127.0.0.1:7000"
COOKIE = f"office-7000={SECRET}"
SETUP = b'[{"code": "c1"}]'
HEADS = {"cache-control": "no-store", "x-content-type-options": "nosniff",
         "x-frame-options": "DENY", "referrer-policy": "no-referrer",
         "cross-origin-opener-policy": "same-origin",
         "cross-origin-resource-policy": "same-origin"}


class OfTheDesk(Case):
    """A door of a name, and what its answers are made of."""

    def setUp(self):
        super().setUp()
        self.desk, self.asked = loaded("desk_server.py"), []
        self.desk.asked = self.answer_of_others
        pages = Path.cwd() / "pages"
        pages.mkdir()
        self.house = self.desk.House(
            reader=Path("reader.sock"), recorder=Path("recorder.sock"), pages=pages, setup=SETUP,
            clerk="<title>C</title><body>clerks", enter=Template("<body>for $name"), banner="",
            policy="default-src 'none'", peers=None, gate=self.desk.Gate())
        self.person = self.desk.Person("clara", "clerk", SECRET)

    def answer_of_others(self, *words):
        self.asked.append(words)
        return 200, b"a report", "text/plain"

    def exchanged(self, request):
        """The status, the heads and the body of the answer to a request, after which its client
        sends no more."""
        ours, theirs = socket.socketpair()
        server = SimpleNamespace(person=self.person, host=HOST, cookie="office-7000",
                                 house=self.house)

        def send():
            with contextlib.suppress(OSError):
                ours.sendall(request)
                ours.shutdown(socket.SHUT_WR)

        # (a long request does not fit into a socket)
        sender = threading.Thread(target=send)
        with ours:
            with theirs:
                sender.start()
                self.desk.Handler(theirs, ("127.0.0.9", 5), server)
            sender.join()
            text = ours.makefile("rb").read()
        head, _, body = text.partition(b"\r\n\r\n")
        line, *heads = head.decode().split("\r\n")
        heads = {name.lower(): value for name, value in (head.split(": ", 1) for head in heads)}
        if line:
            self.assertEqual({name: heads.pop(name) for name in HEADS}, HEADS)
        return int(line.split()[1]) if line else None, heads, body

    def ask(self, method, target, body=None, **heads):
        """Asks as a page of this door does. A head of None is left out, and each value of a list is
        a head."""
        usual = {"Host": HOST, "Cookie": COOKIE}
        if body is not None:
            usual["Content-Length"] = str(len(body))
        usual |= {name.replace("_", "-"): value for name, value in heads.items()}
        lines = [f"{name}: {one}" for name, value in usual.items() if value is not None
                 for one in (value if isinstance(value, list) else [value])]
        self.asked.clear()
        text = "\r\n".join([f"{method} {target} HTTP/1.0", *lines, "", ""])
        return self.exchanged(text.encode() + (body or b""))


class WhoAsks(OfTheDesk):
    def test_who_gets_anything(self):
        """Whoever has the cookie, by the address of this door, from a page of it or by hand."""
        own = f"http://{HOST}"
        for heads, status in (
                ({}, 200), ({"Host": "127.0.0.1:7001"}, 421), ({"Host": None}, 421),
                ({"Host": [HOST, HOST]}, 421), ({"Cookie": None}, 403),
                ({"Cookie": f"office-7000=x{SECRET}"}, 403),
                ({"Cookie": f"office-7001={SECRET}"}, 403), ({"Cookie": "office-7000="}, 403),
                ({"Cookie": f"a=b; {COOKIE}"}, 200), ({"Cookie": f"{COOKIE};a=b"}, 200),
                ({"Cookie": ["a=b", COOKIE]}, 200), ({"Origin": own}, 200),
                ({"Origin": "http://other"}, 403), ({"Origin": "null"}, 403),
                ({"Sec_Fetch_Site": "same-origin"}, 200), ({"Sec_Fetch_Site": "none"}, 200),
                ({"Sec_Fetch_Site": "cross-site"}, 403), ({"Sec_Fetch_Site": "same-site"}, 403),
                ({"Origin": own, "Sec_Fetch_Site": "cross-site"}, 403),
                ({"Origin": "http://other", "Sec_Fetch_Site": "same-origin"}, 403)):
            with self.subTest(heads=heads):
                found = self.ask("GET", "/progress", **heads)
                self.assertEqual((found[0], found[2]),
                                 (status, b"a report" if status == 200 else b""))
                self.assertEqual(len(self.asked), status == 200)

    def test_the_address_of_a_name(self):
        """It gives its cookie, wherever the link to it was."""
        for method, secret, heads, status in (
                ("GET", SECRET, {}, 200), ("GET", SECRET, {"Sec_Fetch_Site": "cross-site"}, 200),
                ("GET", SECRET, {"Sec_Fetch_Site": "same-site"}, 200),
                ("GET", SECRET, {"Sec_Fetch_Site": "none"}, 200),
                ("GET", SECRET, {"Sec_Fetch_Site": "other"}, 403),
                ("GET", SECRET, {"Origin": "http://other"}, 403),
                ("HEAD", SECRET, {}, 403), ("POST", SECRET, {}, 403), ("GET", "other", {}, 403),
                ("GET", "", {}, 403), ("GET", SECRET, {"Host": "other"}, 421)):
            with self.subTest(method=method, secret=secret, heads=heads):
                found, its, body = self.ask(method, f"/enter/{secret}", Cookie=None, **heads)
                self.assertEqual(found, status)
                cookie = f"{COOKIE}; Path=/; HttpOnly; SameSite=Strict"
                self.assertEqual(its.get("set-cookie"), cookie if status == 200 else None)
                self.assertEqual(body, b"<body>for clara" if status == 200 else b"")

    def test_what_is_asked(self):
        """In this order: how long it is, whether it is there, whether a page asks, and how."""
        from_page = {"Sec_Fetch_Site": "same-origin"}
        for method, target, body, heads, status in (
                ("GET", "/progress", b"", {}, 200), ("GET", "/progress", b"x", {}, 413),
                ("GET", "/none/none", b"", {}, 404), ("GET", "/none/none", b"x", {}, 413),
                ("GET", "/progress?x", b"", {}, 404),
                ("GET", "/progress", None, {"Transfer_Encoding": "chunked"}, 411),
                ("GET", "/progress", None, {"Content_Length": "-1"}, 400),
                ("GET", "/progress", None, {"Content_Length": ["0", "0"]}, 400),
                ("GET", "/progress", None, {"Content_Length": "0000000000000"}, 400),
                ("GET", "/progress", None, {"Content_Length": "000000000000"}, 200),
                ("GET", "/progress", None, {"Content_Length": ""}, 400),
                ("POST", "/progress", b"", {}, 405), ("HEAD", "/progress", None, {}, 200),
                ("GET", "/now/progress", None, from_page, 200),
                ("GET", "/now/progress", None, {"Sec_Fetch_Site": "none"}, 403),
                ("GET", "/progress", None, {"Sec_Fetch_Site": "none"}, 200),
                ("HEAD", "/now/progress", None, from_page, 405),
                ("POST", "/station/s1/lodge", b"x" * 16_384, {}, 200),
                ("POST", "/station/s1/lodge", b"x" * 16_385, {}, 413),
                ("GET", "/station/s1/lodge", None, {}, 405),
                ("POST", "/con/c1/import", b"x" * 1_048_576, {}, 200),
                ("POST", "/con/c1/import", b"x" * 1_048_577, {}, 413),
                ("DELETE", "/progress", None, {}, 405), ("OPTIONS", "/progress", None, {}, 405)):
            with self.subTest(method=method, target=target, heads=heads):
                found, its, said = self.ask(method, target, body, **heads)
                self.assertEqual(found, status)
                if status == 405:
                    allowed = {"/progress": "GET, HEAD", "/now/progress": "GET"}
                    self.assertEqual(its["allow"], allowed.get(target, "POST"))
                if method == "HEAD" and status == 200:
                    self.assertEqual((its["content-length"], said), ("8", b""))

    def test_how_much_of_a_refused_body_is_read(self):
        """So that its sender reads the answer: 64 MB of a name, and 16 KB of a stranger."""
        for is_known, left, wanted in ((True, 7, 7), (True, 67_108_864, 67_108_864),
                                       (True, 67_108_865, 67_108_864), (False, 16_384, 16_384),
                                       (False, 16_385, 16_384), (False, 0, 0), (False, 1, 1),
                                       (True, -1, 0)):
            with self.subTest(is_known=is_known, left=left):
                it, read, parts = self.desk.Handler.__new__(self.desk.Handler), [0], set()

                def more(size, read=read, parts=parts):
                    parts.add(size)
                    read[0] += size
                    return b"x" * size

                it.left, it.is_known, it.rfile = left, is_known, SimpleNamespace(read=more)
                it.read_rest()
                it.read_rest()
                self.assertEqual((read[0], it.left, max(parts, default=0) <= 65_536),
                                 (wanted, 0, True))
        # One that ends before is not waited for.
        it.left, it.rfile = 9, io.BytesIO(b"xyz")
        it.read_rest()
        self.assertEqual(it.rfile.read(), b"")


    def test_whose_answer_waits_for_what(self):
        """That of a stranger for no more than the first part of a long body; that of a name for all
        of it, and for no more."""
        lines = f" HTTP/1.0\r\nHost: {HOST}\r\nContent-Length: %d\r\n"
        name = f"{lines}Cookie: {COOKIE}\r\n\r\n"
        for request, status in (
                (f"POST /progress{lines}\r\n" % 16_385 + "x" * 16_384, b"403"),
                ("NONE / HTTP/1.0\r\n\r\n", b"501"), ("GET /progress" + name % 0, b"200"),
                ("POST /station/s1/lodge" + name % 2 + "{}", b"200"),
                ("POST /progress" + name % 60_000 + "x" * 60_000, b"413")):
            ours, theirs = socket.socketpair()
            server = SimpleNamespace(person=self.person, host=HOST, cookie="office-7000",
                                     house=self.house)
            with ours:
                with theirs:
                    ours.sendall(request.encode())
                    self.desk.Handler(theirs, ("127.0.0.9", 5), server)
                    theirs.setblocking(False)
                    # (nothing that was sent is left)
                    self.assertRaises(BlockingIOError, theirs.recv, 1)
                self.assertEqual(ours.recv(65_536).split(b" ")[1:2], [status])

    def test_one_request_of_a_connection(self):
        heads = f"Host: {HOST}\r\nCookie: {COOKIE}\r\nConnection: keep-alive\r\n\r\n"
        _, _, body = self.exchanged(f"GET /progress HTTP/1.1\r\n{heads}".encode() * 2)
        self.assertEqual((body, len(self.asked)), (b"a report", 1))


class WhatIsThere(OfTheDesk):
    def test_pages_and_the_setup(self):
        person = {"x-office-name": "clara", "x-office-role": "clerk"}
        html = "text/html; charset=utf-8"
        for target, status, kind, body, more in (
                ("/clerk.html", 200, html, b"<title>C</title><body>clerks", person),
                ("/clerk.html?x", 200, html, b"<title>C</title><body>clerks", person),
                ("/setup.json", 200, "application/json", SETUP, {}),
                ("/logout", 204, None, b"",
                 {"set-cookie": "office-7000=; Path=/; HttpOnly; SameSite=Strict; Max-Age=0"})):
            with self.subTest(target=target):
                found, heads, said = self.ask("GET", target, Sec_Fetch_Site="same-origin")
                self.assertEqual((found, heads.get("content-type"), said), (status, kind, body))
                for name, value in more.items():
                    self.assertEqual(heads[name], value)
        self.assertEqual(self.ask("GET", "/logout", Sec_Fetch_Site="none")[0], 403)

    def test_press_pages(self):
        """Each with its kind and the policy of the press pages; a link is none."""
        kinds = {"index.html": "text/html; charset=utf-8", "a.csv": "text/csv; charset=utf-8",
                 "a.json": "application/json", "feed.atom": "application/atom+xml",
                 "a.svg": "image/svg+xml", "a.png": "image/png", "a.pdf": "application/pdf",
                 "a.bin": "application/octet-stream", "a": "application/octet-stream",
                 "es/index.html": "text/html; charset=utf-8"}
        (self.house.pages / "es").mkdir()
        (self.house.pages / "folder").mkdir()
        (self.house.pages / "link.csv").symlink_to("a.csv")
        for name in kinds:
            (self.house.pages / name).write_bytes(b"<body>" + name.encode())
        for target, name in (*((f"/{name}", name) for name in kinds), ("/", "index.html"),
                             ("/es/", "es/index.html"), ("/a.csv?x", "a.csv")):
            with self.subTest(target=target):
                status, heads, body = self.ask("GET", target)
                self.assertEqual((status, body), (200, b"<body>" + name.encode()))
                self.assertEqual((heads["content-type"], heads["content-security-policy"],
                                  heads["content-length"]),
                                 (kinds[name], "default-src 'none'", str(len(body))))
        for target in ("/none.csv", "/link.csv", "/folder", "/xx/"):
            self.assertEqual(self.ask("GET", target)[0], 404)
        with mock.patch.object(Path, "read_bytes", mock.Mock(side_effect=OSError)):
            self.assertEqual(self.ask("GET", "/a.csv")[0], 404)

    def test_a_trial(self):
        """Each page begins with the banner, and its title with its first words."""
        banner = "<p><strong>A trial</strong> <strong>of it</strong></p>"
        for page, wanted in (
                ("<title>C</title><body class='a'>b<body>", f"<title>A trial: C</title>"
                                                            f"<body class='a'>{banner}b<body>"),
                ("<title>C<title>D", "<title>A trial: C<title>D"), ("ñ", "ñ")):
            self.assertEqual(self.desk.with_banner(page.encode(), banner).decode(), wanted)
        self.assertEqual(self.desk.with_banner(b"<title>C<body>", "<p>"), b"<title>C<body><p>")
        self.house = dataclasses.replace(self.house, banner=banner)
        (self.house.pages / "index.html").write_bytes(b"<body>x")
        (self.house.pages / "a.csv").write_bytes(b"<body>x")
        for target, body in (("/", f"<body>{banner}x"), ("/a.csv", "<body>x"),
                             ("/clerk.html", f"<title>A trial: C</title><body>{banner}clerks")):
            self.assertEqual(self.ask("GET", target)[2].decode(), body)


class Passed(OfTheDesk):
    """Requests to the reader and the recorder."""

    def fields(self, target, method="GET", body=None, **heads):
        """Whom it asked, how and for what, and the fields."""
        status, its, said = self.ask(method, target, body, Sec_Fetch_Site="same-origin", **heads)
        self.assertEqual((status, its["content-type"], said), (200, "text/plain", b"a report"))
        [(file, *words, fields)] = self.asked
        return [file.stem, *words], fields

    def test_reports(self):
        """A report of provisional seats is there for who sees them before the others."""
        for role, target, hidden, allowed, there in (
                ("clerk", "/progress", True, "1", "1"), ("clerk", "/results", True, "1", "1"),
                ("second", "/results", True, "1", "0"), ("second", "/results", False, "1", "1"),
                ("board", "/con/c1/result", True, "1", "1"),
                ("station", "/con/c1/provisional", True, "1", "0"),
                ("station", "/con/c1/tally", True, "1", "1"),
                ("clerk", "/station/s1", True, "1", "1"), ("second", "/station/s1", True, "0", "1"),
                ("second", "/con/c1/returns", True, "0", "1")):
            with self.subTest(role=role, target=target, hidden=hidden):
                self.person = self.desk.Person("clara", role, SECRET)
                shown = self.house.pages / ".provisional"
                shown.unlink(missing_ok=True) if hidden else shown.touch()
                for at in (target, f"/now{target}"):
                    if at == "/now/con/c1/returns":
                        continue
                    asked, fields = self.fields(at)
                    self.assertEqual(asked, ["reader", "GET", target, None])
                    self.assertEqual(fields, {"Office-Allowed": allowed, "Office-There": there})

    def test_what_names_ask_for(self):
        who = {"Office-Name": "sara", "Office-Role": "second"}
        self.person = self.desk.Person("sara", "second", SECRET)
        for target, asked, more in (
                ("/now/con/c1/stations", ["reader", "GET", "/stations/c1", None], {}),
                ("/now/con/c1/returns", ["reader", "GET", "/returns/c1", None], {}),
                ("/now/station/s1/history", ["recorder", "GET", "/history/s1", None],
                 {"Office-Allowed": "1"}),
                ("/now/con/c1/typed", ["recorder", "GET", "/typed/c1", None],
                 {"Office-Allowed": "1"})):
            with self.subTest(target=target):
                self.assertEqual(self.fields(target), (asked, who | more))
        self.person = self.desk.Person("s1", "station", SECRET)
        for target in ("/now/station/s1/history", "/now/con/c1/typed"):
            self.assertEqual(self.fields(target)[1]["Office-Allowed"], "0")

    def test_commands(self):
        """With the name, the role and the address of who gives them."""
        for role, name, target, allowed in (
                ("clerk", "clara", "/station/s1/lodge", "1"),
                ("clerk", "clara", "/con/c1/draw", "0"), ("board", "berta", "/con/c1/draw", "1"),
                ("station", "s1", "/station/s1/lodge", "1"),
                ("station", "s2", "/station/s1/lodge", "0"),
                ("clerk", "clara", "/con/c1/import/semicolon", "1")):
            with self.subTest(role=role, target=target):
                self.person = self.desk.Person(name, role, SECRET)
                asked, fields = self.fields(target, "POST", b"{}")
                self.assertEqual(asked, ["recorder", "POST", target, b"{}"])
                self.assertEqual(fields, {
                    "Office-Name": name, "Office-Role": role, "Office-Address": "127.0.0.9",
                    "Office-Allowed": allowed})

    def test_a_page_of_another_setup(self):
        own = hashlib.sha256(SETUP).hexdigest()
        for said, status in ((None, 200), (own, 200), ("a" * 64, 409), ("", 409)):
            found = self.ask("POST", "/station/s1/lodge", b"{}", Office_Setup=said)
            self.assertEqual((found[0], len(self.asked)), (status, status == 200))

    def test_a_command_that_was_cut(self):
        """It is not answered, and nobody hears of it."""
        for length, status in ((2, 200), (3, None)):
            found = self.ask("POST", "/station/s1/lodge", b"{}", Content_Length=str(length))
            self.assertEqual((found[0], len(self.asked)), (status, status == 200))

    def test_a_gate_that_is_shut(self):
        self.house.gate.shut(0)
        self.assertEqual(self.ask("POST", "/station/s1/lodge", b"{}")[0], 503)
        self.assertEqual(self.asked, [])
        self.assertEqual(self.ask("GET", "/progress")[0], 200)

    def test_what_a_gate_waits_for(self):
        """For all that is under way, no longer than is said."""
        gate, seen = self.desk.Gate(), []
        gate.condition.wait_for = lambda is_over, seconds: seen.append((is_over(), seconds))
        with gate.passed() as first:
            with gate.passed() as second:
                gate.shut(30)
                with gate.passed() as third:
                    gate.shut(7)
            gate.shut(30)
        gate.shut(30)
        self.assertEqual((first, second, third), (True, True, False))
        self.assertEqual(seen, [(False, 30), (False, 7), (False, 30), (True, 30)])


class Others(OfTheDesk):
    def test_an_answer_of_others(self):
        """502 where there is none; an import has its time."""
        asked = loaded("desk_server.py").asked
        self.assertEqual(asked("none.sock", "GET", "/progress", None, {}), (502, b"", None))
        self.assertEqual(self.desk.ToSocket("none.sock").timeout, 400)
        answer = SimpleNamespace(status=201, read=lambda: b"x", getheader=lambda _: "a/b")
        for found, wanted in ((answer, (201, b"x", "a/b")), (OSError(), (502, b"", None)),
                              (http.client.BadStatusLine("x"), (502, b"", None))):
            with mock.patch.multiple(
                    http.client.HTTPConnection, request=lambda *_: None,
                    getresponse=mock.Mock(side_effect=[found])):
                self.assertEqual(asked("a.sock", "GET", "/", None, {}), wanted)

    def test_a_door(self):
        """A port of this computer; another user's program is not answered, nor one beside too many
        others."""
        door = self.desk.Door(self.person, 0)
        with contextlib.closing(door.socket):
            address, port = door.socket.getsockname()
            self.assertEqual((address, door.own), ("127.0.0.1", ("127.0.0.1", port)))
            self.assertEqual((door.host, door.cookie, door.address), (
                f"127.0.0.1:{port}", f"office-{port}", f"http://127.0.0.1:{port}/enter/{SECRET}"))
            # What it does for a client ends with it, and its port can be taken again at once.
            reused = door.socket.getsockopt(socket.SOL_SOCKET, socket.SO_REUSEADDR)
            self.assertEqual((door.daemon_threads, reused), (True, 1))
            for others, is_ours, wanted in ((199, True, True), (200, True, False),
                                            (199, False, False), (1, False, False)):
                given = []
                door.house = SimpleNamespace(peers=SimpleNamespace(
                    is_of_us=lambda *them, is_ours=is_ours, given=given: given.append(them)
                    or is_ours))
                with mock.patch.object(threading, "active_count", lambda others=others: others):
                    self.assertEqual(door.verify_request(None, ("127.0.0.1", 9)), wanted)
                self.assertEqual(given, [(("127.0.0.1", 9), door.own)] * (others < 200))

    def test_what_went_wrong(self):
        """It is said without what was asked; a client that went away is nothing."""
        for error, said in ((ValueError("a-secret"), "desk: no answer: ValueError\n"),
                            (ConnectionResetError(), ""), (TimeoutError(), "")):
            with contextlib.redirect_stderr(io.StringIO()) as printed:
                try:
                    raise error
                except type(error):
                    self.desk.Door.handle_error(None)
            self.assertEqual(printed.getvalue(), said)

    def test_whose_programs_are_answered(self):
        self.assertEqual(self.desk.users_of_this(), {os.getuid(), 0})
        with mock.patch.object(os, "getuid", lambda: 1000):
            self.assertEqual(self.desk.users_of_this(), {1000, 0})
