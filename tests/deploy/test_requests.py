"""Requests that get to the desk, and those that never do."""

import shutil
import socket
from pathlib import Path
from unittest import mock

from tests.support.case import needs
from tests.support.desks import answering_desk, recording_desk
from tests.support.office import PROFILE, constituency, party_list, station, with_stations
from tests.support.pages import TWIN
from tests.support.proxy import proxy
from tests.support.running import until
from tests.support.scripts import module
from tests.support.site import DEPLOY, NAME, SiteCase, ran


class Requests(SiteCase):
    @needs("nginx", "openssl")
    def test_what_the_desk_gets(self):
        """The target, the body and its length: no password, no cookie, and none of a hundred
        fields."""
        many = {f"X-Field-{n}": "x" * 50 for n in range(100)} | {"Cookie": "a=b"}
        with recording_desk() as (port, messages), proxy(port) as front:
            self.assertEqual(
                front.ask("POST", "/station/s1/lodge", '{"slip":"p1"}', "clara", many).status, 200)
            self.assertEqual(
                front.ask("GET", "/now/con/c1/tally", name="clara", headers=many).status, 200)
            (lodge, body), (tally, nothing) = messages
            self.assertEqual(lodge.split(b"\r\n")[0].split(b" ")[:2],
                             [b"POST", b"/station/s1/lodge"])
            self.assertEqual([line.split(b":")[0].lower() for line in lodge.split(b"\r\n")[1:]],
                             [b"host", b"content-length"])
            self.assertEqual([line.split(b":")[0].lower() for line in tally.split(b"\r\n")[1:]],
                             [b"host", b"connection"])
            self.assertEqual(body, b'{"slip":"p1"}')
            self.assertEqual((tally.split(b"\r\n")[0].split(b" ")[:2], nothing),
                             ([b"GET", b"/con/c1/tally"], b""))

    @needs("nginx", "openssl")
    def test_what_never_gets_to_the_desk(self):
        with recording_desk() as (port, messages), proxy(port) as front:
            (front.folder / "pages/.con-c1.html.new").write_text("half of a page", encoding="utf-8")
            for method, target, status in (
                ("GET", "/favicon.ico", 404), ("GET", "/progress?x=1", 404),
                ("GET", "/con/c1/tally/", 404),
                ("GET", "/con/c1/import", 405), ("GET", "/station/s1/lodge", 405),
                ("POST", "/progress", 405), ("POST", "/con/c1", 405),
                ("PUT", "/station/s1/lodge", 405), ("DELETE", "/con/c1", 405),
                ("POST", "/now/progress", 405), ("POST", "/station/s1/lodge?x=1", 404),
                ("GET", "/station/s%201", 404), ("GET", "/con/c1/nonesuch", 404),
                ("GET", "/../etc/passwd", 400), ("GET", "/.con-c1.html.new", 404),
                ("GET", "/office/staff.htpasswd", 404),
            ):
                with self.subTest(method=method, target=target, status=status):
                    found = front.ask(method, target, name="clara")
                    self.assertEqual(found.status, status, found)
                    self.assertEqual(found.head["Allow"],
                                     {405: "POST" if method == "GET" or method == "PUT" else "GET"
                                      if "now" in target else "GET, HEAD"}.get(status))
            # A target in other letters than its own is none: no way round a role, or past the
            # cache.
            for name in ("clara", "berta"):
                with self.subTest(name=name):
                    self.assertEqual(front.ask("POST", "/con/c1/%63ertify", {}, name).status, 404)
                    self.assertEqual(
                        front.ask("POST", "/station/x/../../con/c1/certify", {}, name).status, 404)
            self.assertEqual(messages, [])

    @needs("nginx", "openssl")
    def test_bodies(self):
        """An import of 1,048,576 bytes gets to the desk and into the record, and one byte more, or
        one in chunks, gets nowhere; so does the trial of one, and not into the record; of any other
        command 16,384 bytes are enough."""
        with recording_desk() as (port, messages), proxy(port) as front:
            # One chunk of two bytes, with an extension that no buffer of the proxy holds.
            head = (f"POST /station/s1/lodge HTTP/1.1\r\nHost: {NAME}\r\n"
                    f"Authorization: {front.authorization('clara')}\r\n"
                    "Transfer-Encoding: chunked\r\nConnection: close\r\n\r\n")
            for extension in ("", f";{'x' * 1_100_000}"):
                with self.subTest(extension=extension):
                    with front.connect() as it:
                        it.sendall(f"{head}2{extension}\r\n{{}}\r\n0\r\n\r\n".encode())
                        self.assertEqual(it.recv(65536)[:13], b"HTTP/1.1 411 ")
            self.assertEqual(messages, [])
            largest = b"x" * 1_048_576
            self.assertEqual(front.ask("POST", "/con/c1/import", largest, "clara").status, 200)
            self.assertEqual([body for _, body in messages], [largest])
            self.assertEqual(front.ask("POST", "/con/c1/import", largest + b"x", "clara").status,
                             413)
            self.assertEqual((len(messages), [line["body"] for line in front.record(1)]),
                             (1, [largest.decode()]))
            self.assertEqual(front.ask("POST", "/con/c1/trial", largest, "clara").status, 200)
            self.assertEqual(front.ask("POST", "/con/c1/trial", largest + b"x", "clara").status,
                             413)
            self.assertEqual(([body for _, body in messages], len(front.record(1))),
                             ([largest] * 2, 1))
            for length, status in ((16_384, 200), (16_385, 413)):
                with self.subTest(length=length, status=status):
                    self.assertEqual(
                        front.ask("POST", "/station/s1/lodge", b"x" * length, "clara").status,
                        status)
            self.assertEqual(len(messages), 3)

    @needs("nginx", "openssl")
    def test_a_command_that_nobody_waits_for(self):
        """Its client is gone: the desk has it all the same, once, and the record has the desk's
        answer."""
        with recording_desk(wait=4.0) as (port, messages), proxy(port) as front:
            body = b'{"rev":1}'
            with front.connect() as it:
                it.sendall((f"POST /station/s1/close HTTP/1.1\r\nHost: {NAME}\r\n"
                            f"Authorization: {front.authorization('clara')}\r\n"
                            f"Content-Length: {len(body)}\r\n\r\n").encode() + body)
                until(lambda: messages)
            line = front.record(1)[0]
            self.assertEqual((line["body"], line["status"], len(messages)), (body.decode(), 200, 1))

    @needs("nginx", "openssl")
    def test_other_letters_of_a_target(self):
        """A table has one name: another way to write it does not get to the desk."""
        with answering_desk(TWIN | {"/con/c1/tally": "a table"}) as (port, asked), proxy(
                port) as front:
            odd = ["/con/c1/%74ally", "/con/c%31/tally", "//con/c1/tally", "/con//c1/tally",
                   "/./con/c1/tally", "/con/x/../c1/tally", "/station/%731", "/%70rogress",
                   "//progress", "/con/c1/tally?", "/con/c1/tally?x", "/station/" + "x" * 17,
                   "/con/" + "x" * 17, "/con/c1/tally%0a"]
            for target in odd:
                with self.subTest(target=target):
                    self.assertEqual(front.ask("GET", target).status, 404)
                    self.assertEqual(front.ask("GET", f"/now{target}", name="clara").status, 404)
                    self.assertNotEqual(front.ask("POST", target, {}, "clara").status, 200)
            self.assertEqual(asked, [])
            self.assertEqual((front.ask("GET", "/con/c1/tally").status, asked),
                             (200, ["/con/c1/tally"]))

    @needs("nginx", "openssl")
    def test_what_this_computer_asks_of_its_own_proxy(self):
        """The certificate is anybody's, as before the first one that others trust."""
        machine, connect = module("site_machine"), socket.create_connection
        with answering_desk(TWIN) as (port, _), proxy(port) as front:
            with mock.patch.object(machine.socket, "create_connection",
                                   lambda *_: connect(("127.0.0.1", front.port), 10)):
                self.assertEqual([machine.status_of(NAME, target)
                                  for target in ("/results", "/nothing")], [200, 404])

    @needs("nginx", "openssl")
    def test_constituencies_that_the_setup_lacks(self):
        """However many a stranger thinks of, in other capitals too, the desk is not asked for any.
        Who has a name gets the office's own answer."""
        Path("setup.toml").write_text(with_stations(2), encoding="utf-8")
        with answering_desk(TWIN) as (port, asked), proxy(port) as front:
            unknown = [f"/con/{code}{table}"
                       for code in ("c2", "s1", "-", "default", "hostnames", "c", "C1")
                       for table in ("", "/tally", "/stations", "/returns")]
            self.assertEqual([front.ask("GET", target).status for target in unknown],
                             [404] * len(unknown))
            self.assertEqual(asked, [])
            known = ["/con/c1", "/con/c1/tally", "/con/c1/stations", "/station/s1",
                     "/station/s3", "/progress", "/country"]
            for target in known:
                front.ask("GET", target, name="clara")
            self.assertEqual(asked, known)
            self.assertEqual((front.ask("GET", "/now/con/c2", name="clara").body,
                              front.ask("POST", "/con/c2/certify", {"edition": 1}, "berta").body),
                             (b"{}", b"{}"))
            self.assertEqual(asked[len(known):], ["/con/c2", "/con/c2/certify"])
        # Two constituencies may have codes that differ in capitals alone.
        shutil.rmtree("proxy")
        Path("setup.toml").write_text(
            PROFILE + constituency("c1", "One", 1, "d0") + party_list("A", "Alpha", "Ana")
            + station("s1") + constituency("C1", "Two", 1, "d0") + party_list("A", "Alpha", "Ana")
            + station("S1"), encoding="utf-8")
        with answering_desk({"/con/c1/tally": "{}", "/con/C1/tally": "{}"}) as (
            port, asked), proxy(port) as front:
            found = [front.ask("GET", f"/con/{code}/tally").status for code in ("c1", "C1", "c2")]
            self.assertEqual((found, asked), ([200, 200, 404], ["/con/c1/tally", "/con/C1/tally"]))
        # A code would be a line of the proxy's configuration.
        for code in ("c1 0;} map $uri $x {default", "c1;", "", "c:1", "x" * 17, "é"):
            with self.subTest(code=code):
                Path("wrong.toml").write_text(with_stations(1).replace('"c1"', f'"{code}"'),
                                              encoding="utf-8")
                self.assertIn("is no code", ran(DEPLOY / "setup-json", "wrong.toml", ".", status=1))
        self.assertFalse(Path("setup.json").exists())

    @needs("nginx", "openssl")
    def test_bodies_where_none_belongs(self):
        """A GET with a body is refused, whatever it asks for and however its length is given."""
        with recording_desk() as (port, messages), proxy(port) as front:
            (front.folder / "pages/index.html").write_text("a page", encoding="utf-8")
            for target, name in (("/progress", None), ("/con/c1/tally", None),
                                 ("/station/s1", None), ("/now/progress", "clara"), ("/", None),
                                 ("/nonesuch", None)):
                with self.subTest(target=target, name=name):
                    self.assertEqual(front.ask("GET", target, b"xx", name).status, 413)
                    chunked = front.ask("GET", target, iter([b"x" * 100]), name)
                    self.assertEqual(chunked.status, 411)
            self.assertEqual(messages, [])
