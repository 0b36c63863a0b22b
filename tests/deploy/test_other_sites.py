"""Other sites, TLS, and the fields that a browser goes by."""

import contextlib
import gzip
import http.server
import os
import re
import shutil
import socket
import ssl
import subprocess
import unittest
from pathlib import Path

from tests.support.case import needs
from tests.support.desks import recording_desk
from tests.support.proxy import Proxy, children, errors, proxy
from tests.support.running import PATIENCE
from tests.support.site import DEPLOY, NAME, SiteCase

# Fields by which a browser names the page that asks, and the statuses of a table, of a read past
# the cache and of a command.
SITES = (
    ({}, 200, 200, 200),
    ({"Sec-Fetch-Site": "same-origin", "Sec-Fetch-Mode": "cors"}, 200, 200, 200),
    ({"Sec-Fetch-Site": "none", "Sec-Fetch-Mode": "navigate"}, 200, 403, 403),
    ({"Sec-Fetch-Site": "cross-site", "Sec-Fetch-Mode": "navigate"}, 200, 403, 403),
    ({"Sec-Fetch-Site": "same-site", "Sec-Fetch-Mode": "navigate"}, 200, 403, 403),
    ({"Sec-Fetch-Site": "cross-site", "Sec-Fetch-Mode": "cors"}, 403, 403, 403),
    ({"Sec-Fetch-Site": "cross-site", "Sec-Fetch-Mode": "no-cors"}, 403, 403, 403),
    ({"Sec-Fetch-Site": "same-site", "Sec-Fetch-Mode": "cors"}, 403, 403, 403),
    ({"Origin": "https://elsewhere.example"}, 403, 403, 403),
    ({"Origin": "null"}, 403, 403, 403),
)


class OtherSites(SiteCase):
    @needs("nginx", "openssl")
    def test_what_another_site_asks(self):
        with recording_desk() as (port, messages), proxy(port) as front:
            own = f"https://{NAME}:{front.port}"
            for target, name in (("/station/s1/lodge", "clara"), ("/con/c1/certify", "berta")):
                with self.subTest(target=target, name=name):
                    for headers in ({"Origin": "https://elsewhere.example"}, {"Origin": "null"},
                                    {"Origin": f"http://{NAME}"},
                                    {"Origin": own + ".elsewhere.example"},
                                    {"Sec-Fetch-Site": "cross-site"},
                                    {"Sec-Fetch-Site": "same-site"}, {"Sec-Fetch-Site": "none"}):
                        with self.subTest(headers=headers):
                            self.assertEqual(front.ask("POST", target, {}, name, headers).status,
                                             403)
                    self.assertEqual(messages, [])
                    for headers in ({"Origin": own},
                                    {"Origin": own, "Sec-Fetch-Site": "same-origin"}, {}):
                        with self.subTest(headers=headers):
                            self.assertEqual(front.ask("POST", target, {}, name, headers).status,
                                             200)
                    self.assertEqual(len(messages), 3)
                    messages.clear()
            elsewhere = {"Sec-Fetch-Site": "cross-site", "Sec-Fetch-Mode": "cors",
                         "Origin": "https://elsewhere.example"}
            self.assertEqual(front.ask("GET", "/progress", headers=elsewhere).status, 403)
            self.assertEqual(front.ask(
                "GET", "/progress",
                headers={"Sec-Fetch-Site": "cross-site", "Sec-Fetch-Mode": "no-cors"}).status, 403)
            self.assertEqual(
                front.ask("GET", "/now/progress", name="clara", headers=elsewhere).status, 403)
            self.assertEqual(messages, [])
            # A link is followed.
            self.assertEqual(front.ask(
                "GET", "/progress",
                headers={"Sec-Fetch-Site": "cross-site", "Sec-Fetch-Mode": "navigate"}).status, 200)
            self.assertNotIn("Access-Control-Allow-Origin", front.ask("GET", "/progress").head)

    @needs("nginx", "openssl")
    def test_another_name_of_the_site(self):
        """A page whose name leads here under another name gets nothing; a reader without TLS is
        sent to it."""
        with recording_desk() as (port, messages), proxy(port) as front:
            front.tls.check_hostname = False
            with self.assertRaises(ssl.SSLError):
                front.connect(name="elsewhere.example").close()
            self.assertEqual(
                front.ask("GET", "/progress", headers={"Host": "elsewhere.example"}).status, 421)
            connection = http.client.HTTPConnection("127.0.0.1", front.plain, timeout=PATIENCE)
            with contextlib.closing(connection):
                connection.request("GET", "/con-c1.html")
                answer = connection.getresponse()
                self.assertEqual((answer.status, answer.headers["Location"]),
                                 (301, f"https://{NAME}:{front.port}/con-c1.html"))
            self.assertEqual(messages, [])

    @needs("nginx", "openssl")
    def test_what_each_answer_carries(self):
        """Pages, tables and refusals have the same fields that a browser goes by, each once, and
        TLS is of the newest version."""
        once = {"Strict-Transport-Security": "max-age=31536000",
                "X-Content-Type-Options": "nosniff", "X-Frame-Options": "DENY",
                "Referrer-Policy": "no-referrer"}
        with recording_desk() as (port, _), proxy(port) as front:
            (front.folder / "pages/index.html").write_text("a page", encoding="utf-8")
            for method, target, name, status, kept in (
                ("GET", "/", None, 200, "max-age=5"), ("GET", "/progress", None, 200, "max-age=1"),
                ("GET", "/clerk.html", "clara", 200, "no-store"),
                ("HEAD", "/clerk.html", "clara", 200, "no-store"),
                ("GET", "/clerk.html", None, 401, "no-store"),
                ("GET", "/nonesuch/x", None, 404, "no-store"),
                ("POST", "/station/s1/close", "clara", 200, "no-store"),
                ("POST", "/station/s1/close", "berta", 403, "no-store"),
                ("POST", "/progress", None, 405, "no-store"),
                ("POST", "/now/progress", "clara", 405, "no-store"),
                ("PUT", "/station/s1/close", "clara", 405, "no-store"),
            ):
                with self.subTest(method=method, target=target, name=name, status=status):
                    found = front.ask(method, target, name=name)
                    self.assertEqual(found.status, status)
                    for field, value in (once | {"Cache-Control": kept}).items():
                        with self.subTest(field=field, value=value):
                            self.assertEqual(found.head.get_all(field), [value])
            with front.connect() as it:
                self.assertEqual(it.version(), "TLSv1.3")

    @needs("nginx", "openssl")
    def test_versions_and_sessions_of_tls(self):
        """TLS 1.2 and 1.3 alone; a browser that comes again goes on with its session, which the
        proxy keeps and no ticket has."""
        with recording_desk() as (port, _), proxy(port) as front:
            def connected(version, session=None):
                tls = ssl.create_default_context(cafile=front.folder / "office/certificate.pem")
                tls.set_ciphers("DEFAULT:@SECLEVEL=0")
                tls.minimum_version = tls.maximum_version = version
                contexts[version] = tls = contexts.get(version, tls)
                there = socket.create_connection(("127.0.0.1", front.port), timeout=PATIENCE)
                return tls.wrap_socket(there, server_hostname=NAME, session=session)

            contexts = {}
            for version in (ssl.TLSVersion.TLSv1, ssl.TLSVersion.TLSv1_1):
                with self.subTest(version=version):
                    with self.assertRaises((ssl.SSLError, ConnectionResetError)):
                        connected(version).close()
            with connected(ssl.TLSVersion.TLSv1_2) as it:
                session = it.session
                self.assertEqual((it.session_reused, session.has_ticket), (False, False))
            with connected(ssl.TLSVersion.TLSv1_2, session) as it:
                self.assertTrue(it.session_reused)
            with connected(ssl.TLSVersion.TLSv1_3) as it:
                self.assertEqual(it.version(), "TLSv1.3")

    @needs("nginx", "openssl")
    def test_what_kind_each_file_is(self):
        kinds = {"index.html": "text/html; charset=utf-8", "results.csv": "text/csv; charset=utf-8",
                 "index.json": "application/json; charset=utf-8", "map.png": "image/png",
                 "style.css": "text/css; charset=utf-8", "SHA256SUMS": "text/plain; charset=utf-8",
                 "office.db": "application/vnd.sqlite3"}
        with recording_desk() as (port, _), proxy(port) as front:
            for name, kind in kinds.items():
                with self.subTest(name=name, kind=kind):
                    (front.folder / "pages" / name).write_text("á", encoding="utf-8")
                    found = front.ask("GET", f"/{name}")
                    self.assertEqual((found.status, found.head["Content-Type"], found.body),
                                     (200, kind, "á".encode()))
            self.assertEqual(front.ask("GET", "/").head["Content-Type"], kinds["index.html"])
            # Who takes it so gets the compressed file that is beside.
            (front.folder / "pages/results.csv.gz").write_bytes(gzip.compress(b"another"))
            for accepted, kind, body in (
                ({}, None, "á".encode()),
                ({"Accept-Encoding": "gzip"}, "gzip", gzip.compress(b"another"))):
                with self.subTest(accepted=accepted, kind=kind, body=body):
                    found = front.ask("GET", "/results.csv", headers=accepted)
                    self.assertEqual(
                        (found.head["Content-Encoding"], found.head["Vary"], found.body[10:]),
                        (kind, "Accept-Encoding", body[10:]))

    @needs("nginx", "openssl")
    def test_a_link_among_the_pages(self):
        """It leads nowhere, plain or compressed, to a file or to a folder, within the pages too."""
        with recording_desk() as (port, _), proxy(port) as front:
            pages = front.folder / "pages"
            (pages / "results.csv").write_text("con", encoding="utf-8")
            for name, to in (("a.csv", front.folder / "office/staff.htpasswd"),
                             ("b.csv", "results.csv"), ("c.csv", "b.csv"),
                             ("d.csv.gz", front.folder / "office/key.pem"),
                             ("d.csv", "results.csv"),
                             ("index.html", front.folder / "office/staff.htpasswd"),
                             ("folder", front.folder / "office")):
                os.symlink(to, pages / name)
            for target in ("/a.csv", "/b.csv", "/c.csv", "/d.csv", "/", "/index.html",
                           "/folder/staff.htpasswd", "/folder/", "/folder"):
                with self.subTest(target=target):
                    for headers in ({}, {"Accept-Encoding": "gzip"}):
                        with self.subTest(headers=headers):
                            found = front.ask("GET", target, headers=headers)
                            self.assertEqual((found.status, b"nginx" in found.body),
                                             (404 if target.startswith("/folder/") else 403, True))
            self.assertEqual(front.ask("GET", "/results.csv").body, b"con")

    @needs("nginx", "openssl")
    def test_how_long_an_answer_lasts(self):
        """Tables for a second, files of the pages for five, all else not at all."""
        with recording_desk() as (port, _), proxy(port) as front:
            for name in ("index.html", "results.csv", "index.json", "con-C_1.html", "map.png",
                         "other.txt"):
                (front.folder / "pages" / name).write_text("x", encoding="utf-8")
            lasts = {"/progress": "max-age=1", "/station/s1": "no-store", "/con/c1": "max-age=1",
                     "/con/c1/tally": "max-age=1", "/": "max-age=5", "/country": "max-age=1",
                     "/index.html": "max-age=5", "/results.csv": "max-age=5",
                     "/index.json": "max-age=5", "/con-C_1.html": "max-age=5",
                     "/map.png": "max-age=5", "/other.txt": "no-store", "/nonesuch": "no-store"}
            for target, wanted in lasts.items():
                with self.subTest(target=target, wanted=wanted):
                    for method in ("GET", "HEAD"):
                        with self.subTest(method=method):
                            self.assertEqual(
                                front.ask(method, target).head.get_all("Cache-Control"), [wanted])
            for target in ("/now/station/s1", "/now/con/c1", "/now/progress", "/clerk.html"):
                with self.subTest(target=target):
                    self.assertEqual(
                        front.ask("GET", target, name="clara").head.get_all("Cache-Control"),
                        ["no-store"])

    @needs("nginx", "openssl", "sed")
    def test_a_machine_with_ipv6(self):
        """README.md's line has each server listen on both; who comes over IPv6 is served, and
        recorded with the address."""
        page, file = (DEPLOY / "README.md").read_text(encoding="utf-8"), Path("nginx.conf")
        [line] = re.findall("`(sed -i '[^`]*' )/etc/nginx/nginx.conf`", page)
        listens = lambda text: re.findall("^ *listen (.*);$", text, re.M)
        shutil.copy(DEPLOY / "nginx.conf", file)
        before = listens(file.read_text(encoding="utf-8"))
        subprocess.run(["sh", "-c", f"{line} nginx.conf"], check=True, timeout=PATIENCE)
        self.assertEqual(listens(file.read_text(encoding="utf-8")),
                         [both for one in before for both in (one, f"[::]:{one}")])
        try:
            socket.create_server(("::1", 0), family=socket.AF_INET6).close()
        except OSError:
            raise unittest.SkipTest("this machine has no IPv6")
        with recording_desk() as (port, _):
            front = Proxy(port)
            front.configure()
            file = front.folder / "nginx.conf"
            file.write_text(re.sub(r"listen 127\.0\.0\.1:(.*);", r"\g<0> listen [::1]:\1;",
                                   file.read_text(encoding="utf-8")), encoding="utf-8")
            try:
                front.start()
                with front.tls.wrap_socket(
                    socket.create_connection(("::1", front.port), timeout=PATIENCE),
                    server_hostname=NAME) as it:
                    it.sendall(f"POST /con/c1/certify HTTP/1.1\r\nHost: {NAME}\r\n"
                               f"Authorization: {front.authorization('berta')}\r\n"
                               "Content-Length: 0\r\n\r\n".encode())
                    self.assertTrue(it.recv(65536).startswith(b"HTTP/1.1 200 "))
                self.assertEqual(front.record(1)[0]["address"], "::1")
            finally:
                front.end()

    @needs("nginx", "openssl")
    def test_pages_of_other_sites(self):
        with recording_desk() as (port, _), proxy(port) as front:
            for headers, table, read, command in SITES:
                with self.subTest(headers=headers, table=table, read=read, command=command):
                    found = (front.ask("GET", "/con/c1", headers=headers).status,
                             front.ask("GET", "/now/con/c1", name="clara", headers=headers).status,
                             front.ask("POST", "/station/s1/close", {}, "clara", headers).status)
                    self.assertEqual(found, (table, read, command))

    @needs("nginx", "openssl")
    def test_what_the_proxy_tells_and_writes(self):
        """Nobody gets to know which version it is; who reads is written nowhere, nor what is not
        there; it has no file open elsewhere."""
        with recording_desk() as (port, _), proxy(port) as front:
            (front.folder / "pages/index.html").write_text("a page", encoding="utf-8")
            for target in ("/", "/nonesuch", "/nonesuch/x.html", "/progress?x", "/con/c1",
                           "/.hidden"):
                with self.subTest(target=target):
                    found = front.ask("GET", target)
                    self.assertEqual((found.head["Server"], re.findall(rb"nginx/\d", found.body)),
                                     ("nginx", []))
            self.assertEqual(errors(front), "")
            for process in (front.process.pid, *children(front)):
                with self.subTest(process=process):
                    for link in Path(f"/proc/{process}/fd").iterdir():
                        file = os.readlink(link)
                        self.assertTrue(not file.startswith("/")
                                        or file.startswith((str(front.folder), "/dev/", "/memfd")),
                                        file)
            self.assertEqual(sorted(os.listdir(front.folder / "temporary")),
                             ["answers", "body", "fastcgi", "proxy", "scgi", "uwsgi"])
            self.assertEqual(
                {file.name: file.stat().st_size for file in (front.folder / "log").iterdir()},
                {"error.log": 0, "refused.log": 0, "recorder": 0, "reader": 0, "commands.log": 0})
