"""Names, passwords and logging out."""

import base64
import concurrent.futures
import hashlib
import os
import re
import resource
import stat
import subprocess
from pathlib import Path

from tests.support import browser
from tests.support.case import needs
from tests.support.clerks import SLIP, choose_station, office_with_pages, said, type_slip
from tests.support.desks import recording_desk
from tests.support.office import with_stations
from tests.support.proxy import password, proxy
from tests.support.running import PATIENCE, until
from tests.support.site import BOTH, DEPLOY, NAME, SiteCase


class Passwords(SiteCase):
    @needs("nginx", "openssl")
    def test_a_forgotten_password(self):
        """A new one takes the place of the old one, which is good no more; those of others stay."""
        with recording_desk() as (port, _), proxy(port) as front:
            old = dict(front.passwords)
            front.name("staff", "clara")
            self.assertNotEqual(front.passwords["clara"], old["clara"])
            self.assertGreaterEqual(len(front.passwords["clara"]), 16)
            self.assertEqual(
                front.ask("POST", "/station/s1/close", {}, "clara", password=old["clara"]).status,
                401)
            self.assertEqual([front.ask("POST", "/station/s1/close", {}, name).status
                              for name in ("clara", "bruno")], [200, 200])

    @needs("nginx", "openssl")
    def test_a_name_that_is_written_otherwise(self):
        """The proxy gives it its role whatever the case of its letters: the password of the former
        one is good no more, so nobody is two names of the board."""
        with recording_desk() as (port, _), proxy(port) as front:
            conf = front.folder / "office/staff.conf"
            conf.write_text(conf.read_text().replace("berta board", "Berta board"))
            front.end()
            front.start()
            self.assertEqual([front.ask("POST", "/con/c1/certify", {}, name).status
                              for name in ("berta", "Berta")], [200, 401])
            front.name("staff", "Berta")
            self.assertEqual([front.ask("POST", "/con/c1/certify", {}, name).status
                              for name in ("berta", "Berta")], [401, 200])

    @needs("nginx", "openssl")
    def test_passwords_of_names_like_numbers(self):
        """Names that are one number are two names; and a hash is a fast one, since the proxy
        computes it for each request."""
        names = ("007", "7", "1e2", "100")
        with recording_desk() as (port, _), proxy(port) as front:
            for name in names:
                front.name("stations", name)
            self.assertEqual(
                [front.ask("POST", f"/station/{name}/lodge", {}, name).status for name in names],
                [200] * 4)
            self.assertEqual(front.ask("POST", "/station/7/lodge", {}, "7",
                                       password=front.passwords["007"]).status, 401)
            for file in (front.folder / "office/stations").iterdir():
                name, hashed = file.read_text().split(":{SSHA}")
                self.assertEqual(name, file.name)
                salted = base64.b64decode(hashed)
                self.assertEqual(
                    hashlib.sha1(front.passwords[name].encode() + salted[20:]).digest(),
                    salted[:20])

    @needs("nginx", "openssl")
    def test_what_a_stranger_learns_of_names(self):
        """A wrong password is answered alike for every name and every command, and what is no name
        gets into no log."""
        with recording_desk() as (port, messages), proxy(port) as front:
            front.name("stations", "s1")
            found = {front.ask("POST", target, {}, name, password="guess",
                               source=f"127.0.10.{number}").status
                     for number, name in enumerate(("clara", "berta", "s1", "nobody-9"), 1)
                     for target in ("/station/s1/lodge", "/station/s1/close", "/con/c1/certify",
                                    "/con/c1/import")}
            self.assertEqual(found, {401})
            before = (front.folder / "log/error.log").read_text()
            for name in ("x\ny", "x\x1b[31m", "clara\n", "clara ", "", "../staff", "x" * 33, "é",
                         "a/b", "."):
                with self.subTest(name=name):
                    for target, method in (("/clerk.html", "GET"), ("/now/progress", "GET"),
                                           ("/con/c1/certify", "POST")):
                        with self.subTest(target=target, method=method):
                            answer = front.ask(
                                method, target, name=name or None,
                                headers={} if name else {"Authorization": "Basic Og=="},
                                password="x")
                            self.assertEqual((answer.status, answer.head["WWW-Authenticate"]),
                                             (401, 'Basic realm="office"'))
            self.assertEqual((front.folder / "log/error.log").read_text(), before,
                             (front.folder / "log/error.log").read_text()[len(before):])
            self.assertTrue(all(re.fullmatch("[A-Za-z0-9_-]{0,32}", line["name"])
                                for line in front.refused()))
            self.assertEqual(messages, [])

    def test_passwords_of_a_country(self):
        """Each of 60,008 stations gets one, in less than five minutes of the processor."""
        folder = Path("office")
        folder.mkdir()
        Path("names.toml").write_text("[[constituency]]\n" + "".join(
            f'[[constituency.station]]\ncode = "p{n:05}"\n' for n in range(60_008)))
        before = resource.getrusage(resource.RUSAGE_CHILDREN)
        done = password(folder.resolve(), "stations", "--all", run=subprocess.run)
        after = resource.getrusage(resource.RUSAGE_CHILDREN)
        # (not by the clock, since the disk of a busy machine may take ten times that)
        took = after.ru_utime + after.ru_stime - before.ru_utime - before.ru_stime
        self.assertEqual((done.returncode, done.stderr, len(set(done.stdout.split())),
                          len(os.listdir(folder / "stations"))), (0, "", 2 * 60_008, 60_008))
        print(f"passwords for 60,008 stations: {took:.1f} s of the processor")
        self.assertGreater(took, 0)
        self.assertLess(took, 300)

    @needs("openssl", "nginx")
    def test_a_password_for_whom_nobody_knows(self):
        """A name without a role and a code without a station get none."""
        with recording_desk() as (port, _), proxy(port) as front:
            for words in (("staff", "clerk-9"), ("stations", "99-typo"), ("staff", "#"),
                          ("staff", "clara board"), ("stations", "-all"), ("staff",), ()):
                with self.subTest(words=words):
                    Path("names.toml").write_text(
                        '[[constituency]]\n[[constituency.station]]\ncode = "s1"\n',
                        encoding="utf-8")
                    done = front.password(*words)
                    self.assertTrue(done.returncode, done)
                    self.assertTrue(done.stderr, done)
                    self.assertFalse(done.stdout, done)
            self.assertEqual(sorted(os.listdir(front.folder / "office/stations"))
                             if (front.folder / "office/stations").exists() else [], [])

    def test_the_files_of_passwords(self):
        """They are the proxy's to read and nobody else's, take the place of others whole, and names
        that get theirs at once all have one."""
        folder = Path("names")
        folder.mkdir(mode=0o750)
        group = os.getgroups()[-1] if os.geteuid() else 33
        os.chown(folder, -1, group)
        names = [f"clerk-{n}" for n in range(12)]
        (folder / "staff.conf").write_text("".join(f"{name} clerk;\n" for name in names),
                                           encoding="utf-8")
        Path("setup.toml").write_text(with_stations(2), encoding="utf-8")
        environment = {**os.environ, "PASSWORDS": "names", "SETUP": "setup.toml"}

        def password(*words):
            return subprocess.run([DEPLOY / "password", *words], capture_output=True, text=True,
                                  timeout=PATIENCE, env=environment, check=True).stdout.split()

        with concurrent.futures.ThreadPoolExecutor(12) as at_once:
            given = list(at_once.map(lambda name: password("staff", name), names))
        self.assertEqual(sorted(line.split(":")[0]
                                for line in (folder / "staff.htpasswd").read_text().splitlines()),
                         sorted(names))
        self.assertEqual(
            [bool(re.fullmatch("([a-z2-7]{4}-){5}[a-z2-7]{4}", one)) for _, one in given],
            [True] * 12)
        self.assertEqual(len({one for _, one in given}), 12)
        # First that of one station, and then those of the others, which have none yet.
        self.assertEqual(password("stations", "s1")[0], "s1")
        before = (folder / "stations/s1").read_bytes()
        self.assertEqual(password("stations", "--new")[::2], ["s2"])
        self.assertEqual((folder / "stations/s1").read_bytes(), before)
        self.assertEqual(password("stations", "--new"), [])
        password("stations", "--all")
        for file in (folder / "staff.htpasswd", folder / "stations/s1", folder / "stations/s2"):
            with self.subTest(file=file):
                self.assertEqual((stat.filemode(file.stat().st_mode), file.stat().st_gid),
                                 ("-rw-r-----", group), file.name)
        self.assertEqual((stat.filemode((folder / "stations").stat().st_mode),
                          (folder / "stations").stat().st_gid), ("drwxr-x---", group))
        self.assertEqual(stat.filemode((folder / ".staff.lock").stat().st_mode), "-rw-r-----")
        hashes = [base64.b64decode(line.split("{SSHA}")[1])
                  for line in (folder / "staff.htpasswd").read_text().splitlines()]
        self.assertEqual(len({hashed[20:] for hashed in hashes}), 12)
        # A code that is a path is none.
        Path("setup.toml").write_text(with_stations(2).replace('"s2"', '"../s2"'), encoding="utf-8")
        before = sorted(os.listdir(folder / "stations"))
        self.assertEqual([subprocess.run([DEPLOY / "password", "stations", code],
                                         capture_output=True, timeout=PATIENCE,
                                         env=environment).returncode
                          for code in ("../s2", "--all", "s1")], [2, 1, 0])
        self.assertEqual((sorted(os.listdir(folder / "stations")), (folder / "s2").exists()),
                         (before, False))
        # Who has the old file open still reads it whole.
        for words in (("staff", "clerk-0"), ("stations", "s1")):
            with self.subTest(words=words):
                file = folder / ("staff.htpasswd" if words[0] == "staff" else "stations/s1")
                with file.open() as old:
                    text = file.read_text()
                    password(*words)
                    self.assertEqual(old.read(), text)
                    self.assertNotEqual(file.read_text(), text)

    @needs("nginx", "openssl")
    def test_the_name_of_nobody(self):
        """With it `/logout` is 204, else 401 in the realm of the office; it opens nothing, and
        another site cannot log anybody out."""
        with recording_desk() as (port, messages), proxy(port) as front:
            for name, password, headers, status in (
                (None, None, {}, 401), ("clara", None, {}, 401), ("logout", "logout", {}, 204),
                ("logout", "x", {}, 204),
                ("logout", "logout", {"Sec-Fetch-Site": "cross-site"}, 403),
                ("logout", "logout", {"Origin": "https://elsewhere.example"}, 403)):
                with self.subTest(name=name, password=password, headers=headers, status=status):
                    found = front.ask("GET", "/logout", name=name, password=password,
                                      headers=headers)
                    self.assertEqual((found.status, found.head["WWW-Authenticate"]),
                                     (status, 'Basic realm="office"' if status == 401 else None))
            for target in ("/clerk.html", "/now/progress", "/now/station/s1/history"):
                with self.subTest(target=target):
                    self.assertEqual(
                        front.ask("GET", target, name="logout", password="logout").status, 401)
            self.assertEqual(
                front.ask("POST", "/station/s1/lodge", {}, "logout", password="logout").status, 401)
            self.assertEqual(messages, [])

    @needs("chromium", "nginx", "openssl")
    def test_logging_out(self):
        """Chromium, which was given a name and a password once, sends them until the button is
        pressed, and then nobody's name."""
        with office_with_pages(BOTH) as (desk, front):
            with browser.browser(Path.cwd(), f"--host-resolver-rules=MAP {NAME} 127.0.0.1") as it:
                site = f"https://{NAME}:{front.port}"
                status = ("const done = arguments[arguments.length - 1]; "
                          "fetch('/now/progress').then((a) => done(a.status), String)")
                it.open(f"https://clara:{front.passwords['clara']}@{NAME}:{front.port}/clerk.html")
                it.open(f"{site}/clerk.html")
                said(it, "This is what the office has now.")
                self.assertEqual(it.text("#person"), "clara, clerk")
                choose_station(it, "s1")
                type_slip(it, "lodge", SLIP)
                it.click("#logout")
                self.assertEqual(it.dismiss(), "What you typed for s1 was not sent. Leave it?")
                self.assertEqual((it.text("#person"), it.run_later(status)), ("clara, clerk", 200))
                # Where the proxy does not take the name of nobody, the page says that the browser
                # keeps the other.
                it.run("window.open_it = XMLHttpRequest.prototype.open; "
                       "XMLHttpRequest.prototype.open = function (way, target, ...more) {"
                       "window.open_it.call(this, way, '/nonesuch', ...more); };")
                it.click("#logout")
                it.accept()
                said(it, "This browser keeps your name and password: close all its windows.")
                it.run("XMLHttpRequest.prototype.open = window.open_it")
                type_slip(it, "lodge", SLIP)
                it.click("#logout")
                it.accept()
                it.wait("return document.querySelector('h1').textContent === 'You are logged out'")
                self.assertEqual(it.run("return [...document.body.children].map((e) => e.tagName)"),
                                 ["H1", "P", "P"])
                # Its requests now bear nobody's name, or none, and are refused. (Chromium then asks
                # for one.)
                it.run("fetch('/now/progress')")
                asked = lambda: [line["name"] for line in front.refused()
                                 if line["request"] == "GET /now/progress"]
                until(lambda: "logout" in asked())
                self.assertEqual(set(asked()) - {"", "logout"}, set())
