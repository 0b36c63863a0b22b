"""office-site: an office in one command, in a folder, and in a machine with the package."""

import hashlib
import json
import os
import re
import shutil
import socket
import subprocess
import time
from contextlib import suppress
from importlib.util import find_spec
from pathlib import Path
from unittest import mock

from tests.support.case import ROOT, Case, needs
from tests.support.office import with_stations
from tests.support.packages import (
    NoMachine,
    machine,
    made,
    made_once,
    office_site,
    passwords_in,
    unpacked,
)
from tests.support.running import PATIENCE, until
from tests.support.scripts import loaded

ONE, OTHER = "results.example.org", "senate-2026.example.org"
SETUP = with_stations(2)
WRONG = SETUP.replace("electors = 300", "electors = 1000001", 1)
# The files that office-site leaves where a site is taken away.
DATA = ("/var/lib/office", "/var/log/office", "/var/www/office", "/etc/office",
        "/etc/nginx/office")
SERVICES = ("office", "office-reader", "office-recorder", "office-press")


def checksum(file):
    return hashlib.sha256(file.read_bytes()).hexdigest()


def tree(root):
    """All below /etc and /var: of a file its checksum, of a link its target; and modes."""
    return {str(file.relative_to(root)):
            (file.lstat().st_mode, os.readlink(file) if file.is_symlink()
             else checksum(file) if file.is_file() else None)
            for folder in ("etc", "var") for file in (root / folder).rglob("*")}


class InAFolder(Case):
    of_the_program = True
    prefix = "office-one-command-"

    def setUp(self):
        super().setUp()
        Path("setup.toml").write_text(SETUP, encoding="utf-8")
        Path("wrong.toml").write_text(WRONG, encoding="utf-8")

    def unpacked(self):
        return unpacked(made_once(), "root")

    @needs("dpkg-deb", "git", "openssl")
    def test_a_site_twice(self):
        """The first run makes all of it and prints passwords, the second changes nothing; a site
        that is taken away leaves its data, and comes back with its names."""
        root = self.unpacked()
        status, said, _ = office_site(root, ONE, "setup.toml", "--port", "8101")
        self.assertEqual((status, sorted(passwords_in(said))),
                         (0, ["board-1", "clerk-1", "clerk-2", "second-1"]))
        before = tree(root)
        self.assertEqual((root / f"etc/office/{ONE}/setup.toml").read_text(), SETUP)
        self.assertEqual((root / f"etc/office/{ONE}/ports").read_text(),
                         "# Written by office-site.\nDESK=8101\nREAD=8201\n")
        self.assertIn('desk = "127.0.0.1:8101"\nclosed_to = "www-data"\n'
                      'rules = "/etc/office/ports.nft"\n',
                      (root / f"etc/office/{ONE}/status.toml").read_text())
        for file in ("office.db", "setup.json", "certificate.pem", "staff.htpasswd", "site.conf"):
            with self.subTest(file=file):
                self.assertEqual(len([name for name in before if name.endswith(f"/{file}")]), 1)
        for words in ((ONE, "setup.toml"), (ONE,), ("--again",)):
            with self.subTest(words=words):
                self.assertEqual(office_site(root, *words)[:2], (0, "nothing was changed\n"))
                self.assertEqual(tree(root), before)
        # An older package made the pages' folder for everybody.
        pages = f"var/www/office/{ONE}"
        (root / pages).chmod(0o755)
        self.assertEqual(office_site(root, "--again")[:2], (0, f"folder /{pages}\n"))
        self.assertEqual(tree(root), before)
        self.assertEqual(office_site(root, "--list")[1],
                         f"{ONE}: port 8101, does not run, one of the board\n")

        status, said, _ = office_site(root, "--remove", ONE)
        left = [f"{place}/{ONE}" for place in DATA]
        self.assertEqual((status, re.findall("^left (.*)$", said, re.M)), (0, left))
        after = tree(root)
        gone = set(before) - set(after)
        self.assertTrue(all(f"/{ONE}/" in f"/{name}/" or name.endswith(
            ("nginx.conf", "ports.nft", "nginx.service.d/office.conf")) for name in gone), gone)
        self.assertEqual({Path(name).name for name in after if f"/{ONE}/" in name}, {
            "setup.toml", "office.db", "staff.conf", "staff.htpasswd", "embargo.conf", "stations",
            "certificate.pem", "key.pem", ".staff.lock"})
        self.assertEqual(office_site(root, "--remove", ONE)[0::2],
                         (1, f"office-site: there is no site {ONE}\n"))
        status, said, _ = office_site(root, ONE, "setup.toml", "--port", "8101")
        self.assertEqual((status, passwords_in(said), tree(root)), (0, {}, before))

    @needs("dpkg-deb", "git", "openssl")
    def test_a_record_that_an_older_package_began(self):
        """An upgrade alone leaves the setup.json that it begins with, and the hash that the proxy
        has of it. Without a record, or with that of another one, it is made again."""
        root = self.unpacked()
        double = SETUP.replace("seats = 3\n", 'seats = 3\nentry = "double"\n')
        self.assertNotEqual(double, SETUP)
        Path("double.toml").write_text(double, encoding="utf-8")
        self.assertEqual(office_site(root, ONE, "double.toml", "--port", "8101")[0], 0)
        file = root / f"var/lib/office-site/{ONE}/setup.json"
        codes = root / f"etc/nginx/office/{ONE}/codes.conf"
        record = root / f"var/log/office/{ONE}/commands.log"
        new, newest = file.read_text(encoding="utf-8"), checksum(file)
        older = new.replace('  "entry": "double",\n', "")
        self.assertIn('"entry": "double"', new)
        self.assertNotIn("entry", older)
        digest = hashlib.sha256(older.encode()).hexdigest()
        for first, kept in (({"n": 1, "setup": digest}, True), ({"n": 1, "setup": newest}, False),
                            ({"n": 1, "path": "/station/s1/lodge"}, False), ("no line", False),
                            (None, False)):
            with self.subTest(first=first):
                file.write_text(older, encoding="utf-8")
                record.unlink(missing_ok=True)
                if first:
                    record.write_text(json.dumps(first) + "\n", encoding="utf-8")
                self.assertEqual(office_site(root, "--again")[0], 0)
                self.assertEqual(file.read_text(encoding="utf-8"), older if kept else new)
                self.assertIn(digest if kept else newest, codes.read_text(encoding="utf-8"))
                if first and not kept:
                    continue
                self.assertEqual(office_site(root, "--again")[1], "nothing was changed\n")

    @needs("dpkg-deb", "git", "openssl")
    def test_looks_that_a_board_has_changed(self):
        """They stay where a site is taken away. Where it comes back with another port, it is said
        that they look at the former one."""
        root = self.unpacked()
        self.assertEqual(office_site(root, ONE, "setup.toml", "--port", "8101")[0], 0)
        looks = root / f"etc/office/{ONE}/status.toml"
        changed = looks.read_text(encoding="utf-8").replace("days = 14", "days = 30")
        looks.write_text(changed, encoding="utf-8")
        self.assertEqual(office_site(root, "--remove", ONE)[0], 0)
        self.assertEqual(looks.read_text(encoding="utf-8"), changed)
        for port, is_said in (("8101", False), ("8102", True)):
            with self.subTest(port=port):
                status, _, said = office_site(root, ONE, "--port", port)
                self.assertEqual((status, looks.read_text(encoding="utf-8")), (0, changed))
                self.assertEqual(f"{looks.relative_to(root)} names no desk at 127.0.0.1:{port}, "
                                 "which is the site's: change it" in said, is_said, said)
                self.assertEqual(office_site(root, "--remove", ONE)[0], 0)

    @needs("dpkg-deb", "git", "openssl")
    def test_a_file_of_the_proxy_that_is_not_the_packages(self):
        """It stays where a site is taken away, and is named."""
        root = self.unpacked()
        self.assertEqual(office_site(root, ONE, "setup.toml", "--port", "8101")[0], 0)
        folder = root / f"etc/nginx/office/{ONE}"
        (folder / "redirects.conf").write_text("# of an administrator\n", encoding="utf-8")
        status, said, _ = office_site(root, "--remove", ONE)
        self.assertEqual((status, said.splitlines()[-1]), (0, f"left /etc/nginx/office/{ONE}/"
                         "redirects.conf, which is not the package's"))
        self.assertEqual({file.name for file in folder.glob("*.conf")},
                         {"redirects.conf", "staff.conf", "embargo.conf"})

    def test_a_site_that_is_stopped(self):
        """None of its units is left that failed: its last look did, perhaps, and calls nobody."""
        Path("bin").mkdir()
        fake = Path("bin/systemctl")
        fake.write_text('#!/bin/sh\necho "$@" >> said\n[ "$1" != reset-failed ]\n',
                        encoding="utf-8")
        fake.chmod(0o755)
        office_site_script = loaded("office-site")
        it = office_site_script.Machine("/")
        it.has_services = True
        with mock.patch.dict(os.environ, PATH=f"{Path.cwd()}/bin:{os.environ['PATH']}"):
            office_site_script.stop(it, ONE)
        said = Path("said").read_text(encoding="utf-8").splitlines()
        self.assertEqual([line.split()[0] for line in said], ["disable", "stop", "reset-failed"])
        self.assertEqual(said[-1].split()[1:], [f"{unit}@{ONE}.service" for unit in (
            *SERVICES, "office-backup", "office-status")])

    @needs("dpkg-deb", "git", "openssl")
    def test_a_name_that_is_a_station_of_another_site(self):
        """Sites that share names and passwords: what is a station of one is no name of the staff of
        another, since the station would be shut out."""
        root = self.unpacked()
        Path("other.toml").write_text(SETUP.replace('"s1"', '"Ana"'), encoding="utf-8")
        self.assertEqual(office_site(root, ONE, "setup.toml", "--port", "8101")[0], 0)
        self.assertEqual(office_site(root, OTHER, "other.toml", "--port", "8102",
                                     "--passwords-of", ONE)[0], 0)
        before = tree(root)
        status, out, said = office_site(root, ONE, "--name", "clerk:ana")
        self.assertEqual((status, out, said), (
            1, "", f"office-site: ana is called as a station of {OTHER}, which has the same "
                   "names and passwords: choose another name\n"))
        self.assertEqual(tree(root), before)
        self.assertEqual(office_site(root, ONE, "--name", "clerk:eva")[0], 0)
        # Who shares them already may say so again, and who has own ones keeps these.
        self.assertEqual(office_site(root, OTHER, "--passwords-of", ONE)[0], 0)
        third = "third.example.org"
        self.assertEqual(office_site(root, third, "setup.toml", "--port", "8103")[0], 0)
        before = tree(root)
        status, out, said = office_site(root, third, "--passwords-of", ONE)
        self.assertEqual((status, out), (1, ""))
        self.assertIn(f"{third} has names and passwords of its own: ", said)
        self.assertEqual(tree(root), before)

    @needs("dpkg-deb", "git", "openssl")
    def test_what_is_refused(self):
        """Each fault is said, and nothing is there that was not before."""
        root = self.unpacked()
        Path("staff.toml").write_text(SETUP.replace('"s1"', '"clerk-1"'), encoding="utf-8")
        rows = (
            ([], 2, "name a site"),
            (["a_b", "setup.toml"], 2, "a_b is no name of a site"),
            ([ONE, "setup.toml", "--port", "80"], 2, "a port is one of 8080 to 8179"),
            ([ONE], 1, f"{ONE} has no setup yet"),
            ([ONE, "nonesuch"], 1, "nonesuch: No such file"),
            ([ONE, "wrong.toml"], 1, "the setup: refused: "),
            ([ONE, "staff.toml"], 1, "station clerk-1 is called as one of the staff"),
            ([ONE, "setup.toml", "--hour", "2020-01-01T00:00:00Z"], 1, "is past"),
            ([ONE, "setup.toml", "--name", "king:ana"], 1, "king:ana is no ROLE:NAME"),
            ([ONE, "setup.toml", "--name", "clerk:ana", "--name", "board:Ana"], 1,
             "Ana is there twice"),
            ([ONE, "setup.toml", "--passwords-of", OTHER], 1, f"there is no other site {OTHER}"),
            *(([ONE, "setup.toml", "--name", f"clerk:{name}"], 1,
               f"{name} means something else in the files of the proxy: choose another name")
              for name in ("default", "include", "logout")),
            (["--begin-again", ONE], 1, f"there is no site {ONE}"),
            *(([name, "setup.toml"], 1, f"/etc/office/{name} is the place of another file")
              for name in ("ports.nft", "setup.toml", "status.toml", "backup.env", "recorder.env")),
            (["notes.txt", "setup.toml"], 1, "/var/log/office/notes.txt is the place of another "
             "file: choose another name for the site"),
        )
        for folder in ("etc/office", "var/lib/office", "var/log/office"):
            (root / folder).mkdir(parents=True, exist_ok=True)
        (root / "var/log/office/notes.txt").write_text("notes", encoding="utf-8")
        before = tree(root)
        for words, status, fault in rows:
            with self.subTest(words=words):
                found, _, said = office_site(root, *words)
                self.assertEqual((found, fault in said), (status, True), said)
                self.assertEqual(tree(root), before)

    @needs("dpkg-deb", "git", "openssl")
    def test_ports_that_are_taken(self):
        """One that is named is refused with the program that has it; otherwise the next free pair
        is taken."""
        root, listeners = self.unpacked(), []
        for port in range(8120, 8170):
            try:
                listeners.append(socket.create_server(("127.0.0.1", port)))
                break
            except OSError:
                continue
        taken = listeners[0].getsockname()[1]
        status, _, said = office_site(root, ONE, "setup.toml", "--port", str(taken))
        self.assertEqual(status, 1)
        self.assertRegex(said, rf"port {taken} is taken by \S+ \({os.getpid()}\)\n")
        self.assertFalse((root / f"etc/office/{ONE}").exists())
        self.assertEqual(office_site(root, ONE, "setup.toml")[0], 0)
        first = dict(re.findall(r"(\w+)=(\d+)", (root / f"etc/office/{ONE}/ports").read_text()))
        self.assertEqual(int(first["READ"]), int(first["DESK"]) + 100)
        status, _, said = office_site(root, OTHER, "setup.toml", "--port", first["DESK"])
        self.assertEqual((status, said), (1, f"office-site: port {first['DESK']} is another "
                                             "site's\n"))
        listeners[0].close()

    @needs("dpkg-deb", "git", "openssl")
    def test_names_and_another_setup(self):
        """Names that are given are the only ones, and a later run adds further ones. Another setup
        is refused while there is a database; after --begin-again it is the setup."""
        root = self.unpacked()
        status, said, _ = office_site(root, ONE, "setup.toml", "--name", "clerk:ana", "--name",
                                      "board:luis", "--language", "es")
        self.assertEqual((status, list(passwords_in(said))), (0, ["ana", "luis"]))
        self.assertEqual(os.readlink(root / f"var/lib/office-site/{ONE}/clerk.html"),
                         "/usr/share/office/www/clerk_es.html")
        status, said, _ = office_site(root, ONE, "--name", "second:eva")
        self.assertEqual((status, list(passwords_in(said))), (0, ["eva"]))
        status, _, said = office_site(root, ONE, "--name", "board:ana")
        self.assertEqual((status, said),
                         (1, "office-site: ana has the role clerk: a name has one role\n"))
        hour = "2099-11-29T20:00:00+01:00"
        self.assertEqual(office_site(root, ONE, "--hour", hour)[0], 0)
        embargo = root / f"etc/nginx/office/{ONE}/embargo.conf"
        self.assertIn(hour, embargo.read_text())
        self.assertEqual(office_site(root, ONE)[:2], (0, "nothing was changed\n"))
        self.assertIn(hour, embargo.read_text())

        Path("other.toml").write_text(with_stations(3), encoding="utf-8")
        before = tree(root)
        status, _, said = office_site(root, ONE, "other.toml")
        self.assertEqual((status, "of another setup than other.toml" in said), (1, True), said)
        status, _, said = office_site(root, "--begin-again", ONE, "wrong.toml")
        self.assertEqual((status, tree(root)), (1, before), said)
        page = root / f"var/www/office/{ONE}/index.html"
        page.write_text("a page", encoding="utf-8")
        status, _, said = office_site(root, "--begin-again", ONE, "other.toml")
        self.assertEqual((status, "is public" in said), (0, False), said)
        self.assertEqual((root / f"etc/office/{ONE}/setup.toml").read_text(), with_stations(3))
        self.assertFalse(page.exists())
        [aside] = (root / f"var/lib/office/{ONE}").glob("trial-*/office.db")
        self.assertEqual(checksum(aside), before[f"var/lib/office/{ONE}/office.db"][1])
        [aside] = (root / f"etc/office/{ONE}").glob("trial-*/setup.toml")
        self.assertEqual(aside.read_text(), SETUP)
        [new] = json.loads((root / f"var/lib/office-site/{ONE}/setup.json").read_text())
        self.assertEqual(len(new["stations"]), 3)
        # The hour of a trial is past by then: the new count would be public from its first return.
        subprocess.run([ROOT / "deploy/embargo", "2020-11-29T20:00:00+01:00", embargo, "--past"],
                       check=True, capture_output=True)
        # (a folder of what is put aside has its second in its name)
        time.sleep(1)
        for words, warned in ((["--begin-again", ONE], True), ([ONE], False)):
            with self.subTest(words=words):
                status, _, said = office_site(root, *words)
                self.assertEqual((status, "everything is public at once" in said), (0, warned))

    @needs("dpkg-deb", "git", "openssl")
    def test_an_nginx_that_serves_something_else(self):
        """It is left as it is; one that serves nothing is put aside, and put back at the end."""
        root = self.unpacked()
        (root / "etc/nginx/conf.d").mkdir(parents=True)
        (root / "etc/nginx/nginx.conf").write_text("of Debian", encoding="utf-8")
        (root / "etc/nginx/conf.d/shop.conf").write_text("a shop", encoding="utf-8")
        status, _, said = office_site(root, ONE, "setup.toml")
        self.assertEqual((status, "nginx serves something else here" in said), (1, True), said)
        (root / "etc/nginx/conf.d/shop.conf").unlink()
        self.assertEqual(office_site(root, ONE, "setup.toml")[0], 0)
        self.assertEqual(office_site(root, ONE)[:2], (0, "nothing was changed\n"))
        aside = root / "etc/nginx/nginx.conf.before-office"
        self.assertEqual(aside.read_text(), "of Debian")
        self.assertEqual(office_site(root, "--remove", "--all")[0], 0)
        self.assertEqual((root / "etc/nginx/nginx.conf").read_text(), "of Debian")
        self.assertFalse(aside.exists())
        (root / "etc/office/setup.toml").write_text(SETUP, encoding="utf-8")
        status, _, said = office_site(root, ONE, "setup.toml")
        self.assertEqual((status, "an office was installed by hand" in said), (1, True), said)


class InAMachine(Case):
    """The package, installed as a whole, with its users; services are started by their lines."""

    of_the_program = True
    prefix = "office-machine-"

    def machine(self):
        if os.geteuid():
            self.skipTest("it needs root")
        try:
            it = machine()
            found = self.enterContext(it)
        except NoMachine as fault:
            self.skipTest(f"no machine of its own here: {fault}")
        # (the machine's own Python may lack what the package depends on)
        for name in ("jinja2", "markupsafe"):
            place = found.at(f"/usr/lib/python3/dist-packages/{name}")
            if not place.exists():
                shutil.copytree(Path(find_spec(name).origin).parent, place)
        shutil.copy(made_once(), found.at("/root/first.deb"))
        found.at("/root/setup.toml").write_text(SETUP, encoding="utf-8")
        self.installed(found, "first.deb")
        return found

    def installed(self, it, package):
        return it.ran("dpkg", "--install", "--force-depends", "--force-downgrade",
                      f"/root/{package}")

    def start(self, it, site):
        """The services of a site, each as its user, by the very lines of the units."""
        ports = dict(re.findall(r"(\w+)=(\d+)", it.at(f"/etc/office/{site}/ports").read_text()))
        for unit in SERVICES:
            text = it.at(f"/lib/systemd/system/{unit}@.service").read_text()
            text = text.replace("%i", site)
            line = re.search("^ExecStart=(.*)$", text, re.M)[1].replace("$RECORDER ", "")
            user = re.search("^User=(.*)$", text, re.M)[1]
            for name in re.findall("^RuntimeDirectory=(.*)$", text, re.M):
                it.ran("install", "-d", "-o", user, "-g", user, f"/run/{name}")
            groups = re.search("^SupplementaryGroups=(.*)$", text, re.M)
            for key, port in ports.items():
                line = line.replace(f"${{{key}}}", port)
            it.start("setpriv", f"--reuid={user}", f"--regid={user}",
                     f"--groups={groups[1] if groups else user}", *line.split())
        return ports

    def ask(self, it, site, target, body=None, name=None):
        """Status and answer of a site over TLS, whose certificate is its own."""
        words = ["curl", "-sS", "-w", "\n%{http_code}", "--cacert",
                 f"/etc/nginx/office/{site}/certificate.pem", "--resolve",
                 f"{site}:443:127.0.0.1", f"https://{site}{target}"]
        words += ["-u", f"{name}:{self.passwords[name]}"] if name else []
        words += ["-d", json.dumps(body)] if body is not None else []
        text, _, status = it.ran(*words).rpartition("\n")
        return int(status), text

    def await_page(self, it, site):
        """The first page comes within two minutes, or what the services say is said."""
        def is_there():
            with suppress(AssertionError):  # nginx has not begun yet, or not loaded the site
                return self.ask(it, site, "/")[0] == 200

        try:
            until(is_there, 120)
        except AssertionError as fault:
            raise AssertionError(it.said()) from fault

    def certified(self, it, site):
        """Two returns are lodged and closed, and a certificate is made, by names."""
        for station, votes in (("s1", [120, 71]), ("s2", [30, 9])):
            slip = {"slip": f"p-{station}", "votes": votes, "blank": 2, "spoiled": 1}
            for act, body, name in (("lodge", slip, "clerk-1"), ("close", {"rev": 1}, "clerk-2")):
                self.assertEqual(
                    self.ask(it, site, f"/station/{station}/{act}", body, name)[0], 200)
        self.assertEqual(self.ask(it, site, "/con/c1/certify", {"edition": 1}, "clerk-1")[0], 403)
        self.assertEqual(self.ask(it, site, "/con/c1/certify", {"edition": 1}, "board-1")[0], 200)

    def connects(self, it, user, port):
        """Whether a user reaches a port of the machine."""
        done = subprocess.run(it.inside("setpriv", f"--reuid={user}", f"--regid={user}",
                                        "--clear-groups", "curl", "-s", "-o", "/dev/null",
                                        f"http://127.0.0.1:{port}/progress"),
                              capture_output=True, timeout=PATIENCE)
        return done.returncode == 0

    @needs("dpkg-deb", "git", "openssl", "unshare", "nsenter", "setpriv", "nginx", "nft", "curl",
           "systemd-sysusers", "systemd-tmpfiles")
    def test_two_elections_from_their_package_to_certificates(self):
        """One command each. The staff of one are those of the other, the offices know nothing of
        each other, and nobody but root and the recorder reaches them."""
        it = self.machine()
        said = it.ran("office-site", ONE, "/root/setup.toml", "--logs-beside")
        self.passwords = passwords_in(said)
        self.assertIn("nothing was changed\n", it.ran("office-site", ONE, "/root/setup.toml",
                                                      "--logs-beside"))
        it.ran("nft", "-f", "/etc/office/ports.nft")
        it.start("nginx", "-g", "daemon off;")
        ports = self.start(it, ONE)
        self.await_page(it, ONE)
        self.certified(it, ONE)

        said = it.ran("office-site", OTHER, "/root/setup.toml", "--passwords-of", ONE,
                      "--logs-beside")
        self.assertEqual(passwords_in(said), {})
        it.ran("nft", "-f", "/etc/office/ports.nft")
        it.ran("nginx", "-s", "reload")
        others = self.start(it, OTHER)
        self.await_page(it, OTHER)
        self.assertEqual([self.ask(it, site, "/con/c1/seats")[0] for site in (ONE, OTHER)],
                         [200, 409])
        self.certified(it, OTHER)
        for site in (ONE, OTHER):
            with self.subTest(site=site):
                # (the proxy may keep the answer of before the certificate for a moment)
                until(lambda: self.ask(it, site, "/con/c1/seats")[0] == 200)
                _, seats = self.ask(it, site, "/con/c1/seats")
                # 150 and 80 votes for 3 seats: 150, 80, 75.
                self.assertRegex(seats, r"(?s)\bA +2\b.*\bB +1\b")
                record = it.at(f"/var/log/office/{site}/commands.log").read_text()
                self.assertEqual(len(re.findall('"path"', record)), 6)
                until(lambda: "certif" in self.ask(it, site, "/feed.atom")[1])
        for desk, read in ((ports["DESK"], ports["READ"]), (others["DESK"], others["READ"])):
            for user, wanted in (("root", (True, True)), ("office-recorder", (True, False)),
                                 ("office-press", (False, True)), ("www-data", (False, False)),
                                 ("office", (False, False)), ("nobody", (False, False))):
                with self.subTest(desk=desk, user=user):
                    self.assertEqual((self.connects(it, user, desk),
                                      self.connects(it, user, read)), wanted)
        self.assertEqual([it.at(place).stat().st_mode & 0o777
                          for place in (f"/var/lib/office/{ONE}", f"/var/log/office/{ONE}",
                                        f"/etc/nginx/office/{ONE}", f"/var/www/office/{ONE}")],
                         [0o700, 0o750, 0o750, 0o750])
        # The pages are there before the hour: the proxy and the recorder read them, and no other.
        names = [f"/var/www/office/{ONE}/{name}" for name in ("record.csv", "results.csv")]
        for user, group, may in (("www-data", "www-data", True), ("nobody", "nogroup", False),
                                 ("office-recorder", "www-data", True), ("office", "office", False),
                                 ("office-press", "office-press", True)):
            with self.subTest(user=user):
                done = subprocess.run(
                    it.inside("setpriv", f"--reuid={user}", f"--regid={group}",
                              f"--groups={group}", "cat", *names),
                    capture_output=True, text=True, timeout=PATIENCE)
                self.assertEqual((bool(done.stdout), done.stderr.count("Permission denied")),
                                 (True, 0) if may else (False, 2), done.stderr)

    @needs("dpkg-deb", "git", "openssl", "unshare", "nsenter", "nginx", "systemd-sysusers",
           "systemd-tmpfiles")
    def test_upgraded_and_back_and_removed_and_purged(self):
        """A newer package writes the files of each site again, an older one too; the database and
        the passwords are the same. Removed and purged it leaves the data of elections, and nginx as
        it was."""
        it = self.machine()
        nginx = it.at("/etc/nginx/nginx.conf").read_bytes()
        it.ran("office-site", ONE, "/root/setup.toml", "--logs-beside")
        kept = {place: it.at(place).read_bytes() for place in (
            f"/var/lib/office/{ONE}/office.db", f"/etc/nginx/office/{ONE}/staff.htpasswd",
            f"/etc/nginx/office/{ONE}/key.pem", f"/etc/office/{ONE}/setup.toml")}
        site = it.at(f"/etc/nginx/office/{ONE}/site.conf")
        wanted = site.read_text()
        newer = made("newer", SOURCE_DATE_EPOCH="4000000000")
        shutil.copy(newer, it.at("/root/newer.deb"))
        for package in ("newer.deb", "first.deb"):
            with self.subTest(package=package):
                site.write_text("an older version's", encoding="utf-8")
                pages = it.at(f"/var/www/office/{ONE}")
                pages.chmod(0o755)
                os.chown(pages, pages.stat().st_uid, pages.stat().st_uid)
                said = self.installed(it, package)
                self.assertIn(f"wrote /etc/nginx/office/{ONE}/*.conf", said)
                group = it.at(f"/etc/nginx/office/{ONE}").stat().st_gid
                self.assertEqual((pages.stat().st_mode & 0o7777, pages.stat().st_gid),
                                 (0o750, group))
                self.assertEqual(site.read_text(), wanted)
                self.assertEqual({place: it.at(place).read_bytes() for place in kept}, kept)
        self.assertIn(f"left /var/lib/office/{ONE}\n", it.ran("dpkg", "--remove", "office"))
        for word in ("--remove", "--purge"):
            with self.subTest(word=word):
                it.ran("dpkg", word, "office")
                self.assertEqual({place: it.at(place).read_bytes() for place in kept}, kept)
                self.assertEqual(it.at("/etc/nginx/nginx.conf").read_bytes(), nginx)
                for gone in ("/usr/bin/office", "/usr/lib/office", "/etc/office/ports.nft",
                             "/etc/nginx/nginx.conf.before-office", "/var/lib/office-site",
                             "/etc/systemd/system/nginx.service.d/office.conf"):
                    if word == "--purge" or "office-site" not in gone:
                        self.assertFalse(it.at(gone).exists(), gone)
