"""The steps of office-site at their edges: ports, names, setups, and what is written, said and
taken away. In a folder; nothing is started.
"""

import contextlib
import fcntl
import io
import os
import re
import sqlite3
import sys
from datetime import datetime, timedelta
from pathlib import Path
from types import SimpleNamespace
from unittest import mock

from tests.support.office import with_stations
from tests.support.scripts import module
from tests.support.site import DEPLOY
from tests.support.sites import SETUP, OfSites, made_of, setup_in

ONE, OTHER, THIRD = "a.example", "b.example", "c.example"


class Looked(OfSites):
    def test_the_ports_of_sites(self):
        self.assertEqual(self.site.ports_of(self.machine, ONE), None)
        for site, desk in ((ONE, 8090), (OTHER, 8080), (THIRD, 8085)):
            self.ports(site, desk)
        self.assertEqual(self.site.ports_of(self.machine, ONE), (8090, 8190))
        self.assertEqual(self.site.sites_of(self.machine), [OTHER, THIRD, ONE])

    def test_ports_that_are_free(self):
        """The first pair of which nobody has either one, or the pair of a port that is named."""
        def taken(asked, listening=()):
            self.site.listeners = lambda: dict.fromkeys(listening, {"1"})
            return self.site.take_port(self.machine, ONE, asked)

        self.assertEqual(taken(None), (8080, 8180))
        self.ports(OTHER, 8081)
        for listening, wanted in (((), 8080), ((8080,), 8082), ((8180,), 8082),
                                  ((8082, 8183, 8180), 8084), (range(8080, 8179), 8179)):
            self.assertEqual(taken(None, listening), (wanted, wanted + 100))
        self.refused("no port of 8080 to 8179 is free", taken, None, range(8080, 8180))
        self.assertEqual(taken(8090), (8090, 8190))
        for port in (8090, 8190):
            self.refused(f"port {port} is taken by shop (7)", taken, 8090, (port,))
        self.refused("port 8081 is another site's", taken, 8081)
        self.ports(OTHER, 8300, 8190)
        self.refused("port 8090 is another site's", taken, 8090)

    def test_the_ports_that_a_site_has(self):
        """It keeps them; one whose service does not run is perhaps another program's meanwhile."""
        self.ports(ONE, 8101)
        active = set()
        self.machine.is_active = active.__contains__

        def taken(asked, *listening):
            self.site.listeners = lambda: dict.fromkeys(listening, {"1"})
            return self.site.take_port(self.machine, ONE, asked)

        for asked in (None, 8101):
            self.assertEqual(taken(asked), (8101, 8201))
        self.refused(f"{ONE} has port 8101 already: office-site --remove {ONE} first", taken, 8102)
        for unit, port in (("office", 8101), ("office-reader", 8201)):
            self.refused(f"port {port} is taken by shop (7)", taken, None, port)
            active.add(f"{unit}@{ONE}")
            self.assertEqual(taken(None, port), (8101, 8201))

    def test_names_that_are_the_place_of_another_file(self):
        check = self.site.check_site
        check(self.machine, ONE)
        (self.root / f"var/log/office/{ONE}").mkdir(parents=True)
        check(self.machine, ONE)
        self.refused("/etc/office/ports.nft is the place of another file", check, self.machine,
                     "ports.nft")
        self.put(f"var/www/office/{OTHER}")
        self.refused(f"/var/www/office/{OTHER} is the place of another file", check, self.machine,
                     OTHER)
        self.ports(OTHER, 8080)
        check(self.machine, OTHER)

    def test_another_use_of_the_computer(self):
        """An office that was installed by hand, another program of the proxy, or other ports."""
        check = lambda: self.site.check_machine(self.machine)
        check()
        self.put("etc/nginx/sites-enabled/default")
        check()
        shop = self.put("etc/nginx/conf.d/shop.conf")
        self.refused(f"nginx serves something else here: {shop}", check)
        mark = self.site.site_proxy.MARK
        for text, is_ours in (("# of Debian", False), (f" {mark}", False), (f"{mark}\nx", True)):
            self.put("etc/nginx/nginx.conf", text)
            self.assertEqual(self.site.is_ours(self.machine), is_ours)
        check()
        self.site.listeners = lambda: {80: {"1"}, 443: {"2"}}
        check()
        self.machine.is_real = True
        self.refused("port 80 is taken by shop (7)", check)
        self.site.listeners = lambda: {81: {"1"}, 443: {"2"}, 444: {"3"}}
        self.refused("port 443 is taken by shop (7)", check)
        self.site.who_listens = lambda _: "nginx (9)"
        check()
        self.put("etc/office/setup.toml")
        self.refused("an office was installed by hand here", check)

    def test_the_setup_that_is_to_be(self):
        """Of a site that has a database the one of which that was made, also where the file was
        changed in its place; line ends after it are no change. Nothing is left beside it."""
        check = lambda file: self.site.check_setup(self.machine, ONE, file)
        self.assertEqual(check("setup.toml"), SETUP.encode())
        self.refused(f"{ONE} has no setup yet: name one", check, None)
        self.refused("none.toml: No such file", check, "none.toml")
        Path("other.toml").write_text("other", encoding="utf-8")
        kept = self.put(f"etc/office/{ONE}/setup.toml", SETUP)
        self.assertEqual((check(None), check("other.toml")), (SETUP.encode(), b"other"))
        database = self.put(f"var/lib/office/{ONE}/office.db")
        self.refused(f"{database}: no setup can be read in it", check, None)
        database.unlink()
        made_of("# of the board\r\n" + SETUP.replace("\n", "\r\n"), database)
        self.assertEqual((check(None), check("setup.toml")), (SETUP.encode(),) * 2)
        self.refused(f"{database} was made of another setup than other.toml", check, "other.toml")
        for text in (SETUP.replace("Twin", "Tiny"), SETUP + "[[", SETUP + "x_note = 1\n"):
            self.assertNotEqual(text, SETUP)
            kept.write_text(text, encoding="utf-8")
            self.refused(f"{database} was made of another setup than {kept}", check, None)
            self.refused(f"{database} was made of another setup than {kept}", check, kept)
            self.assertEqual(self.site.check_setup(self.machine, ONE, None, True), text.encode())
        kept.unlink()
        self.assertEqual(check("setup.toml"), SETUP.encode())
        self.refused("of another setup than other.toml", check, "other.toml")
        self.assertEqual([*database.parent.iterdir()], [database])

    def test_a_database_whose_pages_are_being_written(self):
        """It is looked at again, before it is called one without a setup."""
        made_of(SETUP, "office.db")
        checks = module("site_checks")
        fails = [sqlite3.DatabaseError("malformed")] * (checks.LOOKS - 1)
        connected = mock.Mock(side_effect=[*fails, sqlite3.connect("office.db")])
        with mock.patch.object(checks, "sqlite3", mock.Mock(
                connect=connected, Error=sqlite3.Error)), \
                mock.patch.object(checks, "time", mock.Mock()):
            self.assertTrue(checks.is_setup_of("office.db", SETUP.encode()))
        self.assertEqual(connected.call_count, checks.LOOKS)

    def test_a_copy_of_a_folder_is_no_site(self):
        for site, desk in ((ONE, 8080), (OTHER, 8081)):
            self.ports(site, desk)
        self.site.check_ports(self.machine, ONE)
        self.ports(f"{ONE}.bak", 8080)
        self.refused(f"{ONE} and {ONE}.bak have the same ports: one is a copy of the other's "
                     "folder: move it out of /etc/office; or it is of another computer: remove "
                     f"/etc/office/{ONE}/ports, and it gets free ones",
                     self.site.check_ports, self.machine, ONE)
        self.site.check_ports(self.machine, OTHER)
        self.site.check_ports(self.machine, THIRD)

    def test_a_site_whose_data_is_not_there(self):
        """An upgrade and a run without a setup make no empty office: its file systems are perhaps
        not there. With its setup it is made."""
        for site in (ONE, OTHER):
            self.assertEqual(self.did(site, "setup.toml")[0], 0)
        database = self.root / f"var/lib/office/{ONE}/office.db"
        database.unlink()
        for words in (("--again",), (ONE,), (ONE, "--hour", "now")):
            with self.subTest(words=words):
                status, printed, said = self.did(*words)
                self.assertEqual((status, database.exists()), (1, False))
                self.assertIn(f"{database} is not there: mount its file system, or put it back. "
                              f"For an empty office name the setup: office-site {ONE} ", said)
        self.assertEqual(self.did(ONE, "setup.toml")[0], 0)
        self.assertTrue(database.exists())

    def test_a_log_without_its_database(self):
        """An empty office is not made beside it: SQLite would take it for that of the new one."""
        check = lambda again=False: self.site.check_data(self.machine, ONE, again)
        check()
        log = self.put(f"var/lib/office/{ONE}/office.db-wal", "a log")
        self.refused(f"{log} is of a database that is not there: put that back. If it is lost, "
                     "move this aside", check)
        self.refused("a database that is not there", check, True)
        # Of an interrupted --begin-again the log comes to its database.
        trial = self.put(f"var/lib/office/{ONE}/trial-20261128T120000/office.db")
        self.refused(f"put that back, or go on with an interrupted office-site --begin-again {ONE}",
                     check)
        check(True)
        trial.rename(f"{self.root}/var/lib/office/{ONE}/office.db")
        check()

    def test_names_of_the_staff(self):
        longest = "a" * 32
        self.assertEqual(self.site.check_names(["clerk:ana", "board:B-_1", f"second:{longest}"]),
                         {"ana": "clerk", "B-_1": "board", longest: "second"})
        for words, said in (
                (["king:ana"], "king:ana is no ROLE:NAME"), (["ana"], "ana is no ROLE:NAME"),
                (["station:s1"], "is no ROLE:NAME"), (["clerk:"], "clerk: is no ROLE:NAME"),
                ([f"clerk:{longest}a"], "is no ROLE:NAME"), (["clerk:a.b"], "is no ROLE:NAME"),
                (["clerk:default"], "default means something else"),
                (["clerk:ana", "board:ANA"], "ANA is there twice: a name has one role")):
            with self.subTest(words=words):
                self.refused(said, self.site.check_names, words)

    def test_the_file_of_names(self):
        """The four of the package where none is given; names that are given are the only ones of a
        new site, and further ones of another."""
        staff = lambda **names: self.site.staff_of(self.machine, ONE, names)
        usual = (DEPLOY / "nginx/staff.conf").read_text(encoding="utf-8")
        self.assertEqual(staff(), usual)
        new = staff(ana="clerk", eva="board")
        self.assertEqual(dict(self.site.roles_in(new)), {"ana": "clerk", "eva": "board"})
        self.assertIn("\n#", new)
        text = '# ours\nana clerk;\nbea "board c1";\n'
        self.put(f"etc/nginx/office/{ONE}/staff.conf", text)
        self.assertEqual(staff(), text)
        self.assertEqual(staff(ana="clerk", eva="second", luz="clerk"),
                         text + "eva second;\nluz clerk;\n")
        self.refused("bea has the role board: a name has one role",
                     lambda: staff(ana="clerk", bea="clerk"))

    def test_names_that_sites_share(self):
        check = lambda other: self.site.check_shared(self.machine, ONE, other)
        self.refused(f"there is no other site {OTHER}", check, OTHER)
        self.ports(ONE, 8080)
        self.refused(f"there is no other site {ONE}", check, ONE)
        self.ports(OTHER, 8081)
        check(OTHER)
        own = self.put(f"etc/nginx/office/{ONE}/staff.htpasswd")
        self.refused(f"{ONE} has names and passwords of its own: {own}", check, OTHER)
        own.unlink()
        self.put(f"etc/nginx/office/{OTHER}/staff.htpasswd")
        own.symlink_to(f"../{OTHER}/staff.htpasswd")
        check(OTHER)

    def test_names_that_are_stations_of_others(self):
        """Of those that share the file of names alone."""
        check = lambda text: self.site.check_stations(self.machine, ONE, text)
        folder = "etc/nginx/office"
        self.put(f"{folder}/{ONE}/staff.conf", "")
        for place, (site, shares) in enumerate(((ONE, True), (THIRD, False), (OTHER, True))):
            self.ports(site, 8080 + place)
            self.put(f"etc/office/{site}/setup.toml", SETUP.replace(
                '"s1"', {ONE: '"own"', THIRD: '"third"', OTHER: '"Ana"'}[site]))
            if not shares:
                self.put(f"{folder}/{site}/staff.conf", "")
            elif site != ONE:
                (self.root / f"{folder}/{site}").mkdir()
                (self.root / f"{folder}/{site}/staff.conf").symlink_to(f"../{ONE}/staff.conf")
        for text in ("own clerk;\n", "third clerk;\n", "eva clerk;\n", ""):
            check(text)
        self.refused(f"ana is called as a station of {OTHER}", check, "eva clerk;\nana board;\n")

    def test_when_all_is_public(self):
        now, minute = datetime.now().astimezone(), timedelta(minutes=1)
        hour = "# From when on all is for everybody: {:%Y-%m-%dT%H:%M:%S%z}. deploy/embargo"
        for text, wanted in (("", True), ("everybody: soon", True),
                             (hour.format(now - minute), True),
                             (hour.format(now + minute), False)):
            with self.subTest(text=text):
                self.put(f"etc/nginx/office/{ONE}/embargo.conf", text)
                self.assertEqual(self.site.is_public(self.machine, ONE), wanted)

    def test_ports_of_a_command_line(self):
        for port, is_taken in ((8079, False), (8080, True), (8179, True), (8180, False),
                               (0, False)):
            with self.subTest(port=port), mock.patch.object(
                    sys, "argv", ["office-site", ONE, "--port", str(port)]), \
                    contextlib.redirect_stderr(io.StringIO()) as said:
                if is_taken:
                    self.assertEqual(self.site.read_words().port, port)
                else:
                    self.assertRaises(SystemExit, self.site.read_words)
                    self.assertIn("a port is one of 8080 to 8179", said.getvalue())


class Made(OfSites):
    def trial(self, old=False, begun=None):
        with contextlib.redirect_stderr(io.StringIO()) as said, \
                self.site.trial(self.machine, b"a setup", "ana clerk;\n", old, begun) as folder:
            self.assertEqual((folder / "setup.toml").read_bytes(), b"a setup")
            found = {str(file.relative_to(folder)) for file in folder.rglob("*") if file.is_file()}
            name = str(folder)
        self.assertEqual(said.getvalue(), "of setup-json\n")
        self.assertEqual([*(self.root / "var/lib/office").iterdir()], [])
        return found, [[word.replace(name, "NEW") for word in words] for words in self.ran]

    def test_what_is_made_of_a_setup(self):
        """In a folder that goes away; a site that has a database gets no other."""
        made = ["setup-json", "NEW/setup.toml", "NEW/share", "NEW/codes.conf"]
        files = {"setup.toml", "staff.conf", "share/setup.json", "codes.conf"}
        self.site.HERE = Path("/usr/lib/office")
        found, ran = self.trial()
        self.assertEqual(self.places, ["/usr/bin/office", "/usr/lib/office/setup-json"])
        self.assertEqual(found, files | {"data/office.db"})
        self.assertEqual(ran, [["office", "new", "--db", "NEW/data/office.db", "--setup",
                                "NEW/setup.toml"], made])
        for old, begun in ((True, None), (True, Path("begun.json"))):
            self.ran.clear()
            found, ran = self.trial(old, begun)
            self.assertEqual((found, ran), (files, [made + (["--begun", "begun.json"] if begun
                                                            else [])]))

    def test_a_setup_that_is_wrong(self):
        """It is said without the folder, and nothing is left."""
        for name in ("office", "setup-json"):
            self.fails = {name: f"refused: {self.root}/var/lib/office/x"}
            self.refused("the setup: refused: ", self.trial)
            self.assertEqual([*(self.root / "var/lib/office").iterdir()], [])

    def test_a_new_site(self):
        """Its files and names, each with its mode; everything is public at once, and it says so."""
        status, printed, said = self.did(ONE, "setup.toml")
        self.assertEqual(status, 0)
        for name in ("board-1", "clerk-1", "clerk-2", "second-1"):
            self.assertIn(f"password of {name} secret\n", printed)
        lines = printed.splitlines()
        for line in (f"folder /etc/office/{ONE}", f"wrote /etc/office/{ONE}/ports",
                     f"made /var/lib/office/{ONE}/office.db", "wrote /etc/nginx/nginx.conf",
                     f"wrote /etc/nginx/office/{ONE}/*.conf", "wrote /etc/office/ports.nft",
                     f"made, signed by itself: /etc/nginx/office/{ONE}/certificate.pem",
                     f"link /var/lib/office-site/{ONE}/clerk.html"):
            self.assertEqual(lines.count(line), 1, line)
        self.assertNotIn("site.conf", printed)
        each = f"of setup-json\n{ONE}: port 8080, one of the board\n"
        self.assertEqual(said, f"{each}everything is public at once; until an hour: office-site "
                               f"{ONE} --hour TIME\n")
        modes = {place: (self.root / place).stat().st_mode & 0o7777 for place in (
            f"etc/office/{ONE}", "etc/nginx/office", f"etc/nginx/office/{ONE}",
            f"var/lib/office/{ONE}", f"var/log/office/{ONE}", f"var/www/office/{ONE}",
            f"var/lib/office-site/{ONE}", f"etc/nginx/office/{ONE}/stations",
            f"etc/nginx/office/{ONE}/staff.conf", f"etc/nginx/office/{ONE}/key.pem",
            f"etc/office/{ONE}/ports")}
        self.assertEqual(list(modes.values()), [0o755, 0o750, 0o750, 0o700, 0o750, 0o750, 0o755,
                                                0o750, 0o640, 0o600, 0o644])
        link = os.readlink(self.root / f"var/lib/office-site/{ONE}/clerk.html")
        self.assertEqual(link, "/usr/share/office/www/clerk.html")
        drop_in = self.root / "etc/systemd/system/nginx.service.d/office.conf"
        self.assertEqual(drop_in.read_bytes(), (DEPLOY / "nginx-office.conf").read_bytes())
        # Once more, and nothing is changed.
        for words in ((ONE,), (ONE, "setup.toml"), ("--again",)):
            self.assertEqual(self.did(*words), (0, "nothing was changed\n", each))
            self.assertEqual([words[0] for words in self.ran], ["setup-json"])
        # A file of the proxy that is not as the package has it is written again.
        file = self.root / f"etc/nginx/office/{ONE}/typed.conf"
        text = file.read_bytes()
        file.write_bytes(b"other")
        self.assertEqual(self.did(ONE)[1], f"wrote /etc/nginx/office/{ONE}/*.conf\n")
        self.assertEqual(file.read_bytes(), text)

    def test_an_hour_and_a_language(self):
        status, _, said = self.did(ONE, "setup.toml", "--hour", "2099-11-29T20:00:00+01:00",
                                   "--language", "es", "--port", "8101")
        more = f"{ONE}: port 8101, one of the board\n"
        self.assertEqual((status, said), (
            0, f"of setup-json\nuntil 2099-11-29T20:00:00+01:00\n{more}"))
        embargo = self.root / f"etc/nginx/office/{ONE}/embargo.conf"
        text = embargo.read_text(encoding="utf-8")
        self.assertIn("for everybody: 2099-", text)
        # (the names of variables have the port of the desk, of which each site has another)
        site = embargo.with_name("site.conf").read_text(encoding="utf-8")
        self.assertEqual(("_8101" in site, "_8201" in site), (True, False))
        page = self.root / f"var/lib/office-site/{ONE}/clerk.html"
        self.assertEqual(os.readlink(page), "/usr/share/office/www/clerk_es.html")
        # Both stay, also what an administrator has written.
        embargo.write_text(text + "# more\n", encoding="utf-8")
        self.assertEqual(self.did(ONE)[1], "nothing was changed\n")
        self.assertIn("# more", embargo.read_text(encoding="utf-8"))
        self.assertEqual(os.readlink(page), "/usr/share/office/www/clerk_es.html")
        status, printed, said = self.did(ONE, "--language", "en", "--hour", "now")
        self.assertEqual((status, said),
                         (0, f"of setup-json\nuntil 2020-01-01T00:00:00Z\n{more}"))
        self.assertEqual(os.readlink(page), "/usr/share/office/www/clerk.html")
        self.assertNotIn("# more", embargo.read_text(encoding="utf-8"))
        self.assertEqual(self.did(ONE, "--language", "xx")[2].splitlines()[-1],
                         "office-site: there is no page of clerks in the language xx")

    def test_names_of_another_site(self):
        self.assertEqual(self.did(ONE, "setup.toml", "--name", "clerk:ana")[0], 0)
        self.assertEqual(self.did(OTHER, "setup.toml", "--passwords-of", ONE)[0], 0)
        own, shared = (self.root / f"etc/nginx/office/{site}" for site in (ONE, OTHER))
        for name in ("staff.conf", "staff.htpasswd", "stations"):
            self.assertEqual(os.readlink(shared / name), f"../{ONE}/{name}")
            self.assertFalse((own / name).is_symlink())
        self.assertEqual((own / "staff.conf").read_text().count("ana clerk;"), 1)
        # What is shared is given to the one that has it.
        for words in ((OTHER, "--name", "clerk:eva"),
                      (OTHER, "--name", "clerk:eva", "--passwords-of", ONE),
                      (THIRD, "setup.toml", "--name", "clerk:eva", "--passwords-of", ONE)):
            status, printed, said = self.did(*words)
            self.assertEqual((status, printed, said), (
                1, "", f"office-site: {words[0]} has the names of another site: give them to that "
                       "one\n"))
        self.assertEqual(self.did(OTHER)[1], "nothing was changed\n")
        self.assertEqual(self.did(OTHER, "--passwords-of", ONE)[1], "nothing was changed\n")
        self.assertEqual(self.did(ONE, "--name", "clerk:eva")[0], 0)
        self.assertEqual((shared / "staff.conf").read_text(), (own / "staff.conf").read_text())
        # A station of the other one is no name; an upgrade goes on with what is there.
        text = SETUP.replace('"s1"', '"Luz"')
        self.put(f"etc/office/{OTHER}/setup.toml", text)
        (self.root / f"var/lib/office/{OTHER}/office.db").unlink()
        made_of(text, self.root / f"var/lib/office/{OTHER}/office.db")
        self.assertIn("luz is called as a station", self.did(ONE, "--name", "clerk:luz")[2])
        with open(own / "staff.conf", "a", encoding="utf-8") as file:
            file.write("luz clerk;\n")
        self.assertEqual(self.did(ONE)[0], 1)
        self.assertEqual(self.did("--again")[0], 0)
        self.assertEqual(self.did(THIRD, "setup.toml", "--passwords-of", ONE)[0], 1)

    def test_files_without_services(self):
        """Nothing is started, nor asked of nginx."""
        class Booted(self.site.Machine):
            def __init__(self, root):
                super().__init__(root)
                self.has_services = True

            def is_active(self, unit):
                return False

        ran = []
        self.assertEqual(self.did(ONE, "setup.toml")[0], 0)
        self.assertEqual([words for words in self.ran if words[0] == "nginx"], [])
        self.assertTrue((self.root / f"etc/nginx/office/{ONE}/site.conf").exists())
        self.site.Machine, self.site.await_page = Booted, lambda _: None
        does = {"run": lambda *words: ran.append(words)}
        with mock.patch.dict(Booted.systemctl.__globals__, does):
            self.assertEqual(self.did(ONE)[0], 0)
        self.assertIn(("systemctl", "daemon-reload"), ran)
        self.assertIn(["nginx", "-t"], self.ran)

    def test_the_hour_of_a_site_that_gets_another_port(self):
        """The file of its hour stays, and is of its own port: not that of the site that has the
        former port now."""
        def hours():
            found = {}
            for site in (ONE, OTHER):
                text = (self.root / f"etc/nginx/office/{site}/embargo.conf").read_text("utf-8")
                [desk] = re.findall(r"\$before_the_hour_(\d+)", text)
                ports = (self.root / f"etc/office/{site}/ports").read_text("utf-8")
                self.assertIn(f"DESK={desk}\n", ports)
                found[site] = desk, "2099" in text
            return found

        for site, hour in ((ONE, "2099-11-29T20:00:00+01:00"), (OTHER, "now")):
            self.assertEqual(self.did(site, "setup.toml", "--hour", hour)[0], 0)
        self.assertEqual(hours(), {ONE: ("8080", True), OTHER: ("8081", False)})
        self.assertEqual(self.did("--remove", "--all")[0], 0)
        for site, said in ((OTHER, "everything is public at once"), (ONE, "")):
            self.assertIn(said, self.did(site)[2])
        self.assertEqual(hours(), {ONE: ("8081", True), OTHER: ("8080", False)})
        self.assertEqual(self.did("--remove", ONE)[0], 0)
        self.assertEqual(self.did(ONE, "--port", "8090")[0], 0)
        self.assertEqual(hours()[ONE], ("8090", True))
        # So are the looks that nobody has changed, also where the ports alone are gone.
        looks = self.root / f"etc/office/{ONE}/status.toml"
        (self.root / f"etc/office/{ONE}/ports").unlink()
        status, _, said = self.did(ONE, "--port", "8095")
        self.assertEqual((status, "change it" in said), (0, False))
        self.assertIn('desk = "127.0.0.1:8095"', looks.read_text(encoding="utf-8"))
        self.assertEqual(self.did(ONE)[1], "nothing was changed\n")
        self.assertEqual(self.did(ONE)[1], "nothing was changed\n")

    def test_a_certificate_that_cannot_be_made(self):
        """The proxy does not name the new site: with one that has none it would start for none."""
        self.assertEqual(self.did(ONE, "setup.toml")[0], 0)
        nginx = self.root / "etc/nginx/nginx.conf"
        before = nginx.read_bytes()
        self.fails = {"openssl": "no room"}
        status, _, said = self.did(OTHER, "setup.toml")
        self.assertEqual((status, said.splitlines()[-1]), (1, "office-site: openssl: no room"))
        self.assertEqual(nginx.read_bytes(), before)
        self.fails = {}
        self.assertEqual(self.did(ONE)[0], 0)
        self.assertEqual(nginx.read_bytes(), before)
        self.assertEqual(self.did(OTHER)[0], 0)
        self.assertIn(f"office/{OTHER}/site.conf", nginx.read_text(encoding="utf-8"))

    def test_a_unit_of_a_boards_own(self):
        """Each run names it: an upgrade does not renew it."""
        self.assertEqual(self.did(ONE, "setup.toml")[0], 0)
        unit = self.put(f"etc/systemd/system/office-recorder@{ONE}.service")
        said = f"/{unit.relative_to(self.root)} is used in the place of the package's"
        self.assertIn(said, self.did("--again")[2])
        unit.unlink()
        self.assertNotIn(said, self.did("--again")[2])

    def test_the_language_of_a_site_that_is_taken_away(self):
        """It is said: the next set-up does not know it."""
        for language, said in (("es", "is not left: --language es"), (None, "")):
            self.assertEqual(self.did(ONE, "setup.toml", *(("--language", language) if language
                                                           else ()))[0], 0)
            printed = self.did("--remove", ONE)[1]
            self.assertEqual("--language" in printed, bool(said))
            self.assertIn(said, printed)

    def test_names_that_another_site_has(self):
        """The folder that is left says whose they are too."""
        self.assertEqual(self.did(ONE, "setup.toml")[0], 0)
        self.assertEqual(self.did(OTHER, "setup.toml", "--passwords-of", ONE)[0], 0)
        said = f"{OTHER} has the names and passwords in /etc/nginx/office/{ONE}: leave them"
        self.assertIn(said, self.did("--remove", ONE)[1].splitlines())
        self.assertEqual(self.did(ONE)[0], 0)
        self.assertNotIn("leave them", self.did("--remove", OTHER)[1])

    def test_files_in_another_encoding(self):
        """A letter that an administrator wrote keeps no other site from an upgrade, and no site
        from being taken away; it is named."""
        for site in (ONE, OTHER):
            self.assertEqual(self.did(site, "setup.toml")[0], 0)
        names = self.root / f"etc/nginx/office/{ONE}/staff.conf"
        with open(names, "ab") as file:
            file.write("# la señora Muñoz\n".encode("latin-1"))
        with open(self.root / f"etc/office/{ONE}/status.toml", "ab") as file:
            file.write("# mañana\n".encode("latin-1"))
        hours = self.root / f"etc/nginx/office/{OTHER}/embargo.conf"
        kept = hours.read_bytes()
        hours.write_bytes(kept + "# mañana\n".encode("latin-1"))
        status, printed, said = self.did("--begin-again", OTHER)
        self.assertEqual((status, printed, said), (1, "", f"office-site: {hours}: not UTF-8\n"))
        hours.write_bytes(kept)
        conf = self.root / f"etc/nginx/office/{OTHER}/site.conf"
        conf.write_text("old", encoding="utf-8")
        status, _, said = self.did("--again")
        self.assertEqual((status, said.splitlines()[-1]),
                         (1, f"office-site: {ONE}: {names}: not UTF-8"))
        self.assertNotEqual(conf.read_text(encoding="utf-8"), "old")
        status, printed, _ = self.did("--remove", ONE)
        self.assertEqual((status, self.site.sites_of(self.machine)), (0, [OTHER]))
        self.assertIn(f"left /etc/office/{ONE}\n", printed)
        ports = self.put(f"etc/office/{OTHER}/ports", "DESK=8080\n")
        self.assertEqual(self.did("--list")[::2], (
            1, f"office-site: {ports} lacks a line DESK=PORT or READ=PORT\n"))

    def test_looks_at_a_site(self):
        """They name its ports; those that somebody has changed stay, and it is said where they name
        another one."""
        self.assertEqual(self.did(ONE, "setup.toml", "--port", "8101")[0], 0)
        looks = self.root / f"etc/office/{ONE}/status.toml"
        text = looks.read_text(encoding="utf-8")
        for line in ('desk = "127.0.0.1:8101"', 'reader_port = "127.0.0.1:8201"',
                     'closed_to = "www-data"\nrules = "/etc/office/ports.nft"\n',
                     f'elsewhere = "/etc/office/{ONE}/backup.env"',
                     f'[hour]\nfile = "/etc/nginx/office/{ONE}/embargo.conf"\nsite = "{ONE}"'):
            self.assertIn(line, text)
        for other, is_said in ((text + "# more\n", False), (text.replace("8101", "8102"), True)):
            looks.write_text(other, encoding="utf-8")
            status, printed, said = self.did(ONE)
            self.assertEqual((status, printed), (0, "nothing was changed\n"))
            self.assertEqual(f"/etc/office/{ONE}/status.toml names no desk at 127.0.0.1:8101" in
                             said, is_said)
            self.assertEqual(looks.read_text(encoding="utf-8"), other)

    def test_a_certificate_of_which_a_half_is_missing(self):
        self.assertEqual(self.did(ONE, "setup.toml")[0], 0)
        folder = self.root / f"etc/nginx/office/{ONE}"
        [words] = [words for words in self.ran if words[0] == "openssl"]
        for word in ("/CN=" + ONE, f"subjectAltName=DNS:{ONE}", "30"):
            self.assertIn(word, words)
        for name in ("key.pem", "certificate.pem"):
            text = (folder / name).read_text()
            (folder / name).unlink()
            self.assertIn(f"of {folder / 'key.pem'} and {folder / 'certificate.pem'} one is "
                          "missing", self.did(ONE)[2])
            (folder / name).write_text(text)

    def test_the_rules_of_the_ports(self):
        rules = self.root / "etc/office/ports.nft"
        write = lambda open_port, *sites: self.site.write_rules(self.machine, sites, open_port)
        with contextlib.redirect_stdout(io.StringIO()):
            self.ports(ONE, 8090)
            self.ports(OTHER, 8080)
            write(None, OTHER, ONE)
            text = rules.read_text(encoding="utf-8")
            self.assertIn("elements = { 8080, 8090 }", text)
            self.assertIn("elements = { 8180, 8190 }", text)
            # Once the ports are open, they stay so until it is said otherwise.
            for open_port, is_open in ((True, True), (None, True), (False, False), (None, False)):
                write(open_port, OTHER, ONE)
                self.assertEqual("--open-port" in rules.read_text(encoding="utf-8"), is_open)
                self.assertEqual(self.site.is_open(self.machine), is_open)
            write(None)
        self.assertFalse(rules.exists() or self.site.is_open(self.machine))


class Ended(OfSites):
    def test_a_site_that_is_taken_away(self):
        """Its data is left and named; what somebody has changed or added too."""
        self.put("etc/nginx/nginx.conf", "of Debian")
        for site in (ONE, OTHER):
            self.assertEqual(self.did(site, "setup.toml")[0], 0)
        aside = self.root / "etc/nginx/nginx.conf.before-office"
        self.assertEqual(aside.read_text(), "of Debian")
        folder = self.root / f"etc/nginx/office/{ONE}"
        (folder / "ours.conf").write_text("", encoding="utf-8")
        (folder / "headers.conf").unlink()
        looks = self.root / f"etc/office/{OTHER}/status.toml"
        looks.write_text("# ours\n", encoding="utf-8")
        status, printed, _ = self.did("--remove", ONE)
        self.assertEqual((status, printed.splitlines()), (0, [
            "wrote /etc/office/ports.nft", "wrote /etc/nginx/nginx.conf",
            f"removed /etc/office/{ONE}/status.toml", f"removed /etc/nginx/office/{ONE}/*.conf",
            f"removed /var/lib/office-site/{ONE}/clerk.html",
            f"removed /var/lib/office-site/{ONE}/setup.json", f"removed /etc/office/{ONE}/ports",
            *(f"left {place}/{ONE}" for place in ("/var/lib/office", "/var/log/office",
                                                  "/var/www/office", "/etc/office",
                                                  "/etc/nginx/office")),
            f"left /etc/nginx/office/{ONE}/ours.conf, which is not the package's"]))
        self.assertEqual({file.name for file in folder.glob("*.conf")},
                         {"ours.conf", "staff.conf", "embargo.conf"})
        self.assertFalse((self.root / f"var/lib/office-site/{ONE}").exists())
        nginx = self.root / "etc/nginx/nginx.conf"
        self.assertIn(f"include office/{OTHER}/site.conf;", nginx.read_text(encoding="utf-8"))
        self.assertNotIn(ONE, nginx.read_text(encoding="utf-8"))
        self.assertEqual(self.did("--remove", ONE)[::2],
                         (1, f"office-site: there is no site {ONE}\n"))
        status, printed, _ = self.did("--remove", "--all")
        self.assertEqual((status, looks.read_text(encoding="utf-8")), (0, "# ours\n"))
        self.assertIn("put back /etc/nginx/nginx.conf\n", printed)
        self.assertNotIn(f"removed /etc/office/{OTHER}/status.toml", printed)
        self.assertEqual((nginx.read_text(encoding="utf-8"), aside.exists()), ("of Debian", False))
        self.assertFalse((self.root / "etc/office/ports.nft").exists())
        self.assertEqual(self.did("--remove", "--all"), (0, "nothing was changed\n", ""))

    def test_a_trial_that_is_put_aside(self):
        """The database, the record and the copies of it, and its setup where another is named; the
        pages go."""
        self.assertIn(f"there is no site {ONE}", self.did("--begin-again", ONE)[2])
        self.assertEqual(self.did(ONE, "setup.toml")[0], 0)
        pages, data = self.root / f"var/www/office/{ONE}", self.root / f"var/lib/office/{ONE}"
        Path("other.toml").write_text(with_stations(3), encoding="utf-8")
        aside = set()
        for number, words in enumerate(((), ("other.toml",))):
            with self.subTest(words=words):
                for name in (".provisional", "index.html", "es/index.html"):
                    self.put(f"var/www/office/{ONE}/{name}")
                (pages / "link").symlink_to(data)
                self.put(f"var/log/office/{ONE}/commands.log", "a record")
                self.put(f"var/lib/office/{ONE}/backup/office-1.db")
                seen = self.put(f"var/lib/office-status/{ONE}/seen.json")

                class Clock(datetime):
                    @classmethod
                    def now(cls, tz=None, number=number):
                        return datetime(2026, 11, 28, 12, 0, number, tzinfo=tz)

                self.site.datetime = Clock
                status, printed, said = self.did("--begin-again", ONE, *words)
                self.assertEqual((status, self.ran[0][0]), (0, "office"), said)
                moment = f"trial-20261128T12000{number}"
                aside.add(f".{moment}")
                self.assertEqual({file.name for file in (data / moment).iterdir()},
                                 {"office.db", "backup"})
                self.assertEqual((data / moment).stat().st_mode & 0o777, 0o750)
                record = self.root / f"var/log/office/{ONE}"
                self.assertEqual((record / moment / "commands.log").read_text(), "a record")
                self.assertFalse((record / "commands.log").exists() or seen.exists())
                wanted = {"index.html", "es", "link"}
                self.assertEqual({file.name for file in (pages / f".{moment}").iterdir()}, wanted)
                self.assertFalse({file.name for file in pages.iterdir()} - aside)
                setup = self.root / f"etc/office/{ONE}"
                self.assertEqual((setup / moment / "setup.toml").exists(), bool(words))
                wanted = with_stations(3) if words else SETUP
                self.assertEqual((setup / "setup.toml").read_text(encoding="utf-8"), wanted)
                self.assertEqual(setup_in(data / "office.db"), wanted)
        # One that is wrong puts nothing aside.
        self.fails = {"office": "refused"}
        status, printed, said = self.did("--begin-again", ONE)
        self.assertEqual((status, printed, said), (1, "", "office-site: the setup: refused\n"))
        self.assertTrue((data / "office.db").exists())

    def test_the_sites_of_a_computer(self):
        self.ports(ONE, 8090)
        self.ports(OTHER, 8080)
        self.assertEqual(self.did("--list"), (
            0, f"{OTHER}: port 8080, does not run, one of the board\n"
               f"{ONE}: port 8090, does not run, one of the board\n", ""))
        self.machine.is_active = lambda unit: unit == f"office@{ONE}"
        with contextlib.redirect_stdout(io.StringIO()) as printed:
            self.site.show(self.machine)
        self.assertEqual(printed.getvalue(), f"{OTHER}: port 8080, does not run, one of the "
                                             f"board\n{ONE}: port 8090, runs, one of the board\n")

    def test_who_may_do_it(self):
        """On the computer itself root alone, and in a new folder anybody; one at a time."""
        (self.root / "etc/office").rmdir()
        (self.root / "etc").rmdir()
        with mock.patch.object(os, "geteuid", lambda: 1000):
            self.assertEqual(self.did("--list"), (0, "", ""))
        locked = os.open(self.root / "etc/office", os.O_RDONLY)
        self.addCleanup(os.close, locked)
        fcntl.flock(locked, fcntl.LOCK_EX)
        self.assertEqual(self.did("--list")[::2], (1, "office-site: another office-site is at "
                                                      "work\n"))
        with mock.patch.object(self.site, "Machine", lambda _: SimpleNamespace(is_real=True)), \
                mock.patch.object(os, "geteuid", lambda: 1000):
            self.assertEqual(self.did("--list")[::2], (1, "office-site: it needs root\n"))
