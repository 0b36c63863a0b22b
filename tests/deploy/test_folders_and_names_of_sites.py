"""office-site where a folder in /etc/office was renamed or copied, and where a name is given again;
and its words on two of the board."""

import re
import shutil

from tests.support.scripts import module
from tests.support.sites import OfSites

ONE, OTHER, THIRD = "a.example", "b.example", "c.example"
OLD = f"{ONE}.old"
OFFICES, PROXY = "etc/office", "etc/nginx/office"


class Folders(OfSites):
    def setUp(self):
        super().setUp()
        for site, port in ((ONE, "8101"), (OTHER, "8102")):
            self.assertEqual(self.did(site, "setup.toml", "--port", port)[0], 0)

    def files(self):
        return {str(file.relative_to(self.root)): file.is_file() and file.read_bytes()
                for file in self.root.rglob("*")}

    def renamed(self, *places):
        for place in places:
            (self.root / place / ONE).rename(self.root / place / OLD)

    def is_named(self, *words):
        """It is refused, before anything is changed."""
        before = self.files()
        self.assertEqual(self.did(*words), (
            1, "", f"office-site: /etc/office/{OLD} is a copy of the folder of {ONE}, or was "
                   f"renamed: move it and /etc/nginx/office/{OLD} out of /etc/office and "
                   "/etc/nginx/office, to /root for instance\n"))
        self.assertEqual(self.files(), before)

    def served(self):
        conf = (self.root / "etc/nginx/nginx.conf").read_text(encoding="utf-8")
        return re.findall("include office/(.*)/site.conf;", conf)

    def test_a_folder_that_was_renamed(self):
        """It has ports, and so it would be a site: no site is set up beside it."""
        self.renamed(OFFICES, PROXY)
        for words in ((ONE, "setup.toml"), (OTHER,), (THIRD, "setup.toml"), (OLD,),
                      ("--begin-again", OTHER), ("--restore", "setup.toml", ONE)):
            with self.subTest(words=words):
                self.is_named(*words)
        for place in (OFFICES, PROXY):
            shutil.move(self.root / place / OLD, "away-" + place.replace("/", "-"))
        self.assertEqual((self.did(OTHER)[0], self.served()), (0, [OTHER]))

    def test_a_name_of_a_boards_own(self):
        """Its looks say whose the folder is."""
        site = self.root / PROXY / ONE / "site.conf"
        text = site.read_text(encoding="utf-8")
        for name in ("www.example.org", OTHER):
            site.write_text(text.replace(f"server_name {ONE}", f"server_name {name}"),
                            encoding="utf-8")
            self.assertEqual(self.did(ONE)[0], 0)
            self.assertEqual(site.read_text(encoding="utf-8"), text)

    def test_passwords_that_the_proxy_cannot_read(self):
        file = self.root / PROXY / ONE / "staff.htpasswd"
        file.chmod(0o600)
        self.assertIn("owner of /etc/nginx/office/a.example/staff.htpasswd\n", self.did(ONE)[1])
        self.assertEqual(file.stat().st_mode & 0o777, 0o640)
        self.assertEqual(self.did(ONE)[1], "nothing was changed\n")

    def test_a_copy_of_a_folder(self):
        """With ports of its own too; and one whose part of the proxy is gone, by its looks."""
        for place in (OFFICES, PROXY):
            shutil.copytree(self.root / place / ONE, self.root / place / OLD, symlinks=True)
        for port in (8101, 8103):
            self.ports(OLD, port)
            for site in (ONE, OTHER):
                self.is_named(site)
        shutil.rmtree(self.root / PROXY / OLD)
        self.is_named(ONE)
        # An upgrade goes on with the site itself, and with the other.
        pages = [self.root / f"var/lib/office-site/{site}/setup.json" for site in (ONE, OTHER)]
        new = [page.read_bytes() for page in pages]
        for port in (8101, 8103):
            self.ports(OLD, port)
            for page in pages:
                page.write_text("of an older package", encoding="utf-8")
            status, _, said = self.did("--again")
            self.assertEqual((status, [page.read_bytes() for page in pages], self.served()),
                             (1, new, [ONE, OTHER]))
            self.assertRegex(said.split("office-site: ", 1)[1],
                             f"^{OLD}: /etc/office/{OLD} is a copy of the folder of {ONE}, .*\n$")
        looks = self.root / OFFICES / OLD / "status.toml"
        looks.write_bytes(looks.read_bytes() + "# mañana\n".encode("latin-1"))
        self.is_named(ONE)

    def test_the_other_sites_beside_it(self):
        """They are listed and taken away, and an upgrade goes on with them: the proxy reads no file
        of that folder."""
        self.renamed(OFFICES, PROXY)
        status, printed, said = self.did("--list")
        self.assertEqual((status, said, [line.split(":")[0] for line in printed.splitlines()]),
                         (0, "", [OLD, OTHER]))
        conf = self.root / PROXY / OTHER / "site.conf"
        new = conf.read_text(encoding="utf-8")
        conf.write_text("of an older package", encoding="utf-8")
        status, _, said = self.did("--again")
        self.assertEqual((status, conf.read_text(encoding="utf-8"), self.served()),
                         (1, new, [OTHER]))
        self.assertEqual([line[:40] for line in said.splitlines() if line.startswith("office-s")],
                         [f"office-site: {OLD}: /etc/office/{OLD}"[:40]])
        self.assertEqual((self.did("--remove", OTHER)[0], self.served()), (0, []))
        self.assertEqual(self.did("--list")[1].count("\n"), 1)
        self.assertEqual(self.did("--remove", OLD)[0], 0)
        self.assertEqual(self.did(ONE, "setup.toml")[0], 0)

    def test_a_site_that_was_only_begun(self):
        """One without files of its own yet, or with those of an older package, is no copy."""
        for name in ("site.conf", "status.toml"):
            file = self.root / (PROXY if name == "site.conf" else OFFICES) / OTHER / name
            for text in ("", None):
                with self.subTest(name=name, text=text):
                    file.unlink() if text is None else file.write_text(text, encoding="utf-8")
                    self.assertEqual(self.did(ONE)[0], 0)
        self.assertEqual(self.did(OTHER)[0], 0)


class Names(OfSites):
    def setUp(self):
        super().setUp()
        self.assertEqual(self.did(ONE, "setup.toml")[0], 0)
        self.folder = self.root / PROXY / ONE
        self.conf, self.passwords = self.folder / "staff.conf", self.folder / "staff.htpasswd"
        self.kept = "".join(f"{name}:old\n" for name in ("clerk-1", "second-1", "board-1"))
        self.passwords.write_text(self.kept + "Clerk-2:old\n", encoding="utf-8")

    def removed(self):
        """As somebody removes a name from staff.conf alone."""
        text = self.conf.read_text(encoding="utf-8")
        self.conf.write_text(re.sub("^clerk-2 .*\n", "", text, flags=re.M), encoding="utf-8")
        self.assertNotEqual(self.conf.read_text(encoding="utf-8"), text)

    def given(self, *words):
        """The names that get a password from office-site with these words."""
        status, printed, said = self.did(*words)
        self.assertEqual(status, 0, said)
        return re.findall("^password of (.*) secret$", printed, re.M)

    def test_a_name_that_is_given_again(self):
        """It gets a new password, and the old one is good no more; also in another role. A name
        that is there keeps its own."""
        for role in ("clerk", "board"):
            with self.subTest(role=role):
                self.removed()
                self.assertEqual(self.given(ONE, "--name", f"{role}:clerk-2",
                                            "--name", "clerk:clerk-1"), ["clerk-2"])
                self.assertEqual(self.passwords.read_text(), self.kept + "clerk-2:x\n")
                self.assertEqual(self.passwords.stat().st_mode & 0o777, 0o640)
                self.assertEqual(self.given(ONE, "--name", f"{role}:clerk-2"), [])

    def test_an_interruption_before_it_has_its_password(self):
        """The old one is gone by then, and the next run gives a new one."""
        self.removed()
        self.fails = {"password": "no room"}
        self.assertEqual(self.did(ONE, "--name", "clerk:clerk-2")[0], 1)
        self.assertIn("clerk-2 clerk;\n", self.conf.read_text(encoding="utf-8"))
        self.assertEqual(self.passwords.read_text(), self.kept)
        self.fails = {}
        self.assertEqual(self.given(ONE), ["clerk-2"])

    def test_a_first_run_that_was_interrupted(self):
        """Before a password was given, or after some: the rest get theirs."""
        for text, wanted in ((None, 4), ("clerk-1:old\nboard-1:old\n", 2)):
            with self.subTest(text=text):
                if text is None:
                    self.passwords.unlink()
                else:
                    self.passwords.write_text(text, encoding="utf-8")
                self.assertEqual(len(self.given(ONE, "setup.toml")), wanted)
                self.assertEqual(self.passwords.read_text().startswith(text or ""), True)

    def test_names_that_sites_share(self):
        """A name that is given again to the site whose they are has one new password for both."""
        self.passwords.write_text(self.kept + "clerk-2:old\n", encoding="utf-8")
        before = self.passwords.read_text()
        self.assertEqual(self.given(OTHER, "setup.toml", "--passwords-of", ONE), [])
        self.assertEqual(self.passwords.read_text(), before)
        self.removed()
        self.assertEqual(self.given(OTHER), [])
        self.assertEqual(self.passwords.read_text(), before)
        self.assertEqual(self.given(ONE, "--name", "clerk:clerk-2"), ["clerk-2"])
        self.assertEqual((self.root / PROXY / OTHER / "staff.htpasswd").read_text(),
                         self.kept + "clerk-2:x\n")
        self.assertTrue((self.root / PROXY / OTHER / "staff.htpasswd").is_symlink())


class Board(OfSites):
    def test_two_of_the_board(self):
        """Each run that sets up a site says whether its recorder asks for them, and so does the
        list."""
        self.assertEqual(self.did(ONE, "setup.toml", "--port", "8101")[0], 0)
        unit = f"etc/systemd/system/office-recorder@{ONE}.service"
        for place, text, wanted in (
                (None, "", "one"), (f"{OFFICES}/{ONE}/recorder.env", "", "one"),
                (f"{OFFICES}/{ONE}/recorder.env", "# RECORDER=--two-of-board\n", "one"),
                (f"{OFFICES}/{ONE}/recorder.env", "\n;RECORDER=--two-of-board\n", "one"),
                (f"{OFFICES}/{ONE}/recorder.env", "--two-of-board\n", "one"),
                (f"{OFFICES}/{ONE}/recorder.env", "RECORDER=--two-of-board\nRECORDER=\n", "one"),
                (f"{OFFICES}/{ONE}/recorder.env", "# ours\nRECORDER='--two-of-board'\n", "two"),
                (unit, "[Service]\nExecStart=recorder.py /run", "one"),
                (unit, "[Service]\nExecStart=recorder.py $RECORDER /run", "two"),
                (f"{OFFICES}/{ONE}/recorder.env", "RECORDER=\n", "one"),
                (unit, "[Service]\nExecStart=recorder.py --two-of-board /run\n", "two")):
            with self.subTest(place=place, text=text):
                if place:
                    self.put(place, text)
                self.assertEqual(self.did("--list")[1], f"{ONE}: port 8101, does not run, {wanted} "
                                                        "of the board\n")
                for words in ((ONE,), ("--again",), (ONE, "setup.toml")):
                    status, printed, said = self.did(*words)
                    self.assertEqual((status, printed), (0, "nothing was changed\n"))
                    self.assertIn(f"{ONE}: port 8101, {wanted} of the board\n", said)

    def test_the_recorder_that_runs(self):
        """It is that one of which it is said, whatever the files say. Where it asks for another
        number of names than one that is started now, it is started once more, and no other unit
        is; and what is said is of the new one."""
        self.assertEqual(self.did(ONE, "setup.toml", "--port", "8101")[0], 0)
        self.put(f"var/lib/office/{ONE}/backup/office-1.db")
        runs, calls = {}, []
        unit = f"office-recorder@{ONE}"
        starts = {True: ["python3", "recorder.py", "--two-of-board", "/run"],
                  False: ["python3", "recorder.py", "/run"]}

        def systemctl(*words):
            if words[0] == "restart" and f"{unit}.service" in words:
                calls.append(words[1:])
                runs[unit] = starts[new]

        self.machine.has_services, self.machine.systemctl = True, systemctl
        self.machine.words_of, self.machine.is_active = runs.get, lambda _: True
        self.machine.is_older, self.machine.reload_proxy = lambda *_: False, lambda: None
        self.site.Machine, self.site.await_page = lambda _: self.machine, lambda _: None
        self.site.listeners = lambda: {443: {"1"}}
        one, two = "one of the board", "two of the board"
        differs = f"{one}: recorder.env asks for two, and the recorder that runs does not"
        env, asked = f"{OFFICES}/{ONE}/recorder.env", "RECORDER=--two-of-board\n"
        own, template = (f"etc/systemd/system/office-recorder@{name}.service"
                         for name in (ONE, ""))
        bare, full = (f"[Service]\nExecStart=recorder.py {words}/run\n"
                      for words in ("", "--two-of-board "))
        # Which words it runs with, the files, and which words a new one gets; then what is said
        # of that which runs, and of that which runs after office-site.
        for old, files, new, listed, said in (
                (False, {env: asked}, True, differs, two),
                (True, {env: asked}, True, two, two),
                (True, {}, False, two, one),
                (False, {}, False, one, one),
                (False, {env: "--two-of-board\n"}, False, one, one),
                (True, {env: f"export {asked}"}, False, two, one),
                (False, {env: asked.lower()}, False, one, one),
                (True, {env: f"{asked}RECORDER=--verbose\n"}, False, two, one),
                (False, {env: f"RECORDER=\n {asked}# RECORDER=\n"}, True, differs, two),
                (False, {env: asked, template: bare}, False, differs, differs),
                (False, {env: asked, own: bare}, False, differs, differs),
                (True, {own: full, template: bare}, True, two, two)):
            with self.subTest(old=old, files=files):
                for place in (env, own, template):
                    (self.root / place).unlink(missing_ok=True)
                for place, text in files.items():
                    self.put(place, text)
                for words, restarts in ((ONE, old != new), ("--again", True)):
                    calls.clear()
                    self.machine.changed.clear()
                    runs[unit] = starts[old]
                    self.assertEqual(self.did("--list")[1], f"{ONE}: port 8101, runs, {listed}\n")
                    status, _, text = self.did(words)
                    self.assertEqual((status, text.splitlines()[-1]),
                                     (0, f"{ONE}: port 8101, {said}"))
                    self.assertEqual(len(calls), restarts)
                    if words == ONE and restarts:
                        self.assertEqual(calls, [(f"{unit}.service",)])

    def test_a_recorder_whose_words_are_newer(self):
        """It is started once more, and no other unit is."""
        self.machine.has_services = True
        calls, files = [], {}
        self.machine.words_of = lambda _: None
        self.machine.systemctl = lambda *words: calls.append(words)
        self.machine.reload_proxy = self.site.await_page = lambda *_: None
        self.site.listeners = lambda: {443: {"1"}}
        words = f"/etc/office/{ONE}/recorder.env"
        self.machine.is_older = lambda unit, *of: files.update({unit: of}) or words in of
        self.put(f"var/lib/office/{ONE}/backup/office-1.db")
        for is_there in (False, True):
            calls.clear()
            if is_there:
                self.put(words[1:], "RECORDER=--two-of-board\n")
            self.site.start(self.machine, ONE, False)
            self.assertEqual([call for call in calls if call[0] == "restart"],
                             [("restart", f"office-recorder@{ONE}.service")] * is_there)
        self.assertEqual(module("site_places").board_of(self.machine, ONE), "two of the board")
