"""office-site where data of a site is gone, put aside, or half put aside: no fault is found only
after something was changed, and no empty office takes the place of one that is not there now."""

import contextlib
import hashlib
import io
import os
import shutil
import sys
from pathlib import Path
from unittest import mock

from tests.deploy.test_office_site import ONE, SETUP, tree
from tests.support.case import Case, needs
from tests.support.office import with_stations
from tests.support.packages import made_once, office_site, unpacked
from tests.support.record import LODGED, a_command, chained
from tests.support.scripts import loaded, module

chain = module("chain")
DATA, RECORD = f"var/lib/office/{ONE}", f"var/log/office/{ONE}/commands.log"


class OfOneSite(Case):
    of_the_program = True
    prefix = "office-begun-again-"

    def begun(self):
        """A site whose record has a command."""
        Path("setup.toml").write_text(SETUP, encoding="utf-8")
        root = unpacked(made_once(), "root")
        self.assertEqual(office_site(root, ONE, "setup.toml", "--port", "8101")[0], 0)
        setup = root / f"var/lib/office-site/{ONE}/setup.json"
        self.first = {"setup": hashlib.sha256(setup.read_bytes()).hexdigest()}
        (root / RECORD).write_bytes(chained(self.first, a_command(str(LODGED))))
        return root

    @needs("dpkg-deb", "git", "openssl")
    def test_no_empty_office_beside_a_record_with_commands(self):
        """The file system of the database is perhaps not there: nothing is made in its place, also
        by an upgrade or by who begins again. The record of an office that did nothing is no
        reason."""
        root = self.begun()
        os.rename(root / DATA, "elsewhere")
        before = tree(root)
        wanted = (1, "", f"office-site: {root / RECORD} has commands, and {root / DATA}/office.db "
                  "is not there: mount its file system, put it back. If it is lost, leave the "
                  "record there, and do what /usr/share/doc/office/deploy/README.md says of a "
                  "machine that is lost\n")
        for words in ((ONE,), (ONE, "setup.toml"), ("--again",), ("--begin-again", ONE)):
            with self.subTest(words=words):
                status, out, said = office_site(root, *words)
                self.assertEqual((status, out, said.replace(f"{ONE}: ", "", 1)), wanted)
                self.assertEqual(tree(root), before)
        os.rename("elsewhere", root / DATA)
        self.assertEqual(office_site(root, ONE)[:2], (0, "nothing was changed\n"))
        shutil.rmtree(root / DATA)
        (root / RECORD).write_bytes(chained(self.first))
        self.assertIn("office.db is not there", office_site(root, ONE)[2])
        self.assertEqual(office_site(root, ONE, "setup.toml")[0], 0)
        self.assertTrue((root / DATA / "office.db").exists())

    @needs("dpkg-deb", "git", "openssl")
    def test_a_trial_that_was_put_aside_by_half(self):
        """The record goes last. What was killed before goes on with the new setup, and nothing else
        does before."""
        root = self.begun()
        tool, put_aside = loaded("office-site"), module("site_machine").Machine.put_aside
        tool.HERE, tool.SHARE = root / "usr/lib/office", root / "usr/share/office"
        Path("new.toml").write_text(with_stations(3), encoding="utf-8")
        pages = root / f"var/www/office/{ONE}"
        (pages / "record.csv").touch()

        def killed(machine, place, *how):
            if place.startswith("/var/log/"):
                raise KeyboardInterrupt
            put_aside(machine, place, *how)

        argv = ["office-site", "--root", str(root), "--begin-again", ONE, "new.toml"]
        with mock.patch.object(tool.Machine, "put_aside", killed), \
                mock.patch.object(sys, "argv", argv), self.assertRaises(KeyboardInterrupt), \
                contextlib.redirect_stdout(io.StringIO()), \
                contextlib.redirect_stderr(io.StringIO()):
            tool.act(tool.Machine(root), tool.read_words())
        [aside] = (root / DATA).iterdir()
        self.assertEqual([file.name for file in aside.iterdir()], ["office.db"])
        self.assertEqual([*pages.iterdir()], [pages / f".{aside.name}"])
        # One that cannot tidy up leaves the folder in which it made the new office.
        (root / "var/lib/office/.new-killed/data").mkdir(parents=True)
        before, record = tree(root), (root / RECORD).read_bytes()
        for words in ((ONE,), (ONE, "new.toml"), ("--again",)):
            with self.subTest(words=words):
                status, out, said = office_site(root, *words)
                self.assertEqual((status, out, tree(root)), (1, "", before))
                self.assertIn(f", or go on with an interrupted office-site --begin-again {ONE}. If",
                              said)
        status, out, said = office_site(root, "--begin-again", ONE, "new.toml")
        self.assertEqual((status, f"made /{DATA}/office.db\n" in out), (0, True), said)
        self.assertFalse((root / RECORD).exists())
        [aside] = (root / RECORD).parent.glob("trial-*/commands.log")
        self.assertEqual(aside.read_bytes(), record)
        self.assertEqual([*(root / "var/lib/office").glob(".new-*")], [])
        self.assertEqual((root / f"etc/office/{ONE}/setup.toml").read_text(), with_stations(3))
        self.assertEqual(office_site(root, ONE)[:2], (0, "nothing was changed\n"))

    @needs("dpkg-deb", "git", "openssl")
    def test_what_is_wrong_is_found_before_a_trial_is_put_aside(self):
        """Nothing was changed, and no service stopped."""
        root, tool = self.begun(), loaded("office-site")
        (root / f"etc/nginx/office/{ONE}/staff.conf").write_text("ana clerk;\n", encoding="utf-8")
        nginx, key = root / "etc/nginx/nginx.conf", root / f"etc/nginx/office/{ONE}/key.pem"
        tool.stop, tool.SHARE = mock.Mock(), root / "usr/share/office"

        def faulty(*words):
            argv = ["office-site", "--root", str(root), "--begin-again", ONE, *words]
            with mock.patch.object(sys, "argv", argv), self.assertRaises(tool.Fault) as fault, \
                    contextlib.redirect_stdout(io.StringIO()) as out:
                tool.act(tool.Machine(root), tool.read_words())
            self.assertEqual((out.getvalue(), tool.stop.mock_calls), ("", []))
            return str(fault.exception)

        before = tree(root)
        for words, fault in (
                (["--hour", "2020-01-01T00:00:00+00:00"], "is past"),
                (["--name", "board:ana"], "ana has the role clerk: a name has one role"),
                (["--passwords-of", "b.example"], "there is no other site b.example"),
                (["nonesuch.toml"], "nonesuch.toml: No such file or directory"),
                (["--port", "8102"], f"{ONE} has port 8101 already"),
                (["--language", "xx"], "there is no page of clerks in the language xx")):
            with self.subTest(words=words):
                self.assertIn(fault, faulty(*words))
                self.assertEqual(tree(root), before)
        key.rename("key.pem")
        self.assertIn("one is missing", faulty())
        Path("key.pem").rename(key)
        nginx.write_text("of Debian", encoding="utf-8")
        (nginx.parent / "conf.d").mkdir()
        (nginx.parent / "conf.d/shop.conf").touch()
        self.assertIn("nginx serves something else here", faulty())
        self.assertTrue((root / DATA / "office.db").exists())


class Names(Case):
    prefix = "office-names-of-sites-"

    def test_names_that_differ_in_capitals_alone(self):
        """The proxy refuses a file in which both are."""
        tool = loaded("office-site")
        it, folder = tool.Machine(Path.cwd()), Path(f"etc/nginx/office/{ONE}")
        folder.mkdir(parents=True)
        (folder / "staff.conf").write_text("ana clerk;\nBea board;\n", encoding="utf-8")
        for name, role, known in (("Ana", "clerk", "ana"), ("ANA", "board", "ana"),
                                  ("bea", "board", "Bea")):
            with self.subTest(name=name, role=role):
                with self.assertRaises(tool.Fault) as fault:
                    tool.staff_of(it, ONE, {name: role})
                self.assertEqual(str(fault.exception), f"{name} is called as {known}, whom the "
                                 "proxy takes for the same: choose another name")
        self.assertEqual(tool.staff_of(it, ONE, {"ana": "clerk", "Bea": "board", "eva": "clerk"}),
                         "ana clerk;\nBea board;\neva clerk;\n")


class Records(Case):
    prefix = "office-records-of-sites-"

    def test_a_record_that_has_commands(self):
        """More than its first line, which says of which setup it is."""
        first, command = {"setup": "0" * 64}, a_command("{}", "/station/s1/close")
        record = Path("commands.log")
        self.assertFalse(chain.has_commands(record))
        for data, wanted in ((b"", False), (chained(first), False), (chained(first, command), True),
                             (chained(first) + b"{", True), (chained(command), True),
                             (chained(a_command("x" * 5_000)), True),
                             (chained(first)[:20], True), (b"\0\n", True)):
            with self.subTest(data=data[:40]):
                record.write_bytes(data)
                self.assertEqual(chain.has_commands(record), wanted)
        # What its user may put there instead is not followed, and not waited for.
        record.rename("elsewhere")
        record.symlink_to("elsewhere")
        self.assertRaises(OSError, chain.has_commands, record)
        record.unlink()
        os.mkfifo(record)
        with self.assertRaisesRegex(OSError, "^commands.log is no file$"):
            chain.has_commands(record)
