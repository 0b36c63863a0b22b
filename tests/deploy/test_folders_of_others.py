"""Folders of other users in which tools work as root: a user that others have taken over must not
get root by them, or choose what the proxy and the recorder obey."""

import os
import shutil
from pathlib import Path
from unittest import mock

from tests.support.case import Case
from tests.support.office import SETUP
from tests.support.scripts import loaded, module

site_machine = module("site_machine")


class PutAside(Case):
    prefix = "office-aside-"

    def setUp(self):
        super().setUp()
        self.machine = site_machine.Machine(Path.cwd())
        Path("data").mkdir()
        Path("data/office.db").touch()
        Path("data/backup").mkdir()
        # What the user of the folder wants to have.
        Path("wanted").mkdir(mode=0o755)

    def put_aside(self):
        self.machine.put_aside("/data", ("office.db*", "backup", "none"), "trial", 0o750, "office")

    def test_files_are_moved(self):
        self.put_aside()
        self.assertEqual(sorted(os.listdir("data/trial")), ["backup", "office.db"])
        self.assertEqual((os.listdir("data"), os.stat("data/trial").st_mode & 0o777),
                         (["trial"], 0o750))
        # Where nothing is to be put aside there is no folder.
        self.machine.put_aside("/data", ("none",), "again", 0o750, "office")
        self.assertEqual(os.listdir("data"), ["trial"])

    def assert_nothing_moved(self):
        self.assertEqual((os.listdir("wanted"), os.stat("wanted").st_mode & 0o777), ([], 0o755))
        self.assertTrue(Path("data/office.db").exists())

    def test_a_link_that_is_there_before(self):
        """Its name is a moment, and can be foreseen."""
        os.symlink("../wanted", "data/trial")
        with self.assertRaises(OSError):
            self.put_aside()
        self.assert_nothing_moved()

    def test_a_link_that_comes_meanwhile(self):
        mkdir = os.mkdir

        def exchanged(*words, **more):
            mkdir(*words, **more)
            os.rmdir("data/trial")
            os.symlink("../wanted", "data/trial")

        with mock.patch("os.mkdir", exchanged), self.assertRaises(OSError):
            self.put_aside()
        self.assert_nothing_moved()


class Made(Case):
    prefix = "office-made-"

    def test_what_root_reads_is_made_where_root_alone_writes(self):
        """The database is made by its user, in a folder of its own; the setup, the names and all
        that the proxy gets are in one that this user may not write."""
        office_site = loaded("office-site")
        machine = site_machine.Machine(Path.cwd())
        machine.is_real, given, told = True, [], []

        def ran(*words, **_):
            told.append([str(word) for word in words])
            return "", ""

        with (mock.patch.object(office_site, "run", ran),
              mock.patch.object(shutil, "chown", lambda file, *_: given.append(Path(file))),
              office_site.trial(machine, SETUP.encode(), "clara clerk;\n", False) as made):
            self.assertEqual(given, [made / "data"])
            modes = {name: (made / name).stat().st_mode & 0o777
                     for name in ("", "data", "setup.toml", "staff.conf")}
            self.assertEqual(modes, {"": 0o711, "data": 0o700, "setup.toml": 0o644,
                                     "staff.conf": 0o600})
            new, written = told
            self.assertEqual(new[:4], ["runuser", "-u", "office", "--"])
            self.assertEqual(Path(new[new.index("--db") + 1]).parent, made / "data")
            self.assertEqual(written[1:], [str(made / name)
                                           for name in ("setup.toml", "share", "codes.conf")])


class Written(Case):
    prefix = "office-written-"

    def test_metrics_follow_no_link(self):
        """The folder of a collector may be another user's."""
        Path("theirs").write_bytes(b"theirs")
        Path(".office.prom.new").symlink_to("theirs")
        loaded("status").put(Path("office.prom"), "office_well 1")
        self.assertEqual((Path("theirs").read_bytes(), Path("office.prom").read_text()),
                         (b"theirs", "office_well 1"))

    def test_papers_follow_no_link(self):
        """Their names are known before; root may print them into the folder of the pages."""
        Path("theirs").write_bytes(b"theirs")
        Path("folder").mkdir()
        Path("folder/.act.html.new").symlink_to("../theirs")
        loaded("papers").write(Path("folder"), {"act.html": b"an act"})
        self.assertEqual([Path(file).read_bytes() for file in ("theirs", "folder/act.html")],
                         [b"theirs", b"an act"])
        self.assertEqual(os.listdir("folder"), ["act.html"])
