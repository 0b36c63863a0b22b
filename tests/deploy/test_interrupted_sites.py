"""office-site that is killed between two changes of files and run once more; after a whole trial;
and where one of several sites has a fault."""

import hashlib
import os
import re
import shutil
from datetime import datetime, timedelta
from pathlib import Path
from unittest import mock

from tests.support.record import LODGED, a_command, chained
from tests.support.sites import SETUP, OfSites, made_of, setup_in

ONE, OTHER = "a.example", "b.example"
DATA, RECORD = f"var/lib/office/{ONE}", f"var/log/office/{ONE}/commands.log"


class Killed(BaseException):
    pass


class Interrupted(OfSites):
    def setUp(self):
        super().setUp()
        self.assertEqual(self.did(ONE, "setup.toml", "--port", "8101")[0], 0)
        self.assertEqual(self.did(OTHER, "setup.toml", "--port", "8102")[0], 0)
        # (the line end more marks it)
        (self.root / DATA / "office.db").unlink()
        made_of(SETUP + "\n", self.root / DATA / "office.db")
        self.put(f"var/www/office/{ONE}/index.html", "a page")
        self.put(f"{DATA}/office.db-wal", "beside it")
        self.has_commands()
        moments = (datetime(2026, 11, 28) + timedelta(seconds=more) for more in range(9_999))
        self.site.datetime = mock.Mock(now=lambda: next(moments))

    def has_commands(self):
        setup = (self.root / f"var/lib/office-site/{ONE}/setup.json").read_bytes()
        first = {"setup": hashlib.sha256(setup).hexdigest()}
        self.put(RECORD).write_bytes(chained(first, a_command(str(LODGED))))

    def killed(self, before, *words):
        """Whether office-site came to the change of a file that has this number, before which it is
        killed."""
        count = 0

        def counted(change):
            def counting(*given, **more):
                nonlocal count
                count += 1
                if count == before:
                    raise Killed
                return change(*given, **more)
            return counting

        with mock.patch.multiple(os, rename=counted(os.rename), replace=counted(os.replace),
                                 mkdir=counted(os.mkdir)), \
                mock.patch.object(Path, "unlink", counted(Path.unlink)):
            try:
                self.did(*words)
            except Killed:
                return True
        return False

    def before_each_change(self, *words):
        """The numbers of the changes, each after it was killed before that one."""
        shutil.copytree(self.root, "whole", symlinks=True)
        number = 1
        while self.killed(number, *words):
            yield number
            number += 1
            shutil.rmtree(self.root)
            shutil.copytree("whole", self.root, symlinks=True, copy_function=os.link)

    def files(self):
        return {str(file.relative_to(self.root)): file.is_file() and file.read_bytes()
                for file in self.root.rglob("*")}

    def test_a_site_that_is_taken_away(self):
        """Once more it does the rest. Until then nginx.conf names no site of which a file is gone:
        with such a one nginx would start for none."""
        shutil.copytree(self.root, "before", symlinks=True)
        folder = self.root / f"etc/nginx/office/{ONE}"
        parts = {file.name for file in folder.glob("*.conf")}
        self.assertEqual(self.did("--remove", ONE)[0], 0)
        wanted, lacking = self.files(), 0
        shutil.rmtree(self.root)
        Path("before").rename(self.root)
        for number in self.before_each_change("--remove", ONE):
            with self.subTest(before_change=number):
                conf = (self.root / "etc/nginx/nginx.conf").read_text(encoding="utf-8")
                lacks = not parts <= {file.name for file in folder.glob("*.conf")}
                lacking += lacks
                self.assertIn(re.findall("include office/(.*)/site.conf;", conf),
                              ([OTHER],) if lacks else ([OTHER], [ONE, OTHER]))
                self.assertEqual(self.did("--remove", ONE)[::2], (0, ""))
                self.assertEqual(self.files(), wanted)
        self.assertGreater(lacking, len(parts) - 3)

    def test_a_trial_that_is_put_aside(self):
        """All of it comes into folders of one moment, whatever was there when it was killed."""
        for number in self.before_each_change("--begin-again", ONE):
            with self.subTest(before_change=number):
                self.assertEqual(self.did("--begin-again", ONE)[0], 0)
                [trial] = [file for file in (self.root / DATA).glob("trial-*/office.db")
                           if setup_in(file) != SETUP]
                [log] = (self.root / DATA).rglob("office.db-wal")
                [record] = (self.root / RECORD).parent.rglob("commands.log")
                [page] = (self.root / f"var/www/office/{ONE}").rglob("index.html")
                self.assertEqual((log.parent, record.parent.name, page.parent.name),
                                 (trial.parent, trial.parent.name, f".{trial.parent.name}"))
                self.assertEqual(setup_in(self.root / DATA / "office.db"), SETUP)
        self.assertGreater(number, 5)

    def test_after_a_whole_trial(self):
        """Its folder is no reason for an empty office, where the database of the election is
        gone."""
        self.assertEqual(self.did("--begin-again", ONE)[0], 0)
        self.has_commands()
        (self.root / DATA / "office.db").unlink()
        before = self.files()
        for words in ((ONE,), ("--begin-again", ONE)):
            with self.subTest(words=words):
                status, printed, said = self.did(*words)
                self.assertEqual((status, printed), (1, ""))
                self.assertIn("office.db is not there: mount its file system, put it back. If it "
                              "is lost, leave the record there", said)
                self.assertEqual(self.files(), before)

    def test_an_upgrade_with_a_fault_of_one_site(self):
        """The others get the files of the new package all the same; the faults are said at the
        end."""
        self.assertEqual(self.did("c.example", "setup.toml", "--port", "8103")[0], 0)
        (self.root / DATA / "office.db").unlink()
        (self.root / "etc/nginx/office/c.example/key.pem").unlink()
        conf = self.root / f"etc/nginx/office/{OTHER}/site.conf"
        new = conf.read_text(encoding="utf-8")
        conf.write_text("of the older package", encoding="utf-8")
        status, _, said = self.did("--again")
        self.assertEqual((status, conf.read_text(encoding="utf-8")), (1, new))
        lines = [line for line in said.splitlines() if line.startswith("office-site: ")]
        self.assertEqual(len(lines), 2, said)
        self.assertIn(f"{ONE}: {self.root / RECORD} has commands, and ", lines[0])
        self.assertRegex(lines[1], "^office-site: c.example: of .*key.pem and .* one is missing$")
