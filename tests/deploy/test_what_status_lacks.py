"""Where `status` has nothing to look at, or a copy that was made without the record: it does not
say that all is well."""

import os
import time
from pathlib import Path

from tests.support import tools
from tests.support.case import Case
from tests.support.running import PATIENCE
from tests.support.scripts import loaded
from tests.support.site import DEPLOY


class Lacks(Case):
    prefix = "office-status-lacks-"

    def test_a_file_that_names_nothing_to_look_at(self):
        """As one that was emptied: its status is that of a wrong file, and nothing is written."""
        for text in ("", 'seen = "seen.json"\n', '[[office]]\nname = "1"\nseconds = 60\n',
                     "room = []\n"):
            for words in ([], ["--json"], ["--prometheus"], ["--to", "out"]):
                with self.subTest(text=text, words=words):
                    Path("status.toml").write_text(text, encoding="utf-8")
                    done = tools.run([DEPLOY / "status", "--config", "status.toml", *words],
                                     capture_output=True, timeout=PATIENCE)
                    self.assertEqual((done.returncode, done.stdout, done.stderr), (
                        2, b"", b"status: status.toml names nothing to look at\n"))
        self.assertFalse(Path("out").exists())

    def test_a_copy_that_was_made_without_the_record(self):
        """Its name has no lines, and that of an earlier one has: the record cannot be read by who
        copies. Of an older package no name has them."""
        looks = loaded("status_looks.py")
        looks.does_agree = lambda *_: True
        early, late = "office-20261129T210000Z{}.db", "office-20261129T220000Z{}.db"
        for names, is_well in (
                ((early.format("-00000007"), late.format("-00000009")), True),
                ((early.format(""), late.format("-00000009")), True),
                ((early.format(""), late.format("")), True), ((late.format(""),), True),
                ((early.format("-00000007"), late.format("")), False)):
            with self.subTest(names=names):
                for file in Path().glob("office-*.db"):
                    file.unlink()
                for name in names:
                    Path(name).touch()
                    os.utime(name, (time.time(), time.time()))
                found = looks.look_at_backup(".", 60, "1", {})
                self.assertEqual(found.is_well, is_well)
                lacks = "; it was made without the record, which `backup` cannot read"
                self.assertEqual(found.says.endswith(", and agrees" + lacks * (not is_well)), True,
                                 found.says)
