"""A copy of a database with a number that no office has is not read as one that it may have."""

import shutil
import sqlite3
from contextlib import closing
from pathlib import Path

from tests.support import tools
from tests.support.case import ROOT, Case
from tests.support.record import chained
from tests.support.running import PATIENCE
from tests.support.site import DEPLOY


class Certified(Case):
    prefix = "office-certified-"

    def test_neither_certified_nor_not(self):
        """`entries` refuses the copy, as `papers` does, and the recount says what differs."""
        for certified, recounted, read in ((1, 0, 1), (2, 1, 2), (-1, 1, 2)):
            with self.subTest(certified=certified):
                shutil.copy(ROOT / "examples/montehondo.db", "copy.db")
                with closing(sqlite3.connect("copy.db")) as it, it:
                    it.execute(f"UPDATE cons SET certified = {certified}")
                    [(text,)] = it.execute("SELECT text FROM setup")
                Path("setup.toml").write_text(text, encoding="utf-8")
                said = f"certified {certified}"
                done = tools.run([ROOT / "examples/recount.py", "copy.db"], capture_output=True,
                                 timeout=PATIENCE)
                self.assertEqual((done.returncode, said.encode() in done.stdout),
                                 (recounted, bool(recounted)), done)
                done = tools.run([DEPLOY / "entries", "setup.toml", "--office", "copy.db"],
                                 input=chained({}), capture_output=True, timeout=PATIENCE)
                self.assertEqual((done.returncode, said.encode() in done.stderr),
                                 (read, read == 2), done)
