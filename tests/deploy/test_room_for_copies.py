"""Copies of a database whose log is larger than itself, on a disk with little room."""

import contextlib
import shutil
import sqlite3
from collections import namedtuple
from pathlib import Path
from unittest.mock import patch

from tests.support.case import Case
from tests.support.scripts import loaded

tool = loaded("backup")
Usage = namedtuple("Usage", "total used free")


class RoomForCopies(Case):
    def test_the_log_counts(self):
        """A copy needs room for database and log, and three times as much stays free."""
        with contextlib.closing(sqlite3.connect("office.db", isolation_level=None)) as it:
            it.execute("PRAGMA journal_mode = WAL")
            it.execute("PRAGMA wal_autocheckpoint = 0")
            it.execute("CREATE TABLE setup (text)")
            it.executemany("INSERT INTO setup VALUES (?)", [("x" * 1000,)] * 100)
            database, log = (Path(name).stat().st_size for name in ("office.db", "office.db-wal"))
            self.assertGreater(log, database)
            for free, has_room in ((4 * (database + log) - 1, False), (4 * (database + log), True)):
                with self.subTest(free=free):
                    usage = Usage(10**12, 10**12 - free, free)
                    with patch.object(shutil, "disk_usage", return_value=usage):
                        if has_room:
                            self.assertTrue(tool.back_up(Path("office.db"), Path("copies"))[1])
                        else:
                            with self.assertRaisesRegex(tool.Failed, "has not room"):
                                tool.back_up(Path("office.db"), Path("copies"))
