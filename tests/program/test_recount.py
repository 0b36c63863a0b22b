"""The recount of `examples/recount.py`."""

import os
import shutil
import sys
from pathlib import Path

from tests.support import tools
from tests.support.case import ROOT
from tests.support.desk import Desk, take
from tests.support.office import SETUP, THREE_STATIONS
from tests.support.program import (
    ProgramCase,
    Ran,
    certify,
    change,
    close_return,
    new,
    only,
    put,
    recount,
    shows,
    spoiled,
    write,
)
from tests.support.running import PATIENCE
from tests.support.twin_town import SCRIPT, SEATS, twin_town


def cannot_be_counted(name):
    ran = tools.run(
        [sys.executable, ROOT / "examples/recount.py", name],
        capture_output=True,
        text=True,
        timeout=PATIENCE,
    )
    assert (
        (ran.returncode, ran.stdout) == (2, "")
        and "error: " in ran.stderr
        and "Traceback" not in ran.stderr
    ), ran


class Recount(ProgramCase):
    def test_a_recount_finds_what_differs(self):
        twin_town()
        change("UPDATE seats SET n = 3 - n")
        change("UPDATE totals SET n = n + 1 WHERE item = 0")
        spoiled("c1 differs: totals, seats\n")

    def test_a_recount_compares_the_numbers_of_lists(self):
        """Equal numbers in the same order, but of the second list and a third."""
        twin_town()
        put("past", ("c1", 1, 1, 3), ("c1", 1, 2, 0))
        recount()
        for table in ("seats", "past"):
            change(f"UPDATE {table} SET list = list + 10")
            change(f"UPDATE {table} SET list = list - 9")
        spoiled("c1 differs: seats, past 1\n")

    def test_a_recount_finds_stations_that_are_not_closed(self):
        new(THREE_STATIONS)
        close_return("s1", "c1", [100, 100])
        recount()
        certify("c1", 3, [1, 2], [2, 1])
        spoiled("c1 differs: 2 of 3 stations not closed\n")
        put("returns", ("s2", "c1", 1, "p2", 1, ""), ("s3", "c1", 1, "p3", 1, ""))
        spoiled("c1 differs: 2 of 3 stations not closed\n")
        change("UPDATE returns SET status = 4 WHERE station = 's2'")
        close_return("s4", "c1", [0, 0])
        spoiled("c1 differs: 1 of 3 stations not closed, stations of no setup\n")

    def test_a_recount_finds_a_lot_that_is_missing(self):
        """Of a tie for the third seat, which is the second of the list that has it, so that lots
        that alternate are turned round.
        """
        Path("published").mkdir()
        write("published/c1.csv", "station,slip,blank,spoiled,A,B\ns1,p1,0,0,100,100\n")
        for kind in ("fixed", "alternating"):
            with self.subTest(kind=kind):
                setup, db = (
                    SETUP.replace('base = "valid"\n', f'base = "valid"\nlot = "{kind}"\n'),
                    f"{kind}.db",
                )
                new(setup, db=db)
                close_return("s1", "c1", [100, 100], db=db)
                certify("c1", 3, [2, 1], db=db)
                spoiled("c1 differs: a lot is missing\n", db)
                words = (
                    sys.executable,
                    ROOT / "examples/recount.py",
                    "--setup",
                    "setup.toml",
                    "--returns",
                    "published",
                )
                counted = tools.run(words, capture_output=True, text=True, timeout=PATIENCE)
                self.assertEqual(
                    Ran(counted.returncode, counted.stdout, counted.stderr),
                    Ran(1, "c1 A 2 B 1 (1 of 1 stations; a lot is missing)\n", ""),
                )

    def test_a_recount_of_version_1(self):
        twin_town()
        change("DROP TABLE past")
        change("UPDATE setup SET version = 1")
        before = Path("office.db").read_bytes()
        recount()
        self.assertEqual(Path("office.db").read_bytes(), before)
        only("office.db")

    def test_a_recount_of_any_path(self):
        twin_town()
        for folder, name in (
            ("what?", "office?mode=memory.db"),
            ("#1", "a#b.db"),
            ("100%", "%41%2f.db"),
            ("ñ &+", " \n;.db"),
            (".", "-o.db"),
        ):
            with self.subTest(folder=folder, name=name):
                os.makedirs(folder, exist_ok=True)
                shutil.copy("office.db", f"{folder}/{name}")
                recount(f"./{folder}/{name}")
                self.assertEqual(os.listdir(folder) if folder != "." else [name], [name])

    def test_a_recount_makes_no_file(self):
        os.mkdir("folder")
        write("text.db", "this is no database, and it is long enough to be looked at as one " * 20)
        for name in ("nowhere.db", "folder", "text.db"):
            with self.subTest(name=name):
                cannot_be_counted(name)
        only("folder", "text.db")

    def test_a_recount_of_an_office_that_lacks_a_part(self):
        """It does not end as where something differs."""
        for sql in (
            "UPDATE setup SET text = '[['",
            "UPDATE setup SET text = ''",
            "DELETE FROM setup",
            "DELETE FROM cons",
            "DROP TABLE lots",
        ):
            with self.subTest(sql=sql):
                twin_town()
                change(sql)
                cannot_be_counted("office.db")
                os.remove("office.db")

    def test_a_recount_beside_a_log(self):
        """A server was killed: what it answered is in the log, which a recount reads and leaves as
        it is.
        """
        new()
        desk = Desk("office.db", 1000)
        for step in SCRIPT[:10]:
            take(desk, step)
        desk.process.kill()
        desk.process.communicate()
        before = Path("office.db").read_bytes(), Path("office.db-wal").read_bytes()
        recount()
        self.assertEqual(
            (Path("office.db").read_bytes(), Path("office.db-wal").read_bytes()), before
        )
        shows("seats", SEATS)
