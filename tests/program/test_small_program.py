"""The program of `check`, `allot` and `recount` alone, by itself.

`rt ci` always builds it, and `./office check` does. Where neither did, as after `./office new`
alone, these tests are skipped. OFFICE_SMALL_PROGRAM names another one, as OFFICE_PROGRAM does for
the other suites.
"""

import os
import subprocess
import unittest

from tests.program.test_allot import BY_LOT_IN_TURN, LAW, LAW_BY_DHONDT, LAW_WORDS, TWO_EQUAL
from tests.program.test_recount_command import (
    ONE_SEAT,
    ONE_SEAT_RETURNS,
    ONE_SEAT_TEXT,
    TWIN_TOWN,
    TWIN_TOWN_AWARDS,
)
from tests.support.case import ROOT, SMALL_PROGRAM, Case
from tests.support.office import RETURNS, SETUP, THREE_STATIONS
from tests.support.program import Ran, same, write
from tests.support.running import PATIENCE


# The second row is the first again, and the fourth one differs from it.
CHECKED = RETURNS + "s1,p1,0,0,10,20\ns1,p1,0,0,11,20\ns4,p4,0,0,x,1\n"


CHECK_TEXT = """\
lodged 3
same 1
differs 1
refused 0
bad 1
first 5 7
blank 1
spoiled 2
A 90
B 120
row 5 7 differs s1
row 6 0 bad_number A
"""


# Command lines of an office.
OF_AN_OFFICE = (
    ("new", "--db", "office.db", "--setup", "setup.toml"),
    ("import", "--db", "office.db", "--con", "c1", "--csv", "returns.csv"),
    ("show", "--db", "office.db", "--report", "progress"),
    ("serve", "--db", "office.db", "--port", "8080", "--count", "1"),
)


def small(*words, given="", **how):
    """The outcome of one run of the small program, which is called `office`."""
    streams = {"stdout": subprocess.PIPE, "stderr": subprocess.PIPE, **how}
    ran = subprocess.run(
        ["office", *words],
        executable=SMALL_PROGRAM,
        input=given.encode(),
        timeout=PATIENCE,
        **streams,
    )
    return Ran(ran.returncode, (ran.stdout or b"").decode(), (ran.stderr or b"").decode())


@unittest.skipUnless(os.access(SMALL_PROGRAM, os.X_OK), f"no program at {SMALL_PROGRAM}")
class SmallProgram(Case):
    def test_a_check(self):
        same(small("check", "--rows", given=CHECKED), Ran(0, CHECK_TEXT, ""))
        given = CHECKED.replace(",", ";")
        same(small("check", "--semicolon", "--rows", given=given), Ran(0, CHECK_TEXT, ""))
        same(small("check", given=given), Ran(1, "", "refused: bad_header\n"))

    def test_an_allotment(self):
        """The second one has more than eight words."""
        words = ("allot", "--method", "dhondt")
        same(small(*words, *LAW_WORDS, given=LAW), Ran(0, LAW_BY_DHONDT, ""))
        more = ("--seats", "3", "--lot", "B,A", "--alternating", "--awards", "--semicolon")
        given = TWO_EQUAL.replace(",", ";")
        same(small(*words, *more, given=given), Ran(0, BY_LOT_IN_TURN, ""))
        more = ("--seats", "3", "--threshold", "0", "--base", "valid", "--blank", "0")
        ran = small(*words, *more, given=TWO_EQUAL)
        same(ran, Ran(1, "", "refused: lot_missing 1 A B\n"))
        more = (*more, "--lot", "B,A", "--awards", "--alternating")
        same(small(*words, *more, given=TWO_EQUAL), Ran(0, BY_LOT_IN_TURN, ""))

    def test_a_recount(self):
        write("setup.toml", SETUP)
        words = ("recount", "--setup", "setup.toml", "--con", "c1")
        ran = small(*words, "--awards", given=RETURNS)
        same(ran, Ran(0, TWIN_TOWN + TWIN_TOWN_AWARDS, ""))
        write("setup.toml", ONE_SEAT)
        ran = small(*words, "--decisive", given=ONE_SEAT_RETURNS)
        same(ran, Ran(0, ONE_SEAT_TEXT, ""))
        write("setup.toml", THREE_STATIONS)
        ran = small(*words, "--without", "s2,s3", "--decisive", "--awards", given=RETURNS)
        lines = ran.out.splitlines()
        self.assertEqual(lines[1:3], ["stations 3 counted 1 without 2", "passed 0"])
        self.assertEqual(lines[11:], [*TWIN_TOWN_AWARDS.splitlines(), "decisive s1"])

    def test_what_is_refused(self):
        """Each refusal is a line on standard error, and status 1; a wrong command line is status 2,
        and what fails status 3.
        """
        write("setup.toml", SETUP.replace("seats = 3", "seats = 0"))
        allot = ("allot", "--method", "dhondt", "--seats", "2")
        recount = ("recount", "--setup", "setup.toml", "--con", "c1")
        for words, given, wanted in (
            (("check",), "", Ran(1, "", "refused: bad_header\n")),
            (allot, "list,votes\nA,1\nA,2\n", Ran(1, "", "refused: bad_row 2 duplicate A\n")),
            (allot, "list,votes\nA,0\n", Ran(1, "", "refused: no_eligible\n")),
            (recount, RETURNS, Ran(1, "", "refused: bad_value seats\nat constituency 1 c1\n")),
            ((*recount[:2], "nowhere.toml", *recount[3:]), RETURNS, Ran(3, "", "failed: file\n")),
        ):
            with self.subTest(words=words, given=given):
                same(small(*words, given=given), wanted)
        for words in ((*allot, "--seats", "2"), (*allot, "--rows"), ("recount", "--con", "c1")):
            with self.subTest(words=words):
                ran = small(*words)
                assert ran.status == 2 and not ran.out and ran.err.startswith("error: "), ran
        with open("/dev/full", "wb") as full:
            same(small("check", given=RETURNS, stdout=full), Ran(3, "", "failed: write\n"))

    def test_commands_that_it_does_not_have(self):
        """Those of an office are refused by one line, and others as every wrong command line."""
        write("setup.toml", SETUP)
        write("returns.csv", RETURNS)
        line = "error: this program has check, allot and recount alone\n"
        for words in OF_AN_OFFICE:
            with self.subTest(words=words):
                same(small(*words), Ran(2, "", line))
        for words in (("cheque",), ("certify", "--con", "c1"), ("",)):
            with self.subTest(words=words):
                ran = small(*words)
                assert ran.status == 2 and not ran.out and ran.err.startswith("error: "), ran
                assert ran.err != line, ran
        self.assertEqual(sorted(os.listdir(".")), ["returns.csv", "setup.toml"])

    def test_its_help_is_that_of_all_commands(self):
        text = (ROOT / "docs/help.txt").read_text(encoding="utf-8")
        for words in (("--help",), ("help",), ()):
            with self.subTest(words=words):
                same(small(*words), Ran(2, "", text))
