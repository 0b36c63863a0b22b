"""A file of returns with a field that is longer than Python's csv takes by itself: the office
passes over that row and records the others, and so do those that read its record."""

import csv
import importlib.util
import json
import subprocess
from pathlib import Path

from tests.support.case import PROGRAM, ROOT, Case
from tests.support.record import a_command, chained
from tests.support.running import PATIENCE
from tests.support.scripts import loaded

# What a reader of csv takes if nobody says otherwise.
USUAL = 131_072
ROWS = f"station,slip,blank,spoiled,A,B\nx,{'y' * (USUAL + 1)},0,0,1,2\ns1,p1,0,0,20,2\n"
IMPORT = a_command(ROWS, "/con/c1/import")
ANSWER = {"bad": 1, "differs": 0, "first": 1, "lodged": 1, "ok": "import", "refused": 0, "same": 0}


class LongFields(Case):
    prefix = "office-long-fields-"
    of_the_program = True

    def setUp(self):
        super().setUp()
        self.addCleanup(csv.field_size_limit, csv.field_size_limit(USUAL))

    def test_the_acts_that_status_compares(self):
        """One station of the file has a return at least, of the two that it names."""
        looks = loaded("status_looks.py")
        acts = looks.Acts({})
        Path("commands.log").write_bytes(chained(
            IMPORT, {"to": 1, "status": 200, "answer": json.dumps(ANSWER)}))
        self.assertTrue(looks.look_at_record("commands.log", None, {}, acts).is_well)
        self.assertEqual(acts.of("1"), {"/con/c1 import 2": [1, 2, ["x", "s1"]]})

    def test_the_history_of_a_station(self):
        index = loaded("record_index.py").Index({"s1": "c1", "s2": "c1"})
        for number, entry in enumerate((IMPORT | {"n": 1}, {"to": 1, "status": 200, "answer":
                                                            json.dumps(ANSWER), "n": 2})):
            index.take_entry(entry, number)
        self.assertEqual((index.of("s1"), index.of("s2")), (([0, 1], True), ([], True)))

    def test_the_plain_check_of_a_file(self):
        """It says what `office check` says."""
        file = ROOT / "bench/check_plain.py"
        spec = importlib.util.spec_from_file_location("check_plain", file)
        plain = importlib.util.module_from_spec(spec)
        spec.loader.exec_module(plain)
        done = subprocess.run([PROGRAM, "check"], input=ROWS, capture_output=True, text=True,
                              timeout=PATIENCE)
        self.assertEqual((plain.check(ROWS.encode()), done.stderr), (done.stdout, ""))
        self.assertEqual(done.stdout, "lodged 1\nsame 0\ndiffers 0\nrefused 0\nbad 1\nfirst 1 0\n"
                                      "blank 0\nspoiled 0\nA 20\nB 2\n")
