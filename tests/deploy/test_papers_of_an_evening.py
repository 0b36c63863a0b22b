"""The papers of offices that the program serves, with the record that the recorder wrote."""

import hashlib
import json
import re
import sys
from pathlib import Path

from tests.support import tools
from tests.support.case import ROOT
from tests.support.papers import ELECTED, HASH, LISTS, OfPapers, paper, papers
from tests.support.recorder import command, recorder_alone
from tests.support.running import PATIENCE
from tests.support.site import DEPLOY, EXAMPLES, LATE, backup, plain, readme_election, serving


class OfTheProgram(OfPapers):
    """With copies that deploy/backup makes of an office that serves."""

    of_the_program = True

    def test_the_first_election_and_its_pages(self):
        """The hash on the acts is that of the file that the press pages publish."""
        with serving(EXAMPLES) as desk:
            readme_election(desk)
            self.assertEqual(backup("office.db", "copies")[0], 0)
            tools.run([sys.executable, DEPLOY / "press.py", f"http://127.0.0.1:{desk.port}",
                       "pages", "--setup", "setup.toml"], check=True, timeout=PATIENCE,
                      capture_output=True)
        [copy] = Path("copies").glob("*.db")
        papers("acts", str(copy), "out")
        self.assert_has(paper("out", "act-proclamation-*"), *LISTS, *ELECTED)
        digest = hashlib.sha256(Path("pages/stations-montehondo-2.csv").read_bytes()).hexdigest()
        self.assertEqual(digest, HASH)
        self.assertIn(digest, paper("out", "act-count-*").text)

    def send(self, name, target, body):
        self.assertEqual(command(target, json.dumps(body).encode(), name), 200, target)

    def correct(self, station, rev, note, slip):
        """A return is queried by berta, and corrected and closed by bruno."""
        self.send("berta", f"/station/{station}/query", {"rev": rev, "note": note})
        self.send("bruno", f"/station/{station}/correct", {"rev": rev + 1, **slip})
        self.send("bruno", f"/station/{station}/close", {"rev": rev + 2})

    def test_the_evening_of_the_guide(self):
        """As docs/GUIDE.md has it, with the record that the recorder wrote: a tie whose lot was
        entered the wrong way round, a reopening for one vote, a vacancy."""
        one, two, first = (
            {"slip": "r213", "votes": [20, 71, 15, 2, 1], "blank": 2, "spoiled": 1},
            {"slip": "r214", "votes": [18, 63, 9, 1, 0], "blank": 0, "spoiled": 0},
            {"slip": "r101", "votes": [120, 85, 40, 22, 5], "blank": 4, "spoiled": 2})
        con, stations = "/con/montehondo", re.findall(r'code = "(\d.*)"', EXAMPLES)
        Path("setup.toml").write_text(EXAMPLES, encoding="utf-8")
        tools.run([DEPLOY / "setup-json", "setup.toml", ".", "codes.conf"], check=True)
        Path("recorder").mkdir()
        with serving(EXAMPLES) as desk, recorder_alone(desk.port, "--setup", "setup.json"):
            rows = (ROOT / "examples/returns.csv").read_bytes()
            self.assertEqual(command(f"{con}/import", rows), 200)
            self.send("clara", "/station/04-001-B/lodge", one | {"votes": [20, 17, 15, 2, 1]})
            self.send("clara", "/station/04-002-A/lodge", two)
            self.send("sara", "/station/04-002-A/confirm", {"rev": 1, **two})
            self.correct("04-001-B", 1, "ENCINA: 17 or 71?", one)
            for station in stations:
                if station not in LATE:
                    self.send("bruno", f"/station/{station}/close", {"rev": 1})
            self.send("berta", f"{con}/draw", {"edition": 1, "order": ["ROBLE", "ENCINA"]})
            self.correct("01-001-A", 2, "the lot was entered wrongly", first)
            self.send("berta", f"{con}/draw", {"edition": 2, "order": ["ENCINA", "ROBLE"]})
            self.send("berta", f"{con}/certify", {"edition": 3})
            self.assertEqual(backup("office.db", "certified")[0], 0)
            record = Path("commands.log").read_bytes()
            self.send("berta", f"{con}/reopen", {"edition": 4, "note": "recount of 04-002-A"})
            self.correct("04-002-A", 2, "one ROBLE vote more", two | {"votes": [19, 63, 9, 1, 0]})
            self.send("berta", f"{con}/certify", {"edition": 5})
            self.send("berta", f"{con}/vacate", {"list": "HAYA", "place": 1, "note": "resigned"})
            self.assertEqual(backup("office.db", "last")[0], 0)
        [certified], [last] = Path("certified").glob("*.db"), Path("last").glob("*.db")
        self.refuses("the record has later acts on 04-002-A than the copy", "acts", "--record",
                     "commands.log", copy=str(certified))
        Path("before.log").write_bytes(record)
        papers("acts", str(certified), "before", "--record", "before.log")
        found = paper("before", "act-proclamation-montehondo-4-*")
        self.assertIn("in this order: 1. ENCINA, 2. ROBLE. The lot was recorded on", found.text)
        self.assert_has(found, ["7", "Lista de la Encina", "4", "Hugo Rivas"])
        papers("acts", str(last), "after", "--record", "commands.log")
        count, found = (paper("after", f"act-{kind}-montehondo-6-*")
                        for kind in ("count", "proclamation"))
        self.assertEqual([row[1:3] for row in count.rows if len(row) == 4 and row[0].isdigit()], [
            ["Return of station 04-001-B queried", "ENCINA: 17 or 71?"],
            ["Return of station 04-001-B corrected", "ENCINA: 17 became 71"],
            ["Lot recorded", "1. ROBLE, 2. ENCINA"],
            ["Return of station 01-001-A queried", "the lot was entered wrongly"],
            ["Return of station 01-001-A corrected", "the same figures"],
            ["Lot recorded", "1. ENCINA, 2. ROBLE"],
            ["Result reopened, and its proclamation withdrawn", "recount of 04-002-A"],
            ["Return of station 04-002-A queried", "one ROBLE vote more"],
            ["Return of station 04-002-A corrected", "ROBLE: 18 became 19"]])
        self.assertIn("Withdrawn proclamation, edition 4: ROBLE 3, ENCINA 4, HAYA 2", found.text)
        self.assertNotIn("not all in the record", count.text)
        # 1,161 of 3,383 are 34.31.. per cent.
        self.assert_has(found, ["1", "ROBLE", "Lista del Roble", "1,161", "34.31 %", "4"],
                        ["8", "Lista del Haya", "1", "Inés Campo"],
                        ["9", "Lista del Haya", "2", "Julián Prado"])
        self.assertIn("These seats now go to: HAYA, place 3: Karina Solís", found.text)
        papers("doubles", str(last), "doubles", "--record", "commands.log")
        found = paper("doubles", "doubles-*").text
        for station, words in (("04-001-B", "First entry bruno, .* Closed by bruno, "),
                               ("04-001-A", "First entry clara, .* Closed by bruno, ")):
            self.assertRegex(found.partition(f"Polling station {station} ")[2][:220], words)
        papers("doubles", str(certified), "doubles", "--record", "before.log", "--station",
               "04-002-A")
        self.assertRegex(paper("doubles", "doubles-montehondo-04-002-A-*").text,
                         "First entry clara, .* Second entry sara, ")

    def test_two_entries(self):
        """A return has a double once it is confirmed, and not before."""
        with serving(EXAMPLES.replace("seats = 9", 'seats = 9\nentry = "double"')) as desk:
            for station, slip in LATE.items():
                plain(desk.port, "POST", f"/station/{station}/lodge", json.dumps(slip))
            again = json.dumps({"rev": 1, **LATE["04-001-B"]})
            answer = plain(desk.port, "POST", "/station/04-001-B/confirm", again)
            self.assertEqual(answer.status, 200)
            self.assertEqual(backup("office.db", "copies")[0], 0)
        [copy] = Path("copies").glob("*.db")
        papers("doubles", str(copy), "all")
        found = paper("all", "doubles-*").text
        self.assertEqual((found.count("Presided over"), "04-002-A" in found), (1, False))
        self.refuses("04-002-A: its return is not closed", "doubles", "--station", "04-002-A",
                     copy=str(copy))
