"""The papers that a board signs, with the record of commands: incidents, times, who is gone."""

import hashlib
import json
import shutil
from pathlib import Path

from tests.support import tools
from tests.support.office import LISTS, constituency, station
from tests.support.papers import (
    COPY, DRAWN, OfPapers, copy_of, done, paper, papers, recorded,
)
from tests.support.record import chained
from tests.support.running import PATIENCE
from tests.support.scripts import module
from tests.support.site import DEPLOY, EXAMPLES


class OfTheRecord(OfPapers):
    AGAIN = (done("berta", "/con/montehondo/reopen", {"edition": 2, "note": "recount"}),
             done("clara", "/station/04-002-A/query", {"rev": 2, "note": "ROBLE?"}))
    CORRECTED = {"rev": 3, "slip": "r214", "votes": [40, 40, 20, 0, 0], "blank": 0, "spoiled": 0}

    def test_incidents_with_their_moment(self):
        """Each query and reopening of the record; of the copy what the record lacks."""
        copy_of("INSERT INTO past SELECT con, 2, list, n FROM seats",
                "UPDATE cons SET edition = 4, note = 'recount'",
                "UPDATE returns SET rev = 5, note = 'ROBLE?' WHERE station = '04-002-A'")
        recorded(also=[*self.AGAIN, done("clara", "/station/04-002-A/correct", self.CORRECTED),
                       done("bruno", "/station/04-002-A/close", {"rev": 4}),
                       done("berta", "/con/montehondo/certify", {"edition": 3})])
        papers("count", COPY, "out", "--record", "commands.log")
        found = paper("out", "act-count-montehondo-4-*")
        self.assert_has(
            found, ["1", "Result reopened, and its proclamation withdrawn", "recount",
                    "berta, 26 November 2026, 22:14 (+00:00)"],
            ["2", "Return of station 04-002-A queried", "ROBLE?",
             "clara, 26 November 2026, 22:14 (+00:00)"])
        self.assertNotIn("not all in the record", found.text)
        self.assertNotIn("the last query", found.text)

    def test_which_figures_were_corrected(self):
        """Each before and after; at last the return is as the copy has it, but for its revision."""
        copy_of("UPDATE returns SET rev = 8 WHERE station = '04-002-A'")
        again = [done("clara", "/station/04-002-A/query", {"rev": rev, "note": "ROBLE?"})
                 for rev in (2, 4, 6)]
        other = self.CORRECTED | {"slip": "r215", "votes": [1_040, 40, 20, 0, 0], "spoiled": 3}
        recorded(also=[again[0], done("clara", "/station/04-002-A/correct", other),
                       again[1], done("berta", "/station/04-002-A/correct",
                                      self.CORRECTED | {"rev": 5}),
                       again[2], done("clara", "/station/04-002-A/correct",
                                      self.CORRECTED | {"rev": 7}),
                       done("bruno", "/station/04-002-A/close", {"rev": 8})])
        copy_of("UPDATE returns SET rev = 9, note = 'ROBLE?' WHERE station = '04-002-A'")
        for language, said, changed, slip, spoiled, none in (
                ("en", "Return of station 04-002-A corrected", "{}: {} became {}", "Paper",
                 "spoiled", "the same figures"),
                ("es", "Corrección del acta de la mesa 04-002-A", "{}: decía {}, dice {}", "Acta",
                 "nulos", "las mismas cifras")):
            papers("count", COPY, "out", "--record", "commands.log", "--language", language)
            found = paper("out", f"act-count-*-{language}.html")
            thousand = {"en": "1,040", "es": "1.040"}[language]
            there = "; ".join(changed.format(*one) for one in (
                ("ROBLE", "40", thousand), (spoiled, "0", "3"), (slip, "r214", "r215")))
            back = "; ".join(changed.format(*one) for one in (
                ("ROBLE", thousand, "40"), (spoiled, "3", "0"), (slip, "r215", "r214")))
            self.assertEqual([row[2] for row in found.rows if said in row], [there, back, none])

    def test_a_correction_of_a_return_that_the_record_lacks(self):
        """Nobody knows what it was before."""
        copy_of("UPDATE returns SET rev = 5 WHERE station = '04-002-A'")
        lines = []
        for one in [*self.AGAIN[1], *done("clara", "/station/04-002-A/correct", self.CORRECTED)]:
            lines.append(one | {"to": len(lines)} if "status" in one else one)
        Path("commands.log").write_bytes(chained(*lines))
        papers("count", COPY, "out", "--record", "commands.log")
        found = paper("out", "act-count-*")
        self.assertEqual([row[2] for row in found.rows if "Return of station 04-002-A corrected"
                          in row], ["not in the record of commands"])

    def test_times_in_the_zone_of_the_site(self):
        copy_of()
        recorded()
        Path("site").mkdir()
        Path("site/site.toml").write_text('timezone = "Europe/Madrid"\n', encoding="utf-8")
        papers("doubles", COPY, "out", "--station", "01-001-A", "--record", "commands.log",
               "--site", "site")
        self.assertIn("First entry clara, 26 November 2026, 23:14 (+01:00)",
                      paper("out", "doubles-*").text)

    def test_who_was_gone_at_a_certificate_and_since(self):
        """By the record: the second certificate is after the first of two vacancies."""
        copy_of("INSERT INTO past SELECT con, 2, list, n FROM seats",
                "UPDATE cons SET edition = 4, note = 'recount'",
                "INSERT INTO gone VALUES ('montehondo', 3, 1, 'died')",
                "INSERT INTO gone VALUES ('montehondo', 1, 2, 'resigned')",
                "INSERT INTO gone VALUES ('montehondo', 2, 1, 'resigned')")
        recorded(also=[
            done("berta", "/con/montehondo/vacate", {"list": "HAYA", "place": 1, "note": "died"}),
            self.AGAIN[0], done("berta", "/con/montehondo/certify", {"edition": 3}),
            *(done("berta", "/con/montehondo/vacate",
                   {"list": code, "place": place, "note": "resigned"})
              for code, place in (("ROBLE", 2), ("ENCINA", 1)))])
        out, _ = papers("proclamation", COPY, "out", "--record", "commands.log")
        self.assertTrue(out.endswith("-en_2-gone.html\n"), out)
        found = paper("out", "act-proclamation-*")
        self.assert_has(found, ["2", "Lista del Roble", "2", "Bruno Salcedo"],
                        ["8", "Lista del Haya", "2", "Julián Prado"],
                        ["9", "Lista del Haya", "3", "Karina Solís"])
        self.assertIn("could no longer take a seat HAYA, place 1: Inés Campo. Reason: died "
                      "Vacancies after this proclamation ROBLE, place 2: Bruno Salcedo. Reason: "
                      "resigned ENCINA, place 1: Elvira Cano. Reason: resigned These seats now go "
                      "to: ROBLE: nobody is left on the list, and the seat stays vacant ENCINA, "
                      "place 4: Hugo Rivas", found.text)

    def test_a_record_that_lacks_something(self):
        """A return that it does not have is named, and nobody is said to have entered it."""
        copy_of()
        whole = Path(recorded()).read_bytes().splitlines(keepends=True)
        Path("commands.log").write_bytes(b"".join(whole[:4 * 13]))
        papers("acts", COPY, "out", "--record", "commands.log")
        self.assertIn("Stations whose acts are not all in the record of commands: 04-001-B, "
                      "04-002-A.", paper("out", "act-count-*").text)
        papers("doubles", COPY, "out", "--record", "commands.log", "--station", "04-001-B")
        self.assertIn("First entry not in the record of commands Closed by not in the record of "
                      "commands", paper("out", "doubles-*").text)

    def test_the_moment_of_a_lot(self):
        """That of the record, where it has the lot of the copy. Where a return was queried past it
        and an edition came past it, the lot may have been drawn again."""
        draws = [done("berta", "/con/montehondo/draw", {"edition": 1, "order": order})
                 for order in (["ENCINA", "ROBLE"], ["ROBLE", "ENCINA"])]
        edition = "UPDATE cons SET edition = 6"
        revision = "UPDATE returns SET rev = 5 WHERE station = '01-001-A'"
        query = done("clara", "/station/01-001-A/query", {"rev": 2, "note": "120?"})
        for past, also, wanted in (
                ([edition], draws[:1], True), ([edition], draws[1:], False),
                ([edition], draws[::-1], True), ([edition], draws, False), ([edition], [], False),
                ([edition, revision], draws[:1], False),
                ([edition, revision], [draws[0], query], False)):
            with self.subTest(past=past, also=also):
                copy_of(*DRAWN, *past)
                recorded(also=also)
                papers("count", COPY, "out", "--record", "commands.log")
                found = paper("out", "act-count-*").text
                self.assertIn("came out in this order: 1. ENCINA, 2. ROBLE.", found)
                self.assertEqual("The lot was recorded on 26 November 2026, 22:14 (+00:00)."
                                 in found, wanted)

    def test_the_record_of_several_offices(self):
        """It begins with the hash of the whole setup, of which the copy has a part."""
        other = constituency("c2", "Port", 3, "loreg")
        Path("setup.toml").write_text(EXAMPLES + other + LISTS + station("t1"), encoding="utf-8")
        tools.run([DEPLOY / "setup-json", "setup.toml", "."], check=True, timeout=PATIENCE)
        copy_of()
        recorded(setup=hashlib.sha256(Path("setup.json").read_bytes()).hexdigest())
        self.refuses("of another setup; where there are several offices, give the setup.json",
                     "acts", "--record", "commands.log")
        papers("acts", COPY, "out", "--record", "commands.log", "--setup", "setup.json")
        self.assertIn("up to line 63", paper("out", "act-count-*").text)
        whole = Path("setup.json").read_text(encoding="utf-8")
        for text, said, status in ((whole.replace("Aurora", "Aurelia"), "does not have the", 1),
                                   (whole.replace('"c2"', '"c3"'), "record of another setup", 1),
                                   ("[5]", "failed: other.json: ", 2), ("x", "failed: ", 2)):
            Path("other.json").write_text(text, encoding="utf-8")
            shutil.rmtree("out", ignore_errors=True)
            with self.subTest(said=said):
                self.refuses(said, "acts", "--record", "commands.log", "--setup", "other.json",
                             status=status)

    def test_a_whole_setup_that_an_older_package_wrote(self):
        """It does not say that returns are entered twice, and the copy does; nor the other way."""
        of_whole, file = module("papers_data").of_whole, Path("setup.json")
        one = {"code": "c1", "name": "Twin Town", "seats": 3}
        double = one | {"entry": "double"}
        for known, con, wanted in ((one, one, True), (double, double, True), (one, double, True),
                                   (double, one, False), (one | {"seats": 4}, double, False)):
            with self.subTest(known=known, con=con):
                file.write_text(json.dumps([known, one | {"code": "c2"}]), encoding="utf-8")
                self.assertEqual(of_whole(file, [con]), wanted)

    def test_records_that_are_refused(self):
        copy_of()
        recorded(also=self.AGAIN[:1])
        self.refuses("refused: constituency montehondo: the record has later acts on montehondo",
                     "acts", "--record", "commands.log")
        recorded(also=self.AGAIN)
        self.refuses("the record has later acts on 04-002-A than the copy", "doubles", "--record",
                     "commands.log")
        text = Path(recorded()).read_bytes()
        Path("commands.log").write_bytes(text.replace(b"bruno", b"paolo", 1))
        self.refuses("refused: commands.log is not whole (line 4: ", "acts", "--record",
                     "commands.log")
        recorded()
        copy_of("UPDATE returns SET slip = 'r999' WHERE station = '03-001-B'")
        self.refuses("the record says something else of 03-001-B than the copy", "acts",
                     "--record", "commands.log")
        copy_of()
        recorded(setup="0" * 64)
        self.refuses("refused: commands.log is the record of another setup", "acts", "--record",
                     "commands.log")
        # The record of this setup, as the recorder begins one.
        Path("setup.toml").write_text(EXAMPLES, encoding="utf-8")
        tools.run([DEPLOY / "setup-json", "setup.toml", ".", "codes.conf"], check=True,
                  timeout=PATIENCE)
        recorded(setup=hashlib.sha256(Path("setup.json").read_bytes()).hexdigest())
        papers("acts", COPY, "out", "--record", "commands.log")
        self.assertIn("up to line 63", paper("out", "act-count-*").text)

    def test_notes_that_are_not_those_of_the_record(self):
        """They would be incidents beside those of the record. A query or a reopening that it lacks
        is one, as the copy has it."""
        last = [*self.AGAIN, done("clara", "/station/04-002-A/correct", self.CORRECTED),
                done("bruno", "/station/04-002-A/close", {"rev": 4}),
                done("berta", "/con/montehondo/certify", {"edition": 3})]
        for reason, note, refused in (
                ("recount", "ROBLE?", None), ("other", "ROBLE?", "montehondo"),
                ("", "ROBLE?", "montehondo"), ("recount", "", "04-002-A"),
                ("recount", "other", "04-002-A")):
            with self.subTest(reason=reason, note=note):
                copy_of("INSERT INTO past SELECT con, 2, list, n FROM seats",
                        f"UPDATE cons SET edition = 4, note = '{reason}'",
                        f"UPDATE returns SET rev = 5, note = '{note}' WHERE station = '04-002-A'")
                recorded(also=last)
                shutil.rmtree("out", ignore_errors=True)
                if refused:
                    self.refuses(f"the record says something else of {refused} than the copy",
                                 "count", "--record", "commands.log")
                else:
                    papers("count", COPY, "out", "--record", "commands.log")
        copy_of("UPDATE returns SET note = 'seen' WHERE station = '03-001-B'",
                "UPDATE cons SET edition = 3, note = 'again'")
        self.refuses("the record says something else of 03-001-B than the copy", "count",
                     "--record", "commands.log")
