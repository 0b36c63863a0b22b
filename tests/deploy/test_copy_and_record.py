"""A copy of an office's database, and the record of its commands: lots, vacancies, a setup, and a
part of the copy that somebody put back."""

import contextlib
import json
import re
import shutil
import sqlite3
import sys
from pathlib import Path

from tests.support import tools
from tests.support.case import ROOT
from tests.support.papers import (
    COPY, DRAWN, OfPapers, copy_of, done, paper, papers, recorded, setup_with,
)
from tests.support.record import chained
from tests.support.running import PATIENCE
from tests.support.scripts import module
from tests.support.site import DEPLOY, EXAMPLES

hash_of_file = module("chain").hash_of_file

CON = "/con/montehondo"
NEVER = "and no acts of this record left it so"
# The same votes, with the lot the other way round: ROBLE has the seat in question.
TURNED = [*DRAWN, "UPDATE lots SET list = 3 - list", "UPDATE seats SET n = 4 WHERE list = 1",
          "UPDATE seats SET n = 3 WHERE list = 2"]


def recorded_instead(*acts):
    """A record of the copy with these acts in the place of its certificate."""
    lines = [json.loads(line) for line in Path(recorded()).read_bytes().splitlines()[:-2]]
    entries = [{key: one[key] for key in one if key not in ("n", "before", "time")}
               for one in lines] + [one for act in acts for one in act]
    Path("commands.log").write_bytes(chained(*(
        one | {"to": number} if "status" in one else one for number, one in enumerate(entries))))


def berta(act, **body):
    return done("berta", f"{CON}/{act}", body)


class CopyAndRecord(OfPapers):
    def setUp(self):
        super().setUp()
        Path("setup.toml").write_text(EXAMPLES, encoding="utf-8")

    def entries(self, said=(), lacks=None):
        """`entries` says these lines of the copy and the record, and one that counts them; of an
        older copy it remarks from which line on it lacks what was done, and what it has."""
        with open("commands.log", "rb") as record:
            ran = tools.run([DEPLOY / "entries", "setup.toml", "--office", COPY],
                            stdin=record, capture_output=True, text=True, timeout=PATIENCE)
        *lines, last = ran.stdout.splitlines() or [""]
        remarks = [line for line in lines if line.startswith("remark: ")]
        self.assertEqual([re.sub(r" \(2026-11-26T22:14:\d\d\.000\+00:00\)", "", one)
                          for one in remarks],
                         [f"remark: the copy lacks what was done from line {lacks[0]} of the "
                          f"record on: it has {lacks[1]}"] if lacks else [])
        lines = [line for line in lines if line not in remarks]
        self.assertEqual((lines, ran.stderr), (list(said), ""))
        self.assertIn(f"to look at {len(lines)}", last)
        self.assertEqual(ran.returncode, bool(lines))

    def assert_counted_again(self):
        """The seats of the copy are those of its votes and its lot: the recount finds no fault."""
        ran = tools.run([sys.executable, ROOT / "examples/recount.py", COPY],
                        capture_output=True, text=True, timeout=PATIENCE)
        self.assertEqual(ran.stdout, "montehondo agrees\n")

    def test_a_lot_that_nobody_recorded(self):
        drawn = berta("draw", edition=1, order=["ENCINA", "ROBLE"])
        copy_of(*DRAWN)
        recorded_instead(drawn, berta("certify", edition=2))
        self.entries()
        papers("acts", COPY, "acts", "--record", "commands.log")
        # A copy of the moment before the draw, and of that before the certificate, is an older one.
        for edition in (1, 2):
            copy_of(*DRAWN, f"UPDATE cons SET edition = {edition}, certified = 0",
                    "DELETE FROM seats", *["DELETE FROM lots"] * (edition == 1))
            self.entries(lacks=(60 + 2 * edition, f"montehondo at edition {edition}"))
        copy_of(*TURNED)
        self.assert_counted_again()
        self.entries([f"montehondo: the office has the lot ROBLE, ENCINA, {NEVER}"])
        self.refuses("the record says something else of montehondo than the copy", "acts",
                     "--record", "commands.log")
        copy_of(*DRAWN, "UPDATE cons SET edition = 2, certified = 0", "DELETE FROM seats",
                "DELETE FROM lots")
        self.entries([f"montehondo: the office has no lot, {NEVER}"],
                     lacks=(64, "montehondo at edition 2"))
        # Lists that are not there are named, and nothing else is left out.
        for place in (9, 0):
            with self.subTest(place=place):
                copy_of(*DRAWN, f"UPDATE lots SET list = {place} WHERE place = 2")
                self.entries(["montehondo: the office has the lot ENCINA, "
                              f"list {place} (not there), {NEVER}"])

    def test_a_query_removes_the_lot(self):
        """After it the constituency has none, until there is another draw."""
        query = done("clara", "/station/01-001-A/query", {"rev": 2, "note": "smudged"})
        after = ["DELETE FROM seats", "UPDATE cons SET edition = 2, certified = 0",
                 "UPDATE returns SET rev = 3, status = 2, note = 'smudged' "
                 "WHERE station = '01-001-A'"]
        copy_of(*DRAWN)
        recorded_instead(berta("draw", edition=1, order=["ENCINA", "ROBLE"]), query)
        copy_of(*DRAWN, *after, "DELETE FROM lots")
        self.entries()
        copy_of(*DRAWN, *after)
        self.entries([f"montehondo: the office has the lot ENCINA, ROBLE, {NEVER}"])

    def test_a_part_that_was_put_back(self):
        """Each part is as some acts left it. Together they were never so: a return is as it was
        before it was corrected, under the certificate that came after."""
        station, other = "04-002-A", {"slip": "r214", "votes": [30, 40, 30, 0, 0], "blank": 0,
                                      "spoiled": 0}
        copy_of()
        recorded_instead(
            berta("certify", edition=1), berta("reopen", edition=2, note="recount"),
            done("clara", f"/station/{station}/query", {"rev": 2, "note": "HAYA?"}),
            done("clara", f"/station/{station}/correct", {"rev": 3, **other}),
            done("bruno", f"/station/{station}/close", {"rev": 4}),
            berta("certify", edition=3))
        past = "INSERT INTO past SELECT con, 2, list, n FROM seats"
        # The whole office as it was before is named as what it is: an older copy, or one put back.
        for edition, certified, note, *lacks in (
                (1, 0, "", 62, "montehondo at edition 1"),
                (2, 1, "", 64, "montehondo at edition 2"),
                (3, 0, "recount", 66, f"{station} at revision 2")):
            with self.subTest(edition=edition):
                copy_of(*[past] * (edition > 2), "UPDATE cons SET edition = "
                        f"{edition}, certified = {certified}, note = '{note}'")
                self.entries(lacks=lacks)
        copy_of(past, "UPDATE cons SET edition = 4, note = 'recount'")
        self.assert_counted_again()
        # 15 returns have four lines each. Then the query is answered in line 66, and the second
        # certificate in line 72.
        self.entries([f"the office has {station} at revision 2, as it was before line 66 of the "
                      "record, and montehondo at edition 4, as it was from line 72 on: it never "
                      "had both"])
        # A return that is gone was there before every certificate.
        copy_of("DELETE FROM returns WHERE station = '04-001-B'")
        lines = Path("commands.log").read_bytes().splitlines()
        lodged = next(number for number, line in enumerate(lines, 1)
                      if b"/04-001-B/lodge" in line) + 1
        self.entries([f"the office has no return of 04-001-B, as it was before line {lodged} of "
                      "the record, and montehondo at edition 2, as it was from line 62 on: it "
                      "never had both"])

    def test_who_is_gone(self):
        """By the list that the command names, the last one too."""
        def gone(place, code):
            copy_of(f"INSERT INTO gone VALUES ('montehondo', {place}, 1, 'died')")
            recorded(also=[berta("vacate", list=code, place=1, note="died")])

        for place, code in ((3, "HAYA"), (5, "OLIVO")):
            with self.subTest(code=code):
                gone(place, code)
                self.entries()
        gone(4, "HAYA")
        self.entries(["montehondo: a holder is gone, list SAUCE, place 1, by no act of this "
                      "record"], lacks=(64, "montehondo, list HAYA, place 1, not gone"))
        # Without its row the holder is as before the vacancy, which was the last act.
        copy_of()
        self.entries(lacks=(64, "montehondo, list HAYA, place 1, not gone"))
        # The vacancy is in the record, and an act after it is in the copy: only its row is not.
        copy_of("INSERT INTO past SELECT con, 2, list, n FROM seats",
                "UPDATE cons SET edition = 3, certified = 0, note = 'recount'",
                "DELETE FROM seats")
        recorded(also=[berta("vacate", list="HAYA", place=1, note="died"),
                       berta("reopen", edition=2, note="recount")])
        self.entries(["the office has montehondo, list HAYA, place 1, not gone, as it was before "
                      "line 64 of the record, and montehondo at edition 3, as it was from line 66 "
                      "on: it never had both"])

    def test_a_withdrawn_certificate(self):
        """Nothing else in a copy says what it was. Without it those who were gone before the
        certificate in force would be proclaimed."""
        recorded_twice = [
            "INSERT INTO past SELECT con, 2, list, n FROM seats",
            "UPDATE cons SET edition = 4, note = 'recount'",
            "INSERT INTO gone VALUES ('montehondo', 3, 1, 'died')"]
        copy_of(*recorded_twice)
        recorded(also=[berta("vacate", list="HAYA", place=1, note="died"),
                       berta("reopen", edition=2, note="recount"), berta("certify", edition=3)])
        self.entries()
        papers("proclamation", COPY, "whole", "--record", "commands.log")
        self.assertIn(["8", "Lista del Haya", "2", "Julián Prado"],
                      paper("whole", "act-proclamation-*").rows)
        other = "with other seats than the acts of this record gave"
        for statement, said in (
                ("DELETE FROM past", "lacks the withdrawn certificate of edition 2"),
                ("UPDATE past SET n = 7 - n WHERE list < 3",
                 f"has a withdrawn certificate of edition 2 {other}"),
                ("INSERT INTO past SELECT con, 3, list, n FROM seats",
                 "has a withdrawn certificate of edition 3, by no acts of this record")):
            with self.subTest(statement=statement):
                copy_of(*recorded_twice, statement)
                self.assert_counted_again()
                self.entries([f"montehondo: the office {said}"])
                self.refuses("the record says something else of montehondo than the copy", "acts",
                             "--record", "commands.log")
        # A key of a constituency that means nothing to the office is no rule of it.
        stray = Path("setup.toml").read_text(encoding="utf-8").replace(
            "[[constituency]]", "[[constituency]]\nrule = 1\nmost = {}", 1)
        Path("setup.toml").write_text(stray, encoding="utf-8")
        copy_of(*recorded_twice, setup_with(EXAMPLES, stray))
        self.entries()
        Path("setup.toml").write_text(EXAMPLES, encoding="utf-8")
        # The record has not the return of a station: what the certificate gave is not known.
        copy_of(*recorded_twice, "UPDATE past SET n = 7 - n WHERE list < 3")
        lines = [json.loads(line) for line in Path("commands.log").read_bytes().splitlines()]
        entries = [{key: one[key] for key in one if key not in ("n", "before", "time")}
                   for one in lines[4:]]
        Path("commands.log").write_bytes(chained(*(
            one | {"to": number} if "status" in one else one
            for number, one in enumerate(entries))))
        self.entries(["01-001-A: the office has it at revision 2, and no acts of this record left "
                      "it so"])

    def test_notes(self):
        """Of a query, a reopening and a vacancy: each as the record has it, the last one."""
        copy_of("INSERT INTO past SELECT con, 2, list, n FROM seats",
                "UPDATE cons SET edition = 4, note = 'recount'",
                "UPDATE returns SET rev = 5, note = 'HAYA?' WHERE station = '04-002-A'",
                "INSERT INTO gone VALUES ('montehondo', 3, 1, 'died')")
        same = {"slip": "r214", "votes": [40, 40, 20, 0, 0], "blank": 0, "spoiled": 0}
        recorded(also=[
            berta("vacate", list="HAYA", place=1, note="died"),
            berta("reopen", edition=2, note="recount"),
            done("clara", "/station/04-002-A/query", {"rev": 2, "note": "HAYA?"}),
            done("clara", "/station/04-002-A/correct", {"rev": 3, **same}),
            done("bruno", "/station/04-002-A/close", {"rev": 4}), berta("certify", edition=3)])
        self.entries()
        papers("acts", COPY, "acts", "--record", "commands.log")
        for table, where, what, note in (
                ("returns", "station = '04-002-A'", "04-002-A", "HAYA?"),
                ("returns", "station = '04-001-A'", "04-001-A", ""),
                ("cons", "con = 'montehondo'", "montehondo", "recount"),
                ("gone", "list = 3", "montehondo, list HAYA, place 1", "died")):
            with self.subTest(what=what):
                shutil.copyfile(COPY, "kept.db")
                with contextlib.closing(sqlite3.connect(COPY)) as it:
                    it.execute(f"UPDATE {table} SET note = 'sold' WHERE {where}")
                    it.commit()
                self.entries([f"{what}: the office has the note 'sold', and this record {note!r}"])
                if table == "gone":
                    self.refuses("the record says something else of montehondo than the copy",
                                 "acts", "--record", "commands.log")
                shutil.copyfile("kept.db", COPY)

    def test_an_office_of_another_setup(self):
        """A comment is no other setup; a rule, the seats, a candidate, a station are."""
        for old, new in (("seats = 9", "seats = 8"), ("threshold = 300", "threshold = 500"),
                         ("Aurora Peral", "Celia Monte"), ('base = "valid"', 'base = "lists"')):
            with self.subTest(new=new):
                self.assertIn(old, EXAMPLES)
                copy_of(setup_with(old, new))
                recorded()
                self.entries(["montehondo: the office has another rule, or other seats, lists or "
                              "stations, than the setup"])
        copy_of(setup_with("seats = 9", "seats = 9  # as decreed"))
        self.entries()

    def test_a_setup_that_was_exchanged_with_the_office(self):
        """A record says of which setup it is: two candidates changed places in all else."""
        old, new = '"Aurora Peral", "Bruno Salcedo"', '"Bruno Salcedo", "Aurora Peral"'
        tools.run([DEPLOY / "setup-json", "setup.toml", "."], check=True, capture_output=True)
        digest = hash_of_file("setup.json")
        copy_of()
        recorded(setup=digest)
        self.entries()
        copy_of(setup_with(old, new))
        recorded(setup=digest)
        Path("setup.toml").write_text(EXAMPLES.replace(old, new), encoding="utf-8")
        self.assert_counted_again()
        self.entries([f"the record is of another setup, whose SHA-256 is {digest}"])

    def test_acts_of_the_board_that_the_record_lacks(self):
        """The papers say so: here of the certificate, of a return that was corrected, and of a
        vacancy, by which another candidate is among the elected."""
        copy_of("INSERT INTO past SELECT con, 2, list, n FROM seats",
                "INSERT INTO gone VALUES ('montehondo', 3, 1, 'died')",
                "UPDATE cons SET edition = 4",
                "UPDATE returns SET rev = 5 WHERE station = '04-002-A'")
        recorded()
        for language, said in (
                ("en", ["Stations whose acts are not all in the record of commands: 04-002-A.",
                        "Not all acts of the board that led to edition 4 of the result are in the "
                        "record of commands.",
                        "Vacancies that are not in the record of commands, by list and place: "
                        "HAYA 1."]),
                ("es", ["Mesas cuyas operaciones no constan todas en el registro: 04-002-A.",
                        "No constan en el registro todos los actos de la junta de los que resulta "
                        "la versión 4 del resultado.",
                        "Vacantes que no constan en el registro, por candidatura y puesto: HAYA "
                        "1."])):
            papers("acts", COPY, "out", "--record", "commands.log", "--language", language)
            for kind in ("count", "proclamation"):
                with self.subTest(kind=kind, language=language):
                    text = paper("out", f"act-{kind}-*-{language}*.html").text
                    self.assertEqual([one for one in said if one not in text], [])
        copy_of()
        papers("acts", COPY, "whole", "--record", "commands.log")
        for kind in ("count", "proclamation"):
            self.assertNotIn("record of commands.", paper("whole", f"act-{kind}-*").text)
