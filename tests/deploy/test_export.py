"""The published results in formats that others use: `deploy/export`.

The files are read by the places of their formats, and compared with numbers worked out by hand.
"""

import contextlib
import csv
import functools
import hashlib
import io
import json
import os
import re
import resource
import shutil
import string
import sys
import tempfile
import tomllib
import xml.etree.ElementTree as ET
from datetime import date
from pathlib import Path
from types import SimpleNamespace
from unittest import mock

from tests.support import tools
from tests.support.case import ROOT, Case
from tests.support.desks import done, modelled
from tests.support.office import PROFILE, constituency, party_list, station
from tests.support.pages import TWIN, press, read
from tests.support.published import publish
from tests.support.running import PATIENCE
from tests.support.scripts import loaded
from tests.support.site import DEPLOY

TOOL = loaded("export")
# Of 80 bytes: as long as a name may be.
LONG = "Coalición de la Ñ " + "ñandú " * 8 + "y más, siempre"
TOWNS = (
    PROFILE + constituency("c1", "Peña & <Soto>", 3, "d0")
    + party_list("A", "Unión & <Progreso>", "Íñigo & Ana", "Abel]]>", "Ada")
    + party_list("B", LONG, "Bea") + station("s1") + station("s2", 400)
    + constituency("c2", "Once", 2, "d0") + party_list("A", "Otra unión", "Alma", "Aldo")
    + party_list("C", "Cierzo", "Cleo") + station("t1") + station("t2"))
SITE = {"site.toml": 'title = "Elección & más"\nauthority = "Junta <Electoral>"\n',
        "stations.csv": "station,name\ns1,Escuela & patio\n"}
CODES = ("station;community;province;municipality;district;section;table\n"
         "s1;8;5;1;1;1;A\ns2;08;05;001;01;001B;A\nt1;08;05;002;01;001;A\nt2;08;05;002;01;001;B\n")
WORDS = ("--date", "2026-11-29")
SPAIN = ("--infoelectoral", "02", "codes.csv")
ALL = ["03022611.DAT", "09022611.DAT", "10022611.DAT", "README.txt", "eml-510.xml", "eml-520.xml",
       "nist-1500-100.json"]
EML = "{urn:oasis:names:tc:evs:schema:eml}"
PERSON = "{urn:oasis:names:tc:ciq:xsdschema:xNL:2.0}"
# By hand: of c1 A has 120 + 60 votes and B 71 + 90; 180, 161 and 180 / 2 win, and 161 / 2 does not.
# Each place has its votes by lists, its blank ones and its spoiled ones.
OF_C1 = {"c1": ({"A": 180, "B": 161}, 5, 1), "s1": ({"A": 120, "B": 71}, 2, 1),
         "s2": ({"A": 60, "B": 90}, 3, 0)}
OF_C2 = {"c2": ({"A": 10, "C": 20}, 1, 2), "t1": ({"A": 10, "C": 20}, 1, 2)}


def a_slip(slip, votes, blank, spoiled):
    return {"slip": slip, "votes": votes, "blank": blank, "spoiled": spoiled}


SLIPS = {"s1": a_slip("p1", [120, 71], 2, 1), "s2": a_slip("p2", [60, 90], 3, 0),
         "t1": a_slip("p3", [10, 20], 1, 2), "t2": a_slip("p4", [50, 0], 0, 0)}


def export(*words, status=0, pages="pages", folder="out", language="C.UTF-8"):
    """Runs the tool within this process; what it says on standard error."""
    said = io.StringIO()
    with (mock.patch.object(sys, "argv", ["export", pages, folder, *words]),
          mock.patch.dict(os.environ, {"LC_ALL": language}), contextlib.redirect_stderr(said)):
        try:
            found = TOOL.main()
        except SystemExit as ended:
            found = ended.code
    assert found == status, f"status {found}, wanted {status}: {said.getvalue()}"
    return said.getvalue()


def ran(*words, **how):
    """Runs the tool as a command."""
    return tools.run([DEPLOY / "export", *words], capture_output=True, text=True,
                     timeout=PATIENCE, check=False, **how)


@functools.cache
def published(setup, certified, closed, left):
    """The files that press.py publishes of two towns, of which some are certified; there these
    places of list A of c1 are vacated."""
    with tempfile.TemporaryDirectory(prefix="office-export-") as folder, contextlib.chdir(folder):
        Path("setup.toml").write_text(setup, encoding="utf-8")
        Path("site").mkdir()
        for name, text in SITE.items():
            Path("site", name).write_text(text, encoding="utf-8")
        with modelled(setup) as (office, port):
            for code, slip in SLIPS.items():
                done(office, f"/station/{code}/lodge", slip)
                if code in closed:
                    done(office, f"/station/{code}/close", {"rev": 1})
            for code in certified:
                done(office, f"/con/{code}/certify", {"edition": 1})
            for place in left:
                done(office, "/con/c1/vacate", {"list": "A", "place": place, "note": "resigned"})
            press(port, "--setup", "setup.toml", "--site", "site")
        return {file.name: file.read_bytes() for file in Path("pages").iterdir()
                if file.suffix in (".json", ".csv")}


def all_named(folder="pages"):
    """Writes manifest.json again, so that it names the files of a folder as they are."""
    files = {file.name: hashlib.sha256(file.read_bytes()).hexdigest()
             for file in Path(folder).iterdir() if file.name != "manifest.json"}
    Path(folder, "manifest.json").write_text(json.dumps(
        {"version": "2.0.0", "time": "2026-11-29T23:00:00+01:00", "files": files}))


def changed(name, old, new):
    """Changes a published file, which has the old text."""
    text = read(name)
    assert old in text, text
    Path("pages", name).write_text(text.replace(old, new), encoding="utf-8")


def eml(name):
    return ET.fromstring(Path("out", name).read_bytes())


def numbers_in(part):
    """The numbers of TotalVotes or ReportingUnitVotes; Cast and TotalCounted are their sums."""
    votes = {one.find(f"{EML}AffiliationIdentifier").get("Id"):
             int(one.findtext(f"{EML}ValidVotes")) for one in part.findall(f"{EML}Selection")}
    rejected = {one.get("ReasonCode"): int(one.text) for one in part.findall(f"{EML}RejectedVotes")}
    assert rejected.keys() == {"blank", "spoiled"}
    counted, cast = (int(part.findtext(EML + tag)) for tag in ("TotalCounted", "Cast"))
    assert (counted, cast) == (sum(votes.values()), counted + sum(rejected.values()))
    return votes, rejected["blank"], rejected["spoiled"]


def counted(contest):
    """The numbers of each place of a contest of EML 510, by codes."""
    code = contest.find(f"{EML}ContestIdentifier").get("Id")
    return {code: numbers_in(contest.find(f"{EML}TotalVotes"))} | {
        one.find(f"{EML}ReportingUnitIdentifier").get("Id"): numbers_in(one)
        for one in contest.findall(f"{EML}ReportingUnitVotes")}


def elected(contest):
    """The lists of a contest of EML 520, each with whether it has a seat and who is elected."""
    found = []
    for one in contest.findall(f"{EML}Selection"):
        assert one[-1].tag == f"{EML}Elected"
        if (of_list := one.find(f"{EML}AffiliationIdentifier")) is not None:
            found.append((of_list.get("Id"), one[-1].text, []))
        else:
            assert one[-1].text == "yes"
            found[-1][2].append((int(one.find(f".//{EML}CandidateIdentifier").get("Id")),
                                 one.findtext(f".//{PERSON}NameLine")))
    return found


def nist():
    return json.loads(Path("out/nist-1500-100.json").read_text(encoding="utf-8"))


def content(text):
    return text["Text"][0]["Content"]


def reported(report):
    """The numbers of each place of NIST's report, by codes."""
    [election] = report["Election"]
    votes, blank, spoiled = {}, {}, {}
    for contest in election["Contest"]:
        blank |= {one["GpUnitId"]: one["Undervotes"] for one in contest["OtherCounts"]}
        for one in contest["ContestSelection"]:
            [party] = one["EndorsementPartyIds"]
            for count in one["VoteCounts"]:
                at = votes.setdefault(count["GpUnitId"], {})
                at[party.removeprefix("party.")] = count["Count"]
    for one in election["BallotCounts"]:
        place = one["GpUnitId"]
        spoiled[place] = one["BallotsRejected"]
        assert one["BallotsCast"] == sum(votes[place].values()) + blank[place] + spoiled[place]
    return {place.partition(".")[2]: (votes[place], blank[place], spoiled[place])
            for place in votes}


def lines_of(name):
    data = Path("out", name).read_bytes()
    assert data.endswith(b"\r\n"), data[-9:]
    return data.decode("iso-8859-1").split("\r\n")[:-1]


class OfExport(Case):
    prefix = "office-export-"

    def publish_towns(self, *certified, setup=TOWNS, closed=("s1", "s2", "t1"), left=()):
        """A folder with what is published of the two towns."""
        Path("codes.csv").write_text(CODES, encoding="utf-8")
        shutil.rmtree("pages", ignore_errors=True)
        Path("pages").mkdir()
        for name, data in published(setup, certified, tuple(closed), left).items():
            Path("pages", name).write_bytes(data)

    def refused(self, said, *words, status=1, **how):
        """The tool says this in one line, and nothing is written."""
        before = sorted(os.listdir())
        error = export(*WORDS, *words, status=status, **how)
        head = "refused: " if status == 1 else "failed: "
        self.assertEqual((error.count("\n"), error[:len(head)], said in error), (1, head, True),
                         f"{said}\n{error}")
        self.assertEqual(sorted(os.listdir()), before)


class Formats(OfExport):
    """One town is certified; the other has a return that is open, and a name of a list that the
    first has otherwise."""

    def setUp(self):
        super().setUp()
        self.publish_towns("c1")
        self.assertEqual((export(*WORDS, *SPAIN), sorted(os.listdir("out"))), ("", ALL))

    def test_the_count_in_eml(self):
        it = eml("eml-510.xml")
        self.assertEqual((it.tag, it.get("Id"), it.get("SchemaVersion")),
                         (f"{EML}EML", "510", "5.0"))
        first, second = it.findall(f"{EML}Count/{EML}Election/{EML}Contests/{EML}Contest")
        self.assertEqual((counted(first), counted(second)), (OF_C1, OF_C2))
        self.assertEqual(
            [it.findtext(f".//{EML}{tag}") for tag in (
                "AuthorityIdentifier", "ElectionName", "ContestName", "RegisteredName")],
            ["Junta <Electoral>", "Elección & más", "Peña & <Soto>", "Unión & <Progreso>"])
        self.assertEqual([one.text for one in it.iter(f"{EML}ReportingUnitIdentifier")],
                         ["Escuela & patio", "s2", "t1"])
        self.assertIn(LONG, [one.text for one in it.iter(f"{EML}RegisteredName")])

    def test_a_count_without_a_certificate_says_so(self):
        text = Path("out/eml-510.xml").read_text(encoding="utf-8")
        self.assertEqual(re.findall("<!-- (.*?) -->", text)[1:], [
            "No certificate yet. Closed stations: 1 of 2. / Sin proclamación. Mesas escrutadas: 1 "
            "de 2."])
        self.assertLess(text.index("<ContestName>Once"), text.index("No certificate yet"))

    def test_the_result_in_eml(self):
        """Of the certified constituency alone."""
        it = eml("eml-520.xml")
        [contest] = it.findall(f"{EML}Result/{EML}Election/{EML}Contest")
        self.assertEqual((it.get("Id"), contest.find(f"{EML}ContestIdentifier").get("Id")),
                         ("520", "c1"))
        self.assertEqual(elected(contest), [
            ("A", "yes", [(1, "Íñigo & Ana"), (2, "Abel]]>")]), ("B", "yes", [(1, "Bea")])])

    def test_the_report_of_nist(self):
        report = nist()
        [election] = report["Election"]
        self.assertEqual((report["Status"], report["Format"], report["Issuer"]),
                         ("unofficial-partial", "precinct-level", "Junta <Electoral>"))
        self.assertEqual(reported(report), OF_C1 | OF_C2)
        units = {one["@id"]: one for one in report["GpUnit"]}
        self.assertEqual(
            {code: (one["VotersRegistered"], one.get("VotersParticipated"))
             for code, one in units.items() if "VotersRegistered" in one},
            {"con.c1": (700, 347), "station.s1": (300, 194), "station.s2": (400, 153),
             "con.c2": (600, 33), "station.t1": (300, 33), "station.t2": (300, None)})
        self.assertEqual([units[f"station.{code}"]["CountStatus"][0]["Status"]
                          for code in ("s1", "t1", "t2")],
                         ["completed", "completed", "not-processed"])
        self.assertEqual(content(units["station.s1"]["Name"]), "Escuela & patio")
        self.assertEqual([(one["@id"], content(one["BallotName"])) for one in election["Candidate"]
                          if "PostElectionStatus" in one],
                         [("candidate.c1.A.1", "Íñigo & Ana"), ("candidate.c1.A.2", "Abel]]>"),
                          ("candidate.c1.B.1", "Bea")])
        self.assertEqual([(one["NumberElected"], one["SubUnitsReported"], one["TotalSubUnits"])
                          for one in election["Contest"]], [(3, 2, 2), (2, 1, 2)])

    def test_each_part_of_nists_report_that_is_named_is_there(self):
        """No identifier comes twice, and each reference leads to one."""
        defined, named = [], set()

        def walk(value, key=""):
            if isinstance(value, dict):
                self.assertTrue(value["@type"].startswith("ElectionResults."))
                defined.extend([value["@id"]] if "@id" in value else [])
            for name, one in value.items() if isinstance(value, dict) else enumerate(value):
                here = key if isinstance(name, int) else name
                if isinstance(one, (dict, list)):
                    walk(one, here)
                elif here.endswith(("Id", "Ids")) and here != "VendorApplicationId":
                    named.add(one)

        walk(nist())
        self.assertEqual((len(set(defined)), named - set(defined)), (len(defined), set()))
        self.assertGreater(len(named), 15)

    def test_the_files_of_spain(self):
        """Each field at its place, and no line of a station that is open."""
        head = "02" + "2026" + "11"
        lists = [("000001", "A", "Unión & <Progreso>", "000001"), ("000002", "B", LONG, "000002"),
                 ("000003", "A", "Otra unión", "000001"), ("000004", "C", "Cierzo", "000004")]
        self.assertEqual(lines_of("03022611.DAT"), [
            head + number + code.ljust(50) + name.ljust(150) + first * 3
            for number, code, name, first in lists])
        keys = {"s1": "08" + "05" + "001" + "01" + "001 " + "A",
                "s2": "08" + "05" + "001" + "01" + "001B" + "A",
                "t1": "08" + "05" + "002" + "01" + "001 " + "A"}
        zero = "0000000"
        # The roll twice, foreign residents and the two hours, blank, spoiled, lists, a referendum.
        tables = {"s1": ["0000300"] * 2 + [zero] * 4 + ["0000002", "0000001", "0000191"],
                  "s2": ["0000400"] * 2 + [zero] * 4 + ["0000003", "0000000", "0000150"],
                  "t1": ["0000300"] * 2 + [zero] * 4 + ["0000001", "0000002", "0000030"]}
        self.assertEqual(lines_of("09022611.DAT"), [
            head + "1" + keys[code] + "".join(row) + zero * 2 + ("N" if code == "t1" else "S")
            for code, row in tables.items()])
        votes = [("s1", "000001", "0000120"), ("s1", "000002", "0000071"),
                 ("s2", "000001", "0000060"), ("s2", "000002", "0000090"),
                 ("t1", "000003", "0000010"), ("t1", "000004", "0000020")]
        self.assertEqual(lines_of("10022611.DAT"), [
            head + "1" + keys[code] + number + found for code, number, found in votes])
        self.assertEqual({len(line) for name in ALL[:3] for line in lines_of(name)}, {232, 101, 36})

    def test_each_file_says_that_no_schema_was_at_hand(self):
        """On its first line; the lines of Spain's files have no place for it, and README.txt says
        it of all, in both languages."""
        for name in ALL[4:]:
            with self.subTest(name=name):
                first = Path("out", name).read_text(encoding="utf-8").partition("\n")[0]
                self.assertIn("Not compared with the schema of this format", first)
                self.assertIn("Sin comparar con el esquema de este formato", first)
        text = read("README.txt", "out")
        english, spanish = text.split("\n\n\n")
        for part, words in ((english, ("No file here was compared with its schema", "Not checked:",
                                       "Certified constituencies: 1 of 2", "Not certified: c2")),
                            (spanish, ("Ningún fichero se ha comparado", "Sin comprobar:",
                                       "Circunscripciones proclamadas: 1 de 2",
                                       "Sin proclamar: c2"))):
            flat = " ".join(part.split())
            for said in (*words, *(f"{name}: " for name in ALL if name != "README.txt")):
                with self.subTest(said=said):
                    self.assertIn(said, flat)
        self.assertLess(max(map(len, text.splitlines())), 80)

    def test_a_long_word_of_a_title_stays_whole(self):
        title = "Wahl-" + "x" * TOOL.WIDTH
        it = SimpleNamespace(title=title, day="1", time="2", cons=[], certified=[])
        self.assertIn(title, TOOL.readme(it, {}, TOOL.Texts("en")))

    def test_the_same_files_lead_to_the_same_bytes(self):
        export(*WORDS, *SPAIN, folder="again")
        for name in ALL:
            self.assertEqual(Path("out", name).read_bytes(), Path("again", name).read_bytes(), name)


class Seats(OfExport):
    def test_the_first_election(self):
        """Its numbers are those of examples/README.md, and of the published table."""
        shutil.copytree(ROOT / "tests/pages", "pages")
        all_named()
        found = ran("pages", "out", *WORDS)
        self.assertEqual((found.returncode, found.stdout, found.stderr), (0, "", ""))
        self.assertEqual(sorted(os.listdir("out")), ALL[3:])
        rows = list(csv.DictReader(io.StringIO(read("results.csv"))))
        votes = {row["list"]: int(row["votes"]) for row in rows}
        self.assertEqual(votes, {"ROBLE": 1235, "ENCINA": 1134, "HAYA": 694, "SAUCE": 299,
                                 "OLIVO": 65})
        [contest] = eml("eml-510.xml").iter(f"{EML}Contest")
        for found in (counted(contest), reported(nist())):
            self.assertEqual((found["montehondo"], len(found)), ((votes, 44, 22), 16))
        [contest] = eml("eml-520.xml").iter(f"{EML}Contest")
        seats = {code: (elected, len(people)) for code, elected, people in elected(contest)}
        self.assertEqual(seats, {"ROBLE": ("yes", 4), "ENCINA": ("yes", 3), "HAYA": ("yes", 2),
                                 "SAUCE": ("no", 0), "OLIVO": ("no", 0)})
        self.assertEqual(nist()["Status"], "certified")
        self.assertIn("need --infoelectoral", " ".join(read("README.txt", "out").split()))

    def test_without_a_certificate_there_are_no_seats(self):
        """The published files have provisional ones."""
        for closed, status in ((("s1", "s2", "t1"), "unofficial-partial"),
                               (SLIPS, "unofficial-complete"), ((), "unofficial-partial")):
            with self.subTest(closed=closed):
                shutil.rmtree("out", ignore_errors=True)
                self.publish_towns(closed=closed)
                self.assertEqual('"provisional"' in read("con-c1.json"), bool(closed))
                export(*WORDS, *SPAIN)
                self.assertEqual(sorted(os.listdir("out")),
                                 [name for name in ALL if name != "eml-520.xml"])
                self.assertNotIn("Elected>", read("eml-510.xml", "out"))
                self.assertNotIn("PostElectionStatus", read("nist-1500-100.json", "out"))
                self.assertEqual((nist()["Status"], {line[-1] for line in lines_of("09022611.DAT")}
                                  if closed else None), (status, {"N"} if closed else None))
                self.assertIn("since no constituency is certified",
                              " ".join(read("README.txt", "out").split()))

    def test_a_seat_that_is_empty(self):
        """B has two seats and one candidate."""
        Path("setup.toml").write_text(
            PROFILE + constituency("c1", "Twin Town", 3, "d0") + party_list("A", "Alpha", "Ana")
            + party_list("B", "Beta", "Bea") + station("s1"), encoding="utf-8")
        publish(TWIN, "--setup", "setup.toml")
        export(*WORDS)
        [contest] = eml("eml-520.xml").iter(f"{EML}Contest")
        self.assertEqual(elected(contest), [("A", "yes", [(1, "Ana")]), ("B", "yes", [(1, "Bea")])])
        text = read("eml-520.xml", "out")
        self.assertEqual(text.count("A seat of this list is empty"), 1)
        self.assertLess(text.index(">Bea<"), text.index("A seat of this list is empty"))


    def test_who_follows_after_a_vacancy(self):
        """Of A the first of two holders leaves, and the third candidate follows: each file says
        that these are the holders of now."""
        for left, people in (((), [(1, "Íñigo & Ana"), (2, "Abel]]>")]),
                             ((1,), [(2, "Abel]]>"), (3, "Ada")])):
            with self.subTest(left=left):
                shutil.rmtree("out", ignore_errors=True)
                self.publish_towns("c1", left=left)
                export(*WORDS, *SPAIN)
                [contest] = eml("eml-520.xml").iter(f"{EML}Contest")
                self.assertEqual(elected(contest)[0], ("A", "yes", people))
                [of_c1] = re.findall("(?s)Id=\"A\">.*Id=\"B\">", read("eml-520.xml", "out"))
                said = "<!-- Candidates of this list have left: those who follow them have the"
                self.assertEqual((said in of_c1, "have left" in read("eml-520.xml", "out")),
                                 (bool(left), bool(left)))
                winners = [int(one["@id"].rpartition(".")[2]) for one in
                           nist()["Election"][0]["Candidate"] if "PostElectionStatus" in one
                           and one["PartyId"] == "party.A"]
                self.assertEqual(winners, [place for place, _ in people])
                readme = " ".join(read("README.txt", "out").split())
                for text in (nist()["Notes"], readme):
                    for said in ("Candidates have left in these constituencies: c1.",
                                 "Han causado baja candidatos en estas circunscripciones: c1."):
                        self.assertEqual(said in text, bool(left), text)
                for said in ("Who is elected is here who holds the seat at that time",
                             "Como electo figura aquí quien ocupa el escaño a esa hora"):
                    self.assertIn(said, readme)


class Differences(OfExport):
    """Everything that is published has to agree, and so has each file."""

    def setUp(self):
        super().setUp()
        self.publish_towns("c1")
        shutil.copytree("pages", "as-published")

    def test_published_files_that_do_not_agree(self):
        """Where manifest.json names them all the same."""
        rows = (
            ("results.csv", ",180,", ",181,", "constituency c1: votes of A: 180, and results.csv"
             " has 181"),
            ("results.csv", ",346,5,", ",347,6,", "constituency c1: blank votes: 5, and"),
            ("results.csv", ",2,2,2,true,", ",2,1,2,true,", "closed stations: 2, and results.csv"),
            ("results.csv", ",700,", ",701,", "electors: 700, and results.csv has 701"),
            ("results.csv", ",yes,2,2", ",yes,3,2", "seats of A: 2, and results.csv has 3"),
            ("results.csv", ",2,true,", ",3,true,", "edition or its certificate is not that of"),
            ("results.csv", "c2,", "c3,", "results.csv: constituency c2"),
            ("stations-c1-2.csv", "120,71", "119,72", "votes of A: 179, and results.csv has 180"),
            ("stations-c1-2.csv", "s2,", "s9,", "stations-c1-2.csv: constituency c1: its names"),
            ("stations-c1-2.csv", "s2,", "s1,", "stations-c1-2.csv: constituency c1: its names"),
            ("stations-c2-open.csv", ",A,C", ",C,A", "stations-c2-open.csv: constituency c2: its"),
            ("con-c1.json", '"name": "Abel]]>"', '"name": null',
             "con-c1.json: constituency c1: its names"),
            ("con-c1.json", '"name": "Abel]]>"', '"name": "Ada"',
             "con-c1.json: constituency c1: its names"),
            ("con-c1.json", '"A": 2', '"A": 1', "con-c1.json: constituency c1: seats of A: 1, and"),
            ("con-c1.json", '"list": "B",\n   "place": 1', '"list": "A",\n   "place": 3',
             "seats of A: 3, and results.csv has 2"),
            ("con-c2.json", '"name": "Once"', '"name": "Doce"', "con-c2.json: constituency c2: "),
        )
        for name, old, new, said in rows:
            with self.subTest(name=name, old=old, new=new):
                shutil.copytree("as-published", "pages", dirs_exist_ok=True)
                changed(name, old, new)
                self.refused("manifest.json names")
                all_named()
                self.refused(said)

    def test_files_that_cannot_be_used(self):
        rows = (
            ("con-c1.json", '"view"', '"views"', "con-c1.json is not what it has to be: KeyError"),
            ("setup.json", "[", "{", "setup.json is not what it has to be: JSONDecodeError"),
            ("stations-c1-2.csv", "120,71", "120,-71", "ValueError: '-71' is no number"),
            ("stations-c1-2.csv", "120,71", "120", "stations-c1-2.csv is not what it has to be"),
            ("results.csv", ",180,", ",x,", "results.csv is not what it has to be"),
            ("setup.json", '"s1"', '"s\\u00011"', r"ValueError: 's\x011' is no code"),
            ("setup.json", '"electors": 400', '"electors": 400.0', "400.0 is no number"),
            ("con-c2.json", '"Once"', "[" * 100_000, "con-c2.json is not what it has to be: R"),
            ("manifest.json", '"time": "', '"time": "x', "Invalid isoformat string: 'x"),
            ("manifest.json", '"version": "2.', '"version": "3.', ", and this reads version 2"),
        )
        for name, old, new, said in rows:
            with self.subTest(name=name, old=old, new=new):
                shutil.copytree("as-published", "pages", dirs_exist_ok=True)
                changed(name, old, new)
                if name != "manifest.json":
                    all_named()
                self.refused(said, status=2)
        for name in ("manifest.json", "setup.json", "results.csv", "stations-c2-open.csv"):
            with self.subTest(name=name):
                shutil.copytree("as-published", "pages", dirs_exist_ok=True)
                Path("pages", name).unlink()
                self.refused(f"pages/{name}: No such file", status=2)
        self.refused("none/manifest.json: No such file", status=2, pages="none")
        shutil.copytree("as-published", "pages", dirs_exist_ok=True)
        Path("pages/con-c1.json").unlink()
        os.mkfifo("pages/con-c1.json")
        self.refused("pages/con-c1.json: not a regular file", status=2)

    def test_files_that_were_made_wrong(self):
        """Each is read again before it is written: one number too many in any is found."""
        election = TOOL.read_election(Path("pages"), date(2026, 11, 29))
        keys = TOOL.spain.read_keys(Path("codes.csv"), election)
        files = TOOL.results(election, TOOL.Marks([TOOL.Texts("en")]), keys, "02")
        TOOL.check(election, files, keys)
        rows = (("count", "<ValidVotes>120<", "<ValidVotes>121<"), ("count", ">180<", ">181<"),
                ("count", 'ReasonCode="blank">3<', 'ReasonCode="blank">2<'),
                ("count", "<Cast>194<", "<Cast>195<"), ("result", ">yes</Elected></Selection>\n"
                 '<Selection><AffiliationIdentifier Id="B"', ">no</Elected></Selection>\n"
                 '<Selection><AffiliationIdentifier Id="B"'),
                ("nist", '"Count": 120', '"Count": 121'), ("nist", '"Count": 180', '"Count": 181'),
                ("nist", '"Undervotes": 3', '"Undervotes": 4'),
                ("nist", '"VotersRegistered": 400', '"VotersRegistered": 401'),
                ("nist", '"BallotsCast": 153', '"BallotsCast": 154'),
                ("nist", '"PartyId": "party.B", "PostElectionStatus": "winner"',
                 '"PartyId": "party.B"'),
                ("tables", "0000002" + "0000001", "0000001" + "0000001"),
                ("tables", "0000191", "0000190"), ("votes", "0000120", "0000119"),
                ("votes", "000003" + "0000010", "000004" + "0000010"))
        for what, old, new in rows:
            with self.subTest(what=what, old=old):
                name, data = files[what]
                text = data.decode("iso-8859-1")
                self.assertIn(old, text)
                wrong = files | {what: (name, text.replace(old, new, 1).encode("iso-8859-1"))}
                with self.assertRaises(TOOL.Refused) as found:
                    TOOL.check(election, wrong, keys)
                self.assertEqual(found.exception.key, "differs")


class Names(OfExport):
    def test_a_letter_that_xml_does_not_allow(self):
        self.publish_towns("c1", setup=TOWNS.replace("Cleo", "Cleo\ufffe"))
        self.refused("the name Cleo\\ufffe has the character U+FFFE, which XML does not allow")

    def test_a_letter_that_a_field_does_not_have(self):
        """It is no hindrance for the other formats."""
        self.publish_towns("c1", setup=TOWNS.replace("Cierzo", "Ćierzo"))
        self.refused("C: Ćierzo has the character U+0106, which ISO-8859-1 does not have", *SPAIN)
        self.publish_towns("c1", setup=TOWNS.replace("Cierzo", "Cier\u0085zo"))
        self.refused("has the character U+0085", *SPAIN)
        export(*WORDS)
        self.assertIn("Cier\u0085zo", read("nist-1500-100.json", "out"))

    def test_a_name_that_is_longer_than_its_field(self):
        """The office takes none: it is forged. A name of just the width of the field fits."""
        self.publish_towns("c1")
        for length, fits in ((150, True), (151, False)):
            with self.subTest(length=length):
                for name in ("setup.json", "con-c2.json"):
                    text = read(name)
                    Path("pages", name).write_text(re.sub(
                        '"(Cierzo|ñ+)"', f'"{"ñ" * length}"', text), encoding="utf-8")
                all_named()
                if fits:
                    export(*WORDS, *SPAIN)
                    self.assertEqual(lines_of("03022611.DAT")[3][64:214], "ñ" * 150)
                    shutil.rmtree("out")
                else:
                    self.refused("ñ has 151 characters, and its field has 150", *SPAIN)

    def test_the_codes_of_stations(self):
        self.publish_towns("c1")
        rows = (("s2;08;05;001;01;001B;A\n", "", 1, "codes.csv: no row has the station s2"),
                ("t2;", "s1;", 1, "codes.csv: two rows have the station s1"),
                ("001B;A", "001 ;A", 1, "the stations s1 and s2 have the same codes"),
                ("001B;A", "001BB;A", 1, "station s2: section cannot be '001BB'"),
                ("s1;8;5;1", "s1;8;5;1234", 1, "station s1: municipality cannot be '1234'"),
                ("s1;8;5;1", "s1;8;5;", 1, "station s1: municipality cannot be ''"),
                ("s1;8;", "s1;x;", 1, "station s1: community cannot be 'x'"),
                ("1;1;1;A", "1;1;1;1", 1, "station s1: table cannot be '1'"),
                ("t2;08;05;002;01;001;B", "t2;08", 1, "station t2: province cannot be ''"),
                ("table\n", "mesa\n", 2, "codes.csv: no column table"))
        for old, new, status, said in rows:
            with self.subTest(old=old, new=new):
                self.assertIn(old, CODES)
                Path("codes.csv").write_text(CODES.replace(old, new), encoding="utf-8")
                self.refused(said, *SPAIN, status=status)
        for data in (b"\xff", b""):
            Path("codes.csv").write_bytes(data)
            self.refused("codes.csv is not what it has to be", *SPAIN, status=2)
        Path("codes.csv").unlink()
        self.refused("codes.csv: No such file", *SPAIN, status=2)
        Path("codes.csv").write_text("\ufeff" + CODES.replace(";", ","), encoding="utf-8")
        export(*WORDS, *SPAIN)
        self.assertEqual(lines_of("10022611.DAT")[0][9:23], "0805" + "00101" + "001 A")


class Folders(OfExport):
    def setUp(self):
        super().setUp()
        self.publish_towns("c1")

    def test_a_folder_that_is_not_empty(self):
        Path("out").mkdir()
        Path("out/kept").write_text("as it was")
        self.refused("out is not empty: name a folder that is new or empty")
        self.assertEqual((os.listdir("out"), read("kept", "out")), (["kept"], "as it was"))

    def test_a_folder_that_is_empty(self):
        Path("out").mkdir()
        export(*WORDS)
        self.assertEqual(sorted(os.listdir("out")), ALL[3:])
        self.assertEqual(os.stat("out").st_mode & 0o777, 0o777 & ~umask())

    def test_a_folder_that_cannot_be_written(self):
        """Of one that cannot be written whole nothing stays."""
        self.refused("No such file or directory", status=3, folder="none/out")
        Path("file").write_text("as it was")
        self.refused("Not a directory", status=3, folder="file")
        before = sorted(os.listdir())
        found = ran("pages", "out", *WORDS, preexec_fn=lambda: resource.setrlimit(
            resource.RLIMIT_FSIZE, (4096, 4096)))
        self.assertEqual((found.returncode, found.stderr.count("\n")), (3, 1), found.stderr)
        self.assertIn("File too large", found.stderr)
        self.assertEqual(sorted(os.listdir()), before)
        self.assertEqual(Path("file").read_text(), "as it was")


def umask():
    found = os.umask(0)
    os.umask(found)
    return found


class Words(OfExport):
    def test_each_language_has_the_same_texts(self):
        """With the same places, and none that would end a comment of XML."""
        texts = {}
        for file in sorted(DEPLOY.glob("export_??.toml")):
            texts[file.stem[-2:]] = flat = {}
            for key, value in tomllib.loads(file.read_text(encoding="utf-8")).items():
                flat |= {(key, name): text for name, text in value.items()} if isinstance(
                    value, dict) else {key: value}
            for key in ("mark", "open", "empty_seat"):
                self.assertNotIn("--", flat[key])
        self.assertLessEqual({"en", "es"}, texts.keys())
        for language, flat in texts.items():
            self.assertEqual({key: places_in(text) for key, text in flat.items()},
                             {key: places_in(text) for key, text in texts["en"].items()}, language)

    def test_a_refusal_in_spanish(self):
        self.publish_towns("c1")
        changed("results.csv", ",180,", ",181,")
        all_named()
        said = "circunscripción c1: votos de A: 180, y results.csv tiene 181"
        self.refused(said, "--language", "es")
        self.refused(said, language="es_ES.UTF-8")

    def test_a_wrong_command_line(self):
        for words in ((), ("--date", "29/11/2026"), (*WORDS, "--infoelectoral", "2", "codes.csv"),
                      (*WORDS, "--language", "xx")):
            with self.subTest(words=words):
                self.assertIn("usage: export", export(*words, status=2))
        self.assertEqual(os.listdir(), [])

    def test_the_help(self):
        said = ran("--help").stdout
        for words in ("eml-510.xml", "--infoelectoral", "The status is 0 where all is written"):
            self.assertIn(words, said)


def places_in(text):
    return {name for _, name, _, _ in string.Formatter().parse(text) if name is not None}
