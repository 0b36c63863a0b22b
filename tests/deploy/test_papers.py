"""The papers that a board signs: acts, and doubles of returns.

Copies are of the first election, whose figures are worked out in examples/README.md.
"""

import csv
import hashlib
import os
import re
import shutil
import sys
import tomllib
from pathlib import Path

from tests.support.case import ROOT, needs
from tests.support.pages import REOPENED, TWIN
from tests.support.papers import (
    BOARD, COPY, DRAWN, ELECTED, HASH, LISTS, NOT_DRAWN, RETURNS, TWICE, OfPapers, Paper, copy_of,
    large, margin, paper, papers, printed, recorded, rows_in, setup_with, taken_out,
)
from tests.support.rounds import OfPages, copy_of_deploy
from tests.support.site import DEPLOY, EXAMPLES

# By hand in examples/README.md. Of the electors, 5,387, the voters are the valid and the spoiled
# votes, 3,471 + 22; 3,493 / 5,387 is 64.84.. per cent.
SUMS = {"en": [["Electors on the roll", "5,387"], ["Voters", "3,493"], ["Turnout", "64.84 %"],
               ["Valid votes", "3,471"], ["Votes for lists", "3,427"], ["Blank votes", "44"],
               ["Spoiled votes", "22"]],
        "es": [["Electores censados", "5.387"], ["Votantes", "3.493"], ["Participación", "64,84 %"],
               ["Votos válidos", "3.471"], ["Votos a candidaturas", "3.427"],
               ["Votos en blanco", "44"], ["Votos nulos", "22"]]}


def in_spanish(row):
    """Numbers of a row with the marks of Spanish."""
    return [cell.translate(str.maketrans(",.", ".,")) for cell in row]


class Acts(OfPapers):
    def test_the_figures_of_both_acts_in_both_languages(self):
        copy_of()
        Path("site").mkdir()
        Path("site/site.toml").write_text(BOARD, encoding="utf-8")
        names = []
        for language, of_language in (("en", list), ("es", in_spanish)):
            out, said = papers("acts", COPY, "out", "--site", "site", "--language", language)
            self.assertEqual(said, "")
            names += out.split()
            count = paper("out", f"act-count-*-{language}.html")
            proclaimed = paper("out", f"act-proclamation-*-{language}.html")
            for act in (count, proclaimed):
                self.assert_has(act, *SUMS[language])
                self.assertEqual(act.tags & {"script", "a", "iframe", "form"}, set())
            taking_part = {"en": ("yes", "no"), "es": ("sí", "no")}[language]
            self.assert_has(count, *(of_language(row[:5]) + [taking_part[row[1] == "OLIVO"]]
                                     for row in LISTS))
            self.assert_has(proclaimed, *map(of_language, LISTS))
            self.assertEqual([row for row in proclaimed.rows if row in ELECTED], ELECTED)
        self.assertEqual(names, [
            f"out/act-{kind}-montehondo-2-{HASH[:12]}-{language}.html"
            for language in ("en", "es") for kind in ("count", "proclamation")])

    def test_what_the_acts_say_in_words(self):
        copy_of()
        Path("site").mkdir()
        Path("site/site.toml").write_text(BOARD, encoding="utf-8")
        texts = {"en": ("Election of 29 November 2026", "Act of the general count",
                        "Act of proclamation", "by D’Hondt’s method", "no lot was needed",
                        "reaches 3.00 %", "In Montehondo, on", "President: Amparo Sanz"),
                 "es": ("Votación del 29 de noviembre de 2026", "Acta de escrutinio general",
                        "Acta de proclamación de electos", "según el método D’Hondt",
                        "no ha sido necesario ningún sorteo", "alcanzan el 3,00 %",
                        "En Montehondo, a", "Presidencia: Amparo Sanz")}
        for language, said in texts.items():
            papers("acts", COPY, "out", "--site", "site", "--language", language)
            day, count, proclamation, method, lot, threshold, place, president = said
            for kind, title, more in (("count", count, ""), ("proclamation", proclamation, method)):
                found = paper("out", f"act-{kind}-*-{language}.html").text
                for words in (day, title, more, lot, threshold, place, president,
                              "Board of Montehondo", "Election of Montehondo",
                              "Observer: Diego Luna", "Carmen Soler",
                              "stations-montehondo-2.csv"):
                    with self.subTest(language=language, kind=kind, words=words):
                        self.assertIn(words, found)
                self.assertNotIn("Nobody Here", found)
        # All of the board sign the count; the president and the secretary the proclamation.
        signed = [re.findall('<div class="signer">.*?<bdi>.*?</bdi><br><bdi>(.*?)</bdi>',
                             next(Path("out").glob(f"act-{kind}-*-es.html")).read_text())
                  for kind in ("count", "proclamation")]
        self.assertEqual(signed, [["Amparo Sanz", "Carmen Soler", "Diego Luna", "Eva Cid"],
                                  ["Amparo Sanz", "Eva Cid"]])

    def test_the_annex_has_each_station(self):
        copy_of()
        papers("count", COPY, "out")
        electors = dict(re.findall(r'code = "(.*)"\nelectors = (\d+)', EXAMPLES))
        with RETURNS.open(encoding="utf-8", newline="") as lines:
            rows = list(csv.reader(lines))[1:]
        found = paper("out", "act-count-*")
        for station, _, blank, spoiled, *votes in rows:
            valid = sum(map(int, votes)) + int(blank)
            self.assert_has(found, [station, electors[station], str(valid + int(spoiled)), spoiled,
                                    str(valid), blank, *votes])
        self.assert_has(found, ["Total", "5,387", "3,493", "22", "3,471", "44", "1,235", "1,134",
                                "694", "299", "65"])
        self.assertEqual(len(rows), 15)

    def test_what_is_in_the_margins_of_each_page(self):
        """The hash is that of the published file."""
        copy_of()
        papers("acts", COPY, "out", "--language", "es")
        recorded()
        papers("acts", COPY, "with", "--language", "en", "--record", "commands.log")
        for kind, form in (("count", "Acta de escrutinio general"),
                           ("proclamation", "Acta de proclamación de electos")):
            [page] = [file.read_text() for file in Path("out").glob(f"act-{kind}-*")]
            self.assertEqual(margin(page, "bottom-right"), "Página # de #")
            self.assertEqual(margin(page, "top-left"), f"{form} · \u2068Montehondo\u2069")
            self.assertEqual(margin(page, "bottom-left").split("\n"), [
                f"SHA-256 de las actas: {HASH}", "Versión 2 del resultado · 15 de 15 actas "
                "escrutadas · impreso sin el registro de operaciones"])
            [page] = [file.read_text() for file in Path("with").glob(f"act-{kind}-*")]
            # Fifteen times a lodge and a close, and the certificate, each with its answer.
            self.assertEqual(margin(page, "bottom-left").split("\n")[1],
                             "Edition 2 of the result · 15 of 15 returns closed · record of "
                             "commands up to line 62")

    def test_a_board_that_the_site_does_not_name(self):
        """A president and a secretary sign with their names, on a day that they write in."""
        copy_of()
        papers("acts", COPY, "out")
        for kind in ("count", "proclamation"):
            found = paper("out", f"act-{kind}-*").text
            for words in ("Election of ____ ______________ ______", "President Name:",
                          "Secretary Name:", "In ______________________, on"):
                self.assertIn(words, found)

    def test_a_lot(self):
        """The tie and the lot of docs/GUIDE.md."""
        copy_of(*NOT_DRAWN)
        papers("count", COPY, "out")
        found = paper("out", "act-count-montehondo-1-*")
        self.assertIn("A lot is needed among these lists and has not been recorded: ROBLE, ENCINA.",
                      found.text)
        self.assertIn("the file stations-montehondo-open.csv", found.text)
        copy_of(*DRAWN)
        papers("acts", COPY, "drawn", "--language", "es")
        for kind in ("count", "proclamation"):
            self.assertIn("por sorteo, que ha dado este orden: 1.º ENCINA, 2.º ROBLE.",
                          paper("drawn", f"act-{kind}-*").text)
        found = paper("drawn", "act-proclamation-*")
        # 1,160 of 3,382 are 34.29.. per cent.
        self.assert_has(found, ["1", "ROBLE", "Lista del Roble", "1.160", "34,29 %", "3"],
                        ["2", "ENCINA", "Lista de la Encina", "1.160", "34,29 %", "4"],
                        ["7", "Lista de la Encina", "4", "Hugo Rivas"])
        copy_of(setup_with("threshold = 300", 'threshold = 300\nlot = "alternating"'), *NOT_DRAWN,
                "INSERT INTO lots VALUES ('montehondo', 1, 2), ('montehondo', 2, 1)",
                "UPDATE cons SET edition = 2")
        papers("count", COPY, "turned")
        self.assertIn("For the second seat of a list, the fourth and so on, this order is turned "
                      "round.", paper("turned", "act-count-*").text)

    def test_a_constituency_in_which_no_list_takes_part(self):
        """Its threshold is above each share, so that it is never certified."""
        copy_of(setup_with("threshold = 300", "threshold = 9000"),
                "UPDATE cons SET certified = 0, edition = 1", "DELETE FROM seats")
        papers("count", COPY, "out")
        found = paper("out", "act-count-*")
        self.assertIn("No list takes part in the allotment, so no seat can be allotted.",
                      found.text)
        self.assert_has(found, [*LISTS[0][:5], "no"])

    def test_agents_and_shares_of_the_votes_for_lists(self):
        """1,235 of 3,427 are 36.03.. per cent; turnout is of the electors alone."""
        copy_of(setup_with("electors = 412", "electors = 412\nagents = 7"),
                setup_with('base = "valid"', 'base = "lists"'))
        papers("acts", COPY, "out")
        for kind in ("count", "proclamation"):
            found = paper("out", f"act-{kind}-*")
            self.assert_has(
                found, ["Agents who may vote where they are accredited, at a station on whose roll "
                        "they are not", "7"],
                ["Turnout", "64.84 %"], ["1", "ROBLE", "Lista del Roble", "1,235", "36.03 %",
                                         "yes" if kind == "count" else "4"])
            self.assertIn("Shares are of the votes for lists, ", found.text)
        self.assert_has(paper("out", "act-count-*"), ["01-001-A", "412", "7", "278", "2", "276",
                                                      "4", "120", "85", "40", "22", "5"])

    def test_papers_of_a_trial(self):
        """Each page is marked, by an option or by the name that deploy/desk gives the copy."""
        copy_of()
        shutil.copyfile(COPY, "evening.trial.db")
        papers("acts", COPY, "out", "--trial", "--language", "es")
        papers("acts", "evening.trial.db", "named")
        papers("acts", COPY, "plain")
        for folder, wanted in (("out", "PRUEBA"), ("named", "TRIAL"), ("plain", None)):
            for file in Path(folder).iterdir():
                text = file.read_text(encoding="utf-8")
                found = margin(text, "top-right") if "@top-right" in text else None
                self.assertEqual(found, wanted, file)

    def test_an_edition_after_a_reopening(self):
        """The withdrawn certificate, its reason, a query, who is gone, and an empty seat."""
        copy_of("UPDATE cons SET edition = 4, note = 'recount <of> all'",
                "UPDATE returns SET note = 'HAYA: 6 or 61?', rev = 5 WHERE station = '01-002-A'",
                "INSERT INTO past SELECT con, 2, list, n FROM seats",
                "INSERT INTO gone VALUES ('montehondo', 3, 2, 'resigned')",
                "INSERT INTO gone VALUES ('montehondo', 3, 3, 'died')")
        papers("acts", COPY, "out")
        count = paper("out", "act-count-montehondo-4-*")
        self.assert_has(count, ["1", "Return of station 01-002-A queried", "HAYA: 6 or 61?"],
                        ["2", "Result reopened, and its proclamation withdrawn",
                         "recount <of> all"])
        withdrawn = ("Withdrawn proclamation, edition 2: ROBLE 4, ENCINA 3, HAYA 2, SAUCE 0, "
                     "OLIVO 0")
        found = paper("out", "act-proclamation-montehondo-4-*")
        for text in (count.text, found.text):
            self.assertIn(withdrawn, text)
        self.assertIn("HAYA, place 2: Julián Prado. Reason: resigned HAYA, place 3: Karina Solís. "
                      "Reason: died", found.text)
        self.assert_has(found, ["8", "Lista del Haya", "1", "Inés Campo"],
                        ["9", "Lista del Haya", "–", "(vacant)"])
        self.assertIn("nobody knows whether these vacancies came before this proclamation or after "
                      "it.", found.text)
        self.assertNotIn("No return was queried", count.text)

    def test_a_vacancy_after_the_proclamation(self):
        """Who was proclaimed stays in the act, and who has the seat now is apart. The act is
        beside the one that was signed, which stays as it was."""
        copy_of()
        signed = papers("proclamation", COPY, "out")[0].strip()
        text = Path(signed).read_bytes()
        copy_of("INSERT INTO gone VALUES ('montehondo', 3, 1, 'resigned')")
        out, _ = papers("acts", COPY, "out")
        later = f"{signed.removesuffix('.html')}_1-gone.html"
        self.assertEqual(out.split()[1:], [later])
        self.assertEqual(Path(signed).read_bytes(), text)
        found = paper("out", Path(later).name)
        self.assertEqual([row for row in found.rows if row in ELECTED], ELECTED)
        self.assertIn("Vacancies after this proclamation HAYA, place 1: Inés Campo. Reason: "
                      "resigned These seats now go to: HAYA, place 3: Karina Solís", found.text)
        self.assertNotIn("could no longer", found.text)

    def test_room_for_what_an_office_does_not_know(self):
        """The hours of the meeting, who is present and who does not sign, electors by later
        certificates, and further incidents and dissenting votes: in both languages."""
        copy_of()
        Path("site").mkdir()
        Path("site/site.toml").write_text(BOARD, encoding="utf-8")
        both = {"en": ("Mark who is present.", "Absent, replaced by whom, and why:",
                       "Dissenting votes, corrections and other statements",
                       "Who does not sign, and why:", "The time for complaints is over, or"),
                "es": ("Márquese quién asiste.", "Ausencias y sustituciones, con su causa:",
                       "Votos particulares, rectificaciones y otras manifestaciones",
                       "Quien no firma, y por qué:", "transcurrido el plazo de reclamaciones")}
        of_count = {"en": ("The meeting ended at ______ on", "Further incidents of the meeting",
                           "Electors by later certificates of the roll"),
                    "es": ("Fin de la sesión: a las ______ horas", "Otras incidencias de la sesión",
                           "Electores por certificaciones censales presentadas")}
        for language, texts in both.items():
            papers("acts", COPY, "out", "--site", "site", "--language", language)
            count, found = (paper("out", f"act-{kind}-*-{language}.html")
                            for kind in ("count", "proclamation"))
            for said in texts:
                with self.subTest(said=said):
                    self.assertEqual((said in count.text, said in found.text),
                                     (said != texts[-1], True))
            for said in of_count[language]:
                with self.subTest(said=said):
                    self.assertEqual((said in count.text, said in found.text), (True, False))
            self.assert_has(count, [of_count[language][2], ""])
        [text] = [file.read_text() for file in Path("out").glob("act-count-*-es.html")]
        self.assertEqual(text.count('<li><span class="box"></span>'), 4)

    def test_names_that_turn_the_direction_of_a_text(self):
        """Names and notes are text, each in an element of its own."""
        copy_of(setup_with('"Montehondo"', '"<b>Monte\u202ehondo"'),
                setup_with('"Lista del Roble"', '"Roble </td> & \u2067x"'),
                "UPDATE cons SET note = '<i>why\u202e'")
        papers("acts", COPY, "out")
        for kind in ("count", "proclamation"):
            [text] = [file.read_text() for file in Path("out").glob(f"act-{kind}-*")]
            self.assertEqual(Paper(text).tags & {"b", "i"}, set())
            self.assertIn("<bdi>&lt;b&gt;Monte\u202ehondo</bdi>", text)
            self.assertIn("<bdi>Roble &lt;/td&gt; &amp; \u2067x\u2069</bdi>", text)
            self.assertEqual(margin(text, "top-left").split(" · ")[1],
                             "\u2068<b>Monte\u202ehondo\u2069")
        self.assertIn("<bdi>&lt;i&gt;why\u202e</bdi>",
                      next(Path("out").glob("act-count-*")).read_text())


class Refusals(OfPapers):
    def test_a_copy_that_does_not_agree(self):
        """Nothing is printed, of no kind, and no folder is made."""
        rows = {
            "totals": "UPDATE totals SET n = 1236 WHERE item = 1",
            "seats": "UPDATE seats SET n = n + (CASE list WHEN 1 THEN -1 ELSE 1 END) "
                     "WHERE list < 3",
            "totals, 1 of 15 stations not closed":
                "UPDATE returns SET status = 3 WHERE station = '01-001-A'",
            "a lot of other lists": "INSERT INTO lots VALUES ('montehondo', 1, 2)",
            "past 1": "INSERT INTO past VALUES ('montehondo', 1, 1, 9)",
            "rows that no office has": "INSERT INTO gone VALUES ('montehondo', 5, 2, 'x')",
        }
        for said, statement in rows.items():
            copy_of(statement)
            for kind in ("count", "proclamation", "acts", "doubles"):
                with self.subTest(said=said, kind=kind):
                    self.refuses("refused: constituency montehondo: what is recorded differs when "
                                 f"it is counted again ({said}", kind)
        copy_of("DELETE FROM counts WHERE station = '04-002-A' AND item = 0")
        self.refuses("rows that no office has", "doubles")
        self.refuses("(seats)", "acts", "--language", "es",
                     copy=copy_of("UPDATE seats SET n = 9 - n WHERE list < 3"))

    def test_a_constituency_that_is_not_ready(self):
        copy_of(*taken_out("04-001-B"))
        self.refuses("montehondo: stations that are not closed: 1 of 15; an act needs", "count")
        self.refuses("montehondo: stations that are not closed: 1 of 15", "acts")
        self.refuses("montehondo: it is not certified", "proclamation")
        self.refuses("04-001-B: its return is not closed", "doubles", "--station", "04-001-B")
        self.refuses("no está proclamado", "proclamation", "--language", "es")
        self.refuses("montehondo: it is not certified", "acts", copy=copy_of(*NOT_DRAWN))
        self.refuses("nowhere: the copy has no such constituency", "count", "--con", "nowhere")
        self.refuses("s1: the copy has no such station", "doubles", "--station", "s1")
        every = [one for station in re.findall(r"01-00[123]-.|0[234]-00\d-.", EXAMPLES)
                 for one in taken_out(station)]
        self.refuses("montehondo: no return is closed", "doubles", copy=copy_of(*every))

    def test_what_is_no_copy(self):
        copy_of()
        Path(f"{COPY}-wal").write_bytes(bytes(32))
        self.refuses(f"refused: {COPY}-wal is beside {COPY}, and may have acts", "acts")
        Path("link.db").symlink_to(COPY)
        self.refuses(f"{COPY}-wal is beside link.db, and may have acts", "acts", copy="link.db")
        Path("link.db").unlink()
        Path(f"{COPY}-wal").unlink()
        self.refuses("failed: nonesuch.db is not there", "acts", copy="nonesuch.db", status=2)
        Path("text.db").write_text("no database", encoding="utf-8")
        self.refuses("failed: text.db: ", "acts", copy="text.db", status=2)
        copy_of("UPDATE setup SET version = 1")
        self.refuses("tables of version 1", "acts", status=2)
        copy_of("UPDATE setup SET text = '['")
        self.refuses("failed: copy.db: ", "acts", status=2)
        before = hashlib.sha256(Path(copy_of()).read_bytes()).digest()
        papers("acts", COPY, "out")
        self.assertEqual(hashlib.sha256(Path(COPY).read_bytes()).digest(), before)
        self.assertEqual(sorted(os.listdir()), [COPY, "out", "text.db"])

    def test_words_that_are_wrong(self):
        copy_of()
        for words in (["acts"], ["acts", COPY], ["all", COPY, "out"],
                      ["acts", COPY, "out", "--station", "01-001-A"],
                      ["acts", COPY, "out", "--language", "../es"]):
            with self.subTest(words=words):
                out, error = papers(*words, status=2)
                self.assertEqual((out, "usage: " in error), ("", True))
        self.assertFalse(Path("out").exists())
        out, error = papers("--help")
        self.assertEqual(error, "")
        for words in ("deploy/papers acts office-20261126T221400Z.db acts --con montehondo",
                      "The status is 0"):
            self.assertIn(words, out)
        self.refuses("no texts of the language 'xx'", "acts", "--language", "xx", status=2)
        self.refuses("failed: nonesuch.log is not there", "acts", "--record", "nonesuch.log",
                     status=2)
        self.refuses("failed: nowhere is no folder", "acts", "--site", "nowhere", status=2)

    def test_a_board_that_is_no_board(self):
        copy_of()
        Path("site").mkdir()
        for text in ("board = 3", "board = [3]", 'board = [{name = "Ana"}]', "place = 3",
                     'board = [{name = "Ana", role = ""}]', 'date = "29 November"',
                     'board = [{name = "Ana", role = "member", age = 3}]'):
            Path("site/site.toml").write_text(text, encoding="utf-8")
            with self.subTest(text=text):
                self.refuses("failed: site/site.toml: ", "acts", "--site", "site", status=2)

    def test_papers_that_cannot_be_written(self):
        """No file is left, and one that was there stays."""
        copy_of()
        Path("out").write_text("a file", encoding="utf-8")
        self.assertIn("failed: ", papers("acts", COPY, "out", status=3)[1])
        self.assertEqual(Path("out").read_text(), "a file")
        # The second paper has a folder in its place: the first is taken away again.
        name = f"act-proclamation-montehondo-2-{HASH[:12]}-en.html"
        Path("other", name).mkdir(parents=True)
        self.assertIn("failed: ", papers("acts", COPY, "other", status=3)[1])
        self.assertEqual(os.listdir("other"), [name])
        Path("empty").mkdir()
        said = papers(DEPLOY / "papers", "acts", COPY, "new", "--pdf", status=3,
                      program=sys.executable, env={"PATH": str(Path("empty").resolve())})[1]
        self.assertIn("failed: Chromium is not there: apt-get install chromium", said)
        self.assertFalse(Path("new").exists())


class Doubles(OfPapers):
    def test_a_double_of_each_closed_return(self):
        """Its figures, its sums, and room to sign; of one that is open there is none."""
        copy_of(*taken_out("02-001-A", 2))
        papers("doubles", COPY, "out", "--language", "en")
        found = paper("out", "doubles-montehondo-en.html")
        for row in (["ROBLE", "Lista del Roble", "73"], ["OLIVO", "Lista del Olivo", "3"],
                    ["Votes for lists", "189"], ["Blank votes", "2"], ["Valid votes", "191"],
                    ["Spoiled votes", "1"], ["All votes (voters)", "192"]):
            self.assertIn(row, found.rows)
        self.assertEqual(found.text.count("Presided over the station"), 14)
        self.assertIn("14 of 15 returns closed", found.text)
        self.assertIn("polling station 04-001-B", found.text)
        self.assertNotIn("02-001-A", found.text)

    def test_doubles_of_some_stations(self):
        copy_of()
        Path("site").mkdir()
        Path("site/stations.csv").write_text("station,name\n03-001-A,The <Bridge>\n",
                                             encoding="utf-8")
        out, _ = papers("doubles", COPY, "out", "--station", "03-001-A", "--station", "01-001-B",
                        "--language", "es", "--site", "site")
        self.assertEqual(out, "out/doubles-montehondo-03-001-A-es.html\n")
        found = paper("out", "doubles-*").text
        self.assertEqual(found.count("Presidencia de la mesa"), 2)
        for words in ("Mesa 03-001-A · The <Bridge> Acta r108 · Revisión 2 Electores censados 540",
                      "Mesa 01-001-B Acta r102", "Primera grabación impreso sin el registro"):
            self.assertIn(words, found)

    def test_who_entered_a_return_and_when(self):
        """By the record: its first entry, and the second or whoever closed it."""
        copy_of()
        recorded()
        papers("doubles", COPY, "one", "--station", "01-001-A", "--record", "commands.log")
        self.assertIn("First entry clara, 26 November 2026, 22:14 (+00:00) Closed by bruno, "
                      "26 November 2026, 22:14 (+00:00)", paper("one", "doubles-*").text)
        copy_of(TWICE)
        recorded(second="sara")
        papers("doubles", COPY, "two", "--station", "01-001-A", "--record", "commands.log",
               "--language", "es")
        self.assertIn("Primera grabación clara, 26 de noviembre de 2026, 22:14 (+00:00) Segunda "
                      "grabación sara, 26 de noviembre de 2026, 22:14 (+00:00)",
                      paper("two", "doubles-*").text)

    def test_no_double_before_the_second_entry(self):
        """Of a constituency with two entries a return that was entered once has none, whatever
        revision it has."""
        for status in (1, 2, 3):
            with self.subTest(status=status):
                copy_of(TWICE, *taken_out("01-001-A", status))
                self.refuses("01-001-A: its return is not closed", "doubles", "--station",
                             "01-001-A")
                papers("doubles", COPY, f"out{status}")
                self.assertNotIn("01-001-A", paper(f"out{status}", "doubles-*").text)


class Languages(OfPapers):
    def test_each_language_has_each_text(self):
        found = [tomllib.loads((DEPLOY / f"papers_{language}.toml").read_text(encoding="utf-8"))
                 for language in ("en", "es")]
        self.assertEqual(list(found[0]), list(found[1]))

    def test_a_language_of_a_board(self):
        """Its file is beside the tool; a fault of it is named, and nothing is printed."""
        copy_of()
        with copy_of_deploy() as folder:
            shutil.copy(ROOT / "examples/recount.py", folder)
            text = (folder / "papers_es.toml").read_text(encoding="utf-8")
            file, tool = folder / "papers_nl.toml", folder / "papers"
            for old, new, said in (
                    ('lot = "Sorteo"\n', "", "lot: it is missing"),
                    ('lot = "Sorteo"\n', 'lot = ""\nloot = ""\n', "loot: there is no such key"),
                    ('lot = "Sorteo"\n', 'lot = 3\n', "lot: not of the kind"),
                    ("de {con}", "de {kon}", "of_con: its places are not {con}"),
                    ("de {con}", "de", "of_con: its places are not {con}"),
                    ("de {con}", "de {con} {", "of_con: its places are not {con}"),
                    ("de {con}", "de {con.code}", "of_con: its places are not {con}"),
                    ('"enero", ', "", "months: not 12 texts"),
                    ('"enero", ', "1, ", "months: not 12 texts"),
                    ('\nhare = "', '\nhaar = "', "methods.haar: there is no such key"),
                    ('lot = "Sorteo"\n', 'lot = "\n', "papers_nl.toml: ")):
                file.write_text(text.replace(old, new, 1), encoding="utf-8")
                with self.subTest(new=new):
                    error = papers("acts", COPY, "out", "--language", "nl", status=2,
                                   program=tool)[1]
                    self.assertEqual((error.count("\n"), said in error), (1, True), error)
                    self.assertFalse(Path("out").exists())
            for old, new in (('lot = "Sorteo"', "lot = '<b>Loting</b> & \"'"),
                             ('page = "Página', "page = \"\\\"; </style><i> Blad"),
                             ("Junta Electoral\"", "Kiesraad <u>\"")):
                self.assertIn(old, text)
                text = text.replace(old, new, 1)
            file.write_text(text, encoding="utf-8")
            papers("acts", COPY, "out", "--language", "nl", program=tool)
        for kind in ("count", "proclamation"):
            [page] = [one.read_text(encoding="utf-8")
                      for one in Path("out").glob(f"act-{kind}-*-nl.html")]
            self.assertIn("<h2>&lt;b&gt;Loting&lt;/b&gt; &amp; &#34;</h2>", page)
            self.assertIn('<p class="authority">Kiesraad &lt;u&gt;</p>', page)
            self.assertEqual(margin(page, "bottom-right"), '"; </style><i> Blad # de #')
            self.assertEqual(page.count("</style>"), 1)
            self.assertEqual(Paper(page).tags & {"i", "u", "b"}, set())

    def test_the_texts_of_a_site_in_another_language(self):
        """The site's own title and authority in the language that is asked for."""
        copy_of()
        Path("site").mkdir()
        Path("site/site.toml").write_text(
            'language = "es"\ntitle = "Elecciones"\nauthority = "Junta"\nplace = "Montehondo"\n'
            '[es]\nauthority = "Junta de Zona"\n'
            '[en]\ntitle = "The election"\nauthority = "The board of the zone"\n'
            '[nl]\ntitle = 3\n', encoding="utf-8")
        for language, head in (("es", "Junta de Zona Elecciones"),
                               ("en", "The board of the zone The election")):
            papers("proclamation", COPY, "out", "--site", "site", "--language", language)
            found = paper("out", f"act-proclamation-*-{language}.html").text
            self.assertTrue(found.startswith(head), found[:80])
            self.assertIn("In Montehondo, on" if language == "en" else "En Montehondo, a", found)
        self.refuses_texts("title is 3", "nl")

    def refuses_texts(self, said, language):
        """A fault in the site's own texts of a language that only papers have."""
        error = papers("acts", COPY, "no", "--site", "site", "--language", language, status=2)[1]
        self.assertIn(said, error)

    def test_a_template_of_a_board(self):
        copy_of()
        Path("site/templates").mkdir(parents=True)
        Path("site/templates/act_count.html").write_text(
            '{% extends "office/act_count.html" %}{% block main %}<p>Number {{ con.edition }}</p>'
            "{{ super() }}{% endblock %}", encoding="utf-8")
        papers("acts", COPY, "out", "--site", "site")
        self.assertIn("Number 2 Electoral Board", paper("out", "act-count-*").text)
        Path("site/templates/act_count.html").write_text("{{ nonesuch }}", encoding="utf-8")
        shutil.rmtree("out")
        self.refuses("failed: 'nonesuch' is undefined", "acts", "--site", "site", status=2)


class Linked(OfPages):
    """The page of a constituency links the acts of its certificate, and no others."""

    def test_acts_of_a_certificate(self):
        self.publish(TWIN)
        digest = hashlib.sha256(Path("pages/stations-c1-3.csv").read_bytes()).hexdigest()[:12]
        self.assertNotIn("The acts of the board", self.pages()["con-c1.html"])
        right = [f"act-count-c1-3-{digest}-en.pdf", f"act-proclamation-c1-3-{digest}-es.pdf"]
        for name in (*right, f"act-count-c1-2-{digest}-en.pdf", f"act-count-c1-13-{digest}-en.pdf",
                     "act-count-c1-3-000000000000-en.pdf", f"act-other-c1-3-{digest}-en.pdf",
                     f"act-count-c-1-3-{digest}-en.pdf", f"act-count-c1-3-{digest}-en.html",
                     f"act-proclamation-c1-3-{digest}-es_1-gone.pdf"):
            Path("pages", name).write_bytes(b"%PDF-")
        self.publish(TWIN)
        page = self.pages()["con-c1.html"]
        self.assertEqual(re.findall('href="(act-.*?)">(.*?)<', page), [
            (right[0], "Act of the general count (PDF, en)"),
            (right[1], "Act of proclamation (PDF, es)")])
        # After a reopening it links none, and the files stay.
        self.publish(REOPENED)
        self.assertEqual(re.findall('href="act-', self.pages()["con-c1.html"]), [])
        self.assertTrue(Path("pages", right[0]).exists())


class Printed(OfPapers):
    @needs("chromium", "pdfinfo", "pdftotext", "pdftoppm")
    def test_the_acts_as_sheets(self):
        """The count has the result, incidents with complaints, signatures, and the stations; the
        proclamation the result, the elected with complaints, and appeals with signatures."""
        copy_of()
        for language, of_page in (("en", "Page {} of {}"), ("es", "Página {} de {}")):
            out, _ = papers("acts", COPY, "out", "--language", language, "--pdf")
            for name in out.split():
                sheets = printed(name)
                wanted = 4 if "act-count" in name else 3
                self.assertEqual((len(sheets), Path(name).suffix), (wanted, ".pdf"))
                for number, sheet in enumerate(sheets, 1):
                    with self.subTest(name=name, number=number):
                        self.assertIn(of_page.format(number, wanted), sheet.text)
                        self.assertIn(HASH, sheet.text)
                        self.assertTrue(sheet.has_white_edges())

    @needs("chromium", "pdfinfo", "pdftotext", "pdftoppm")
    def test_no_row_is_cut(self):
        """Of sixty lists and forty stations with names of several lines each row is whole on one
        sheet, and above what is at its foot."""
        copy_of(*large(60, 40))
        Path("site").mkdir()
        Path("site/stations.csv").write_text("station,name\n" + "".join(
            f"s{n:02},{'School of the Lady with its Yard and Stairs ' * 6}end{n:02}\n"
            for n in range(1, 41)), encoding="utf-8")
        out, _ = papers("count", COPY, "out", "--site", "site", "--pdf", "--language", "es")
        sheets = printed(out.strip())
        self.assertTrue(all(sheet.has_white_edges() for sheet in sheets))
        # A station is in a table of ten lists, and in four more of fifteen each at most.
        found = [row for sheet in sheets for row in rows_in(sheet, r"s\d\d")]
        self.assertEqual(sorted(found), sorted(
            (f"s{n:02}", f"end{n:02}") for n in range(1, 41) for _ in range(5)))
        # No head of a table is alone at the end of a sheet.
        for number, sheet in enumerate(sheets, 1):
            heads, rows = ([bottom for word, bottom in sheet.words if re.fullmatch(wanted, word)]
                           for wanted in (r"Mesa|\(otras", r"s\d\d"))
            with self.subTest(number=number):
                self.assertTrue(not heads or max(heads) < max(rows, default=0))
        lists = [row for sheet in sheets
                 for row in rows_in(sheet, r"LIST-OF-MANY-\d\d", r"no\d\d") if row[1]]
        self.assertEqual(lists, [(f"LIST-OF-MANY-{n:02}", f"no{n:02}") for n in range(1, 61)])

    @needs("chromium", "pdfinfo", "pdftotext", "pdftoppm")
    def test_doubles_are_a_sheet_each(self):
        copy_of(*large(12, 5))
        out, _ = papers("doubles", COPY, "out", "--pdf")
        sheets = printed(out.strip())
        self.assertEqual([re.findall(r"polling station (s\d\d)", sheet.text) for sheet in sheets],
                         [[f"s{n:02}"] for n in range(1, 6)])
