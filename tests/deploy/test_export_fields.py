"""The fields of files that `deploy/export` writes, each at its width, and the words of formats.

Elections are made by hand, and nothing is started: test_export has the files of what was published.
"""

import json
import xml.etree.ElementTree as ET
from collections import Counter
from datetime import date
from pathlib import Path
from types import SimpleNamespace

from tests.support.case import Case
from tests.support.scripts import module

data, eml, nist, spain = (module(f"export_{name}") for name in ("data", "eml", "nist", "spain"))
MARKS = SimpleNamespace(say=lambda key, **_: key)
EML = "{urn:oasis:names:tc:evs:schema:eml}"
KEY = {"station": "s1", "community": "8", "province": "5", "municipality": "1", "district": "1",
       "section": "1", "table": "A"}
HEAD = ",".join(KEY) + "\n"


def con_of(code, closed=2, certified=False, elected=(), left=()):
    """Two lists and two stations, of which some are closed: A has 3 votes in each and B 2, of 10
    electors; one vote is blank, and none spoiled."""
    lists = [{"code": "A", "name": "Alpha", "candidates": ["Ana", "Abel"]},
             {"code": "B", "name": "Beta", "candidates": ["Bea"]}]
    stations = [{"code": f"{code}-s{n}", "electors": 10} for n in (1, 2)]
    returns = {one["code"]: data.Return(one["code"], 1, 0, [3, 2]) for one in stations[:closed]}
    con = data.Con({"code": code, "name": f"Town {code}", "seats": 3, "lists": lists,
                    "stations": stations}, {}, certified, returns, list(elected), set(left))
    con.published = con.sums
    return con


HELD = [("A", 1, "Ana"), ("A", None, None), ("B", 1, "Bea")]


def election_of(*cons, authority="The board"):
    return data.Election("An election", authority, "2026-11-29T23:00:00+01:00", date(2026, 11, 29),
                         list(cons), {"c1-s1": {"name": "School"}, "c1-s2": {"name": ""}})


class Sums(Case):
    def test_what_differs(self):
        """A number that is not there is 0."""
        for found, published, wanted in (
                ({}, {}, None), ({"a": 0}, {}, None), ({}, {"a": 0}, None),
                ({"a": 1}, {"a": 1}, None),
                ({"a": 1}, {}, (1, 0)), ({}, {"a": 1}, (0, 1)), ({"a": 1}, {"a": 2}, (1, 2))):
            with self.subTest(found=found, published=published):
                if wanted is None:
                    data.compare("file", "c1", found, published)
                    continue
                with self.assertRaises(data.Refused) as refused:
                    data.compare("file", "c1", found, published)
                values = refused.exception.values
                self.assertEqual((values["found"], values["published"]), wanted)

    def test_the_sums_of_a_constituency(self):
        """By hand: 6 votes for A and 4 for B, 2 blank ones, of 20 electors."""
        con = con_of("c1", certified=True, elected=HELD)
        self.assertEqual(con.sums, {
            ("closed", ""): 2, ("electors", ""): 20, ("valid", ""): 12, ("blank", ""): 2,
            ("spoiled", ""): 0, ("votes", "A"): 6, ("votes", "B"): 4, ("seats", "A"): 2,
            ("seats", "B"): 1})
        self.assertEqual((con.total.papers, con_of("c1", closed=0).total.votes), (12, [0, 0]))
        self.assertEqual(con_of("c1").seats, {})
        self.assertEqual(election_of(con, con_of("c2")).empty, {"c1": {("seats", "A"): 1}})
        cons = [con_of("c1", left="A"), con_of("c2"), con_of("c3", left="B")]
        self.assertEqual(data.vacated(cons), "c1, c3")

    def test_lists_of_which_somebody_has_left(self):
        """Who was gone before a certificate that gives the list fewer seats is nobody's holder."""
        def gone(*places):
            return [{"list": "A", "place": place} for place in places]

        two = [("A", 1, "Ana"), ("A", 2, "Abel")]
        for of, elected, is_left in (
                ((), two, False), ((3,), two, False), ((2,), two[:1], False), ((1,), (), False),
                ((1,), two[1:], True), ((2,), [two[0], ("A", 3, "Ada")], True),
                ((1, 2), [("A", None, None)], True), ((2,), [("B", 3, "Bea"), two[0]], False)):
            with self.subTest(gone=of, elected=elected):
                self.assertEqual(data.lists_left(gone(*of), elected), {"A"} if is_left else set())

    def test_the_rows_of_a_constituency(self):
        """Seats are of certified ones alone; each row has the same sums of the whole."""
        whole = {"closed": "2", "electors": "20", "valid": "12", "blank": "2", "spoiled": "0",
                 "edition": "2", "certified": "true"}
        rows = [whole | {"list": "A", "votes": "6", "seats": "2"},
                whole | {"list": "B", "votes": "4", "seats": "1"}]
        con = con_of("c1", certified=True, elected=HELD)
        self.assertEqual(data.published_sums(rows), con.sums)
        self.assertEqual(data.published_sums([row | {"certified": "false"} for row in rows]),
                         con_of("c1").sums)
        # Of one list there is one row.
        self.assertEqual(data.published_sums(rows[:1])["votes", "A"], 6)
        for key, value in whole.items():
            with self.subTest(key=key):
                other = "false" if key == "certified" else f"{value}1"
                wrong = [rows[0], rows[1] | {key: other}]
                self.assertRaises(ValueError, data.published_sums, wrong)

    def test_numbers_and_codes_of_a_setup(self):
        for old, new, is_taken in (
                ('"seats": 3', '"seats": 1', True), ('"seats": 3', '"seats": 0', False),
                ('"electors": 10', '"electors": 1', True),
                ('"electors": 10', '"electors": 0', False),
                ('"electors": 10', '"electors": true', False),
                ('"code": "A"', '"code": "A b"', False),
                ('"code": "c1-s2"', '"code": ""', False), ('"code": "c1"', '"code": "c/1"', False)):
            with self.subTest(new=new):
                text = json.dumps([con_of("c1").setup])
                self.assertIn(old, text)
                setup = json.loads(text.replace(old, new))
                if is_taken:
                    data.check_setup(setup)
                else:
                    self.assertRaises(ValueError, data.check_setup, setup)
        for text, is_one in (("0", True), ("9" * 10, True), ("1" * 11, False), ("-1", False),
                             ("", False), ("1.0", False), ("٣", False)):
            with self.subTest(text=text):
                if is_one:
                    self.assertEqual(data.number(text), int(text))
                else:
                    self.assertRaises(ValueError, data.number, text)

    def test_who_is_elected_where_all_are(self):
        """The first candidates who are not gone, as many as the list has seats; where there are no
        more a seat is empty. Others are of another setup, or of nobody's act."""
        lists = [{"code": "A", "name": "Alpha", "candidates": ["Ana", "Abel", "Ada"]}]
        state = {"tally": {"name": "Town", "lists": [{"code": "A", "name": "Alpha"}]},
                 "rule": {"seats": 2},
                 "view": {"certified": True, "edition": 2, "gone": []},
                 "seats": {"seats": {"A": 2}}}
        setup = {"code": "c1", "name": "Town", "seats": 2, "lists": lists,
                 "stations": [{"code": "s1", "electors": 10}]}
        sums = {("closed", ""): 0, ("electors", ""): 10, ("valid", ""): 0, ("blank", ""): 0,
                ("spoiled", ""): 0, ("votes", "A"): 0, ("seats", "A"): 2}
        self.assertRaises(data.Refused, data.read_con, SimpleNamespace(
            last="con-c1.json", json=lambda _: state), setup | {"seats": 3}, {
                "certified": "true", "edition": "2"}, sums)
        ana, abel, ada, nobody = (1, "Ana"), (2, "Abel"), (3, "Ada"), (None, None)
        row = {"certified": "true", "edition": "2"}
        for gone, held, is_taken in (
                ((), [ana, abel], True), ((2,), [ana, ada], True), ((1, 2), [ada, nobody], True),
                ((1, 2, 3), [nobody, nobody], True),
                ((), [ana, ada], False), ((), [abel, ana], False), ((), [ana, nobody], False),
                ((), [ana, (2, "Ana")], False), ((2,), [ana, abel], False), ((), [ana], False)):
            with self.subTest(gone=gone, held=held):
                view = state["view"] | {"gone": [{"list": "A", "place": one} for one in gone]}
                of = state | {"view": view, "holders": [
                    {"list": "A", "place": place, "name": name} for place, name in held]}
                pages = SimpleNamespace(last="con-c1.json", json=lambda _, of=of: of)
                if is_taken:
                    self.assertEqual(data.read_con(pages, setup, row, sums).elected,
                                     [("A", *who) for who in held])
                else:
                    self.assertRaises(data.Refused, data.read_con, pages, setup, row, sums)


class Words(Case):
    """The words of formats, beside the numbers."""

    def report(self, *cons, **how):
        return json.loads(nist.report(election_of(*cons, **how), MARKS))

    def test_how_far_the_count_is(self):
        done = con_of("c1", certified=True, elected=HELD)
        for others, wanted in (((), "certified"), ((con_of("c2"),), "unofficial-complete"),
                               ((con_of("c2", closed=1),), "unofficial-partial")):
            with self.subTest(wanted=wanted):
                report = self.report(done, *others)
                self.assertEqual(report["Status"], wanted)
                self.assertEqual([one["CountStatus"][0]["Status"] for one in
                                  report["Election"][0]["Contest"]],
                                 ["completed"] + ["in-process" if wanted.endswith("partial")
                                                  else "completed"] * len(others))

    def test_a_report_of_nist(self):
        report = self.report(con_of("c1", certified=True, elected=HELD, left="A"))
        self.assertEqual([report[key] for key in (
            "SequenceStart", "SequenceEnd", "Issuer", "Notes", "GeneratedDate")],
            [1, 1, "The board", "mark vacated", "2026-11-29T23:00:00+01:00"])
        [election] = report["Election"]
        [contest] = election["Contest"]
        self.assertEqual((contest["VotesAllowed"], contest["NumberElected"]), (1, 3))
        self.assertEqual([(one["SequenceOrder"], one["CandidateIds"]) for one in
                          contest["ContestSelection"]],
                         [(1, ["candidate.c1.A.1", "candidate.c1.A.2"]), (2, ["candidate.c1.B.1"])])
        winners = [one["@id"] for one in election["Candidate"] if "PostElectionStatus" in one]
        self.assertEqual(winners, ["candidate.c1.A.1", "candidate.c1.B.1"])
        # Without an authority the title is the issuer; without a vacancy there is no such note.
        plain = self.report(con_of("c1"), authority="")
        self.assertEqual((plain["Issuer"], plain["Notes"]), ("An election", "mark"))

    def test_a_result_of_eml(self):
        """A list without a seat has none elected; the mark of who left is of its list alone."""
        con = con_of("c1", certified=True, elected=HELD[:2], left="A")
        text = eml.result(election_of(con), MARKS)
        found = ET.fromstring(text.encode())
        self.assertEqual(found.findtext(f"{EML}TransactionId"), "1")
        self.assertEqual([one.findtext(f"{EML}Elected") for one in found.iter(f"{EML}Selection")],
                         ["yes", "yes", "no"])
        self.assertEqual((text.count("<!-- left -->"), text.count("<!-- empty_seat -->")), (1, 1))
        self.assertLess(text.index("<!-- left -->"), text.index("<!-- empty_seat -->"))
        self.assertLess(text.index("<!-- empty_seat -->"), text.index(">Beta<"))
        self.assertEqual(eml.seats_in(text.encode(), {"c1": Counter({("seats", "A"): 1})}),
                         {"c1": {("seats", "A"): 2}})

    def test_an_authority_that_is_not_named(self):
        for authority in ("The board", ""):
            text = eml.count(election_of(con_of("c1"), authority=authority), MARKS)
            self.assertEqual("ManagingAuthority" in text, bool(authority))


class Fields(Case):
    """Of the ministry's files."""

    def refused(self, key, act, *words):
        with self.assertRaises(data.Refused) as found:
            act(*words)
        self.assertEqual(found.exception.key, key)
        return found.exception.values

    def test_numbers(self):
        self.assertEqual([spain.of_digits(n, 3, "s1") for n in (0, 7, 999)], ["000", "007", "999"])
        self.assertEqual(self.refused("too_wide", spain.of_digits, 1000, 3, "s1"),
                         {"what": "s1", "value": 1000, "length": 4, "width": 3})

    def test_letters(self):
        """Those of the encoding that are no controls."""
        for letter, is_taken in ((" ", True), ("\x1f", False), ("~", True), ("\x7f", False),
                                 ("\x9f", False), ("\xa0", True), ("ÿ", True), ("Ā", False)):
            with self.subTest(letter=letter):
                if is_taken:
                    self.assertEqual(spain.of_letters(f"a{letter}", 4, "A"), f"a{letter}  ")
                else:
                    self.assertEqual(self.refused("no_letter", spain.of_letters, letter, 4, "A")[
                        "letter"], f"U+{ord(letter):04X}")
        self.assertEqual(spain.of_letters("abcd", 4, "A"), "abcd")
        self.assertEqual(self.refused("too_wide", spain.of_letters, "abcde", 4, "A")["length"], 5)

    def test_codes_of_a_station(self):
        """With zeros in front; a section has three digits and perhaps a letter or a fourth one."""
        fields = {"community": "08", "province": "05", "municipality": "001", "district": "01",
                  "section": "001 ", "table": "A"}
        for name, value, wanted in (
                ("section", "1", "001 "), ("section", "12", "012 "), ("section", "012B", "012B"),
                ("section", "1234", "1234"), ("municipality", "999", "999"), ("table", " U ", "U")):
            with self.subTest(name=name, value=value):
                self.assertEqual(spain.of_key(KEY | {name: value}, "file"),
                                 "".join((fields | {name: wanted}).values()))
        for name, value in (("community", "123"), ("province", "x"), ("municipality", "1234"),
                            ("district", ""), ("district", None), ("section", "12345"),
                            ("section", "001b"), ("section", "12B"), ("table", "a"),
                            ("table", "AB"), ("table", "")):
            with self.subTest(name=name, value=value):
                found = self.refused("code", spain.of_key, KEY | {name: value}, "file")
                self.assertEqual((found["column"], found["station"]), (name, "s1"))

    def test_a_table_of_codes(self):
        """With commas or semicolons; of a row that is short the other cells are empty."""
        file, row = Path("codes.csv"), ",".join(KEY.values())
        for text, wanted in (
                (f"{HEAD}{row}\n", [KEY]), (f"\ufeff{HEAD}\n{row}\n\n".replace(",", ";"), [KEY]),
                (f"{HEAD}s1,8\n", [dict.fromkeys(KEY, "") | {"station": "s1", "community": "8"}]),
                (f"note,{HEAD}\"a;b\",{row}\n", [{"note": "a;b"} | KEY]), (HEAD, [])):
            with self.subTest(text=text):
                file.write_text(text, encoding="utf-8")
                self.assertEqual(spain.read_rows(file), wanted)
        file.write_text(HEAD.replace("section,", "").replace("district,", "") + "\n")
        found = self.refused("no_column", spain.read_rows, file)
        self.assertEqual(found["columns"], "district, section")

    def test_numbers_of_lists(self):
        """One for each code with its name; the first one of a code is the head of the others."""
        cons = [con_of("c1"), con_of("c2")]
        cons[1].setup["lists"] = [cons[1].lists[1], cons[1].lists[0] | {"name": "Other"}]
        numbers = spain.numbers_of(election_of(*cons))
        self.assertEqual(numbers, {("A", "Alpha"): 1, ("B", "Beta"): 2, ("A", "Other"): 3})
        rows = list(spain.of_lists(numbers, "02202611"))
        self.assertEqual([(row[8:14], row[14:64].rstrip(), row[64:214].rstrip(), row[214:])
                          for row in rows],
                         [("000001", "A", "Alpha", "000001" * 3),
                          ("000002", "B", "Beta", "000002" * 3),
                          ("000003", "A", "Other", "000001" * 3)])

    def test_lines_of_another_width(self):
        self.assertEqual(spain.rows_of(b"abc\r\nd\xf1f\r\n", 3), ["abc", "dñf"])
        for text in (b"abc\r\nde\r\n", b"abcd\r\nabc\r\n"):
            self.assertRaises(ValueError, spain.rows_of, text, 3)

    def test_what_is_read_again(self):
        """The sums of what was written, by the places of the fields: one has numbers that fill
        them."""
        election = election_of(con_of("c1", certified=True), con_of("c2", closed=1))
        election.cons[0].returns["c1-s2"] = data.Return("c1-s2", 1_234_567, 2_345_678,
                                                        [3_456_789, 4_567_891])
        keys = {code: spain.of_key(KEY | {"section": str(n)}, "file") for n, code in enumerate(
            (code for con in election.cons for code in con.returns), 1)}
        files = spain.files(election, keys, "02")
        self.assertEqual([name for name, _ in files.values()],
                         ["03022611.DAT", "09022611.DAT", "10022611.DAT"])
        found = spain.sums_in(*(files[what][1] for what in spain.FILES), election, keys)
        self.assertEqual(found, {
            "c1": {("closed", ""): 2, ("blank", ""): 1_234_568, ("spoiled", ""): 2_345_678,
                   ("valid", ""): 6 + 1_234_567 + 3_456_789 + 4_567_891,
                   ("votes", "A"): 3_456_792, ("votes", "B"): 4_567_893},
            "c2": {("closed", ""): 1, ("blank", ""): 1, ("spoiled", ""): 0, ("valid", ""): 6,
                   ("votes", "A"): 3, ("votes", "B"): 2}})
