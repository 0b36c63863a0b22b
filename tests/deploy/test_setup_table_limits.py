"""Tables at their limits: the last value that is taken, and the first one that is not.

    python3 -m unittest tests.deploy.test_setup_table_limits
"""

import re
import tomllib
from types import SimpleNamespace
from unittest import mock

from tests.support.scripts import module
from tests.support.tables_case import COLUMNS, SETUP, TABLES, TOOL_MODULE, Case

limits, tables = TOOL_MODULE.limits, module("setup_tables")
ANY = '[rules]\ncandidates = "any"\n'
PROFILE = '[[profile]]\ncode = "{}"\nmethod = "dhondt"\nthreshold = {}\nbase = "valid"\n'
AGREES = "published.csv agrees in: {}\n"


class OfTables(Case):
    def said(self, *words, status=0):
        """Standard error, with a rule."""
        return self.run_tool("--rule", "loreg", *words, self.folder, status=status)[1]

    def edited(self, *edits, columns=COLUMNS):
        """The tables with these edits, each of one table."""
        found = dict(TABLES)
        for name, old, new in edits:
            self.assertIn(old, found[name])
            found[name] = found[name].replace(old, new)
        self.write(found, columns)

    def faults(self):
        """The lines of faults, without those on how a table was read."""
        return [line for line in self.refused() if ", line ends " not in line]

    def taken(self, is_taken, said):
        """The setup is made, or else refused with a fault of these words alone."""
        if is_taken:
            self.said()
        else:
            found, *rest = self.faults()
            self.assertEqual((said in found, rest),
                             (True, ["refused, and no setup was written; faults: 1"]), found)


class Numbers(OfTables):
    def test_numbers_of_rows(self):
        """The least and the most of each are taken."""
        for name, old, new, is_taken, said in (
                ("constituencies.csv", "Town,3", "Town,500", True, ""),
                ("constituencies.csv", "Town,3", "Town,501", False, "seats is 501, and not a num"),
                ("stations.csv", "s2,400", "s2,1", True, ""),
                ("stations.csv", "s2,400", f"s2,{'9' * 9000}", False, "not a number from 1 to"),
                ("stations.csv", "300,2", "300,1000", True, ""),
                ("stations.csv", "s2,400,", "s2,1000000,", True, ""),
                ("lists.csv", "c1,1,PA", "c1,0,PA", True, ""),
                ("lists.csv", "c1,2,PB", "c1,1000000,PB", True, "")):
            with self.subTest(name=name, new=new):
                self.edited((name, old, new), columns=ANY)
                self.taken(is_taken, said)

    def test_a_name_of_eighty_bytes(self):
        for name, is_taken in (("ñ" * 40, True), ("ñ" * 40 + "x", False)):
            with self.subTest(name=name):
                self.edited(("constituencies.csv", "Twin Town", name))
                self.taken(is_taken, "name has 81 bytes, and 80 is the limit: ñ")

    def test_lists_of_a_constituency(self):
        for number in (60, 61):
            with self.subTest(number=number):
                lists = "".join(f"c1,{n},P{n},List {n}\n" for n in range(3, number + 1))
                candidates = "".join(f"c1,P{n},1,T,Ana N{n}\n" for n in range(3, number + 1))
                self.write(TABLES | {"lists.csv": TABLES["lists.csv"] + lists,
                                     "candidates.csv": TABLES["candidates.csv"] + candidates}, ANY)
                self.taken(number == 60, "lists.csv, row 64: the constituency c1 has more than 60 ")

    def test_candidates_of_a_list(self):
        """Substitutes among them."""
        for number in (1000, 1001):
            with self.subTest(number=number):
                more = "".join(f"c1,PA,{n},T,Ana N{n}\n" for n in range(4, number))
                self.edited(("candidates.csv", "c1,PA,1,S,Ada Alto\n", more + "c1,PA,1,S,Ada\n"),
                            columns=ANY)
                self.taken(number == 1000, "lists.csv, row 2: the list PA has more than 1000 cand")

    def test_how_many_substitutes_the_rules_allow(self):
        """Without a rule any number of them."""
        for rule, number, is_taken in (("[1, 2]", 2, True), ("[1, 2]", 3, False),
                                       ("[0, 1]", 0, True), ("[0, 0]", 0, True), (None, 0, True),
                                       (None, 9, True)):
            with self.subTest(rule=rule, number=number):
                one = "".join(f"c1,PA,{n},S,Ada N{n}\n" for n in range(1, number + 1))
                candidates = re.sub(".*,S,.*\n", "" if rule != "[1, 2]" else r"\g<0>",
                                    TABLES["candidates.csv"])
                candidates = candidates.replace("c1,PA,1,S,Ada Alto\n", "") + one
                self.write(TABLES | {"candidates.csv": candidates},
                           f"[rules]\nsubstitutes = {rule}\n" if rule else "")
                self.taken(is_taken, "the list PA has 3 substitutes, and columns.toml allows 1 to")

    def test_stations_of_a_size(self):
        """Here two stations are the most of an ordinary constituency, and three of a large one."""
        header = ("constituencies.csv", "name,seats", "name,seats,size")
        for number, size, is_taken, written in (
                (2, "", True, None), (2, "normal", True, None), (2, "large", True, None),
                (3, "", True, "large"), (3, "normal", False, None), (4, "large", False, None),
                (4, "", False, None)):
            with self.subTest(number=number, size=size):
                more = "".join(f"c1,x{n},300,\n" for n in range(2, number))
                self.edited(header, ("constituencies.csv", "Town,3", f"Town,3,{size}"),
                            ("constituencies.csv", "Hill,2", "Hill,2,"),
                            ("stations.csv", "c2,s3", more + "c2,s3"))
                most = 2 if size == "normal" else 3
                with mock.patch.dict(limits.MOST_STATIONS, normal=2, large=3):
                    self.taken(is_taken, f"constituencies.csv, row 2: the constituency c1 has "
                                         f"{number} stations, and {most} is the limit")
                    if is_taken:
                        [con, _] = tomllib.loads(self.made())["constituency"]
                        self.assertEqual(con.get("size"), written)

    def test_electors_and_agents(self):
        """Of a station a million, and of a constituency as many as an office takes: c1 has 702."""
        for old, new, is_taken in (("300,2", "999998,2", True), ("300,2", "999999,2", False)):
            with self.subTest(new=new):
                self.edited(("stations.csv", old, new))
                self.taken(is_taken, "row 2: electors and agents together are more than 1000000")
        self.write()
        for most in (702, 701):
            with self.subTest(most=most), mock.patch.object(limits, "MOST_PAPERS", most):
                self.taken(most == 702, "row 2: the stations of the constituency c1 have more than "
                                        "701 electors and agents")

    def test_what_one_office_takes(self):
        """Its constituencies and the bytes of the text; a setup that is divided may have more."""
        self.write()
        bytes_of = len(SETUP.encode())
        for name, most, is_taken, said in (
                ("MOST_CONSTITUENCIES", 2, True, ""),
                ("MOST_CONSTITUENCIES", 1, False, "constituencies.csv, row 3: 2 constituencies, "
                                                  "and an office takes 1: give --divided"),
                ("MOST_BYTES", bytes_of, True, ""),
                ("MOST_BYTES", bytes_of - 1, False, f"stations.csv: the setup has {bytes_of} bytes"
                                                    f", and an office takes {bytes_of - 1}: give")):
            with self.subTest(name=name, most=most), mock.patch.object(limits, name, most):
                self.taken(is_taken, said)
                self.assertEqual(self.made("--divided"), SETUP)

    def test_numbers_of_rules(self):
        """At most 200 rules, those of --rule among them, and a threshold of at most the whole."""
        for number, words, is_taken in ((200, (), True), (201, (), False),
                                        (198, ("--rule", "loreg"), True),
                                        (199, ("--rule", "loreg"), False)):
            with self.subTest(number=number, words=words):
                heads = TABLES["constituencies.csv"].replace("seats", "seats,profile")
                self.write(TABLES | {"constituencies.csv": re.sub(r",(\d)\n", r",\1,p1\n", heads)},
                           COLUMNS + "".join(PROFILE.format(f"p{n}", 0) for n in range(number)))
                said = self.run_tool(*words, self.folder, status=0 if is_taken else 1)[1]
                self.assertEqual("columns.toml: there are more than 200 rules\n" in said,
                                 not is_taken, said)
        for threshold, is_taken in ((0, True), (10_000, True), (10_001, False), (-1, False)):
            with self.subTest(threshold=threshold):
                self.write(columns=COLUMNS + PROFILE.format("p", threshold))
                said = self.run_tool(self.folder, status=0 if is_taken else 1)[1]
                self.assertEqual(f"threshold is {threshold}, and not 0 .. 10000" in said,
                                 not is_taken)

    def test_how_many_faults_are_shown(self):
        """A hundred; of one more it is said that there is one."""
        for number, more in ((100, []), (101, [".. and 1 more"])):
            with self.subTest(number=number):
                rows = "".join(f"c1,x{n},0,\n" for n in range(number))
                self.write(TABLES | {"stations.csv": TABLES["stations.csv"] + rows})
                self.assertEqual(self.faults()[100:], [
                    *more, f"refused, and no setup was written; faults: {number}"])

    def test_how_long_a_value_is_shown(self):
        for length, wanted in ((120, "x" * 120), (121, "x" * 117 + "...")):
            self.assertEqual(tables.shown("x" * length), wanted)


class Rows(OfTables):
    """Each fault is named, and none that only follows from another."""

    def test_each_row_with_a_fault_is_named(self):
        for name, old, new, said in (
                ("stations.csv", "c2,s3,500,0", "c7,s3,500,0\nc8,s4,500,0\nc2,s5,500,0",
                 ["row 4: constituencies.csv has no constituency c7",
                  "row 5: constituencies.csv has no constituency c8"]),
                ("stations.csv", "c2,s3,500,0", "c2,,500,0\nc2,,600,0\nc2,s5,500,0",
                 ["row 4: code is empty", "row 5: code is empty"]),
                ("constituencies.csv", "name,seats", "name,places",
                 ["row 1: there is no column seats for seats; the header is: code | name | pla"])):
            with self.subTest(new=new):
                self.edited((name, old, new))
                *found, _ = self.faults()
                self.assertEqual(len(found), len(said), found)
                for one, words in zip(found, said):
                    self.assertTrue(one.startswith(f"{name}, {words}"), one)

    def test_a_rule_that_is_no_table(self):
        """The rules after it are looked at all the same."""
        self.write(columns='profile = [3, {code = "x y"}]\n' + COLUMNS)
        said = self.run_tool(self.folder, status=1)[1]
        for words in ("columns.toml: profile has a value that it cannot have\n",
                      "columns.toml: x y is no code", "columns.toml: [[profile]] 2: method is mis"):
            self.assertIn(words, said)

    def test_two_rules_and_no_word_which(self):
        self.write(columns=COLUMNS + PROFILE.format("p", 0) + PROFILE.format("q", 0))
        said = self.run_tool(self.folder, status=1)[1]
        for row in (2, 3):
            self.assertIn(f"constituencies.csv, row {row}: there are several profiles, and nothing "
                          "says which one this is\n", said)

    def test_places_of_candidates_begin_at_one(self):
        """Those of substitutes too, or they go on after the candidates."""
        for old, new, said in (
                ("c2,PC,1,T", "c2,PC,3,T", "row 14: the list PC has no place 1: the next one is 2"),
                ("c2,PC,1,S", "c2,PC,3,S", None),
                ("c2,PC,1,S", "c2,PC,2,S", "row 15: the list PC has no place 1: the next one is 2"),
                ("c2,PC,1,S", "c2,PC,4,S", "row 15: the list PC has no place 1: the next one is")):
            with self.subTest(new=new):
                self.edited(("candidates.csv", old, new))
                self.taken(said is None, f"candidates.csv, {said}")

    def test_a_column_of_a_code_that_is_empty(self):
        """The code is then, and not what its other columns have."""
        stations = "constituency,town,table,electors\nc1,1,A,300\nc1,2,,400\nc2,,A,500\n"
        self.write(TABLES | {"stations.csv": stations},
                   COLUMNS + '[stations]\ncode = ["town", "-", "table"]\n')
        self.assertEqual(self.faults()[:2], [
            f"stations.csv, row {row}: town, table is empty" for row in (3, 4)])


class Columns(OfTables):
    def test_zeros_in_front(self):
        """Of numbers in digits alone, and of no other cell."""
        table = tables.Table("stations", "stations.csv", {}, None)
        table.places = {"code": [(0, 3, "TOWN")]}
        for cell, wanted in (("7", "007"), ("1234", "1234"), ("7A", "7A"), ("٧", "٧"), ("", "")):
            with self.subTest(cell=cell):
                self.assertEqual(table.value(SimpleNamespace(cells=[cell]), "code"), wanted)

    def test_what_names_a_column(self):
        """A name, or a table with perhaps the least digits, from 0 to 16; or several of these."""
        for value, is_one in (
                ("MESA", True), (["CPRO", "-", {"column": "MESA"}], True), ([], False), (7, False),
                (["CPRO", 7], False), (["CPRO", ["MESA"]], False), ([["MESA"]], False),
                *(({"column": "MESA", "digits": digits}, is_one) for digits, is_one in (
                    (0, True), (3, True), (16, True), (17, False), (-1, False), ("3", False),
                    (3.0, False), (True, False))),
                ({"digits": 3}, False), ({"column": 7}, False), ({"column": "MESA", "x": 1}, False),
                ({"column": "MESA", "digits": 3, "x": 1}, False)):
            with self.subTest(value=value):
                self.assertEqual(tables.is_column_value(value), is_one)

    def test_lists_of_texts_and_ranges(self):
        for value, is_one in ((["a", "b"], True), ([], True), ("a", False), (["a", 7], False),
                              ({"a": 1}, False)):
            with self.subTest(value=value):
                self.assertEqual(tables.are_texts(value), is_one)
        for value, is_one in (([0, 0], True), ([0, 10], True), ([3, 2], False), ([-1, 2], False),
                              ([1], False), ([1, 2, 3], False), ([1, 2.0], False),
                              ([True, 2], False), ("12", False), ((1, 2), False)):
            with self.subTest(value=value):
                self.assertEqual(tables.is_range(value), is_one)

    def test_the_encoding_that_is_said(self):
        self.write()
        for words, said in (((), "ASCII"), (("--encoding", "utf-8"), "UTF-8"),
                            (("--encoding", "cp1252"), "CP1252")):
            with self.subTest(words=words):
                self.assertTrue(self.said(*words).startswith(f"constituencies.csv: {said}, comm"))
        text = TABLES["constituencies.csv"].lstrip().replace("Twin", "Ñu")
        for encoding, said in (("utf-8", "UTF-8"), ("utf-8-sig", "UTF-8 with a mark"),
                               ("cp1252", "Windows-1252")):
            with self.subTest(encoding=encoding):
                (self.folder / "constituencies.csv").write_bytes(text.encode(encoding))
                self.assertTrue(self.said().startswith(f"constituencies.csv: {said}, commas, "))

    def test_a_first_row_that_is_no_csv(self):
        self.edited(("constituencies.csv", "code,name", 'code,"name" x'))
        self.assertTrue(self.refused()[0].startswith("constituencies.csv, row 1: this is not CSV"))

    def test_the_language_that_is_asked_for(self):
        """It goes before that of columns.toml."""
        self.write(columns='language = "es"\n' + COLUMNS)
        for language, said in (("en", "constituency  lists"), (None, "circunscripción  ")):
            with self.subTest(language=language):
                found = self.run_tool("--rule", "loreg", self.folder, language=language)[1]
                self.assertIn(f"\n{said}", found)


class Codes(OfTables):
    def lists(self, party, other, codes):
        """The codes of both lists of c1, of these parties; candidates name them by their names."""
        candidates = TABLES["candidates.csv"]
        for one in "ABC":
            candidates = candidates.replace(f",P{one},", f",Party {one},")
        lists = TABLES["lists.csv"].replace(",PA,", f",{party},").replace(",PB,", f",{other},")
        self.write(TABLES | {"candidates.csv": candidates, "lists.csv": lists},
                   f"{COLUMNS}[codes]\n{codes}\n")
        return [one["code"] for one in tomllib.loads(self.made())["constituency"][0]["list"]]

    def test_a_code_for_a_party_that_is_written_otherwise(self):
        """It is of the party that columns.toml writes; where there is none, of each party of these
        letters and digits. Signs alone are no letters."""
        for party, other, codes, wanted in (
                ("PP", "PP+", '"PP" = "one"', ["one", "PP"]),
                ("PP", "PP+", '"P P" = "one"', ["PP", "PP-2"]),
                ("PP", "PP+", '"-PP-" = "one"\n"PP+" = "two"', ["one", "two"]),
                ("P.A", "P/B", '"P-A" = "one"', ["one", "P-B"]),
                ("¡!", "PB", '"+" = "one"', ["X", "PB"])):
            with self.subTest(codes=codes):
                self.assertEqual(self.lists(party, other, codes), wanted)
        self.edited(("lists.csv", "PC,", "PB+,"), ("candidates.csv", ",PC,", ",PB+,"),
                    columns=COLUMNS + '[codes]\n"PB-" = "one"\n')
        self.assertIn("\nPB+ and PB have one code, one: their votes are summed together; ",
                      self.said())

    def test_a_code_that_is_the_party_of_another_list(self):
        """Rows of candidates with it are of the list of this code, which is noted once."""
        for codes, noted in ((("PB", "PA"), True), (("PA", "PB"), False), (("P1", "P2"), False)):
            with self.subTest(codes=codes):
                lists = TABLES["lists.csv"].replace("party,name", "party,code,name")
                lists = lists.replace("c1,1,PA,", f"c1,1,PA,{codes[0]},").replace(
                    "c1,2,PB,", f"c1,2,PB,{codes[1]},").replace("c2,1,PA,", "c2,1,PA,,").replace(
                    "c2,2,PC,", "c2,2,PC,,")
                self.write(TABLES | {"lists.csv": lists})
                text, said = self.run_tool("--rule", "loreg", self.folder)
                [con, _] = tomllib.loads(text)["constituency"]
                first = {one["code"]: one["candidates"][0] for one in con["list"]}
                self.assertEqual(first, {codes[0]: "Bea Bas", codes[1]: "Ana Arce"} if noted else {
                    codes[0]: "Ana Arce", codes[1]: "Bea Bas"})
                self.assertEqual(re.findall("in the constituency .*", said), [
                    f"in the constituency c1 {code} is the code of {name} and the party of {other}:"
                    f" rows of candidates with {code} are of {name}"
                    for code, name, other in (("PA", "Party B", "Party A"),
                                              ("PB", "Party A", "Party B")) if noted])

    def test_a_list_that_another_constituency_has(self):
        """Its candidates are of no list that is alike, in letters, in name or by a code that was
        made; the fault names the row that has it."""
        for party, name, text, said in (
                ("PB+", "Party B+", "PB", "no list PB, and lists.csv, row 3, has"),
                ("PB.", "Party B+", "pb", "no list pb, and lists.csv, row 3, has"),
                ("PX", "PB", "PB", "no list PB, and lists.csv, row 3, has"),
                ("PX", "PX", "PB", "no list PB, and lists.csv, row 3, has"),
                ("PX", "PX", "PY", "no list PY")):
            with self.subTest(party=party, name=name, text=text):
                self.edited(("lists.csv", "PC,Party C", f"{party},{name}"),
                            ("candidates.csv", "c2,PC", f"c2,{text}"))
                found = [line for line in self.faults() if " no list " in line]
                more = " it in another constituency" if "lists.csv" in said else ""
                said = f"the constituency c2 has {said}{more}"
                self.assertEqual(found, [f"candidates.csv, row {row}: {said}"
                                         for row in (13, 14, 15)])

    def test_a_code_that_was_made_is_no_party(self):
        """P+ gets the code P-2, and candidates of the party P-2 are not its own."""
        lists = "constituency,order,party,name\nc1,1,P,A\nc1,2,P-2,B\nc2,1,P,A\nc2,2,P+,C\n"
        candidates = TABLES["candidates.csv"].replace(",PA,", ",P,").replace(",PB,", ",P-2,")
        for text, row in (("P+", None), ("P-2", 3)):
            with self.subTest(text=text):
                self.write(TABLES | {"lists.csv": lists,
                                     "candidates.csv": candidates.replace(",PC,", f",{text},")})
                if row:
                    said = ("candidates.csv, row 13: the constituency c2 has no list P-2, and "
                            "lists.csv, row 3, has it in another constituency")
                    self.assertIn(said, self.refused())
                else:
                    cons = tomllib.loads(self.made())["constituency"]
                    self.assertEqual([one["code"] for con in cons for one in con["list"]],
                                     ["P", "P-2-2", "P", "P-2"])

    def test_a_code_that_is_made_is_of_no_other_party(self):
        """Of none that another has in the table: a second one of a name, without parties."""
        lists = "constituency,order,code,name\nc1,1,X,PA\nc1,2,,PB\nc2,1,PB,PA\nc2,2,,PC\n"
        self.write(TABLES | {"lists.csv": lists})
        text, said = self.run_tool("--rule", "loreg", self.folder)
        cons = tomllib.loads(text)["constituency"]
        self.assertEqual([one["code"] for con in cons for one in con["list"]],
                         ["X", "PB-2", "PB", "PC"])
        self.assertIn("\nPB would have the code PB of PA, and gets PB-2; ", said)

    def test_two_lists_of_candidates_that_would_be_one(self):
        """One is missing in the table of lists, or rows of one list are written in two ways."""
        candidates = re.sub(r",\d,", ",", TABLES["candidates.csv"]).replace(",order", "")
        for first, second, is_taken in (("PB+", "PB", False), ("PB", "PB+", False),
                                        ("PB-", "PB+", False), ("PB", "pb", True),
                                        ("PB", "Party B", True), ("Party B", "PB+", False)):
            with self.subTest(first=first, second=second):
                found = candidates.replace(",PB,", f",{second},")
                found = found.replace(f"{second},T,Bea", f"{first},T,Bea")
                self.write(TABLES | {"candidates.csv": found})
                self.taken(is_taken, f"candidates.csv, row 7: {second} here and {first} in row 6 "
                                     "would both be the list PB: if these are two lists, one is")

    def test_a_code_of_columns_toml_that_another_party_has_in_the_table(self):
        """Two parties have one code only where columns.toml gives it to both; without a column of
        parties it is noted. The code is then of all its rows, in the table's own too."""
        for header, code, columns, said in (
                ("party,code", "X", '"PB" = "X"', "row 5: the code X stands for two parties: PC "
                 "here, and PB in row 3, of which one has it from [codes] in columns.toml; if th"),
                ("party,code", "X", '"PB" = "x"', "row 5: the code X stands for two parties: PC "),
                ("party,code", "X", '"PB" = "X"\n"PC" = "X"', None),
                ("party,code", "Y", '"PB" = "X"', None),
                ("party,code", "", '"PB" = "X"\n"PC" = "X"', None)):
            with self.subTest(code=code, columns=columns):
                lists = TABLES["lists.csv"].replace("party,", f"{header},")
                for one, own in (("PA", ""), ("PB", ""), ("PC", code)):
                    lists = lists.replace(f",{one},", f",{one},{own},")
                self.write(TABLES | {"lists.csv": lists}, f"{COLUMNS}[codes]\n{columns}\n")
                self.taken(said is None, f"lists.csv, {said}")
                if said is None:
                    cons = tomllib.loads(self.made())["constituency"]
                    self.assertEqual([one["code"] for con in cons for one in con["list"]],
                                     ["PA", "X", "PA", code or "X"])
        lists = "constituency,order,code,name\nc1,1,PA,PA\nc1,2,,PB\nc2,1,PA,PA\nc2,2,X,PC\n"
        self.write(TABLES | {"lists.csv": lists}, COLUMNS + '[codes]\n"PB" = "X"\n')
        self.assertIn("\nPC and PB have one code, X: their votes are summed together; if",
                      self.said())

    def test_the_codes_that_were_made_as_a_table(self):
        self.edited(("lists.csv", ",PB,", ",Union of all,"),
                    ("candidates.csv", ",PB,", ",Union of all,"))
        self.assertIn("\n\nThese codes were made. Each stands for one party everywhere; [codes] in "
                      "columns.toml gives others.\n"
                      "code          lists  party\n"
                      "PA                2  PA\n"
                      "UNION-OF-ALL      1  Union of all\n"
                      "PC                1  PC\n\n", self.said())


class Published(OfTables):
    def compared(self, text, status=0, columns=COLUMNS):
        self.write(columns=columns)
        file = self.folder / "published.csv"
        file.write_text(text, encoding="utf-8")
        return self.said("--compare", file, status=status).replace(f"{self.folder}/", "")

    def test_nothing_is_a_number_too(self):
        said = self.compared("constituency,agents\nc1,2\nc2,0\n")
        self.assertTrue(said.endswith(AGREES.format("agents")), said)
        # As many as 200 constituencies have at most, each of five thousand million.
        for number, words in ((10**12, "electors: 1000000000000 published, 500 in the tables"),
                              (10**12 + 1, "not a number from 0 to 1000000000000")):
            self.assertIn(words, self.compared(f"constituency,electors\nc1,700\nc2,{number}\n", 1))

    def test_each_constituency_that_is_not_there_is_named(self):
        said = self.compared("constituency,seats\nc1,3\nc7,1\nc8,1\nc2,3\n", 1)
        for words in ("row 3: constituencies.csv has no constituency c7",
                      "row 4: constituencies.csv has no constituency c8",
                      "row 5: seats: 3 published, 2 in the tables"):
            self.assertIn(f"published.csv, {words}\n", said)

    def test_a_remark_on_the_table_itself(self):
        """It is beside those on the others."""
        said = self.compared('constituency,seats,source\nc1,3,"The\nGazette, p. 3"\nc2,2,\n')
        self.assertIn("\npublished.csv, row 2: source has a line break and a separator after", said)

    def test_a_code_of_two_columns(self):
        """They are read as a code, without a space; a row of all has one of them."""
        said = self.compared("letter,number,seats\nc,1,3\nc,2,2\ntotal,,5\n",
                             columns=COLUMNS + '[compare]\nconstituency = ["letter", "number"]\n')
        self.assertTrue(said.endswith(AGREES.format("seats")), said)
