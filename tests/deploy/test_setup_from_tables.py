"""The tables of an authority become a setup.

    python3 -m unittest tests.deploy.test_setup_from_tables

With OFFICE_PROGRAM, the path of a built program, it reads the setups too.
"""

import re
import time
import tomllib
import unittest

from tests.support import tools
from tests.support.tables_case import COLUMNS, ROOT, SETUP, TABLES, TOOL, Case


class Setups(Case):
    def test_montehondo_comes_out_byte_for_byte(self):
        command = [TOOL, "--rule", "loreg", "--language", "en", ROOT / "examples/tables"]
        done = tools.run(command, capture_output=True, text=True, timeout=600)
        text, said = done.stdout, done.stderr
        self.assertEqual(done.returncode, 0, said)
        self.assertEqual(text, (ROOT / "examples/setup.toml").read_text(encoding="utf-8"))
        # 14 candidates and 5,387 electors: added up by hand in examples/audit.md.
        self.assertRegex(said, r"\nmontehondo +5 +14 +0 +15 +5387 +0 +9\n")

    def test_the_guide_has_the_command_and_the_sums(self):
        guide = (ROOT / "docs/GUIDE.md").read_text(encoding="utf-8")
        [words] = re.findall(r"^    \$ deploy/setup-from-tables (.*) > setup\.toml$", guide, re.M)
        arguments = [ROOT / word if "/" in word else word for word in words.split()]
        said = self.run_tool(*arguments)[1]
        [sums] = re.findall(r"^    constituency .*\n(?:    .*\n)+", guide, re.M)
        self.assertTrue(said.endswith(re.sub("^    ", "", sums, flags=re.M)), said)

    def test_two_constituencies(self):
        self.write()
        self.assertEqual(self.made(), SETUP)

    def test_the_program_reads_it(self):
        self.write()
        self.is_read(self.made())

    def test_the_order_of_the_rows_of_candidates_and_lists_does_not_matter(self):
        header, *rows = TABLES["candidates.csv"].strip().split("\n")
        heads, *lists = TABLES["lists.csv"].strip().split("\n")
        self.write(
            TABLES
            | {
                "candidates.csv": "\n".join([header, *reversed(rows)]) + "\n",
                "lists.csv": "\n".join([heads, *reversed(lists)]) + "\n",
            }
        )
        self.assertEqual(self.made(), SETUP)

    def test_without_columns_of_order_the_rows_are_in_order(self):
        candidates = re.sub(r",\d,", ",", TABLES["candidates.csv"]).replace(",order", "")
        self.write(TABLES | {"candidates.csv": candidates})
        self.assertEqual(self.made(), SETUP)

    def test_one_constituency_needs_no_column_for_it(self):
        def alone(text):
            lines = [line for line in text.strip().split("\n") if not line.startswith("c2")]
            return "\n".join(line.partition(",")[2] for line in lines) + "\n"

        tables = {name: alone(text) for name, text in TABLES.items()}
        tables["constituencies.csv"] = "code,name,seats\nc1,Twin Town,3\n"
        self.write(tables)
        self.assertEqual(self.made(), SETUP[: SETUP.index('\n[[constituency]]\ncode = "c2"')])

    def test_a_constituency_is_named_by_its_name_too(self):
        stations = TABLES["stations.csv"].replace("c1,", "twin town,")
        self.write(TABLES | {"stations.csv": stations})
        self.assertEqual(self.made(), SETUP)

    def test_a_constituency_of_one_seat_has_no_threshold(self):
        tables = {
            name: text.replace("c2,Lone Hill,2", "c2,Lone Hill,1") for name, text in TABLES.items()
        }
        self.write(tables, '[rules]\ncandidates = "seats or more"\n')
        setup = tomllib.loads(self.made())
        self.assertEqual([con["profile"] for con in setup["constituency"]], ["loreg", "loreg-one"])
        self.assertEqual([profile["threshold"] for profile in setup["profile"]], [300, 0])

    def test_a_rule_of_ones_own(self):
        own = '[[profile]]\ncode = "p"\nmethod = "hare"\nthreshold = 500\nbase = "lists"\n'
        self.write(columns=COLUMNS + own)
        setup = tomllib.loads(self.run_tool(self.folder)[0])
        self.assertEqual(setup["profile"], tomllib.loads(own)["profile"])
        self.assertEqual({con["profile"] for con in setup["constituency"]}, {"p"})

    def test_a_rule_and_two_entries_for_one_constituency(self):
        own = "".join(
            f'[[profile]]\ncode = "{code}"\nmethod = "dhondt"\nthreshold = 0\nbase = "valid"\n'
            for code in ("p", "q")
        )
        constituencies = (
            "code,name,seats,profile,entry\nc1,Twin Town,3,p,double\nc2,Lone Hill,2,q,\n"
        )
        self.write(TABLES | {"constituencies.csv": constituencies}, COLUMNS + own)
        cons = tomllib.loads(self.run_tool(self.folder)[0])["constituency"]
        self.assertEqual(
            [(con["profile"], con.get("entry")) for con in cons], [("p", "double"), ("q", None)]
        )
        cons = tomllib.loads(self.run_tool("--entry", "double", self.folder)[0])["constituency"]
        self.assertEqual([con.get("entry") for con in cons], ["double", "double"])

    def test_other_columns_are_kept_and_personal_ones_are_not(self):
        candidates = (
            TABLES["candidates.csv"]
            .replace("kind,name", "kind,name,ID")
            .replace("Ana Arce", "Ana Arce,111")
            .replace("\nc", "\nc")
        )
        candidates = "\n".join(
            line if line.count(",") == 5 or not line else f"{line},"
            for line in candidates.split("\n")
        )
        stations = (
            TABLES["stations.csv"]
            .replace("agents", "agents,Código Región,Hall")
            .replace("300,2", '300,2,007,"The ""old"" hall \\"')
            .replace("400,", "400,,,")
            .replace("500,0", "500,0,,")
        )
        self.write(TABLES | {"candidates.csv": candidates, "stations.csv": stations})
        text, said = self.run_tool("--rule", "loreg", self.folder)
        first = tomllib.loads(text)["constituency"][0]
        self.assertEqual(
            first["station"][0],
            {
                "code": "s1",
                "electors": 300,
                "agents": 2,
                "x_codigo_region": "007",
                "x_hall": 'The "old" hall \\',
            },
        )
        self.assertEqual(first["station"][1], {"code": "s2", "electors": 400})
        self.assertNotIn("111", text)
        self.assertIn("candidates.csv: not kept: ID\n", said)
        self.assertIn(
            (
                "stations.csv: kept in the setup, which is published: x_codigo_region (Código"
                " Región), x_hall (Hall)"
            ),
            said,
        )
        (self.folder / "columns.toml").write_text(
            COLUMNS + '[candidates]\nkeep = ["id"]\n[stations]\ndrop = ["hall"]\n', encoding="utf-8"
        )
        first = tomllib.loads(self.made())["constituency"][0]
        self.assertEqual(first["list"][0]["x_candidates_id"], ["111", "", "", ""])
        self.assertNotIn("x_hall", first["station"][0])

    def test_a_person_by_an_identity_of_its_own(self):
        """Two people of one name are two; one person with two names is one."""
        lines = TABLES["candidates.csv"].strip().split("\n")
        tables = [
            f"{line},{number}" if number else f"{line},DNI" for number, line in enumerate(lines)
        ]
        tables = "\n".join(tables).replace("Bea Bas", "Ana Arce") + "\n"
        columns = COLUMNS + '[candidates]\nperson = "DNI"\n'
        self.write(TABLES | {"candidates.csv": tables}, columns)
        self.assertIn('"Ana Arce", "Ben Boj"', self.made())
        self.write(
            TABLES
            | {
                "candidates.csv": tables.replace("Coy,12", "Coy, 0-1 ").replace(
                    "Arce,1\n", "Arce,01\n"
                )
            },
            columns,
        )
        self.assertEqual(
            self.refused()[4],
            (
                "candidates.csv, row 13: Carl Coy has the DNI of Ana Arce in row 2: one person"
                " comes twice, or one of the two is wrong"
            ),
        )
        # Without an identity the name counts, beside those of rows that have one.
        self.write(TABLES | {"candidates.csv": tables.replace("Arce,5\n", "Arce,\n")}, columns)
        self.assertIn("row 6: Ana Arce is a candidate in row 2 too; if", self.refused()[4])

    def test_namesakes(self):
        candidates = TABLES["candidates.csv"].replace("Bea Bas", "Ana Arce")
        self.write(TABLES | {"candidates.csv": candidates}, COLUMNS + 'namesakes = ["ana arce"]\n')
        self.assertIn('"Ana Arce", "Ben Boj"', self.made())
        for other, said in (
            ("ANÁ  ARCE", "ANÁ ARCE is a candidate in row 2 too, as Ana Arce; if these are two"),
            ("Ana Arce", "Ana Arce is a candidate in row 2 too; if these are two people, write"),
        ):
            self.write(
                TABLES | {"candidates.csv": TABLES["candidates.csv"].replace("Bea Bas", other)}
            )
            self.assertIn(f"candidates.csv, row 6: {said}", "\n".join(self.refused()))

    def test_what_may_be_one_person_is_noted(self):
        """The tables do not say whether it is: two constituencies, or another order of words."""
        for old, new, said in (
            ("Carl Coy", "Ana Arce", "2 and 13: both have the name Ana Arce, in two constit"),
            ("Carl Coy", '"Arce, Ana"', "2 and 13: Ana Arce and Arce, Ana may be one person:"),
            ("Bea Bas", "ARCE-ANA", "2 and 6: Ana Arce and ARCE-ANA may be one person:"),
            ("Carl Coy", "Ana Arcé", "2 and 13: both have the name Ana Arcé, in two"),
            ("Carl Coy", "Ana Arco", None),
        ):
            with self.subTest(new=new):
                self.write(
                    TABLES | {"candidates.csv": TABLES["candidates.csv"].replace(old, new)}
                )
                noted = self.run_tool("--rule", "loreg", self.folder)[1]
                self.assertEqual("Look at these" in noted, said is not None, noted)
                self.assertIn(f"candidates.csv, rows {said}" if said else "", noted)


class Codes(Case):
    def lists(self, rows, columns=COLUMNS, header="constituency,order,party,name"):
        """The codes of lists, and standard error."""
        tables = dict(TABLES)
        for name in ("lists.csv", "candidates.csv"):
            tables[name] = TABLES[name]
            for old, new in rows.items():
                tables[name] = tables[name].replace(f",{old},", f",{new},")
        tables["lists.csv"] = tables["lists.csv"].replace("constituency,order,party,name", header)
        self.write(tables, columns)
        text, said = self.run_tool("--rule", "loreg", self.folder)
        cons = tomllib.loads(text)["constituency"]
        return [[one["code"] for one in con["list"]] for con in cons], said

    def test_codes_that_are_made(self):
        """By hand: capitals without accents, a dash for each other sign, and 16 of them."""
        for party, code in (
            ("PUM+J", "PUM-J"),
            ("¡EXISTE!", "EXISTE"),
            ("Escaños en Blanco", "ESCANOS-EN-BLANC"),
            ("P.S.O.E.", "P-S-O-E"),
            ("Més per Mallorca – Illes", "MES-PER-MALLORCA"),
            ("àèï  ß", "AEI-SS"),
            ("Œuvre Ø Łódź", "OEUVRE-O-LODZ"),
            ("Þjóð Æska đ", "THJOD-AESKA-D"),
            ("ΣΥΡΙΖΑ", "X"),
            ("7", "7"),
        ):
            with self.subTest(party=party):
                found, said = self.lists({"PA": party})
                self.assertEqual(found, [[code, "PB"], [code, "PC"]])
                self.assertRegex(said, f"\n{code} +2  {re.escape(' '.join(party.split()))}\n")

    def test_two_parties_whose_codes_would_be_one(self):
        found = self.lists(
            {"PB": "Agrupación vecinal de Arriba", "PC": "Agrupación vecinal de Abajo"}
        )[0]
        self.assertEqual(found, [["PA", "AGRUPACION-VEC-2"], ["PA", "AGRUPACION-VECIN"]])

    def test_two_parties_that_differ_in_a_letter_or_a_sign_stay_two(self):
        """Each gets a code of its own, and it is said; in one constituency and in two."""
        for one, other, code, another in (
            ("Łan", "Lan", "LAN-2", "LAN"),
            ("PP", "PP+", "PP", "PP-2"),
            ("Ø", "O", "O-2", "O"),
            ("ΑΒΓ 7", "ΔΕΖ 7", "7", "7-2"),
        ):
            with self.subTest(one=one):
                found, said = self.lists({"PA": one, "PC": other})
                self.assertEqual(found, [[code, "PB"], [code, another]])
                first, second = (one, other) if code < another else (other, one)
                wanted, made = sorted((code, another))
                self.assertIn(
                    f"\n{second} would have the code {wanted} of {first}, and gets {made}; ", said
                )
                self.assertEqual(
                    self.lists({"PA": one, "PB": other})[0], [[code, another], [code, "PC"]]
                )

    def test_one_party_with_other_spaces_dashes_and_quotes(self):
        for one, other in (("UPN-PP", "UPN – PP"), ("L'U", "L’U"), ("A+B", "a + b")):
            with self.subTest(other=other):
                lists = TABLES["lists.csv"].replace("c1,1,PA", f"c1,1,{one}")
                lists = lists.replace("c2,1,PA", f"c2,1,{other}")
                candidates = TABLES["candidates.csv"].replace(",PA,", f",{one},")
                self.write(TABLES | {"lists.csv": lists, "candidates.csv": candidates})
                text, said = self.run_tool("--rule", "loreg", self.folder)
                codes = [con["list"][0]["code"] for con in tomllib.loads(text)["constituency"]]
                self.assertEqual(len(set(codes)), 1)
                self.assertIn(f"{other} and {one} are taken for one party, {codes[0]}", said)

    def test_a_code_that_another_party_has_in_the_table(self):
        lists = (
            "constituency,order,party,code,name\n"
            "c1,1,PA,PB,A\nc1,2,PB,,B\nc2,1,PA,,A\nc2,2,PC,,C\n"
        )
        candidates = TABLES["candidates.csv"].replace(",PB,", ",B,")
        self.write(TABLES | {"lists.csv": lists, "candidates.csv": candidates})
        text, said = self.run_tool("--rule", "loreg", self.folder)
        cons = tomllib.loads(text)["constituency"]
        self.assertEqual([one["code"] for con in cons for one in con["list"]],
                         ["PB", "PB-2", "PB", "PC"])
        self.assertIn("\nPB would have the code PB of PA, and gets PB-2; ", said)

    def test_codes_and_names_of_a_table_without_parties(self):
        """Lists are of one where their codes are: what may be meant otherwise is noted, once."""
        alike = ("Party Ä has the code pa, and Party A the code PA, which differ in capitals "
                 "alone: their votes are summed apart; ")
        names = "Party D and Party A have one code, PA: their votes are summed together; "
        for code, name, said in (("PA", "Party A", None), ("pa", "Party Ä", alike),
                                 ("PA", "PARTY  A", None), ("PA", "Party D", names)):
            with self.subTest(code=code, name=name):
                lists = TABLES["lists.csv"].replace("order,party,", "order,code,")
                lists = lists.replace("c2,1,PA,Party A", f"c2,1,{code},{name}")
                candidates = TABLES["candidates.csv"].replace("c2,PA,", f"c2,{code},")
                self.write(TABLES | {"lists.csv": lists, "candidates.csv": candidates})
                text, noted = self.run_tool("--rule", "loreg", self.folder)
                codes = [con["list"][0]["code"] for con in tomllib.loads(text)["constituency"]]
                self.assertEqual(codes, ["PA", code])
                self.assertEqual(noted.count(f"\n{said}" if said else "Look at"), bool(said), noted)

    def test_one_party_written_in_two_ways(self):
        lists = TABLES["lists.csv"].replace("c2,1,PA", "c2,1,Pa")
        self.write(TABLES | {"lists.csv": lists})
        text, said = self.run_tool("--rule", "loreg", self.folder)
        self.assertEqual(text, SETUP)
        self.assertIn("Pa and PA are taken for one party, PA", said)

    def test_codes_of_columns_toml(self):
        found = self.lists({}, COLUMNS + '[codes]\n"PA" = "alpha"\n')[0]
        self.assertEqual(found, [["alpha", "PB"], ["alpha", "PC"]])

    def test_codes_of_the_table(self):
        lists = (
            "constituency,order,party,code,name\nc1,1,PA,A1,Party A\nc1,2,PB,,Party B\n"
            "c2,1,PA,,Party A\nc2,2,PC,C1,Party C\n"
        )
        self.write(TABLES | {"lists.csv": lists})
        cons = tomllib.loads(self.made())["constituency"]
        self.assertEqual(
            [[one["code"] for one in con["list"]] for con in cons], [["A1", "PB"], ["A1", "C1"]]
        )
        for old, new, said in (
            (
                "c2,1,PA,,",
                "c2,1,PA,A2,",
                "row 4: the party PA has two codes: A2 here, and A1 (row 2)",
            ),
            (
                "PC,C1",
                "PC,A1",
                "row 5: the code A1 stands for two parties: PC here, and another in row 2",
            ),
            ("PC,C1", "PC,C+1", "row 5: C+1 is no code"),
        ):
            with self.subTest(said=said):
                self.write(TABLES | {"lists.csv": lists.replace(old, new)})
                self.assertIn(f"lists.csv, {said}", "\n".join(self.refused()))

    def test_constituencies_and_stations_without_codes(self):
        self.write(
            {
                name: text.replace("c1,", "Twin Town,").replace("c2,", "Lone Hill,")
                for name, text in TABLES.items()
            }
            | {
                "constituencies.csv": "name,seats\nTwin Town,3\nLone Hill,2\n",
                "stations.csv": (
                    "constituency,electors\nTwin Town,300\nLone Hill,500\nTwin Town,400\n"
                ),
            }
        )
        cons = tomllib.loads(self.made())["constituency"]
        self.assertEqual(
            [[con["code"], *(station["code"] for station in con["station"])] for con in cons],
            [["TWIN-TOWN", "TWIN-TOWN-1", "TWIN-TOWN-2"], ["LONE-HILL", "LONE-HILL-1"]],
        )


class Sums(Case):
    def test_the_sums_of_each_constituency(self):
        self.write()
        said = self.run_tool("--rule", "loreg", self.folder)[1]
        # By hand from the tables.
        self.assertTrue(
            said.endswith(
                """
constituency  lists  candidates  substitutes  stations  electors  agents  seats
c1                2           6            2         2       700       2      3
c2                2           4            2         1       500       0      2
total             4          10            4         3      1200       2      5
"""
            ),
            said,
        )

    def test_a_comparison_with_what_was_published(self):
        self.write()
        published = self.folder / "published.csv"
        cases = (
            (
                (
                    "constituency,stations,electors,seats\nc1,2,700,3\nLone"
                    " Hill,1,500,2\ntotal,3,1200,5\n"
                ),
                [],
            ),
            (
                "constituency,stations,electors,seats\nc1,2,701,3\nc2,1,,3\n",
                [
                    "row 2: electors: 701 published, 700 in the tables",
                    "row 3: electors is empty",
                    "row 3: seats: 3 published, 2 in the tables",
                ],
            ),
            (
                "constituency,electors,seats\nc1,700,3\nc2,500,2\ntotal,,5\n",
                ["row 4: electors is empty"],
            ),
            ("constituency,stations\nc1,2\n", ["there is no row of the constituency c2"]),
            (
                "constituency,lists\nc1,2\nc2,2\nc3,2\n",
                ["row 4: constituencies.csv has no constituency c3"],
            ),
            (
                "constituency,lists\nc1,2\nc2,2\ntotal,5\n",
                ["row 4: lists: 5 published, 4 in the tables"],
            ),
            ("constituency,lists\nc1,two\nc2,2\n", ["row 2: lists is two, and not a whole number"]),
            ("constituency,area\nc1,2\n", ["row 1: this table needs a column constituency"]),
        )
        for text, faults in cases:
            with self.subTest(text=text):
                published.write_text(text, encoding="utf-8")
                words = ("--rule", "loreg", "--compare", published, self.folder)
                said = self.run_tool(*words, status=1 if faults else 0)[1]
                for fault in faults:
                    self.assertIn(
                        f"published.csv{', ' if fault.startswith('row') else ': '}{fault}", said
                    )
                agrees = "published.csv agrees in: stations, electors, seats\n"
                self.assertEqual(said.endswith(agrees), not faults)

    def test_the_columns_of_what_was_published(self):
        self.write(columns=COLUMNS + '[compare]\nconstituency = "CPRO"\nseats = "ESCAÑOS"\n')
        (self.folder / "boe.csv").write_bytes("CPRO;ESCAÑOS;BOE\nc1;3;x\nc2;2;y\n".encode("cp1252"))
        self.assertEqual(self.made("--compare", self.folder / "boe.csv"), SETUP)

    def test_columns_that_are_not_compared_are_named(self):
        """They are no fault; and what agrees is named too."""
        self.write()
        file = self.folder / "boe.csv"
        for heads, left in (("seats,Electores,area", "Electores, area"),
                            ("seats,lists,stations", "")):
            with self.subTest(heads=heads):
                file.write_text(f"constituency,{heads}\nc1,3,2,2\nc2,2,2,1\n", encoding="utf-8")
                said = self.run_tool("--rule", "loreg", "--compare", file, self.folder)[1]
                self.assertEqual(f"boe.csv: not compared: {left}\n" in said, bool(left), said)
                self.assertEqual("not compared" in said, bool(left), said)
                sums = "seats" if left else "lists, stations, seats"
                self.assertTrue(said.endswith(f"boe.csv agrees in: {sums}\n"), said)

    def test_what_was_published_has_an_encoding_and_a_separator_of_its_own(self):
        """They are guessed, and said; only what is not UTF-8 is read as the tables are."""
        self.write(columns='encoding = "iso-8859-15"\n' + COLUMNS)
        tables = {name: text.replace("Twin Town", "Šibenik €") for name, text in TABLES.items()}
        for name, text in tables.items():
            (self.folder / name).write_bytes(text.lstrip().encode("iso-8859-15"))
        text = "constituency;seats\r\nŠibenik €;3\r\nLone Hill;2\r\n"
        for encoding, name in (("utf-8", "UTF-8"), ("utf-8-sig", "UTF-8 with a mark"),
                               ("utf-16", "UTF-16-LE with a mark"),
                               ("iso-8859-15", "ISO-8859-15")):
            with self.subTest(encoding=encoding):
                file = self.folder / "boe.csv"
                file.write_bytes(text.encode(encoding))
                said = self.run_tool("--rule", "loreg", "--compare", file, self.folder)[1]
                self.assertIn(f"boe.csv: {name}, semicolons, line ends CRLF, rows: 2\n", said)
                self.assertTrue(said.endswith("boe.csv agrees in: seats\n"), said)


class Large(Case):
    def stations(self, number, electors=500, more="", size=None):
        header = "code,name,seats\n" if size is None else "code,name,seats,size\n"
        constituencies = f"{header}c1,Twin Town,3{f',{size}' if size is not None else ''}\n"
        tables = {
            name: "\n".join(line for line in text.split("\n") if not line.startswith("c2"))
            for name, text in TABLES.items()
        }
        rows = "".join(f"c1,s{place},{electors}{more}\n" for place in range(number))
        head = "constituency,code,electors" + (",agents" if more else "")
        self.write(
            tables | {"constituencies.csv": constituencies, "stations.csv": f"{head}\n{rows}"}
        )

    def test_sizes(self):
        for number, size, written in (
            (5000, None, None),
            (5000, "large", None),
            (5001, None, "large"),
            (5001, "large", "large"),
        ):
            with self.subTest(number=number, size=size):
                self.stations(number, size=size)
                self.assertEqual(tomllib.loads(self.made())["constituency"][0].get("size"), written)
        self.stations(5001, size="normal")
        self.assertIn("has 5001 stations, and 5000 is the limit", "\n".join(self.refused()))
        self.stations(20001)
        self.assertIn(
            (
                "constituencies.csv, row 2: the constituency c1 has 20001 stations, and 20000 is"
                " the limit"
            ),
            "\n".join(self.refused()),
        )
        self.stations(2, size="huge")
        self.assertIn(
            "constituencies.csv, row 2: size is huge, and none of normal, large",
            "\n".join(self.refused()),
        )

    def test_electors_and_agents_of_a_large_constituency(self):
        """5,000 stations of a million electors come to the limit exactly."""
        self.stations(5000, 1_000_000)
        self.made()
        self.stations(5001, 1_000_000)
        self.assertIn(
            "row 2: the stations of the constituency c1 have more than 5000000000 electors",
            "\n".join(self.refused()),
        )
        self.stations(5051, 989_999, ",1")  # 5,051 times 990,000 are 5,000,490,000
        self.assertIn("more than 5000000000 electors and agents", "\n".join(self.refused()))
        self.stations(5050, 989_999, ",1")  # 4,999,500,000
        self.made()

    def test_electors_and_agents_of_a_station(self):
        """A million of both together, and no more."""
        self.stations(1, 999_999, ",1")
        self.made()
        self.stations(1, 1_000_000, ",1")
        self.assertIn("electors and agents together are more than 1000000",
                      "\n".join(self.refused()))

    def test_more_constituencies_than_an_office_takes(self):
        cons = range(201)
        self.write(
            {
                "constituencies.csv": "code,name,seats\n"
                + "".join(f"c{c},Town {c},1\n" for c in cons),
                "lists.csv": "constituency,party,name\n" + "".join(f"c{c},A,Alpha\n" for c in cons),
                "candidates.csv": "constituency,list,name\n"
                + "".join(f"c{c},A,Ana {c}\n" for c in cons),
                "stations.csv": "constituency,code,electors\n"
                + "".join(f"c{c},s{c},9\n" for c in cons),
            },
            "",
        )
        self.assertIn(
            "constituencies.csv, row 202: 201 constituencies, and an office takes 200",
            "\n".join(self.refused()),
        )
        self.assertEqual(len(tomllib.loads(self.made("--divided"))["constituency"]), 201)

    def test_sixty_thousand_stations(self):
        """As Spain has them: 52 constituencies, 350 seats, and the columns of the example."""
        (self.folder / "columns.toml").write_bytes(
            (ROOT / "examples/tables/spain/columns.toml").read_bytes()
        )
        seats = [6] * 14 + [7] * 38  # 350
        self.spain(
            "circunscripciones.csv",
            "CPRO;PROVINCIA;ESCAÑOS",
            (f"{c};Provincia {c};{seats[c - 1]}" for c in range(1, 53)),
        )
        self.spain(
            "candidaturas.csv",
            "CPRO;ORDEN;SIGLAS;DENOMINACIÓN",
            (f"{c};{p};P{p}¡!;Partido {p}" for c in range(1, 53) for p in range(1, 16)),
        )
        self.spain(
            "candidatos.csv",
            "CPRO;SIGLAS;ORDEN;TITULAR/SUPLENTE;NOMBRE;APELLIDO1;APELLIDO2",
            (
                f"{c};P{p}¡!;{k};T;N{c}-{p}-{k};Núñez;"
                for c in range(1, 53)
                for p in range(1, 16)
                for k in range(1, seats[c - 1] + 1)
            ),
        )
        homes = [28] * 8000 + [n % 52 + 1 for n in range(52_000)]
        self.spain(
            "mesas.csv",
            "CPRO;CMUN;DISTRITO;SECCIÓN;MESA;ELECTORES",
            (
                f"{c};{n // 1000 + 1};{n // 100 % 10 + 1};{n % 100 + 1};A;{600 + n % 9}"
                for n, c in enumerate(homes)
            ),
        )
        began = time.process_time()
        text = self.made()
        seconds = time.process_time() - began
        setup = tomllib.loads(text)
        stations = [len(con["station"]) for con in setup["constituency"]]
        self.assertEqual((sum(stations), stations[27], stations[0]), (60_000, 9000, 1000))
        self.assertEqual([con["code"] for con in setup["constituency"] if "size" in con], ["28"])
        self.assertEqual(sum(con["seats"] for con in setup["constituency"]), 350)
        self.assertEqual(setup["constituency"][27]["station"][0]["code"], "28001-01001-A")
        print(f"a setup of 60,000 stations from tables: {seconds:.1f} s of the processor")
        # (what looks at all stations for each of them would take an hour)
        self.assertLess(seconds, 60)
        # The program, where there is one, says `constituencies 52`.
        self.is_read(text)

    def spain(self, name, header, rows):
        (self.folder / name).write_bytes("\r\n".join([header, *rows, ""]).encode("cp1252"))


if __name__ == "__main__":
    unittest.main()
