"""Rows and cells of an authority's tables that are perhaps not as they were meant: below a column
without a name, a code of no party, a row that is a sum. Each is named. The setup is written, but
where rows are surely lost."""

from tests.support.tables_case import COLUMNS, SETUP, TABLES, Case


class Named(Case):
    def said_of(self, tables, columns=COLUMNS):
        """The lines that are said of these tables, whose setup is the usual one."""
        self.write(TABLES | tables, columns)
        setup, said = self.run_tool("--rule", "loreg", "--language", "en", self.folder)[:2]
        self.assertEqual(setup, SETUP)
        return said.splitlines()

    def test_cells_below_no_name(self):
        """They are not in the setup. A column without a name that is empty says nothing."""
        header, first, second, third = TABLES["stations.csv"].strip().split("\n")
        for cells, wanted in ((("", "", ""), []), (("", "x", ""), ["column 5, which has no name"])):
            with self.subTest(cells=cells):
                rows = [f"{row},{cell}" for row, cell in zip((first, second, third), cells)]
                said = self.said_of({"stations.csv": "\n".join([f"{header},", *rows]) + "\n"})
                self.assertEqual([line for line in said if "not kept" in line],
                                 [f"stations.csv: not kept: {column}" for column in wanted])

    def test_a_code_of_no_party(self):
        """As one that is written otherwise than in the tables."""
        said = self.said_of({}, COLUMNS + '[codes]\n"PA" = "PA"\n"Partido B" = "PX"\n')
        self.assertEqual([line for line in said if "no party" in line], [
            "no party is called Partido B, which has the code PX in [codes] of columns.toml"])

    def test_columns_and_people_of_columns_toml_that_are_not_there(self):
        columns = (COLUMNS + 'namesakes = ["ANA ARCE", "Nobody"]\n[candidates]\nkeep = ["BORN"]\n'
                   '[stations]\ndrop = ["Agents", "HALL"]\n')
        said = self.said_of({}, columns)
        self.assertEqual(said[said.index("Look at these:") + 1 :][:4], [
            "no candidate is called Nobody, which is in namesakes of columns.toml",
            "candidates.csv has no column BORN, which is in keep of [candidates] in columns.toml",
            "stations.csv has no column HALL, which is in drop of [stations] in columns.toml", ""])

    def test_a_separator_after_a_line_break(self):
        """The first of a column that may be a text: it is noted once. A line break alone is not."""
        for cells, row in (('"Hall,\nEast, West"', 2), ('"Hall\nEast"', None), ('"a, b"', None),
                           ('Hall,\nc1,s9,1,,"a,\nb,c"', 3)):
            with self.subTest(cells=cells):
                more = [f",{cells}", ',"x\ny, z"' if row else ",", ","]
                header, *rows = TABLES["stations.csv"].strip().split("\n")
                rows = [f"{one}{cell}" for one, cell in zip(rows, more)]
                text = "\n".join([f"{header},hall", *rows]).replace("Hall,\nc1", "Hall\nc1")
                self.write(TABLES | {"stations.csv": text},
                           COLUMNS + '[stations]\ndrop = ["hall"]\n')
                said = self.run_tool("--rule", "loreg", self.folder)[1]
                self.assertEqual([line for line in said.splitlines() if "line break" in line], [
                    f"stations.csv, row {row}: hall has a line break and a separator after it, the "
                    "first cell of this column with both; if there are rows in this cell, a quote "
                    "is too many"] if row else [])

    def test_few_columns_may_have_a_text_with_separators(self):
        """Its lines look like rows of three cells; in a column that is used they are a fault."""
        stations = 'code,electors,hall\ns1,300,"East\n1,2,3"\ns2,400,\n'
        tables = {name: "\n".join(line.partition(",")[2] for line in text.strip().split("\n")
                                  if not line.startswith("c2")) + "\n"
                  for name, text in TABLES.items()}
        tables |= {"constituencies.csv": "code,name,seats\nc1,Twin Town,3\n"}
        self.write(tables | {"stations.csv": stations})
        self.assertIn("stations.csv, row 2: hall has a line break and a separator after it",
                      self.run_tool("--rule", "loreg", self.folder)[1])
        self.write(tables | {"stations.csv": 'electors,code\n300,"s1\n400,s2"\n'})
        said = ("stations.csv, row 2: code has a cell of 2 lines, with as many separators as rows "
                "have: is there a quote too many where it begins or ends?")
        self.assertIn(said, self.refused())

    def test_a_space_that_does_not_break(self):
        """It is a small á in what MS-DOS wrote: noted where small letters follow, if the table is
        Windows-1252 by a guess alone."""
        for name, encoding, noted in (
                ("Dami\xa0n Otero", "cp1252", "Dami_n"), ("C\xa0diz", "cp1252", "C_diz"),
                ("Ana\xa0Otero", "cp1252", None), ("Dami\xa0n Otero", "utf-8", None)):
            with self.subTest(name=name, encoding=encoding):
                self.write()
                text = TABLES["candidates.csv"].strip().replace("Bea Bas", name)
                (self.folder / "candidates.csv").write_bytes(text.encode(encoding))
                said = self.run_tool("--rule", "loreg", self.folder)[1]
                self.assertEqual([line for line in said.splitlines() if "MS-DOS" in line], [
                    f"candidates.csv, row 6: {noted} has a space that does not break a line where "
                    "_ is; MS-DOS wrote á so: save the table in UTF-8 if this is meant"]
                    if noted else [])

    def test_a_party_that_is_empty(self):
        """Its name stands for it then. In a table without parties nothing is said."""
        lists = TABLES["lists.csv"].replace("c1,2,PB,Party B", "c1,2,,PB")
        self.write(TABLES | {"lists.csv": lists.replace("c2,2,PC,Party C", "c2,2,,PC")})
        said = self.run_tool("--rule", "loreg", self.folder)[1]
        self.assertEqual([line for line in said.splitlines() if "is empty" in line], [
            "lists.csv, row 3: party is empty, and PB stands for the party; rows of the same party "
            "under another text are of another one"])
        self.write(TABLES | {"lists.csv": TABLES["lists.csv"].replace("party", "code")})
        self.assertNotIn("is empty", self.run_tool("--rule", "loreg", self.folder)[1])

    def test_one_name_with_two_codes(self):
        """In a table without parties they are two; a code in capitals is noted by itself."""
        for code, noted in (("PAX", True), ("PA", False), ("pa", False)):
            with self.subTest(code=code):
                lists = TABLES["lists.csv"].replace("order,party", "order,code")
                self.write(TABLES | {
                    "lists.csv": lists.replace("c2,1,PA", f"c2,1,{code}"),
                    "candidates.csv": TABLES["candidates.csv"].replace("c2,PA,", f"c2,{code},")})
                said = self.run_tool("--rule", "loreg", self.folder)[1]
                self.assertEqual(
                    f"\nParty A has the codes PA and {code} in two constituencies: its votes are "
                    "summed apart; if this is one party, give it one code\n" in said, noted, said)

    def test_rows_of_candidates_with_other_signs(self):
        """A list that is in the tables alone with these letters has them, which is noted."""
        candidates = TABLES["candidates.csv"].replace(",PB,", ",P-B.,")
        lists = TABLES["lists.csv"].replace(",PB,", ",P.B,")
        self.write(TABLES | {"candidates.csv": candidates, "lists.csv": lists})
        text, said = self.run_tool("--rule", "loreg", self.folder)
        self.assertEqual(text, SETUP.replace('"PB"', '"P-B"'))
        self.assertIn("\nrows of candidates with P-B. are of the list P.B, which has the same "
                      "letters and other signs; if these are two lists, P-B. is missing in the "
                      "table of lists\n", said)

    def test_a_row_that_may_be_a_sum(self):
        """A last station of a constituency, by its name or by its electors: 300 and 400 are 700."""
        for row, code in (("c1,TOTAL,7,", "TOTAL"), ("c1,Totales,700,", "Totales"),
                          ("c1,s9,700,", "s9"), ("c1,s9,699,", None), ("c1,s9,701,", None),
                          ("c2,s9,500,", None), ("c2,total,500,", "total")):
            with self.subTest(row=row):
                self.write(TABLES | {"stations.csv": TABLES["stations.csv"] + row + "\n"})
                said = self.run_tool("--rule", "loreg", "--language", "en", self.folder)[1]
                self.assertEqual([line for line in said.splitlines() if "the sum" in line], [
                    f"stations.csv, row 5: the station {code} may be the sum of the others, and "
                    "no station"] if code else [])
