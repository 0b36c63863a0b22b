"""Faults of tables are named by file and row, and each usual form of a file is read.

    python3 -m unittest tests.deploy.test_setup_table_faults
"""

import os
import re
import shutil
import tomllib
import unittest
from unittest import mock

from tests.support.tables_case import COLUMNS, ROOT, SETUP, TABLES, Case


# Edits of the tables, each of all places that have the text: the old text, the new one, the row of
# the fault (in another table, with its name), and words of it. Row 1 is the header. Without an old
# text a row is added at the end.
FAULTS = r"""
# constituencies.csv
c2,Lone Hill => c1,Lone Hill => 3 => code c1 comes twice
c2,Lone Hill => C1,Lone Hill => 3 => differ in capitals alone
c2,Lone => c 2,Lone => 3 => c 2 is no code
c2,Lone => c2345678901234567,Lone => 3 => is no code
Twin Town =>  => 2 => name is empty
Twin Town => LONG => 2 => name has 81 bytes, and 80 is the limit
Town,3 => Town, => 2 => seats is empty
Town,3 => Town,0 => 2 => seats is 0, and not a number from 1 to 500
Town,3 => Town,501 => 2 => seats is 501
Town,3 => Town,3.0 => 2 => not a whole number written in digits
Town,3 => Town,three => 2 => seats is three
Town,3 => Town,-3 => 2 => seats is -3
Town,3 => Town,٣ => 2 => not a whole number
Town,3 => Town => 2 => this row has 2 cells, and the header 3
Town,3 => Town,3,4 => 2 => this row has 4 cells
 => c3,Far Away,1 => 4 => the constituency c3 has no list
 => c3,Far Away,1 => 4 => the constituency c3 has no station
seats => places => 1 => no column seats for seats
code,name => name,name => 1 => the column name comes twice
Twin Town => Twin\u200bTown => 2 => invisible character, U+200B
Twin Town => Twin\u3164Town => 2 => invisible character, U+3164
seats => seats\u200b => 1 => invisible character, U+200B
Twin Town => Twin\ufffdTown => 2 => name has U+FFFD
Twin Town => EspaÃ±a => 2 => read in a wrong encoding
Twin Town => "Twin" Town => 2 => this is not CSV
Twin Town => "Twin Town => 2 => this is not CSV
Twin Town => Twin\0Town => 2 => zero byte
# lists.csv
 => c9,1,PD,Party D => 6 => constituencies.csv has no constituency c9
 => ,1,PD,Party D => 6 => constituency is empty
 => c2,3,PD,Party D => 6 => the list PD has no candidate
 => c2,3,PC,Party C again => 6 => PC comes twice in this constituency, first in row 5
 => c2,3,pc,Party C again => 6 => pc comes twice in this constituency
c2,2,PC => c2,1,PC => 5 => place 1 comes twice among the lists
c2,2,PC => c2,second,PC => 5 => order is second
c2,2,PC => c2,,PC => 5 => order is empty
c2,2,PC => c2,1000001,PC => 5 => order is 1000001, and not a number from 0 to 1000000
PB,Party B => PB, => 3 => name is empty
Party B => LONG => 3 => name has 81 bytes
Party B => WIDE => 3 => name has 82 bytes
Party B => Party B, of c1 => 3 => this row has 5 cells
name => title => 1 => no column name
constituency, => where, => 1 => no column says which constituency
# candidates.csv
 => c1,PX,1,T,Xavi Xu => 16 => the constituency c1 has no list PX
 => c1,PC,4,T,Cruz Cal => 16 => the constituency c1 has no list PC
 => c7,PA,1,T,Xavi Xu => 16 => no constituency c7
 => c1,,1,T,Xavi Xu => 16 => list is empty
 => c1,PA,1,T,Xavi Xu => 16 => place 1 comes twice in this list, first in row 2
 => c1,PA,1,S,Xavi Xu => 16 => place 1 comes twice in this list, first in row 5
c1,PA,3,T => c1,PA,4,T => 4 => the list PA has no place 3: the next one is 4
c1,PA,1,T => c1,PA,0,T => 2 => order is 0
c1,PA,1,T => c1,PA,1001,T => 2 => order is 1001
c1,PA,1,T => c1,PA,first,T => 2 => order is first
PB,4,S => PB,6,S => 9 => the list PB has no place 1: the next one is 6
PA,1,S,Ada => PA,1,X,Ada => 5 => X, which means neither candidate nor substitute
Abel Aro => Ana Arce => 3 => Ana Arce is a candidate in row 2 too
Abel Aro => ANÁ  ARCE => 3 => is a candidate in row 2 too
Bea Bas => Ana Arce => 6 => Ana Arce is a candidate in row 2 too
Abel Aro =>  => 3 => name is empty
Abel Aro => LONG => 3 => name has 81 bytes
c1,PB,3,T,Blas Bru\n =>  => lists.csv 3 => PB has 2 candidates, and the constituency c1 has 3 seats
 => c1,PB,4,T,Bruno Bo => lists.csv 3 => PB has 4 candidates, and the constituency c1 has 3 seats
c1,PA,1,S,Ada Alto\n =>  => lists.csv 2 => PA has 0 substitutes, and columns.toml allows 1 to 2
 => c2,PC,2,S,C D\nc2,PC,3,S,C E => lists.csv 5 => PC has 3 substitutes
# stations.csv
s2,400 => s1,400 => 3 => code s1 comes twice: it is in stations.csv, row 2 too
s3,500 => s1,500 => 4 => code s1 comes twice
s3,500 => S1,500 => 4 => differ in capitals alone
s2,400 => s 2,400 => 3 => s 2 is no code
s2,400 => ,400 => 3 => code is empty
s2,400 => s2, => 3 => electors is empty
s2,400 => s2,0 => 3 => electors is 0
s2,400 => s2,1000001 => 3 => not a number from 1 to 1000000
s2,400 => s2,1.400 => 3 => electors is 1.400
s2,400 => s2,1 400 => 3 => electors is 1 400
s2,400 => s2,4E2 => 3 => electors is 4E2
300,2 => 300,1001 => 2 => agents is 1001, and not a number from 0 to 1000
300,2 => 300,-1 => 2 => agents is -1
300,2 => 999999,2 => 2 => electors and agents together are more than 1000000
c2,s3 => c4,s3 => 4 => no constituency c4
c2,s3,500,0\n =>  => constituencies.csv 3 => c2 has no station
electors => voters => 1 => no column electors
c1,s1,300,2\nc1,s2,400,\nc2,s3,500,0\n =>  => 1 => no row below the header
# columns.toml
[rules] => [rules =>  => this is not TOML
[rules] => [rule] =>  => no key is called rule
substitutes => subs =>  => no key is called rules.subs
"seats" => "all" =>  => rules.candidates has a value that it cannot have
[1, 2] => [2, 1] =>  => rules.substitutes has a value
[1, 2] => 2 =>  => rules.substitutes has a value
 => [codes]\nPB = "P B" =>  => P B is no code
 => [stations]\nelectors = 7 =>  => stations.electors has a value
 => [stations]\nelectors = ["voters", 7] =>  => stations.electors has a value
 => [stations]\nvoters = "x" =>  => no key is called stations.voters
 => [stations]\nfile = "../x" =>  => stations.file has a value
 => [[profile]]\ncode = "x" =>  => [[profile]] 1: method is missing
 => [[profile]]\ncode = "x"\nmethod = "d" =>  => [[profile]] 1: method is d, and not dhondt, sainte
 => [[profile]]\ncode = "x"\nthreshold = "3" =>  => [[profile]] 1: threshold is 3, and not 0 .. 10
 => [[profile]]\ncode = "x"\n[[profile]]\ncode = "x" =>  => [[profile]] 2: the code x comes twice
 => [[profile]]\ncode = "loreg" =>  => [[profile]] 1: the code loreg comes twice
"""
ESCAPES = {
    r"\n": "\n",
    r"\0": "\0",
    r"\u200b": "\u200b",
    r"\u3164": "\u3164",
    r"\ufffd": "\ufffd",
    "LONG": "x" * 81,
    "WIDE": "Ñ" * 41,
}


def cases():
    """Each line of FAULTS: the table, the old and new text, the fault's place and words."""
    file = None
    for line in FAULTS.strip().split("\n"):
        if line.startswith("# "):
            file = line[2:]
            continue
        for escape, letters in ESCAPES.items():
            line = line.replace(escape, letters)
        old, new, place, said = line.split(" => ")
        *other, row = place.split(" ")
        at = other[0] if other else file
        yield file, old, new, f"{at}, row {row}: " if row else f"{at}: ", said


# Names of persons, parties and places as they are.
NAMES = """
José Núñez Íñiguez|ÁNGELA MUÑOZ ÜRQUIZA|Mª Ángeles Ibáñez|M.ª del Mar 2.º|Nº 1, 3ª planta, 5 °
Begoña Agüero–Etxeberria|Iñaki Ñandú Goñi|Itziar Aldecoa-Ibarra|Marcel·lí Pallarès i Òdena
L’Hospitalet d’Òrrius|l'Àngels Vilà|Parcel•la dels Països|COL·LEGI D´ENGINYERS|Xoán Míguez “O Rei”
¡TERUEL EXISTE!|¿Y TÚ? ¡SÍ!|¡EXISTE¡|Unión «Más» País|Juntos… ¡sí!|Sí…, 50 %, y 5 €|€UROPA & Eur€
João Conceição D’Ávila|Antônio Brandão–Corrêa|Lourenço de Sá à Beira|Ça ira, Français
L’Haÿ-les-Roses|SACRÉ-CŒUR — L’ŒUVRE|Sœur Hélène Noël|Bœuf d’Aÿ|Île-d’Yeu|Jürgen Groß|Käthe Öztürk
„Grüne Liste“|‚Die Grünen‘|‹Freie Wähler›|»Bürger«|Partei “Bürger”liste|Å. Ærø-Østergård|Šime Žižek
Nåden Mäki|Pîrvu Ștefan Š.|Partido® y Marca™|© Unión|½ hora|£5 y ¥5 y 5¢|5 ¤, § 12|µm|Ana†|Ana‡
LISTA ŠIBENIK|MILOŠ ŽUŽA|Mañana, José y CÍA|CAÑAMERO Y PÉREZ|Ruiz-Gámez, José María|LÓPEZ Y GÓMEZ
Ana\xa0María|José\xa0Ángel|Virgen\xa0de\xa0la\xa0Peña
""".replace("Ștefan Š.", "Stefan Š.").strip().replace("\n", "|").split("|")
# Names with letters that show what has written them, if it is not Windows-1252.
OTHERS = ["Damián Inés", "Ramón Pérez", "José Peral", "Inés Añón", "Jesús Belén Martínez Muñoz"]


class Faults(Case):
    def test_each_fault_is_named_by_file_and_row(self):
        self.assertGreaterEqual(len(list(cases())), 60)
        for file, old, new, place, said in cases():
            with self.subTest(file=file, old=old, new=new):
                self.write()
                text = (self.folder / file).read_text(encoding="utf-8")
                edited = text.replace(old, new) if old else f"{text}{new}\n"
                self.assertNotEqual(edited, text)
                (self.folder / file).write_bytes(edited.encode())
                found = [line for line in self.refused() if line.startswith(place) and said in line]
                self.assertTrue(found, self.refused())

    def test_all_faults_are_named_at_once_and_at_most_a_hundred(self):
        stations = TABLES["stations.csv"] + "".join(f"c1,x{number},0,\n" for number in range(150))
        self.write(TABLES | {"stations.csv": stations})
        found = self.refused()
        self.assertEqual(sum(line.startswith("stations.csv, row ") for line in found), 100)
        self.assertEqual(
            found[-2:], [".. and 50 more", "refused, and no setup was written; faults: 150"]
        )

    def test_a_columns_toml_that_goes_too_deep(self):
        """It is a fault of this file, in a line."""
        self.write(columns="a = " + "[" * 100_000)
        found = self.run_tool("--rule", "loreg", self.folder, status=1)[1]
        self.assertIn("columns.toml: ", found)
        self.assertNotIn("Traceback", found)

    def test_a_fault_of_columns_toml_in_its_language(self):
        """Spanish by columns.toml itself, on a computer that speaks English."""
        for old, new, said in (
            ("[rules]", "[rule]", "ninguna clave se llama rule"),
            ("[1, 2]", "2", "rules.substitutes tiene un valor que no puede tener"),
            ("[rules]", '[[profile]]\ncode = "x"\n[rules]', "[[profile]] 1: falta method"),
            ("[rules]", '[[profile]]\nlot = "x"\n[rules]',
             "[[profile]] 1: lot es x, y no fixed, alternating"),
        ):
            with self.subTest(new=new), mock.patch.dict(os.environ, {"LC_ALL": "C.UTF-8"}):
                self.write(columns='language = "es"\n' + COLUMNS.replace(old, new))
                found = self.run_tool("--rule", "loreg", self.folder, status=1, language=None)[1]
                self.assertIn(f"columns.toml: {said}\n", found)
                self.assertIn("no se ha escrito ninguna configuración; errores: ", found)

    def test_one_is_not_said_as_several(self):
        for tables, said in (
            ({"candidates.csv": TABLES["candidates.csv"].replace("c2,PC,2,T,Cleo Cid\n", "")},
             "the list PC has 1 candidate, and the constituency c2 has 2 seats"),
            ({"constituencies.csv": TABLES["constituencies.csv"].replace("Hill,2", "Hill,1")},
             "the list PC has 2 candidates, and the constituency c2 has 1 seat"),
            ({"constituencies.csv": TABLES["constituencies.csv"].replace("c2,Lone Hill,2", "c2")},
             "this row has 1 cell, and the header 3"),
        ):
            with self.subTest(said=said):
                self.write(TABLES | tables)
                self.assertRegex("\n".join(self.refused()), f"{said}(:|$|\n)")

    def test_the_same_in_spanish(self):
        self.write(TABLES | {"stations.csv": TABLES["stations.csv"].replace("s2,400", "s2,0")})
        said = self.run_tool("--rule", "loreg", self.folder, status=1, language="es")[1]
        self.assertIn("stations.csv, fila 3: electors es 0, y no un número de 1 a 1000000\n", said)

    def test_each_sentence_is_in_each_language_with_the_same_names(self):
        texts = [
            tomllib.loads(
                (ROOT / f"deploy/setup_tables_{language}.toml").read_text(encoding="utf-8")
            )
            for language in ("en", "es")
        ]
        names = [
            {key: sorted(re.findall(r"(?<!\{)\{(\w+)", text)) for key, text in found.items()}
            for found in texts
        ]
        self.assertEqual(*names)
        sources = "".join(
            (ROOT / "deploy" / name).read_text(encoding="utf-8")
            for name in (
                "setup-from-tables", "setup_lists.py", "setup_made.py", "setup_tables.py")
        )
        unused = [
            key
            for key in texts[0]
            if not re.search(f"""["']{key}["']""", sources) and not key.startswith("sum_")
        ]
        self.assertEqual(unused, [])

    def test_letters_that_a_terminal_obeys_are_shown_in_words(self):
        self.write(
            TABLES | {"stations.csv": TABLES["stations.csv"].replace("c2,s3", "c2\u202e,s3")}
        )
        self.assertTrue(all(line.isprintable() for line in self.refused()))

    def test_no_rule(self):
        self.write()
        said = self.run_tool(self.folder, status=1)[1]
        self.assertIn("columns.toml: there is no rule: give --rule, or [[profile]] here", said)


class Files(Case):
    """Encodings, separators, line ends, quotes."""

    NAME = "Peñíscola – «Ñandú»"

    def test_encodings_separators_and_line_ends(self):
        marks = {"utf-8": b"", "utf-8-sig": b"", "cp1252": b"", "utf-16": b""}
        names = {
            "utf-8": "UTF-8",
            "utf-8-sig": "UTF-8 with a mark",
            "cp1252": "Windows-1252",
            "utf-16": "UTF-16-LE with a mark",
        }
        for encoding in marks:
            for separator, called in (
                (",", "commas"),
                (";", "semicolons"),
                ("\t", "tabs"),
                ("|", "bars"),
            ):
                for end, ends in (("\n", "LF"), ("\r\n", "CRLF"), ("\r", "CR")):
                    with self.subTest(encoding=encoding, separator=called, ends=ends):
                        self.write()
                        for name, text in TABLES.items():
                            text = (
                                text.strip().replace("Twin Town", self.NAME).replace(",", separator)
                            )
                            data = text.replace("\n", end).encode(encoding)
                            (self.folder / name).write_bytes(data)
                        made, said = self.run_tool("--rule", "loreg", self.folder)
                        self.assertEqual(made, SETUP.replace("Twin Town", self.NAME))
                        self.assertTrue(
                            said.startswith(
                                f"constituencies.csv: {names[encoding]}, {called}, line ends"
                                f" {ends}, rows: 2\n"
                            ),
                            said,
                        )

    def test_an_encoding_that_is_named(self):
        self.write()
        data = (
            TABLES["constituencies.csv"]
            .lstrip()
            .replace("Twin Town", "Šibenik €")
            .encode("iso-8859-15")
        )
        (self.folder / "constituencies.csv").write_bytes(data)
        self.assertIn('"Šibenik €"', self.made("--encoding", "iso-8859-15"))
        (self.folder / "columns.toml").write_text(
            'encoding = "iso-8859-15"\n' + COLUMNS, encoding="utf-8"
        )
        self.assertIn('"Šibenik €"', self.made())
        (self.folder / "columns.toml").write_text(
            'encoding = "latin-99"\n' + COLUMNS, encoding="utf-8"
        )
        self.assertEqual(
            self.refused()[0], "columns.toml: encoding has a value that it cannot have"
        )
        self.write()
        self.run_tool("--encoding", "latin-99", self.folder, status=2)

    def test_bytes_that_no_guess_explains(self):
        for data, said in (
            (b"\x81", "the byte 81 is not Windows-1252"),
            (b"\xef\xbb\xbf\xff", "the byte FF is not UTF-8"),
        ):
            self.write()
            (self.folder / "stations.csv").write_bytes(
                data[:-1] + TABLES["stations.csv"].strip().encode().replace(b"s2", data[-1:])
            )
            self.assertTrue(
                self.refused()[0].startswith(f"stations.csv, row 3: {said}"), self.refused()
            )

    def test_quotes_blank_lines_and_spaces(self):
        """Blank rows count as in a spreadsheet, a line break within quotes does not."""
        constituencies = (
            '"code" , Name,SEATS,\n\n\nc1,"Twin\n  Town", 3 ,\n,,,\nc2,Lone\u00a0Hill,2,\n'.replace(
                '" ,', '",'
            )
        )
        self.write(TABLES | {"constituencies.csv": constituencies})
        self.assertEqual(self.made(), SETUP)
        self.write(TABLES | {"constituencies.csv": constituencies.replace("Hill,2", "Hill,0")})
        self.assertIn("constituencies.csv, row 6: SEATS is 0", "\n".join(self.refused()))

    def test_a_file_of_another_name(self):
        self.write(columns=COLUMNS + '[stations]\nfile = "mesas.csv"\n')
        self.assertIn("mesas.csv: there is no such file", self.refused(status=3))
        (self.folder / "stations.csv").rename(self.folder / "mesas.csv")
        self.assertEqual(self.made(), SETUP)

    def test_zeros_that_a_spreadsheet_dropped(self):
        tables = {
            name: text.replace("c1,", "01,").replace("c2,", "02,") for name, text in TABLES.items()
        }
        tables[
            "stations.csv"
        ] = (
            "constituency,town,section,letter,electors,agents\n"
            "1,7,1,A,300,2\n1,7,12,A,400,\n2,7,1,B,500,\n"
        )
        self.write(
            tables,
            COLUMNS
            + '[stations]\ncode = ["constituency", "town", "-", "section", "-", "letter"]\n',
        )
        said = "\n".join(self.refused())
        self.assertIn(
            "stations.csv, row 2: constituencies.csv has no constituency 1, but 01: write "
            'constituency = { column = "constituency", digits = 2 } below [stations] in',
            said,
        )
        digits = '{ column = "%s", digits = %d }'
        code = (
            f'code = [{digits % ("constituency", 2)}, {digits % ("town", 3)}, "-",'
            f' {digits % ("section", 3)}, "-", "letter"]'
        )
        self.write(
            tables, f'{COLUMNS}[stations]\nconstituency = {digits % ("constituency", 2)}\n{code}\n'
        )
        cons = tomllib.loads(self.made())["constituency"]
        self.assertEqual(
            [station["code"] for con in cons for station in con["station"]],
            ["01007-001-A", "01007-012-A", "02007-001-B"],
        )

    def test_zeros_that_the_table_of_constituencies_lost(self):
        """The line that is said, once it is written, is all that is needed."""
        tables = {name: text.replace("c1,", "01,").replace("c2,", "02,")
                  for name, text in TABLES.items()}
        lost = tables["constituencies.csv"].replace("01,", "1,").replace("02,", "2,")
        self.write(tables | {"constituencies.csv": lost})
        advice = 'code = { column = "code", digits = 2 }'
        self.assertIn(f"lists.csv, row 2: constituencies.csv has no constituency 01, but 1: write "
                      f"{advice} below [constituencies] in columns.toml", self.refused())
        self.write(tables | {"constituencies.csv": lost}, f"{COLUMNS}[constituencies]\n{advice}\n")
        self.assertEqual(self.made(), SETUP.replace('"c1"', '"01"').replace('"c2"', '"02"'))
        # (of a code of two columns nothing is advised)
        parts = tables["constituencies.csv"].replace("01,", "0,1,").replace("02,", "0,2,")
        self.write(tables | {"constituencies.csv": parts.replace("code,", "a,b,"),
                             "lists.csv": tables["lists.csv"].replace("01,", "001,")},
                   COLUMNS + '[constituencies]\ncode = ["a", "b"]\n')
        said = "lists.csv, row 2: constituencies.csv has no constituency 001"
        self.assertIn(said, self.refused())

    def test_names_in_what_was_a_guess(self):
        """Names of nine languages in Windows-1252 are taken, with the signs that they have. Of
        those in what MS-DOS or an old Macintosh wrote each table is refused, unless it is named."""
        text = TABLES["candidates.csv"].strip().replace(",", ";")
        rows = [line.rpartition(";")[2] for line in text.split("\n")[1:]]
        for encoding, names in (("cp1252", NAMES), *((one, OTHERS) for one in (
                "cp850", "cp437", "mac_roman"))):
            for name in names:
                with self.subTest(encoding=encoding, name=name):
                    self.write()
                    data = text.replace(rows[0], name).encode(encoding)
                    (self.folder / "candidates.csv").write_bytes(data)
                    if encoding == "cp1252":
                        made = self.made()
                    else:
                        self.assertIn("candidates.csv, row 2: name looks as if it was read in a "
                                      "wrong encoding: ", "\n".join(self.refused()))
                        made = self.made("--encoding", encoding)
                    self.assertEqual(made, SETUP.replace(rows[0], " ".join(name.split())))

    def test_the_example_as_others_save_it(self):
        """As "CSV (MS-DOS)" and "CSV (Macintosh)"."""
        for name in TABLES:
            shutil.copy(ROOT / "examples/tables" / name, self.folder)
        shutil.copy(ROOT / "examples/tables/columns.toml", self.folder)
        text = (self.folder / "candidates.csv").read_text(encoding="utf-8")
        for encoding in ("cp850", "mac_roman"):
            (self.folder / "candidates.csv").write_bytes(text.encode(encoding))
            self.assertIn("read in a wrong encoding: In", "\n".join(self.refused()))

    def test_rows_within_a_cell(self):
        """A quote that opens a cell and another that closes one, some rows further down: the rows
        between are no text of this cell. In few columns it may be a text, unless it is a code."""
        for columns, old, new, said in (
                ("", "s1,300,2\nc1,s2,400,\n", '"s1,300,2\nc1,s2",400,\n', "row 2: code has a cell "
                 "of 2 lines, with as many separators as rows have"),
                (",hall", "300,2\nc1,s2,400,\nc2,s3,500,0\n",
                 '300,2,"East\nc1,s2,400,,Hall\nc2,s3,500,0,West"\n',
                 "row 2: hall has a cell of 3 lines, with as many separators as rows have")):
            with self.subTest(new=new):
                stations = TABLES["stations.csv"].replace("agents", f"agents{columns}")
                self.assertIn(old, stations)
                for ends in ("\n", "\r\n", "\r"):
                    found = stations.replace(old, new).replace("\n", ends)
                    self.write(TABLES | {"stations.csv": found.strip()})
                    self.assertIn(f"stations.csv, {said}", "\n".join(self.refused()))

    def test_a_table_that_is_missing(self):
        for name in TABLES:
            self.write()
            (self.folder / name).unlink()
            self.assertEqual(
                self.refused(status=3),
                [f"{name}: there is no such file", "refused, and no setup was written; faults: 1"],
            )
            (self.folder / name).write_bytes(b"")
            self.assertEqual(self.refused()[0], f"{name}, row 1: the table is empty")
        self.assertIn("no such folder", self.run_tool(self.folder / "none", status=3)[1])

    def test_a_file_that_cannot_be_read(self):
        self.write()
        (self.folder / "lists.csv").unlink()
        (self.folder / "lists.csv").mkdir()
        self.assertIn("failed: ", self.run_tool("--rule", "loreg", self.folder, status=3)[1])

    def test_the_command_line(self):
        for words in (
            (),
            ("--rule", "loreg"),
            ("--rule", "none", "."),
            (".", "."),
            ("--language", "de", "."),
        ):
            self.run_tool(*words, status=2)
        self.assertIn("> setup.toml", self.run_tool("--help")[0])


if __name__ == "__main__":
    unittest.main()
