"""Setups, returns and trials as editors and spreadsheets save them, through each way in."""

import os
import shutil
import sqlite3
from contextlib import closing

from tests.support.desk import serving
from tests.support.office import RETURNS, SETUP, THREE_STATIONS, constituency, party_list, profile
from tests.support.office import station
from tests.support.program import ProgramCase, Ran, imports, new, office, recount, rows, write

PLAIN = SETUP + '\n# an office of one station\n[[profile]]\ncode = "p"\nmethod = "hare"\n' + (
    'threshold = 300\nbase = "lists"\n'
)
# Texts of one setup, by the program that saved it.
SETUPS = {
    "lines that end with CR LF": PLAIN.replace("\n", "\r\n"),
    "tabs around each value": PLAIN.replace(" = ", "\t=\t").replace('"\n', '"\t\n'),
    "tabs in front": PLAIN.replace("\ncode", "\n\tcode"),
    "texts in single quotes": PLAIN.replace('"', "'"),
    "keys in quotes": PLAIN.replace("code =", '"code" =').replace("name =", "'name' ="),
    "escapes": PLAIN.replace("Twin Town", "Tw\\u0069n\\U00000020Town").replace("Ana", "\\u0041na"),
    "numbers with underscores and bases": PLAIN.replace("300", "3_0_0").replace(" 3\n", " 0x3\n"),
    "an array over lines": PLAIN.replace('["Ana", "Abel"]', '[\r\n\t"Ana", # first\n"Abel",\n]'),
    "comments": PLAIN.replace("\n[[", " # so\r\n#\r\n[["),
    "no last line end": PLAIN.rstrip("\n"),
    "white space between tables": PLAIN.replace("\n\n", "\r\n \t\r\n\n"),
}


def stored(db):
    with closing(sqlite3.connect(db)) as it:
        return it.execute("SELECT text FROM setup").fetchone()[0]


class Setups(ProgramCase):
    def test_a_setup_as_programs_save_it(self):
        """An office is made of each, keeps its text, is opened again, and is the same office."""
        new(PLAIN, "plain.db")
        plain = {name: found for name, found in rows("plain.db").items() if name != "setup"}
        wanted = office("show", "--db", "plain.db", "--report", "tally", "--con", "c1")
        for number, (name, text) in enumerate(SETUPS.items()):
            with self.subTest(name=name):
                db = new(text, f"{number}.db")
                self.assertEqual(stored(db), text)
                found = {name: found for name, found in rows(db).items() if name != "setup"}
                self.assertEqual(found, plain)
                shown = office("show", "--db", db, "--report", "tally", "--con", "c1")
                self.assertEqual(shown, wanted)

    def test_a_setup_with_a_mark(self):
        """As some editors save it: an office is made of it, and a recount reads it."""
        db = new("\ufeff" + PLAIN)
        self.assertEqual(stored(db), "\ufeff" + PLAIN)
        self.assertEqual(office("show", "--db", db, "--report", "progress").status, 0)
        recount(db)
        os.remove(db)

    def test_setups_in_other_encodings(self):
        for text in (("\ufeff" + PLAIN).encode("utf-16-le"), PLAIN.encode("utf-16-le"),
                     PLAIN.replace("Ana", "Aña").encode("latin-1"), PLAIN.replace("\n", "\r")):
            with self.subTest(text=text):
                write("setup.toml", text)
                ran = office("new", "--db", "new.db", "--setup", "setup.toml")
                self.assertEqual((ran.status, ran.err[:18]), (1, "refused: not_toml\n"))

    def test_places_in_lines_that_end_with_carriage_returns(self):
        """A line ends with its LF; the first column is 1."""
        for text, place in (
            ("a = 1\r\n\r\nb\r\n", "at line 3, column 2"),
            ("a = 1\r\n\ta = 2\r\n", "at line 2, column 2"),
            ("a = 1\r\nb = \t,\r\n", "at line 2, column 6"),
        ):
            with self.subTest(text=text):
                for given in (text, text.replace("\r\n", "\n")):
                    write("setup.toml", given)
                    ran = office("new", "--db", "new.db", "--setup", "setup.toml")
                    self.assertEqual(ran, Ran(1, "", f"refused: not_toml\n{place}\n"))

    def test_a_fault_in_a_setup_with_carriage_returns(self):
        """It is that of the same setup with other ends of lines."""
        for old, new_text in (("300", "0"), ('"A"', '"A B"'), ("seats = 3", "seats = 501")):
            with self.subTest(new=new_text):
                wrong = SETUP.replace(old, new_text, 1)
                write("setup.toml", wrong)
                wanted = office("new", "--db", "new.db", "--setup", "setup.toml")
                self.assertEqual(wanted.status, 1)
                write("setup.toml", wrong.replace("\n", "\r\n"))
                self.assertEqual(office("new", "--db", "new.db", "--setup", "setup.toml"), wanted)


def quoted(text):
    return "".join(
        ",".join(f'"{field}"' for field in line.split(",")) + "\n" for line in text.splitlines()
    )


MARK = "\ufeff"
# Texts of the same three returns.
FILES = {
    "LF": RETURNS,
    "CR LF": RETURNS.replace("\n", "\r\n"),
    "CR": RETURNS.replace("\n", "\r"),
    "blank lines": RETURNS.replace("\n", "\n\r\n"),
    "no last line end": RETURNS.rstrip(),
    "a mark": MARK + RETURNS,
    "a mark and CR LF": MARK + RETURNS.replace("\n", "\r\n"),
    "quotes": quoted(RETURNS),
    "quotes, a mark and CR LF": MARK + quoted(RETURNS).replace("\n", "\r\n"),
    "quotes around one field": RETURNS.replace("s2,p2", 's2,"p2"'),
    "zeros in front": RETURNS.replace("30,40", "030,000000040"),
}
# Texts of two returns and a row that is bad, with the cause of that.
SPOILED = {
    "tabs around a number": (RETURNS.replace("30,40", "30,\t40"), "bad_number B"),
    "a space before a number": (RETURNS.replace("30,40", "30, 40"), "bad_number B"),
    "a tab after a code": (RETURNS.replace("s2,", "s2\t,"), "bad_station"),
    "a point of thousands": (RETURNS.replace("30,40", "30,1.040"), "bad_number B"),
    "a sign": (RETURNS.replace("30,40", "30,+40"), "bad_number B"),
    "a line end in quotes": (RETURNS.replace("p2,", '"p2\n",'), "bad_slip"),
}
COUNTS = ("lodged", "same", "differs", "refused", "bad", "first")


def trial_text(row=""):
    counts = {"lodged": 2 if row else 3, "bad": 1 if row else 0, "first": "2 0" if row else "-"}
    lines = [f"{name} {counts.get(name, 0)}" for name in COUNTS]
    return "".join(f"{line}\n" for line in lines + ([f"row 2 0 {row}"] if row else []))


class Files(ProgramCase):
    def forms(self):
        """Each text with its cause, flags and the end of its path, by commas and semicolons."""
        texts = {name: (text, "") for name, text in FILES.items()} | SPOILED
        for name, (text, row) in texts.items():
            yield name, text, row, (), ""
            yield f"{name}, semicolons", text.replace(",", ";"), row, ("--semicolon",), "/semicolon"

    def test_trials(self):
        """A trial of each says what the import says then, and a second one that all are there."""
        new(THREE_STATIONS, "new.db")
        for name, text, row, _, path in self.forms():
            with self.subTest(name=name):
                shutil.copy("new.db", "office.db")
                with serving("office.db", 3) as desk:
                    tried = desk.ask("POST", f"/con/c1/trial{path}", text.encode())
                    done = desk.ask("POST", f"/con/c1/import{path}", text.encode())
                    again = desk.ask("POST", f"/con/c1/trial{path}", text.encode())
                self.assertEqual((tried[0], tried[2]), (200, trial_text(row)))
                lodged = 2 if row else 3
                self.assertEqual((done[0], f'"lodged":{lodged}' in done[2]), (200, True))
                self.assertEqual(again[2].splitlines()[:2], ["lodged 0", f"same {lodged}"])

    def test_checks_and_imports(self):
        """Of each, `check --rows` and `import` count the same rows."""
        new(THREE_STATIONS, "new.db")
        for name, text, row, flags, _ in self.forms():
            with self.subTest(name=name):
                counts = {"lodged": 2, "bad": 1, "first": "2 0"} if row else {"lodged": 3}
                shutil.copy("new.db", "office.db")
                imports(counts, text, flags=flags)
                checked = office("check", "--rows", *flags, given=text)
                lines = checked.out.splitlines()
                self.assertEqual(lines[:6], trial_text(row).splitlines()[:6])
                self.assertEqual(lines[10:], [f"row 2 0 {row}"] if row else [])

    def test_a_file_of_any_name(self):
        """Its name does not say its form."""
        new(THREE_STATIONS, "new.db")
        for name in ("returns.tsv", "returns.csv;", "returns", "x.txt", "x.csv.gz", "ñ é.CSV"):
            with self.subTest(name=name):
                shutil.copy("new.db", "office.db")
                write(name, RETURNS)
                ran = office("import", "--db", "office.db", "--con", "c1", "--csv", f"./{name}")
                self.assertEqual((ran.status, ran.out.splitlines()[0]), (0, "lodged 3"))


# A list for each kind of code: with each sign that a code may have, at each end of it.
CODES = ("_", "-", "a_b", "_a", "a_", "a-b", "a-", "0", "Z9", "A" * 16, "_" * 16, "z")


def seats_drawn(codes):
    """A lot among all lists, in the reverse order: the first half have the seats."""
    return codes[::-1], {code: int(n < len(codes) // 2) for n, code in enumerate(codes[::-1])}


class Codes(ProgramCase):
    def test_a_lot_over_codes_of_each_kind(self):
        """All lists have as many votes; half of them get a seat by lot."""
        for method, con, at in (("dhondt", "_con-1", "_s-1"), ("hare", "c_" + "-" * 14, "-" * 16)):
            with self.subTest(method=method):
                lists = "".join(party_list(code, f"List {code}", "x") for code in CODES)
                setup = profile("_", method) + constituency(con, "Town", len(CODES) // 2, "_")
                db = new(setup + lists + station(at), f"{method}.db")
                self.elect(db, con, at)

    def elect(self, db, con, at):
        order, won = seats_drawn(CODES)
        votes = f'"votes":{[7] * len(CODES)},"blank":0,"spoiled":0'
        codes = ",".join(f'"{code}"' for code in order)
        with serving(db, 4) as desk:
            for path, body in (
                (f"/station/{at}/lodge", f'{{"slip":"_-_",{votes}}}'),
                (f"/station/{at}/close", '{"rev":1}'),
                (f"/con/{con}/draw", f'{{"edition":1,"order":[{codes}]}}'),
                (f"/con/{con}/certify", '{"edition":2}'),
            ):
                self.assertEqual(desk.ask("POST", path, body)[0], 200, path)
        shown = office("show", "--db", db, "--report", "seats", "--con", con)
        lines = [line.split()[:2] for line in shown.out.splitlines()[2:-1]]
        self.assertEqual(lines, [[code, str(won[code])] for code in CODES])
