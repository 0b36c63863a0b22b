"""Several changes of the tables at once, texts that are not in UTF-8, and what the tables hold."""

import contextlib
import shutil
import sqlite3
from pathlib import Path

from tests.support.office import RETURNS, SETUP, THREE_STATIONS
from tests.support.program import ProgramCase, imports, lines_of, new, rows, same, show
from tests.support.tables import COLUMNS, FORMER, answered, each_answered, ends, made


ONE_TOWN = """\
lodge s1 p1 100,100 = lodged 1
close s1 1 = moved 2
draw c1 1 B,A = edition 2
certify c1 2 = edition 3
"""


CHANGED = """\
no_tables: DROP TABLE returns
no_tables: DROP TABLE past; DROP TABLE lots
no_tables: DROP TABLE past
bad_tables: DROP TABLE past; DELETE FROM setup
bad_tables: DROP TABLE past; UPDATE setup SET version = 3
store: CREATE TABLE other (n INTEGER NOT NULL) STRICT
store: CREATE INDEX by_con ON returns (con)
store: DROP TABLE gone; CREATE TABLE gone (con TEXT NOT NULL) STRICT
store: CREATE TRIGGER aside AFTER DELETE ON past BEGIN SELECT 1; END
bad_tables: UPDATE setup SET version = 1
bad_tables: UPDATE setup SET version = 3
bad_tables: UPDATE setup SET id = 0
bad_tables: UPDATE setup SET id = 2
bad_tables: UPDATE setup SET id = 9223372036854775807
bad_tables: UPDATE setup SET version = 9223372036854775807
bad_tables: DELETE FROM setup
bad_setup: UPDATE setup SET text = 'x'
bad_setup: UPDATE setup SET text = 'x'; DELETE FROM cons
bad_tables: UPDATE seats SET n = 3 - n
bad_tables: UPDATE totals SET n = 99 WHERE item = 1
bad_tables: UPDATE returns SET slip = 'p 1'
bad_tables: DELETE FROM lots
opened: UPDATE cons SET edition = 4
bad_tables: UPDATE setup SET version = 0
bad_tables: INSERT INTO setup VALUES (2, 2, 'x')
bad_tables: UPDATE setup SET text = '[[', version = 7
no_tables: UPDATE setup SET text = '[['; DROP TABLE lots
bad_tables: UPDATE lots SET list = 3 - list
opened: DELETE FROM seats; UPDATE cons SET certified = 0
opened: DELETE FROM seats; UPDATE cons SET certified = 0; UPDATE lots SET list = 3 - list
opened: DELETE FROM seats; UPDATE cons SET certified = 0; DELETE FROM lots
bad_tables: DELETE FROM seats; UPDATE cons SET certified = 0; DELETE FROM lots WHERE place = 1
bad_tables: DELETE FROM seats; UPDATE cons SET certified = 0; DELETE FROM lots WHERE place = 2
bad_tables: DELETE FROM seats; UPDATE cons SET certified = 0; UPDATE returns SET status = 3;
    UPDATE totals SET n = 0
opened: DELETE FROM seats; UPDATE cons SET certified = 0; UPDATE returns SET status = 3;
    UPDATE totals SET n = 0; DELETE FROM lots
bad_tables: UPDATE counts SET n = 101 WHERE item = 1; UPDATE totals SET n = 101 WHERE item = 1
opened: UPDATE counts SET n = 200 WHERE item = 1; UPDATE totals SET n = 200 WHERE item = 1;
    DELETE FROM lots; UPDATE seats SET n = 3 - n
bad_tables: UPDATE counts SET n = 201 WHERE item = 1; UPDATE totals SET n = 201 WHERE item = 1;
    DELETE FROM lots; UPDATE seats SET n = 3 - n
opened: INSERT INTO gone VALUES ('c1', 1, 2, 'moved')
bad_tables: INSERT INTO gone VALUES ('c1', 1, 3, 'moved')
bad_tables: INSERT INTO gone VALUES ('c1', 3, 1, 'moved')
opened: INSERT INTO past VALUES ('c1', 2, 1, 3), ('c1', 2, 2, 0)
bad_tables: INSERT INTO past VALUES ('c1', 3, 1, 3), ('c1', 3, 2, 0)
bad_tables: INSERT INTO totals VALUES ('c1', 3, 0)
bad_tables: INSERT INTO seats VALUES ('c1', 3, 0)
bad_tables: INSERT INTO counts VALUES ('s1', 3, 0)
bad_tables: UPDATE returns SET rev = 10000
opened: UPDATE returns SET rev = 9999
bad_tables: UPDATE returns SET rev = 4294967298
bad_tables: UPDATE counts SET n = 4294967396 WHERE item = 1
bad_tables: UPDATE counts SET item = 4294967297 WHERE item = 1
bad_tables: UPDATE lots SET list = 4294967297 WHERE list = 1
bad_tables: UPDATE lots SET place = 4294967297 WHERE place = 1
bad_tables: UPDATE seats SET n = 4294967297 WHERE list = 1
opened: UPDATE cons SET edition = 9999
bad_tables: UPDATE cons SET edition = 10000
bad_tables: UPDATE cons SET edition = 4294967299
opened: DELETE FROM seats; UPDATE cons SET certified = 0; DELETE FROM lots;
    UPDATE totals SET n = 0; DELETE FROM returns; DELETE FROM counts
bad_tables: DELETE FROM seats; UPDATE cons SET certified = 0; DELETE FROM lots;
    UPDATE totals SET n = 0; DELETE FROM returns
bad_tables: DELETE FROM seats; UPDATE cons SET certified = 0; DELETE FROM lots;
    UPDATE totals SET n = 0; DELETE FROM counts
bad_tables: UPDATE returns SET station = 'zz'
bad_tables: UPDATE lots SET list = 2
bad_tables: UPDATE cons SET note = 'a' || char(10)
bad_tables: UPDATE counts SET item = 62 WHERE item = 61
bad_tables: INSERT INTO gone VALUES ('c1', 1, 9, 'x')
bad_setup: UPDATE setup SET text = '[['
opened: UPDATE setup SET text = replace(text, 'profile = "d0"', 'profile = "d0"' || char(10) ||
    'entry = "double"')
bad_setup: UPDATE setup SET text = replace(text, 'profile = "d0"', 'profile = "d0"' || char(10) ||
    'entry = "twice"')
opened: UPDATE setup SET text = replace(text, 'profile = "d0"', 'profile = "d0"' || char(10) ||
    'size = "large"')
bad_setup: UPDATE setup SET text = replace(text, 'profile = "d0"', 'profile = "d0"' || char(10) ||
    'size = "huge"')
opened: UPDATE setup SET text = replace(text, 'electors = 300', 'electors = 300' || char(10) ||
    'agents = 2')
bad_setup: UPDATE setup SET text = replace(text, 'electors = 300', 'electors = 300' || char(10) ||
    'agents = 1001')
bad_tables: DROP TABLE past; UPDATE setup SET version = 1; UPDATE seats SET n = 3 - n
"""


# A note of another program that a former setup has below a line, under the name of a key or beside
# it, and what an opening says of it.
NOTES = """\
profile = "d0" / size = "normal" => opened
profile = "d0" / size = "large" => opened
profile = "d0" / size = "huge" => bad_setup
profile = "d0" / size = "Large" => bad_setup
profile = "d0" / size = 8200 => bad_setup
profile = "d0" / size = ["large"] => bad_setup
profile = "d0" / agents = "two of each list" => opened
profile = "d0" / x_size = "huge" => opened
electors = 300 / agents = 0 => opened
electors = 300 / agents = 1000 => opened
electors = 300 / agents = 1001 => bad_setup
electors = 300 / agents = -1 => bad_setup
electors = 300 / agents = 2.0 => bad_setup
electors = 300 / agents = ["Ana", "Abel"] => bad_setup
electors = 300 / agents = "none" => bad_setup
electors = 300 / size = 300 => opened
electors = 300 / x_agents = ["Ana", "Abel"] => opened
code = "s1" / size = "small" => opened
code = "d0" / agents = "none" => opened
"""


# The return of the station, which has 300 electors, has 200 votes for A, 100 for B and a number of
# spoiled ones. The greatest quotients are 200 and 100 of A and 100 of B, so no lot is needed.
OF_MORE = """\
UPDATE counts SET n = 200 WHERE item = 1; UPDATE counts SET n = {0} WHERE item = 61;
UPDATE totals SET n = 200 WHERE item = 1; UPDATE totals SET n = {0} WHERE item = 61;
DELETE FROM lots; UPDATE seats SET n = 3 - n;
"""


# A certificate was reopened and a candidate is gone: every table but `lots` and `seats` has rows.
REOPENED = """\
lodge s1 p1 100,50 = lodged 1
close s1 1 = moved 2
certify c1 1 = edition 2
vacate c1 A 1 moved = vacated None
reopen c1 2 recount = edition 3
query s1 2 sum = moved 3
"""


NEW_TABLES = """\
returns
counts
cons
c1,1,0,
lots
seats
gone
totals
c1,0,0
c1,1,0
c1,2,0
c1,61,0
past
"""


# The number of a status is 4 where a return is closed.
CERTIFIED = """\
lodge s1 p1 100,100 7 2 = lodged 1
close s1 1 = moved 2
draw c1 1 B,A = edition 2
certify c1 2 = edition 3
vacate c1 B 1 resigned = vacated None
"""


CERTIFIED_TABLES = """\
returns
s1,c1,2,p1,4,
counts
s1,0,7
s1,1,100
s1,2,100
s1,61,2
cons
c1,3,1,
lots
c1,1,2
c1,2,1
seats
c1,1,1
c1,2,2
gone
c1,2,1,resigned
totals
c1,0,7
c1,1,100
c1,2,100
c1,61,2
past
"""


# Opened again and queried: no seats, no lot, no sums, and the certificate on record.
REOPENED_TABLES = """\
returns
s1,c1,3,p1,2,sum
counts
s1,0,7
s1,1,100
s1,2,100
s1,61,2
cons
c1,4,0,recount
lots
seats
gone
c1,2,1,resigned
totals
c1,0,0
c1,1,0
c1,2,0
c1,61,0
past
c1,3,1,1
c1,3,2,2
"""


# A corrected return has other counts, and is not among the sums.
CORRECTED = """\
lodge s1 p1 100,100 7 2 = lodged 1
query s1 1 sum = moved 2
correct s1 2 p2 120,120 1 = moved 3
"""


CORRECTED_TABLES = """\
returns
s1,c1,3,p2,3,sum
counts
s1,0,1
s1,1,120
s1,2,120
s1,61,0
cons
c1,1,0,
lots
seats
gone
totals
c1,0,0
c1,1,0
c1,2,0
c1,61,0
past
"""


# Closed again it is.
CLOSED_TABLES = CORRECTED_TABLES.replace("s1,c1,3,p2,3,sum", "s1,c1,4,p2,4,sum").replace(
    "c1,0,0\nc1,1,0\nc1,2,0\nc1,61,0", "c1,0,1\nc1,1,120\nc1,2,120\nc1,61,0"
)


def tables(db):
    """The rows of each table in the order of their keys."""
    found = rows(db)
    return "".join(
        "".join(f"{','.join(map(str, row))}\n" for row in [[table], *found[table]])
        for table in COLUMNS
    )


def noted(at, note):
    """The statement that adds a line to the setup, below another."""
    return f"UPDATE setup SET text = replace(text, '{at}', '{at}' || char(10) || '{note}');"


def taken_over(statements):
    """The answer of the program to the office of version 1 after these statements: `opened` or a
    word.

    Where it opens, the tables have what they had, and are of version 2. Else each byte of the
    database is as it was.
    """
    shutil.copy("good.db", "office.db")
    with contextlib.closing(sqlite3.connect("office.db")) as it:
        it.executescript(statements)
        wanted = rows()
        it.executescript(FORMER)
    before = Path("office.db").read_bytes()
    ran = show("progress", con=None)
    if ran.status == 0:
        same((ran.err, rows()), ("", wanted), statements)
        return "opened"
    same(Path("office.db").read_bytes(), before, statements)
    same((ran.status, ran.out, ran.err[:9]), (1, "", "refused: "), statements)
    return ran.err[9:-1]


class Tables(ProgramCase):
    def test_several_changes_at_once(self):
        made(SETUP, ONE_TOWN)
        self.assertEqual(answered(""), "opened")
        each_answered(self, CHANGED)
        for column in ("id", "version"):
            with self.subTest(column=column):
                self.assertEqual(answered(f"UPDATE setup SET {column} = 'x'"), None)
        ends()

    def test_tables_of_version_1_are_taken_over(self):
        made(SETUP, ONE_TOWN)
        shutil.copy("good.db", "office.db")
        with contextlib.closing(sqlite3.connect("office.db")) as it:
            it.executescript(FORMER)
        self.assertEqual(show("progress", con=None).status, 0)
        self.assertEqual(rows(), rows("good.db"))

    def test_notes_of_former_setups_have_the_meaning_of_their_names(self):
        """In a database of version 1, and in one of today's: a note with a value that a key takes
        is that key, and one with another value is no setup. Elsewhere, and under names that begin
        with `x_`, it is a note as before.
        """
        made(SETUP, ONE_TOWN)
        self.assertEqual(taken_over(""), "opened")
        for line in lines_of(NOTES):
            edit, word = line.split(" => ")
            at, note = edit.split(" / ")
            with self.subTest(at=at, note=note):
                text = noted(at, note)
                self.assertEqual((taken_over(text), answered(text)), (word, word))
        ends()

    def test_returns_of_a_former_setup_are_judged_by_electors_and_agents(self):
        """A return has 300 votes for lists and one spoiled one, or two: of 300 electors it is none
        without agents.
        """
        made(SETUP, ONE_TOWN)
        for spoiled, note, word in (
            (0, "", "opened"),
            (1, "", "bad_tables"),
            (1, "agents = 0", "bad_tables"),
            (1, "agents = 1", "opened"),
            (2, "agents = 1", "bad_tables"),
            (2, "agents = 2", "opened"),
            (2, "x_agents = 2", "bad_tables"),
            (2, "agents = 2.0", "bad_setup"),
        ):
            with self.subTest(spoiled=spoiled, note=note):
                text = OF_MORE.format(spoiled) + (noted("electors = 300", note) if note else "")
                self.assertEqual((taken_over(text), answered(text)), (word, word))
        ends()

    def test_no_text_that_is_not_utf_8_is_taken(self):
        made(SETUP, REOPENED)
        for table, column, word in (
            ("setup", "text", "bad_setup"),
            ("returns", "station", "bad_tables"),
            ("returns", "con", "bad_tables"),
            ("returns", "slip", "bad_tables"),
            ("returns", "note", "bad_tables"),
            ("counts", "station", "bad_tables"),
            ("cons", "con", "bad_tables"),
            ("cons", "note", "bad_tables"),
            ("gone", "con", "bad_tables"),
            ("gone", "note", "bad_tables"),
            ("totals", "con", "bad_tables"),
            ("past", "con", "bad_tables"),
        ):
            with self.subTest(table=table, column=column, word=word):
                found = answered(
                    f"UPDATE {table} SET {column} = CAST(x'ff6f' AS TEXT) WHERE rowid = (SELECT"
                    f" min(rowid) FROM {table})"
                )
                with contextlib.closing(sqlite3.connect("office.db")) as it:
                    stored = it.execute(
                        f"SELECT count(*) FROM {table} WHERE CAST({column} AS BLOB) = x'ff6f'"
                    ).fetchall()
                self.assertEqual((stored, found), ([(1,)], word))
        ends()

    def test_the_tables_hold_what_was_done(self):
        for number, (script, wanted) in enumerate(
            (
                ("", NEW_TABLES),
                (CERTIFIED, CERTIFIED_TABLES),
                (
                    CERTIFIED + "reopen c1 3 recount = edition 4\nquery s1 2 sum = moved 3\n",
                    REOPENED_TABLES,
                ),
                (CORRECTED, CORRECTED_TABLES),
                (CORRECTED + "close s1 3 = moved 4\n", CLOSED_TABLES),
            )
        ):
            with self.subTest(number=number):
                self.assertEqual(tables(made(SETUP, script, f"{number}.db")), wanted)

    def test_the_tables_after_imports(self):
        new(THREE_STATIONS)
        imports({"lodged": 2, "bad": 1, "first": "2 0"}, RETURNS.replace("30,40", "x,40"))
        two = tables("office.db")
        self.assertEqual(
            two,
            NEW_TABLES.replace(
                "returns\ncounts\n",
                """\
returns
s1,c1,1,p1,1,
s3,c1,1,p3,1,
counts
s1,0,0
s1,1,10
s1,2,20
s1,61,0
s3,0,0
s3,1,50
s3,2,60
s3,61,2
""",
            ),
        )
        imports({"lodged": 1, "same": 2}, RETURNS)
        three = two.replace("s3,c1", "s2,c1,1,p2,1,\ns3,c1").replace(
            "s3,0,0", "s2,0,1\ns2,1,30\ns2,2,40\ns2,61,0\ns3,0,0"
        )
        self.assertEqual(tables("office.db"), three)
        imports({"same": 2, "differs": 1, "first": "2 7"}, RETURNS.replace("30,40", "31,40"))
        self.assertEqual(tables("office.db"), three)

    def test_an_import_of_20000_rows(self):
        new()
        imports(
            {"lodged": 1, "bad": 19999, "first": "2 0"},
            "station,slip,blank,spoiled,A,B\ns1,p1,0,0,10,20\n" + "x\n" * 19999,
        )
        self.assertEqual(
            tables("office.db"),
            NEW_TABLES.replace(
                "returns\ncounts\n",
                "returns\ns1,c1,1,p1,1,\ncounts\ns1,0,0\ns1,1,10\ns1,2,20\ns1,61,0\n",
            ),
        )
