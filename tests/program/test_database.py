"""Which databases the program opens: each row of an office's tables changed, left out or repeated.

The databases are those that the program made and changed by requests. It is C SQLite, by Python's
`sqlite3`, that changes them then and refuses what a table does not take.
"""

import contextlib
import sqlite3

from tests.support.office import SETUP, constituency, party_list, profile, station
from tests.support.program import ProgramCase, lines_of
from tests.support.tables import COLUMNS, answered, each_answered, ends, made


# The values to which a text is changed: the codes of two constituencies and a station, no text, a
# note that is no code, a text that is neither, and a number, which is stored as a text.
TEXTS = ("'c1'", "'c2'", "'t1'", "''", "'x y'", "'\n'", "0")


# The values to which a number is changed: its neighbours, 0, the largest number, and a text.
NUMBERS = {
    "+ 1": lambda n: n + 1,
    "- 1": lambda n: n - 1,
    "* 0": lambda n: 0,
    "* 0 + 9223372036854775807": lambda n: 9223372036854775807,
    "|| 'x'": lambda n: None,
}


# The columns of the key of each table.
KEYS = {
    "returns": 1,
    "counts": 2,
    "cons": 1,
    "lots": 2,
    "seats": 2,
    "gone": 3,
    "totals": 2,
    "past": 3,
}


# The changes with which an office opens whatever the row: a slip may be any code, a note any line
# of text, and of a candidate who is gone not an empty one.
ALWAYS_OPENED = {
    ("returns", "slip"): ("'c1'", "'c2'", "'t1'", "0"),
    ("returns", "note"): ("'c1'", "'c2'", "'t1'", "''", "'x y'", "0"),
    ("cons", "note"): ("'c1'", "'c2'", "'t1'", "''", "'x y'", "0"),
    ("gone", "note"): ("'c1'", "'c2'", "'t1'", "'x y'", "0"),
}


def literal(value):
    return str(value) if isinstance(value, int) else "'" + value.replace("'", "''") + "'"


def selected(table, where):
    """The rows of a table, each after its rowid, in the order of the columns."""
    with contextlib.closing(sqlite3.connect("good.db")) as it:
        names = ", ".join(COLUMNS[table])
        return it.execute(f"SELECT rowid, {names} FROM {table} {where} ORDER BY {names}").fetchall()


def changed(value, change):
    """A value of a row after a change; None where it would be no number in a column of numbers."""
    return change.strip("'") if isinstance(value, str) else NUMBERS[change](value)


def is_refused(table, values, place, value):
    """Whether the table itself refuses this value in one place of a row.

    That is a text in a column of numbers, a key that another row has, a status other than 1 to 4,
    and a number below 0 in `counts` and `totals`.
    """
    if value is None:
        return True
    column, key = COLUMNS[table][place], KEYS[table]
    if (table, column) == ("returns", "status"):
        return value not in (1, 2, 3, 4)
    if column == "n" and table in ("counts", "totals"):
        return value < 0
    after = [*values[:place], value, *values[place + 1 :]]
    others = [row[1:] for row in selected(table, "") if list(row[1:]) != list(values)]
    return place < key and after[:key] in [list(row[:key]) for row in others]


def rows_that_open(text):
    """The exceptions of a text, `TABLE ROW: CHANGE, ..`, each as a triple."""
    for line in lines_of(text):
        row, changes = line.split(": ")
        yield from ((*row.split(" "), change) for change in changes.split(", "))


def each_change(tables, where=""):
    """Each change of a row: its table, row and name, the statement and the word by the rule.

    By the rule a changed row is bad. One that the table itself refuses changes nothing, and a value
    that stays, or that is among `ALWAYS_OPENED`, leaves an office that opens.
    """
    for table in tables:
        for rowid, *values in selected(table, where):
            row = ",".join(map(str, values))
            for place, (column, value) in enumerate(zip(COLUMNS[table], values)):
                of_text = isinstance(value, str)
                for change in TEXTS if of_text else NUMBERS:
                    new = changed(value, change)
                    word = "bad_tables"
                    if new == value or change in ALWAYS_OPENED.get((table, column), ()):
                        word = "opened"
                    elif is_refused(table, values, place, new):
                        word = None
                    other = change if of_text else f"{column} {change}"
                    statement = f"UPDATE {table} SET {column} = {other} WHERE rowid = {rowid}"
                    yield table, row, f"{column} {change}", statement, word
            insert = f"INSERT INTO {table} VALUES ({', '.join(map(literal, values))})"
            yield table, row, "twice", insert, None
            delete = f"DELETE FROM {table} WHERE rowid = {rowid}"
            yield table, row, "deleted", delete, "bad_tables"


def each_exchange(tables, where=""):
    """Each two rows that follow one another with one another's last value, and what is answered.

    Where the values differ the tables are bad, but of candidates who are gone and of certificates
    on record.
    """
    for table in tables:
        found = selected(table, where)
        update = f"UPDATE {table} SET {COLUMNS[table][-1]} ="
        for one, other in zip(found, found[1:]):
            word = "opened" if one[-1] == other[-1] or table in ("gone", "past") else "bad_tables"
            first = f"{update} {literal(other[-1])} WHERE rowid = {one[0]}"
            second = f"{update} {literal(one[-1])} WHERE rowid = {other[0]}"
            yield word, f"{first}; {second}"


def changes_are_answered(case, exceptions, tables, where=""):
    """Each change of a row is answered by the rule, but the exceptions, which open."""
    exceptions, met = set(rows_that_open(exceptions)), set()
    for table, row, name, statement, word in each_change(tables, where):
        if (table, row, name) in exceptions:
            met.add((table, row, name))
            word = "opened"
        with case.subTest(table=table, row=row, change=name):
            case.assertEqual(answered(statement), word)
    case.assertEqual(exceptions - met, set())
    for word, statements in each_exchange([it for it in tables if it in LAST_OF_SEVERAL], where):
        with case.subTest(statements=statements):
            case.assertEqual(answered(statements), word)


# The tables of which two rows are exchanged.
LAST_OF_SEVERAL = ("lots", "seats", "gone", "totals", "past")


LONG_SHORE = (
    constituency("c2", "Long Shore", 2, "d0")
    + party_list("A", "Alpha", "Ada")
    + station("t1")
    + station("t2")
)


# In c1 a lot was drawn; a certificate was reopened and another one given; a candidate is gone. In
# c2 a return is queried and one is closed.
TWO_TOWNS = """\
lodge s1 p1 100,100 = lodged 1
close s1 1 = moved 2
draw c1 1 B,A = edition 2
certify c1 2 = edition 3
reopen c1 3 recount = edition 4
certify c1 4 = edition 5
vacate c1 B 1 resigned = vacated None
lodge t1 q1 50 3 2 = lodged 1
query t1 1 sum = moved 2
lodge t2 q2 60 = lodged 1
close t2 1 = moved 2
"""


# A revision may be another one, and a return that is not closed may be queried or corrected, with
# other numbers. An edition may be another one that is above those on record. Another candidate of
# c1 may be gone, or nobody.
TWO_TOWNS_OPENED = """\
returns s1,c1,2,p1,4,: rev + 1, rev - 1
returns t1,c2,2,q1,2,sum: rev + 1, rev - 1, status + 1, status - 1
returns t2,c2,2,q2,4,: rev + 1, rev - 1
counts t1,0,3: n + 1, n - 1, n * 0
counts t1,1,50: n + 1, n - 1, n * 0
counts t1,61,2: n + 1, n - 1, n * 0
cons c1,5,1,recount: edition + 1, edition - 1
cons c2,1,0,: edition + 1
gone c1,2,1,resigned: list - 1, deleted
"""


# Hare with a threshold of 5 per cent of the valid votes; 5 seats.
THREE_RIVERS = (
    "\n"
    + profile("h5", "hare", 500)
    + constituency("c2", "Three Rivers", 5, "h5")
    + "".join(
        party_list(code, f"List {code}", *names)
        for code, names in (
            ("A", ("Ana", "Abel", "Ada")),
            ("B", ("Bea", "Ben")),
            ("C", ("Cid",)),
            ("D", ("Dan",)),
        )
    )
    + station("r1", 1000)
    + station("r2", 1000)
)


# In c1 lots alternate: the lot B, A is turned round for second seats, so that the third seat is
# A's. A certificate was reopened and another one given; a candidate is gone.
IN_C1 = """\
lodge s1 p1 100,100 = lodged 1
close s1 1 = moved 2
draw c1 1 B,A = edition 2
certify c1 2 = edition 3
reopen c1 3 recount = edition 4
certify c1 4 = edition 5
vacate c1 B 1 resigned = vacated None
"""


# In c2 list D has 59 of 1,181 valid votes, which is less than a twentieth by one vote: 590,000 and
# not 590,500. Of the other 942 votes A has 2 quotas and 266 over, B and C have 1 and 338 each: the
# fifth seat is C's by the lot. With D there would be 1,001 votes, of which D has 295 over and B and
# C 279: the fifth seat would be D's. At first B had one vote more: of 943 votes 342 over, and C
# 337.
IN_C2 = """\
lodge r1 p1 230,156,156,30 80 = lodged 1
lodge r2 q1 200,101,100,29 100 = lodged 1
close r1 1 = moved 2
close r2 1 = moved 2
certify c2 1 = edition 2
vacate c2 A 1 moved = vacated 3
reopen c2 2 recount = edition 3
query r2 2 sum = moved 3
correct r2 3 q2 200,100,100,29 100 = moved 4
close r2 4 = moved 5
draw c2 3 C,B = edition 4
certify c2 4 = edition 5
vacate c2 B 1 died = vacated 2
"""


# Others may be gone in place of Ana and Bea, or nobody: also the first candidate of A in c1, the
# second of A or of B, and the first of C.
HARE_OPENED = """\
gone c2,1,1,moved: con 'c1', place + 1, deleted
gone c2,2,1,died: list + 1, place + 1, deleted
"""


# Another candidate of c1 may be gone, or nobody.
ALTERNATING_OPENED = """\
gone c1,2,1,resigned: list - 1, deleted
"""


# With one vote more in r2 list D has a twentieth, 600,000 and not less than 591,000: of 1,002 votes
# it has 300 over, B and C 278.
TOGETHER = """\
opened: UPDATE lots SET list = 3 - list WHERE con = 'c1';
    UPDATE seats SET n = 3 - n WHERE con = 'c1'
opened: UPDATE lots SET list = 5 - list WHERE con = 'c2';
    UPDATE seats SET n = 3 - n WHERE con = 'c2' AND list > 1 AND list < 4
bad_tables: UPDATE seats SET n = 1 WHERE con = 'c2' AND list > 2
bad_tables: UPDATE seats SET n = 1 WHERE con = 'c2' AND list > 2; DELETE FROM lots WHERE con = 'c2'
bad_tables: UPDATE counts SET n = 30 WHERE station = 'r2' AND item = 4;
    UPDATE totals SET n = 60 WHERE con = 'c2' AND item = 4
bad_tables: UPDATE counts SET n = 30 WHERE station = 'r2' AND item = 4;
    UPDATE totals SET n = 60 WHERE con = 'c2' AND item = 4; DELETE FROM lots WHERE con = 'c2'
opened: UPDATE counts SET n = 30 WHERE station = 'r2' AND item = 4;
    UPDATE totals SET n = 60 WHERE con = 'c2' AND item = 4; DELETE FROM lots WHERE con = 'c2';
    UPDATE seats SET n = 1 WHERE con = 'c2' AND list > 2
opened: UPDATE past SET edition = 4 WHERE con = 'c2'
bad_tables: UPDATE past SET edition = 5 WHERE con = 'c2'
bad_tables: UPDATE past SET edition = 0 WHERE con = 'c2'
opened: UPDATE past SET n = 0 WHERE con = 'c2'; UPDATE past SET n = 5 WHERE con = 'c2' AND list = 4
bad_tables: UPDATE past SET n = 0 WHERE con = 'c2';
    UPDATE past SET n = 4 WHERE con = 'c2' AND list = 4
opened: DELETE FROM past
opened: DELETE FROM gone
bad_tables: DELETE FROM lots WHERE con = 'c1'
bad_tables: DELETE FROM seats WHERE con = 'c2'
"""


class Database(ProgramCase):
    def test_a_changed_row_of_two_towns(self):
        made(SETUP + LONG_SHORE, TWO_TOWNS, constituencies=2)
        changes_are_answered(self, TWO_TOWNS_OPENED, COLUMNS)
        ends()

    def test_a_changed_row_by_other_rules(self):
        made(
            SETUP.replace('base = "valid"\n', 'base = "valid"\nlot = "alternating"\n')
            + THREE_RIVERS,
            IN_C1 + IN_C2,
            constituencies=2,
        )
        changes_are_answered(self, ALTERNATING_OPENED, LAST_OF_SEVERAL, "WHERE con = 'c1'")
        changes_are_answered(self, HARE_OPENED, LAST_OF_SEVERAL, "WHERE con = 'c2'")
        self.assertEqual(answered(""), "opened")
        each_answered(self, TOGETHER)
        ends()
