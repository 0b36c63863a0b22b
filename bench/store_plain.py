#!/usr/bin/env python3
"""Does with a database of an office what C SQLite does with such rows, for the comparison with the kit's.

    store_plain.py write DATABASE CON RETURNS    writes the rows that an import of the returns writes
    store_plain.py read DATABASE                 reads all rows of its tables, and prints how many there are
    store_plain.py check DATABASE                the same after `PRAGMA integrity_check`

The journal is that of the file, a log (WAL), and each commit is synced as the office's are.
"""

import sqlite3
import sys

KEYS = {
    "setup": "id",
    "returns": "station",
    "counts": "station, item",
    "cons": "con",
    "lots": "con, place",
    "seats": "con, list",
    "gone": "con, list, place",
    "totals": "con, item",
    "past": "con, edition, list",
}


def write(conn, con, returns):
    conn.execute("BEGIN")
    with open(returns, encoding="ascii") as text:
        next(text)
        for line in text:
            station, slip, blank, spoiled, *votes = line.rstrip("\n").split(",")
            conn.execute("INSERT INTO returns VALUES (?, ?, 1, ?, 1, '')", (station, con, slip))
            items = [(0, blank), *enumerate(votes, 1), (61, spoiled)]
            rows = [(station, item, int(n)) for item, n in items]
            conn.executemany("INSERT INTO counts VALUES (?, ?, ?)", rows)
    conn.execute("COMMIT")


def read(conn):
    queries = (f"SELECT * FROM {table} ORDER BY {key}" for table, key in KEYS.items())
    print(sum(1 for query in queries for _ in conn.execute(query)))


def main():
    what, db, *more = sys.argv[1:]
    conn = sqlite3.connect(db, isolation_level=None)
    conn.execute("PRAGMA synchronous = extra")
    if what == "write":
        write(conn, *more)
    else:
        if what == "check" and conn.execute("PRAGMA integrity_check").fetchall() != [("ok",)]:
            sys.exit("the file is damaged")
        read(conn)
    conn.close()


if __name__ == "__main__":
    main()
