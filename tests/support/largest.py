"""An office that is as large as an office may be, and the same in plain Python.

Its setup has 8,388,608 bytes, 200 profiles, 200 constituencies and 60,000 stations. Among the
constituencies are one of 5,000 stations and 60 lists, each of 1,000 candidates, and one of 60 lists
and 500 seats by each method, with lots that alternate and with lots that do not; each code has 16
characters, each name 80 bytes. With SMALLER=N it has one of N stations, and fewer constituencies
and candidates: for a program that was built unproved, which is slow."""

import os
import tomllib
from functools import cache
from pathlib import Path

from tests.support import model
from tests.support.beside import CON_REPORTS, get
from tests.support.program import new, same, write


def code(letter, n):
    return f"{letter}{n:015}"


def name(text):
    """A name of 80 bytes and fewer characters."""
    left = 80 - len(text.encode())
    return text + "ñ" * (left // 2) + "x" * (left % 2)


# The methods and the rules on lots by which constituencies of 60 lists and 500 seats are allotted.
RULES = [
    (method, lot)
    for lot in ("alternating", "fixed")
    for method in ("dhondt", "sainte-lague", "modified-sainte-lague", "hare")
]


SMALLER = int(os.environ.get("SMALLER", "1"))


# The numbers of constituencies. Those from the first of `SIXTY` on have each one of `RULES`.
COUNTRY, WIDE, SIXTY, REVISED, EDITED, REST = 0, 1, 2, 10, 11, 12


ALL = max(REST + 1, 200 // SMALLER)


MOST_STATIONS = 5000 // SMALLER


STATIONS = 60000 // SMALLER


def profile_of(n):
    """The method, the rule on lots, the threshold and the base of a constituency."""
    method, lot = RULES[2 if n == COUNTRY else (n - SIXTY) % len(RULES)]
    return method, lot, 0 if n < REST else n * 50, ("valid", "lists")[n // 3 % 2]


def lists_of(n):
    """How many lists a constituency has, and how many candidates the first and the others have."""
    if n == COUNTRY:
        return 60, 1000, 1000 // SMALLER
    return (
        (60, 1000 if n == SIXTY else 9, 2)
        if SIXTY <= n < REVISED
        else (3, 2, 1) if n == WIDE else (1, 1, 1)
    )


def stations_of(n):
    """How many stations a constituency has: together there are 60,000."""
    if n < REST:
        return {COUNTRY: MOST_STATIONS, WIDE: MOST_STATIONS, REVISED: 1, EDITED: 1}.get(n, 4)
    left = STATIONS - sum(map(stations_of, range(REST)))
    return left // (ALL - REST) + (n - REST < left % (ALL - REST))


def table_of(n, first_station):
    """The text of a constituency. Its stations are numbered on from those before it."""
    lists, most, least = lists_of(n)
    text = (
        f'[[constituency]]\ncode = "{code("C", n)}"\nname = "{name(f"Constituency {n} ")}"\nseats ='
        f" {500 if lists == 60 else n % 500 + 1}\n"
    )
    text += f'profile = "{code("P", n)}"\nlist = [\n'
    for l in range(lists):
        names = ",".join(
            f'"{name(f"Candidate {place} of {l} ")}"'
            for place in range(1, (least if l else most) + 1)
        )
        text += f'{{code="{code("L", l)}",name="{name(f"List {l} ")}",candidates=[{names}]}},\n'
    stations = ",\n".join(
        f'{{code="{code("S", s)}",electors=1000000}}'
        for s in range(first_station, first_station + stations_of(n))
    )
    return f"{text}]\nstation=[\n{stations}]\n"


@cache
def setup():
    """The text of the setup, of as many bytes as a setup may have."""
    text = ""
    for n in range(ALL):
        method, lot, threshold, base = profile_of(n)
        text += (
            f'[[profile]]\ncode="{code("P", n)}"\nmethod="{method}"\n'
            f'threshold={threshold}\nbase="{base}"\nlot="{lot}"\n'
        )
    station = 0
    for n in range(ALL):
        text += table_of(n, station)
        station += stations_of(n)
    same(station, STATIONS)
    if SMALLER == 1:
        text += "#" * (8388608 - len(text.encode()))
        same(len(text.encode()), 8388608)
    return text


@cache
def parsed():
    return tomllib.loads(setup())


def plain_office():
    return model.Office(parsed())


@cache
def made():
    """The bytes of the database of the office as `new` makes it."""
    new(setup(), "made.db", ALL)
    text = Path("made.db").read_bytes()
    os.remove("made.db")
    return text


def begun():
    """The office as `new` makes it, as a file of this folder, and in plain Python."""
    write("office.db", made())
    return plain_office()


def con_of(plain, n):
    return plain.cons[code("C", n)]


def csv(con, returns, separator=","):
    """A file of returns: of each station its slip, its votes, and its blank and spoiled ones."""
    rows = [["station", "slip", "blank", "spoiled", *con.lists]]
    rows += [
        [station, slip, str(blank), str(spoiled), *map(str, votes)]
        for station, (slip, votes, blank, spoiled) in returns.items()
    ]
    return "".join(separator.join(row) + "\n" for row in rows)


def lodged(con, returns):
    """Notes in plain Python that these returns were lodged."""
    for station, (slip, votes, blank, spoiled) in returns.items():
        con.returns[station] = {
            "slip": slip,
            "votes": votes,
            "blank": blank,
            "spoiled": spoiled,
            "rev": 1,
            "status": "received",
            "note": "",
        }


def reports_of(con):
    return [get(f"/con/{con.code}/{report}") for report in CON_REPORTS]


# The paths to which a command is sent: with `anew`, a server is begun for each.
COMMANDS = (
    "/lodge",
    "/query",
    "/correct",
    "/close",
    "/confirm",
    "/draw",
    "/certify",
    "/reopen",
    "/vacate",
)


NOTE = name("a note ") + name("of two hundred bytes ") + "é" * 20
