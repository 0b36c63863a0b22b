"""Offices made by scripts of requests, and what the program answers to their databases once
changed.
"""

import contextlib
import shutil
import sqlite3
import tomllib
from pathlib import Path

from tests.support import openapi
from tests.support.desk import serving, take
from tests.support.program import database, lines_of, new, only, same, show


# The tables but `setup`, and their columns, those of the key first.
COLUMNS = {
    "returns": ("station", "con", "rev", "slip", "status", "note"),
    "counts": ("station", "item", "n"),
    "cons": ("con", "edition", "certified", "note"),
    "lots": ("con", "place", "list"),
    "seats": ("con", "list", "n"),
    "gone": ("con", "list", "place", "note"),
    "totals": ("con", "item", "n"),
    "past": ("con", "edition", "list", "n"),
}


FORMER = "DROP TABLE past; UPDATE setup SET version = 1; "


def counts_of(votes, blank="0", spoiled="0"):
    return {
        "votes": [int(n) for n in votes.split(",")],
        "blank": int(blank),
        "spoiled": int(spoiled),
    }


def request(line):
    """The path and the body of a command such as `lodge STATION SLIP VOTES BLANK SPOILED` or `draw
    CONSTITUENCY EDITION LISTS`.
    """
    verb, of, *words = line.split()
    if verb == "lodge":
        body = {"slip": words[0], **counts_of(*words[1:])}
    elif verb in ("correct", "confirm"):
        body = {"rev": int(words[0]), "slip": words[1], **counts_of(*words[2:])}
    elif verb == "vacate":
        body = {"list": words[0], "place": int(words[1]), "note": words[2]}
    else:
        body = {"rev" if verb in ("query", "close") else "edition": int(words[0])}
        if verb == "draw":
            body["order"] = words[1].split(",")
        elif len(words) > 1:
            body["note"] = words[1]
    kind = "station" if verb in ("lodge", "query", "correct", "close", "confirm") else "con"
    return f"/{kind}/{of}/{verb}", body


def answer(text):
    """The body of an answer such as `moved 2`, `edition 3` or `vacated None`."""
    ok, number = text.split()
    if ok == "edition":
        return f'{{"edition":{number},"ok":"edition"}}'
    if ok == "vacated":
        return f'{{"next":{number.replace("None", "null")},"ok":"vacated"}}'
    return f'{{"ok":"{ok}","rev":{number}}}'


def made(setup, script, db="good.db", constituencies=1):
    """An office that has answered the commands of a script as it says there."""
    new(setup, db, constituencies)
    lines = script.splitlines()
    with serving(db, len(lines)) if lines else contextlib.nullcontext() as desk:
        for line in lines:
            command, wanted = line.split(" = ")
            take(desk, (*request(command), 200, answer(wanted)))
    return db


def stored(db):
    """The expected answers to GET of each constituency, of its past and of each station, by the
    rows of a database.
    """
    answers = {}
    with database(db) as it:

        def select(sql, *values):
            return it.execute(sql, values).fetchall()

        setup = tomllib.loads(select("SELECT text FROM setup")[0][0])
        for con in setup["constituency"]:
            code, lists = con["code"], [one["code"] for one in con["list"]]
            [(edition, certified, note)] = select(
                "SELECT edition, certified, note FROM cons WHERE con = ?", code
            )
            [(closed,)] = select("SELECT count(*) FROM returns WHERE con = ? AND status = 4", code)
            gone = select(
                "SELECT list, place, note FROM gone WHERE con = ? ORDER BY list, place", code
            )
            answers[f"/con/{code}"] = 200, openapi.compact(
                {
                    "con": code,
                    "edition": edition,
                    "certified": certified == 1,
                    "note": note,
                    "closed": closed,
                    "stations": len(con["station"]),
                    **named(select("SELECT item, n FROM totals WHERE con = ? ORDER BY item", code)),
                    "lot": [
                        lists[n - 1]
                        for (n,) in select(
                            "SELECT list FROM lots WHERE con = ? ORDER BY place", code
                        )
                    ],
                    "seats": [
                        n
                        for (n,) in select("SELECT n FROM seats WHERE con = ? ORDER BY list", code)
                    ],
                    "gone": [
                        {"list": lists[n - 1], "place": place, "note": note}
                        for n, place, note in gone
                    ],
                    **({"entry": "double"} if con.get("entry") == "double" else {}),
                }
            )
            past = f"PAST {code} {con['name']}\n"
            for (before,) in select(
                "SELECT DISTINCT edition FROM past WHERE con = ? ORDER BY edition", code
            ):
                past += f"edition {before}\n"
                for n, seats in select(
                    "SELECT list, n FROM past WHERE con = ? AND edition = ? ORDER BY list",
                    code,
                    before,
                ):
                    past += f"{lists[n - 1]:16}{seats:5} {con['list'][n - 1]['name']}\n"
            answers[f"/con/{code}/past"] = 200, past
            for station in con["station"]:
                answers[f"/station/{station['code']}"] = 404, '{"refused":8,"word":"no_return"}'
        for station, rev, slip, status, note in select(
            "SELECT station, rev, slip, status, note FROM returns"
        ):
            word = ("received", "queried", "corrected", "closed")[status - 1]
            counts = named(
                select("SELECT item, n FROM counts WHERE station = ? ORDER BY item", station)
            )
            answers[f"/station/{station}"] = 200, openapi.compact(
                {
                    "station": station,
                    "rev": rev,
                    "slip": slip,
                    "status": word,
                    "note": note,
                    **counts,
                }
            )
    return answers


def named(items):
    """The numbers of a return, or sums of such, by the names that they have in an answer."""
    (_, blank), *votes, (_, spoiled) = items
    return {"blank": blank, "votes": [n for _, n in votes], "spoiled": spoiled}


def shown(db):
    """The desk's answers to these requests."""
    paths = list(stored(db))
    with serving(db, len(paths)) as desk:
        return {path: desk.ask("GET", path)[::2] for path in paths}


def answered(statements, good="good.db"):
    """The answer of the program to a copy of an office after these statements: `opened` or a word;
    None where a table refuses them.

    Where it opens, it shows what the rows say. Whatever it answers, it leaves each byte of the
    database as it was.
    """
    shutil.copy(good, "office.db")
    with contextlib.closing(sqlite3.connect("office.db", isolation_level=None)) as it:
        it.execute("PRAGMA synchronous = OFF")
        try:
            it.executescript(statements)
        except sqlite3.IntegrityError:
            return None
    before = Path("office.db").read_bytes()
    ran = show("progress", con=None)
    if ran.status == 0:
        assert ran.out.startswith("c1 ") and not ran.err, (statements, ran)
        same(shown("office.db"), stored("office.db"), statements)
    assert Path("office.db").read_bytes() == before, statements
    only(good, "office.db")
    if ran.status == 0:
        return "opened"
    kind, word = ran.err.removesuffix("\n").split(": ")
    same((ran.status, ran.out, kind), (3, "", "failed") if word == "store" else (1, "", "refused"))
    return word


def ends(good="good.db"):
    """The changed copy is gone, and the office itself agrees with a recount at the test's end."""
    Path("office.db").unlink()
    only(good)


def each_answered(case, text):
    """The lines of a text, `WORD: STATEMENTS`, each with the word that is answered."""
    for line in lines_of(text):
        word, statements = line.split(": ")
        with case.subTest(statements=statements):
            case.assertEqual(answered(statements), word)
