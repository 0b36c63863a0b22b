#!/usr/bin/env python3
"""Counts a published election again, from its database or from its returns.

    recount.py office.db
    recount.py --setup FILE --returns FOLDER [--lots FILE]

Of a database it says for each constituency whether the totals agree with the closed returns and, if
it is certified, the seats with the votes. From returns it prints the seats: FILE is the office's
setup, or the setup.json that a site publishes; FOLDER has CODE.csv for each constituency, as
'office show --report returns' prints it, with all stations closed. Lots are lines 'CODE A B', the
first list first; a lot has to name the lists that it decides among, and no other. A byte order mark
in front of a file is ignored. The exit status is 0; 1 if something differs, if a constituency or a
station has no returns, or if a lot is missing or of other lists; 2 if a file cannot be used.
Nothing is written to any file. Python 3.11 or later.
"""
import argparse
import csv
import json
import re
import sqlite3
import sys
import tomllib
from fractions import Fraction
from heapq import merge
from itertools import islice
from pathlib import Path

METHODS = ("dhondt", "sainte-lague", "modified-sainte-lague", "hare")
BLANK, SPOILED = 0, 61  # beside the lists, which are numbered from 1 in the order of the setup


def divisor(method, k):
    """The divisor of a list's kth seat."""
    if method == "dhondt":
        return Fraction(k)
    return Fraction(14, 10) if method == "modified-sainte-lague" and k == 1 else Fraction(2 * k - 1)


def place(n, lot, alternating=False, k=1):
    """The place of a list among equals: its place in the lot, or else in the setup."""
    if n not in lot:
        return n
    turn = lot.index(n) + 1
    return 61 - turn if alternating and k % 2 == 0 else turn


def seats_of(n, rule, seats, votes, lot):
    """The seats that a list may win, each by its quotient: these fall, so that they are in order."""
    alternating = rule.get("lot") == "alternating"
    for k in range(1, seats + 1):
        yield -votes[n] / divisor(rule["method"], k), -votes[n], place(n, lot, alternating, k), n


def by_quotients(rule, seats, votes, lists, lot):
    table = merge(*(seats_of(n, rule, seats, votes, lot) for n in lists))
    won = [n for _, _, _, n in islice(table, seats)]
    return {n: won.count(n) for n in votes}


def by_remainders(seats, votes, lists, lot):
    total = sum(votes[n] for n in lists)
    given = {n: votes[n] * seats // total if n in lists else 0 for n in votes}
    claims = sorted((-(votes[n] * seats % total), -votes[n], place(n, lot), n) for n in lists)
    for _, _, _, n in claims[:seats - sum(given.values())]:
        given[n] += 1
    return given


def allotted(con, votes, lists, lot):
    if con["rule"]["method"] == "hare":
        return by_remainders(con["seats"], votes, lists, lot)
    return by_quotients(con["rule"], con["seats"], votes, lists, lot)


def taking_part(rule, votes, blank):
    """The lists that have votes and reach the threshold."""
    base = sum(votes.values()) + (blank if rule["base"] == "valid" else 0)
    return [n for n, v in votes.items() if v > 0 and v * 10000 >= rule["threshold"] * base]


def group(con, votes, lists):
    """The lists that a lot has to decide among: none if the votes decide.

    If a list gets other seats in the setup's reverse order, a lot decides among all lists that take
    part with as many votes. (Those in the middle of them may get as many in both orders.)
    """
    first, last = (allotted(con, votes, lists, order) for order in ([*votes], [*votes][::-1]))
    tied = {votes[n] for n in votes if first[n] != last[n]}
    return [n for n in lists if votes[n] in tied]


def judged(con, cast, lot):
    """The sums of the counts of stations, the seats, and what is wrong with votes or lot."""
    counted = dict.fromkeys([BLANK, *range(1, len(con["list"]) + 1), SPOILED], 0)
    for counts in cast.values():
        for item, n in counts.items():
            counted[item] = counted.get(item, 0) + n
    votes = {n: counted[n] for n in range(1, len(con["list"]) + 1)}
    lists = taking_part(con["rule"], votes, counted[BLANK])
    needed = group(con, votes, lists)
    seats = allotted(con, votes, lists, lot if sorted(lot) == needed else [])
    most, papers = con["most"], {station: sum(counts.values()) for station, counts in cast.items()}
    return counted, seats, [words for words, applies in (
        ("no list takes part", not lists),
        ("a lot is missing", needed and not lot),
        ("a lot of other lists", lot and sorted(lot) != needed),
        ("stations of no setup", cast.keys() - most.keys()),
        ("numbers below 0", any(n < 0 for counts in cast.values() for n in counts.values())),
        ("more votes than electors", any(n > most.get(at, n) for at, n in papers.items()))
    ) if applies]


def recount(select, con):
    """The differences in a constituency of a database, as a list of words."""
    code, lists, cast = [con["code"]], len(con["list"]), {}
    for station, item, n in select("SELECT station, coalesce(item, 0), coalesce(n, 0) FROM returns "
                                   "LEFT JOIN counts USING (station) "
                                   "WHERE con = ? AND status = 4", code):
        cast.setdefault(station, {})[item] = n
    lot = [row[0] for row in select("SELECT list FROM lots WHERE con = ? ORDER BY place", code)]
    [(edition, certified)] = select("SELECT edition, certified FROM cons WHERE con = ?", code)
    counted, seats, wrong = judged(con, cast, lot)
    if not certified:
        seats, still = {}, ("no list takes part", "a lot is missing")
        wrong = [words for words in wrong if words not in still]
    left = len(con["most"].keys() - cast.keys())
    differs = [words for words, applies in (
        ("totals", counted != dict(select("SELECT item, n FROM totals WHERE con = ?", code))),
        ("seats", seats != dict(select("SELECT list, n FROM seats WHERE con = ?", code))),
        (f"{left} of {len(con['most'])} stations not closed", (certified or lot) and left),
        (f"certified {certified}", certified not in (0, 1))
    ) if applies] + wrong
    if select("SELECT name FROM sqlite_master WHERE name = 'past'").fetchone():  # not in version 1
        for past, *found, least in select(
                "SELECT edition, sum(n), count(*), min(list), max(list), min(n) FROM past "
                "WHERE con = ? GROUP BY edition", code):
            if past >= edition or least < 0 or found != [con["seats"], lists, 1, lists]:
                differs.append(f"past {past}")
    return differs


def read_returns(con, lines):
    """The counts of each station in published returns."""
    header, *rows = [row for row in csv.reader(lines, strict=True) if row]
    if header != ["station", "slip", "blank", "spoiled", *(one["code"] for one in con["list"])]:
        raise ValueError(f"{con['code']}: another header than that of its lists")
    items, cast = [BLANK, SPOILED, *range(1, len(con["list"]) + 1)], {}
    for station, _, *fields in rows:
        if station not in con["most"] or station in cast:
            raise ValueError(f"{con['code']}: {station!r} twice, or of another constituency")
        if len(fields) != len(items) or not re.fullmatch("([0-9]{1,9},)+", ",".join(fields) + ","):
            raise ValueError(f"{con['code']}: the row of {station} is not of numbers")
        cast[station] = dict(zip(items, map(int, fields)))
    return cast


def count_returns(cons, folder, lots):
    status = 0
    if not folder.is_dir():
        raise FileNotFoundError(f"{folder} is no folder")
    for con in cons:
        if not (folder / f"{con['code']}.csv").exists():
            print(con["code"], "has no returns")
            status = 1
            continue
        with open(folder / f"{con['code']}.csv", newline="", encoding="utf-8-sig") as lines:
            cast = read_returns(con, lines)
        codes = [one["code"] for one in con["list"]]
        named = [codes.index(code) + 1 if code in codes else 0 for code in lots[con["code"]]]
        _, seats, wrong = judged(con, cast, named)
        wrong = ["stations are missing"] * (cast.keys() < con["most"].keys()) + wrong
        said = "; ".join([f"{len(cast)} of {len(con['most'])} stations", *wrong])
        print(con["code"], *(f"{code} {n}" for code, n in zip(codes, seats.values())), f"({said})")
        status |= any(words != "no list takes part" for words in wrong)
    return status


def read_lots(file, cons):
    """The lists of each constituency's lot, in its order."""
    lots = {con["code"]: [] for con in cons}
    lines = file.read_text(encoding="utf-8-sig").splitlines() if file else []
    for code, *lot in filter(None, map(str.split, lines)):
        if lots.get(code, lot):
            raise ValueError(f"{file}: {code} twice, or no constituency")
        lots[code] = lot
    return lots


def address(file):
    """The address at which SQLite reads a database. Where no log is beside it, or one without a byte,
    nothing is made there either; an index of a log that is gone (-shm) is passed over."""
    log = Path(f"{Path(file).resolve()}-wal")
    how = "mode=ro" if log.exists() and log.stat().st_size else "mode=ro&immutable=1"
    return f"{file.as_uri()}?{how}"


def count_database(file):
    if not file.exists():
        raise FileNotFoundError(f"{file} is not there")
    select = sqlite3.connect(address(file), uri=True).execute
    [(setup,)] = select("SELECT text FROM setup")
    found = {con["code"]: recount(select, con) for con in read_setup(setup)}
    for code, wrong in found.items():
        print(code, "differs: " + ", ".join(wrong) if wrong else "agrees")
    return 1 if any(found.values()) else 0


def check(con, said, value, least, most):
    if type(value) is not int or not least <= value <= most:
        raise ValueError(f"{con['code']}: {said}: {value!r} is not {least} to {most}")


def tables_of(text, is_published):
    """The tables of a setup. In a published one each constituency has its own rule, and no size."""
    text = text.removeprefix("\ufeff")
    if not is_published:
        return tomllib.loads(text)
    cons = json.loads(text)
    return {"profile": cons, "constituency": [
        con | {"profile": con["code"], "list": con["lists"], "station": con["stations"],
               "size": "large"} for con in cons]}


def read_setup(text, is_published=False):
    """The constituencies, each with its rule and the most votes that each station can have."""
    setup = tables_of(text, is_published)
    rules = {profile["code"]: profile for profile in setup["profile"]}
    for con in setup["constituency"]:
        con["rule"] = rule = rules[con["profile"]]
        if rule["method"] not in METHODS or rule["base"] not in ("valid", "lists") or (
                rule.get("lot", "fixed") not in ("fixed", "alternating")):
            raise ValueError(f"{con['code']}: an unknown rule")
        for said, value, least, most in (("threshold", rule["threshold"], 0, 10_000),
                                         ("seats", con["seats"], 1, 500),
                                         ("lists", len(con["list"]), 1, 60)):
            check(con, said, value, least, most)
        for it in con["station"]:
            check(con, f"electors of {it['code']}", it["electors"], 1, 1_000_000)
            check(con, f"agents of {it['code']}", it.get("agents", 0), 0, 1_000)
        con["most"] = {it["code"]: it["electors"] + it.get("agents", 0) for it in con["station"]}
        if con.get("size", "normal") not in ("normal", "large"):
            raise ValueError(f"{con['code']}: an unknown size")
        if len(con["station"]) > (20_000 if con.get("size") == "large" else 5_000):
            raise ValueError(f"{con['code']}: too many stations")
    return setup["constituency"]


def main():
    command = argparse.ArgumentParser(
        description=__doc__, formatter_class=argparse.RawDescriptionHelpFormatter)
    command.add_argument("file", type=Path, nargs="?", help="a database")
    for option in ("--setup", "--returns", "--lots"):
        command.add_argument(option, type=Path)
    given = command.parse_args()
    of_returns = [given.setup, given.returns]
    if any([*of_returns, given.lots]) if given.file else not all(of_returns):
        command.error("either a database, or --setup and --returns")
    try:
        if given.file:
            return count_database(given.file.resolve())
        cons = read_setup(given.setup.read_bytes().decode(), given.setup.suffix == ".json")
        return count_returns(cons, given.returns, read_lots(given.lots, cons))
    except Exception as error:  # whatever it is: 1 is the status of a difference
        print(f"recount.py: error: {type(error).__name__}: {error}", file=sys.stderr)
        return 2


if __name__ == "__main__":
    sys.exit(main())
