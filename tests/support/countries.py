"""Countries that do not exist, and their pages."""

import contextlib
from pathlib import Path

from tests.support.desks import done, modelled
from tests.support.office import constituency, party_list, profile, station, with_stations
from tests.support.pages import RESULT, TWIN, press, results_of, site_folder

# By hand. Norte has 3 seats by D'Hondt of A 100 (50, 33), B 90 (45), C 5: A, B, A. Este has 2 of
# A 30, B 80 (40), C 10: both B's. Sur was certified and reopened; of Oeste one return of two is
# closed. So B has 3 seats and A 2, and 5 of 10 are open.
FOUR = {"norte": ("Norte", 3, {"n1": 500, "n2": 500}, "ABC"),
        "este": ("Este", 2, {"e1": 400}, "ABC"),
        "sur": ("Sur", 2, {"s1": 300}, "AB"),
        "oeste": ("Óeste <3>", 3, {"o1": 400, "o2": 400}, "ABD")}
FOUR_NAMES = {"A": "Alpha", "B": "Beta", "C": "Gamma", "D": "Delta"}
FOUR_RETURNS = {"norte": "n1,p1,5,1,60,50,5\nn2,p2,0,2,40,40,0\n", "este": "e1,p1,0,0,30,80,10\n",
                "sur": "s1,p1,0,0,10,20\n", "oeste": "o1,p1,0,0,7,3,90\n"}
LEVEL = {"A": "Alpha", "B": "Beta", "C": "Iris", "D": "Delta"}
# A former result: in Norte A had 20 per cent of the valid votes and B 30, and in Este each a seat.
FOUR_BEFORE = ("con,list,votes,seats,valid\nnorte,A,40,2,200\nnorte,B,60,1,200\n"
               "este,A,50,1,100\neste,B,50,1,100\nsur,A,50,2,100\noeste,A,1,1,100\n")


def setup_of_four():
    text = profile("d0")
    for code, (name, seats, stations, lists) in FOUR.items():
        text += constituency(code, name, seats, "d0")
        text += "".join(party_list(of, FOUR_NAMES[of], *(f"{of}{n}" for n in range(1, 4)))
                        for of in lists)
        text += "".join(station(name, electors) for name, electors in stations.items())
    return text


def count_four(office):
    for code, (_, _, stations, lists) in FOUR.items():
        done(office, f"/con/{code}/import",
             f"station,slip,blank,spoiled,{','.join(lists)}\n{FOUR_RETURNS[code]}")
        for name in stations:
            if name != "o2":
                done(office, f"/station/{name}/close", {"rev": 1})
        if code != "oeste":
            done(office, f"/con/{code}/certify", {"edition": 1})
    done(office, "/con/sur/reopen", {"edition": 2, "note": "a recount"})


@contextlib.contextmanager
def four():
    """The model of an office of the four constituencies, counted as far as it is, and its port."""
    Path("setup.toml").write_text(setup_of_four(), encoding="utf-8")
    with modelled(setup_of_four()) as (office, port):
        count_four(office)
        yield office, port


def level_setup():
    """Two seats of A 5 (2.5), B 3, C 3, D 1: the second is a matter of a lot between B and C."""
    lists = "".join(party_list(code, name, "Ana", "Bea") for code, name in LEVEL.items())
    return (profile("d0") + constituency("c1", "Soria", 2, "d0") + lists
            + station("s1", 500) + station("s2", 500))


def count_level(office, stations):
    votes = {"s1": [3, 2, 2, 1], "s2": [2, 1, 1, 0]}
    for code in stations:
        done(office, f"/station/{code}/lodge",
             {"slip": "p1", "votes": votes[code], "blank": 0, "spoiled": 0})
        done(office, f"/station/{code}/close", {"rev": 1})


def many_stations():
    """A certified constituency of a thousand stations, in the folder `many`; the folder's name."""
    setup = with_stations(1000)
    Path("many.toml").write_text(setup, encoding="utf-8")
    with modelled(setup) as (office, port):
        done(office, "/con/c1/import",
             "station,slip,blank,spoiled,A,B\n"
             + "".join(f"s{n},p1,0,0,{n % 100},1\n" for n in range(1, 1001)))
        for n in range(1, 1001):
            done(office, f"/station/s{n}/close", {"rev": 1})
        done(office, "/con/c1/certify", {"edition": 1})
        press(port, "--setup", "many.toml", folder="many")
    return "many"


def country(stations):
    """A setup of 52 constituencies with five lists each, and their returns: by constituency and
    station, blank, spoiled, votes."""
    names = [f"List {code}" for code in "ABCDE"]
    setup, returns = profile("loreg", threshold=300), {}
    for c in range(1, 53):
        setup += constituency(f"c{c}", f"Province {c}", 7, "loreg")
        setup += "".join(party_list(name[-1], name, *(f"Candidate {n}" for n in range(1, 8)))
                         for name in names)
        setup += "".join(station(f"s{c}-{n}", 1500) for n in range(1, stations + 1))
        returns[f"c{c}"] = {f"s{c}-{n}": [
            n % 5, n % 3, *((c * 37 + n * 11 + k * 53) % 90 + 300 // (k + 1) for k in range(4)),
            c % 9] for n in range(1, stations + 1)}
    return setup, returns


def sixty_lists():
    """A certified constituency of 60 lists and 100 seats, with names and codes as long as they may
    be."""
    seats, votes = [41] + [1] * 59, [41_000] + [1_000] * 59
    codes = [f"LIST-{n:02}-{'X' * 8}" for n in range(60)]
    names = ["W" * 80 if n % 2
             else "Union of the long and winding names of all who live and who have ever lived here"
             for n in range(60)]
    # Who won each seat, and which of the list's own it is.
    won = [(0, k) for k in range(1, 42)] + [(n, 1) for n in range(1, 60)]
    lists = [{"code": code, "name": name, "votes": of, "eligible": True, "seats": many,
              "provisional": many, "short": 1000}
             for code, name, many, of in zip(codes, names, seats, votes)]
    return TWIN | results_of(RESULT | {
        "seats": 100, "lot": [], "lists": lists,
        "awards": [[codes[n], k, votes[n], k] for n, k in won],
        "holders": [[codes[n], k, f"Candidate {k}"] for n, k in won]})


def invented_country():
    """The country of `country` with two stations each, by the model: three constituencies are open,
    and one is withdrawn. Its pages are in the folder `country`."""
    setup, returns = country(2)
    Path("country.toml").write_text(setup, encoding="utf-8")
    squares = "".join(f'<rect id="c{n + 1}" x="{n % 8}" y="{n // 8}" width="1" height="1"/>'
                      for n in range(52))
    with modelled(setup) as (office, port):
        for con, of in returns.items():
            rows = "".join(f"{name},p1,{','.join(map(str, row))}\n" for name, row in of.items())
            done(office, f"/con/{con}/import", f"station,slip,blank,spoiled,A,B,C,D,E\n{rows}")
            for name in list(of)[:1 if con in ("c3", "c8", "c15") else 2]:
                done(office, f"/station/{name}/close", {"rev": 1})
            if con not in ("c3", "c8", "c15"):
                done(office, f"/con/{con}/certify", {"edition": 1})
        done(office, "/con/c5/reopen", {"edition": 2, "note": "a recount"})
        press(port, "--setup", "country.toml", folder="country", *site_folder(
            map=f'<svg xmlns="http://www.w3.org/2000/svg" viewBox="0 0 8 7">{squares}</svg>',
            site='title = "Election of the council"\ndate = 2026-11-29\n'))
