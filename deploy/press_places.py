"""The places of a constituency, such as its towns: their votes, added up of the returns of their
stations, with a page each and a table of all; and the names that the first screen finds."""

import hashlib
import json
from dataclasses import dataclass, field
from datetime import datetime
from functools import partial
from typing import Callable, NamedTuple

from press_country import by_name
from press_data import PLACE, VERSION, csv_text, in_a_cell
from press_figures import bars
from press_head import Standing, counted_line, leads, level
from press_names import closed, in_order, isolated, label
from press_parts import (NOTHING, TABLE_ROOM, blank_row, changed, framed, list_name, numbers,
                         pieces, rounded, searched, stacked_row, votes_said)
from press_results import counted_share


@dataclass
class Place:
    """A place: its stations, and the sums of those that are counted."""
    name: str
    stations: list = field(default_factory=list)  # as the setup has them
    closed: int = 0
    electors: int = 0  # of the stations that are counted
    blank: int = 0
    spoiled: int = 0
    votes: dict = field(default_factory=dict)  # by list

    @property
    def of_lists(self):
        return sum(self.votes.values())


def places_of(site, entry):
    """The stations of each place of a constituency, in the order in which the setup names them
    first; of stations that no place is known of there is none."""
    found = {}
    for station in entry["stations"] if entry and site.places else ():
        if name := site.places.get(station["code"]):
            found.setdefault(name, []).append(station)
    return found


def added_up(site, con, entry, columns, returns):
    """The places of a constituency, of its returns that are closed."""
    found, rows = [], {row[0]: row for row in returns}
    for name, stations in places_of(site, entry).items():
        place = Place(name, stations, votes={row["code"]: 0 for row in con["tally"]["lists"]})
        for station in stations:
            if row := rows.get(station["code"]):
                place.closed += 1
                place.electors += station["electors"]
                place.blank += int(row[2])
                place.spoiled += int(row[3])
                for code, votes in zip(columns[4:], row[4:]):
                    place.votes[code] += int(votes)
        found.append(place)
    return found


def places_csv(con, places):
    codes = [row["code"] for row in con["tally"]["lists"]]
    return csv_text([*PLACE, *codes], [
        [in_a_cell(place.name), len(place.stations), place.closed, place.electors, place.blank,
         place.spoiled, *(place.votes[code] for code in codes)] for place in places])


# ---- pages


def base_of(entry, place):
    """The votes of which shares are."""
    return place.of_lists + (0 if entry["base"] == "lists" else place.blank)


def place_head(site, entry, place, names):
    """The lines under the title: who leads, and how much is counted."""
    standings = [Standing(names[code], votes) for code, votes in place.votes.items()]
    headline, first = leads(site, standings, base_of(entry, place)), max(place.votes.values())
    if headline and place.closed == len(place.stations):
        ahead = [one for one in standings if one.votes == first]
        headline = site.say("place_first" if len(ahead) == 1 else "place_level",
                            first=isolated(ahead[0].name), lists=level(site, ahead),
                            share=site.per_cent(rounded(first, base_of(entry, place))))
    papers = place.of_lists + place.blank + place.spoiled
    return {"headline": headline,
            "counted_line": counted_line(site, place.closed, len(place.stations), papers,
                                         place.electors)}


def votes_of(site, con, entry, place):
    """The bars and the table of the votes of a place. Lists with as many votes are in the order of
    the setup: in that of the constituency, the pages of all places would change where two lists
    change their places there."""
    base = base_of(entry, place)
    lists = [row | {"votes": place.votes[row["code"]], "eligible": True,
                    "share": rounded(place.votes[row["code"]], base)}
             for row in con["tally"]["lists"]]
    lists.sort(key=lambda row: -row["votes"])
    rows = [stacked_row(site, list_name(site, row["code"], row["name"]), site.number(row["votes"]),
                        changed(site, row["code"], row["share"], None, site.share))
            for row in lists]
    first, *more = pieces(rows, TABLE_ROOM / 2)
    share = None if entry["base"] == "lists" else rounded(place.blank, base)
    shown = [*first, blank_row(site, place.blank, share)]
    heads = (site.said("list"), numbers(site.said("votes").lower()), numbers(site.said("share")))
    table = framed(site, site.said("table_place"), heads, shown, "stacked")
    return {"chart": bars(site, lists), "table": table, "lists_left": sum(map(len, more)),
            "base": site.say(f"base_{'lists' if entry['base'] == 'lists' else 'valid'}"),
            "votes": votes_said(site, place.of_lists + place.blank, place.blank, place.spoiled)}


class PlacePage(NamedTuple):
    """The page of a place: a hash of all that it shows of an election, and the page as a function
    of its moment."""

    shows: bytes
    written: Callable


def place_pages(site, code, con, entry, places, stations_of, has_stations):
    """The page of each place. `stations_of` has two functions of a place: what its stations have,
    and the heads and the rows of their table. The pages of stations are there or not."""
    names = {row["code"]: row["name"] for row in con["tally"]["lists"]}
    colours = site.colours_in(names)
    seen, table_of = stations_of

    def written(number, place, moment):
        heads, rows = table_of(place)
        shown, *more = pieces(rows, TABLE_ROOM / 2)
        stations = framed(site, site.said("table_stations"), heads, shown, "stations", wide=True)
        return site.templates.page(
            "place.html", here=f"place-{code}-{number}.html", code=code,
            con=con["tally"]["name"], name=place.name, moment=moment, colours=colours,
            stations=stations, left=sum(map(len, more)), has_stations=has_stations,
            **votes_of(site, con, entry, place), **place_head(site, entry, place, names))

    def page(number, place):
        shows = repr((place, seen(place), names, con["tally"]["name"], has_stations))
        return PlacePage(hashlib.sha256(shows.encode()).digest(), partial(written, number, place))

    return [page(number, place) for number, place in enumerate(places, 1)]


def table_pages(site, code, con, entry, places, closed):
    """The pages of the table of places, each as a function of its moment, with how many stations are
    closed in its rows: the results of the constituency are of a moment before."""
    tally, rows = con["tally"], []
    numbered = sorted(enumerate(places, 1), key=lambda one: in_order(one[1].name))
    for number, place in numbered:
        best = sorted(place.votes.items(), key=lambda one: -one[1])[:2]
        first = best[0] if best and best[0][1] and len({votes for _, votes in best}) == len(
            best) else None
        share = site.share(rounded(first[1], base_of(entry, place))) if first else ""
        rows.append(stacked_row(
            site, site.templates.parts.place_link(code, number, place.name),
            site.templates.parts.first_with_share(first[0], share) if first else "–",
            site.number(place.of_lists + place.blank),
            site.share(counted_share(place.closed, len(place.stations)))))
    heads = (site.said("place_name"), site.said("first"), numbers(site.said("valid_votes")),
             numbers(site.said("counted_head")))
    counted = counted_line(site, closed, len(entry["stations"]))

    def written(rows, links, moment):
        return site.templates.page(
            "places.html", here=f"places-{code}-1.html", code=code, name=tally["name"],
            links=links, moment=moment,
            table=framed(site, site.said("table_places"), heads, rows, "searched stacked cons"),
            colours=site.colours_in(row["code"] for row in tally["lists"]), counted_line=counted)

    labels = [label(place.name) for _, place in numbered]
    groups, links = searched(site, f"places-{code}", rows, labels,
                             written([], NOTHING, datetime.now().astimezone()))
    return [partial(written, group, links(groups, here)) for here, group in enumerate(groups)]


# ---- what the first screen finds


def find_json(cons, setup, site, starts):
    """The names that the first screen finds, as the pages show them, by constituency in the order
    of their names. `starts` are the places, among the stations of a constituency, of those that
    each of its pages begins with."""
    found = []
    for code, con in by_name(cons):
        entry = setup.get(code)
        stations = [station["code"] for station in entry["stations"]] if entry else []
        found.append({
            "con": code, "name": closed(con["tally"]["name"]),
            "places": [closed(name) for name in places_of(site, entry)], "stations": stations,
            "names": [closed(site.names.get(station, "")) for station in stations],
            "starts": starts.get(code, [])})
    return json.dumps({"version": VERSION, "constituencies": found}, ensure_ascii=False,
                      separators=(",", ":")) + "\n"
