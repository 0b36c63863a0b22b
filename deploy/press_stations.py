"""The pages of the stations of a constituency and of its places, from the file of returns."""

from datetime import datetime
from functools import partial
from itertools import accumulate

from press_con import colours
from press_data import OPEN, adds_up, returns_csv, returns_in
from press_files import on_disk, text_of
from press_head import counted_line
from press_parts import NOTHING, by_votes, framed, list_name, searched
from press_places import added_up, place_pages, table_pages


def station_table(site, con, entry, text, states=None):
    """The heads of the table of stations, and the row of each by its code, from the file of their
    returns. Where there is no certificate these are the closed returns so far, and each station's
    return has a state."""
    columns, returns = returns_in(text)
    order = {listed["code"]: place for place, listed in enumerate(by_votes(con))}
    lists = sorted(range(4, len(columns)), key=lambda place: order[columns[place]])
    found = {row[0]: row for row in returns}
    return heads_of(site, columns, lists, states), {
        station["code"]: station_row(site, station, found.get(station["code"]), (*lists, 2, 3),
                                     states) for station in entry["stations"]}


def heads_of(site, columns, lists, states):
    """The heads of a table of stations, with the lists at these places of the columns."""
    return [site.said("station"), *([site.said("state")] if states else []),
            site.said("electors"), *(list_name(site, columns[place]) for place in lists),
            site.said("blank"), site.said("spoiled")]


def station_row(site, station, row, places, states):
    """A station, with the figures of its return where that is closed, at these places of its
    row."""
    code = station["code"]
    state = [site.words["states"][states[code]]] if states else []
    figures = (site.number(int(row[place])) if row else "–" for place in places)
    return site.templates.parts.station_row(
        code, site.names.get(code), [*state, site.number(station["electors"]), *figures])


def stations_pages(site, code, con, entry, text, states=None):
    """The pages of the stations of a constituency, each as a function of its moment; and the places
    of those that each begins with."""
    heads, rows = station_table(site, con, entry, text, states)
    _, returns = returns_in(text)
    words = stations_said(site, con, len(returns), len(entry["stations"]), states)
    counted = counted_of(site, entry, returns)

    def written(rows, links, moment):
        caption = site.said("table_stations")
        returns = framed(site, caption, heads, rows, "searched stations", wide=True)
        return site.templates.page(
            "stations.html", here=f"stations-{code}-1.html", code=code,
            name=con["tally"]["name"], said=words, links=links, table=returns, moment=moment,
            file=f"stations-{code}-{OPEN if states else con['seats']['edition']}.csv",
            colours=colours(site, con), counted_line=counted)

    empty = written([], NOTHING, datetime.now().astimezone())
    groups, links = searched(site, f"stations-{code}", list(rows.values()), list(rows), empty)
    starts = [0, *accumulate(map(len, groups))][:-1]
    return [partial(written, group, links(groups, here))
            for here, group in enumerate(groups)], starts


def counted_of(site, entry, returns):
    """How much is counted, with the turnout of that."""
    closed = {row[0] for row in returns}
    papers = sum(int(value) for row in returns for value in row[2:])
    electors = sum(one["electors"] for one in entry["stations"] if one["code"] in closed)
    return counted_line(site, len(returns), len(entry["stations"]), papers, electors)


def stations_said(site, con, closed, stations, states):
    values = {"closed": site.number(closed), "many": stations}
    if states:
        return site.said("stations_reopened" if con["past"] else "stations_open", **values)
    return site.said("stations_said", edition=con["seats"]["edition"], **values)


def places_pages(site, code, con, entry, text, states=None):
    """The pages of the places of a constituency: those of each, those of their table, each as a
    function of its moment, and the places themselves. Without a file of returns none is closed."""
    text = text or returns_csv([row["code"] for row in con["tally"]["lists"]], [])
    columns, returns = returns_in(text)
    places = added_up(site, con, entry, columns, returns)
    if not places:
        return [], [], []
    found = {row[0]: row for row in returns}

    def seen(place):
        codes = [station["code"] for station in place.stations]
        return [found.get(code) for code in codes], states and [states[code] for code in codes]

    def table_of(place):
        """The lists are in the order of their votes in the place, as in the table above."""
        lists = sorted(range(4, len(columns)), key=lambda at: -place.votes[columns[at]])
        rows = [station_row(site, station, found.get(station["code"]), (*lists, 2, 3), states)
                for station in place.stations]
        return heads_of(site, columns, lists, states), rows

    return (place_pages(site, code, con, entry, places, (seen, table_of), bool(returns)),
            table_pages(site, code, con, entry, places, len(returns)), places)


def left_as_they_are(folder, name, pages, before):
    """These pages, with None in the place of each that shows what it showed when it was made last.
    `before` keeps what each shows."""
    found = []
    for place, (shows, written) in enumerate(pages, 1):
        file = folder / f"{name}-{place}.html"
        found.append(None if before.get(file) == shows and on_disk(file) else written)
        before[file] = shows
    return found


def electors_counted(folder, con, entry, returns):
    """The electors of the stations that are counted, by the setup and the file of closed returns;
    None where they are not known, or that file is of another moment."""
    tally = con["tally"]
    if not entry or tally["closed"] == tally["stations"] or not tally["closed"]:
        is_known = entry and tally["closed"]
        return sum(station["electors"] for station in entry["stations"]) if is_known else None
    text = text_of(folder / returns[OPEN]) if OPEN in returns else ""
    closed = {row[0] for row in returns_in(text)[1]} if adds_up(text, con["view"]) else None
    return closed and sum(station["electors"] for station in entry["stations"]
                          if station["code"] in closed)
