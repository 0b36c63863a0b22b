"""The page of each list: its votes and seats over the constituencies, and its elected; and the
elected of all."""

from datetime import datetime
from functools import partial

from press_country import by_name
from press_data import ELECTED, csv_text, in_a_cell
from press_head import counted_line, list_outlook, state_alone
from press_names import label
from press_parts import (NOTHING, Head, by_votes, details_links, divided, framed,
                         list_name, list_share, numbers, room_beside, searched, sections, stacked_row,
                         tables)
from press_pages import counted_of_provisional
from press_results import provisional_seats


def of_list(cons, code):
    """The constituencies that have a list, in the order of their names: code and state, and
    the list's row in each."""
    return [(of, con, row) for of, con in by_name(cons) for row in con["tally"]["lists"]
            if row["code"] == code]


# ---- the page of a list


def said_of(site, country, party):
    """The votes and the share of a list in all, its certified seats, and its provisional ones with
    the word and with how much is counted."""
    base = site.said(f"base_{'lists' if country.bases == {'lists'} else 'valid'}")
    found = [site.said("list_votes", many=party.votes, base=base,
                       share=site.per_cent(country.share_of(party)))]
    if country.certified_cons:
        words = "list_seats_all" if country.whole else "list_seats"
        found.append(site.said(words, many=country.chamber, seats=site.number(party.seats),
                               certified=site.number(country.certified)))
    if party.provisional_cons:
        found.append(site.said("list_provisional", many=party.provisional,
                               **counted_of_provisional(site, country)))
    return found


def votes_tables(site, rows, is_provisional):
    """The table of the constituencies, or several."""
    found = []
    for code, con, row in rows:
        seats, more = con.get("seats"), provisional_seats(con)
        cells = [site.number(seats["seats"][row["code"]]) if seats else "–"]
        if is_provisional:
            given = site.number(more[row["code"]]) if more else None
            cells.append(site.templates.parts.provisional(given) if given else "–")
        votes = ["–", "–"]
        if con["tally"]["closed"]:
            votes = [site.number(row["votes"]), site.share(list_share(con, row))]
        found.append(stacked_row(
            site, site.templates.parts.con_link(code, con["tally"]["name"]), *cells, *votes))
    heads = [Head(site.said("con")),
             numbers(site.said("seats_certified" if is_provisional else "seats").lower())]
    heads += [numbers(site.said("seats_provisional"))] if is_provisional else []
    heads += [numbers(site.said("votes").lower()), numbers(site.said("share"))]
    return tables(site, site.said("table_list"), heads, found, "stacked under")


def elected_tables(site, rows):
    """The tables of the candidates who hold a seat."""
    found = [stacked_row(site, name_of(site, holder), place_of(site, holder),
                         site.templates.parts.con_link(code, con["tally"]["name"]))
             for code, con, row in rows for holder in con.get("holders", ())
             if holder["list"] == row["code"]]
    if not found:
        return []
    heads = (Head(site.said("name")), Head(site.said("place")), Head(site.said("con")))
    return tables(site, site.said("table_elected"), heads, found, "stacked")


def name_of(site, holder):
    if holder["place"] is None:
        return site.templates.of_con.empty_seat()
    return site.templates.name(holder["name"])


def place_of(site, holder):
    return "–" if holder["place"] is None else site.number(holder["place"])


def list_pages(site, country, party, cons):
    """The page of a list, and those on which it goes on, each as a function of its moment."""
    rows = of_list(cons, party.code)
    tally = [con["tally"] for _, con, _ in rows]
    head = {"headline": None, "outlook": list_outlook(site, country, party),
            "counted_line": counted_line(site, *(sum(one[key] for one in tally)
                                                 for key in ("closed", "stations")))}
    parts = sections(site, site.said("list_cons"),
                     votes_tables(site, rows, bool(party.provisional_cons)))
    if of_elected := elected_tables(site, rows):
        words = "elected" if country.whole else "elected_part"
        parts += sections(site, site.said(words), of_elected)

    def written(group, links, first, moment):
        return site.templates.page(
            "list.html", here=f"list-{party.code}.html", code=party.code,
            name=party.name, said=said_of(site, country, party),
            links=links, sections=group, first=first, moment=moment,
            colours=site.colours_in([party.code]), **head)

    def links(groups, here):
        if len(groups) == 1:
            return NOTHING
        files = [f"list-{party.code}.html",
                 *(f"lists-{party.code}-{place}.html" for place in range(1, len(groups)))]
        return details_links(site, files, groups, here)

    empty = written([], NOTHING, True, datetime.now().astimezone())
    groups = divided(parts, room_beside(empty), links)
    return [partial(written, group, links(groups, here), here == 0)
            for here, group in enumerate(groups)]


# ---- the elected of all


def elected_rows(cons):
    """The holders of seats, by constituency in the order of their names, and in it by list."""
    for code, con in by_name(cons):
        order = {row["code"]: place for place, row in enumerate(by_votes(con))}
        for holder in sorted(con.get("holders", ()), key=lambda one: order[one["list"]]):
            yield code, con, holder


def elected_pages(site, country, cons):
    """The pages of those who hold a seat, each as a function of its moment; none where no
    constituency is certified."""
    rows, labels, lists = [], [], {}
    for code, con, holder in elected_rows(cons):
        lists[holder["list"]] = None
        labels.append(label(con["tally"]["name"]))
        rows.append(stacked_row(
            site, name_of(site, holder), list_name(site, holder["list"]), place_of(site, holder),
            site.templates.parts.con_link(code, con["tally"]["name"])))
    if not rows:
        return []
    heads = [Head(site.said(key)) for key in ("name", "list", "place", "con")]
    certified = sum("holders" in con for con in cons.values())
    counted = counted_line(site, *(sum(con["tally"][key] for con in cons.values())
                                   for key in ("closed", "stations")))
    said = site.said("elected_said", many=len(rows), cons=site.number(len(cons)),
                     certified=site.number(certified))

    def written(rows, links, moment):
        table = framed(site, site.said("table_elected"), heads, rows, "searched stacked")
        return site.templates.page(
            "elected.html", here="elected-1.html", said=said, links=links, table=table,
            title=site.said("elected" if country.whole else "elected_part"), moment=moment,
            colours=site.colours_in(lists), counted_line=counted,
            outlook=state_alone(site, country))

    empty = written([], NOTHING, datetime.now().astimezone())
    groups, links = searched(site, "elected", rows, labels, empty)
    return [partial(written, group, links(groups, here)) for here, group in enumerate(groups)]


def elected_csv(cons):
    """The elected for programs; an empty seat has no place and no name."""
    rows, seats = [], {}
    for code, con, holder in elected_rows(cons):
        key = code, holder["list"]
        seats[key] = seats.get(key, 0) + 1
        is_empty = holder["place"] is None
        rows.append([code, in_a_cell(con["tally"]["name"]), holder["list"], seats[key],
                     "" if is_empty else holder["place"],
                     "" if is_empty else in_a_cell(holder["name"])])
    return csv_text(ELECTED, rows)

