"""The pages of the country and of the count, from what `press.py` read.

The page of a constituency is made by press_con.py, and the HTML of all by the templates in the
folder `templates`, in the words of a site's language.
"""

import math

from press_con import con_bodies, con_page, details_page
from press_country import (CLOSEST, Party, by_name, first_list, is_withdrawn, seats_before,
                           shares_before, together)
from press_figures import MOST_DOTS, MOST_LABELS, bars, half_circle, map_key, map_shape
from press_files import moment_in
from press_head import Standing, country_outlook, counted_line, has_won, leads
from press_names import label
from press_parts import (AGE, COUNTED, NOTHING, PAGE_ROOM, Head, Part, changed, changing,
                         details_links, divided, framed, list_link, list_name, numbers,
                         progress_bar, room_beside, rounded, searched, sections, size, stacked_row,
                         table, tables, unaged, votes_said)
from press_results import by_seats, counted_share, lot_of, provisional_seats
from press_templates import Markup

__all__ = ["aged", "con_bodies", "con_page", "count_pages", "details_page", "index_pages",
           "unaged"]

# A cell that has a dash.
DASH = ">–<"
# Lists without a seat that the page of the country shows.
SHOWN_WITHOUT_SEAT = 20
# Bytes of rows that the table of lists may have on the page of the country, and how many of the
# closest seats.
TABLES_OF_COUNTRY = (*((room, CLOSEST) for room in (math.inf, 16_000, 12_000, 8_000)), (6_000, 5),
                     (4_400, 1), (3_000, 1))


# ---- the page of the country


def certified_said(site, country):
    values = {"many": country.chamber, "cons": site.number(country.cons),
              "seats": site.number(country.certified),
              "certified": site.number(country.certified_cons)}
    if country.whole:
        return site.said("certified_one" if country.cons == 1 else "certified_all", **values)
    return site.said("certified_part", **values,
                     open=site.number(country.chamber - country.certified))


def provisional_said(site, country):
    """How many seats are provisional, with how much is counted where they are; None where none
    is."""
    if not country.is_provisional:
        return None
    return site.said("provisional_country", many=country.provisional,
                     **counted_of_provisional(site, country))


def counted_of_provisional(site, country):
    """How much is counted in the constituencies that have provisional seats, as values of texts."""
    closed, stations = country.provisional_closed, country.provisional_stations
    return {"closed": site.number(closed), "stations": site.number(stations),
            "share": site.per_cent(counted_share(closed, stations))}


def circle_of(site, country):
    """The half circle of all seats, where they can be made out."""
    seats = {party.code: party.seats for party in country.parties}
    more = {party.code: party.provisional for party in country.parties}
    total, labels = country.chamber, sum(any(of) for of in zip(seats.values(), more.values()))
    if not 0 < total <= MOST_DOTS or not 0 < labels <= MOST_LABELS:
        return None
    left = [(words, many) for _, words, _, many in country.nobodys]
    return half_circle(site, seats, total, left, country.majority, more)


def chart_of(site, country):
    """The bars of the votes, where there are some."""
    rows = [{"code": party.code, "name": party.name, "eligible": True,
             "share": country.share_of(party)}
            for party in sorted(country.parties, key=lambda party: -party.votes) if party.votes]
    return bars(site, rows) if rows else None


def former_of(site, country, cons):
    """The values with which seats and shares are compared, each where it can be."""
    certified = [code for code, con in cons.items() if "seats" in con]
    whole = country.closed == country.stations and country.bases == {"valid"}
    return (seats_before(site.former, certified),
            shares_before(site.former, list(cons)) if whole else None)


def parties_table(site, country, former, room):
    """The table of lists, of which the last may be one row together; and the others' codes."""
    seats, shares = former
    given = sum(1 for party in country.parties if party.seats or party.provisional)
    rows = []
    for party in country.parties[:given + SHOWN_WITHOUT_SEAT]:
        cells = party_cells(site, country, party, seats, shares)
        rows.append(stacked_row(site, *cells))
        room -= sum(map(size, cells))
        if room < 0:
            break
    shown, left = country.parties[:len(rows)], country.parties[len(rows):]
    if left:
        rows.append(stacked_row(site, *others_cells(site, country, left)))
    rows += [stacked_row(site, *cells) for cells in total_cells(site, country)]
    heads = (site.said("list"), *seats_heads(site, country, seats),
             numbers(site.said("votes").lower()), changing(site, "share", shares))
    return table(site, site.said("table_country"), heads, rows, "totalled stacked under"), shown


def seats_heads(site, country, seats):
    """The heads of the columns of seats: where some are certified and some provisional, of those,
    of these and of their sum."""
    provisional = numbers(site.said("seats_provisional"))
    if country.is_mixed:
        return [changing(site, "seats_certified", seats), provisional,
                numbers(site.said("seats_together"))]
    return [provisional if country.is_provisional else changing(site, "seats", seats)]


def seats_cells(site, country, party, said):
    """The cells of the seats of a list, of which the certified ones are said so: a number where a
    constituency of that kind has the list, and a dash where none has."""
    word = site.templates.parts.provisional
    certified = said if party.certified_cons else "–"
    provisional = word(site.number(party.provisional)) if party.provisional_cons else "–"
    if not country.is_mixed:
        return [provisional if country.is_provisional else certified]
    given = party.certified_cons + party.provisional_cons
    together = site.number(party.seats + party.provisional) if given else "–"
    return [certified, provisional, site.templates.parts.sum(together)]


def total_cells(site, country):
    """The rows of the seats that no list has, a kind each, and that of all seats: in each column
    those above add up to it. It is provisional where all seats are."""
    more = ["–"] * 2 if country.is_mixed else []
    for _, _, words, many in country.nobodys:
        if many:
            yield [site.said(words), *more, site.number(many), "–", ""]
    word, total = site.templates.parts.provisional, site.number(country.chamber)
    if country.is_mixed:
        more = [site.number(country.certified), word(site.number(country.provisional))]
    votes = site.number(sum(party.votes for party in country.parties)) if country.closed else "–"
    is_all = country.is_mixed or not country.is_provisional
    is_all = is_all or country.provisional == country.chamber
    yield [site.said("total" if is_all else "total_all"), *more,
           word(total) if country.provisional == country.chamber else total, votes, ""]


def votes_cells(site, country, party, shares=None):
    """The cells of the votes of a list: dashes where no station is counted that has it."""
    if not party.closed:
        return ["–", "–"]
    share = country.share_of(party)
    return [site.number(party.votes),
            changed(site, party.code, share, shares, site.share, site.per_cent)]


def party_cells(site, country, party, seats, shares):
    given = changed(site, party.code, party.seats, seats, site.number)
    return [list_link(site, party.code, party.name), *seats_cells(site, country, party, given),
            *votes_cells(site, country, party, shares)]


def others_cells(site, country, parties):
    """The cells of the lists beyond those that are shown, together."""
    together = Party.of_all(parties)
    words = "others" if together.seats or together.provisional else "others_without"
    return [site.said(words, many=len(parties)),
            *seats_cells(site, country, together, site.number(together.seats)),
            *votes_cells(site, country, together)]


def turnout_said(site, country):
    """The turnout of what is counted, which is under the title too, with its numbers."""
    if not country.closed or not country.counted_electors:
        return None
    papers = country.valid + country.spoiled
    words = "turnout" if country.closed == country.stations else "turnout_part"
    return site.said(words, share=site.per_cent(rounded(papers, country.counted_electors)),
                     papers=site.number(papers), electors=site.number(country.counted_electors))


def country_head(site, country, cons):
    """The lines under the title of the pages of the country: how much is counted, the seats, what
    is missing, and who has won, once all is certified, or who leads."""
    standings = [Standing(party.name, party.votes, party.seats, country.share_of(party))
                 for party in country.parties]
    headline = (has_won(site, standings, country.certified, country.majority) if country.whole
                else leads(site, standings, country.base, country.closed == country.stations))
    counted = counted_line(site, country.closed, country.stations,
                           country.valid + country.spoiled, country.counted_electors)
    return {"headline": headline, "counted_line": counted,
            "outlook": country_outlook(site, country, cons)}


def programs(site, setup):
    """The files for programs that the page of the country links."""
    files = {"embed.html": "file_embed", "results.csv": "file_results", "index.csv": "file_index",
             "index.json": "file_index_json", "manifest.json": "file_hashes"}
    files |= {"setup.json": "file_setup"} if setup else {}
    return [(file, site.said(words)) for file, words in files.items()]


def country_values(site, country, cons):
    """The parts of the page of the country, but for its tables."""
    names = names_of(cons)
    share = counted_share(country.closed, country.stations)
    return {
        "title": title_of(site), "certified": certified_said(site, country),
        "certified_cons": country.certified_cons,
        "provisional": provisional_said(site, country),
        "circle": circle_of(site, country), "chart": chart_of(site, country),
        "base": site.say(f"base_{'lists' if country.bases == {'lists'} else 'valid'}"),
        "counted": site.said("counted", closed=site.number(country.closed), many=country.stations,
                             share=site.per_cent(share)),
        "done": f"{share / 100:.2f}",
        "turnout": turnout_said(site, country),
        "votes": (votes_said(site, country.valid, country.blank, country.spoiled)
                  if country.closed else None),
        "closest": [{"votes": short, "code": code, "con": con, "name": names[con], "loser": of}
                    for short, code, con, of in country.closest],
        "without_short": country.without_short, "whole": country.whole,
        "cons_in_all": country.cons,
        "map": map_shape(site.map, cons) if site.map else None, "map_key": map_key(cons),
        "map_faded": not country.whole}


def index_pages(site, cons, setup, moment, changed, electors):
    """The page of the country: what the constituencies are together, and each of them; and the
    pages of the constituencies where there is no room for them. `electors` are those of the
    stations that are counted, by constituency."""
    country = together(cons, electors)
    values, former = country_values(site, country, cons), former_of(site, country, cons)
    head = country_head(site, country, cons)
    values |= head | {"programs": programs(site, setup), "moment": moment, "last_change": changed,
               "compared_seats": former[0] is not None, "compared_shares": former[1] is not None}
    rows = cons_rows(site, cons)
    firsts = {first_list(con) for con in cons.values()}
    closest = values["closest"]
    for own, room, many in [(True, math.inf, CLOSEST), *((False, *of) for of in TABLES_OF_COUNTRY)]:
        links, pages, values["closest"] = NOTHING, [], closest[:many]
        if not own:
            links, pages = cons_pages(site, rows, cons, moment, changed, head)
        parties, shown = parties_table(site, country, former, room)
        codes = shown_codes(values, shown, firsts if own or site.map else set())
        text = site.templates.page(
            "index.html", here="index.html", parties=parties,
            dashes=DASH in parties, cons=cons_table(site, rows) if own else links, own=own,
            colours=site.colours_in(party.code for party in country.parties if party.code in codes),
            **values)
        if size(text) <= PAGE_ROOM:
            break
    return [text, *pages]


def shown_codes(values, parties, firsts):
    """The lists that are on the page of the country, whose colours it needs."""
    of_circle = values["circle"]["groups"] if values["circle"] else []
    of_chart = values["chart"]["bars"] if values["chart"] else []
    return {*(party.code for party in parties), *firsts, *outlook_codes(values),
            *(one["code"] for one in [*of_circle, *of_chart, *values["closest"]]),
            *(one["loser"] for one in values["closest"])}


def outlook_codes(head):
    """The lists that are in the line of the seats, under the title."""
    return [code for line in head["outlook"]["lines"] for code, _ in line["seats"]]


# ---- the constituencies


def names_of(cons):
    return {code: con["tally"]["name"] for code, con in cons.items()}


def cons_rows(site, cons):
    """The constituencies in the order of their names: code and row of each."""
    macros, rows = site.templates.of_country, []
    for code, con in by_name(cons):
        first, counted = first_list(con), con["tally"]
        rows.append((code, stacked_row(
            site, macros.con_cell(code, counted["name"], state_of(con), site.share(
                counted_share(counted["closed"], counted["stations"]))),
            list_name(site, first) if first else "–", con_seats(site, con))))
    return rows


def con_seats(site, con):
    """The seats of a constituency by list, with those that a lot would decide; how many there are
    where none is given."""
    macros, lot = site.templates.of_country, lot_of(con)
    seats, not_final = seats_of(con), provisional_seats(con)
    given = [(of, many) for of, many in seats or not_final.items() if many]
    left = [("seats_by_lot", lot[1])] if lot else []
    if more := con["rule"]["seats"] - sum(many for _, many in [*given, *left]):
        words = "seats_open" if con["tally"]["closed"] else "seats_uncounted"
        left.append((words, more))
    return macros.seats_cell(given, bool(not_final), left)


def cons_table(site, rows):
    heads = (site.said("con"), site.said("first"), site.said("seats").lower())
    return framed(site, site.said("table_cons"), heads, [row for _, row in rows],
                  "searched cons stacked")


def seats_of(con):
    """The seats of a certificate, in their order."""
    if "seats" not in con:
        return []
    return list(by_seats(con, con["seats"]["seats"]).items())


def state_of(con):
    if con["view"]["certified"]:
        return "state_certified"
    return "state_withdrawn" if con["past"] else "state_open"


def cons_pages(site, rows, cons, moment, changed, head):
    """Links to the pages of the constituencies, where they are on pages of their own; and these
    pages."""
    def written(rows, links):
        firsts = [first_list(cons[code]) for code, _ in rows]
        return site.templates.page(
            "cons.html", here="index.html", title=site.said("cons"), links=links,
            table=cons_table(site, rows),
            colours=site.colours_in(dict.fromkeys([*filter(None, firsts), *outlook_codes(head)])),
            moment=moment,
            last_change=changed, **head)

    names = names_of(cons)
    labels = [label(names[code]) for code, _ in rows]
    texts = [row for _, row in rows]
    groups, links = searched(site, "cons", texts, labels, written([], NOTHING))
    left = iter(rows)
    return links(groups, None), [written([next(left) for _ in group], links(groups, here))
                                 for here, group in enumerate(groups)]


# ---- the page of the count


def count_sections(site, cons):
    rows = []
    for code, con in by_name(cons):
        row, state = con["progress"], state_of(con)
        rows.append(stacked_row(
            site, site.templates.parts.con_link(code, con["tally"]["name"]), site.said(state),
            *(site.number(row[key]) for key in COUNTED)))
    certified = sum(con["view"]["certified"] for con in cons.values())
    said = site.said("certified_cons", certified=site.number(certified),
                     cons=site.number(len(cons)))
    progress_said = site.templates.of_count.certified(
        said, progress_bar(site, said, certified, len(cons)))
    heads = (Head(site.said("con")), Head(site.said("certificate")),
             *(numbers(site.said(key)) for key in COUNTED))
    # On a phone a column is left out that has no return at all.
    left_out = [f"no-{key}" for key in ("received", "queried", "corrected")
                if not any(con["progress"][key] for con in cons.values())]
    return sections(site, site.said("cons"),
                    tables(site, site.said("table_count"), heads, rows,
                           " ".join(["count stacked", *left_out])),
                    progress_said)


def count_pages(site, cons, moment, changed, head=None):
    """The page of the count: how many returns of each constituency are in which state; and those
    on which it goes on. `head` is that of the record of commands."""
    country = together(cons, {})
    under_title = {"counted_line": counted_line(site, country.closed, country.stations),
                   "outlook": country_outlook(site, country, cons)}

    def written(sections, links):
        return site.templates.page(
            "count.html", here="count.html", title=site.said("count_title"),
            colours=site.colours_in(outlook_codes(under_title)), links=links, sections=sections,
            moment=moment, last_change=changed, **under_title)

    def links(groups, here):
        if len(groups) == 1:
            return NOTHING
        files = ["count.html", *(f"count-{place}.html" for place in range(1, len(groups)))]
        return details_links(site, files, groups, here)

    parts = count_sections(site, cons)
    if head:
        of_count, whole = site.templates.of_count, head.get("whole", True)
        record = of_count.record(site.number(head["n"]), head["hash"], whole)
        parts.append(Part(record))
    groups = divided(parts, room_beside(written([], NOTHING)), links)
    return [written(group, links(groups, here)) for here, group in enumerate(groups)]


# ---- what all pages have


def title_of(site):
    return site.about.get("title", site.said("title"))


def aged(site, text, moment):
    """A page that stays as it is, with a line that says how old it is; one of a board's own
    template may say no moment."""
    since = moment_in(r'<time datetime="([^"]+)">', text)
    if not since:
        return text
    age = site.age_of(since, moment)
    begin, end = AGE
    line = site.templates.parts.old(site.hour(moment), age)
    return unaged(text).replace(begin + end, f"{begin}{line}{end}", 1)


def withdrawn_page(site):
    """In the place of a page of a constituency that is none of the election, as a function of its
    moment."""

    def written(moment):
        return site.templates.page("withdrawn.html", title=site.say("page_withdrawn"),
                                   moment=moment, colours=())

    return written
