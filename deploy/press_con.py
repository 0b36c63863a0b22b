"""The page of a constituency: its sections, and the pages on which it goes on."""

import math
from datetime import datetime
from fractions import Fraction

from press_country import loser, seats_before, shares_before
from press_data import OPEN
from press_figures import bars, half_circle
from press_head import Standing, con_outlook, con_state, counted_line, has_won, leads
from press_lots import lot_drawn, lot_said
from press_open import reason_said, reopened_counted
from press_parts import (COUNTED, NOTHING, TABLE_ROOM, Head, Part, base_of, blank_row, by_votes,
                         changed, changing, details_links, divided, list_link, list_name,
                         list_share, numbers, pieces, progress_bar, room_beside, rounded, row_of,
                         sections, sections_on, size, stacked_row, table, tables, together,
                         votes_said)
from press_results import RULES, counted_share, lot_of, provisional_seats
from press_templates import Markup

# Columns of quotients side by side, as many as a sheet has room for.
QUOTIENTS_WIDE = 8
# Bytes of rows that the tables of seats and of votes may have on the page of a constituency, which
# has the first of these with which it is no longer than a page may be: the other rows are on the
# pages on which it goes on.
TABLES_OF_CON = ((math.inf, math.inf), (math.inf, 12_000), (math.inf, 6_000), (10_000, 6_000),
                 (6_000, 4_000), (4_000, 2_000), (2_000, 1_000), (1_000, 500))


# ---- seats and votes


def former_con(site, code, con):
    """The seats and the shares that each list had, each where they can be compared."""
    tally = con["tally"]
    whole = tally["closed"] == tally["stations"] and con["rule"]["base"] == "valid"
    return (seats_before(site.former, [code]) if "seats" in con else None,
            shares_before(site.former, [code]) if whole else None)


def seats_sections(site, code, con, room):
    """The seats, with as many rows of their table as have room, and the others."""
    macros = site.templates.of_con
    if not con["view"]["certified"]:
        none, why = why_none(site, con)
        if provisional_seats(con):
            return provisional_sections(site, con, none, why, room)
        count = site.said("seats_count", many=con["rule"]["seats"])
        return [Part(macros.no_seats(none, why, count))]
    given, total = con["seats"]["seats"], con["seats"]["total"]
    before, _ = former_con(site, code, con)
    rows = [row_of(site, list_name(site, one["code"], one["name"]),
                   changed(site, one["code"], given[one["code"]], before, site.number))
            for one in by_votes(con)]
    rows.append(row_of(site, site.said("total"), site.number(total)))
    heads = (site.said("list"), changing(site, "seats", before))
    first, *more = tables(site, site.said("table_seats"), heads, rows, "totalled", room=room)
    ordered = {one["code"]: given[one["code"]] for one in by_votes(con)}
    circle = half_circle(site, ordered, total) if total else None
    # (of Hare's rule a list has one claim to a seat, for which the order is as it was drawn)
    turned = con["rule"]["lot_rule"] == "alternating" and con["rule"]["method"] != "hare"
    seats = macros.seats(certified_said(site, con), circle, first,
                         lot_drawn(site, con), turned, last_seat(site, con))
    return [Part(seats, first.heads), *sections_on(site, more)]


def why_none(site, con):
    """That there is no certificate, and what it needs."""
    tally, lot = con["tally"], lot_of(con)
    if tally["closed"] < tally["stations"]:
        why = site.said("why_returns")
        if con["past"]:
            why = reopened_counted(site, con) + reason_said(site, con) + " " + why
    elif lot:
        why = site.said("why_lot", many=lot[1], lists=site.listed(lot[0]))
    else:
        why = site.said("may_change" if con["past"] else "why_board")
    return "none_withdrawn" if con["past"] else "none_open", why


def last_seat(site, con):
    """Why the last seat went where it did, in sentences; none where no quotient decided it."""
    if not con.get("awards"):
        return []
    unit, divisor = RULES[con["rule"]["method"]]
    votes = {row["code"]: row["votes"] for row in con["tally"]["lists"]}

    def quotient(code, of_list):
        return Fraction(votes[code] * unit, divisor(of_list))

    def said(words, code, of_list, **more):
        by = Fraction(divisor(of_list), unit)
        return site.said(words, list=list_name(site, code), votes=site.number(votes[code]),
                         divisor=site.decimal(f"{float(by):g}"),
                         quotient=site.number(int(quotient(code, of_list))), **more)

    award = con["awards"][-1]
    found = [said("last_seat_said", award["list"], award["of_list"],
                  seat=site.number(award["seat"]))]
    left = {code: 1 + sum(won for _, won in row) for code, row in con["quotients"]}
    best = max(left, key=lambda code: quotient(code, left[code]))
    level = [code for code in left if quotient(code, left[code]) == quotient(best, left[best])]
    if quotient(best, left[best]) == quotient(award["list"], award["of_list"]):
        found += level_said(site, votes, award["list"], level)
    else:
        found.append(said("last_seat_next", best, left[best]))
    if short := [row for row in con["short"] if row["short"] is not None]:
        least = min(short, key=lambda row: row["short"])
        found.append(site.said("last_seat_short", list=list_name(site, least["list"]),
                               votes=site.number(least["short"]),
                               loser=list_name(site, loser(con, least["list"]))))
    return found


def level_said(site, votes, winner, level):
    """Why the last seat went to this list and not to these, whose next quotient is as high: a lot
    decided among lists of as many votes, and more votes before those of fewer (LOREG, article
    163.1 d)."""
    by_lot = [code for code in level if votes[code] == votes[winner]]
    by_votes = [code for code in level if votes[code] != votes[winner]]
    return [site.said(words, lists=Markup(", ").join(list_name(site, code) for code in codes))
            for words, codes in (("last_seat_level", by_lot), ("last_seat_votes", by_votes))
            if codes]


def provisional_sections(site, con, none, why, room):
    """The seats if the votes that are closed were all the votes."""
    given, said, tally = provisional_seats(con), con["provisional"], con["tally"]
    names = {row["code"]: row["name"] for row in tally["lists"]}
    total, question, word = con["rule"]["seats"], said["question"], site.templates.parts.provisional
    rows = [row_of(site, list_name(site, code, names[code]),
                   word(site.number(given[code]), code in said["group"])) for code in given]
    if question:
        rows.append(row_of(site, site.said("row_lot"), site.number(question)))
    of_all = site.number(total)
    rows.append(row_of(site, site.said("total_all" if question else "total"),
                       of_all if question else word(of_all)))
    values = {"share": site.per_cent(counted_share(tally["closed"], tally["stations"])),
              "closed": site.number(tally["closed"]), "stations": site.number(tally["stations"])}
    whole = tally["closed"] == tally["stations"]
    heads = (site.said("list"), numbers(site.said("seats_provisional")))
    first, *more = tables(site, site.said("table_provisional", **values), heads, rows, "totalled",
                          room=room)
    circle = half_circle(site, {}, total, [("circle_lot", question)], provisional=given)
    # What a lot has to decide where all is counted is said above as what the certificate needs.
    lot = None if whole else lot_said(site, con)
    words = ("provisional_said" if not whole else "provisional_said_again" if con["past"]
             else "provisional_said_all")
    seats = site.templates.of_con.provisional_seats(
        none, why, site.said(words, many=total - question if whole else total, **values), lot,
        circle, first)
    return [Part(seats, first.heads), *sections_on(site, more)]


def certified_said(site, con):
    said = site.said("certified_by", many=con["seats"]["total"], edition=con["seats"]["edition"],
                     method=site.words["methods"][con["rule"]["method"]])
    if not con["past"]:
        return said
    return said + " " + site.said("certified_again", many=len(con["past"]),
                                  edition=con["past"][-1]["edition"])


def votes_sections(site, code, con, room):
    """The votes, with as many rows of their table as have room, and the others."""
    _, before = former_con(site, code, con)
    rule = con["rule"]
    lists = [row | {"share": list_share(con, row)} for row in by_votes(con)]
    rows = [stacked_row(site, list_link(site, row["code"], row["name"]),
                        *votes_cells(site, con, row, before), takes_part(site, con, row))
            for row in lists]
    if con["tally"]["closed"]:
        rows.append(blank_row(site, con["tally"]["blank"], blank_share(con), "–"))
    base, limit = site.say(f"base_{rule['base']}"), ""
    if rule["threshold"]:
        limit = site.said("threshold", share=site.per_cent(rule["threshold"]), base=base)
    shares = site.said("shares_of", base=base)
    heads = (site.said("list"), numbers(site.said("votes").lower()),
             changing(site, "share", before), site.said("takes_part"))
    first, *more = tables(site, site.said("table_votes"), heads, rows, "stacked", room=room)
    votes = site.templates.of_con.votes(
        con["tally"]["closed"], con["tally"]["stations"], bars(site, lists, rule["threshold"], limit),
        first, shares, before is not None, con_state(con) == "withdrawn")
    return [Part(votes, first.heads), *sections_on(site, more)]


def votes_cells(site, con, row, before):
    """The votes of a list and their share, once something is counted."""
    if not con["tally"]["closed"]:
        return ["–", "–"]
    return [site.number(row["votes"]),
            changed(site, row["code"], row["share"], before, site.share, site.per_cent)]


def takes_part(site, con, row):
    """Whether a list takes part in the award of seats, once something is counted."""
    if not con["tally"]["closed"]:
        return "–"
    return site.said("yes" if row["eligible"] else "no")


def blank_share(con):
    """The share of the blank votes, as those of the lists are shown; None where shares are of the
    votes for lists."""
    if con["rule"]["base"] == "lists":
        return None
    return rounded(con["tally"]["blank"], con["tally"]["valid"])


def con_head(site, con, electors):
    """The lines under the title: how much is counted, the seats, what is missing, and who has won
    or who leads. The electors are those of the stations that are counted, or None."""
    tally, seats = con["tally"], con.get("seats")
    standings = [Standing(row["name"], row["votes"], seats["seats"][row["code"]] if seats else 0,
                          list_share(con, row)) for row in tally["lists"]]
    headline = (has_won(site, standings, seats["total"]) if seats
                else leads(site, standings, base_of(con),
                           tally["closed"] == tally["stations"]))
    counted = counted_line(site, tally["closed"], tally["stations"],
                           tally["valid"] + tally["spoiled"], electors)
    return {"headline": headline, "counted_line": counted, "outlook": con_outlook(site, con)}


def counted_section(site, code, con, row, entry, published, has_places):
    tally, turnout, links = con["tally"], None, []
    said = site.said("con_counted", closed=site.number(row["closed"]), many=row["stations"])
    if entry and tally["closed"] == tally["stations"]:
        papers = tally["valid"] + tally["spoiled"]
        electors = sum(station["electors"] for station in entry["stations"])
        turnout = site.said("turnout", share=site.per_cent(rounded(papers, electors)),
                            papers=site.number(papers), electors=site.number(electors))
    if has_places:
        links.append((f"places-{code}-1.html", site.said("places_link")))
    if published:
        links.append((f"stations-{code}-1.html", site.said("stations_link")))
    heads = [numbers(site.said(key)) for key in COUNTED]
    counts = row_of(site, *(site.number(row[key]) for key in COUNTED))
    returns = table(site, site.said("table_returns"), heads, [counts], "turned")
    counted = site.templates.of_con.counted(
        said, progress_bar(site, said, row["closed"], row["stations"]), returns, turnout,
        votes_said(site, tally["valid"], tally["blank"], tally["spoiled"])
        if tally["closed"] else None, links,
        bool(entry) and not published)
    return Part(counted, returns.heads)


# ---- who holds the seats, and how they were awarded


def holders_sections(site, con, order, candidates):
    if "holders" not in con:
        return []
    macros = site.templates.of_con
    rows = [row_of(site, list_name(site, row["list"]),
                   "–" if row["place"] is None else site.number(row["place"]),
                   macros.empty_seat() if row["place"] is None
                   else site.templates.name(row["name"]))
            for row in sorted(con["holders"], key=lambda row: order[row["list"]])]
    gone = [macros.candidate_gone(row["list"], row["place"], candidate(candidates, row),
                                  row["note"]) for row in con["view"]["gone"]]
    left = [Part(macros.gone(part), [site.said("gone")])
            for part in pieces(gone, TABLE_ROOM) if part]
    heads = (site.said("list"), numbers(site.said("place")), site.said("name"))
    *parts, last = tables(site, site.said("table_holders"), heads, rows)
    return sections(site, site.said("holders"),
                    [*parts, together([last, *left[:1]]), *left[1:]])


def candidate(candidates, row):
    """The name of a candidate, where the setup is known."""
    names = candidates.get(row["list"], [])
    return names[row["place"] - 1] if row["place"] <= len(names) else None


def awards_sections(site, con):
    if "awards" not in con:
        return []
    keys = ("of_list", "votes", "divisor", "quotient")
    rows = [row_of(site, site.number(row["seat"]), list_name(site, row["list"]),
                   *(site.number(row[key]) for key in keys)) for row in con["awards"]]
    columns = ("seat_of", "votes_unit", "divisor", "quotient")
    heads = (numbers(site.said("seat")), Head(site.said("list_of")),
             *(numbers(site.said(key)) for key in columns))
    *parts, last = tables(site, site.said("table_awards"), heads, rows, "awards")
    said = site.templates.parts.paragraph(site.said("awards_said"))
    return sections(site, site.said("awards"), [*parts, Part(last + said.rstrip(), last.heads)])


def quotients_sections(site, con, order):
    """The quotients, in tables as wide as a sheet has room for, and what each list lacked for one
    seat more."""
    if "quotients" not in con:
        return []
    lists = sorted(con["quotients"], key=lambda row: order[row[0]])
    many, parts = max((len(row) for _, row in lists), default=0), []
    for start in range(0, max(many, 1), QUOTIENTS_WIDE):
        parts += quotients_tables(site, lists, start, min(start + QUOTIENTS_WIDE, many), many)
    short = [row_of(site, list_name(site, row["list"]), site.number(row["seats"]),
                    "–" if row["short"] is None else site.number(row["short"]))
             for row in sorted(con["short"], key=lambda row: order[row["list"]])]
    heads = (site.said("list"), numbers(site.said("seats").lower()), numbers(site.said("short")))
    parts += tables(site, site.said("table_short"), heads, short)
    said = site.templates.parts.paragraph(site.said("quotients_said"))
    return sections(site, site.said("quotients"), parts, said)


def quotients_tables(site, lists, start, end, many):
    rows = [site.templates.of_con.quotients(
        code, [(site.number(value), won) for value, won in row[start:end]]) for code, row in lists]
    caption = site.said("table_quotients")
    if many > QUOTIENTS_WIDE:
        caption = site.said("table_quotients_part", first=start + 1, last=end)
    heads = [Head(site.said("list")), *(numbers(site.said("seat_number", number=place))
                                        for place in range(start + 1, end + 1))]
    return tables(site, caption, heads, rows, "quotients", wide=True)


def quota_sections(site, con, order):
    if "quota" not in con:
        return []
    keys = ("votes", "whole", "remainder", "seats")
    rows = [row_of(site, list_name(site, row["list"]), *(site.number(row[key]) for key in keys))
            for row in sorted(con["quota"]["lists"], key=lambda row: order[row["list"]])]
    heads = [Head(site.said("list")), *(numbers(site.said(key).lower()) for key in keys)]
    said = site.said("quotas_said", votes=site.number(con["quota"]["votes"]),
                     seats=site.number(con["quota"]["seats"]))
    return sections(site, site.said("quotas"),
                    tables(site, site.said("table_quotas"), heads, rows, "quotas"),
                    site.templates.parts.paragraph(said))


# ---- what was withdrawn, and files


def past_sections(site, con, order, returns):
    macros = site.templates.of_con
    if not con["past"]:
        return [Part(macros.no_past())]
    note, parts = con["view"]["note"], []
    for past in con["past"]:
        rows = [row_of(site, list_name(site, row["code"], row["name"]), site.number(row["seats"]))
                for row in sorted(past["lists"], key=lambda row: order[row["code"]])]
        of_stations = returns.get(past["edition"])
        link = macros.past_returns(of_stations) if of_stations else NOTHING
        heads = (site.said("list"), numbers(site.said("seats").lower()))
        caption = site.said("table_past", edition=past["edition"])
        *more, last = tables(site, caption, heads, rows, "withdrawn")
        parts += [*more, Part(last + link, last.heads)]
    return sections(site, site.said("past"), parts, macros.past_note(note) if note else NOTHING)


def files_section(site, code, edition, returns):
    """Links to the acts of the certificate, and to the same numbers for programs."""
    links = [(f"con-{code}.csv", site.said("file_con")),
             (f"con-{code}.json", site.said("file_con_json")),
             (f"embed-{code}.html", site.said("file_embed"))]
    links += [(returns[which], site.said(words, edition=edition))
              for which, words in ((edition, "file_returns"), (OPEN, "file_open"))
              if which in returns]
    acts = [(name, site.said(f"act_{kind}", language=language))
            for name, kind, language in returns.get("acts", ())]
    return Part(site.templates.of_con.programs(links, acts))


# ---- pages


def con_bodies(site, code, con, row, entry, returns, electors, has_places):
    """The parts of the page of a constituency, and, where that is too long for one, the pages on
    which it goes on; `entry` is what the setup says of the constituency, or None, and `electors`
    are those of the stations that are counted, or None. Its places have pages, or not."""
    head = con_head(site, con, electors)
    order = {listed["code"]: place for place, listed in enumerate(by_votes(con))}
    names = {listed["code"]: listed["candidates"] for listed in entry["lists"]} if entry else {}
    published = (row["edition"] if row["certified"] else OPEN) in returns
    counted = counted_section(site, code, con, row, entry, published, has_places)
    details = [*holders_sections(site, con, order, names), *awards_sections(site, con),
               *quotients_sections(site, con, order), *quota_sections(site, con, order),
               *past_sections(site, con, order, returns)]
    files = files_section(site, code, row["edition"], returns)
    empty = {"links": NOTHING, "sections": [], **head}
    room = room_beside(details_page(site, code, con, row, empty, datetime.now().astimezone()))

    def links(groups, here):
        names = [f"details-{code}-{place}.html" for place in range(1, len(groups) + 1)]
        return details_links(site, names, groups, here)

    for of_seats, of_votes in TABLES_OF_CON:
        seats, *more_seats = seats_sections(site, code, con, of_seats)
        votes, *more_votes = votes_sections(site, code, con, of_votes)
        more = [*more_seats, *more_votes, *details]
        if sum(map(size, [seats, votes, counted, files, *more])) <= room:
            return [{"seats": NOTHING.join([seats, *more_seats]), "counted": counted,
                     "votes": NOTHING.join([votes, *more_votes]), "links": NOTHING,
                     "details": NOTHING.join(details), "files": files, **head}]
        groups = divided(more, room, links)
        to_others = links(groups, None)
        if sum(map(size, [seats, votes, counted, to_others, files])) <= room:
            break
    first = {"seats": seats, "votes": votes, "counted": counted, "links": to_others,
             "details": NOTHING, "files": files, **head}
    return [first, *({"links": links(groups, here), "sections": group, **head}
                     for here, group in enumerate(groups))]


def colours(site, con):
    return site.colours_in(one["code"] for one in con["tally"]["lists"])


def con_page(site, con, row, body, moment):
    """The page of a constituency, which has this."""
    return site.templates.page(
        "con.html", here=f"con-{row['con']}.html", name=con["tally"]["name"],
        edition=row["edition"], moment=moment,
        colours=colours(site, con), **body)


def details_page(site, code, con, row, body, moment):
    """A page on which that of a constituency goes on."""
    return site.templates.page(
        "details.html", here=f"con-{code}.html", code=code,
        name=con["tally"]["name"], edition=row["edition"], moment=moment,
        colours=colours(site, con), **body)
