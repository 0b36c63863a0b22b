"""The parts that other sites may embed: the result of the country, or of a constituency, without a
script, as small pages whose links open in a window of their own."""

from press_figures import half_circle
from press_pages import (circle_of, country_head, others_cells, provisional_said, seats_cells,
                         seats_heads, total_cells, votes_cells)
from press_parts import (NOTHING, base_of, by_votes, framed, list_name, list_share, numbers,
                         rounded, stacked_row)
from press_results import by_seats, counted_share, provisional_seats

# Lists that such a part shows, before the others together.
SHOWN = 8


def embedded(site, values, heads, rows, circle, codes):
    """The page of a part, as a function of its moment, with a table of these heads beside those of
    the lists and the votes, and of these cells of each row."""
    heads = [site.said("list"), *heads, numbers(site.said("votes").lower()),
             numbers(site.said("share"))]
    table = framed(site, site.said("table_country"), heads,
                   [stacked_row(site, *cells) for cells in rows], "stacked under totalled")

    def written(moment):
        return site.templates.page("embed.html", circle=circle, table=table, moment=moment,
                                   colours=site.colours_in(codes), withdrawn=False, **values)

    return written


def country_embedded(site, country, cons):
    """The part of the country."""
    rows = [[list_name(site, party.code, party.name),
             *seats_cells(site, country, party, site.number(party.seats)),
             *votes_cells(site, country, party)] for party in country.parties[:SHOWN]]
    if left := country.parties[SHOWN:]:
        rows.append(others_cells(site, country, left))
    values = country_head(site, country, cons) | {
        "name": None, "page": "index.html",
        "warnings": [one for one in (provisional_said(site, country),) if one]}
    return embedded(site, values, seats_heads(site, country, None),
                    [*rows, *total_cells(site, country)], circle_of(site, country),
                    [party.code for party in country.parties])


def con_embedded(site, code, con, head):
    """The part of a constituency, with the lines under the title of its page."""
    more, tally = provisional_seats(con), con["tally"]
    given = by_seats(con, con["seats"]["seats"]) if "seats" in con else {}
    question = con["provisional"]["question"] if more else 0
    circle = None
    if given or more:
        circle = half_circle(site, given, con["rule"]["seats"], [("circle_lot", question)],
                             provisional=more)
    values = head | {"name": tally["name"], "page": f"con-{code}.html",
                     "warnings": con_warnings(site, con, more)}
    heads = [numbers(site.said("seats_provisional") if more else site.said("seats").lower())]
    return embedded(site, values, heads, con_rows(site, con, given, more, question), circle,
                    [row["code"] for row in tally["lists"]])


def con_warnings(site, con, more):
    """A sentence on what the provisional seats are; none where there are none."""
    tally = con["tally"]
    whole = tally["closed"] == tally["stations"]
    found = []
    if more:
        found.append(site.said(
            "provisional_said" if not whole else "provisional_said_again" if con["past"]
            else "provisional_said_all",
            many=con["rule"]["seats"] - (con["provisional"]["question"] if whole else 0),
            closed=site.number(tally["closed"]),
            share=site.per_cent(counted_share(tally["closed"], tally["stations"])),
            stations=site.number(tally["stations"])))
    return found


def con_rows(site, con, given, more, question):
    """The rows of the lists of a constituency, and those of the seats that a lot decides and of all
    seats, where some are given."""
    word, base, lists = site.templates.parts.provisional, base_of(con), by_votes(con)

    def seats(codes):
        if not given and not more:
            return "–"
        many = site.number(sum((given or more)[code] for code in codes))
        return word(many) if more else many

    def cells(said, rows):
        votes = sum(row["votes"] for row in rows)
        share = list_share(con, rows[0]) if len(rows) == 1 else rounded(votes, base)
        shown = [site.number(votes), site.share(share)]
        return [said, seats([row["code"] for row in rows]),
                *(shown if con["tally"]["closed"] else ["–", "–"])]

    found = [cells(list_name(site, row["code"], row["name"]), [row]) for row in lists[:SHOWN]]
    if left := lists[SHOWN:]:
        found.append(cells(site.said("others", many=len(left)), left))
    if question:
        found.append([site.said("row_lot"), site.number(question), "–", ""])
    total, votes = site.number(con["rule"]["seats"]), sum(row["votes"] for row in lists)
    found.append([site.said("total_all" if question else "total"),
                  word(total) if more and not question else total,
                  site.number(votes) if con["tally"]["closed"] else "–", ""])
    return found


def withdrawn_embedded(site):
    """The part of a constituency that is none of the election, as a function of its moment."""
    values = {"circle": None, "colours": (), "name": None, "page": "index.html",
              "withdrawn": True, "table": NOTHING, "warnings": ()}

    def written(moment):
        return site.templates.page("embed.html", moment=moment, **values)

    return written
