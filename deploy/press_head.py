"""The lines under the title of each page: whether the result is final; how much is counted, with the
turnout of that; who has how many certified and how many provisional seats; what is missing; and who
leads or has won."""

from typing import NamedTuple

from press_lots import lot_drawn, lot_line, lot_said, lots_decided
from press_names import isolated
from press_open import country_open, reopened_counted, reopened_said
from press_parts import rounded
from press_results import by_seats, counted_share, lot_of, provisional_seats

# Lists that are named one by one, where they have as many votes; and lists whose seats are in the
# line of the seats.
NAMED, SHOWN_SEATS = 3, 8


class Standing(NamedTuple):
    """A list with its votes, its seats where they are certified, and its share as the tables have
    it, where that is not the rounded one."""
    name: str
    votes: int
    seats: int = 0
    share: int | None = None


# ---- what is counted, and who leads


def counted_line(site, closed, stations, papers=0, electors=None):
    """How much is counted. The electors are those of the stations that are counted, or None where
    they are not known."""
    share = counted_share(closed, stations)
    words = "head_none" if not closed else "head_all" if closed == stations else "head_part"
    said = site.say(words, closed=site.number(closed), many=stations,
                    share=site.per_cent(share))
    turnout = None
    if closed and electors:
        words = "head_turnout_all" if closed == stations else "head_turnout"
        turnout = site.say(words, share=site.per_cent(rounded(papers, electors)))
    return {"said": said, "turnout": turnout, "done": f"{share / 100:.2f}"}


def leads(site, standings, base, whole=False):
    """Who leads by the votes that are counted, in a sentence, or who has the most where they are
    the whole; None where there are no votes. Lists with as many votes are named together."""
    ordered = sorted(standings, key=lambda one: -one.votes)
    if not ordered or not ordered[0].votes:
        return None
    votes = ordered[0].votes
    first, others = [one for one in ordered if one.votes == votes], ordered[1:]
    shares = [rounded(one.votes, base) if one.share is None else one.share for one in ordered]
    share, end = site.per_cent(shares[0]), "_all" if whole else ""
    if len(first) > 1:
        return site.say("head_level", lists=level(site, first), share=share)
    if not others or not others[0].votes:
        return site.say(f"head_alone{end}", first=name(first[0]), share=share)
    second = [one for one in others if one.votes == others[0].votes]
    ahead = site.per_cent(shares[0] - shares[1])
    lists = level(site, second)
    return site.say(f"head_leads{end}", first=name(first[0]), share=share, ahead=ahead,
                    second=lists if len(second) == 1 else site.say("head_tied", lists=lists),
                    many=votes - second[0].votes)


def level(site, standings):
    """Lists with as many votes or seats, by their names where they are few."""
    if len(standings) > NAMED:
        return site.say("many_lists", many=len(standings))
    return site.listed([name(one) for one in standings])


def has_won(site, standings, total, majority=None):
    """Who has most of the seats, all of which are certified, in a sentence; None where there are
    none. With a majority, of how many seats that is."""
    ordered = sorted(standings, key=lambda one: (-one.seats, -one.votes))
    if not ordered or not ordered[0].seats:
        return None
    first = ordered[0]
    most = [one for one in ordered if one.seats == first.seats]
    values = {"seats": site.number(first.seats), "many": total}
    if len(most) > 1:
        return site.say("head_as_many", lists=level(site, most), **values)
    values["first"] = name(first)
    if majority is None or total == 1:
        return site.say("head_most", **values)
    if first.seats >= majority:
        return site.say("head_majority", **values)
    return site.say("head_short", short=site.number(majority - first.seats), **values)


def name(standing):
    return isolated(standing.name)


# ---- the seats, and what is missing


def seats_line(site, kind, words, given):
    """The seats of each list, those with most first, after these words; then the lists beyond
    those that are shown, together. None where there is none. All are of one kind: certified, or
    provisional."""
    ordered = sorted((one for one in given.items() if one[1]), key=lambda one: -one[1])
    if not ordered:
        return None
    shown, left = ordered[:SHOWN_SEATS], ordered[SHOWN_SEATS:]
    others = site.say("seats_others", many=len(left),
                      seats=site.number(sum(many for _, many in left)))
    return {"words": words, "kind": kind, "others": others if left else None,
            "seats": [(code, site.number(many)) for code, many in shown]}


def con_outlook(site, con):
    """Of a constituency what its result is, the seats so far, and what is missing."""
    tally, number, given = con["tally"], con["rule"]["seats"], provisional_seats(con)
    kind = con_state(con)
    found = {"final": False, "state": (kind, site.said(f"con_{kind}")), "warnings": [], "said": [],
             "lot": None, "majority": None, "open": None}
    if "seats" in con:
        line = seats_line(site, kind, site.say("line_certified"),
                          by_seats(con, con["seats"]["seats"]))
        return found | {"final": True, "lines": [line], "said": lot_drawn(site, con)[:1]}
    whole = tally["closed"] == tally["stations"]
    if con["past"]:
        found["warnings"].append(reopened_said(site, con))
    codes, by_lot = lot_of(con) or ((), 0)
    if by_lot:
        found["warnings"].append(lot_said(site, con))
    if con["past"]:
        said = site.said("may_change") if whole else reopened_counted(site, con)
    elif given and whole:
        said = site.said("all_counted", many=number - by_lot)
    else:
        said = site.said("seats_count_goes_on" if given else "seats_none_given", many=number)
    line = seats_line(site, "provisional", site.say("line_provisional"), given)
    return found | {"said": [said], "lot": lot_line(site, by_lot, whole, codes),
                    "lines": [line] if line else []}


def con_state(con):
    """The state of a constituency: a word of the style and of the texts."""
    return "certified" if con["view"]["certified"] else "withdrawn" if con["past"] else "open"


# ---- the country


def country_outlook(site, country, cons):
    """Of the country what its result is, the seats so far, who has the majority, and what is
    missing."""
    return {"final": country.whole, "state": country_state(site, country), "warnings": [],
            "lines": country_lines(site, country), "lot": nobodys_line(site, country),
            "majority": majority_said(site, country), "said": lots_decided(site, cons),
            "open": country_open(site, country, cons)}


def country_state(site, country):
    """Whether the result of the country is final, and how many seats are not certified."""
    if country.whole:
        return "certified", site.said("country_certified", many=country.chamber)
    words = "country_part" if country.certified else "country_none"
    return "open", site.said(words, many=country.chamber,
                             open=site.number(country.chamber - country.certified))


def state_alone(site, country):
    """Whether the result of the country is final, on a page that has other lines of its own."""
    return {"final": country.whole, "state": country_state(site, country), "warnings": [],
            "lines": [], "lot": None, "majority": None, "said": [], "open": None}


def list_outlook(site, country, party):
    """Of a list its certified and its provisional seats, and whether the seats of all are final."""
    words = "lists_certified" if country.whole else "lists_open"
    state = site.said(words, many=country.chamber,
                      open=site.number(country.chamber - country.certified))
    more = "line_provisional_more" if party.seats else "line_provisional"
    lines = [seats_line(site, "certified", site.say("line_certified"), {party.code: party.seats}),
             seats_line(site, "provisional", site.say(more), {party.code: party.provisional})]
    return state_alone(site, country) | {
        "state": (country_state(site, country)[0], state),
        "lines": [line for line in lines if line]}


def country_lines(site, country):
    """The certified seats, and then the provisional ones: each line with how many of all these
    are."""
    certified = {party.code: party.seats for party in country.parties}
    provisional = {party.code: party.provisional for party in country.parties}
    first = "line_certified" if country.whole else "line_certified_part"
    more = "line_provisional_further" if country.certified else "line_provisional_part"
    lines = [seats_line(site, kind, site.say(words, many=country.chamber,
                                             seats=site.number(sum(given.values()))), given)
             for kind, words, given in (("certified", first, certified),
                                        ("provisional", more, provisional))]
    return [line for line in lines if line]


def nobodys_line(site, country):
    """How many seats no list has yet, and what they wait for, beside those that some have; None
    where there is none."""
    parts = [(words, many) for words, _, _, many in country.nobodys if many]
    if not parts or not country.certified + country.provisional:
        return None
    words = site.say("line_nobody", many=country.chamber,
                     seats=site.number(sum(many for _, many in parts)))
    return words, site.listed([site.say(words, many=many) for words, many in parts])


def majority_said(site, country):
    """How many seats are a majority, and who has it: in certified seats, and where nobody has, in
    these and the provisional ones; that nobody has it in these either, once all is counted and no
    other seat could give it. None where there is one seat, or none."""
    if country.chamber < 2:
        return None
    values = {"majority": site.number(country.majority), "chamber": site.number(country.chamber)}
    words = "majority_nobody" if country.whole else "majority_not_yet"
    most = max((party.seats + party.provisional for party in country.parties), default=0)
    left = country.chamber - country.certified - country.provisional
    if not country.whole and country.closed == country.stations and most + left < country.majority:
        words = "majority_nobody_even"
    for party in country.parties:
        if party.seats >= country.majority:
            words = "majority_has"
        elif party.seats + party.provisional >= country.majority:
            words = "majority_so_far"
        else:
            continue
        values["list"] = site.templates.name(party.name)
    return site.said(words, **values)
