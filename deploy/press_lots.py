"""Lots: the seats that wait for one, and those that one decided."""

from fractions import Fraction

from press_country import by_name
from press_results import RULES, lot_of

# Constituencies in which a lot decided seats that are named one by one.
TOLD_LOTS = 3


def lot_line(site, by_lot, whole, codes):
    """How many seats wait for a lot, and between which lists; None where none does. While votes
    are missing, they would wait for it."""
    if not by_lot:
        return None
    words = site.say("lot_waits" if whole else "lot_waits_so_far", many=by_lot)
    return words, site.one_of(codes)


def lot_said(site, con):
    """Between which lists a lot must be drawn, or would have to be while votes are missing; None
    where none is needed."""
    tally, lot = con["tally"], lot_of(con)
    if not lot:
        return None
    words = "lot_needed" if tally["closed"] == tally["stations"] else "lot_would"
    return site.said(words, many=lot[1], lists=site.listed(lot[0]))


def lot_drawn(site, con):
    """Which lists of the lot were level for the last seats and which of them it gave these, where
    quotients show it; and last the order that was drawn. None of these where no lot was."""
    order = con["view"]["lot"]
    if not order:
        return []
    said = [site.said("lot", lists=site.say("lot_then").join(order))]
    if con.get("awards"):
        unit, divisor = RULES[con["rule"]["method"]]
        votes = {row["code"]: row["votes"] * unit for row in con["tally"]["lists"]}
        quotients = [(one["list"], Fraction(votes[one["list"]], divisor(one["of_list"])))
                     for one in con["awards"]]
        last = quotients[-1][1]
        # (a list that the lot does not name, of more or fewer votes, may have the same quotient)
        winners = [code for code, quotient in quotients if quotient == last and code in order]
        losers = [code for code, row in con["quotients"] if code in order
                  and Fraction(votes[code], divisor(1 + sum(won for _, won in row))) == last]
        if losers:
            lists = [code for code in votes if code in {*winners, *losers}]
            said.insert(0, site.said("lot_decided", many=len(winners), lists=site.listed(lists),
                                     winners=site.listed(list(dict.fromkeys(winners)))))
    return said


def lots_decided(site, cons):
    """In which certified constituencies a lot decided seats, a sentence each; of many how many."""
    drawn = [con for _, con in by_name(cons) if con["view"]["certified"] and con["view"]["lot"]]
    said = [site.said("lot_there", con=site.templates.name(con["tally"]["name"]),
                      said=lot_drawn(site, con)[0]) for con in drawn[:TOLD_LOTS]]
    if more := len(drawn[TOLD_LOTS:]):
        said.append(site.said("lots_more", many=more))
    return said
