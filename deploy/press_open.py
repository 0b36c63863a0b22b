"""The seats of the country that are not certified: in which constituencies they are, and what each
of these waits for."""

from press_country import by_name, is_withdrawn
from press_lots import lot_said
from press_results import counted_share, lot_of, provisional_seats
from press_templates import Markup

# Constituencies that are named one by one, where they wait for the same; and those of which each
# has a sentence of its own, since it is reopened or needs a lot.
NAMED_CONS, TOLD_CONS = 5, 3


def country_open(site, country, cons):
    """How many seats are not certified, and what they wait for, in sentences beside the seats of
    each; None where all are certified. The sentences are of all of these seats, and of each once."""
    if country.whole:
        return None
    said = []
    for words, codes in waiting(cons).items():
        told = codes[:TOLD_CONS] if words in TOLD else []
        said += [(seats_there(site, cons, [code]),
                  TOLD[words](site, cons[code], link_of(site, cons, code))) for code in told]
        if left := codes[len(told):]:
            sentence = (site.said(f"{words}_more", many=len(left)) if told
                        else site.said(words, cons=cons_named(site, cons, left, words in COUNTED)))
            said.append((seats_there(site, cons, left), sentence))
    return {"said": said, "head": site.said(
        "open_head", many=country.chamber, open=site.number(country.chamber - country.certified))}


def seats_there(site, cons, codes):
    return site.said("open_seats", many=sum(cons[code]["rule"]["seats"] for code in codes))


def waiting(cons):
    """The constituencies without a certificate, by the words for what they wait for, each in the
    order of names."""
    found = {"open_again": [], "open_lot": [], "open_board": [], "open_counting": [],
             "open_uncounted": []}
    for code, con in by_name(cons):
        closed, stations = con["tally"]["closed"], con["tally"]["stations"]
        if not con["view"]["certified"]:
            found["open_again" if is_withdrawn(con) else "open_uncounted" if not closed
                  else "open_counting" if closed < stations else "open_lot" if lot_of(con)
                  else "open_board"].append(code)
    return {words: codes for words, codes in found.items() if codes}


def cons_named(site, cons, codes, with_share):
    """In which constituencies: their names as links where they are few, with how much of each is
    counted where that is asked for; else how many."""
    if len(codes) > NAMED_CONS:
        return site.said("of_cons", many=len(codes))
    named = []
    for code in codes:
        link, tally = link_of(site, cons, code), cons[code]["tally"]
        share = site.per_cent(counted_share(tally["closed"], tally["stations"]))
        named.append(site.said("con_with_share", con=link, share=share) if with_share else link)
    return site.said("of_these_cons", cons=Markup(", ").join(named))


def link_of(site, cons, code):
    return site.templates.parts.con_link(code, cons[code]["tally"]["name"])


# ---- those of which each has a sentence


def again_said(site, con, link):
    """That a constituency is reopened and why, with how much of it is counted where that is not
    all, and the lot that it needs."""
    said = [site.said("open_again", con=link, many=con["rule"]["seats"]) + reason_said(site, con)]
    if con["tally"]["closed"] != con["tally"]["stations"]:
        said.append(reopened_counted(site, con, "counted_there"))
    elif lot := lot_said(site, con):
        said.append(lot)
    return Markup(" ").join(said)


def needs_lot_said(site, con, link):
    """That a constituency needs a lot, and between which lists."""
    codes, by_lot = lot_of(con)
    return site.said("open_lot", con=link, lists=site.listed(codes), lots=site.number(by_lot),
                     many=con["rule"]["seats"])


TOLD = {"open_again": again_said, "open_lot": needs_lot_said}
# Those that are named with how much of each is counted.
COUNTED = {"open_counting"}


def reopened_said(site, con):
    """That a constituency was certified and is reopened, with the reason."""
    words = "reopened" if provisional_seats(con) else "reopened_open"
    said = site.said(words, many=con["rule"]["seats"],
                     con=site.templates.name(con["tally"]["name"]))
    return said + reason_said(site, con)


def reason_said(site, con):
    """Why a constituency was reopened, after another sentence; nothing where no note says so."""
    note = con["view"]["note"]
    return " " + site.said("reopened_why", note=site.templates.name(note)) if note else ""


def reopened_counted(site, con, words="reopened_counted"):
    """How much of a reopened constituency is counted, where that is not all."""
    closed, stations = con["tally"]["closed"], con["tally"]["stations"]
    return site.said(words, closed=site.number(closed), many=stations,
                     share=site.per_cent(counted_share(closed, stations)))
