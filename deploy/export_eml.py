"""EML of OASIS, version 5.0: the count of each station (510) and the result (520), as remembered
from the standard and from the files of the Dutch electoral council."""

import io
import xml.etree.ElementTree as ET
from collections import Counter
from xml.sax.saxutils import escape, quoteattr

NAMESPACE = "urn:oasis:names:tc:evs:schema:eml"
PERSONS = "urn:oasis:names:tc:ciq:xsdschema:xNL:2.0"
COUNT, RESULT = "eml-510.xml", "eml-520.xml"
# Votes that are of no list, by their codes in RejectedVotes. Blank ones may be valid all the same:
# EML has no other place for them.
REASONS = ("blank", "spoiled")


# ---- writing


def element(tag, *inside, **attributes):
    said = "".join(f" {name}={quoteattr(str(value))}" for name, value in attributes.items())
    return f"<{tag}{said}>{''.join(inside)}</{tag}>"


def text(tag, value, **attributes):
    return element(tag, escape(str(value)), **attributes)


def comment(marks, key, **values):
    return f"<!-- {marks.say(key, **values)} -->"


def lines(*parts):
    return "\n" + "\n".join(parts) + "\n"


def document(election, kind, inside, marks):
    """A document of EML. Its first line says that it was not checked."""
    head = f'<?xml version="1.0" encoding="UTF-8"?>' + comment(marks, "mark")
    authority = [element("ManagingAuthority", text(
        "AuthorityIdentifier", election.authority, Id="1"))] if election.authority else []
    attributes = {"xmlns": NAMESPACE, "xmlns:xnl": PERSONS, "Id": kind, "SchemaVersion": "5.0"}
    return f"{head}\n" + element(
        "EML", lines(text("TransactionId", 1), *authority, inside), **attributes) + "\n"


def identifier(election):
    return element("ElectionIdentifier", text("ElectionName", election.title), Id=election.day)


def contest(con, *parts):
    return element("Contest", lines(element(
        "ContestIdentifier", text("ContestName", con.name), Id=con.code), *parts))


def affiliation(one):
    return element("AffiliationIdentifier", text("RegisteredName", one["name"]), Id=one["code"])


def votes_in(tag, of_lists, numbers, *first):
    """The votes of a station or of a constituency."""
    selections = [element("Selection", one, text("ValidVotes", n))
                  for one, n in zip(of_lists, numbers.votes)]
    rejected = [text("RejectedVotes", getattr(numbers, reason), ReasonCode=reason)
                for reason in REASONS]
    return element(tag, lines(*first, *selections, text("Cast", numbers.papers),
                              text("TotalCounted", sum(numbers.votes)), *rejected))


def count(election, marks):
    """The count: the votes of each constituency and of each station whose return is closed."""
    contests = []
    for con in election.cons:
        of_lists = [affiliation(one) for one in con.lists]
        parts = [] if con.certified else [
            comment(marks, "open", closed=len(con.returns), stations=len(con.stations))]
        parts.append(votes_in("TotalVotes", of_lists, con.total))
        parts += [votes_in("ReportingUnitVotes", of_lists, one, text(
            "ReportingUnitIdentifier", election.name_of(one.station), Id=one.station))
            for one in con.returns.values()]
        contests.append(contest(con, *parts))
    inside = lines("<EventIdentifier/>", element("Election", lines(
        identifier(election), element("Contests", lines(*contests)))))
    return document(election, "510", element("Count", inside), marks)


def candidate(place, name):
    full = element("xnl:PersonName", text("xnl:NameLine", name))
    return element("Candidate", f'<CandidateIdentifier Id="{place}"/>',
                   element("CandidateFullName", full))


def result(election, marks):
    """The result of each certified constituency: its lists, each before those who hold its seats
    now, with a mark where these are not all who were elected."""
    contests = []
    for con in election.certified:
        parts = []
        for one in con.lists:
            elected = text("Elected", "yes" if con.seats[one["code"]] else "no")
            parts.append(element("Selection", affiliation(one), elected))
            if one["code"] in con.left:
                parts.append(comment(marks, "left"))
            for code, place, name in con.elected:
                if code == one["code"]:
                    parts.append(comment(marks, "empty_seat") if name is None else element(
                        "Selection", candidate(place, name), elected))
        contests.append(contest(con, *parts))
    inside = lines(element("Election", lines(identifier(election), *contests)))
    return document(election, "520", element("Result", inside), marks)


# ---- reading it again


def named(tag):
    return f"{{{NAMESPACE}}}{tag}"


def votes_of(found, part):
    """Adds the votes of a station or of a constituency."""
    for one in part.iter(named("Selection")):
        code = one.find(named("AffiliationIdentifier")).get("Id")
        found["votes", code] += int(one.findtext(named("ValidVotes")))
    for one in part.iter(named("RejectedVotes")):
        found[one.get("ReasonCode"), ""] += int(one.text)
        if one.get("ReasonCode") == "spoiled":
            found["valid", ""] += int(part.findtext(named("Cast"))) - int(one.text)


def sums_of_count(data):
    """The sums of each constituency that a count gives, and those of its stations."""
    given, of_stations = {}, {}
    total, stations = Counter(), Counter()
    for _, one in ET.iterparse(io.BytesIO(data)):
        if one.tag == named("TotalVotes"):
            votes_of(total, one)
        elif one.tag == named("ReportingUnitVotes"):
            votes_of(stations, one)
            stations["closed", ""] += 1
            one.clear()
        elif one.tag == named("Contest"):
            code = one.find(named("ContestIdentifier")).get("Id")
            given[code], of_stations[code] = total, stations
            total, stations = Counter(), Counter()
            one.clear()
    return given, of_stations


def seats_in(data, empty):
    """The seats of each list in a result: the candidates elected, and the seats that are empty,
    which no element says."""
    found = {}
    for one in ET.fromstring(data).iter(named("Contest")):
        con, of_list = one.find(named("ContestIdentifier")).get("Id"), None
        sums = found[con] = Counter(empty[con])
        for part in one.iter(named("Selection")):
            if (known := part.find(named("AffiliationIdentifier"))) is not None:
                of_list = "seats", known.get("Id")
            else:
                sums[of_list] += part.findtext(named("Elected")) == "yes"
    return found
