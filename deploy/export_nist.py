"""The common data format of NIST for results of elections (SP 1500-100, version 2, as JSON), as
remembered."""

import json
from collections import Counter, defaultdict

from export_data import vacated

FILE = "nist-1500-100.json"
SCOPE = "election"


def typed(kind, **fields):
    return {"@type": f"ElectionResults.{kind}", **fields}


def in_any_language(name):
    """A name, whose language is not known."""
    return typed("InternationalizedText",
                 Text=[typed("LanguageString", Content=name, Language="und")])


def status_of(election):
    if len(election.certified) == len(election.cons):
        return "certified"
    whole = all(len(con.returns) == len(con.stations) for con in election.cons)
    return "unofficial-complete" if whole else "unofficial-partial"


def count_status(is_whole, otherwise):
    return [typed("CountStatus", Type="total", Status="completed" if is_whole else otherwise)]


# ---- places


def places(election):
    """The whole, the constituencies and their stations. A code has no full stop."""
    found = [typed("ReportingUnit", **{"@id": SCOPE}, Type="other", OtherType="election",
                   Name=in_any_language(election.title),
                   ComposingGpUnitIds=[f"con.{con.code}" for con in election.cons])]
    for con in election.cons:
        codes = [station["code"] for station in con.stations]
        found.append(typed(
            "ReportingUnit", **{"@id": f"con.{con.code}"}, Type="other", OtherType="constituency",
            Name=in_any_language(con.name), VotersRegistered=con.electors,
            VotersParticipated=con.total.papers,
            ComposingGpUnitIds=[f"station.{code}" for code in codes]))
        found += [station_unit(election, con, station) for station in con.stations]
    return found


def station_unit(election, con, station):
    code, one = station["code"], con.returns.get(station["code"])
    return typed("ReportingUnit", **{"@id": f"station.{code}"}, Type="polling-place",
                 Name=in_any_language(election.name_of(code)), VotersRegistered=station["electors"],
                 **({"VotersParticipated": one.papers} if one else {}),
                 CountStatus=count_status(one, "not-processed"))


# ---- votes


def of_returns(con):
    """The returns of a constituency, each with its place: the sum of all first."""
    return [(f"con.{con.code}", con.total),
            *((f"station.{code}", one) for code, one in con.returns.items())]


def ballots(con):
    return [typed("BallotCounts", Type="total", GpUnitId=place, BallotsCast=one.papers,
                  BallotsRejected=one.spoiled) for place, one in of_returns(con)]


def selection(con, order, one):
    code = f"{con.code}.{one['code']}"
    votes = [typed("VoteCounts", Type="total", GpUnitId=place, Count=found.votes[order - 1])
             for place, found in of_returns(con)]
    return typed("CandidateSelection", **{"@id": f"list.{code}"}, SequenceOrder=order,
                 EndorsementPartyIds=[f"party.{one['code']}"],
                 CandidateIds=[f"candidate.{code}.{place}"
                               for place in range(1, len(one["candidates"]) + 1)],
                 VoteCounts=votes)


def contest(con):
    blank = [typed("OtherCounts", GpUnitId=place, Undervotes=one.blank)
             for place, one in of_returns(con)]
    is_whole = len(con.returns) == len(con.stations)
    return typed(
        "CandidateContest", **{"@id": f"contest.{con.code}"}, Name=con.name,
        ElectionDistrictId=f"con.{con.code}", VoteVariation="proportional", VotesAllowed=1,
        NumberElected=con.setup["seats"], CountStatus=count_status(is_whole, "in-process"),
        SubUnitsReported=len(con.returns), TotalSubUnits=len(con.stations),
        ContestSelection=[selection(con, order, one) for order, one in enumerate(con.lists, 1)],
        OtherCounts=blank)


def candidates(con):
    """All candidates; those who hold a seat now are winners, and nobody is without a
    certificate."""
    elected = {(code, place) for code, place, _ in con.elected}
    for one in con.lists:
        for place, name in enumerate(one["candidates"], 1):
            won = {"PostElectionStatus": "winner"} if (one["code"], place) in elected else {}
            yield typed("Candidate", **{"@id": f"candidate.{con.code}.{one['code']}.{place}"},
                        BallotName=in_any_language(name), PartyId=f"party.{one['code']}", **won)


def parties(election):
    """A list's code is one party everywhere; its name is the first that it has."""
    names = {}
    for con in election.cons:
        for one in con.lists:
            names.setdefault(one["code"], one["name"])
    return [typed("Party", **{"@id": f"party.{code}"}, Name=in_any_language(name),
                  Abbreviation=in_any_language(code)) for code, name in names.items()]


def report(election, marks):
    """The report, in one line. The marks are in its notes, since JSON has no comments."""
    day, issuer = str(election.day), election.authority or election.title
    whole = typed(
        "Election", Name=in_any_language(election.title), StartDate=day, EndDate=day,
        Type="general", ElectionScopeId=SCOPE,
        BallotCounts=[one for con in election.cons for one in ballots(con)],
        Candidate=[one for con in election.cons for one in candidates(con)],
        Contest=[contest(con) for con in election.cons])
    notes = [marks.say("mark")]
    if codes := vacated(election.certified):
        notes.append(marks.say("vacated", codes=codes))
    return json.dumps({"Notes": " ".join(notes), **typed(
        "ElectionReport", Format="precinct-level", Status=status_of(election),
        GeneratedDate=election.time, Issuer=issuer, IssuerAbbreviation=issuer, SequenceStart=1,
        SequenceEnd=1, VendorApplicationId="deploy/export", GpUnit=places(election),
        Party=parties(election), Election=[whole])}, ensure_ascii=False) + "\n"


# ---- reading it again


def sums_in(data, empty):
    """The sums of each constituency that a report gives, with its seats; and those of its stations.
    Seats are the winners, and those that are empty, which no element says."""
    report = json.loads(data)
    [election] = report["Election"]
    home = homes(report["GpUnit"])
    given = defaultdict(Counter, {code: Counter(sums) for code, sums in empty.items()})
    found = {"con": given, "station": defaultdict(Counter)}

    def add(place, key, n):
        found[place.partition(".")[0]][home[place]][key] += n

    for one in report["GpUnit"]:
        if one["@id"] != SCOPE:
            add(one["@id"], ("electors", ""), one["VotersRegistered"])
    for one in election["BallotCounts"]:
        add(one["GpUnitId"], ("spoiled", ""), one["BallotsRejected"])
        add(one["GpUnitId"], ("valid", ""), one["BallotsCast"] - one["BallotsRejected"])
        if one["GpUnitId"].startswith("station."):
            add(one["GpUnitId"], ("closed", ""), 1)
    for contest in election["Contest"]:
        add(contest["ElectionDistrictId"], ("closed", ""), contest["SubUnitsReported"])
        for one in contest["OtherCounts"]:
            add(one["GpUnitId"], ("blank", ""), one["Undervotes"])
        for one in contest["ContestSelection"]:
            of_list = one["@id"].rpartition(".")[2]
            for votes in one["VoteCounts"]:
                add(votes["GpUnitId"], ("votes", of_list), votes["Count"])
    for one in election["Candidate"]:
        if one.get("PostElectionStatus") == "winner":
            _, code, of_list, _ = one["@id"].split(".")
            given[code]["seats", of_list] += 1
    return given, found["station"]


def homes(units):
    """The constituency of each place."""
    found = {}
    for one in units:
        if one["@id"].startswith("con."):
            code = one["@id"].removeprefix("con.")
            found |= dict.fromkeys((one["@id"], *one["ComposingGpUnitIds"]), code)
    return found
