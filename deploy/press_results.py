"""The answers of the office as the pages have them: its results, which are JSON, and the table of
the stations of a constituency."""

import json

# Of a rule: the unit that its votes are counted in, and the divisor of a list's k-th seat.
RULES = {"dhondt": (1, lambda k: k), "sainte-lague": (1, lambda k: 2 * k - 1),
         "modified-sainte-lague": (5, lambda k: 7 if k == 1 else 10 * k - 5)}
# The columns of the table of stations, of which none has a blank in it. Others may follow.
COLUMNS = ("code", "electors", "status", "revision", "slip", "votes", "blank", "spoiled")
STATUSES = ("received", "queried", "corrected", "closed")


class NoAnswer(Exception):
    """The office gave no answer that can be used."""


# ---- results


def read_results(text):
    """The results of an office by constituency, each as the pages have it."""
    try:
        return {result["con"]: con_of(result) for result in json.loads(text)}
    except (ValueError, KeyError, IndexError, TypeError, AttributeError) as error:
        raise NoAnswer(f"/results: not JSON of results: {error!r}") from error


def con_of(result):
    """A constituency: how far its count is, its state, and its reports, those of a certificate
    where there is one."""
    con = {"progress": progress_of(result), "view": view_of(result), "rule": rule_of(result),
           "tally": tally_of(result), "past": past_of(result)}
    if result["closed"]:
        con["provisional"] = provisional_of(result)
    return con | (of_certificate(result) if result["certified"] else {})


def progress_of(result):
    found = {key: result[key] for key in ("con", "stations")}
    found["missing"] = result["stations"] - sum(result[status] for status in STATUSES)
    return found | {key: result[key] for key in (*STATUSES, "edition", "certified")}


def view_of(result):
    """Its state, as GET /con/CODE shows it."""
    gone = [{"list": code, "note": note, "place": place} for code, place, note in result["gone"]]
    seats = [row["seats"] for row in result["lists"]] if result["certified"] else []
    keys = ("blank", "certified", "closed", "con", "edition", "lot", "note", "spoiled", "stations")
    entry = {"entry": "double"} if result["entry"] == "double" else {}
    return {key: result[key] for key in keys} | entry | {
        "gone": gone, "seats": seats, "votes": [row["votes"] for row in result["lists"]]}


def rule_of(result):
    keys = ("seats", "method", "threshold", "base", "lot_rule")
    return {key: result[key] for key in keys}


def tally_of(result):
    votes = sum(row["votes"] for row in result["lists"])
    valid = votes + result["blank"]
    base = votes if result["base"] == "lists" else valid
    return {"name": result["name"], "stations": result["stations"], "closed": result["closed"],
            "valid": valid, "blank": result["blank"], "spoiled": result["spoiled"],
            "lists": [{"code": row["code"], "name": row["name"], "votes": row["votes"],
                       "share": share_of(row["votes"], base), "eligible": row["eligible"]}
                      for row in result["lists"]]}


def share_of(votes, base):
    """Per cent, rounded down, as the office's tally has it."""
    share = votes * 10_000 // base if base else 0
    return f"{share // 100}.{share % 100:02}"


def past_of(result):
    return [{"edition": past["edition"],
             "lists": [{"code": row["code"], "seats": seats, "name": row["name"]}
                       for row, seats in zip(result["lists"], past["seats"], strict=True)]}
            for past in result["past"]]


def provisional_of(result):
    """The seats if the votes that are closed were all the votes; and the lists among which a lot
    would decide, with the seats that it would decide."""
    return {"status": result["status"], "question": result["question"], "group": result["group"],
            "seats": {row["code"]: row["provisional"] for row in result["lists"]}}


def provisional_seats(con):
    """The provisional seats that are to be shown, by list, in their order: of a constituency
    without a certificate where some list is eligible; else none."""
    shown = con.get("provisional", {"status": "certified"})
    if shown["status"] in ("certified", "no_eligible"):
        return {}
    return by_seats(con, shown["seats"])


def by_seats(con, seats):
    """Seats by list, those with most first, and of as many that with more votes."""
    votes = {row["code"]: row["votes"] for row in con["tally"]["lists"]}
    return dict(sorted(seats.items(), key=lambda pair: (-pair[1], -votes[pair[0]])))


def without_provisional(con):
    """A constituency where no seat may be shown before it is certified. What remains is the lot
    that is needed once all is counted: it is of the closed votes, and the board draws it."""
    shown = con.get("provisional")
    rest = {key: value for key, value in con.items() if key != "provisional"}
    if shown and shown["status"] == "lot" and con["tally"]["closed"] == con["tally"]["stations"]:
        rest["lot_needed"] = {key: shown[key] for key in ("question", "group")}
    return rest


def lot_of(con):
    """The lists among which a lot would decide, and how many seats it would; None where none is
    needed."""
    shown = con.get("provisional", {"status": "certified"})
    lot = shown if shown["status"] == "lot" else con.get("lot_needed")
    return (lot["group"], lot["question"]) if lot else None


def certificate_of(con):
    """The edition, the seats and the holders of a certificate; None where there is none."""
    view = con["view"]
    return [view["edition"], view["seats"], con["holders"]] if view["certified"] else None


def of_certificate(result):
    """The reports of a certificate."""
    seats = {row["code"]: row["seats"] for row in result["lists"]}
    found = {"seats": {"edition": result["edition"], "total": sum(seats.values()), "seats": seats},
             "holders": [{"list": code, "place": place, "name": name}
                         for code, place, name in result["holders"]]}
    if result["method"] == "hare":
        return found | {"quota": quota_of(result)}
    return found | {"quotients": quotients_of(result, seats), "awards": awards_of(result),
                    "short": [{"list": row["code"], "seats": row["seats"], "short": row["short"]}
                              for row in result["lists"] if row["eligible"]]}


def quotients_of(result, seats):
    """Per eligible list its quotients, up to one more than the most seats of a list, each with
    whether it won a seat."""
    unit, divisor = RULES[result["method"]]
    won, last = {(code, k) for code, k, *_ in result["awards"]}, max(seats.values()) + 1
    return [(row["code"], [(row["votes"] * unit // divisor(k), (row["code"], k) in won)
                           for k in range(1, last + 1)])
            for row in result["lists"] if row["eligible"]]


def awards_of(result):
    keys = ("seat", "list", "of_list", "votes", "divisor", "quotient")
    return [dict(zip(keys, (seat, code, k, votes, divisor, votes // divisor)))
            for seat, (code, k, votes, divisor) in enumerate(result["awards"], 1)]


def quota_of(result):
    votes = {row["code"]: row["votes"] for row in result["lists"] if row["eligible"]}
    return {"votes": sum(votes.values()), "seats": result["seats"],
            "lists": [{"list": code, "votes": votes[code], "whole": whole, "remainder": remainder,
                       "seats": seats} for code, whole, remainder, seats in result["quota"]]}


def counted_share(closed, stations):
    """How much is counted, in hundredths of a per cent, rounded half up; but all is only where all
    is counted, and nothing only where nothing is."""
    if closed in (0, stations):
        return 10_000 if closed else 0
    return min(max((closed * 20_000 + stations) // (2 * stations), 1), 9_999)


# ---- the stations of a constituency


def read_stations(text):
    """Per station the status of its return, and its slip with the sums of votes, blank and spoiled
    ones; None without a return. Of a line the first columns are read, and none after them."""
    found = {}
    for line in text.split("\n")[2:-1]:
        row = dict(zip(COLUMNS, line.split()))
        if row.get("status") == "-":
            found[row["code"]] = None
        elif row.get("status") in STATUSES and len(row) == len(COLUMNS):
            sums = [int(row[key]) for key in ("votes", "blank", "spoiled")]
            found[row["code"]] = row["status"], [row["slip"], *sums]
        else:
            raise NoAnswer(f"a line that is not of a table of stations: {line!r}")
    return found
