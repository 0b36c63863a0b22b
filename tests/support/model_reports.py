"""The texts that the plain office of model.py shows: a constituency, its reports, the progress and
the country.
"""


class Unreported(Exception):
    """A report cannot be given, in a word."""


def shown(con):
    votes, blank, spoiled = con.closed()
    return {
        "con": con.code,
        "edition": con.edition,
        "certified": con.certified is not None,
        "note": con.note,
        "closed": con.statuses()[3],
        "stations": len(con.electors),
        "votes": votes,
        "blank": blank,
        "spoiled": spoiled,
        "lot": [con.lists[n] for n in con.lot],
        "seats": con.certified or [],
        **({"entry": "double"} if con.twice else {}),
        "gone": [
            {"list": con.lists[n], "place": place, "note": con.gone[n, place]}
            for n, place in sorted(con.gone)
        ],
    }


def progress(con):
    numbers = len(con.electors), len(con.electors) - len(con.returns), *con.statuses(), con.edition
    return (
        f"{con.code:16}"
        + "".join(f"{n:7}" for n in numbers)
        + f" {'open' if con.certified is None else 'certified'}\n"
    )


def titled(report, con, lines):
    return "".join(
        f"{line}\n" for line in [f"{report.upper()} {con.code} {con.setup['name']}", *lines]
    )


def tally(con):
    votes, blank, spoiled = con.closed()
    poll = con.poll()
    shares = [v * 10000 // poll.base if poll.base else 0 for v in votes]
    return titled(
        "tally",
        con,
        [
            f"stations {len(con.electors)} closed {con.statuses()[3]}",
            f"valid {sum(votes) + blank} blank {blank} spoiled {spoiled}",
            *(
                f"{code:16}{votes[n]:12}{f'{shares[n] // 100}.{shares[n] % 100:02}':>8}"
                f" {'in' if n in poll.eligible else 'out':4}{con.names[n]}"
                for n, code in enumerate(con.lists)
            ),
        ],
    )


def of_certified(of_hare=None):
    """A report of certified constituencies alone, and of those by quotas or by divisors alone."""

    def decorated(lines):
        def report(con):
            if con.certified is None:
                raise Unreported("not_certified")
            if of_hare not in (None, con.profile["method"] == "hare"):
                raise Unreported("other_method")
            return titled(lines.__name__, con, lines(con))

        return report

    return decorated


@of_certified()
def seats(con):
    rows = [f"{code:16}{con.certified[n]:5} {con.names[n]}" for n, code in enumerate(con.lists)]
    return [f"edition {con.edition}", *rows, f"{'total':16}{sum(con.certified):5}"]


@of_certified(of_hare=False)
def quotients(con):
    poll = con.poll()
    columns = range(1, max(con.certified) + 2)
    return [
        f"{con.lists[n]:16}"
        + "".join(
            f"{'*' if k <= con.certified[n] else ' '}{poll.in_units(n) // poll.divisor(k):11}"
            for k in columns
        )
        for n in poll.eligible
    ]


@of_certified(of_hare=False)
def awards(con):
    poll = con.poll()
    return [
        f"{number:4} {con.lists[n]:16}{k:4}{poll.in_units(n):14}{poll.divisor(k):6}"
        f"{poll.in_units(n) // poll.divisor(k):12}"
        for number, (n, k) in enumerate(poll.awards(), 1)
    ]


@of_certified(of_hare=True)
def quota(con):
    poll = con.poll()
    rows = [
        f"{con.lists[n]:16}{poll.votes[n]:12}"
        f"{poll.quota(n)[0]:5}{poll.quota(n)[1]:16}{con.certified[n]:5}"
        for n in poll.eligible
    ]
    return [f"votes {poll.total} seats {con.seats}", *rows]


@of_certified(of_hare=False)
def short(con):
    poll = con.poll()
    numbers = {n: poll.short(n, con.certified[n]) for n in poll.eligible}
    return [
        f"{con.lists[n]:16}{con.certified[n]:5}{'-' if more is None else more:>12}"
        for n, more in numbers.items()
    ]


@of_certified()
def holders(con):
    rows = []
    for n, code in enumerate(con.lists):
        held = con.holders(n)
        rows += [f"{code:16}{place:5} {con.candidates[n][place - 1]}" for place in held]
        rows += [f"{code:16}    - empty"] * (con.certified[n] - len(held))
    return rows


def past(con):
    rows = []
    for edition, won in sorted(con.past.items()):
        rows += [
            f"edition {edition}",
            *(f"{code:16}{won[n]:5} {con.names[n]}" for n, code in enumerate(con.lists)),
        ]
    return titled("past", con, rows)


def standing(con):
    """The status of the provisional seats, the lists among which a lot is needed, how many seats it
    decides, and the seats.
    """
    poll = con.poll()
    group, in_question = poll.group() if poll.eligible else ([], 0)
    if con.certified is not None:
        return "certified", [], 0, con.certified
    if not poll.eligible:
        return "no_eligible", [], 0, [0] * len(con.lists)
    if group and not con.lot:
        return "lot", group, in_question, poll.least()
    return "open", [], 0, poll.allotted()


def provisional(con):
    status, group, in_question, seats = standing(con)
    needed = [str(in_question), *(con.lists[n] for n in group)] if group else []
    return titled(
        "provisional",
        con,
        [
            f"stations {len(con.electors)} closed {con.statuses()[3]}",
            " ".join([status, *needed]),
            *(f"{code:16}{seats[n]:5} {con.names[n]}" for n, code in enumerate(con.lists)),
            f"{'total':16}{sum(seats):5}",
        ],
    )


def holders_and_empty_seats(con):
    for n, code in enumerate(con.lists):
        held = con.holders(n)
        yield from ([code, place, con.candidates[n][place - 1]] for place in held)
        yield from [[code, None, None]] * (con.certified[n] - len(held))


def result(con):
    """The result of a constituency in one answer, as an object of JSON."""
    poll = con.poll()
    votes, blank, spoiled = con.closed()
    status, group, in_question, seats = standing(con)
    received, queried, corrected, closed = con.statuses()
    decided, hare = status in ("certified", "open"), con.profile["method"] == "hare"

    def short(n):
        shown = decided and not hare and n in poll.eligible
        return poll.short(n, seats[n]) if shown else None

    return {
        "con": con.code,
        "name": con.setup["name"],
        "seats": con.seats,
        "entry": "double" if con.twice else "single",
        "edition": con.edition,
        "note": con.note,
        "certified": con.certified is not None,
        "method": con.profile["method"],
        "threshold": con.profile["threshold"],
        "base": con.profile["base"],
        "lot_rule": con.profile.get("lot", "fixed"),
        "stations": len(con.electors),
        "received": received,
        "queried": queried,
        "corrected": corrected,
        "closed": closed,
        "blank": blank,
        "spoiled": spoiled,
        "lot": [con.lists[n] for n in con.lot],
        "status": status,
        "group": [con.lists[n] for n in group],
        "question": in_question,
        "lists": [
            {
                "code": code,
                "name": con.names[n],
                "votes": votes[n],
                "eligible": n in poll.eligible,
                "seats": con.certified[n] if con.certified is not None else None,
                "provisional": seats[n],
                "short": short(n),
            }
            for n, code in enumerate(con.lists)
        ],
        "awards": [
            [con.lists[n], k, poll.in_units(n), poll.divisor(k)] for n, k in poll.awards()
        ]
        if decided and not hare
        else [],
        "quota": [[con.lists[n], *poll.quota(n), seats[n]] for n in poll.eligible]
        if decided and hare
        else [],
        "holders": list(holders_and_empty_seats(con)) if con.certified is not None else [],
        "gone": [[con.lists[n], place, con.gone[n, place]] for n, place in sorted(con.gone)],
        "past": [{"edition": edition, "seats": won} for edition, won in sorted(con.past.items())],
    }


def stations(con):
    def entry(code, it):
        votes = (
            f"{it['status']:9}{it['rev']:5} {it['slip']:16}"
            f"{sum(it['votes']):8}{it['blank']:8}{it['spoiled']:8}"
            if it
            else "-"
        )
        return f"{code:16}{con.electors[code]:8} {votes}"

    missing = len(con.electors) - len(con.returns)
    head = f"stations {len(con.electors)} missing {missing} closed {con.statuses()[3]}"
    return titled(
        "stations", con, [head, *(entry(code, con.returns.get(code)) for code in con.electors)]
    )


def returns(con):
    rows = [["station", "slip", "blank", "spoiled", *con.lists]]
    for code in con.electors:
        if it := con.returns.get(code):
            rows.append([code, it["slip"], it["blank"], it["spoiled"], *it["votes"]])
    return "".join(",".join(map(str, row)) + "\n" for row in rows)


def country(cons):
    won, polled, names = {}, {}, {}
    for con in cons:
        for code, name, seats, votes in zip(
            con.lists, con.names, con.certified or [0] * len(con.lists), con.closed()[0]
        ):
            won[code], polled[code] = won.get(code, 0) + seats, polled.get(code, 0) + votes
            names.setdefault(code, name)
    total = sum(con.seats for con in cons)
    return "".join(
        f"{line}\n"
        for line in [
            "COUNTRY",
            (
                f"constituencies {len(cons)} certified"
                f" {sum(con.certified is not None for con in cons)}"
            ),
            (
                f"stations {sum(len(con.electors) for con in cons)} closed"
                f" {sum(con.statuses()[3] for con in cons)}"
            ),
            *(f"{code:16}{won[code]:7}{polled[code]:14} {name}" for code, name in names.items()),
            f"{'total':16}{sum(won.values()):7}{sum(polled.values()):14}",
            f"seats {total} majority {total // 2 + 1}",
        ]
    )


REPORTS = {
    "stations": stations,
    "returns": returns,
    "tally": tally,
    "seats": seats,
    "quotients": quotients,
    "awards": awards,
    "quota": quota,
    "short": short,
    "holders": holders,
    "past": past,
    "provisional": provisional,
}
