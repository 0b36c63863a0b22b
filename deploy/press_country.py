"""The constituencies of an election together: seats, votes, turnout, and where a seat was close."""

from dataclasses import dataclass, field

from press_names import in_order
from press_parts import by_votes, list_share, rounded
from press_results import lot_of, provisional_seats

# How many of the closest seats are shown.
CLOSEST = 10


@dataclass
class Party:
    """A list, over all constituencies that have it."""
    code: str
    name: str
    votes: int = 0
    seats: int = 0
    provisional: int = 0  # seats in constituencies without a certificate
    # How many constituencies with a certificate have it, and how many with provisional seats; and
    # how many counted stations have it. Where there are none a number is a dash, and not 0.
    certified_cons: int = 0
    provisional_cons: int = 0
    closed: int = 0

    @classmethod
    def of_all(cls, parties):
        """Lists as one."""
        keys = ("votes", "seats", "provisional", "certified_cons", "provisional_cons", "closed")
        return cls("", "", *(sum(getattr(party, key) for party in parties) for key in keys))


@dataclass
class Country:
    parties: list = field(default_factory=list)  # in the order of seats, then of votes
    chamber: int = 0  # seats of all constituencies
    certified: int = 0  # seats
    provisional: int = 0  # seats in constituencies without a certificate
    question: int = 0  # seats there that a lot would decide
    uncounted: int = 0  # seats in constituencies in which nothing is counted
    is_provisional: bool = False  # whether a constituency shows provisional seats
    # Of the constituencies that show some: how many stations are counted, and of how many.
    provisional_closed: int = 0
    provisional_stations: int = 0
    cons: int = 0
    only: dict | None = None  # the constituency, where there is but one
    certified_cons: int = 0
    withdrawn: list = field(default_factory=list)  # codes of constituencies
    stations: int = 0
    closed: int = 0
    valid: int = 0
    blank: int = 0
    spoiled: int = 0
    bases: set = field(default_factory=set)
    # Electors of all stations that are counted; None where they are not known.
    counted_electors: int | None = 0
    closest: list = field(default_factory=list)  # votes short, list, constituency, who would lose
    without_short: int = 0  # certified constituencies whose rule has no votes short

    @property
    def majority(self):
        return self.chamber // 2 + 1 if self.chamber else None

    @property
    def whole(self):
        return self.certified_cons == self.cons

    @property
    def open(self):
        """Seats that are not certified, and of which nothing else is said."""
        return self.chamber - self.certified - self.provisional - self.question - self.uncounted

    @property
    def nobodys(self):
        """How many seats no list has, of each kind, by the words for it in a sentence, in a picture
        and in a table."""
        return (("seats_kind_lot", "circle_lot", "row_lot", self.question),
                ("seats_kind_uncounted", "circle_uncounted", "row_uncounted", self.uncounted),
                ("seats_kind_open", "circle_open", "row_open", self.open))

    @property
    def is_mixed(self):
        """Whether some seats are certified and some provisional."""
        return bool(self.certified_cons and self.is_provisional)

    @property
    def base(self):
        """Votes of which shares are: the valid ones, or those of the lists where every rule says so."""
        return sum(party.votes for party in self.parties) if self.bases == {"lists"} else self.valid

    def share_of(self, party):
        """The share of a list, or of several, in hundredths of a per cent; that which the page of
        the only constituency has, where there is one."""
        rows = self.only["tally"]["lists"] if self.only else ()
        row = next((row for row in rows if row["code"] == party.code), None)
        return list_share(self.only, row) if row else rounded(party.votes, self.base)


def by_name(cons):
    """The constituencies in the order of their names: codes, and what each is."""
    return sorted(cons.items(), key=lambda one: in_order(one[1]["tally"]["name"]))


def together(cons, counted):
    """The country, of its constituencies. `counted` are the electors of the stations that are
    counted, by constituency, of which some may be missing."""
    found, parties = Country(cons=len(cons)), {}
    found.only = next(iter(cons.values())) if len(cons) == 1 else None
    for code, con in cons.items():
        found.chamber += con["rule"]["seats"]
        add_votes(found, parties, con)
        add_seats(found, parties, code, con)
        add_electors(found, con, counted.get(code))
    found.parties = sorted(parties.values(),
                           key=lambda party: (-party.seats - party.provisional, -party.votes))
    found.withdrawn = [code for code, con in by_name(cons) if is_withdrawn(con)]
    found.closest = sorted(found.closest, key=lambda one: one[0])[:CLOSEST]
    return found


def add_votes(found, parties, con):
    tally = con["tally"]
    found.stations += tally["stations"]
    found.closed += tally["closed"]
    found.valid += tally["valid"]
    found.blank += tally["blank"]
    found.spoiled += tally["spoiled"]
    found.bases.add(con["rule"]["base"])
    for row in tally["lists"]:
        party = parties.setdefault(row["code"], Party(row["code"], row["name"]))
        party.votes += row["votes"]
        party.closed += tally["closed"]


def add_electors(found, con, counted):
    """Adds the electors of the stations that are counted; where those of one are not known, those
    of all are not."""
    if con["tally"]["closed"]:
        found.counted_electors = None if None in (found.counted_electors, counted) else found.counted_electors + counted


def add_seats(found, parties, code, con):
    if "seats" not in con:
        add_provisional(found, parties, con)
        return
    found.certified_cons += 1
    found.certified += con["seats"]["total"]
    for of_list, many in con["seats"]["seats"].items():
        parties[of_list].seats += many
        parties[of_list].certified_cons += 1
    found.closest += [(row["short"], row["list"], code, loser(con, row["list"])) for row in con.get("short", ())
                      if row["short"] is not None]
    found.without_short += "short" not in con


def is_withdrawn(con):
    """Whether a constituency was certified and is reopened."""
    return bool(con["past"]) and "seats" not in con


def loser(con, code):
    """Who would lose a seat, had this list the votes that it lacked for one more: that of the last award to another list."""
    return next(award["list"] for award in reversed(con["awards"]) if award["list"] != code)


def add_provisional(found, parties, con):
    given = provisional_seats(con)
    for of_list, many in given.items():
        parties[of_list].provisional += many
        parties[of_list].provisional_cons += 1
        found.provisional += many
    if given:
        found.is_provisional = True
        found.provisional_closed += con["tally"]["closed"]
        found.provisional_stations += con["tally"]["stations"]
    found.question += lot[1] if (lot := lot_of(con)) else 0
    found.uncounted += 0 if con["tally"]["closed"] else con["rule"]["seats"]


def first_list(con):
    """The list with the most votes; none where there is no vote, or where two have as many."""
    best = by_votes(con)
    if not best or not best[0]["votes"] or (len(best) > 1 and best[0]["votes"] == best[1]["votes"]):
        return None
    return best[0]["code"]


# ---- against a former result


def seats_before(former, codes):
    """The seats that each list had in these constituencies; None where one of them had no former result."""
    if not codes or any(code not in former for code in codes):
        return None
    found = {}
    for code in codes:
        for of_list, many in former[code]["seats"].items():
            found[of_list] = found.get(of_list, 0) + many
    return found


def shares_before(former, codes):
    """The share of the valid votes that each list had there, in hundredths of a per cent, rounded half up; None where they are not
    known."""
    if not codes or any(code not in former or not former[code]["valid"] for code in codes):
        return None
    valid, votes = sum(former[code]["valid"] for code in codes), {}
    for code in codes:
        for of_list, many in former[code]["votes"].items():
            votes[of_list] = votes.get(of_list, 0) + many
    return {of_list: (many * 20_000 + valid) // (2 * valid) for of_list, many in votes.items()}
