"""Each two options of `allot` and of `recount` together, beside the office in plain Python."""

import itertools

from tests.support.model import Poll
from tests.support.office import constituency, party_list, profile, station
from tests.support.program import ProgramCase, Ran, office, same, write


METHODS = ("dhondt", "sainte-lague", "modified-sainte-lague", "hare")


# A and B have as many votes. With 24 seats the votes decide, and with 25 a lot does, whether C is
# eligible or not: C is just above the threshold, and below it where there are blank votes.
VOTES = {"A": 450, "B": 450, "C": 82}


SEATS, SEATS_BY_LOT = 24, 25


# The options of `allot` after its seats and its method, and what they say of a poll.
OF_ALLOT = {
    ("--threshold", "800"): {"threshold": 800},
    ("--base", "lists"): {"base": "lists"},
    ("--blank", "71"): {"blank": 71},
    ("--lot", "B,A"): {"lot": ("B", "A")},
    ("--alternating",): {"rule": "alternating"},
    ("--awards",): {"awards": True},
    ("--semicolon",): {},
}


# The votes of A, B and C at each station, and its blank votes. Those of the first four are those
# above. With the votes of s5 C is above the threshold, and without them below it.
RETURNS = {
    "s1": (200, 200, 40, 0),
    "s2": (200, 200, 40, 0),
    "s3": (25, 25, 2, 0),
    "s4": (25, 25, 0, 71),
    "s5": (0, 0, 10, 0),
}


# The options of `recount` after its setup and its constituency, and what they say of a poll.
OF_RECOUNT = {
    ("--without", "s5"): {"without": "s5"},
    ("--lot", "B,A"): {"lot": ("B", "A")},
    ("--awards",): {"awards": True},
    ("--decisive",): {"decisive": True},
    ("--semicolon",): {},
}


class Allotted:
    """An allotment of votes: its poll in plain Python, and the lines that are printed of it."""

    def __init__(
        self, votes, seats, method, threshold=0, base="valid", blank=0, lot=(), rule="fixed"
    ):
        self.codes, self.votes, self.blank = list(votes), list(votes.values()), blank
        self.rule = {"method": method, "threshold": threshold, "base": base, "lot": rule}
        self.seats, self.lot = seats, lot
        places = [self.codes.index(code) for code in lot]
        self.poll = Poll(self.rule, seats, self.votes, blank, places)
        self.won = self.poll.allotted()
        # A lot is given where one is needed, and nowhere else.
        assert bool(self.poll.group()[0]) == bool(lot), self.poll.group()

    def rules(self):
        words = " ".join(self.lot) or "-"
        threshold, base, rule = (self.rule[name] for name in ("threshold", "base", "lot"))
        return [f"threshold {threshold} base {base} rule {rule}", f"lot {words}"]

    def valid(self):
        return f"valid {sum(self.votes) + self.blank} blank {self.blank}"

    def short(self, n):
        """The column of votes short, where there is one."""
        if self.rule["method"] == "hare":
            return ""
        more = self.poll.short(n, self.won[n]) if n in self.poll.eligible else None
        return f"{'-' if more is None else more:>12}"

    def lists(self, names=None):
        """The lines of the lists and of their sum."""
        for n, (code, votes) in enumerate(zip(self.codes, self.votes)):
            share = votes * 10000 // self.poll.base
            state = "in" if n in self.poll.eligible else "out"
            yield (
                f"{code:16}{votes:12}{f'{share // 100}.{share % 100:02}':>8} {state:4}"
                f"{self.won[n]:5}{self.short(n)}{f' {names[n]}' if names else ''}"
            )
        yield f"{'total':16}{sum(self.votes):12}{self.seats:18}"

    def next(self):
        """The list whose next pair is above that of each other, by quotients and then by votes."""
        if self.rule["method"] == "hare":
            return []
        ranks = sorted(
            (self.poll.quotient(self.votes[n], self.won[n] + 1), self.votes[n], self.codes[n])
            for n in self.poll.eligible
        )
        alone = len(ranks) == 1 or ranks[-1][:2] > ranks[-2][:2]
        return [f"next {ranks[-1][2] if alone else '-'}"]

    def awards(self):
        poll = self.poll
        if self.rule["method"] == "hare":
            yield f"votes {poll.total} seats {self.seats}"
            for n in poll.eligible:
                whole, left = poll.quota(n)
                yield f"{self.codes[n]:16}{self.votes[n]:12}{whole:5}{left:16}{self.won[n]:5}"
            return
        for number, (n, k) in enumerate(poll.awards(), 1):
            units, divisor = poll.in_units(n), poll.divisor(k)
            yield (
                f"{number:4} {self.codes[n]:16}{k:4}{units:14}{divisor:6}{units // divisor:12}"
            )

    def decisive(self, rows):
        """The stations without whose votes the seats could not be the same."""
        for code, (*votes, blank) in rows.items():
            rest = [n - here for n, here in zip(self.votes, votes)]
            if not allows(Poll(self.rule, self.seats, rest, self.blank - blank), self.won):
                yield f"decisive {code}"


def allows(poll, seats):
    """Whether the votes of a poll alone allow these seats, by some lot."""
    if not poll.eligible:
        return False
    (group, question), least = poll.group(), poll.least()
    more = [n for n, one in enumerate(seats) if one != least[n]]
    return len(more) == question and all(seats[n] == least[n] + 1 and n in group for n in more)


def text_of(lines):
    return "".join(f"{line}\n" for line in lines)


def two_of(options):
    """Each option alone, each two, and all together: the words, and what they say."""
    for chosen in [
        *((one,) for one in options),
        *itertools.combinations(options, 2),
        tuple(reversed(options)),
    ]:
        said = {}
        for one in chosen:
            said |= options[one]
        yield [word for one in chosen for word in one], said


def counted(without):
    """The stations that are counted, and the votes of the lists and the blank ones there."""
    rows = {code: row for code, row in RETURNS.items() if code != without}
    *votes, blank = map(sum, zip(*rows.values()))
    return rows, dict(zip(VOTES, votes)), blank


class Options(ProgramCase):
    def test_each_two_options_of_allot(self):
        text = "list,votes\n" + "".join(f"{code},{n}\n" for code, n in VOTES.items())
        for method, (words, said) in itertools.product(METHODS, two_of(OF_ALLOT)):
            with self.subTest(method=method, words=words):
                seats = SEATS_BY_LOT if "lot" in said else SEATS
                rule = {name: value for name, value in said.items() if name != "awards"}
                it = Allotted(VOTES, seats, method, **rule)
                lines = [f"ALLOT {method} seats {seats}", *it.rules(), it.valid()]
                lines += [*it.lists(), *it.next(), *(it.awards() if "awards" in said else ())]
                given = text.replace(",", ";") if "--semicolon" in words else text
                words = ["--seats", str(seats), "--method", method, *words]
                same(office("allot", *words, given=given), Ran(0, text_of(lines), ""))

    def test_each_two_options_of_recount(self):
        lists = "".join(party_list(code, f"List {code}", "x") for code in VOTES)
        stations = "".join(station(code, 1000) for code in RETURNS)
        text = "station,slip,blank,spoiled,A,B,C\n"
        for code, (a, b, c, blank) in RETURNS.items():
            text += f"{code},p1,{blank},3,{a},{b},{c}\n"
        for method, (words, said) in itertools.product(METHODS, two_of(OF_RECOUNT)):
            with self.subTest(method=method, words=words):
                lot, without = said.get("lot", ()), said.get("without")
                seats = SEATS_BY_LOT if lot else SEATS
                town = constituency("c1", "Town", seats, "p") + lists + stations
                write("setup.toml", profile("p", method, 800) + town)
                rows, votes, blank = counted(without)
                it = Allotted(votes, seats, method, 800, blank=blank, lot=lot)
                lines = [
                    "RECOUNT c1 Town",
                    f"stations 5 counted {len(rows)} without {5 - len(rows)}",
                    "passed 0",
                    f"method {method} seats {seats}",
                    *it.rules(),
                    f"{it.valid()} spoiled {3 * len(rows)}",
                    *it.lists([f"List {code}" for code in VOTES]),
                    *it.next(),
                    *(it.awards() if "awards" in said else ()),
                    *(it.decisive(rows) if "decisive" in said else ()),
                ]
                given = text.replace(",", ";") if "--semicolon" in words else text
                words = ["--setup", "setup.toml", "--con", "c1", *words]
                same(office("recount", *words, given=given), Ran(0, text_of(lines), ""))

    def test_what_is_decisive_in_the_recounts(self):
        """The votes of s5, and none of another station: by hand, C has 92 of 1,063 valid votes, and
        82 of 1,053, of which 8 per cent are 84.24.
        """
        rows, votes, blank = counted(None)
        self.assertEqual((votes, blank), ({"A": 450, "B": 450, "C": 92}, 71))
        for method in METHODS:
            with self.subTest(method=method):
                it = Allotted(votes, SEATS, method, 800, blank=blank)
                self.assertEqual(it.won, [11, 11, 2])
                self.assertEqual(list(it.decisive(rows)), ["decisive s5"])
