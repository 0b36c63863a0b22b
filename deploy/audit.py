#!/usr/bin/env python3
"""Audits the seats of a constituency against its papers: stations are drawn at random, and their papers counted again.

    audit.py plan   --setup FILE --returns FILE.. --risk 5
    audit.py draw   --setup FILE --returns FILE --seed DIGITS --draws N [--papers FILE]     > papers.csv
    audit.py assess --setup FILE --returns FILE --seed DIGITS --risk 5 --papers FILE

The setup is the office's (TOML) or the published setup.json, the returns are a published stations-CODE-EDITION.csv. A plan
says what the seats rest on and how much there is to count. A draw prints the drawn stations as a CSV, in which what their
papers say is then filled in; the seed is 20 digits, drawn in public after the returns were published. An assessment says
how great the risk still is: if the ballots gave other seats than the returns, the audit would confirm those of the returns
with at most the chance of the limit, here 5 per cent. That these are the certified ones is for the reader to compare.
Nothing is written to any file. The status is 0 where all is done, 1 where an assessment does not confirm the seats, 2
where what was given cannot be used. Python 3.11 or later.

How it works (P. Stark, "Risk-limiting postelection audits: conservative P-values from common probability inequalities",
2009; the assertions after M. Blom and others, "Assertion-based approaches to auditing complex elections", 2021): the seats
follow from assertions such as "ROBLE's seat 4 comes before SAUCE's seat 1", each that a sum of votes, each with its
coefficient, has at least some value. Its margin is how far the recorded sum is above the greatest that would make it false.
The error of a station is how far its recorded counts are above its papers in such a sum, over the margin; of all
assertions the largest. Where an assertion is false the errors of all stations are together 1 at least. The bound of a
station is the largest error that any votes of its electors and agents can leave. Stations are drawn, again and again among all, with
the chance of their bounds. Each draw multiplies the risk by (1 - 1/U) / (1 - e/u): U is the sum of all bounds, u the bound
of the station, e its error. Errors and bounds are whole millionths, rounded up.
"""

import argparse
import csv
import hashlib
import json
import math
import re
import sys
import tomllib
from bisect import bisect_right
from collections import Counter
from dataclasses import dataclass, field
from fractions import Fraction
from itertools import accumulate
from pathlib import Path

MILLION = 1_000_000
# As many seats as the office gives a constituency: a file that says more would take all memory.
MOST_SEATS = 500
# Where this part of the ballots is expected to be counted, a count of all is hardly more work.
NEARLY_ALL = 0.9
RULES = {"dhondt": "D'Hondt", "sainte-lague": "Sainte-Laguë", "modified-sainte-lague": "the modified Sainte-Laguë",
         "hare": "Hare and largest remainders"}
BASES = {"valid": "the valid votes", "lists": "the votes of the lists"}


class Unusable(Exception):
    """The files or numbers given cannot be used."""


def need(holds, words):
    if not holds:
        raise Unusable(words)


# ---- reading


def is_whole(value, least, most):
    """Whether a value is a whole number between these; true and false are none."""
    return type(value) is int and least <= value <= most


@dataclass
class Constituency:
    code: str
    name: str
    seats: int
    method: str
    threshold: int  # in ten-thousandths of the base
    base: str
    lists: list  # their codes
    electors: dict  # of each station, by its code
    agents: dict = field(default_factory=dict)  # of the stations at which some vote beyond the electors

    def most(self, station):
        """The most papers that a station may have."""
        return self.electors[station] + self.agents.get(station, 0)


def read_setup(file):
    """The constituencies of a setup, as the office takes it or as it is published."""
    text = file.read_bytes().decode("utf-8-sig")
    lists, stations = "list", "station"
    if file.suffix == ".json":
        entries, lists, stations = json.loads(text), "lists", "stations"
    else:
        setup = tomllib.loads(text)
        rules = {profile["code"]: {key: profile[key] for key in ("method", "threshold", "base")} for profile in setup["profile"]}
        # (the office ignores a key of a constituency that has the name of one of its rule's)
        entries = [con | rules[con["profile"]] for con in setup["constituency"]]
    for con in entries:
        need(con["method"] in RULES and con["base"] in BASES, f"{file}: the rule of {con['code']} is not known")
        need(is_whole(con["seats"], 1, MOST_SEATS), f"{file}: {con['code']} has {con['seats']!r} seats, and not 1 to {MOST_SEATS}")
        need(is_whole(con["threshold"], 0, 10_000), f"{file}: the threshold of {con['code']} is {con['threshold']!r}, and not 0 to 10000")
        need(all(is_whole(row[key], 0, 10**6) for row in con[stations] for key in ("electors", "agents") if key in row),
             f"{file}: the electors of a station of {con['code']} are no number")
    keys = ("code", "name", "seats", "method", "threshold", "base")
    return [Constituency(*(con[key] for key in keys), [row["code"] for row in con[lists]],
                         {row["code"]: row["electors"] for row in con[stations]},
                         {row["code"]: row["agents"] for row in con[stations] if row.get("agents")}) for con in entries]


def read_rows(file):
    """The header of a CSV with commas or semicolons, and its rows, each with its line."""
    with file.open(encoding="utf-8-sig", newline="") as lines:
        separator = ";" if ";" in lines.readline() else ","
        lines.seek(0)
        reader = csv.reader(lines, delimiter=separator, strict=True)
        # (a spreadsheet may leave a row of separators alone)
        rows = [(reader.line_num, row) for row in reader if any(row)]
    need(len(rows) > 1, f"{file}: there are no rows in it")
    return rows[0][1], rows[1:]


def counts_of(file, con, second, header, rows):
    """The line of each station in a file: what the second column says, and the counts: the votes of each list, the blank votes
    and the spoiled ones, or None where they are not filled in. The second column is `slip` or `drawn`."""
    wanted = ["station", second, "blank", "spoiled", *con.lists]
    need(header == wanted, f"{file}: the header is not {','.join(wanted)}")
    found = {}
    for line, row in rows:
        where, station = f"{file}, line {line}", row[0]
        need(station in con.electors, f"{where}: {con.code} has no station {station!r}")
        need(station not in found, f"{where}: station {station} comes twice")
        need(len(row) == len(header), f"{where}: {counted(len(row), 'field')}, where the header has {len(header)}")
        found[station] = row[1], None
        if second == "drawn" and not any(row[2:]):
            continue
        wrong = [field for field in row[2:] if not (field.isascii() and field.isdigit() and len(field) < 10)]
        need(not wrong, f"{where}: {''.join(wrong[:1])!r} of station {station} is not a number")
        blank, spoiled, *votes = map(int, row[2:])
        papers, agents = sum(votes) + blank + spoiled, con.agents.get(station)
        need(papers <= con.most(station), f"{where}: {counted(papers, 'paper')} of station {station}, which has "
             f"{counted(con.electors[station], 'elector')}" + (f" and {counted(agents, 'agent')}" if agents else ""))
        found[station] = row[1], [*votes, blank, spoiled]
    return found


def read_returns(file, cons, asked):
    """The constituency whose stations are in a file of returns, and the counts of each of them."""
    header, rows = read_rows(file)
    line, first = rows[0][0], rows[0][1][0]
    con = next((con for con in cons if first in con.electors), None)
    need(con, f"{file}, line {line}: the setup has no station {first!r}")
    need(asked in (None, con.code), f"{file}: these are the returns of {con.code}")
    found = counts_of(file, con, "slip", header, rows)
    missing = [station for station in con.electors if station not in found]
    need(not missing, f"{file}: not all returns of {con.code} are closed: {len(missing)} are not in it, {' '.join(missing[:1])} first")
    return con, {station: counts for station, (_, counts) in found.items()}


# ---- seats


def divisor(method, k):
    """The divisor of a list's kth seat; of the modified rule (1.4, 3, 5, ..) five times as much."""
    if method == "dhondt":
        return k
    if method == "modified-sainte-lague":
        return 7 if k == 1 else 10 * k - 5
    need(method == "sainte-lague", f"no divisors of the method {method!r} are known")
    return 2 * k - 1


def taking_part(con, votes, blank):
    """The lists that take part, by their places. Without a threshold all do: those without votes get no seat."""
    base = sum(votes) + (blank if con.base == "valid" else 0)
    return [i for i, v in enumerate(votes) if v * 10000 >= con.threshold * base and (v > 0 or con.threshold == 0)]


def seats_of(con, votes, blank):
    """The seats of each list. Where only a lot can decide, they go by the order of the setup."""
    lists = taking_part(con, votes, blank)
    total = sum(votes[i] for i in lists)
    need(total, f"{con.code}: no list takes part")
    if con.method == "hare":
        seats = [v * con.seats // total if i in lists else 0 for i, v in enumerate(votes)]
        ranked = sorted((-(votes[i] * con.seats % total), -votes[i], i) for i in lists)
    else:
        seats = [0] * len(votes)
        ranked = sorted((Fraction(-votes[i], divisor(con.method, k)), -votes[i], i) for i in lists for k in range(1, con.seats + 1))
    for _, _, i in ranked[:con.seats - sum(seats)]:
        seats[i] += 1
    return seats


# ---- what the seats rest on


@dataclass
class Assertion:
    """That a sum of counts has at least some value."""
    words: str
    terms: list  # of the sum: three pairs of the place of a count and its coefficient
    recorded: int  # the sum of the recorded totals
    margin: int  # how far that is above the greatest that would make it false; 0 or less where a lot decided
    low: int  # what one paper adds to the sum at least: 0 or less
    high: int  # and at most

    def votes(self):
        """This many votes have to be recorded wrongly at least if it is false."""
        return Fraction(self.margin, self.high - self.low)


class Audit:
    """The audit of a constituency, by the recorded counts of its stations."""

    def __init__(self, con, recorded):
        self.con, self.recorded = con, recorded
        *self.votes, self.blank, self.spoiled = map(sum, zip(*recorded.values()))
        self.seats = seats_of(con, self.votes, self.blank)
        self.taking_part = taking_part(con, self.votes, self.blank)
        self.assertions = sorted((it for it in self.asserted() if it.low < it.high), key=Assertion.votes)
        self.lots = [it for it in self.assertions if it.margin <= 0]
        # Of each station the bound, in the setup's order, and the sum of the bounds so far.
        self.rows = [(*it.terms, it.low, it.margin) for it in self.assertions]
        # These with the most that a paper can come to there, the greatest first.
        self.by_most = [] if self.lots else sorted(
            ((-((it.low - max(it.high, 0)) * MILLION // it.margin), row) for it, row in zip(self.assertions, self.rows)), reverse=True)
        self.bounds = {} if self.lots else {
            station: self.bound(self.seen(recorded[station]), con.most(station)) for station in con.electors}
        self.stations, self.sums = list(self.bounds), list(accumulate(self.bounds.values()))

    def seen(self, counts):
        """The counts that sums are made of: of each list, the blank votes, the base of the threshold, those of the lists that
        take part."""
        *votes, blank, _ = counts
        return [*votes, blank, sum(votes) + (blank if self.con.base == "valid" else 0), sum(votes[i] for i in self.taking_part)]

    def asserted(self):
        """The assertions: where all are true of the ballots, these seats follow, without a lot."""
        con, codes = self.con, self.con.lists
        by_quota, base = con.method == "hare", len(codes) + 1
        winners = [i for i, seats in enumerate(self.seats) if seats]
        found = [self.assertion(f"{codes[i]} has a vote", [(i, 1)], 1) for i in winners]
        if con.threshold:
            # By divisors it changes nothing whether a list takes part that has no seat.
            found += [self.assertion(f"{codes[i]} reaches the threshold", [(i, 10000), (base, -con.threshold)], 0)
                      for i in (self.taking_part if by_quota else winners)]
        for other in range(len(codes)):
            before = [self.before(i, other) for i in winners if i != other]
            if other not in self.taking_part:
                # It gets no seat for either reason. By divisors the one that is easier to show is
                # enough.
                below = self.assertion(f"{codes[other]} is below the threshold", [(other, -10000), (base, con.threshold)], 1)
                if by_quota or self.possible(below) < max(map(self.possible, before)):
                    before = [below]
            found += before
        return found

    def before(self, i, other):
        """That the last seat of a list comes before the next seat of another. (Under Hare: what the other claims above its
        seats is less than a seat more than what the list does.)"""
        con, last, following = self.con, self.seats[i], self.seats[other] + 1
        if con.method == "hare":
            terms = [(i, con.seats), (other, -con.seats), (len(self.votes) + 2, following - last)]
        else:
            terms = [(i, divisor(con.method, following)), (other, -divisor(con.method, last))]
        words = f"{con.lists[i]}'s seat {last} comes before {con.lists[other]}'s seat {following}"
        # Where both are equal, the seat is that of the list with more votes. With a later seat
        # that is the first.
        return self.assertion(words, terms, 0 if last > following else 1)

    def assertion(self, words, terms, least):
        def summed(counts):
            seen = self.seen(counts)
            return sum(times * seen[place] for place, times in terms)

        kinds = range(len(self.votes) + 2)
        added = [summed([int(i == kind) for i in kinds]) for kind in kinds]  # by a paper for each list, a blank, a spoiled one
        recorded = summed([*self.votes, self.blank, self.spoiled])
        return Assertion(words, terms + [(0, 0)] * (3 - len(terms)), recorded, recorded - least + 1, min(added), max(added))

    def possible(self, it):
        """The errors that all stations together can have in this assertion alone."""
        most = it.recorded - it.low * sum(map(self.con.most, self.con.electors))
        return Fraction(most, it.margin) if it.margin > 0 else math.inf

    def largest(self, counts):
        """Of all assertions the largest of: what these counts add to the sum, over the margin."""
        return -min(-(a * counts[i] + b * counts[j] + c * counts[k]) * MILLION // margin
                    for (i, a), (j, b), (k, c), _, margin in self.rows)

    def bound(self, counts, papers):
        """Of all assertions the largest of: what these counts of a station add to the sum, less the least that this many papers, of
        all its electors and agents, could add, over the margin. What cannot come to more than was found is not looked at."""
        found = -math.inf
        for most, ((i, a), (j, b), (k, c), low, margin) in self.by_most:
            if found >= most * papers:
                break
            found = max(found, -((low * papers - a * counts[i] - b * counts[j] - c * counts[k]) * MILLION // margin))
        return found

    # ---- draws

    def drawn(self, seed, number):
        """The station of a draw: a part of the sum of the bounds, as great as a number of 256 bits is of 2 to the power of 256."""
        digest = hashlib.sha256(f"{seed},{number}".encode("ascii")).digest()
        return self.stations[bisect_right(self.sums, int.from_bytes(digest) * self.sums[-1] >> 256)]

    def error(self, station, papers):
        """The error of a station by the counts of its papers."""
        return self.largest([a - b for a, b in zip(self.seen(self.recorded[station]), self.seen(papers))])

    def factor(self, station, error):
        """The factor by which a draw multiplies the risk, above and below the line; the latter is 0 where the error is as great as can be."""
        total, bound = self.sums[-1], self.bounds[station]
        return (total - MILLION) * bound, total * (bound - error)

    def expected(self, times, wrong=0):
        """How many draws are expected to make the risk this many times less, where this part of all votes is recorded wrongly,
        each to the harm of the closest assertion. None where no number does."""
        total = self.sums[-1] / MILLION
        if total <= 1:
            return 1
        taint = wrong * (sum(self.votes) + self.blank) / float(self.assertions[0].votes()) / total
        if taint * total >= 1:
            return None
        return math.ceil(math.log(times) / (math.log1p(-taint) - math.log1p(-1 / total)))

    def reached(self, draws):
        """How many stations and papers this many draws are expected to reach."""
        chances = {station: -math.expm1(draws * math.log1p(-min(bound / self.sums[-1], 1 - 1e-12)))
                   for station, bound in self.bounds.items()}
        return sum(chances.values()), sum(chance * sum(self.recorded[station]) for station, chance in chances.items())


# ---- what is printed


def per_cent(part, whole):
    """In hundredths of one per cent, rounded up."""
    hundredths = -(-part * 10000 // whole)
    return f"{hundredths // 100:,}.{hundredths % 100:02}"


def counted(number, word):
    """A number with its word: 1 seat, 1,200 seats."""
    return f"{number:,} {word}{'' if number == 1 else 's'}"


def decimal(millionths):
    return f"{millionths / MILLION:,.6f}"


def print_sums(given, returns):
    """The subject of the audit, so that it can be made again."""
    for name, file in (("setup", given.setup), ("returns", returns)):
        print(f"{name:8} {hashlib.sha256(file.read_bytes()).hexdigest()}  {file.name}")
    if returns.name.endswith("-open.csv"):
        print(f"{returns.name} has the returns of no certificate: what is certified may differ.")


def print_lots(audit, begin="A lot decided"):
    for it in audit.lots:
        # (here the order of the setup gave the seat to the first)
        print(f"{begin} between {it.words.replace(' comes before ', ' and ')}: the votes of the two are equal.")


def work(audit, draws):
    """The words for this many draws; whether that is nearly all of the work."""
    if draws is None:
        return "no number of draws is enough", True
    stations, papers = audit.reached(draws)
    all_papers = sum(map(sum, audit.recorded.values()))
    return (f"{counted(draws, 'draw')}, of some {stations:,.0f} of {counted(len(audit.stations), 'station')}, "
            f"with {papers:,.0f} of {counted(all_papers, 'paper')}", papers >= NEARLY_ALL * all_papers)


def print_outcome(audit):
    con, electors = audit.con, sum(audit.con.electors.values())
    threshold = f", with a threshold of {per_cent(con.threshold, 10000)} per cent of {BASES[con.base]}" if con.threshold else ""
    print(f"{con.code} {con.name}: {counted(con.seats, 'seat')} by {RULES[con.method]}{threshold}")
    agents = f" and {counted(sum(con.agents.values()), 'agent')}" if con.agents else ""
    print(f"{counted(len(con.electors), 'station')}, all closed, with {counted(electors, 'elector')}{agents}; "
          f"{counted(sum(audit.votes), 'vote')} for lists, "
          f"{audit.blank:,} blank, {audit.spoiled:,} spoiled")
    in_question = {place for it in audit.lots for place, _ in it.terms[:2]}
    for i, code in enumerate(con.lists):
        seats = "lot" if i in in_question else audit.seats[i]
        print(f"  {code:16} {audit.votes[i]:12,} {seats:>5}{'' if i in audit.taking_part else '  below the threshold'}")


def plan(given):
    cons, found = read_setup(given.setup), {}
    for file in given.returns:
        con, recorded = read_returns(file, cons, given.con)
        need(con.code not in found, f"{file}: the returns of {con.code} come twice")
        found[con.code] = file, con, recorded
    for number, (file, con, recorded) in enumerate(found.values()):
        print(end="\n" if number else "")
        print_plan(Audit(con, recorded), given.risk)
        print_sums(given, file)
    return 0


def print_plan(audit, risk):
    print_outcome(audit)
    if audit.lots:
        print_lots(audit)
        print("No sample can confirm what a lot decided: count all papers.")
        return
    print(f"The seats follow from {counted(len(audit.assertions), 'assertion')}. The closest, each with the votes that were recorded wrongly at "
          "least if it is false:")
    for it in audit.assertions[:3]:
        print(f"  {math.ceil(it.votes()):12,}  {it.words}")
    clean, clean_is_all = work(audit, audit.expected(1 / risk))
    print(f"The bounds of the errors are together U = {decimal(audit.sums[-1])}. Expected at a limit of {float(risk * 100):g} per cent:")
    print(f"  where no paper differs: {clean}")
    print(f"  where 1 vote in 1,000 is recorded wrongly: {work(audit, audit.expected(1 / risk, 0.001))[0]}")
    if clean_is_all:
        print("A count of all papers is hardly more work, and leaves no risk.")


def begun(given):
    """The audit of the returns that are given, and what is filled in of its papers."""
    con, recorded = read_returns(given.returns, read_setup(given.setup), given.con)
    papers = counts_of(given.papers, con, "drawn", *read_rows(given.papers)) if given.papers else {}
    return Audit(con, recorded), papers


def draws_of(audit, seed, draws):
    need(not audit.lots, "no station is drawn: a lot decided a seat, so all papers are counted (--all)")
    need(seed, "a draw needs --seed")
    return [audit.drawn(seed, number) for number in range(1, draws + 1)]


def draw(given):
    audit, papers = begun(given)
    times = Counter(audit.con.electors.keys() if given.all else draws_of(audit, given.seed, given.draws))
    out = csv.writer(sys.stdout, lineterminator="\n")
    out.writerow(["station", "drawn", "blank", "spoiled", *audit.con.lists])
    for station, drawn in times.items():
        *votes, blank, spoiled = papers.get(station, ("", None))[1] or [""] * (len(audit.votes) + 2)
        out.writerow([station, 0 if given.all else drawn, blank, spoiled, *votes])
    return 0


def assess(given):
    audit, papers = begun(given)
    found = {station: counts for station, (_, counts) in papers.items() if counts}
    if len(found) == len(audit.recorded):
        of_papers = Audit(audit.con, found)
        print_outcome(audit)
        print_sums(given, given.returns)
        return count_of_all(audit, of_papers)
    for station, (drawn, _) in papers.items():
        need(re.fullmatch("[0-9]{1,6}", drawn), f"{given.papers}: {drawn!r} is not a number (drawn of station {station})")
    draws = draws_of(audit, given.seed, sum(int(drawn) for drawn, _ in papers.values()))
    times = Counter(draws)
    # (as many as the file says: where each of its numbers is right no other station is drawn)
    for station, (drawn, _) in papers.items():
        need(int(drawn) == times[station], f"{given.papers}: station {station} is drawn {counted(times[station], 'time')} in "
                                           f"{counted(len(draws), 'draw')}, and the file says {int(drawn)}")
    print_outcome(audit)
    print_sums(given, given.returns)
    return follow(audit, given, draws, found)


def follow(audit, given, draws, counted):
    """Goes through the draws one by one, as far as their papers are counted."""
    print(f"seed {given.seed}, a limit of {float(given.risk * 100):g} per cent, U = {decimal(audit.sums[-1])}")
    print(f"  {'draw':>6} {'station':16} {'bound':>12} {'error':>12} {'risk %':>9}")
    above = below = 1
    for number, station in enumerate(draws, 1):
        if station not in counted:
            print(f"The papers of {station}, draw {number}, are not counted: no later draw is looked at.")
            break
        error = audit.error(station, counted[station])
        times, over = audit.factor(station, error)
        above, below = above * times, below * over
        names = [*audit.con.lists, "blank", "spoiled"]
        differs = [f"{name} {a} on paper {b}" for name, a, b in zip(names, audit.recorded[station], counted[station]) if a != b]
        risk = per_cent(above, below) if below else "-"
        print(f"  {number:6} {station:16} {decimal(audit.bounds[station]):>12} {decimal(error):>12} {risk:>9}"
              f"{'  ' if differs else ''}{', '.join(differs)}")
        if not below:
            print(f"The papers of {station} differ as much as they can. No further draw makes that good: count all papers.")
            return 1
    if above <= given.risk * below:
        print(f"Confirmed at a limit of {float(given.risk * 100):g} per cent.")
        return 0
    words, nearly_all = work(audit, audit.expected(Fraction(above, below) / given.risk))
    print(f"Not confirmed. Expected where no other paper differs, beside these: {words}.")
    if nearly_all:
        print("A count of all papers is hardly more work, and leaves no risk.")
    return 1


def count_of_all(audit, of_papers):
    print("All papers are counted:")
    print_outcome(of_papers)
    if of_papers.lots or audit.lots:
        print_lots(of_papers, "A lot has to decide")
        is_same_lot = {it.words for it in of_papers.lots} == {it.words for it in audit.lots}
        if is_same_lot and of_papers.seats == audit.seats:
            print("By the returns the same lot decides: the certified seats have to be those of the lot that was drawn.")
        elif is_same_lot:
            # (the seats of the lot are in the order of the setup in both: others differ)
            print("The papers give other seats: correct the returns, and certify again.")
        elif of_papers.lots:
            print("By the returns no such lot decides: correct them, and certify again.")
        else:
            print("By the returns a lot decides, and by the papers none: the certified seats have to be these.")
        return 1
    same = of_papers.seats == audit.seats
    print("The papers give the same seats." if same else "The papers give other seats.")
    return 0 if same else 1


# ---- the command line


def limit(text):
    """A limit in per cent, as a fraction."""
    if not re.fullmatch(r"[0-9]{1,3}(\.[0-9]{1,4})?", text) or not 0 < Fraction(text) < 100:
        raise argparse.ArgumentTypeError("a limit is a number of per cent above 0 and below 100")
    return Fraction(text) / 100


def seed_digits(text):
    if not re.fullmatch("[0-9]{20}", text):
        raise argparse.ArgumentTypeError("a seed is 20 digits")
    return text


def draws_number(text):
    if not re.fullmatch("[0-9]{1,6}", text) or not int(text):
        raise argparse.ArgumentTypeError("from 1 to 999999 draws")
    return int(text)


def main():
    command = argparse.ArgumentParser(description=__doc__, formatter_class=argparse.RawDescriptionHelpFormatter)
    commands = command.add_subparsers(required=True, metavar="plan, draw or assess")
    for act in (plan, draw, assess):
        it = commands.add_parser(act.__name__)
        it.set_defaults(act=act)
        it.add_argument("--setup", type=Path, required=True, metavar="FILE", help="the setup of the office, or setup.json")
        it.add_argument("--returns", type=Path, required=True, metavar="FILE", nargs="+" if act is plan else None,
                        help="the published returns of a certificate, stations-CODE-EDITION.csv")
        it.add_argument("--con", metavar="CODE", help="the constituency that the returns have to be of")
        if act is not draw:
            it.add_argument("--risk", type=limit, required=True, metavar="N", help="the limit, in per cent")
        if act is not plan:
            it.add_argument("--seed", type=seed_digits, metavar="DIGITS", help="20 digits that were drawn in public")
            it.add_argument("--papers", type=Path, required=act is assess, metavar="FILE",
                            help="what was counted: the CSV of a draw with its counts filled in")
        if act is draw:
            which = it.add_mutually_exclusive_group(required=True)
            which.add_argument("--draws", type=draws_number, metavar="N", help="the stations of the first N draws")
            which.add_argument("--all", action="store_true", help="every station, for a count of all papers")
    given = command.parse_args()
    try:
        return given.act(given)
    except Unusable as it:
        words = str(it)
    except Exception as it:  # whatever it is: status 1 is that of seats that are not confirmed
        words = f"{type(it).__name__}: {it}"
    print(f"audit.py: {words}", file=sys.stderr)
    return 2


if __name__ == "__main__":
    sys.exit(main())
