"""The offices, what they answer, and whether that is of the setup: what the pages say of a
constituency is partly of the one and partly of the other."""

import json
import time
import urllib.error
import urllib.request

from press_results import NoAnswer, read_results

# How long an answer may take: an import may have the office before.
PATIENCE = 60
# Constituencies that a line of a failure names.
MOST_NAMED = 20


class Office:
    """An office, how often it was asked, and how many seconds its answers took; the constituencies
    whose stations are those of the setup, and what was said of those where they are not."""

    def __init__(self, address):
        self.address, self.asked, self.took = address.rstrip("/"), 0, 0.0
        self.compared, self.other = set(), {}
        # A proxy of the environment has nothing to do with it.
        self.opener = urllib.request.build_opener(urllib.request.ProxyHandler({}))

    def get(self, target):
        """Status and text of an answer. A proxy that limits requests is asked again."""
        end = time.monotonic() + PATIENCE
        while True:
            status, text = self.get_once(target)
            if status != 429 or time.monotonic() > end:
                return status, text
            time.sleep(0.5)

    def get_once(self, target):
        self.asked, began = self.asked + 1, time.monotonic()
        try:
            with self.opener.open(self.address + target, timeout=PATIENCE) as answer:
                return answer.status, answer.read().decode()
        except urllib.error.HTTPError as refusal:
            with refusal:
                return refusal.code, refusal.read().decode(errors="replace")
        except (OSError, ValueError, urllib.error.URLError) as error:
            raise NoAnswer(f"{target}: {error}") from error
        # http.client has errors of its own: an answer that is cut off, or none
        except Exception as error:
            raise NoAnswer(f"{target}: {type(error).__name__}") from error
        finally:
            self.took += time.monotonic() - began

    def text(self, target):
        status, text = self.get(target)
        if status != 200:
            raise NoAnswer(f"{target}: status {status}")
        return text

    def json(self, target):
        try:
            return json.loads(self.text(target))
        except json.JSONDecodeError as error:
            raise NoAnswer(f"{target}: not JSON") from error


class OtherSetup(NoAnswer):
    """An office has a constituency otherwise than the setup, so nothing can be said of all."""


def results_of(offices, setup):
    """The results of all offices, each of one moment: by constituency its office and what it is;
    and what failed. Of a constituency that two offices have, or that is not as the setup has it,
    nobody knows what is right: it is left out. So is one that the setup lacks."""
    found, failures, twice = {}, [], set()
    for office in offices:
        try:
            cons = read_results(office.text("/results"))
        except NoAnswer as error:
            # (it may be another one when it answers again)
            office.compared.clear()
            failures.append(str(error))
            continue
        twice |= found.keys() & cons.keys()
        found |= {code: (office, con) for code, con in cons.items()}
    other = {code: ", ".join(what) for code, (_, con) in found.items()
             if code in setup and (what := differences(con, setup[code]))}
    unknown = found.keys() - setup.keys() if setup else set()
    # (one that gave no answer may have it)
    missing = set() if failures else setup.keys() - found.keys()
    for words, codes in (
            ("more than one office has the constituency", twice),
            ("the setup lacks the constituency", unknown),
            ("no office has the constituency", missing),
            ("not as the setup has it, the constituency",
             {f"{code} ({what})" for code, what in other.items()})):
        if codes:
            failures.append(f"/results: {words} {named(codes)}")
    wrong = twice | unknown | other.keys()
    return {code: one for code, one in found.items() if code not in wrong}, failures


def named(codes):
    more = len(codes) - MOST_NAMED
    return ", ".join(sorted(codes)[:MOST_NAMED]) + (f" and {more} more" if more > 0 else "")


def differences(con, entry):
    """Whatever of a constituency its results have otherwise than the setup."""
    lists = [(row["code"], row["name"]) for row in con["tally"]["lists"]]
    rule, of_setup = con["rule"], {"lot_rule": entry["lot"], **entry}
    is_same = {
        "name": con["tally"]["name"] == entry["name"],
        **{key: rule[key] == of_setup[key] for key in rule},
        "entry": con["view"].get("entry") == "double" or entry.get("entry") != "double",
        "lists": lists == [(row["code"], row["name"]) for row in entry["lists"]],
        "candidates": has_candidates(con, entry),
        "stations": con["view"]["stations"] == len(entry["stations"])}
    return [what for what, same in is_same.items() if not same]


def has_candidates(con, entry):
    """Whether the setup has those who hold the seats, where some do."""
    names = {row["code"]: row["candidates"] for row in entry["lists"]}
    return all(names.get(row["list"], [])[row["place"] - 1:row["place"]] == [row["name"]]
               for row in con.get("holders", ()) if row["place"] is not None)


def compare_stations(office, code, entry, text):
    """Fails where a table of stations has not those of the setup with their electors, and in their
    order. The office is not asked again for one that has."""
    target = f"/con/{code}/stations"
    if not text.startswith(f"STATIONS {code} "):
        raise NoAnswer(f"{target}: not a table of stations")
    found = [line.split()[:2] for line in text.split("\n")[2:-1]]
    if found != [[station["code"], str(station["electors"])] for station in entry["stations"]]:
        office.other[code] = f"{target}: other stations or electors than those of the setup"
        raise OtherSetup(office.other[code])
    office.compared.add(code)
    office.other.pop(code, None)
