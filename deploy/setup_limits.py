"""The limits of a setup, for the tools that make or divide one.

docs/FORMATS.md lists them under The setup file."""

import re

MOST_BYTES = 8_388_608  # of the text
MOST_PROFILES = 200
MOST_CONSTITUENCIES = 200
MOST_LISTS = 60  # of a constituency
MOST_CANDIDATES = 1_000  # of a list, substitutes among them
MOST_STATIONS = {"normal": 5_000, "large": 20_000}  # of a constituency, by its size
MOST_NAME_BYTES = 80
MOST_SEATS = 500
MOST_THRESHOLD = 10_000
MOST_ELECTORS = 1_000_000  # of a station, alone and together with its agents
MOST_AGENTS = 1_000
MOST_PAPERS = 5_000_000_000  # electors and agents of a constituency
METHODS = ("dhondt", "sainte-lague", "modified-sainte-lague", "hare")
BASES = ("valid", "lists")
LOTS = ("fixed", "alternating")
ENTRIES = ("single", "double")
SIZES = tuple(MOST_STATIONS)
MOST_SHOWN = 100  # characters of a wrong value


def is_code(value):
    return isinstance(value, str) and re.fullmatch("[A-Za-z0-9_-]{1,16}", value) is not None


def is_name(value):
    if not isinstance(value, str) or re.search("[\x00-\x1f\x7f]", value):
        return False
    return 1 <= len(value.encode()) <= MOST_NAME_BYTES


def counted(number, one, more=None):
    """A number with its word: 1 station, 1200 stations."""
    return f"{number} {one if number == 1 else more or one + 's'}"


def papers(station):
    """The most papers that a station may have: its electors, and the agents who vote there."""
    return station["electors"] + station.get("agents", 0)


def first_fault(setup, most=None, sees_capitals=False):
    """The first limit that a setup breaks, in words that begin with its place; or None.

    The order and the places are those of the office (docs/FORMATS.md, Faults). Without `most` any
    number of constituencies is kept. Codes of constituencies and of stations that differ in
    capitals alone are faults too, unless capitals are seen."""
    try:
        profiles = profiles_of(setup)
        codes, stations = Codes("constituency", sees_capitals), Codes("station", sees_capitals)
        for number, con in enumerate(entries(setup, "constituency", most, "the setup"), 1):
            place = codes.add(con, f"constituency {number}")
            check_constituency(con, place, profiles)
            check_lists(con, place)
            check_stations(con, place, stations)
    except Fault as fault:
        return str(fault)
    return None


class Fault(Exception):
    """A limit that is not kept, with its place."""


def need(condition, place, said):
    if not condition:
        raise Fault(f"{place}: {said}")


class Codes:
    """The codes of entries of one kind, which have to differ."""

    def __init__(self, kind, sees_capitals=True):
        self.kind, self.sees_capitals, self.found = kind, sees_capitals, {}

    def add(self, entry, place):
        """The place of an entry with its code."""
        code = value_of(entry, "code", place)
        need(is_code(code), place, f"{shown(code)} is no code")
        key = code if self.sees_capitals else code.lower()
        if key in self.found:
            other, at = self.found[key]
            need(other != code, place, f"{self.kind} {code} comes twice, first at {at}")
            raise Fault(
                f"{place}: {self.kind} {code} and {other} at {at} differ in capitals alone, "
                "which the proxy does not tell apart"
            )
        self.found[key] = code, f"{place} {code}"
        return f"{place} {code}"


def shown(value):
    """The beginning of a value, which may be a text of a whole file."""
    said = repr(value)
    return said if len(said) <= MOST_SHOWN else f"{said[:MOST_SHOWN]}.."


def value_of(entry, key, place):
    need(key in entry, place, f"{key} is missing")
    return entry[key]


def entries(table, key, most, place):
    found = value_of(table, key, place)
    is_array = isinstance(found, list) and all(isinstance(entry, dict) for entry in found)
    need(is_array, place, f"{key} is no array of tables")
    need(found, place, f"{key} is empty")
    check_count(found, key, most, place)
    return found


def check_count(found, key, most, place):
    if most is not None:
        need(len(found) <= most, place, f"{len(found):,} of {key}, and {most:,} is the limit")


def check_number(entry, key, least, most, place):
    value = value_of(entry, key, place)
    is_kept = type(value) is int and least <= value <= most
    need(is_kept, place, f"{key} is {shown(value)}, and not a number from {least:,} to {most:,}")
    return value


def check_word(entry, key, words, place):
    """A key that may be absent, which is the first of its words."""
    value = entry.get(key, words[0])
    need(value in words, place, f"{key} is {shown(value)}, and none of {', '.join(words)}")


def check_name(value, key, place):
    said = f"{key} is {shown(value)}, and not a name of 1 to {MOST_NAME_BYTES} bytes"
    need(is_name(value), place, said)


def profiles_of(setup):
    codes = Codes("profile")
    for number, profile in enumerate(entries(setup, "profile", MOST_PROFILES, "the setup"), 1):
        place = codes.add(profile, f"profile {number}")
        value_of(profile, "method", place)
        check_word(profile, "method", METHODS, place)
        check_number(profile, "threshold", 0, MOST_THRESHOLD, place)
        value_of(profile, "base", place)
        check_word(profile, "base", BASES, place)
        check_word(profile, "lot", LOTS, place)
    return codes.found


def check_constituency(con, place, profiles):
    check_name(value_of(con, "name", place), "name", place)
    check_number(con, "seats", 1, MOST_SEATS, place)
    profile = value_of(con, "profile", place)
    need(is_code(profile), place, f"profile is {shown(profile)}, which is no code")
    need(profile in profiles, place, f"there is no profile {profile!r}")
    check_word(con, "entry", ENTRIES, place)
    check_word(con, "size", SIZES, place)


def check_lists(con, place):
    codes = Codes("list")
    for number, one in enumerate(entries(con, "list", MOST_LISTS, place), 1):
        at = codes.add(one, f"{place}, list {number}")
        check_name(value_of(one, "name", at), "name", at)
        names = value_of(one, "candidates", at)
        is_array = isinstance(names, list) and all(isinstance(name, str) for name in names)
        need(is_array and names, at, "candidates is no array of names")
        check_count(names, "candidates", MOST_CANDIDATES, at)
        for order, name in enumerate(names, 1):
            check_name(name, "candidates", f"{at}, candidate {order}")


def check_stations(con, place, codes):
    found = entries(con, "station", MOST_STATIONS[con.get("size", "normal")], place)
    for number, station in enumerate(found, 1):
        at = codes.add(station, f"{place}, station {number}")
        electors = check_number(station, "electors", 1, MOST_ELECTORS, at)
        if "agents" in station:
            agents = check_number(station, "agents", 0, MOST_AGENTS, at)
            together = f"electors and agents are more than {MOST_ELECTORS:,}"
            need(electors + agents <= MOST_ELECTORS, at, together)
    said = f"electors and agents of all stations are more than {MOST_PAPERS:,}"
    need(sum(map(papers, found)) <= MOST_PAPERS, place, said)
