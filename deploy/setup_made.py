"""The setup of `setup-from-tables`: what the rows of the tables say, with each fault of them."""

from collections import Counter, defaultdict
from dataclasses import dataclass, field

import setup_limits as limits
from setup_lists import list_of
from setup_tables import code_letters, folded, identity, note_no_columns, other_columns, party_key
from setup_tables import words_of

RULES = {"loreg": {"code": "loreg", "method": "dhondt", "threshold": 300, "base": "valid"}}
# A constituency of one seat has the candidate with most votes (LOREG 163.2).
RULES_OF_ONE_SEAT = {
    "loreg": {"code": "loreg-one", "method": "dhondt", "threshold": 0, "base": "valid"}
}
CANDIDATE_WORDS = ["", "T", "TITULAR", "C", "CANDIDATO", "CANDIDATA", "CANDIDATE"]
SUBSTITUTE_WORDS = ["S", "SUPLENTE", "SUBSTITUTE"]
# What the row of a sum is called.
TOTALS = ("total", "totals", "totales")


@dataclass
class Entry:
    """A row of a table, and the entry of the setup that it becomes."""

    row: object
    made: dict
    others: dict = field(default_factory=dict)  # its columns without a meaning, by their keys


@dataclass
class Constituency(Entry):
    lists: list = field(default_factory=list)
    stations: list = field(default_factory=list)


@dataclass
class PartyList(Entry):
    party: str = ""  # what makes it the same party everywhere, and as the table has it
    text: str = ""
    order: int = 0
    candidates: list = field(default_factory=list)
    called: dict = field(default_factory=dict)  # first rows of candidates, by what they call it
    names: dict = field(default_factory=dict)  # of its candidates, by their folded names


@dataclass
class Candidate(Entry):
    name: str = ""
    is_substitute: bool = False
    place: int = 0


class Maker:
    """Makes a setup of the tables, and collects the faults."""

    def __init__(self, tables, columns, faults, rule=None, entry=None):
        self.tables, self.columns, self.faults = tables, columns, faults
        self.rule, self.entry = rule, entry
        self.rules = columns.get("rules", {})
        self.cons, self.found_by, self.codes_made, self.notes = [], {}, {}, []
        self.parties, self.owner = {}, {}  # the first list of each party, and of each code
        self.without_zeros, self.profiles, self.other_candidates = {}, [], []

    def say(self, key, /, **given):
        return self.faults.texts.say(key, **given)

    def make(self):
        """The setup; without a meaning where there are faults."""
        self.take_profiles()
        self.take_constituencies()
        self.take_lists()
        self.give_codes()
        self.take_candidates()
        self.take_stations()
        for con in self.cons:
            self.check_constituency(con)
        self.check_persons()
        for table in self.tables.values():
            note_no_columns(table)
            self.notes += table.notes.values()
        return self.setup()

    # ---- what every table has

    def text(self, row, name):
        """A name of 1 to 80 bytes; an empty text and a fault where it is none."""
        text = row.table.value(row, name)
        if not text:
            row.fault("missing", field=self.column(row.table, name))
        elif not limits.is_name(text):
            row.fault(
                "name_long",
                field=self.column(row.table, name),
                bytes=len(text.encode()),
                most=limits.MOST_NAME_BYTES,
                name=text,
            )
        return text

    def column(self, table, name):
        """The columns of a field, as its table calls them."""
        parts = table.places.get(name, ())
        return ", ".join(table.header[place] for place, _, _ in parts if place is not None) or name

    def number(self, row, name, least, most, absent=None):
        """A whole number of a field, or None and a fault."""
        text = row.table.value(row, name)
        is_number = text.isascii() and text.isdigit()
        # (one of thousands of digits would not be read)
        if is_number and len(text) <= 18 and least <= int(text) <= most:
            return int(text)
        if text or absent is None:
            key = "out_of_range" if is_number else "not_number" if text else "missing"
            row.fault(key, field=self.column(row.table, name), value=text, least=least, most=most)
        return None if text else absent

    def word(self, row, name, words):
        text = row.table.value(row, name)
        if text and text not in words:
            row.fault(
                "bad_word", field=self.column(row.table, name), value=text, words=", ".join(words)
            )
        return text if text in words else None

    def is_new_code(self, code, row, seen, key="code_twice"):
        """Whether a code is one, and no other row of `seen` has it, in capitals or not."""
        if not limits.is_code(code):
            row.fault("not_code", value=code)
            return False
        other, at = seen.setdefault(code.lower(), (code, row))
        if at is row:
            return True
        row.fault(
            key if other == code else "capitals",
            value=code,
            other=other,
            file=at.table.file,
            row=at.number,
        )
        return False

    def constituency_of(self, row):
        """The constituency that a row names, or the only one."""
        table = row.table
        if not table.has("constituency"):
            return self.cons[0] if len(self.cons) == 1 else None
        text = table.code(row, "constituency")
        if not text:
            row.fault("missing", field=self.column(table, "constituency"))
            return None
        found = self.found_by.get(text) or self.found_by.get(folded(text))
        if found is None:
            self.no_constituency(row, text)
        return found

    def no_constituency(self, row, text):
        """The fault of a row whose constituency there is not. Where zeros in front are missing,
        here or in the table of constituencies, it says what puts them there."""
        near = self.without_zeros.get(text.lstrip("0"), "")
        known, is_here = self.tables["constituencies"], len(near) > len(text)
        table, name = (row.table, "constituency") if is_here else (known, "code")
        is_one = len(table.places.get(name, ())) == 1
        row.fault(
            "lost_zeros" if near and is_one else "no_constituency",
            value=text,
            other=near,
            file=known.file,
            table=table.name,
            field=name,
            column=self.column(table, name),
            digits=max(len(near), len(text)),
        )

    def note_once(self, key, /, **given):
        said = self.say(key, **given)
        if said not in self.notes:
            self.notes.append(said)

    # ---- constituencies

    def take_profiles(self):
        self.profiles = list(self.columns.get("profile", []))
        if self.rule:
            self.profiles = [RULES[self.rule], RULES_OF_ONE_SEAT[self.rule], *self.profiles]
        before = len(self.faults.found)
        self.check_profiles()
        if len(self.faults.found) > before:
            self.profiles = []
            return
        if not self.profiles:
            self.faults.add("columns.toml", None, "no_rule")
        for profile in self.profiles:
            for key in profile.keys() - {"code", "method", "threshold", "base", "lot"}:
                self.faults.add("columns.toml", None, "unknown_key", key=f"profile.{key}")

    def check_profiles(self):
        """The limits of rules, each fault in the language of the rest."""
        if len(self.profiles) > limits.MOST_PROFILES:
            self.faults.add("columns.toml", None, "too_many_profiles", most=limits.MOST_PROFILES)
        seen, words = set(), {"method": limits.METHODS, "base": limits.BASES, "lot": limits.LOTS}
        for number, profile in enumerate(self.profiles, 1 - 2 * bool(self.rule)):
            if not isinstance(profile, dict):
                self.faults.add("columns.toml", None, "bad_key", key="profile")
                continue
            for key in ("code", "method", "threshold", "base", "lot"):
                value = profile.get(key, limits.LOTS[0] if key == "lot" else None)
                said = {"number": number, "key": key, "value": value}
                if value is None:
                    self.faults.add("columns.toml", None, "profile_missing", **said)
                elif key == "code" and not limits.is_code(value):
                    self.faults.add("columns.toml", None, "not_code", value=value)
                elif key == "code" and value in seen:
                    self.faults.add("columns.toml", None, "profile_twice", **said)
                elif key == "threshold" and not is_whole(value, limits.MOST_THRESHOLD):
                    wanted = f"0 .. {limits.MOST_THRESHOLD}"
                    self.faults.add("columns.toml", None, "profile_value", **said, wanted=wanted)
                elif key in words and value not in words[key]:
                    wanted = ", ".join(words[key])
                    self.faults.add("columns.toml", None, "profile_value", **said, wanted=wanted)
            if isinstance(profile.get("code"), str):
                seen.add(profile["code"])

    def take_constituencies(self):
        table, seen = self.tables["constituencies"], {}
        others = other_columns(table)
        for row in table.rows:
            con = self.take_constituency(table, row, seen)
            con.others = {key: row.cells[place] for place, key in others if row.cells[place]}
            self.cons.append(con)
        # A name stands for a constituency where no code is the same, and no other has the name.
        names = Counter(folded(con.made["name"]) for con in self.cons)
        self.without_zeros = {code.lstrip("0"): code for code in self.found_by}
        for con in self.cons:
            name = folded(con.made["name"])
            if names[name] == 1:
                self.found_by.setdefault(name, con)
        for table in self.tables.values():
            if (
                len(self.cons) > 1
                and table.name != "constituencies"
                and not table.has("constituency")
            ):
                self.faults.add(table.file, 1, "no_constituency_column")

    def take_constituency(self, table, row, seen):
        name = self.text(row, "name")
        raw = table.code(row, "code")
        code = raw or self.made_code(name, seen)
        if self.is_new_code(code, row, seen) and not raw:
            self.notes.append(self.say("code_made", code=code, name=name))
        made = {
            "code": code,
            "name": name,
            "seats": self.number(row, "seats", 1, limits.MOST_SEATS),
        }
        made["profile"] = self.profile_of(row, made["seats"])
        entry = self.word(row, "entry", limits.ENTRIES) or self.entry
        size = self.word(row, "size", limits.SIZES)
        if entry == "double":
            made["entry"] = entry
        con = Constituency(row, made | ({"size": size} if size else {}))
        self.found_by.setdefault(code, con)
        return con

    def made_code(self, text, seen):
        """A code of the letters and digits of a text, which no other row has."""
        base = (code_letters(text).upper() or "X")[:16].strip("-")
        code, number = base, 1
        while code.lower() in seen:
            number += 1
            code = f"{base[:15 - len(str(number))]}-{number}"
        return code

    def profile_of(self, row, seats):
        text = row.table.value(row, "profile")
        if text:
            if text not in [profile["code"] for profile in self.profiles]:
                row.fault("unknown_profile", value=text)
            return text
        if self.rule:
            return (RULES_OF_ONE_SEAT if seats == 1 else RULES)[self.rule]["code"]
        if len(self.profiles) > 1:
            row.fault("which_profile")
        return self.profiles[0]["code"] if self.profiles else None

    # ---- lists

    def take_lists(self):
        table = self.tables["lists"]
        others = other_columns(table)
        for number, row in enumerate(table.rows, 1):
            con = self.constituency_of(row)
            text = table.value(row, "party") or table.value(row, "name")
            made = {"code": table.code(row, "code"), "name": self.text(row, "name")}
            kept = {key: row.cells[place] for place, key in others if row.cells[place]}
            one = PartyList(row, made, kept, party=party_key(text), text=text)
            order = self.number(row, "order", 0, 10**6) if table.has("order") else number
            one.order = 10**6 + number if order is None else order
            if con:
                self.add_list(con, one)
            if table.has("party") and not table.value(row, "party"):
                table.note("party_empty", self.column(table, "party"), row=row.number, value=text)

    def add_list(self, con, one):
        for other in con.lists:
            if one.party and one.party == other.party:
                one.row.fault("party_twice", value=one.text, row=other.row.number)
                return
            if one.order == other.order:
                one.row.fault("order_twice", value=one.order, row=other.row.number)
                return
        con.lists.append(one)

    def give_codes(self):
        """Gives each party one code everywhere: its own, one of `columns.toml`, or a new one."""
        lists = [one for con in self.cons for one in con.lists]
        for one in lists:
            self.parties.setdefault(one.party, one)
        asked = self.own_codes(self.parties.keys())
        given = dict(asked)
        for one in lists:
            one.made["code"] = one.made["code"] or asked.get(one.party, ("",))[0]
            self.take_code(one, given, asked)
        # (without the column of parties one has several codes, perhaps)
        taken = {code: one.party for code, one in self.owner.items()}
        taken |= {code.lower(): party for party, (code, _) in given.items()}
        for party in sorted(self.parties.keys() - given.keys()):
            wanted, code = self.made_code(party, {}), self.made_code(party, taken)
            if other := taken.get(wanted.lower()):
                self.note_once(
                    "other_code",
                    value=self.parties[party].text,
                    wanted=wanted,
                    other=self.parties[other].text,
                    code=code,
                )
            taken[code.lower()], given[party] = party, (code, None)
            self.codes_made[party] = code
        texts = {}
        for one in lists:
            one.made["code"] = one.made["code"] or given[one.party][0]
            other = texts.setdefault(one.party, one)
            if other.text != one.text and one.party in self.codes_made:
                self.note_once(
                    "same_party", value=one.text, other=other.text, code=one.made["code"]
                )
        self.note_two_codes(lists)
        for con in self.cons:
            self.check_codes(con)

    def note_two_codes(self, lists):
        """Notes a name of several codes, which are as many parties in a table without them."""
        found = defaultdict(dict)
        for one in lists:
            found[one.party].setdefault(one.made["code"].lower(), one)
        for first, *others in (list(codes.values()) for codes in found.values()):
            if others:
                self.note_once(
                    "name_two_codes",
                    value=first.text,
                    code=first.made["code"],
                    other=others[0].made["code"],
                )

    def own_codes(self, parties):
        """The codes of columns.toml, by the keys of parties: of the party that it writes, or else
        of each party that has these letters and digits, which is noted where there are two."""
        found, by_letters = {}, []
        for text, code in self.columns.get("codes", {}).items():
            if not limits.is_code(code):
                self.faults.add("columns.toml", None, "not_code", value=code)
                continue
            letters, keys = identity(text), {party_key(text)} & parties
            keys = keys or {one for one in parties if letters and identity(one) == letters}
            if not keys:
                self.note_once("code_unused", value=text, code=code)
            for party in keys:
                found[party] = (code, None)
            by_letters.append((code, sorted(keys)))
        for code, keys in by_letters:
            texts = [self.parties[party].text for party in keys if found[party][0] == code]
            for other in texts[1:]:
                self.note_once("code_two_names", value=other, other=texts[0], code=code)
        return found

    def take_code(self, one, given, asked):
        """Checks the code of a list in its table or in `asked`, those of columns.toml: its party
        has it everywhere, and no other, unless columns.toml gives it to both."""
        code = one.made["code"]
        if not code:
            return
        has_party = one.row.table.has("party")
        if not limits.is_code(code):
            one.row.fault("not_code", value=code)
        elif has_party and given.setdefault(one.party, (code, one.row))[0] != code:
            other, row = given[one.party]
            one.row.fault(
                "party_two_codes",
                value=one.text,
                code=code,
                other=other,
                row=row.number if row else "-",
            )
        else:
            first = self.owner.setdefault(code.lower(), one)
            by_columns = {first.party, one.party} & asked.keys()
            if len(by_columns) < 2 and not has_party:
                self.note_code(one, first)
            elif len(by_columns) < 2 and first.party != one.party:
                one.row.fault(
                    "code_by_columns" if by_columns else "code_two_parties",
                    code=code,
                    value=one.text,
                    other=first.text,
                    row=first.row.number,
                )
            given.setdefault(one.party, (code, one.row))

    def note_code(self, one, first):
        """Notes what a table without parties does not say: whether two lists are of one."""
        code, names = one.made["code"], {"value": one.text, "other": first.text}
        if code != first.made["code"]:
            self.note_once("codes_alike", code=code, first=first.made["code"], **names)
        elif one.party != first.party:
            self.note_once("code_two_names", code=code, **names)

    def check_codes(self, con):
        seen = {}
        for one in con.lists:
            other = seen.setdefault(one.made["code"], one)
            if other is not one:
                one.row.fault(
                    "code_twice",
                    value=one.made["code"],
                    file=one.row.table.file,
                    row=other.row.number,
                )

    # ---- candidates

    def take_candidates(self):
        table = self.tables["candidates"]
        self.other_candidates = other_columns(table)
        for number, row in enumerate(table.rows, 1):
            con = self.constituency_of(row)
            name = self.text(row, "name")
            one = con and list_of(self, con, row)
            is_substitute = self.is_substitute(row)
            place = (
                self.number(row, "order", 1, limits.MOST_CANDIDATES)
                if table.has("order")
                else number
            )
            if one and name and place is not None and is_substitute is not None:
                found = Candidate(
                    row,
                    {},
                    {key: row.cells[place] for place, key in self.other_candidates},
                    name,
                    is_substitute,
                    place,
                )
                self.add_candidate(one, found)

    def is_substitute(self, row):
        text = row.table.value(row, "kind").upper()
        words = {
            name: {word.upper() for word in self.rules.get(name, default)}
            for name, default in (
                ("candidate_words", CANDIDATE_WORDS),
                ("substitute_words", SUBSTITUTE_WORDS),
            )
        }
        if text in words["substitute_words"]:
            return True
        if text in words["candidate_words"]:
            return False
        row.fault("bad_kind", field=self.column(row.table, "kind"), value=text)
        return None

    def add_candidate(self, one, candidate):
        for other in one.candidates:
            if (other.is_substitute, other.place) == (candidate.is_substitute, candidate.place):
                candidate.row.fault("place_twice", value=candidate.place, row=other.row.number)
                return
        one.candidates.append(candidate)

    def check_places(self, one):
        """The places of a list have no gap, and its substitutes count from one or go on."""
        if not one.candidates[0].row.table.has("order"):
            return
        last = 0
        for is_substitute in (False, True):
            own = [found for found in one.candidates if found.is_substitute == is_substitute]
            first = last + 1 if own and own[0].place == last + 1 else 1
            for place, candidate in enumerate(own, first):
                if candidate.place != place:
                    candidate.row.fault(
                        "place_missing", place=place, value=candidate.place, code=one.made["code"]
                    )
                    return
            last = len(own)

    def check_persons(self):
        """No name twice in a constituency, and no identity twice at all. Rows that may be of one
        person, under two names or in two constituencies, are noted."""
        known = {folded(name): name for name in self.rules.get("namesakes", ())}
        persons, elsewhere, names = {}, {}, set()
        for con in self.cons:
            here = {}
            for one in con.lists:
                for candidate in one.candidates:
                    is_new, name = self.is_new_person(candidate, persons), folded(candidate.name)
                    names.add(name)
                    if is_new and name not in known:
                        self.check_name(candidate, here, elsewhere)
        for name, written in known.items():
            if name not in names:
                self.note_once("namesake_unused", value=written)

    def identity_of(self, candidate):
        row = candidate.row
        return identity(row.table.value(row, "person")).replace("-", "")

    def is_new_person(self, candidate, persons):
        """Whether no other row has the identity of a candidate."""
        row, person = candidate.row, self.identity_of(candidate)
        other = persons.setdefault(person, candidate) if person else candidate
        if other is not candidate:
            row.fault(
                "identity_twice",
                field=self.column(row.table, "person"),
                value=candidate.name,
                other=other.name,
                row=other.row.number,
            )
        return other is candidate

    def check_name(self, candidate, here, elsewhere):
        """Compares a name with those before it, unless both have identities, which differ."""
        row, name, words = candidate.row, folded(candidate.name), words_of(candidate.name)
        other = here.setdefault(name, candidate)
        if other is not candidate and not self.have_identities(other, candidate):
            key = "person_twice" if other.name == candidate.name else "person_twice_alike"
            row.fault(key, value=candidate.name, other=other.name, row=other.row.number)
            return
        other = elsewhere.setdefault(words, candidate)
        if other is not candidate and not self.have_identities(other, candidate):
            key = "namesake" if folded(other.name) == name else "namesake_alike"
            self.notes.append(
                self.say(
                    key,
                    value=candidate.name,
                    written=other.name,
                    row=row.number,
                    other=other.row.number,
                    file=row.table.file,
                )
            )

    def have_identities(self, *candidates):
        return all(map(self.identity_of, candidates))

    # ---- stations

    def take_stations(self):
        table, seen = self.tables["stations"], {}
        others = other_columns(table)
        has_code, numbers = table.has("code"), defaultdict(int)
        for row in table.rows:
            con = self.constituency_of(row)
            electors = self.number(row, "electors", 1, limits.MOST_ELECTORS)
            agents = self.number(row, "agents", 0, limits.MOST_AGENTS, absent=0)
            if electors and agents and electors + agents > limits.MOST_ELECTORS:
                row.fault("papers", most=limits.MOST_ELECTORS)
            code = table.code(row, "code")
            if has_code and not code:
                row.fault("missing", field=self.column(table, "code"))
            if con is None or has_code and not code:
                continue
            if not has_code:
                numbers[con.made["code"]] += 1
                code = f"{con.made['code']}-{numbers[con.made['code']]}"
            if self.is_new_code(code, row, seen) and electors and agents is not None:
                made = {"code": code, "electors": electors} | ({"agents": agents} if agents else {})
                con.stations.append(
                    Entry(row, made, {key: row.cells[at] for at, key in others if row.cells[at]})
                )
        if not has_code:
            for con in self.cons:
                if con.stations:
                    self.notes.append(
                        self.say(
                            "stations_made",
                            con=con.made["name"],
                            first=con.stations[0].made["code"],
                            last=con.stations[-1].made["code"],
                        )
                    )
        for con in self.cons:
            self.note_total(con)

    def note_total(self, con):
        """Notes a last station that may be the sum of the others, as a spreadsheet adds it."""
        *others, last = con.stations or [None]
        if not others:
            return
        code, electors = last.made["code"], sum(one.made["electors"] for one in others)
        if folded(code) in TOTALS or len(others) > 1 and last.made["electors"] == electors:
            self.note_once("total_row", file=last.row.table.file, row=last.row.number, code=code)

    # ---- the whole

    def check_constituency(self, con):
        if not con.lists:
            con.row.fault("no_list", con=con.made["code"])
        if len(con.lists) > limits.MOST_LISTS:
            con.lists[limits.MOST_LISTS].row.fault(
                "too_many_lists", con=con.made["code"], most=limits.MOST_LISTS
            )
        for one in con.lists:
            one.candidates.sort(key=lambda found: (found.is_substitute, found.place))
            self.check_list(con, one)
        con.lists.sort(key=lambda one: one.order)
        self.check_size(con)

    def check_list(self, con, one):
        code, number = one.made["code"], len(
            [found for found in one.candidates if not found.is_substitute]
        )
        substitutes = len(one.candidates) - number
        if not one.candidates:
            one.row.fault("no_candidate", code=code)
            return
        self.check_places(one)
        if len(one.candidates) > limits.MOST_CANDIDATES:
            one.row.fault("too_many_candidates", code=code, most=limits.MOST_CANDIDATES)
        seats, rule = con.made["seats"], self.rules.get("candidates", "seats or more")
        if seats and (rule != "any" and number < seats or rule == "seats" and number > seats):
            one.row.fault("candidates", code=code, number=number, seats=seats, con=con.made["code"])
        least, most = self.rules.get("substitutes", (0, limits.MOST_CANDIDATES))
        if not least <= substitutes <= most:
            one.row.fault("substitutes", code=code, number=substitutes, least=least, most=most)

    def check_size(self, con):
        number, size = len(con.stations), con.made.pop("size", None)
        if not number:
            con.row.fault("no_station", con=con.made["code"])
        elif number > limits.MOST_STATIONS[size or "large"]:
            con.row.fault(
                "too_many_stations",
                con=con.made["code"],
                number=number,
                most=limits.MOST_STATIONS[size or "large"],
            )
        elif number > limits.MOST_STATIONS["normal"]:
            con.made["size"] = "large"
        if sum(limits.papers(station.made) for station in con.stations) > limits.MOST_PAPERS:
            con.row.fault("too_many_electors", con=con.made["code"], most=limits.MOST_PAPERS)

    def setup(self):
        """The entries of the setup, in the order of the tables."""
        used = {con.made["profile"] for con in self.cons}
        profiles = [profile for profile in self.profiles if profile["code"] in used]
        return {"profile": profiles, "constituency": [self.entry_of(con) for con in self.cons]}

    def entry_of(self, con):
        kept = [key for _, key in self.other_candidates]
        lists = [
            one.made
            | {"candidates": [found.name for found in one.candidates]}
            | one.others
            | {
                f"x_candidates_{key.removeprefix('x_')}": [
                    found.others[key] for found in one.candidates
                ]
                for key in kept
            }
            for one in con.lists
        ]
        stations = [station.made | station.others for station in con.stations]
        return con.made | con.others | {"list": lists, "station": stations}


def is_whole(value, most):
    return type(value) is int and 0 <= value <= most
