"""The papers that a board signs: texts of a language, and what each template is given."""

import json
import re
import string
import tomllib
from collections import Counter
from datetime import datetime
from pathlib import Path
from zoneinfo import ZoneInfo

from papers_data import SPOILED, Refused, Unusable, gone_since, note_of
from press_parts import hundredths
from press_site import ABOUT, Site, check_values, read_about
from press_templates import Markup

HERE = Path(__file__).resolve().parent
# Another language is a file beside these, with the keys of the English one.
REFERENCE = "en"
# Columns of lists in a table of stations, on a sheet that lies: beside the sums, and in each
# further table.
WIDE_FIRST, WIDE = 10, 15
# Rows to write complaints, appeals, and other statements in.
ROOM_FOR_COMPLAINTS, ROOM_FOR_APPEALS, ROOM_FOR_MORE = 4, 2, 2
# Codes of lists that are longer are written upwards above their columns.
LONG_CODE = 8
# In the text of page numbers, where they are to be.
PAGE, PAGES = "\ue000", "\ue001"


# ---- the texts of a language


def language_file(language):
    return HERE / f"papers_{language}.toml"


def toml_of(file):
    try:
        return tomllib.loads(file.read_text(encoding="utf-8"))
    except (OSError, ValueError) as error:
        raise Unusable(f"{file}: {error}") from error


def places_of(text):
    """The names in braces of a text."""
    return {name for _, name, _, _ in string.Formatter().parse(text) if name is not None}


def fault_of(found, wanted, key=""):
    """The fault of the texts of a language beside those in English, or None."""
    if type(found) is not type(wanted):
        return f"{key.removesuffix('.')}: not of the kind that it has in English"
    if isinstance(wanted, dict):
        if other := sorted(found.keys() ^ wanted.keys()):
            lacks = other[0] in wanted
            return f"{key}{other[0]}: {'it is missing' if lacks else 'there is no such key'}"
        faults = (fault_of(found[name], wanted[name], f"{key}{name}{'.' * isinstance(text, dict)}")
                  for name, text in wanted.items())
        return next(filter(None, faults), None)
    if isinstance(wanted, list):
        right = len(found) == len(wanted) and all(isinstance(one, str) for one in found)
        return None if right else f"{key}: not {len(wanted)} texts"
    try:
        right = places_of(found) == places_of(wanted)
    except ValueError:
        right = False
    named = "".join(f" {{{name}}}" for name in sorted(places_of(wanted)))
    return None if right else f"{key}: its places are not{named or ' none'}"


def read_texts(language):
    """The texts of a language, which have the keys and the places of the English ones."""
    file, wanted = language_file(language), toml_of(language_file(REFERENCE))
    if not file.exists():
        raise Unusable(f"no texts of the language {language!r}: {file} is not there")
    found = toml_of(file)
    if fault := fault_of(found, wanted):
        raise Unusable(f"{file}: {fault}")
    return found


class Forms(Site):
    """The settings of the folder of the site, with the texts of papers in a language."""

    def __init__(self, folder, language=None, trial=False):
        super().__init__(folder)
        self.trial = trial
        if language:
            self.speak(folder, language)
        self.words = read_texts(self.language)
        self.templates.environment.filters |= {"in_style": in_style, "page_counters": counters}

    def speak(self, folder, language):
        """Takes another language than that of the site, and the texts that the site has in it."""
        self.language = language
        if folder:
            about = read_about(file := folder / "site.toml")
            check_values(file, own := about.get(language, {}))
            self.about = about | own
            self.templates.environment.globals["about"] = {
                key: self.about.get(key) for key in ABOUT}

    def board_of(self, con, *roles):
        """The members of the board of a constituency, each with its office in it; of these roles,
        where some are named."""
        return [{"name": one["name"], "role": self.words["roles"].get(one["role"], one["role"])}
                for one in self.about.get("board", ())
                if one.get("con", con) == con and (not roles or one["role"] in roles)]

    def signers(self, con, *roles):
        """Those of the board who sign; a president and a secretary without a name, where the site
        names none."""
        blank = [{"name": None, "role": self.words["roles"][role]}
                 for role in ("president", "secretary") if not self.board_of(con, role)]
        return self.board_of(con, *roles) + blank

    def when(self, time):
        """A moment of the record, in the zone of the site; in that of the record where the site has
        none."""
        moment = datetime.fromisoformat(time)
        if "timezone" in self.about:
            moment = moment.astimezone(ZoneInfo(self.about["timezone"]))
        zone = moment.strftime("%z")
        return self.say("moment", day=self.day(moment), hour=moment.strftime("%H:%M"),
                        zone=f"{zone[:3]}:{zone[3:]}")

    def refusal(self, refused):
        return self.words["refused"][refused.key].format(**refused.values)


def in_style(text):
    """A text as a style sheet has it."""
    letters = (letter if letter.isascii() and (letter.isalnum() or letter == " ")
               else f"\\{ord(letter):x} " for letter in text)
    return Markup(f'"{"".join(letters)}"')


def counters(text):
    """A text with the number of the page and of all pages, as a style sheet has it."""
    counted = {PAGE: Markup("counter(page)"), PAGES: Markup("counter(pages)")}
    return Markup(" ").join(counted.get(part) or in_style(part)
                            for part in re.split(f"([{PAGE}{PAGES}])", text))


# ---- what all papers have


def paper(forms, con, form, record):
    """The head and the foot of a paper."""
    of_record = (forms.say("foot_record", line=forms.number(record.number)) if record
                 else forms.say("foot_no_record"))
    day = forms.about.get("date")
    return {
        "con": con, "record": record, "form": forms.say(form),
        "day": forms.say("of_day", day=forms.day(day)) if day else forms.say("day_blank"),
        "foot": [forms.say("foot_hash", hash=con.hash),
                 forms.say("foot_edition", edition=con.edition,
                           closed=forms.number(len(con.closed)),
                           stations=forms.number(len(con.stations)), record=of_record)],
        "page": forms.say("page", page=PAGE, pages=PAGES)}


def done_at(forms):
    place = forms.about.get("place")
    return forms.say("done_at", place=place) if place else forms.say("done_at_blank")


def result(forms, con, by_hand=()):
    """The sums of a constituency, as rows of a text and a number; those that the office does not
    know, and that are written in by hand, have none."""
    voters = con.valid + con.spoiled
    turnout = forms.say("per_cent", share=forms.per_cent(hundredths(voters, con.electors)))
    rows = [("electors", forms.number(con.electors)), *((key, "") for key in by_hand),
            *([("agents", forms.number(con.agents))] if con.agents else []),
            ("voters", forms.number(voters)), ("turnout", turnout),
            ("valid", forms.number(con.valid)),
            ("of_lists", forms.number(sum(con.votes.values()))),
            ("blank", forms.number(con.blank)), ("spoiled", forms.number(con.spoiled))]
    return [(key, forms.say(key), number) for key, number in rows]


def list_rows(forms, con):
    """The lists with their votes, shares and seats, in the order of the setup."""
    return [{"place": place, "code": one["code"], "name": one["name"],
             "votes": forms.number(con.votes[place]),
             "share": forms.say("per_cent", share=forms.per_cent(con.share(con.votes[place]))),
             "takes_part": forms.say("yes" if place in con.eligible else "no"),
             "seats": forms.number(con.given.get(place, 0))}
            for place, one in enumerate(con.lists, 1)]


def threshold(forms, con):
    least = con.setup["rule"]["threshold"]
    if not least:
        return forms.say("no_threshold")
    return forms.say("threshold", share=forms.per_cent(least))


def in_order(forms, codes):
    """Lists in the order of a lot, as a text."""
    return ", ".join(forms.say("lot_place", place=n, list=code)
                     for n, code in enumerate(codes, 1))


def lot(forms, con, record):
    """The text on the lot: one sentence or more."""
    if not con.eligible:
        return [forms.say("lot_no_list")]
    if not con.lot:
        needed = ", ".join(con.lists[place - 1]["code"] for place in con.lot_needed)
        return [forms.say("lot_missing", lists=needed) if needed else forms.say("lot_none")]
    order = [con.lists[place - 1]["code"] for place in con.lot]
    found = [forms.say("lot_drawn", lists=in_order(forms, order))]
    rule = con.setup["rule"]
    if rule.get("lot") == "alternating" and rule["method"] != "hare":
        found.append(forms.say("lot_turned"))
    drawn = record.events_of(con, "draw") if record else []
    # (another one that was drawn past the record, after a query that the record lacks too, may have
    # the same order and has another moment)
    is_other = bool(drawn) and record.lacks_edition_of(con) and record.lost_of(con)
    if drawn and not is_other and list(record.lots[con.code][-1][1]) == order:
        found.append(forms.say("lot_when", moment=forms.when(drawn[-1].time)))
    return found


def lost(forms, con, record):
    """The acts that the copy has and the record lacks: the stations, the edition, and who is gone;
    an empty text where there are none."""
    if not record:
        return {"lost": "", "lost_edition": "", "lost_gone": ""}
    edition = forms.number(con.edition) if record.lacks_edition_of(con) else ""
    gone = [f"{con.lists[place - 1]['code']} {order}" for place, order in record.lost_gone_of(con)]
    return {"lost": ", ".join(record.lost_of(con)), "lost_edition": edition,
            "lost_gone": ", ".join(gone)}


def withdrawn(forms, con):
    """The proclamations that were withdrawn, each with its seats."""
    return [forms.say("withdrawn_of", edition=edition, seats=", ".join(
        f"{con.lists[place - 1]['code']} {n}" for place, n in seats.items()))
        for edition, seats in con.past.items()]


# ---- the act of the general count


def changes(forms, con, correction):
    """The figures that a correction changed, as a text: each before it and after it."""
    before, after = correction
    if not before or not after:
        return forms.say("unknown_entry")
    names = {0: forms.say("short_blank"), SPOILED: forms.say("short_spoiled"),
             **{place: one["code"] for place, one in enumerate(con.lists, 1)}}
    old, new = dict(before[1]), dict(after[1])
    pairs = [(names.get(item, item), forms.number(old.get(item, 0)), forms.number(new.get(item, 0)))
             for item in sorted(old.keys() | new.keys()) if old.get(item) != new.get(item)]
    pairs += [(forms.say("slip"), before[0], after[0])] if before[0] != after[0] else []
    return "; ".join(forms.say("changed", what=what, before=before, after=after)
                     for what, before, after in pairs) or forms.say("changed_nothing")


def incident(forms, con, record, one):
    """An incident by its command: what was done, why, and when and by whom."""
    said = {"query": "query_of", "correct": "correction_of", "draw": "draw_of",
            "reopen": "reopening_of"}[one.what]
    if one.what == "correct":
        why = changes(forms, con, record.corrections[one.number])
    elif one.what == "draw":
        why = in_order(forms, json.loads(one.body)["order"])
    else:
        why = note_of(one)
    return (forms.words[said].format(station=one.code), why,
            forms.say("by_and_when", name=one.name, moment=forms.when(one.time)))


def incidents(forms, con, record):
    """Queries, corrections, lots and reopenings: what, why, when and by whom. What the record does
    not have is there from the copy, without its moment."""
    queries, corrected, drawn, reopened = (
        record.events_of(con, what) if record else []
        for what in ("query", "correct", "draw", "reopen"))
    known = {(one.code, note_of(one)) for one in queries + reopened}
    found = [(forms.say("query_of", station=one.station), one.note, None) for one in con.returns
             if one.note and (one.station, one.note) not in known]
    if con.note and (con.code, con.note) not in known:
        found.append((forms.say("reopening_of"), con.note, None))
    of_record = sorted(queries + corrected + drawn + reopened, key=lambda one: one.number)
    return [*(incident(forms, con, record, one) for one in of_record), *found]


def annex(forms, con):
    """The returns of the stations as tables: heads and rows, with the sums in the last row."""
    keys = ["electors", *(["agents"] if con.agents else []), "voters", "spoiled", "valid", "blank"]
    of_setup = {station["code"]: station for station in con.stations}
    sums, votes = [], []
    for one in con.returns:
        station = of_setup[one.station]
        values = {"electors": station["electors"], "agents": station.get("agents", 0),
                  "voters": one.papers, "spoiled": one.spoiled, "valid": one.valid,
                  "blank": one.blank}
        sums.append([values[key] for key in keys])
        votes.append(one.votes)
    heads = [forms.say(f"short_{key}") for key in keys]
    codes = [one["code"] for one in con.lists]
    parts = [(heads + codes[:WIDE_FIRST],
              [row + more[:WIDE_FIRST] for row, more in zip(sums, votes)])]
    parts += [(codes[start:start + WIDE], [row[start:start + WIDE] for row in votes])
              for start in range(WIDE_FIRST, len(codes), WIDE)]
    names = [(one.station, forms.names.get(one.station)) for one in con.returns]
    return [{"heads": heads, "long": max(map(len, heads)) > LONG_CODE,
             "rows": [(*name, list(map(forms.number, row))) for name, row in zip(names, rows)],
             "sums": [forms.number(sum(column)) for column in zip(*rows)]}
            for heads, rows in parts]


def act_of_count(forms, con, record):
    """The values for the template of the act of the general count."""
    if con.left:
        raise Refused("not_closed", con=con.code, left=con.left, stations=len(con.stations))
    key = "count_said_one" if len(con.stations) == 1 else "count_said"
    said = forms.said(key, con=forms.templates.name(con.setup["name"]),
                      stations=forms.number(len(con.stations)))
    return {**paper(forms, con, "count_form", record), "said": said,
            "board": forms.board_of(con.code), "signers": forms.signers(con.code),
            "result": result(forms, con, by_hand=("certificates",)),
            "lists": list_rows(forms, con),
            "threshold": threshold(forms, con), "lot": lot(forms, con, record),
            "incidents": incidents(forms, con, record), "withdrawn": withdrawn(forms, con),
            **lost(forms, con, record), "room": ROOM_FOR_COMPLAINTS, "more": ROOM_FOR_MORE,
            "done_at": done_at(forms), "annex": annex(forms, con)}


# ---- the act of proclamation


def gone_of(forms, con, wanted):
    """Who of these is gone, and why."""
    return [forms.said("gone_of", list=con.lists[place - 1]["code"], order=order,
                       name=forms.templates.name(con.lists[place - 1]["candidates"][order - 1]),
                       note=forms.templates.name(note))
            for (place, order), note in con.gone.items() if (place, order) in wanted]


def holders(forms, con, since):
    """Who has a seat in the place of those who are gone since the certificate, and the seats for
    which nobody is left."""
    added = Counter(con.elected(con.gone)) - Counter(con.elected(con.gone.keys() - (since or ())))
    return [forms.said("holder_of", list=con.lists[place - 1]["code"], order=order,
                       name=forms.templates.name(name)) if order
            else forms.said("holder_none", list=con.lists[place - 1]["code"])
            for place, order, name in added.elements()]


def act_of_proclamation(forms, con, record):
    """The values for the template of the act of proclamation."""
    if not con.certified:
        raise Refused("not_certified", con=con.code)
    key = "proclamation_said_one" if con.setup["seats"] == 1 else "proclamation_said"
    said = forms.said(key, con=forms.templates.name(con.setup["name"]),
                      seats=forms.number(con.setup["seats"]),
                      method=forms.words["methods"][con.setup["rule"]["method"]])
    since = gone_since(con, record)
    before = con.gone.keys() - (since or ())
    elected = [{"seat": forms.number(seat), "list": con.lists[place - 1], "order": order,
                "name": name} for seat, (place, order, name) in enumerate(con.elected(before), 1)]
    gone = gone_of(forms, con, before)
    return {**paper(forms, con, "proclamation_form", record), "said": said,
            "board": forms.board_of(con.code),
            "signers": forms.signers(con.code, "president", "secretary"),
            "result": result(forms, con), "lists": list_rows(forms, con),
            "threshold": threshold(forms, con), "lot": lot(forms, con, record),
            "elected": elected, "gone": gone, "gone_unknown": since is None,
            "gone_since": gone_of(forms, con, since or ()), "holders": holders(forms, con, since),
            "withdrawn": withdrawn(forms, con), **lost(forms, con, record),
            "room": ROOM_FOR_COMPLAINTS, "appeals": ROOM_FOR_APPEALS, "more": ROOM_FOR_MORE,
            "done_at": done_at(forms), "total": forms.number(sum(con.given.values()))}


# ---- the doubles of returns


def by_and_when(forms, who):
    return forms.say("by_and_when", name=who[0], moment=forms.when(who[1])) if who else None


def double(forms, con, one, station, record):
    """The values of the return of a station, and who entered it."""
    first, second, twice = record.typed(one) if record else (None, None, False)
    twice = twice or con.setup.get("entry") == "double"
    unknown = forms.say("unknown_entry" if record else "without_record")
    figures = [(one_list["code"], one_list["name"], forms.number(votes))
               for one_list, votes in zip(con.lists, one.votes)]
    return {"station": one.station, "name": forms.names.get(one.station), "slip": one.slip,
            "revision": one.revision, "note": one.note, "figures": figures,
            "electors": forms.number(station["electors"]),
            "agents": forms.number(station["agents"]) if station.get("agents") else None,
            "sums": [(forms.say(key), forms.number(number)) for key, number in (
                ("of_lists", sum(one.votes)), ("blank", one.blank), ("valid", one.valid),
                ("spoiled", one.spoiled), ("papers", one.papers))],
            "entries": [("entered_by", by_and_when(forms, first) or unknown),
                        ("confirmed_by" if twice else "closed_by",
                         by_and_when(forms, second) or unknown)]}


def doubles(forms, con, record, stations=()):
    """The values for the template of doubles: the closed returns of a constituency, or those of
    some stations."""
    closed = {one.station: one for one in con.closed}
    if lost := [station for station in stations if station not in closed]:
        raise Refused("station_not_closed", station=lost[0])
    if not closed:
        raise Refused("none_closed", con=con.code)
    wanted = [one for one in con.closed if not stations or one.station in stations]
    of_setup = {station["code"]: station for station in con.stations}
    return {**paper(forms, con, "double_form", record),
            "doubles": [double(forms, con, one, of_setup[one.station], record) for one in wanted]}
