"""The files for programs: CSV and JSON of what `press.py` read, with what describes them."""

import contextlib
import csv
import hashlib
import io
import json
import re
import tomllib
import unicodedata
import uuid
import xml.etree.ElementTree as ET

from press_files import moment_in, put, text_of_another, vouched
from press_names import isolated
from press_results import counted_share, provisional_seats

# Of the form of the files. The first number is raised when something goes or means something else,
# the second when something is added.
VERSION = "2.3.0"

# In the name of a file of returns, in the place of the edition of a certificate.
OPEN = "open"
# The acts that deploy/papers makes, as the names of their files begin, and how many digits of the
# hash of the returns in them.
ACTS, OF_HASH = ("count", "proclamation"), 12

# ---- what a field may be, in the words of JSON Schema, and the fields of each table

CODE, TEXT, FLAG = {"type": "string", "pattern": "^[A-Za-z0-9_-]{1,16}$"}, {"type": "string"}, {"type": "boolean"}
COUNT, FROM_ONE = ({"type": "integer", "minimum": least} for least in (0, 1))
EDITION = FROM_ONE | {"maximum": 9999}
HASH = {"type": "string", "pattern": "^[0-9a-f]{64}$"}
MOMENT = {"type": "string", "pattern": r"^\d{4}-\d\d-\d\dT\d\d:\d\d:\d\d[+-]\d\d:\d\d$"}


def described(kind, words):
    return kind | {"description": words}


EDITION_NOW = described(EDITION, "Edition of the constituency, which each lot, certificate and reopening raises.")
CERTIFIED = described(FLAG, "Whether a certificate is in force.")
BLANK = described(COUNT, "Blank votes of closed returns. They are valid.")
SPOILED = described(COUNT, "Spoiled votes of closed returns. They are not valid.")
PROGRESS = {
    "con": described(CODE, "Code of the constituency."), "stations": described(COUNT, "Stations."),
    "missing": described(COUNT, "Stations without a return."), "received": described(COUNT, "Returns that are received and no more."),
    "queried": described(COUNT, "Returns with a query that is open."), "corrected": described(COUNT, "Returns that were corrected."),
    "closed": described(COUNT, "Returns that are closed. Only their votes count."), "edition": EDITION_NOW, "certified": CERTIFIED,
}
LIST = {
    "list": described(CODE, "Code of the list."), "name": described(TEXT, "Name of the list."),
    "votes": described(COUNT, "Votes of closed returns."),
    "share": described(TEXT | {"pattern": r"^\d{1,3}\.\d\d$"}, "Per cent of the votes that the rule takes as its base, rounded down."),
    "takes_part": described(FLAG, "Whether the list has votes and reaches the threshold."),
    "seats": described(COUNT, "Seats that the certificate gives the list; missing without a certificate."),
    "provisional": described(COUNT, "Seats of the list if the votes that are closed were all the votes: the result where there is a certificate, and "
                             "nowhere else. Missing before the first closed return, and where they are not published."),
}
RESULTS = {
    "con": PROGRESS["con"], "con_name": described(TEXT, "Name of the constituency."),
    **{key: PROGRESS[key] for key in ("stations", "closed", "edition", "certified")},
    "electors": described(COUNT, "Electors of all stations of the constituency, those without a closed return among them; missing without a setup."),
    "valid": described(COUNT, "Valid votes of closed returns, blank ones among them."), "blank": BLANK, "spoiled": SPOILED, **LIST,
}
RECORD = {
    "time": described(TEXT, "When the recorder wrote the line."), "lines": described(COUNT, "Lines of the record of commands."),
    "sha256": described(HASH, "SHA-256 of the last line. Each line has that of the line before it."),
}
STATION = {
    "station": described(CODE, "Code of the station."), "slip": described(CODE, "Code of the paper that the return is from."),
    "blank": described(COUNT, "Blank votes."), "spoiled": described(COUNT, "Spoiled votes."),
}
PLACE = {
    "place": described(TEXT, "Name of the place."), "stations": described(COUNT, "Stations of the place."),
    "closed": described(COUNT, "Returns of these that are closed. Only their votes count."),
    "electors": described(COUNT, "Electors of the stations whose returns are closed."), "blank": BLANK, "spoiled": SPOILED,
}


ELECTED = {
    "con": PROGRESS["con"], "con_name": RESULTS["con_name"], "list": LIST["list"],
    "seat": described(FROM_ONE, "Which of the list’s seats in the constituency it is."),
    "order": described(FROM_ONE, "Place of the candidate within the list; missing where the seat is empty."),
    "candidate": described(TEXT, "Name of the candidate; missing where the seat is empty."),
}


# ---- the JSON files, as JSON Schema (draft 2020-12)


def an_object(fields, *optional):
    """An object of these fields and no others, each of which is there but for the optional ones."""
    return {"type": "object", "properties": fields, "required": [name for name in fields if name not in optional],
            "additionalProperties": False}


def an_array(items):
    return {"type": "array", "items": items}


def or_null(kind):
    return kind | {"type": [kind["type"], "null"]}


OF_LIST = {"list": LIST["list"]}
VOTES = described(COUNT, "Votes in the unit of the rule.")
HEAD = {"version": {"const": VERSION}, "time": described(MOMENT, "Since when the file says this.")}
ENTRY = described({"const": "double"}, "There where a return is closed by its second entry alone.")
VIEW = an_object({
    "blank": BLANK, "certified": CERTIFIED, "closed": PROGRESS["closed"], "con": PROGRESS["con"], "edition": EDITION_NOW,
    "entry": ENTRY,
    "gone": described(an_array(an_object(OF_LIST | {"note": TEXT, "place": FROM_ONE})), "Candidates who are gone."),
    "lot": described(an_array(CODE), "Lists in the order of the lot that was drawn, or none."),
    "note": described(TEXT, "Note of the last reopening, or empty."),
    "seats": described(an_array(COUNT), "In the order of the lists; none without a certificate."), "spoiled": SPOILED,
    "stations": PROGRESS["stations"], "votes": described(an_array(COUNT), "In the order of the lists."),
}, "entry")
TALLY = an_object({
    "name": RESULTS["con_name"], **{key: RESULTS[key] for key in ("stations", "closed", "valid", "blank", "spoiled")},
    "lists": an_array(an_object({"code": CODE, **{key: LIST[key] for key in ("name", "votes", "share")},
                                 "eligible": LIST["takes_part"]})),
})
PAST = an_array(an_object({"edition": EDITION, "lists": an_array(an_object({"code": CODE, "seats": COUNT, "name": TEXT}))}))
REPORTS = {
    "tally": TALLY, "past": described(PAST, "The certificates that were reopened, and are withdrawn."),
    "seats": an_object({"edition": EDITION, "total": COUNT, "seats": {"type": "object", "additionalProperties": COUNT}}),
    "holders": an_array(an_object(OF_LIST | {
        "place": described(or_null(FROM_ONE), "Of the candidate within the list; null where a seat is empty."), "name": or_null(TEXT)})),
    "quotients": an_array(an_object(OF_LIST | {"quotients": described(
        an_array(an_object({"quotient": COUNT, "won": FLAG})), "For the first seat, the second and so on, rounded down.")})),
    "awards": described(an_array(an_object({
        "seat": FROM_ONE, **OF_LIST, "of_list": described(FROM_ONE, "Which of the list’s seats it is."), "votes": VOTES,
        "divisor": FROM_ONE, "quotient": described(COUNT, "Rounded down; the rule compares it whole.")})), "The seats in the order of their award."),
    "short": an_array(an_object(OF_LIST | {"seats": COUNT, "short": described(
        or_null(COUNT), "Votes that it lacked for one seat more, whatever lot is drawn, with the same other votes and eligible lists.")})),
    "quota": an_object({"votes": COUNT, "seats": COUNT, "lists": an_array(an_object(OF_LIST | {
        "votes": VOTES, "whole": COUNT, "remainder": COUNT, "seats": COUNT}))}),
}
RULE = {
    "seats": described(COUNT, "Seats of the constituency."), "method": {"enum": ["dhondt", "sainte-lague", "modified-sainte-lague", "hare"]},
    "threshold": described(COUNT, "In hundredths of a per cent."), "base": {"enum": ["valid", "lists"]},
    "lot_rule": described({"enum": ["fixed", "alternating"]},
                          "Alternating: the order of a lot is turned round for the second, fourth, .. seat of its lists, but not under hare."),
}
PROVISIONAL = described(an_object({
    "status": described({"enum": ["certified", "open", "lot", "no_eligible"]}, "Open: the votes that are closed, or these and the lot, decide."),
    "question": described(COUNT, "Seats that a lot would decide, which no list has here."),
    "group": described(an_array(CODE), "The lists among which it would decide them."),
    "seats": {"type": "object", "additionalProperties": COUNT},
}), "Seats if the votes that are closed were all the votes: the result where there is a certificate, and nowhere else.")
LOT = an_object({key: PROVISIONAL["properties"][key] for key in ("question", "group")})
LOT_NEEDED = described(LOT, "The lot that is needed where all is counted; there where no provisional seats are published, and no lot was drawn.")
IF_CERTIFIED = ("seats", "holders", "quotients", "awards", "short", "quota")
SCHEMAS = {
    "index": ("The progress of all constituencies: index.json", an_object(HEAD | {"constituencies": an_array(an_object(PROGRESS))})),
    "con": ("A constituency: con-CODE.json", an_object(
        HEAD | {"progress": an_object(PROGRESS), "view": described(VIEW, "What GET /con/CODE shows."), "rule": an_object(RULE),
                "provisional": PROVISIONAL, "lot_needed": LOT_NEEDED, **REPORTS}, "provisional", "lot_needed", *IF_CERTIFIED)),
    "setup": ("The setup of the election: setup.json", an_array(an_object({
        "code": PROGRESS["con"], "name": RESULTS["con_name"], **{key: kind for key, kind in RULE.items() if key != "lot_rule"},
        "lot": RULE["lot_rule"], "entry": ENTRY,
        "lists": an_array(an_object({"code": CODE, "name": TEXT, "candidates": an_array(TEXT)})),
        "stations": an_array(an_object({"code": CODE, "electors": COUNT, "agents": described(
            COUNT, "Those who may vote there beyond its electors; missing where there are none.")}, "agents"))}, "entry"))),
    "find": ("The names that the search of the first page finds: find.json", an_object(
        {"version": HEAD["version"], "constituencies": an_array(an_object({
            "con": PROGRESS["con"], "name": RESULTS["con_name"],
            "places": described(an_array(TEXT), "Names of places: that of the first has the page place-CODE-1.html, and so on."),
            "stations": described(an_array(CODE), "Codes of stations."), "names": described(an_array(TEXT), "Their names, or empty texts."),
            "starts": described(an_array(COUNT), "How many stations are before the first one of each page of stations.")}))})),
    "manifest": ("All files: manifest.json", an_object(
        {"version": HEAD["version"], "time": described(MOMENT, "When the office was last asked. Of the files for programs this one alone is new each time."),
         "record": described(an_object(RECORD), "The record of commands at that time."),
         "files": described({"type": "object", "additionalProperties": HASH}, "The SHA-256 of each file.")}, "record")),
}


def schemas():
    """The schema of each JSON file by its name: of con-CODE.json it is con.schema.json."""
    return {f"{name}.schema.json": json_text({"$schema": "https://json-schema.org/draft/2020-12/schema", "title": title, **schema})
            for name, (title, schema) in SCHEMAS.items()}


# ---- the CSV files, as a data package (Frictionless)

# In CSV a share is a number, a time a time, and this flag a word. In JSON a share is a text, with
# its zeros, and a name is as it is.
QUOTED = ("One that begins with = + - or @, also in another width or after white space, has an "
          "apostrophe in front.")
IN_CSV = {"share": {"type": "number"}, "time": {"type": "datetime"}, "takes_part": {"type": "boolean", "trueValues": ["yes"], "falseValues": ["no"]},
          "name": {"description": f"{LIST['name']['description']} {QUOTED}"},
          "candidate": {"description": f"{ELECTED['candidate']['description']} {QUOTED}"},
          "place": {"description": f"{PLACE['place']['description']} {QUOTED}"},
          "con_name": {"description": f"{RESULTS['con_name']['description']} {QUOTED}"}}


def table_field(name, kind):
    """A field as Table Schema has it: what JSON Schema says of a value is a constraint there."""
    found = {key: kind[key] for key in ("type", "description")}
    if name in IN_CSV:
        return {"name": name, **found, **IN_CSV[name]}
    bounds = {key: kind[key] for key in ("pattern", "minimum", "maximum") if key in kind}
    return {"name": name, **found, **({"constraints": bounds} if bounds else {})}


def resource(file, words, fields, *key, **more):
    return {"name": file.removesuffix(".csv"), "type": "table", "path": file, "description": words, "format": "csv",
            "mediatype": "text/csv", "encoding": "utf-8", "schema": {
                "fields": [table_field(name, kind) for name, kind in fields.items()], "primaryKey": list(key), **more}}


def resource_of(file, cons):
    """The kind of a CSV file, by its name."""
    if file.name == "index.csv":
        return resource(file.name, "The progress of all constituencies.", PROGRESS, "con")
    if file.name == "results.csv":
        return resource(file.name, "Votes and seats of all constituencies.", RESULTS, "con", "list",
                        foreignKeys=[{"fields": ["con"], "reference": {"resource": "index", "fields": ["con"]}}])
    if file.name == "elected.csv":
        return resource(file.name, "Who holds the seats of certified constituencies.", ELECTED, "con", "list", "seat")
    if file.name == "record.csv":
        return resource(file.name, "The heads of the record of commands that were shown.", RECORD, "lines", "sha256")
    if found := re.fullmatch(r"con-(.+)\.csv", file.name):
        return resource(file.name, f"Votes and seats of {named(found[1], cons)}.", LIST, "list")
    if found := re.fullmatch(r"places-(.+)\.csv", file.name):
        return resource(file.name, f"Votes in the places of {named(found[1], cons)}.", PLACE | lists_in(file, found[1], cons, len(PLACE)), "place")
    if found := re.fullmatch(rf"stations-(.+)-(\d+|{OPEN})\.csv", file.name):
        lists = lists_in(file, found[1], cons, len(STATION))
        which = "that are closed so far" if found[2] == OPEN else f"of edition {found[2]}"
        return resource(file.name, f"The returns {which} of {named(found[1], cons)}.", STATION | lists, "station")
    return None


def lists_in(file, code, cons, first):
    """The columns of lists of a file, from this one on; none of one that somebody else emptied, or that cannot be read."""
    codes = []
    with contextlib.suppress(PermissionError), file.open(encoding="utf-8", errors="replace", newline="") as lines:
        codes = next(csv.reader(lines), [])[first:]
    names = {row["code"]: row["name"] for row in cons[code]["tally"]["lists"]} if code in cons else {}
    return {of: described(COUNT, f"Votes of {names.get(of, of)}.") for of in codes}


def named(code, cons):
    return cons[code]["tally"]["name"] if code in cons else code


def title_of(site):
    return site.about.get("title", site.say("title"))


def datapackage(files, cons, site):
    """The descriptor of the CSV files among these. The names of lists are those of the constituencies that are known."""
    licence, authority = site.about.get("licence"), site.about.get("authority")
    return json_text({
        "$schema": "https://datapackage.org/profiles/2.0/datapackage.json", "title": title_of(site), "version": VERSION,
        **({"licenses": [{"path" if ":" in licence else "name": licence}]} if licence else {}),
        **({"contributors": [{"title": authority, "roles": ["publisher"]}]} if authority else {}),
        "resources": [found for file in files if (found := resource_of(file, cons))]})


# ---- the setup


def read_setup(file):
    """The parts of a setup file that the pages and the clerks need."""
    return parts_of_setup(tomllib.loads(file.read_bytes().decode("utf-8-sig")))


def parts_of_setup(setup):
    """Per constituency its names, its rule, whether returns are entered twice, and its stations."""
    profiles = {profile["code"]: profile for profile in setup["profile"]}
    found = []
    for con in setup["constituency"]:
        profile = {"lot": "fixed"} | profiles[con["profile"]]
        rule = {key: profile[key] for key in ("method", "threshold", "base", "lot")}
        lists = [{key: row[key] for key in ("code", "name", "candidates")} for row in con["list"]]
        stations = [{"code": row["code"], "electors": row["electors"]} | ({"agents": row["agents"]} if row.get("agents") else {})
                    for row in con["station"]]
        entry = {"entry": "double"} if con.get("entry") == "double" else {}
        found.append({"code": con["code"], "name": con["name"], "seats": con["seats"], **rule, **entry, "lists": lists,
                      "stations": stations})
    return found


# ---- the CSV files


def csv_text(heads, rows):
    out = io.StringIO()
    csv.writer(out, lineterminator="\n").writerows(
        [heads, *([str(cell).lower() if isinstance(cell, bool) else cell for cell in row] for row in rows)])
    return out.getvalue()


# What begins a formula, after white space and what no reader sees; in the form of any width (NFKC).
FORMULA = re.compile(r"[\s\u00ad\u200b-\u200f\u202a-\u202e\u2060-\u206f\ufeff]*[=+\-@]")


def in_a_cell(name):
    """A name that a spreadsheet shows, whatever it begins with: it would compute a formula."""
    return f"'{name}" if FORMULA.match(unicodedata.normalize("NFKC", name)) else name


def list_rows(con):
    given = [con[of]["seats"] if of in con else {} for of in ("seats", "provisional")]
    return [[row["code"], in_a_cell(row["name"]), row["votes"], row["share"], "yes" if row["eligible"] else "no",
             *(seats.get(row["code"], "") for seats in given)] for row in con["tally"]["lists"]]


def con_csv(con):
    return csv_text(LIST, list_rows(con))


def results_csv(cons, setup):
    """Votes and seats of all constituencies that are known, in one table."""
    def of_con(code, con):
        electors = sum(station["electors"] for station in setup[code]["stations"]) if code in setup else ""
        return [code, in_a_cell(con["tally"]["name"]), *(con["view"][key] for key in ("stations", "closed", "edition", "certified")), electors,
                *(con["tally"][key] for key in ("valid", "blank", "spoiled"))]

    return csv_text(RESULTS, [of_con(code, con) + row for code, con in cons.items() for row in list_rows(con)])


def index_csv(progress):
    return csv_text(PROGRESS, [[row[key] for key in PROGRESS] for row in progress])


# A line of record.csv.
SHOWN = re.compile(r'[^,"\s]{1,40},[0-9]{1,15},[0-9a-f]{1,64}')


def shown_heads(data):
    """The heads of the record of commands that were shown, by the bytes of their file, and how many
    of its lines are none, which are left out: as where a disk has cut one."""
    columns = ",".join(RECORD)
    *lines, last = data.decode(errors="replace").split("\n")
    rows = [line for line in lines if SHOWN.fullmatch(line)]
    wrong = sum(line != columns for line in lines) - len(rows) + bool(last)
    return "".join(f"{line}\n" for line in (columns, *rows)), wrong


def record_csv(before, head):
    """The heads that were shown before, with one more."""
    row = ",".join(str(head[key]) for key in ("time", "n", "hash"))
    if type(head["n"]) is not int or not SHOWN.fullmatch(row):
        raise ValueError("it is no head of a record")
    return before if before.endswith(f",{head['n']},{head['hash']}\n") else f"{before}{row}\n"


def goes_on(before, head):
    """Whether a head of the record can follow on those that were shown: it has more lines than each, or is the same."""
    shown = csv.DictReader(io.StringIO(before, newline=""))
    return all(int(row["lines"]) < head["n"] or (int(row["lines"]), row["sha256"]) == (head["n"], head["hash"]) for row in shown)


def put_head(folder, file, failures):
    """Adds the head of the record of commands to those that were shown; the head, or None where there is none. What is wrong with
    either is one of the failures."""
    shown = folder / "record.csv"
    try:
        head = json.loads(text_of_another(file))
        before, wrong = shown_heads(shown.read_bytes() if shown.exists() else b"")
        text = record_csv(before, head)
        if wrong:
            failures.append(f"{shown}: {wrong} of its lines are no heads of a record, and are left out")
        # A recorder that found another record than was shown says so in its head.
        head["whole"] = goes_on(before, head) and not head.get("fault")
        if not head["whole"]:
            failures.append(f"{file}: line {head['n']} is the last of the record, and {shown} has more, or another")
    except (OSError, ValueError, KeyError, TypeError, AttributeError, RecursionError) as error:
        failures.append(f"{getattr(error, 'filename', None) or file}: {error!r}")
        return None
    put(folder, "record.csv", text)
    return head


def returns_csv(lists, returns):
    """Rows of returns, in the form in which they are imported."""
    return csv_text([*STATION, *lists], returns)


def returns_in(text):
    """The columns and the rows of returns in this form."""
    columns, *returns = csv.reader(io.StringIO(text, newline=""))
    return columns, returns


def adds_up(text, view):
    """Whether returns are as many as are closed in a constituency, with their sums."""
    try:
        _, returns = returns_in(text)
        sums = [sum(map(int, column)) for column in zip(*(row[2:] for row in returns))]
    except ValueError:
        return False
    return len(returns) == view["closed"] and sums == [view["blank"], view["spoiled"], *view["votes"]]


# ---- the acts


def acts_of(folder, code, edition, returns):
    """The PDF files of acts that deploy/papers made of this certificate, each with its kind and its language: its edition and the
    beginning of the hash of its returns are in their names. An act of another edition or of other returns is none of them."""
    if edition not in returns:
        return []
    digest = hashlib.sha256((folder / returns[edition]).read_bytes()).hexdigest()[:OF_HASH]
    name = re.compile(rf"act-({'|'.join(ACTS)})-{re.escape(code)}-{edition}-{digest}-([A-Za-z0-9-]+)\.pdf")
    found = (name.fullmatch(file.name) for file in sorted(folder.glob("act-*.pdf")))
    return [(one[0], one[1], one[2]) for one in found if one]


# ---- the JSON files


def json_text(value):
    return json.dumps(value, ensure_ascii=False, indent=1) + "\n"


def dated(moment, **more):
    return json_text({"version": VERSION, "time": moment.isoformat(timespec="seconds"), **more})


def con_json(con, moment):
    if "quotients" in con:
        con = con | {"quotients": [{"list": code, "quotients": [{"quotient": value, "won": won} for value, won in row]}
                                   for code, row in con["quotients"]]}
    return dated(moment, **con)


def index_json(progress, moment):
    return dated(moment, constituencies=progress)


def manifest(files, head, moment, folder, is_whole=True):
    """The hash of each file by its name within the folder, with the head of the record of commands. Of a file that somebody else
    changed it is that of what was written. Where the round was not whole, a file of which nobody knows who wrote it is left out."""
    record = {"record": {"time": head["time"], "lines": head["n"], "sha256": head["hash"]}} if head else {}
    return dated(moment, **record, files=vouched(folder, files, is_whole))


# ---- the feed (Atom, RFC 4287)

ATOM = "{http://www.w3.org/2005/Atom}"
ET.register_namespace("", ATOM[1:-1])
# The characters that XML 1.0 cannot have, not even escaped.
NO_XML = re.compile("[^\t\n\r\x20-\ud7ff\ue000-\ufffd\U00010000-\U0010ffff]")
NAMES = uuid.UUID("5c1b9a5e-4e0f-4d0c-9a8e-0c6f6f1d2b47")


def identity(*words):
    """An identifier that nothing else has, and the same of the same words."""
    return uuid.uuid5(NAMES, "\n".join(words)).urn


def events(con, candidates):
    """The events of a constituency: its certificates, reopenings and vacancies, as far as can be known in order of time: kind,
    words that tell it from any other, the values of its title, and its text."""
    past = con["past"]
    certified = [(one["edition"], {row["code"]: row["seats"] for row in one["lists"]}) for one in past]
    certified += [(con["seats"]["edition"], con["seats"]["seats"])] if "seats" in con else []
    for n, (edition, seats) in enumerate(certified):
        given = ", ".join(f"{code} {many}" for code, many in seats.items() if many)
        yield "certificate", f"{edition} {given}", {"edition": edition}, given
        if n < len(past):
            note = con["view"]["note"] if n == len(past) - 1 else ""
            yield "reopening", f"{edition} {given}", {"edition": edition}, note
    for row in con["view"]["gone"]:
        of_list = candidates.get(row["list"], [])
        who = f" ({isolated(of_list[row['place'] - 1])})" if row["place"] <= len(of_list) else ""
        yield "vacancy", f"{row['list']} {row['place']} {row['note']}", {"list": row["list"], "place": row["place"], "name": who}, row["note"]


def provisional_event(site, con):
    """The provisional seats of a constituency, where it has some. Its words are the seats, so that others are another event."""
    if given := ", ".join(f"{code} {many}" for code, many in provisional_seats(con).items() if many):
        tally = con["tally"]
        share = site.per_cent(counted_share(tally["closed"], tally["stations"]))
        yield "provisional", given, {"share": share}, site.say("feed_provisional_seats", seats=given)


def entry_of(site, code, con, event, moment):
    kind, words, of_title, text = event
    entry, name = ET.Element(f"{ATOM}entry"), con["tally"]["name"]
    title = site.say(f"feed_{kind}", con=isolated(name), **of_title)
    for tag, said in (("id", identity(kind, code, name, words)), ("title", title),
                      ("updated", moment), ("summary", text)):
        ET.SubElement(entry, ATOM + tag).text = NO_XML.sub("\ufffd", said)
    ET.SubElement(entry, f"{ATOM}link", href=f"con-{code}.html")
    ET.SubElement(entry, f"{ATOM}category", term=kind)
    return entry


def said_before(text):
    """The entries of a feed by their identifiers, in order of time; and whether it has others, or is no feed. An entry without an
    identifier or a link to its constituency is none of these pages, and is left out."""
    try:
        found = ET.fromstring(text)
    except ET.ParseError:
        return {}, bool(text)
    entries = found.findall(f"{ATOM}entry")
    known = {of: entry for entry in reversed(entries) if (of := entry.findtext(f"{ATOM}id")) and con_of_entry(entry)}
    return known, found.tag != f"{ATOM}feed" or len(known) < len(entries)


def con_of_entry(entry):
    """The code of the constituency whose page an entry links to, or None."""
    link = entry.find(f"{ATOM}link")
    found = link is not None and re.fullmatch(r"con-(.+)\.html", link.get("href", ""))
    return found[1] if found else None


def stays(entry, cons, codes):
    code = con_of_entry(entry)
    return code not in cons and (codes is None or code in codes)


def was_title(site, tally, title):
    """Whether provisional seats of a constituency may have had this title, with no more stations counted than now."""
    said = NO_XML.sub("\ufffd", site.say("feed_provisional", con=isolated(tally["name"]), share="\t"))
    begin, _, end = said.partition("\t")
    share = title.removeprefix(begin).removesuffix(end)
    digits = "".join(re.findall("[0-9]", share))[:5]
    near = int(digits or 0) * tally["stations"] // 10_000
    return title == begin + share + end and any(
        share == site.per_cent(counted_share(closed, tally["stations"])) for closed in range(max(near, 1), min(near + 1, tally["closed"]) + 1))


def seen_before(site, tally, before, now):
    """An entry as the office bears it out now, with the moment at which it was first seen, unless that is yet to come. No answer has
    the note of an earlier reopening, nor the share that was counted when provisional seats first were these: each stays as it was
    written, a share that may have been counted before now."""
    kind = now.find(f"{ATOM}category").get("term")
    keeps = kind == "provisional" and was_title(site, tally, before.findtext(f"{ATOM}title") or "")
    since, moment = (moment_in("(.*)", entry.findtext(f"{ATOM}updated") or "") for entry in (before, now))
    old = [*["updated"] * bool(since and since <= moment), *["title"] * keeps, *["summary"] * (not now.findtext(f"{ATOM}summary"))]
    for tag in old:
        now.find(ATOM + tag).text = before.findtext(ATOM + tag)
    return now


def feed(known, cons, codes, setup, site, moment):
    """The feed after the entries that were in it before, where these constituencies were read. Of others everything stays, but for
    those that are none of all that there are, where their codes are known.

    An entry keeps the moment at which it was first seen, for as long as its constituency shows what it says. Where there was no
    feed, all that the office shows has the present moment, and the identifiers that it had."""
    moment, shown, tallies = moment.isoformat(timespec="seconds"), {}, {}
    for code, con in cons.items():
        candidates = {row["code"]: row["candidates"] for row in setup[code]["lists"]} if code in setup else {}
        for event in (*events(con, candidates), *provisional_event(site, con)):
            entry = entry_of(site, code, con, event, moment)
            shown[entry.findtext(f"{ATOM}id")], tallies[entry.findtext(f"{ATOM}id")] = entry, con["tally"]
    kept = {of: seen_before(site, tallies[of], entry, shown[of]) if of in shown else entry for of, entry in known.items()
            if of in shown or stays(entry, cons, codes)}
    found = ET.Element(f"{ATOM}feed", {"xml:lang": site.language})
    licence = [("rights", site.about["licence"])] if "licence" in site.about else []
    for tag, said in (("id", identity("feed", title_of(site))), ("title", title_of(site)), ("updated", moment), *licence):
        ET.SubElement(found, ATOM + tag).text = said
    ET.SubElement(ET.SubElement(found, f"{ATOM}author"), f"{ATOM}name").text = site.about.get("authority", site.say("office"))
    for link in ({"rel": "self", "href": "feed.atom"}, {"href": "index.html"}):
        ET.SubElement(found, f"{ATOM}link", link)
    found.extend(reversed([*kept.values(), *(entry for of, entry in shown.items() if of not in kept)]))
    ET.indent(found, " ")
    return '<?xml version="1.0" encoding="utf-8"?>\n' + ET.tostring(found, "unicode") + "\n"
