"""The published files for programs, and what describes them: schemas and the data package.

Schemas are tried by a checker of the few keywords that they have, and by the package jsonschema too
where that is installed.
"""

import contextlib
import csv
import json
import os
import re
import xml.etree.ElementTree as ET
from datetime import datetime, timedelta
from pathlib import Path

from tests.support.desks import answering_desk, recording_desk
from tests.support.office import LISTS, constituency, station, with_stations
from tests.support.pages import (
    REOPENED, RESULT, TWIN, WITHDRAWN, press, read, results_of, with_lists,
)
from tests.support.proxy import with_a_second
from tests.support.site import DEPLOY, printed, same

try:
    import jsonschema
except ImportError:
    jsonschema = None

KINDS = {"object": dict, "array": list, "string": str, "boolean": bool, "integer": int,
         "null": type(None)}


def faults(schema, value, at="it"):
    """The faults of a value by its schema (JSON Schema, draft 2020-12).

    A keyword that is not known here is refused.
    """
    known = {"$schema", "title", "description", "type", "const", "enum", "properties", "required",
             "additionalProperties", "items", "pattern", "minimum", "maximum"}
    assert set(schema) <= known, f"{at}: a keyword that is not known: {set(schema) - known}"
    kinds = [schema["type"]] if isinstance(schema.get("type"), str) else schema.get("type", KINDS)
    if not any(isinstance(value, KINDS[kind]) and (kind == "boolean") == isinstance(value, bool)
               for kind in kinds):
        return [f"{at}: not of type {kinds}"]
    found = [f"{at}: not {schema['const']!r}"] if value != schema.get("const", value) else []
    found += [f"{at}: none of {schema['enum']}"] if value not in schema.get("enum", [value]) else []
    if isinstance(value, str) and not re.search(schema.get("pattern", ""), value):
        found.append(f"{at}: not like {schema['pattern']}")
    if isinstance(value, int):
        if not schema.get("minimum", value) <= value <= schema.get("maximum", value):
            found.append(f"{at}: out of bounds")
    if isinstance(value, list):
        found += [fault for n, one in enumerate(value)
                  for fault in faults(schema.get("items", {}), one, f"{at}[{n}]")]
    if isinstance(value, dict):
        found += [f"{at}: lacks {name}" for name in schema.get("required", []) if name not in value]
        for name, one in value.items():
            of_name = schema.get("properties", {}).get(name, schema.get("additionalProperties", {}))
            if of_name is False:
                found.append(f"{at}: has {name}")
            else:
                found += faults(of_name, one, f"{at}.{name}")
    return found


def checked(schema, value):
    """The faults of a value. Where jsonschema is installed, it finds some too, or none as well."""
    found = faults(schema, value)
    if jsonschema:
        same(jsonschema.Draft202012Validator(schema).is_valid(value), not found)
    return found


def schema_of(name):
    """The schema of a file: con.schema.json of con-CODE.json."""
    return json.loads(read(re.sub(r"(-.*)?\.json$", ".schema.json", name)))


def json_files():
    """The JSON files of a folder whose schemas are published there."""
    others = ("datapackage.json", "openapi.json")
    return sorted(name for name in os.listdir("pages") if name.endswith(".json")
                  and not name.endswith(".schema.json") and name not in others)


CELLS = {"string": str, "integer": int, "number": float, "datetime": datetime.fromisoformat}


def cell_faults(field, cell):
    """The faults of a cell by its field of Table Schema."""
    known = {"name", "type", "description", "constraints", "trueValues", "falseValues"}
    assert set(field) <= known, field
    assert set(field.get("constraints", {})) <= {"pattern", "minimum", "maximum"}, field
    if cell == "":
        return []
    if field["type"] == "boolean":
        values = field.get("trueValues", ["true"]) + field.get("falseValues", ["false"])
        return [] if cell in values else [f"{field['name']}: {cell!r}"]
    bounds = field.get("constraints", {})
    try:
        value = CELLS[field["type"]](cell)
    except ValueError:
        return [f"{field['name']}: {cell!r} is no {field['type']}"]
    inside = bounds.get("minimum", value) <= value <= bounds.get("maximum", value)
    return [] if inside and re.search(bounds.get("pattern", ""), cell) else [
        f"{field['name']}: {cell!r} is out of bounds"]


def rows_of(name):
    with Path("pages", name).open(encoding="utf-8", newline="") as lines:
        return list(csv.reader(lines))


def package_faults():
    """The faults of the CSV files by the data package."""
    package = json.loads(read("datapackage.json"))
    tables = {resource["name"]: rows_of(resource["path"]) for resource in package["resources"]}
    found = []
    for resource in package["resources"]:
        (head, *rows), schema = tables[resource["name"]], resource["schema"]
        if head != [field["name"] for field in schema["fields"]]:
            found.append(f"{resource['path']}: {head}")
            continue
        found += [f"{resource['path']}: {fault}" for row in rows
                  for field, cell in zip(schema["fields"], row, strict=True)
                  for fault in cell_faults(field, cell)]
        keys = [tuple(row[head.index(name)] for name in schema["primaryKey"]) for row in rows]
        found += [f"{resource['path']}: {key} twice" for key in keys if keys.count(key) > 1
                  or "" in key]
        for foreign in schema.get("foreignKeys", []):
            [name], [there] = foreign["fields"], foreign["reference"]["fields"]
            top, *others = tables[foreign["reference"]["resource"]]
            found += [f"{resource['path']}: {row}" for row in rows
                      if row[head.index(name)] not in [other[top.index(there)] for other in others]]
    return found


# By quotas of 208,000 / 3 votes: the numbers of docs/FORMATS.md.
HARE = TWIN | results_of(with_lists(
    RESULT, seats=[3, 0], provisional=[3, 0], votes=[168000, 40000], eligible=[True, False],
    short=[None, None]) | {
        "method": "hare", "awards": [], "lot": [], "quota": [["A", 2, 384000, 3]],
        "holders": [["A", 1, "Ana"], ["A", 2, "Abel"], ["A", None, None]]})
VACATED = TWIN | results_of(RESULT | {
    "gone": [["A", 1, "resigned <today>"]], "entry": "double",
    "holders": [["A", 2, "Abel"], ["B", 1, "Bea"], ["B", None, None]]})
OPEN = REOPENED | results_of(with_lists(
    WITHDRAWN, votes=[0, 0], provisional=[0, 0], eligible=[False, False], short=[None, None]) | {
        "edition": 1, "closed": 0, "received": 1, "note": "", "lot": [], "past": [], "awards": [],
        "status": "no_eligible"}) | {
    "/con/c1/stations": TWIN["/con/c1/stations"].replace("closed 1", "closed 0").replace(
        "closed       2", "received     1")}
# Certified once more after the reopening, by one vote more for A.
AGAIN = TWIN | results_of(with_lists(
    RESULT, votes=[101, 100], seats=[2, 1], provisional=[2, 1], short=[100, 2]) | {
        "edition": 5, "note": "a <recount>", "lot": [], "past": [{"edition": 3, "seats": [1, 2]}],
        "awards": [["A", 1, 101, 1], ["B", 1, 100, 1], ["A", 2, 101, 2]],
        "holders": [["A", 1, "Ana"], ["A", 2, "Abel"], ["B", 1, "Bea"]]})


def beside(answers, code="c2"):
    """These answers, with another constituency."""
    other = {target.replace("c1", code): said.replace("c1", code) if isinstance(said, str)
             else said | {"con": code}
             for target, said in answers.items() if target.startswith("/con/")}
    return answers | other | {"/results": [*answers["/results"], other[f"/con/{code}/result"]]}


def write_setup(answers):
    """Writes the setup of these answers: Twin Town, and what is beside it."""
    first, *others = answers["/results"]
    text = with_stations(1).replace('"dhondt"', f'"{first["method"]}"') + "".join(
        constituency(other["con"], other["name"], 3, "d0") + LISTS + station("s1")
        for other in others)
    Path("setup.toml").write_text(text, encoding="utf-8")


def publish(answers, *words, status=0):
    """A round of press.py, which is started for it and ended after it."""
    with answering_desk(answers) as (port, _):
        return press(port, *words, status=status)


def a_head(n):
    Path("head").write_text(
        json.dumps({"time": f"2026-11-29T21:14:{n:02}.120+01:00", "n": n, "hash": f"{n:064x}"}),
        encoding="utf-8")
    return "--head", "head"


def of_readers(folder="pages"):
    """The files that readers get, but for those that are compressed."""
    return {file.name: file.read_bytes() for file in Path(folder).iterdir()
            if file.suffix != ".gz" and not file.name.startswith(".")}


ATOM = "{http://www.w3.org/2005/Atom}"


def entries():
    """The entries of the feed, the newest first: identifier, kind, title, text, moment. Its form is
    that of RFC 4287."""
    feed = ET.fromstring(read("feed.atom"))
    same((feed.tag,
          [len(feed.findall(ATOM + tag)) for tag in ("id", "title", "updated", "author")]),
         (f"{ATOM}feed", [1] * 4))
    found, links = [], {}
    for entry in feed.findall(f"{ATOM}entry"):
        same([len(entry.findall(ATOM + tag))
              for tag in ("id", "title", "updated", "summary", "link", "category")], [1] * 6)
        of_entry, title, updated, summary = (entry.findtext(ATOM + tag)
                                             for tag in ("id", "title", "updated", "summary"))
        assert re.fullmatch(
            "urn:uuid:[0-9a-f]{8}-[0-9a-f]{4}-5[0-9a-f]{3}-[89ab][0-9a-f]{3}-[0-9a-f]{12}",
            of_entry), of_entry
        # Names in a title are isolated.
        plain_title = re.sub("[\u2068\u2069]", "", title)
        found.append((of_entry, entry.find(f"{ATOM}category").get("term"), plain_title, summary,
                      updated))
        assert os.path.exists(f"pages/{entry.find(f'{ATOM}link').get('href')}")
    same(len({one[0] for one in found}), len(found))
    moments = [one[4] for one in found]
    same((sorted(moments, reverse=True),
          max(moments, default="") <= feed.findtext(f"{ATOM}updated")), (moments, True))
    return found


CERTIFIED = ("certificate", "Twin Town: certified in edition 3", "A 1, B 2")


@contextlib.contextmanager
def published_site(answers, *words):
    """The proxy with the pages of an office that gives these answers, and the port of what records
    commands in its place."""
    with recording_desk() as (port, _), with_a_second(port) as front:
        front.name("stations", "s1")
        os.symlink(front.folder / "pages", "pages")
        publish(answers, *words)
        yield front


def before_the_hour(front):
    """Starts the proxy again, an hour before results are public."""
    front.end()
    hour = datetime.now().astimezone() + timedelta(hours=1)
    front.put("embargo.conf", printed(DEPLOY / "embargo", hour.isoformat(timespec="seconds")))
    front.start()
