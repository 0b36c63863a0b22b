"""Schemas and the data package of what is published."""

import csv
import functools
import io
import json
import os
import re
import shutil
import xml.etree.ElementTree as ET
from pathlib import Path

from tests.support.desks import modelled
from tests.support.office import constituency, party_list, profile, station, with_stations
from tests.support.pages import (
    REOPENED, TWIN, page_of, press, read, results_of, with_lists,
)
from tests.support.published import (
    AGAIN, ATOM, CERTIFIED, HARE, OPEN, VACATED, a_head, beside, checked, entries, faults,
    json_files, jsonschema, package_faults, publish, rows_of, schema_of, write_setup,
)
from tests.support.site import SiteCase

IF_CERTIFIED = ("seats", "holders", "quotients", "awards", "short", "quota")


def paths_of(value, path=()):
    """Each place within a value, but for those of arrays after the first."""
    inside = value.items() if isinstance(value, dict) else list(enumerate(value))[:1] if isinstance(
        value, list) else ()
    for name, one in inside:
        yield (*path, name)
        yield from paths_of(one, (*path, name))


def at(value, path):
    return functools.reduce(lambda part, name: part[name], path, value)


def changed(value, path, to):
    """A value with another one at a place, or, for an ellipsis, with none."""
    part = at(value, path[:-1])
    part[path[-1]] = to
    if to is ...:
        del part[path[-1]]
    return value


def may_be_missing(name, path):
    """Reports of a certificate, what the setup may leave out, and what has names of its own: lists
    and files."""
    return (path[0] in (*IF_CERTIFIED, "provisional") and len(path) == 1
            or path == ("view", "entry")
            or len(path) > 2 and path[1] == "seats" and path[0] in ("seats", "provisional")
            or name == "manifest.json"
            and (path == ("record",) or path[0] == "files" and len(path) > 1))


class Data(SiteCase):
    def test_each_published_json_is_of_its_schema(self):
        by = "jsonschema and" if jsonschema else "jsonschema is not there, so by"
        print(f"schemas are tried by {by} the checker of tests/support/published.py")
        for answers in (TWIN, VACATED, REOPENED, OPEN, AGAIN, HARE, beside(TWIN)):
            write_setup(answers)
            with self.subTest(answers=answers):
                for words in ((), ("--setup", "setup.toml", *a_head(7))):
                    with self.subTest(words=words):
                        shutil.rmtree("pages", ignore_errors=True)
                        publish(answers, *words)
                        self.assertEqual(json_files(), sorted([
                            "con-c1.json", "find.json", "index.json", "manifest.json",
                            *(["setup.json"] if words else []),
                            *(["con-c2.json"] if "/con/c2" in answers else [])]))
                        for name in json_files():
                            schema = schema_of(name)
                            self.assertEqual(schema["$schema"],
                                             "https://json-schema.org/draft/2020-12/schema", name)
                            if jsonschema:
                                jsonschema.Draft202012Validator.check_schema(schema)
                            self.assertEqual(checked(schema, json.loads(read(name))), [], name)

    def test_what_is_not_of_a_schema(self):
        """Each schema refuses what lacks something, has something more or has it of another type;
        and the checker a keyword that it does not know."""
        Path("setup.toml").write_text(with_stations(1), encoding="utf-8")
        publish(VACATED, "--setup", "setup.toml", *a_head(7))
        tried = 0
        for name in json_files():
            schema, text = schema_of(name), read(name)
            for path in paths_of(json.loads(text)):
                for to in ({"x": [1]}, -1, *([] if isinstance(path[-1], int)
                                             or may_be_missing(name, path) else [...])):
                    with self.subTest(name=name, path=path, to=to):
                        self.assertTrue(checked(schema, changed(json.loads(text), path, to)))
                        tried += 1
                if isinstance(at(json.loads(text), path), dict):
                    with self.subTest(name=name, path=path):
                        self.assertTrue(
                            checked(schema, changed(json.loads(text), (*path, "more"), [1])))
        self.assertGreater(tried, 300)
        self.assertEqual(faults({"type": "object", "additionalProperties": False}, {"more": 1}),
                         ["it: has more"])
        for schema in ({"minItems": 1}, {"properties": {"a": {"format": "date"}}}):
            with self.subTest(schema=schema), self.assertRaises(AssertionError):
                faults(schema, {"a": "x"})

    def test_the_data_package_describes_each_csv(self):
        for answers in (OPEN, TWIN, REOPENED, AGAIN, beside(TWIN)):
            write_setup(answers)
            with self.subTest(answers=answers):
                publish(answers, "--setup", "setup.toml", *a_head(7))
                package = json.loads(read("datapackage.json"))
                self.assertEqual(
                    sorted(resource["path"] for resource in package["resources"]),
                    sorted(name for name in os.listdir("pages") if name.endswith(".csv")))
                self.assertEqual(len({resource["name"] for resource in package["resources"]}),
                                 len(package["resources"]))
                self.assertEqual((package_faults(), "stations-c1-open.csv" in os.listdir("pages")),
                                 ([], answers in (OPEN, REOPENED)))
                self.assertEqual(package["version"], json.loads(read("index.json"))["version"])
                self.assertTrue(all(resource["description"] and resource["encoding"] == "utf-8"
                                    for resource in package["resources"]))
                self.assertTrue(all(field["description"] for resource in package["resources"]
                                    for field in resource["schema"]["fields"]))
        write_setup(REOPENED)
        publish(REOPENED, "--setup", "setup.toml")
        described = {resource["path"]: resource
                     for resource in json.loads(read("datapackage.json"))["resources"]}
        for name, which in (("stations-c1-3.csv", "of edition 3"),
                            ("stations-c1-open.csv", "that are closed so far")):
            with self.subTest(name=name, which=which):
                self.assertEqual(described[name]["description"],
                                 f"The returns {which} of Twin Town.")
                self.assertEqual(
                    [field["description"] for field in described[name]["schema"]["fields"]][-2:],
                    ["Votes of Alpha.", "Votes of Beta."])

    def test_what_the_data_package_does_not_allow(self):
        publish(beside(TWIN))
        for name, old, new in (
            ("results.csv", "electors", "elector"), ("results.csv", ",yes,", ",maybe,"),
            ("results.csv", "true", "True"), ("results.csv", ",100,", ",-1,"),
            ("results.csv", ",A,", ",B,"), ("results.csv", "c2,", "c3,"),
            ("index.csv", ",3,", ",0,"), ("index.csv", ",3,", ",x,"), ("index.csv", "c2,", "c1,"),
            ("con-c1.csv", "50.00", "50 %"), ("con-c1.csv", "A,", "a b,"),
        ):
            with self.subTest(name=name, old=old, new=new):
                text = read(name)
                self.assertIn(old, text)
                Path("pages", name).write_text(text.replace(old, new), encoding="utf-8")
                self.assertTrue(package_faults())
                Path("pages", name).write_text(text, encoding="utf-8")
        self.assertEqual(package_faults(), [])

    def test_what_shares_are_of(self):
        """results.csv has the electors, where the setup is known, and the votes that shares are
        of."""
        Path("setup.toml").write_text(
            with_stations(4, 250).replace("threshold = 0", "threshold = 300"), encoding="utf-8")
        spoiled = OPEN | results_of(with_lists(
            OPEN["/results"][0], votes=[90, 2], eligible=[True, False], provisional=[3, 0]) | {
                "status": "open",
                "blank": 8, "spoiled": 5, "closed": 1, "received": 0, "stations": 4,
                "threshold": 300}) | {
            "/con/c1/stations": TWIN["/con/c1/stations"].replace(" 300 ", " 250 ")
            + "".join(f"s{n}                   250 -\n" for n in (2, 3, 4))}
        for words, electors in ((("--setup", "setup.toml"), "1000"), ((), "")):
            with self.subTest(words=words, electors=electors):
                publish(spoiled, *words)
                head, first, second = rows_of("results.csv")
                self.assertEqual(head, ["con", "con_name", "stations", "closed", "edition",
                                        "certified", "electors", "valid", "blank", "spoiled",
                                        "list", "name", "votes", "share", "takes_part", "seats",
                                        "provisional"])
                self.assertEqual(first, ["c1", "Twin Town", "4", "1", "1", "false", electors, "100",
                                         "8", "5", "A", "Alpha", "90", "90.00", "yes", "", "3"])
                self.assertEqual(second[6:10] + second[-3:],
                                 [electors, "100", "8", "5", "no", "", "0"])

    def test_names_that_a_spreadsheet_would_compute(self):
        """In the CSV files, and nowhere else, they have an apostrophe in front; the package says
        so."""
        names = ["=HYPERLINK(A1)", "+1", "-2+3", "@SUM(1)", "'= 1", "a=b", "＝1", "＠A1"]
        shown = ["'=HYPERLINK(A1)", "'+1", "'-2+3", "'@SUM(1)", "'= 1", "a=b",
                 "'＝1", "'＠A1"]
        setup = profile("d0") + constituency("c1", "=1+1", 1, "d0") + station("s1", 9) + "".join(
            party_list(f"L{n}", name, "Ana") for n, name in enumerate(names))
        Path("setup.toml").write_text(setup, encoding="utf-8")
        with modelled(setup) as (_, port):
            press(port, "--setup", "setup.toml")
        self.assertEqual(package_faults(), [])
        for file, columns in (("results.csv", {"con_name", "name"}), ("con-c1.csv", {"name"})):
            with self.subTest(file=file, columns=columns):
                rows = list(csv.DictReader(io.StringIO(read(file))))
                self.assertEqual(
                    ([row["name"] for row in rows], {row.get("con_name") for row in rows}),
                    (shown, {"'=1+1" if "con_name" in columns else None}))
                fields = next(one for one in json.loads(read("datapackage.json"))["resources"]
                              if one["path"] == file)["schema"]["fields"]
                self.assertEqual(
                    {one["name"] for one in fields if "apostrophe" in one["description"]}, columns)
        found = json.loads(read("con-c1.json"))["tally"]
        self.assertEqual((found["name"], [row["name"] for row in found["lists"]]), ("=1+1", names))
        self.assertEqual(
            [row[0] for row in page_of("con-c1.html").tables["Votes of each list"][1:]],
            [f"L{n} {name}" for n, name in enumerate(names)])
        self.assertNotIn("apostrophe", read("con.schema.json"))

    def test_what_the_office_says_of_its_data(self):
        """Title, licence, authority and language of the data package and of the feed are those of
        site.toml, and else none."""
        os.mkdir("site")
        about = {"title": "Elección de Montehondo & otras", "authority": "Junta <Electoral>",
                 "licence": "CC-BY-4.0", "language": "es"}
        for given, licence in ((about, [{"name": "CC-BY-4.0"}]), (
            about | {"licence": "https://example.org/licence"},
            [{"path": "https://example.org/licence"}]), ({}, None)):
            with self.subTest(given=given, licence=licence):
                Path("site/site.toml").write_text(
                    "".join(f"{key} = {json.dumps(value)}\n" for key, value in given.items()),
                    encoding="utf-8")
                shutil.rmtree("pages", ignore_errors=True)
                publish(TWIN, "--site", "site")
                package, feed = json.loads(read("datapackage.json")), ET.fromstring(read(
                    "feed.atom"))
                title = given.get("title", "Results of the election")
                self.assertEqual((package["title"], feed.findtext(f"{ATOM}title")), (title, title))
                self.assertEqual((package.get("licenses"), feed.findtext(f"{ATOM}rights")),
                                 (licence, given.get("licence")))
                self.assertEqual((package.get("contributors"),
                                  feed.findtext(f"{ATOM}author/{ATOM}name")),
                                 ([{"title": given["authority"], "roles": ["publisher"]}] if given
                                  else None, given.get("authority", "The electoral office")))
                self.assertEqual((feed.get("{http://www.w3.org/XML/1998/namespace}lang"),
                                  entries()[0][2]),
                                 ("es", "Twin Town: resultado proclamado (versión 3)") if given
                                 else ("en", CERTIFIED[1]))

    def test_where_a_reader_finds_the_data(self):
        """The head of the first page names the data package and the feed, and the page links the
        manifest, and the setup where it is given."""
        Path("setup.toml").write_text(with_stations(1), encoding="utf-8")
        publish(TWIN)
        self.assertNotIn('href="setup.json"', read("index.html"))
        publish(TWIN, "--setup", "setup.toml")
        page = read("index.html")
        head, body = page.split("</head>")
        links = {link["href"]: (link["rel"], link["type"])
                 for link in map(dict, (re.findall(r'(\w+)="([^"]*)"', tag)
                                        for tag in re.findall("<link [^>]*>", head)))}
        self.assertEqual(links, {"feed.atom": ("alternate", "application/atom+xml"),
                                 "datapackage.json": ("describedby", "application/json")})
        self.assertIn('href="manifest.json"', body)
        self.assertIn('href="setup.json"', body)
        self.assertTrue(all(Path("pages", name).exists()
                            for name in (*links, "manifest.json", "setup.json")))
