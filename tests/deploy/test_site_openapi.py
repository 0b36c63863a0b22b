"""openapi.json of a site."""

import json
import re
from pathlib import Path

from tests.support.case import ROOT, needs
from tests.support.office import with_stations
from tests.support.pages import TWIN, read, site_folder
from tests.support.proxy import with_a_second
from tests.support.published import (
    a_head, before_the_hour, of_readers, publish, published_site, schema_of,
)
from tests.support.running import free_port
from tests.support.site import DEPLOY, SiteCase

ROUTES = json.loads((DEPLOY / "openapi.json").read_text(encoding="utf-8"))
PROGRAM = json.loads((ROOT / "docs/openapi.json").read_text(encoding="utf-8"))
STAFF = {"clerk": "clara", "second": "sara", "board": "berta", "station": "s1"}
# Other suites ask too often, fill the disk of the record, end the desk and have the board need two
# names.
NOT_TRIED = {"202", "429", "503", "504"}
# The targets that a station sees before the hour.
OF_A_STATION = ("/setup.json", "/clerk.html", "/station/s1", "/now/station/s1")


def resolved(value):
    """The target of a reference within openapi.json, or the value itself."""
    for part in value["$ref"].removeprefix("#/").split("/") if "$ref" in value else ():
        value = ROUTES[part] if value.get("$ref") else value[part]
    return value


def with_places():
    """The words for a site with a place and an address."""
    return site_folder(stations="station,name,place\ns1,School,Town\n",
                       site='address = "https://results.example.org"\n')


class SiteOpenapi(SiteCase):
    def operations(self):
        """Each path with what it may be asked for: method, target, roles, and what it may be
        answered."""
        codes = {"c": "c1", "s": "s1", "edition": "3", "schema": "con"}
        for path, item in ROUTES["paths"].items():
            item = resolved(item)
            names = [resolved(parameter)["name"] for parameter in item.get("parameters", [])]
            self.assertEqual(names, re.findall(r"{(\w+)}", path), path)
            [(method, operation)] = [(key, value) for key, value in item.items()
                                     if key != "parameters"]
            roles = None
            if "security" in operation:
                roles = [role for one in operation["security"] for role in one["name"]]
                roles = roles or list(STAFF)
            yield method.upper(), path.format(**codes), roles, {
                status: resolved(answer) for status, answer in operation["responses"].items()}

    def test_the_routes_of_the_site(self):
        """Those of the program, each with its method, and the same past the proxy's cache; and each
        published file."""
        found = {(method, target) for method, target, *_ in self.operations()}
        routes = {(method.upper(), path.format(c="c1", s="s1"))
                  for path, methods in PROGRAM["paths"].items() for method in methods}
        own = {("GET", "/now/station/s1/history"), ("GET", "/now/con/c1/typed"), ("GET", "/logout")}
        self.assertEqual({(method, target) for method, target in found if "." not in target
                          and target != "/"} - own,
                         routes | {(method, f"/now{target}") for method, target in routes
                                   if method == "GET"})
        Path("setup.toml").write_text(with_stations(1), encoding="utf-8")
        publish(TWIN, "--setup", "setup.toml", *a_head(7), *with_places())
        self.assertEqual({target.removeprefix("/") for method, target in found if "." in target
                          and not target.endswith(".html")},
                         {name for name in of_readers() if not name.endswith(".html")} - {
                             "openapi.json", "index.schema.json", "setup.schema.json",
                             "manifest.schema.json", "find.schema.json"})
        self.assertEqual(ROUTES["info"]["version"], json.loads(read("index.json"))["version"])
        # Each place of the proxy is described, but for the files that nobody gets, and for places
        # to which another one leads.
        places = re.findall(r'location (=|~)? ?"?([^@ "][^ "]*)"? {',
                            "".join(file.read_text(encoding="utf-8") for file
                                    in (DEPLOY / "nginx.conf", *DEPLOY.glob("nginx/*.conf"))))
        self.assertGreater(len(places), 10, places)
        lost = [place for how, place in places
                if not any(target == place if how == "="
                           else re.search(place.replace("(?<", "(?P<"), target)
                           for _, target in found)]
        self.assertEqual(set(lost), {r"/\.", "/health", "/health/office"})
        # Each part is used, and each reference leads to one, or to a schema that is published.
        references = re.findall(r'"\$ref": "([^"]*)"', json.dumps(ROUTES))
        self.assertEqual({f"#/components/{kind}/{name}"
                          for kind, parts in ROUTES["components"].items() for name in parts
                          if kind != "securitySchemes"},
                         {reference for reference in references if reference.startswith("#")})
        self.assertEqual({reference for reference in references
                          if re.fullmatch(r"\w+\.schema\.json", reference)},
                         {name for name in of_readers() if ".schema." in name})

    def test_what_is_published_of_a_constituency_as_the_program_shows_it(self):
        """Its view has the fields that docs/openapi.json gives the answer of GET /con/CODE."""
        publish(TWIN)
        views = [schema_of("con-c1.json")["properties"]["view"],
                 PROGRAM["components"]["schemas"]["Constituency"]]
        self.assertEqual(*((sorted(view["properties"]), sorted(view["required"]))
                           for view in views))

    @needs("nginx", "openssl")
    def test_what_the_site_answers(self):
        """Each path is answered what openapi.json says, and nothing else: with each role, from
        another site, by another method, with a body that it does not take, before the hour."""
        Path("setup.toml").write_text(with_stations(1), encoding="utf-8")
        with published_site(TWIN, "--setup", "setup.toml", *a_head(7), *with_places()) as front:
            answered = {operation[1]: set() for operation in self.operations()}
            for public in (True, False):
                with self.subTest(public=public):
                    if not public:
                        before_the_hour(front)
                    answered["/logout"].add(front.ask("GET", "/logout", name="logout",
                                                      password="x").status)
                    for n, (method, target, roles, answers) in enumerate(self.operations()):
                        answered[target] |= self.asked_in_every_way(
                            front, f"127.0.11.{n + 1}", method, target, roles, answers, public)
            for target in [target for _, target, _, answers in self.operations()
                           if "304" in answers and "404" in answers and target != "/"]:
                Path(front.folder, "share" if target == "/setup.json" else "pages",
                     target[1:]).unlink()
                answered[target].add(front.ask("GET", target, name="clara").status)
        # Nobody answers for the office now, and nothing is kept of what it said.
        for kept in front.folder.glob("temporary/answers/*"):
            kept.unlink()
        with with_a_second(free_port()) as front:
            front.name("stations", "s1")
            front.end_recorder()
            front.end_reader()
            for method, target, roles, answers in self.operations():
                if "502" in answers:
                    answered[target].add(front.ask(method, target, {} if method == "POST" else None,
                                                   STAFF[roles[0]] if roles else None).status)
        for _, target, _, answers in self.operations():
            wanted = {int(status) for status in answers
                      if status not in NOT_TRIED | {"default"}} | (
                {200} if "default" in answers else set())
            self.assertEqual(answered[target], wanted, target)

    def asked_in_every_way(self, front, source, method, target, roles, answers, public):
        """The statuses of a path that is asked so and so; where it is of some roles, the others are
        refused."""
        found, file = [], "304" in answers
        right = STAFF[roles[0]] if roles else "clara"

        def ask(name=None, body=b"{}" if method == "POST" else None, to=target, by=method, **words):
            found.append(front.ask(by, to, body, name, source=source, **words))
            return found[-1].status

        for role, name in STAFF.items():
            wanted = 401 if target == "/logout" else 200 if roles is None or role in roles else 403
            # Before the hour a station sees its own return and the setup.
            is_shut = not public and role == "station" and target not in OF_A_STATION
            if is_shut and wanted == 200 and method == "GET":
                wanted = 404 if file else 403
            self.assertEqual(ask(name), wanted, (target, role))
        self.assertEqual(ask(), 401 if roles or target == "/logout" else 200 if public else 403,
                         target)
        ask(right, password="x")
        ask("no name")
        ask(right, headers={"Transfer-Encoding": "chunked"})
        ask(right, headers={"Office-By": "another"})
        ask(right,
            body=b"x"
            * (2 if method == "GET" and target not in ("/clerk.html", "/logout") else 1_048_577))
        ask(right, by="PUT", body=None)
        if not file:
            ask(right, to=f"{target}?x=1")
            ask(right, headers={"Origin": "https://newspaper.example"})
        elif public:
            ask(headers={"If-None-Match": found[-1].head["ETag"]
                         or front.ask("GET", target).head["ETag"]})
        for one in found:
            of_status = answers.get(str(one.status), answers.get("default"))
            self.assertTrue(of_status, f"{method} {target}: {one.status}")
            for header in of_status.get("headers", {}):
                # No name of this site is bound to constituencies.
                self.assertTrue(
                    header in one.head or header == "X-Office-Bound-To"
                    or header == "Allow" and (file or target == "/clerk.html"),
                    f"{target}: {one.status} without {header}")
        return {one.status for one in found}
