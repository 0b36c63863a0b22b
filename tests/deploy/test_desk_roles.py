#!/usr/bin/env python3
"""Compares the routes and roles of `deploy/desk` with those of the proxy, request by request; and
tries its gate.

    python3 tests/deploy/test_desk_roles.py

It reads `nginx.conf` as nginx does: which location a target has, what that asks for, and the maps.
It needs nothing but Python.
"""

import itertools
import re
import sys
import threading
import time
import unittest
from pathlib import Path

DEPLOY = Path(__file__).resolve().parent.parent.parent / "deploy"
sys.path.insert(0, str(DEPLOY))
import desk_roles
import desk_server

REPORTS = ("tally", "seats", "quotients", "awards", "quota", "short", "holders", "past",
           "provisional", "result", "stations", "returns")
OF_STATION = ("lodge", "query", "correct", "close", "confirm")
OF_CON = ("draw", "certify", "reopen", "vacate", "import", "import/semicolon", "trial",
          "trial/semicolon")
LONGEST, TOO_LONG = "c" * 16, "c" * 17
TARGETS = [
    "/progress", "/country", "/results", "/station/s1", "/con/c1",
    *(f"/con/c1/{name}" for name in REPORTS),
    "/now/progress", "/now/country", "/now/results", "/now/station/s1", "/now/con/c1",
    *(f"/now/con/c1/{name}" for name in REPORTS), "/now/station/s1/history",
    "/now/con/c1/typed", "/con/result", "/now/con/result", "/now/con/provisional",
    *(f"/station/s1/{act}" for act in OF_STATION), *(f"/con/c1/{act}" for act in OF_CON),
    "/clerk.html", "/logout", "/setup.json", "/", "/index.html", "/con-c1.json", "/feed.atom",
    "/embed.html", "/embed-c1.html", "/es/embed-c1.html", "/es/index.html",
    # These are not there, or are the names of files.
    "/progress/", "/Progress", "/station", "/station/", "/station/s.1", f"/station/{TOO_LONG}",
    "/station/s1/draw", "/station/s1/lodge/x", "/station/s1/import", "/con/c1/lodge",
    "/con/c1/import/comma", "/con/c1/close", "/con/c1/tally/x", "/con/c1/progress",
    f"/con/{TOO_LONG}/tally", "/now", "/now/", "/now/station/s1/lodge", "/now/con/c1/import/x",
    "/now/con/c1/import", "/now/con/c1/certify", "/now/con/C/SEATS", "/now/clerk.html",
    "/clerk.htm", "/clerk.html/", "/.index.html.new", "/x/.y", "/station/s1/history",
    "/history/s1", "/typed/c1", "/con/c1/typed", "/now/con/c1/typed/x", "/stations/c1",
    "/station/é", "/con/c1/certify/semicolon",
    f"/station/{LONGEST}/close", f"/con/{LONGEST}/returns", f"/now/station/{TOO_LONG}/history",
]
# By what a location passes on to, the kind of its requests.
KINDS = {
    "office$office": "table", "names$office": "slips", "names$office$table": "now",
    "names$office/station/$station": "now_slips", "names$office/$table/$con": "now_all",
    "recorder$office": "command", "recorder$office/history/$station": "history",
    "recorder$office/typed/$con": "typed", "names1/progress": None, "$asked": None,
}
# And by the names of those that the proxy answers itself. A load balancer has no business here.
OTHER_KINDS = {
    "/clerk.html": "page", "/logout": "logout", "/setup.json": "setup", "/": "file",
    r"/\.": None, "/health": None, "@no_health": None, "@guess": None,
    r"^/([a-z]{2}/)?embed(-[A-Za-z0-9_-]{1,16})?\.html$": "file",
}


def configuration():
    """The configuration with its own files put in, without comments."""
    def with_included(text):
        def file_of(found):
            return with_included((DEPLOY / "nginx" / found[1]).read_text(encoding="utf-8"))
        text = re.sub(r"(?m)^\s*#.*$", "", text)
        return re.sub(r"include office/([\w.]+);", file_of, text)
    return with_included((DEPLOY / "nginx.conf").read_text(encoding="utf-8"))


def pattern_of(text):
    """A pattern of nginx, as one of Python."""
    text = re.sub(r"\\k<(\w+)>", r"(?P=\1)", text.replace("(?<", "(?P<"))
    return re.compile(text.replace(r"\z", r"\Z"))


def block_at(text, begin):
    """The text between the brace that is next and the one that closes it."""
    begin = text.index("{", begin) + 1
    depth, end, quoted = 1, begin, False
    while depth:
        if text[end] == '"':
            quoted = not quoted
        elif not quoted:
            depth += {"{": 1, "}": -1}.get(text[end], 0)
        end += 1
    return text[begin:end - 1]


class Location:
    def __init__(self, how, name, text):
        self.name, self.text = name, text
        self.is_exact, self.pattern = how == "=", pattern_of(name) if how == "~" else None
        # What a name asks for is passed on by another location, once its password is known.
        passed = re.search(r"(?:proxy_pass http://|set \$asked )(\S+);", text)
        self.kind = KINDS[passed[1]] if passed else OTHER_KINDS[name]
        if "$sees_slips" in text and "$fetched_elsewhere" in text:
            self.kind = "slips"
        table = re.search(r"set \$table (\S+);", text)
        self.parts = {"table": table[1]} if table else {}

    @property
    def methods(self):
        found = re.search(r"\$request_method (?:!=|!~) (?:\^\()?([A-Z|]+)", self.text)
        # A file is for these, by nginx itself; so is what it answers by `return`.
        return tuple(found[1].split("|")) if found else ("GET", "HEAD")

    @property
    def is_strict(self):
        return "$request_uri != $uri" in self.text

    @property
    def is_from_a_page(self):
        return "$another_page" in self.text


class Map:
    """A map of the configuration: its patterns in order, and its default."""

    def __init__(self, text, name):
        block = block_at(text, re.search(rf'map "[^"]*" \${name} ', text).start())
        self.default = re.search(r"default (\S+);", block)[1]
        rows = re.findall(r'"~(.*?)" (\S+);', block)
        self.patterns = [(pattern_of(found), value) for found, value in rows]

    def value(self, text):
        found = (value for pattern, value in self.patterns if pattern.search(text))
        return next(found, self.default)


TEXT = configuration()
SITE = TEXT[TEXT.rindex("server {"):]
LOCATIONS = [Location(found[1], found[2].strip('"'), block_at(SITE, found.end(2)))
             for found in re.finditer(r'location (?:(=|~) )?("[^"]*"|\S+) \{', SITE)]


def located(target):
    """The location of a target, and what its pattern found."""
    path, question, _ = target.partition("?")
    for place in LOCATIONS:
        if place.is_exact and place.name == path:
            refused = place.kind is None or question and place.is_strict
            return None if refused else (place, place.parts)
    for place in LOCATIONS:
        found = place.pattern and place.pattern.search(path)
        if found:
            parts = {name: value for name, value in found.groupdict().items() if value}
            refused = place.kind is None or question and place.is_strict
            return None if refused else (place, parts | place.parts)
    return next((place, {}) for place in LOCATIONS if place.name == "/")


class RoutesAndRoles(unittest.TestCase):
    def test_every_kind_of_location_is_there(self):
        self.assertEqual({place.kind for place in LOCATIONS} - {None}, set(desk_roles.METHODS))

    def test_a_target_asks_for_the_same(self):
        for target in [*TARGETS, *(f"{target}?x=1" for target in TARGETS)]:
            with self.subTest(target=target):
                found, wanted = desk_roles.request_of(target), located(target)
                kind = wanted and wanted[0].kind
                if kind == "file" and not found:
                    # The pages have no folders, and only plain names.
                    self.assertNotRegex(target.split("?")[0], re.compile(r"^/[\w-][\w.-]*$", re.A))
                    continue
                self.assertEqual(found and found.kind, kind)
                if not found or kind in ("page", "logout", "setup", "file"):
                    continue
                place, parts = wanted
                self.assertEqual([found.station, found.con, found.act],
                                 [parts.get(name, "") for name in ("station", "con", "act")])
                path = f"/station/{found.station}" if kind == "now_slips" else target.split("?")[0]
                self.assertEqual(found.path, parts.get("table", path))

    def test_a_target_takes_the_same_methods(self):
        for target in TARGETS:
            found, wanted = desk_roles.request_of(target), located(target)
            if found and wanted:
                with self.subTest(target=target):
                    self.assertEqual(found.methods, wanted[0].methods)
                    self.assertEqual(found.kind in desk_roles.FROM_A_PAGE, wanted[0].is_from_a_page)

    def test_each_role_may_do_the_same(self):
        allowed = Map(TEXT, "role_may")
        found = [desk_roles.request_of(target) for target in TARGETS]
        acts = [it for it in found if it and it.act]
        self.assertEqual(len(acts), 16)
        names = ("s1", "s2", "clerk-1")
        for it, role, name in itertools.product(acts, desk_roles.ROLES, names):
            with self.subTest(path=it.path, role=role, name=name):
                wanted = allowed.value(f"{role}:{it.act}:{name}:{it.station}") == "1"
                self.assertEqual(it.is_allowed(name, role), wanted)

    def test_each_role_sees_the_same_slips(self):
        sees = Map(TEXT, "role_sees")
        found = [it for it in map(desk_roles.request_of, TARGETS) if it and "slips" in it.kind]
        self.assertEqual(len(found), 5)
        for it, role, name in itertools.product(found, desk_roles.ROLES, ("s1", "s2", "clerk-1")):
            with self.subTest(path=it.path, role=role, name=name):
                wanted = sees.value(f"{role}:{name}:{it.station}") == "1"
                self.assertEqual(it.is_allowed(name, role), wanted)

    def test_each_role_has_the_same_reports_below_now(self):
        there, hidden = Map(TEXT, "is_there"), set()
        for target, role, is_hidden in itertools.product(TARGETS, desk_roles.ROLES, (False, True)):
            found, wanted = desk_roles.request_of(target), located(target)
            if found and found.kind == "now":
                with self.subTest(target=target, role=role, is_hidden=is_hidden):
                    asks = "set $there $is_there" in wanted[0].text
                    said = there.value(f"{'1' if is_hidden else ''}:{role}") == "1" or not asks
                    self.assertEqual(found.is_there(role, is_hidden), said)
                    hidden |= set() if said else {(target, role)}
        targets = ("/now/results", "/now/con/c1/provisional", "/now/con/c1/result")
        self.assertEqual(hidden, set(itertools.product(targets, ("second", "station"))))

    def test_a_body_may_have_the_same_length(self):
        too_long = Map(TEXT, "is_too_long")
        lengths = (0, 1, 9, 10, 9999, 10_000, 16_383, 16_384, 16_385, 99_999, 1_048_575, 1_048_576,
                   1_048_577, 10_000_000)
        for target, length in itertools.product(TARGETS, lengths):
            found = desk_roles.request_of(target)
            if found:
                with self.subTest(target=target, length=length):
                    method = "POST" if found.kind == "command" else "GET"
                    wanted = too_long.value(f"{method}:{target}:{length or ''}") == "0"
                    self.assertEqual(length <= found.most, wanted)

    def test_roles_and_names_are_the_same(self):
        staff = re.sub(r"#.*", "", (DEPLOY / "nginx/staff.conf").read_text(encoding="utf-8"))
        roles = {role for _, role in re.findall(r"(\S+) (\w+);", staff)} | {"station"}
        self.assertEqual(set(desk_roles.ROLES), roles)
        self.assertIn(f'"~^{desk_roles.NAME}\\z" $remote_user;', TEXT)


class TheGate(unittest.TestCase):
    def test_who_shuts_it_waits_for_what_is_under_way(self):
        gate, begun, ended = desk_server.Gate(), threading.Event(), []

        def under_way():
            with gate.passed() as is_open:
                begun.set()
                time.sleep(0.3)
                ended.append(is_open)

        command = threading.Thread(target=under_way)
        command.start()
        begun.wait()
        gate.shut(60)
        self.assertEqual(ended, [True])
        command.join()
        with gate.passed() as is_open:
            self.assertFalse(is_open)

    def test_it_waits_no_longer_than_so(self):
        gate = desk_server.Gate()
        with gate.passed():
            began = time.monotonic()
            gate.shut(0.1)
            self.assertLess(time.monotonic() - began, 30)


if __name__ == "__main__":
    unittest.main()
