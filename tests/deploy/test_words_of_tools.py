"""The hour from which results are public, the names of a setup, and what tools leave where they
fail."""

import os
import re
from argparse import Namespace
from datetime import datetime, timedelta
from pathlib import Path
from unittest import mock

from tests.support.office import LISTS, PROFILE, constituency, party_list, station, with_stations
from tests.support.safeguards import Safeguards, hash_of_file, run
from tests.support.scripts import loaded, module
from tests.support.site import DEPLOY

odd_names, press_data = module("odd_names"), module("press_data")


class DeskLanguage(Safeguards):
    def test_the_clerks_page_has_the_language_of_the_site_or_else_of_the_user(self):
        desk = loaded("desk")
        rows = (('language = "es"\n', "C", "es"), ('title = "x"\n', "es_ES.UTF-8", "en"),
                ('language = "en"\n', "es_ES.UTF-8", "en"), (None, "es_ES.UTF-8", "es"),
                (None, "C", "en"), ("language = \n", "es_ES.UTF-8", "es"))
        for site, asked, language in rows:
            folder = Path("site")
            folder.mkdir(exist_ok=True)
            (folder / "site.toml").unlink(missing_ok=True)
            if site:
                (folder / "site.toml").write_text(site, encoding="utf-8")
            with (self.subTest(site=site, asked=asked),
                  mock.patch.dict(os.environ, {"LC_ALL": asked})):
                page = desk.clerks_page(Namespace(site=folder))
                self.assertIn(f'<html lang="{language}"', page)


class Embargo(Safeguards):
    def test_what_is_no_hour(self):
        """A file that is there stays as it is."""
        Path("embargo.conf").write_text("as it was", encoding="utf-8")
        past = (datetime.now().astimezone() - timedelta(days=365)).isoformat()
        for word in ("", past, "tomorrow", "2100-11-29T20:00:00", "1960-01-01T00:00:00+00:00"):
            with self.subTest(word=word):
                printed, said = run("embargo", word, "embargo.conf", status=2)
                self.assertEqual((printed, said.count("\n")), ("", 1))
                self.assertEqual(Path("embargo.conf").read_text(), "as it was")
        self.assertEqual(run("embargo", status=2)[0], "")
        self.assertIn("is past", run("embargo", past, status=2)[1])
        self.assertEqual(os.listdir(), ["embargo.conf"])

    def test_until_when_nothing_is_public(self):
        hour = datetime.now().astimezone().replace(microsecond=0) + timedelta(
            hours=3, minutes=12, seconds=30
        )
        printed, said = run("embargo", hour.isoformat())
        self.assertEqual(said, f"nothing is public until {hour.isoformat()}, in 0 d 3 h 12 min\n")
        self.assertIn('" office;', printed)
        reload = ", once the proxy is reloaded: nginx -t && systemctl reload nginx\n"
        self.assertEqual(run("embargo", hour.isoformat(), "embargo.conf"),
                         ("", said.rstrip("\n") + reload))
        self.assertEqual(
            (Path("embargo.conf").read_text(), os.stat("embargo.conf").st_mode & 0o777),
            (printed, 0o644),
        )

    def test_at_once_is_said(self):
        past = "2020-11-29T20:00:00+01:00"
        now, said = run("embargo", "now")
        self.assertEqual(
            (now, said),
            ((DEPLOY / "nginx/embargo.conf").read_text(), "everything is public at once\n"),
        )
        self.assertEqual(run("embargo", past, "--past")[1], "everything is public at once\n")
        self.assertEqual(run("embargo", "now", "embargo.conf")[1],
                         "everything is public at once, once the proxy is reloaded: "
                         "nginx -t && systemctl reload nginx\n")


def setup_of(*names, codes=("A", "B", "C")):
    lists = "".join(party_list(code, name, f"Candidate {code}") for code, name in zip(codes, names))
    return PROFILE + constituency("c1", "Twin Town", 3, "d0") + lists + station("s1")


class Names(Safeguards):
    def test_names_that_a_reader_takes_for_others(self):
        rows = {
            ("Alpha", "Beta"): [],
            ("Ałpha", "Beta", "Ñandú"): [],
            ("שלום", "Beta"): [],
            ("Alpha", "Alph\u0430"): [
                "has letters of two alphabets in Alph\\u0430",
                "Alpha and Alph\\u0430 look alike",
            ],
            ("Alpha\u202e", "Beta"): ["has U+202E, which no reader sees"],
            ("Al\u200bpha", "Alpha"): ["has U+200B, which no reader sees", "look alike"],
            ("Unión", "UNION"): ["look alike"],
            ("A\x9bB", "Beta"): ["has U+009B, which no reader sees"],
            ("Sol", "Sol\u3164"): ["Sol\\u3164 has U+3164, which no reader sees"],
            ("\u054fol", "Beta"): ["has letters of two alphabets in \\u054fol"],
        }
        for names, wanted in rows.items():
            with self.subTest(names=names):
                lists = [
                    {"code": str(n), "name": name, "candidates": []} for n, name in enumerate(names)
                ]
                found = odd_names.warnings(
                    [{"code": "c1", "name": "Town", "lists": lists, "stations": []}]
                )
                self.assertEqual(len(found), len(wanted))
                for said, words in zip(found, wanted):
                    self.assertIn(words, said)
                    self.assertTrue(said.isascii(), said)

    def test_setup_json_warns_of_them(self):
        Path("setup.toml").write_text(setup_of("Alpha", "Alph\u0430"), encoding="utf-8")
        printed, said = run("setup-json", "setup.toml", ".")
        self.assertEqual(said.count("look at this name: "), 2)
        self.assertNotIn("look at", printed)
        Path("plain.toml").write_text(with_stations(1), encoding="utf-8")
        self.assertEqual(run("setup-json", "plain.toml", ".")[1], "")

    def test_a_station_called_as_one_of_the_staff(self):
        Path("staff.conf").write_text(
            "# nobody s9;\nClara clerk;\nsara second;\n", encoding="utf-8"
        )
        for code, refused in (
            ("clara", True),
            ("SARA", True),
            ("logout", True),
            ("s9", False),
            ("s1", False),
        ):
            with self.subTest(code=code):
                text = PROFILE + constituency("c1", "Twin Town", 3, "d0") + LISTS + station(code)
                Path("setup.toml").write_text(text, encoding="utf-8")
                Path("codes.conf").write_text("as it was", encoding="utf-8")
                said = run("setup-json", "setup.toml", ".", "codes.conf", status=int(refused))[1]
                self.assertEqual(f"station {code} is called as one of the staff" in said, refused)
                self.assertEqual(Path("codes.conf").read_text() == "as it was", refused)

    def test_a_list_called_as_a_column(self):
        """Its votes would be in a second column of that name, in the returns or in the places."""
        columns = {name for fields in (press_data.STATION, press_data.PLACE) for name in fields}
        self.assertEqual(columns, {"station", "slip", "blank", "spoiled", "place", "stations",
                                   "closed", "electors"})
        shown = "station, slip, blank, spoiled, place, stations, closed, electors"
        codes = [*columns, "closed".upper(), "Electors", "votes", "closed-", "A"]
        for code in codes:
            with self.subTest(code=code):
                refused = code.lower() in columns
                lists = party_list("Z", "Zeta", "Zoe") + party_list(code, "Alpha", "Ana")
                text = PROFILE + constituency("c1", "Twin Town", 3, "d0") + lists + station("s1")
                Path("setup.toml").write_text(text, encoding="utf-8")
                Path("codes.conf").write_text("as it was", encoding="utf-8")
                said = run("setup-json", "setup.toml", ".", "codes.conf", status=int(refused))[1]
                wanted = (f"failed: setup.toml: list {code} of c1 is called as a column of the "
                          f"published CSV files, which are {shown}: give it another code\n")
                self.assertEqual(said, wanted if refused else "")
                self.assertEqual(Path("codes.conf").read_text() == "as it was", refused)

    def test_what_the_proxy_gets_to_know(self):
        Path("setup.toml").write_text(with_stations(1), encoding="utf-8")
        self.assertEqual(run("setup-json", "setup.toml", ".", "codes.conf"), ("", ""))
        text = Path("codes.conf").read_text()
        self.assertEqual(
            re.findall("^    ([0-9a-f]{64}) 0;$", text, re.M), [hash_of_file("setup.json")]
        )
        # A setup that cannot be read leaves what was there.
        Path("setup.toml").write_text("[" * 100_000, encoding="utf-8")
        said = run("setup-json", "setup.toml", ".", "codes.conf", status=1)[1]
        self.assertEqual((said.count("\n"), Path("codes.conf").read_text()), (1, text))
