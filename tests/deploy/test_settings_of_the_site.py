"""The settings of the press pages at their edges, in process: colours, numbers and times in words,
and what each file of the folder may have."""

import base64
from datetime import date, datetime, timedelta, timezone
from pathlib import Path
from types import SimpleNamespace
from zoneinfo import ZoneInfo

from tests.support.case import Case
from tests.support.scripts import module

press_site = module("press_site")

LIGHT, DARK = press_site.TRACKS
NOON = datetime(2026, 11, 29, 12, tzinfo=timezone.utc)


def site_of(about="", **files):
    """The site of a folder with these files."""
    folder = Path("site")
    folder.mkdir(exist_ok=True)
    for name, text in {"site.toml": about, **files}.items():
        (folder / name.replace("_", ".")).write_text(text, encoding="utf-8")
    return press_site.Site(folder)


def nested(deep):
    """A drawing of this many elements, each within the one before."""
    return f"<svg>{'<g>' * (deep - 1)}{'</g>' * (deep - 1)}</svg>"


class Colours(Case):
    def test_how_light_a_colour_is(self):
        """By the table of sRGB: what WCAG 2 has for the parts 10 and 11, on both sides of where its
        formula changes, and for each colour alone."""
        for colour, light in (("#000000", 0), ("#ffffff", 1), ("#ff0000", 0.2126),
                              ("#00ff00", 0.7152), ("#0000ff", 0.0722), ("#0a0a0a", 0.003035),
                              ("#0b0b0b", 0.003347), ("#bcbcbc", 0.502886),
                              ("#123456", 0.032565)):
            with self.subTest(colour=colour):
                self.assertAlmostEqual(press_site.light_of(colour), light, places=5)
        self.assertAlmostEqual(press_site.light_of("#0a0a0a"), 0.00303527, places=8)

    def test_a_colour_is_changed_as_little_as_it_needs(self):
        """By a twentieth of its way to black or white at a time, until its contrast is 3."""
        for colour, ground, wanted in (
                ("#868686", LIGHT, "#868686"), ("#878787", LIGHT, "#808080"),
                ("#919191", LIGHT, "#828282"), ("#ffff00", LIGHT, "#808000"),
                ("#000000", DARK, "#808080"), ("#151515", DARK, "#7e7e7e"),
                ("#12538c", LIGHT, "#12538c")):
            with self.subTest(colour=colour, ground=ground):
                self.assertEqual(press_site.readable(colour, ground), wanted)

    def test_which_colours_are_alike(self):
        """Where they are in the light or in the dark."""
        dark, grey, light = "#000000", "#777777", "#ffffff"
        for one, other, wanted in (((dark, dark), (light, light), False),
                                   ((dark, dark), (dark, light), True),
                                   ((dark, dark), (light, dark), True),
                                   ((grey, grey), (dark, light), False)):
            with self.subTest(one=one, other=other):
                self.assertEqual(press_site.like(one, other), wanted)

    def test_lists_have_colours_in_the_order_in_which_they_are_met(self):
        """After twelve lists the first colours come again. Those of the board's file stay."""
        it = site_of(colours_csv="list,colour\nL02,#000040\n")
        it.meet([f"L{n:02}" for n in range(14)])
        it.meet(["L13", "L00"])
        self.assertEqual([it.colours_of(f"L{n:02}") for n in (0, 1, 11, 12, 13)],
                         [press_site.PALETTE[n] for n in (0, 1, 11, 0, 1)])
        self.assertEqual(it.colours_of("L02")[0], "#000040")
        self.assertEqual(it.colours_in(["L01", "L12"]), [
            ("L01", "#cc5f20", "#ffc08a"), ("L12", "#0f4775", "#2f7dc0")])


class Words(Case):
    def setUp(self):
        super().setUp()
        self.english = press_site.Site()
        self.spanish = site_of('language = "es"\n')

    def test_numbers(self):
        for value, english, spanish in ((0, "0", "0"), (999, "999", "999"),
                                        (1000, "1,000", "1.000"),
                                        (1234567, "1,234,567", "1.234.567")):
            self.assertEqual((self.english.number(value), self.spanish.number(value)),
                             (english, spanish))
        for value, english, spanish in ((0, "0.00%", "0,00 %"), (5, "0.05%", "0,05 %"),
                                        (4289, "42.89%", "42,89 %"),
                                        (10000, "100.00%", "100,00 %")):
            self.assertEqual((self.english.share(value),
                              self.spanish.share(value).replace("\u00a0", " ")), (english, spanish))
        for value, wanted in ((0, "±0"), (1, "+1"), (-1, "−1"), (12, "+12")):
            self.assertEqual(self.english.change(value, str), wanted)

    def test_one_thing_and_several(self):
        for many, wanted in ((0, "0 of 0"), (1, "1 of 1"), (2, "2 of 2"), (1000, "1,000 of 1,000")):
            self.english.words = self.english.words | {"thing": ["{number} of 1",
                                                                 "{number} of {number}"]}
            with self.subTest(many=many):
                self.assertEqual(self.english.say("thing", many=many), wanted)

    def test_names_one_after_the_other(self):
        for names, english, spanish in (
                (["A"], "A", "A"), (["A", "B"], "A and B", "A y B"),
                (["A", "B", "Iris"], "A, B and Iris", "A, B e Iris"),
                (["A", "Hijos"], "A and Hijos", "A e Hijos"),
                (["A", "Hielo"], "A and Hielo", "A y Hielo"),
                (["A", "\u2068Iris\u2069"], "A and \u2068Iris\u2069", "A e \u2068Iris\u2069")):
            with self.subTest(names=names):
                self.assertEqual((self.english.listed(names), self.spanish.listed(names)),
                                 (english, spanish))
        for names, english, spanish in ((["A", "B"], "A or B", "A o B"),
                                        (["A", "Oeste"], "A or Oeste", "A u Oeste"),
                                        (["A", "Iris"], "A or Iris", "A o Iris")):
            with self.subTest(names=names):
                self.assertEqual((self.english.one_of(names), self.spanish.one_of(names)),
                                 (english, spanish))

    def test_how_long_ago_something_was(self):
        """In the largest unit of which it has one, rounded down."""
        for seconds, wanted in (
                (0, "0 seconds"), (0.9, "0 seconds"), (1, "1 second"), (1.9, "1 second"),
                (59.9, "59 seconds"), (60, "1 minute"), (119, "1 minute"), (120, "2 minutes"),
                (3599, "59 minutes"), (3600, "1 hour"), (86399, "23 hours"), (86400, "1 day"),
                (172799, "1 day"), (172800, "2 days")):
            with self.subTest(seconds=seconds):
                self.assertEqual(self.english.age_of(NOON, NOON + timedelta(seconds=seconds)),
                                 wanted)
        # (a clock that was put back)
        self.assertEqual(self.english.age_of(NOON, NOON - timedelta(seconds=9)), "0 seconds")
        for seconds, wanted in ((-5, "now"), (0.9, "now"), (1, "1 second"), (1.9, "1 second"),
                                (60, "1 minute")):
            with self.subTest(change=seconds):
                self.english.words = self.english.words | {
                    "last_change_now": "{moment} now", "last_change": "{moment} {age}"}
                self.assertEqual(self.english.change_said(
                    "noon", NOON, NOON + timedelta(seconds=seconds)), f"noon {wanted}")

    def test_days_and_hours(self):
        """In the zone of the site; of one without a name its difference is shown."""
        self.assertEqual([self.spanish.day(date(2026, month, 9)) for month in (1, 12)],
                         ["9 de enero de 2026", "9 de diciembre de 2026"])
        for zone, wanted in (("Europe/Madrid", "13:00 CET"), ("UTC", "12:00 UTC"),
                             ("America/Sao_Paulo", "09:00 UTC-03")):
            with self.subTest(zone=zone):
                self.english.zone = ZoneInfo(zone)
                self.assertEqual(self.english.hour(NOON), wanted)
                self.assertEqual(self.english.moment(NOON), f"29 November 2026, {wanted}")

    def test_a_fault_of_a_template(self):
        for error, wanted in (
                (SimpleNamespace(name="a.html", lineno=3, message="wrong"),
                 "a.html, line 3: wrong"),
                (SimpleNamespace(message="wrong"), "wrong"),
                (press_site.TemplateError(), "TemplateError")):
            self.assertEqual(press_site.fault_of(error), wanted)


class Folder(Case):
    """The files of the folder, and their limits."""

    def refused(self, words, about="", **files):
        with self.subTest(words=words, about=about, files=files):
            with self.assertRaisesRegex(press_site.Wrong, words):
                site_of(about, **files)
            for name in files:
                Path("site", name.replace("_", ".")).unlink()

    def test_the_settings(self):
        for about in ('accessibility = "access.html"', 'accessibility = ""',
                      'accessibility = "https://example.org/a?b&c"', 'address = ""',
                      'address = "https://results.example.org"',
                      'address = "http://example.org/a/b"', 'timezone = "Europe/Madrid"',
                      '[nl]\ntitle = "x"', '[es]\ntitle = "x"', 'languages = ["es"]'):
            with self.subTest(about=about):
                site_of(about)
        for words, about in (
                ("accessibility is not an address", 'accessibility = "a b"'),
                ("accessibility is not an address", 'accessibility = "https://"'),
                ("address is not one such", 'address = "https://example.org/"'),
                ("address is not one such", 'address = "https://example.org?a"'),
                ("address is not one such", 'address = "example.org"'),
                ("no time zone 'Nowhere'", 'timezone = "Nowhere"'),
                ("no texts of the language 3", "languages = [3]"),
                ("no texts of the language 'nl'", 'languages = ["nl"]'),
                ("the language 'en' is named twice", 'languages = ["en"]'),
                ("the language 'es' is named twice", 'languages = ["es", "es"]'),
                ("provisional is 0: write true or false", "provisional = 0"),
                ("no key is called 'titel'", 'titel = "x"'),
                ("no key of .es. is called 'titel'", '[es]\ntitel = "x"'),
                ("zone is of all languages, not of .es. alone", '[es]\ntimezone = "UTC"'),
                ("3 is no table of texts of a language", "es = 3"),
                ("board is not tables", '[[board]]\nname = "Ana"')):
            self.refused(words, about)

    def test_a_member_of_the_board(self):
        good = {"name": "Ana", "role": "chair"}
        for member, wanted in (
                (good, True), (good | {"con": "c1"}, True), (good | {"age": "9"}, False),
                (good | {"con": "c1", "age": "9"}, False), ({"name": "Ana"}, False),
                ({"name": "Ana", "con": "c1"}, False), (good | {"role": ""}, False),
                (good | {"role": 3}, False), ("name and role", False)):
            with self.subTest(member=member):
                self.assertEqual(press_site.is_member(member), wanted)

    def test_a_day(self):
        for value, wanted in (
                (" 2026-11-29 ", date(2026, 11, 29)), (date(2026, 11, 29), date(2026, 11, 29)),
                (datetime(2026, 11, 29, 9), date(2026, 11, 29)), ("2026-02-30", "2026-02-30"),
                ("today", "today"), (3, 3), ("٢٠٢٦-11-29", "٢٠٢٦-11-29")):
            with self.subTest(value=value):
                self.assertEqual(press_site.day_of(value), wanted)

    def test_files_that_are_tables(self):
        """Empty ones have no column. A place may be left out, and the valid votes of before."""
        it = site_of(stations_csv="station,name,place\ns1,School,Ribera\ns2,Hall,\ns3,\n",
                     before_csv="con,list,votes,seats,valid\nc1,A,60,2,100\nc1,B,40,1,100\n"
                                "c2,A,7,0,\n", colours_csv="list,colour\nA,#12538C\n")
        self.assertEqual((it.names, it.places), (
            {"s1": "School", "s2": "Hall", "s3": ""}, {"s1": "Ribera"}))
        self.assertEqual(it.former, {
            "c1": {"valid": 100, "votes": {"A": 60, "B": 40}, "seats": {"A": 2, "B": 1}},
            "c2": {"valid": None, "votes": {"A": 7}, "seats": {"A": 0}}})
        self.assertEqual(it.colours, {"A": ("#12538c", press_site.readable("#12538c", DARK))})
        self.assertEqual(it.for_clerks(), {
            "stations": {"s1": {"name": "School", "place": "Ribera"},
                         "s2": {"name": "Hall", "place": ""}, "s3": {"name": "", "place": ""}},
            "former": {"c1": {"A": 60, "B": 40}, "c2": {"A": 7}}})
        # (a file without the column of places)
        self.assertEqual(site_of(stations_csv="station,name\ns1,School\n").places, {})
        self.assertEqual(site_of(before_csv="con,list,votes,seats\n").for_clerks(), {
            "stations": {"s1": {"name": "School", "place": ""}}, "former": {}})
        self.assertEqual(site_of(stations_csv="station,name\n", before_csv=(
            "con,list,votes,seats\nc1,A,1,0\n")).for_clerks(),
            {"stations": {}, "former": {"c1": {"A": 1}}})
        self.assertIsNone(press_site.Site().for_clerks())
        self.refused("no column station, name", stations_csv="")
        self.refused("no column name", stations_csv="station\ns1\n")
        self.refused("c1, A: invalid literal", before_csv="con,list,votes,seats\nc1,A,1,x\n")
        self.refused("A: not a colour", colours_csv="list,colour\nA,#12538g\n")
        self.refused("A: not a colour", colours_csv="list,colour\nA,#12538c0\n")

    def test_a_drawing(self):
        """Its shapes with what places them, their identifiers and texts; nothing else."""
        self.assertIsNone(press_site.Site().map)
        it = site_of(map_svg='<svg xmlns="http://www.w3.org/2000/svg" viewBox="0 0 9 9" a="b">\n'
                             '<script>x</script><g id="c1">x<text x="1"> A </text><text/></g>'
                             "</svg>")
        self.assertEqual(it.map, ("svg", None, {"viewBox": "0 0 9 9"}, [
            ("g", "c1", {}, [("text", None, {"x": "1"}, [], "A"), ("text", None, {}, [], "")], "")],
            ""))
        room = press_site.MAP_ROOM
        for size, is_taken in ((100_000, True), (100_001, False)):
            drawn = "<svg><text>" + "é" * ((size - 24) // 2) + "x" * (size % 2) + "</text></svg>"
            drawn += " " * (size - len(drawn.encode()))
            self.assertEqual((len(drawn.encode()), room), (size, 100_000))
            if is_taken:
                site_of(map_svg=drawn)
            else:
                self.refused("more than 100000 bytes", map_svg=drawn)
        self.assertTrue(site_of(map_svg=nested(30)).map)
        self.refused("more than 30 groups within one another", map_svg=nested(31))

    def test_a_logo(self):
        """It is in each page, so it may have 6000 bytes."""
        self.assertIsNone(press_site.Site().logo)
        logo = "<svg/>" + " " * 5_994
        self.assertEqual(base64.b64decode(site_of(logo_svg=logo).logo.partition(",")[2]),
                         logo.encode())
        self.refused("6001 bytes, and a logo may have 6000", logo_svg=logo + " ")

    def test_several_languages(self):
        """The pages of the first are in the folder, those of each other in one of its own; what is
        of all languages is in the first."""
        it = site_of('language = "es"\nlanguages = ["en"]\ntitle = "Elecciones"\n'
                     'licence = "CC0"\nprovisional = false\n[en]\ntitle = "Elections"\n')
        [other] = it.others
        self.assertEqual([(one.language, one.about["title"], one.about["licence"], one.data,
                           one.provisional) for one in (it, other)],
                         [("es", "Elecciones", "CC0", "", False),
                          ("en", "Elections", "CC0", "../", False)])
        self.assertEqual(it.editions(Path("pages")), [(it, Path("pages")),
                                                      (other, Path("pages/en"))])
        self.assertEqual([list(one.in_languages("a.html")) for one in (it, other)], [
            [("es", "Español", None), ("en", "English", "en/a.html")],
            [("es", "Español", "../a.html"), ("en", "English", None)]])
        self.assertEqual((other.others, press_site.Site().provisional, press_site.Site().language),
                         ([], True, "en"))
        # A list has the same colour in each.
        it.meet(["B", "A"])
        self.assertEqual(other.colours_of("A"), press_site.PALETTE[1])


class Templates(Case):
    """Templates of the board and those of this folder."""

    def test_how_a_template_is_read(self):
        """A line of a block leaves none, the last line ends, what is no template is text, and a
        name that is not known is a fault."""
        (folder := Path("templates")).mkdir()
        text = "a\n  {% if true %}\n{{ '<b>' }} {{ 'N'|name }} {{ 'N'|plain_name }}{{ more }}\n"
        (folder / "own.html").write_text(text + "  {% endif %}\n", encoding="utf-8")
        for name in (folder, Path("none")):
            found = press_site.Templates(name, "/* ours */\n  p { top: 0 }\n", more="!")
            template = found.environment.from_string(
                (folder / "own.html").read_text(encoding="utf-8"))
            self.assertEqual(template.render(),
                             "a\n&lt;b&gt; <bdi>N</bdi> \u2068N\u2069!\n")
            self.assertEqual(found.environment.from_string("the end\n").render(), "the end\n")
            self.assertTrue(found.style.endswith("p { top: 0 }\n"), found.style[-40:])
            self.assertTrue(found.style.startswith(":root{\n"), found.style[:40])
            with self.assertRaisesRegex(press_site.TemplateError, "'none_such' is undefined"):
                found.environment.from_string("{{ none_such }}").render()
