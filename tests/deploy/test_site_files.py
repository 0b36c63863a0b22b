"""The files of a site: texts, colours, a map, names of stations."""

import os
import re
import sys
import tomllib
from pathlib import Path

from tests.support import tools
from tests.support.countries import four, many_stations, sixty_lists
from tests.support.desks import answering_desk, done
from tests.support.pages import TWIN, page_of, press, read, shown_text, site_folder
from tests.support.running import PATIENCE
from tests.support.scripts import module
from tests.support.site import DEPLOY, SiteCase


def contrast(one, other):
    """The contrast of two colours after WCAG 2."""
    def light(colour):
        parts = [int(colour[n:n + 2], 16) / 255 for n in (1, 3, 5)]
        return sum(weight * (part / 12.92 if part <= 0.04045 else ((part + 0.055) / 1.055) ** 2.4)
                   for weight, part in zip((0.2126, 0.7152, 0.0722), parts))
    low, high = sorted((light(one), light(other)))
    return (high + 0.05) / (low + 0.05)


class SiteFiles(SiteCase):
    def refused_site(self, port, words, **files):
        """A folder with this file is refused, in these words."""
        found = tools.run([sys.executable, DEPLOY / "press.py", f"http://127.0.0.1:{port}",
                           "wrong", *site_folder(**files)], capture_output=True, text=True,
                          timeout=PATIENCE)
        self.assertEqual(found.returncode, 1, found)
        self.assertIn(words, found.stderr, found)
        self.assertNotIn("Traceback", found.stderr, found)

    def test_the_texts_of_a_site(self):
        """Title, day, authority, licence and language are those of the folder; Spanish has its own
        numbers and days. The texts of each language are the same ones, with the same places."""
        say = ('title = "Elecciones & más"\ndate = 2026-11-29\nauthority = "Junta"\n'
               'licence = "CC-BY-4.0"\nlanguage = "es"\n')
        with four() as (_, port):
            press(port, "--setup", "setup.toml", *site_folder(site=say))
            text = shown_text(read("index.html"))
            for name in ("index.html", "count.html", "con-norte.html", "stations-norte-1.html"):
                with self.subTest(name=name):
                    page_of(name)
                    self.assertIn('<html lang="es">', read(name))
                    self.assertIn("Elecciones &amp; más", read(name))
                    self.assertIn("Licencia de los datos: CC-BY-4.0.", read(name))
                    self.assertEqual(
                        re.findall(r"\b(?:list|seats|votes|stations?|the|returns|of|is)\b",
                                   shown_text(read(name))), [])
            self.assertIn("<h1>Elecciones &amp; más</h1>", read("index.html"))
            self.assertIn("29 de noviembre de 2026 · Junta", text)
            self.assertIn("B tendría un escaño más en Norte, y A uno menos, con 11 votos más", text)
            self.assertIn("42,89 %", text)
            self.assertIn("453 de 2.100 electores", text)
            for site, words in (('language = "xx"', "no texts of the language 'xx'"),
                                ("title = ", "Invalid value"),
                                ('date = "today"',
                                 "date is 'today': write a day such as 2026-11-29"),
                                ('date = "2026-02-30"', "write a day such as 2026-11-29"),
                                ("title = 3", "title is 3: write a text in quotes"),
                                ("board = 3", "board is 3: write tables [[board]]"),
                                ('language = "../en"', "no texts of the language")):
                with self.subTest(site=site, words=words):
                    self.refused_site(port, words, site=site)
        texts = {file.name: tomllib.loads(file.read_text(encoding="utf-8"))
                 for file in DEPLOY.glob("press_*.toml")}
        self.assertEqual(sorted(texts), ["press_en.toml", "press_es.toml"])

        def places(of):
            # (in the form for one thing the number may be a word)
            return {key: sorted(set(re.findall(r"\{\w*\}", str(value))))
                    for key, value in {**of, **of["methods"]}.items()}

        self.assertEqual(places(texts["press_es.toml"]), places(texts["press_en.toml"]))

    def test_a_name_that_no_page_has_room_for(self):
        site = module("press_site")
        for name, place in (("N" * 301, "P"), ("N", "P" * 301), ("N" * 300, "P" * 300)):
            site_folder(stations=f"station,name,place\ns1,{name},{place}\n")
            with self.subTest(name=len(name), place=len(place)):
                if max(len(name), len(place)) == 300:
                    self.assertEqual(site.Site(Path("site")).names, {"s1": name})
                else:
                    with self.assertRaisesRegex(site.Wrong, "s1: a name of more than 300 letters"):
                        site.Site(Path("site"))

    def test_a_title_that_looks_like_a_moment(self):
        """A file says its moment in one place, and the rounds after it read it there."""
        with answering_desk(TWIN) as (port, _):
            for _ in range(2):
                press(port, *site_folder(site="title = '\"time\": \"x\" <updated>x<'\n"))
        self.assertIn('"time": "x" &lt;updated', read("feed.atom"))

    def test_the_day_in_quotes_or_without(self):
        with four() as (_, port):
            for day in ("2026-11-29", '"2026-11-29"', '" 2026-11-29 "',
                        "2026-11-29T09:00:00+01:00"):
                with self.subTest(day=day):
                    press(port, "--setup", "setup.toml", *site_folder(site=f"date = {day}\n"))
                    self.assertIn("29 November 2026", shown_text(read("index.html")))

    def test_the_colours_of_lists(self):
        """Each has a contrast of 3 with every ground, light and dark, those of a file too;
        certified neighbours in a half circle have one of 1.5, or one of them has a rim around
        each dot. No certified dot is hollow. A list has the same colour on each page."""
        self.assertEqual(
            (round(contrast("#000000", "#ffffff"), 2), round(contrast("#777777", "#ffffff"), 2)),
            (21.0, 4.48))
        style = (DEPLOY / "press.css").read_text(encoding="utf-8")
        grounds = [re.findall(rf"--{ground}: (#[0-9a-f]{{6}})", style)
                   for ground in ("paper", "sheet", "track")]
        self.assertEqual([len(found) for found in grounds], [2, 2, 2])
        colours = "list,colour\nA,#d1495b\nB,#2f8f4e\nC,#ffee00\n"
        with four() as (_, port):
            press(port, "--setup", "setup.toml", folder="own")
            press(port, "--setup", "setup.toml", *site_folder(colours=colours))
            for wrong, words in (("list,colour\nA,red\n", "A: not a colour such as #12538c"),
                                 ("list,colour\nA\n", "A: not a colour"),
                                 ("code,colour\n", "no column list")):
                with self.subTest(wrong=wrong, words=words):
                    self.refused_site(port, words, colours=wrong)
        with answering_desk(sixty_lists()) as (port, _):
            press(port, folder="sixty")
        # A red and a green that differ by 1.07 only: B beside A has a rim around each dot.
        for folder, name, rimmed in (("pages", "con-norte", ["B"]), ("own", "con-norte", []),
                                    ("pages", "index", []), ("own", "index", []),
                                    ("sixty", "con-c1", None)):
            with self.subTest(folder=folder, name=name, rimmed=rimmed):
                text = read(f"{name}.html", folder)
                given = {code: colours for code, *colours
                         in re.findall(r"\.list-([\w-]+)\{--light:(#\w{6});--dark:(#\w{6})\}",
                                       text)}
                for code, pair in given.items():
                    for ground in grounds:
                        self.assertTrue(all(contrast(colour, under) >= 3
                                            for colour, under in zip(pair, ground)),
                                        (code, pair, ground))
                # (provisional seats are hollow, and known by the labels beside them)
                width = float(re.search(r'viewBox="[^"]+" stroke-width="([\d.]+)"', text)[1])
                drawn = []
                for code, inner in re.findall(r'<g class="list-([\w-]+)">(.*?)</g>', text):
                    kinds = re.findall('<path class="([^"]+)"', inner)
                    drawn.append((code, "rim" in kinds, "hole" in kinds))
                    self.assertIn(kinds, ([], ["rim", "within"], ["hole"]))
                    if "rim" in kinds:  # the dots again, smaller, in the colour of the list
                        dots, within = re.findall(r' d="([^"]+)"', inner)
                        self.assertEqual(within, dots)
                        [smaller] = re.findall('class="within"[^>]* stroke-width="([^"]+)"', inner)
                        self.assertTrue(0.6 * width < float(smaller) < 0.8 * width, smaller)
                self.assertGreater(len(drawn), 1)
                for (one, rim, hollow), (other, next_rim, next_hollow) in zip(drawn, drawn[1:]):
                    self.assertTrue(rim != next_rim or hollow or next_hollow
                                    or all(contrast(a, b) >= 1.5
                                           for a, b in zip(given[one], given[other])), (one, other))
                if rimmed is not None:
                    self.assertEqual([code for code, rim, _ in drawn if rim], rimmed)
                # Hollow are provisional seats alone: on these pages, those of B and D in all.
                self.assertEqual([code for code, _, hollow in drawn if hollow],
                                 ["B", "D"] if name == "index" else [])
        of_pages = {re.search(r"\.list-A\{.*?\}", read(f"{name}.html"))[0]
                    for name in ("index", "con-norte", "con-este", "con-sur", "con-oeste")}
        self.assertEqual(of_pages, {".list-A{--light:#d1495b;--dark:#d1495b}"})
        # A yellow is as it is in the dark, and darker on light paper.
        self.assertEqual(
            re.search(r"\.list-C\{--light:(#\w+);--dark:(#\w+)\}", read("index.html"))[2],
            "#ffee00")

    def test_a_map(self):
        """Its shapes have the colour of the first list, pale without a certificate, and are links;
        an empty text within one shows the code of that list. How often each list is first is below
        it, and nothing else of the file is on the page."""
        drawn = ('<svg xmlns="http://www.w3.org/2000/svg" viewBox="0 0 9 9" '
                 'onload="alert(1)"><script>alert(1)</script><style>*{fill:red}</style>'
                 '<image href="https://example.org/x.png"/><path id="norte" d="M0 0H4V4Z" '
                 'onclick="alert(1)" style="fill:red"/>'
                 '<g id="este"><rect x="5" y="0" width="2" height="2"/><text x="6" y="1" '
                 'font-size="1"/></g><path id="oeste" d="M5 5h3v3z"/><path id="nowhere" '
                 'd="M0 8h1"/><text x="0" y="9">The &lt;sea&gt;</text></svg>')
        with four() as (_, port):
            press(port, "--setup", "setup.toml", *site_folder(map=drawn))
            text = read("index.html")
            page_of("index.html")
            picture = re.search(r'<figure class="map".*?</figure>', text, re.S)[0]
            self.assertNotRegex(picture, r"script|style|image|onclick|onload|nowhere")
            for part in ('<a href="con-norte.html" class="con list-A">'
                         '<title>\u2068Norte\u2069: A</title><path d="M0 0H4V4Z"></path></a>',
                         '<a href="con-este.html" class="con list-B"><title>\u2068Este\u2069: B'
                         '</title><g><rect x="5" y="0" width="2" height="2"></rect>',
                         '<text x="6" y="1" font-size="1">B</text>',
                         '<a href="con-oeste.html" class="con list-D pale">'
                         '<title>\u2068Óeste &lt;3&gt;\u2069: D (not certified)</title>'
                         '<path d="M5 5h3v3z"></path></a>',
                         '<path d="M0 8h1"></path>', '<text x="0" y="9">The &lt;sea&gt;</text>',
                         '<b class="code list-B">B</b> 2</span>'):
                with self.subTest(part=part):
                    self.assertIn(part, picture)
            self.refused_site(port, "map.svg", map="<svg")
            self.refused_site(port, "map.svg: more than 30 groups within one another",
                              map=f"<svg>{'<g>' * 400}{'</g>' * 400}</svg>")
            self.refused_site(port, "map.svg: more than 100000 bytes",
                              map=f"<svg><path d='{'M0 0' * 25_000}'/></svg>")
            Path("site/map.svg").write_bytes("<svg>é</svg>".encode("latin-1"))
            self.refused_site(port, "map.svg: not UTF-8")
            press(port, "--setup", "setup.toml", folder="none")
            self.assertNotIn('class="map"', read("index.html", "none"))

    def test_pages_of_stations(self):
        """They have each return of a certificate, with the name of its station and its electors;
        long ones go on on further pages. Without a certificate they have what each return is, and
        the figures of closed ones alone."""
        names = "station,name\nn1,\"School <old>, hall\"\nx,elsewhere\n"
        with four() as (office, port):
            press(port, "--setup", "setup.toml", *site_folder(stations=names))
            self.assertEqual(page_of("stations-norte-1.html").tables["Returns station by station"],
                             [
                                 ["Station", "electors", "A", "B", "C", "blank", "spoiled"],
                                 ["n1 School <old>, hall", "500", "60", "50", "5", "5", "1"],
                                 ["n2", "500", "40", "40", "0", "0", "2"]])
            self.assertIn('href="stations-norte-1.html"', read("con-norte.html"))
            pages = [f"stations-{con}-1.html" for con in ("este", "norte", "oeste", "sur")]
            self.assertEqual(sorted(name for name in os.listdir("pages")
                                    if re.match(r"stations-.*\.html$", name)), pages)
            self.assertEqual(page_of("stations-oeste-1.html").tables["Returns station by station"],
                             [
                                 ["Station", "return", "electors", "D", "A", "B", "blank",
                                  "spoiled"], ["o1", "counted", "400", "90", "7", "3", "0", "0"],
                                 ["o2", "none", "400", *"–––––"]])
            self.assertIn("There is no certificate yet: 1 of 2 polling stations are counted.",
                          shown_text(read("stations-oeste-1.html")))
            self.assertEqual(read("stations-oeste-open.csv"),
                             "station,slip,blank,spoiled,A,B,D\no1,p1,0,0,7,3,90\n")
            self.assertIn('href="stations-oeste-1.html"', read("con-oeste.html"))
            self.assertIn('href="stations-oeste-open.csv"', read("con-oeste.html"))
            done(office, "/con/norte/reopen", {"edition": 2, "note": "a recount"})
            done(office, "/station/n2/query", {"rev": 2, "note": "a recount"})
            press(port, "--setup", "setup.toml", *site_folder(stations=names))
            self.assertEqual(page_of("stations-norte-1.html").tables["Returns station by station"][
                1:], [
                ["n1 School <old>, hall", "counted", "500", "60", "50", "5", "5", "1"],
                ["n2", "queried", "500", *"–––––"]])
            self.assertEqual([name for name in sorted(os.listdir("pages"))
                              if re.match(r"stations-norte-.*csv$", name)],
                             ["stations-norte-2.csv", "stations-norte-open.csv"])
            # With the certificate the file of before goes, as without the setup.
            done(office, "/station/n2/correct",
                 {"rev": 3, "slip": "p3", "votes": [40, 40, 1], "blank": 0, "spoiled": 2})
            done(office, "/station/n2/close", {"rev": 4})
            done(office, "/con/norte/certify", {"edition": 3})
            press(port, "--setup", "setup.toml", *site_folder(stations=names))
            self.assertEqual([name for name in sorted(os.listdir("pages"))
                              if re.match(r"stations-norte-.*csv$", name)],
                             ["stations-norte-2.csv", "stations-norte-4.csv"])
            self.assertEqual(
                page_of("stations-norte-1.html").tables["Returns station by station"][2],
                ["n2", "500", "40", "40", "1", "0", "2"])
            self.assertNotIn("open.csv", read("con-norte.html"))
            press(port, *site_folder(stations=names))
            self.assertEqual([name for name in os.listdir("pages")
                              if re.match(r"stations-.*(html|open.csv)$", name)
                              and "norte" not in name and "este-1" not in name], [])
            self.assertNotIn("The return of each polling station is published once it is counted.",
                             read("con-oeste.html"))
            self.assertNotIn("stations-oeste", read("con-oeste.html"))
        many_stations()
        pages = [f"stations-c1-{n}.html" for n in range(1, 4)]
        self.assertEqual(
            sorted(name for name in os.listdir("many") if re.match(r"stations-.*\.html$", name)),
            pages)
        rows = [row for name in pages
                for row in page_of(name, "many").tables["Returns station by station"][1:]]
        self.assertEqual(rows,
                         [[f"s{n}", "300", str(n % 100), "1", "0", "0"] for n in range(1, 1001)])
        links = re.search('<p class="parts">.*?</p>', read(pages[1], "many"))[0]
        self.assertEqual(re.findall('href="(.*?)"', links), [pages[0], pages[2]])
        self.assertTrue(re.match(r's\d+ – s\d+', re.search("<b.*?>(.*?)</b>", links)[1]))
