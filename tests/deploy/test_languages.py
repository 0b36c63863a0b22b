"""Pages in several languages, and what other sites show of the press pages."""

import json
import re
import struct
import zlib
from pathlib import Path

from tests.support.case import needs
from tests.support.countries import four
from tests.support.desks import answering_desk, recording_desk
from tests.support.pages import TWIN, page_of, press, read, shown_text, site_folder
from tests.support.proxy import proxy
from tests.support.scripts import module
from tests.support.site import SiteCase

press_country, press_image, press_site = (module(name) for name in (
    "press_country", "press_image", "press_site"))

TWO = ('title = "Election"\nlanguages = ["es"]\naddress = "https://results.example.org"\n'
       '[es]\ntitle = "Elecciones"\n')


def points_of(png):
    """The points of a PNG of three bytes each, by row and column."""
    width, height = struct.unpack(">II", png[16:24])
    length = struct.unpack(">I", png[33:37])[0]
    lines, wide = zlib.decompress(png[41:41 + length]), width * 3 + 1
    return width, height, lambda x, y: tuple(lines[y * wide + 1 + x * 3:y * wide + 4 + x * 3])


class Languages(SiteCase):
    def test_pages_side_by_side(self):
        """Each page has its like in the other language, and links to it; each link leads to a file
        that is there. The files for programs are there once."""
        with four() as (_, port):
            press(port, "--setup", "setup.toml", *site_folder(site=TWO))
        pages = sorted(file.name for file in Path("pages").glob("*.html"))
        self.assertEqual(sorted(file.name for file in Path("pages/es").glob("*.html")), pages)
        self.assertEqual([file.name for file in Path("pages/es").glob("*.csv")], [])
        for name in pages:
            for folder, title, language in (("pages", "Election", "en"),
                                            ("pages/es", "Elecciones", "es")):
                with self.subTest(name=name, folder=folder):
                    text = read(name, folder)
                    self.assertIn(f'<html lang="{language}">', text)
                    self.assertIn(title, text)
                    if not name.startswith("embed"):
                        page_of(name, folder)
                        self.assertEqual(re.findall('<a lang="(..)" hreflang=', text),
                                         ["es" if language == "en" else "en"])
                    for link in re.findall('href="([^"#]+)', text):
                        self.assertTrue(Path(folder, link).exists(), link)
        self.assertIn("es/con-norte.html", json.loads(read("manifest.json"))["files"])

    def test_a_language_that_goes(self):
        """Nobody would renew its pages: a certificate in them could be withdrawn by now."""
        with four() as (_, port):
            press(port, *site_folder(site=TWO))
            self.assertTrue(Path("pages/es/embed.html").exists())
            press(port, *site_folder(site='title = "Election"\n'))
        self.assertEqual([file.name for file in Path("pages").iterdir() if file.is_dir()], [])
        self.assertTrue(Path("pages/embed.html").exists())

    def test_languages_that_are_refused(self):
        for site, words in (('languages = ["xx"]', "no texts of the language 'xx'"),
                            ('languages = ["en"]', "the language 'en' is named twice"),
                            ("languages = 3", "languages is 3"),
                            ("languages = [[1]]", "no texts of the language [1]"),
                            ("es = 3", "3 is no table"),
                            ("[es]\ntitle = 3", "title is 3"),
                            ('[es]\nlanguages = ["es"]', "languages is of all languages"),
                            ('[es]\ntimezone = "Mars/X"', "no time zone 'Mars/X'"),
                            ('[es]\naccessibility = "javascript:x()"', "is not an address such"),
                            ('[es]\naddress = "example.org"', "address is not one such as"),
                            ("[[es.board]]\nname = 1", "board is not tables"),
                            ('address = "results.example.org"', "address is not one such as"),
                            ('address = "https://a.example/"', "address is not one such as")):
            with self.subTest(site=site):
                site_folder(site=site)
                with self.assertRaisesRegex(press_site.Wrong, re.escape(words)):
                    press_site.Site(Path("site"))


class OtherSites(SiteCase):
    def test_the_part_for_other_sites(self):
        """It has the seats and votes of the page, no script, and the word at what is
        provisional."""
        with four() as (_, port):
            press(port, "--setup", "setup.toml")
        page = page_of("embed.html")
        self.assertEqual(page.tables["Seats and votes of each list"][:3], [
            ["List", "certified seats", "provisional seats", "together", "votes", "share"],
            ["B Beta", "3", "2 provisional", "5", "193", "42.89%"],
            ["D Delta", "–", "3 provisional", "3", "90", "20.00%"]])
        for name, state in (("embed", "Not final: 5 of 10 seats not certified yet"),
                            ("embed-oeste", "Not final: no certificate yet"),
                            ("embed-sur", "Not final: certificate withdrawn"),
                            ("embed-norte", "Final: certified")):
            with self.subTest(name=name):
                self.assertIn(f">{state}</p>", read(f"{name}.html"))
        text = shown_text(read("embed-oeste.html"))
        self.assertIn("They are not the result, and may still change.", text)
        self.assertIn("50.00% of the polling stations are counted, 1 of 2.", text)
        self.assertEqual(page_of("embed-norte.html").tables["Seats and votes of each list"][1],
                         ["A Alpha", "2", "100", "50.00%"])
        self.assertNotIn("rovisional", read("embed-norte.html"))
        self.assertIn('href="embed-norte.html"', read("con-norte.html"))

    @needs("nginx", "openssl")
    def test_a_part_that_is_old_says_so(self):
        """A certificate in it could be withdrawn by now. With an answer it is as before."""
        answers = dict(TWIN)
        with answering_desk(answers) as (port, _):
            press(port)
            names = ("embed.html", "embed-c1.html")
            before = [read(name) for name in names]
            answers["/results"] = 503
            press(port, status=1)
            for name in names:
                self.assertIn("This page could not be renewed at ", read(name))
            answers["/results"] = TWIN["/results"]
            press(port)
            self.assertEqual([read(name) for name in names], before)

    def test_who_may_show_it_in_a_frame(self):
        """Any site may show these pages, where no script runs, and no other page. From none a form
        is sent: it would be a command of the clerk who looks at it, from a page of this site."""
        with recording_desk() as (port, _), proxy(port) as front:
            for name in ("embed.html", "embed-c1.html", "index.html", "embedded.html"):
                (front.folder / "pages" / name).write_text("a page", encoding="utf-8")
            (front.folder / "pages/es").mkdir()
            (front.folder / "pages/es/embed.html").write_text("a page", encoding="utf-8")
            for name, may in (("embed.html", True), ("embed-c1.html", True),
                              ("es/embed.html", True), ("index.html", False),
                              ("embedded.html", False)):
                with self.subTest(name=name):
                    head = front.ask("GET", f"/{name}").head
                    policy = head["Content-Security-Policy"]
                    self.assertLessEqual({"form-action 'none'", "base-uri 'none'"},
                                         set(policy.split("; ")))
                    self.assertEqual((head["X-Frame-Options"], "frame-ancestors *" in policy,
                                      "script-src" in policy, head["Cache-Control"],
                                      head["X-Content-Type-Options"], head["Referrer-Policy"]),
                                     (None if may else "DENY", may, not may, "max-age=5",
                                      "nosniff", "no-referrer"))

    def test_the_picture_for_those_who_share_a_page(self):
        """Certified seats have the colours of their lists, others none; the bar is as long as what
        is counted. Without an address there is none."""
        country = press_country.Country(
            parties=[press_country.Party("A", "Alpha", seats=1, provisional=1)], chamber=3,
            certified=1, stations=4, closed=1)
        site = press_site.Site()
        site.meet("A")
        width, height, point = points_of(press_image.shared_image(site, country))
        self.assertEqual((width, height), (1200, 630))
        # The three dots of a chamber of three are at the left, in the middle and at the right.
        self.assertEqual([point(140, 519), point(600, 60), point(1060, 519)],
                         [(15, 71, 117), press_image.PAPER, press_image.PAPER])
        self.assertEqual([point(200, 570), point(360, 570), point(390, 570), point(1050, 570)],
                         [press_image.COUNTED] * 2 + [press_image.TRACK] * 2)
        with answering_desk(TWIN) as (port, _):
            press(port)
            self.assertFalse(Path("pages/share.png").exists())
            self.assertNotIn("og:image", read("con-c1.html"))
            press(port, *site_folder(site='address = "https://results.example.org"\n'))
        self.assertIn('<meta property="og:image" content="https://results.example.org/share.png">',
                      read("con-c1.html"))
        self.assertEqual(points_of(Path("pages/share.png").read_bytes())[:2], (1200, 630))
