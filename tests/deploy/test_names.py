"""Tests that no name and no note changes the order of what is beside it, on the pages and in the
feed.
"""

import re
from pathlib import Path

from tests.support.office import with_stations
from tests.support.pages import REOPENED, TWIN, Page, read, renamed, results_of
from tests.support.rounds import OfPages

from press_names import closed, isolated  # isort: skip

TURNED = "\u202eTwin"
# Names, and what they are within an isolated part: each part begun in it ends in it, and none else.
NAMES = (
    ("Alpha", "Alpha"), ("", ""), (TURNED, TURNED), ("\u05d0\u05d1", "\u05d0\u05d1"),
    ("a\u2069\u202eb", "a\u202eb"), ("\u2067a", "\u2067a\u2069"),
    ("\u2066a\u2069b\u2069c", "\u2066a\u2069bc"), ("\u2066\u2068a", "\u2066\u2068a\u2069\u2069"),
    ("a\u2029\u202eb", "a \u202eb"), ("a\u0085b\x1dc\u2028d", "a b c d"), ("\u202ca", "\u202ca"))


class Names(OfPages):
    def test_what_is_within_an_isolated_part(self):
        for name, wanted in NAMES:
            with self.subTest(name=ascii(name)):
                self.assertEqual(ascii(closed(name)), ascii(wanted))
                self.assertEqual(isolated(name), f"\u2068{wanted}\u2069")

    def test_each_name_and_note_on_a_page(self):
        """Names of a constituency, a list, a candidate, a station, and notes."""
        names = {"Twin Town": f"{TURNED}\u2069 <Town>", "Alpha": f"{TURNED}A", "Beta": f"{TURNED}B",
                 "Ana": f"{TURNED}C", "Bea": f"{TURNED}D"}
        gone = [["A", 1, f"{TURNED}E"]]
        setup = with_stations(1)
        for name, other in names.items():
            setup = setup.replace(f'"{name}"', f'"{other}"')
        Path("setup.toml").write_text(setup, encoding="utf-8")
        for answers, more in ((TWIN, {"gone": gone}),
                              (REOPENED, {"gone": gone, "note": f"{TURNED}F"})):
            [result] = answers["/results"]
            site = {"stations.csv": f"station,name\ns1,{TURNED}G\n",
                    "map.svg": '<svg viewBox="0 0 1 1"><path id="c1" d=""/></svg>'}
            self.publish(renamed(answers | results_of(result | more), names), site)
            for page, text in self.pages().items():
                alone = re.sub("<bdi>[^<]*</bdi>|\u2068[^<\u2069]*\u2069", "", text)
                with self.subTest(page=page, certified=answers is not REOPENED):
                    self.assertNotEqual(text.count("\u202e"), 0)
                    self.assertEqual((alone.count("\u202e"), alone.count("\u2069")), (0, 0))
                    self.assertEqual(Page(text).wrong, [])
            feed = read("feed.atom")
            titles = re.findall("<title>(.*)</title>", feed)[1:]
            self.assertEqual([title.startswith("\u2068\u202eTwin &lt;Town&gt;\u2069: ")
                              for title in titles], [True] * len(titles))
            self.assertEqual(f"({isolated(names['Ana'])})" in feed, True)

    def test_the_title_of_a_page(self):
        self.publish(TWIN)
        pages = self.pages()
        for page, title in (("con-c1.html", "\u2068Twin Town\u2069"),
                            ("stations-c1-1.html", "\u2068Twin Town\u2069: the stations")):
            with self.subTest(page=page):
                self.assertIn(f"<title>{title}</title>", pages[page])
                heading = title.replace("\u2068", "<bdi>").replace("\u2069", "</bdi>")
                self.assertIn(f"<h1>{heading}</h1>", pages[page])
