"""The press pages of a constituency."""

import json
import os
import re
import resource
import subprocess
import sys
from pathlib import Path

from tests.support.case import ROOT
from tests.support.desks import answering_desk, done, modelled
from tests.support.office import PROFILE, profile, with_stations
from tests.support.pages import (
    REOPENED, RESULT, TWIN, WITHDRAWN, Page, page_of, press, read, renamed, results_of,
    shown_text, site_folder, with_lists,
)
from tests.support.record import LODGED
from tests.support.running import PATIENCE, until
from tests.support.site import DEPLOY, SiteCase, plain, ran, serving

BOTH = 'language = "en"\nlanguages = ["es"]\n'
# Three seats of two lists with as many votes, by the lot B, A: the rule, those of each list, and
# whether the page says that the order is turned round.
LOTS = (("dhondt", "fixed", [1, 2], False), ("dhondt", "alternating", [2, 1], True),
        ("hare", "alternating", [1, 2], False))


class PressPages(SiteCase):
    def test_a_page_of_the_press(self):
        """Twin Town: every number of its result is in a table. The office is asked for the results,
        for the stations with their electors, which are those of the setup, for the returns, and
        once more for the edition that these are of."""
        Path("setup.toml").write_text(with_stations(1), encoding="utf-8")
        with answering_desk(TWIN) as (port, asked):
            last = press(port, "--setup", "setup.toml")
            self.assertTrue(
                re.fullmatch(r"\d\d:\d\d:\d\d pages 2 failed 0 GETs 4 in \d+\.\d s", last), last)
            self.assertEqual(asked, ["/results", "/con/c1/stations", "/con/c1/returns", "/con/c1"])
        page = page_of("con-c1.html")
        self.assertEqual(page.figures, 2)
        self.assertEqual(page.tables["Seats of each list"],
                         [["List", "seats"], ["A Alpha", "1"], ["B Beta", "2"], ["Total", "3"]])
        self.assertEqual(
            page.tables["Votes of each list"][1:],
            [["A Alpha", "100", "50.00%", "yes"], ["B Beta", "100", "50.00%", "yes"],
             ["Blank votes", "0", "0.00%", "–"]])
        self.assertEqual(page.tables["Holders of the seats"][1:],
                         [["A", "1", "Ana"], ["B", "1", "Bea"], ["B", "–", "empty"]])
        self.assertEqual(page.tables["Awards in order"][1:], [
            ["1", "B", "1", "100", "1", "100"], ["2", "A", "1", "100", "1", "100"],
            ["3", "B", "2", "100", "2", "50"]])
        self.assertEqual(page.tables["Quotients of each list"][1:],
                         [["A", "100 ★ won", "50", "33"], ["B", "100 ★ won", "50 ★ won", "33"]])
        self.assertEqual(page.tables["Votes that a list lacked for one seat more, whatever lot is "
                                     "drawn, with the same other votes and eligible lists"][1:],
                         [["A", "1", "1"], ["B", "2", "200"]])
        self.assertEqual(page.tables["Returns of the stations"][1:],
                         [["1", "0", "0", "0", "0", "1"]])
        text = read("con-c1.html")
        self.assertIn("A lot was drawn, in this order: B, then A.", text)
        self.assertIn("No certificate was withdrawn.", text)
        self.assertEqual(text.count("h0"), 3)
        self.assertEqual(read("con-c1.csv"),
                         "list,name,votes,share,takes_part,seats,provisional\n"
                         "A,Alpha,100,50.00,yes,1,1\nB,Beta,100,50.00,yes,2,2\n")
        self.assertEqual(read("results.csv"),
                         "con,con_name,stations,closed,edition,certified,electors,valid,blank,"
                         "spoiled,list,name,votes,share,takes_part,seats,provisional\n"
                         "c1,Twin Town,1,1,3,true,300,200,0,0,A,Alpha,100,50.00,yes,1,1\n"
                         "c1,Twin Town,1,1,3,true,300,200,0,0,B,Beta,100,50.00,yes,2,2\n")
        self.assertEqual(read("stations-c1-3.csv"),
                         "station,slip,blank,spoiled,A,B\ns1,p1,0,0,100,100\n")
        self.assertEqual(read("index.csv"),
                         "con,stations,missing,received,queried,corrected,closed,edition,"
                         "certified\nc1,1,0,0,0,0,1,3,true\n")
        found = json.loads(read("con-c1.json"))
        self.assertEqual((found["view"], found["seats"]["seats"]),
                         (TWIN["/con/c1"], {"A": 1, "B": 2}))
        self.assertEqual(json.loads(read("setup.json")), [{
            "code": "c1", "name": "Twin Town", "seats": 3, "method": "dhondt", "threshold": 0,
            "base": "valid", "lot": "fixed",
            "lists": [{"code": "A", "name": "Alpha", "candidates": ["Ana", "Abel"]},
                      {"code": "B", "name": "Beta", "candidates": ["Bea"]}],
            "stations": [{"code": "s1", "electors": 300}]}])
        self.assertEqual(sorted(file.name for file in Path("pages").glob(".*")),
                         [".provisional", ".reserve"])

    def test_a_page_after_a_lot(self):
        """Where lots alternate the page says so, and setup.json. The list that the lot left out
        lacked no vote: with one more it would have one more seat. The published files, with the
        setup, are counted to the same seats again by the lot that is published."""
        os.mkdir("returns")
        for method, lot, seats, turned in LOTS:
            with self.subTest(method=method, lot=lot, seats=seats, turned=turned):
                setup = with_stations(1).replace(PROFILE, f'{profile("d0", method)}lot = "{lot}"\n')
                Path("setup.toml").write_text(setup, encoding="utf-8")
                with modelled(setup) as (office, port):
                    done(office, "/station/s1/lodge",
                         {"slip": "p1", "votes": [100, 100], "blank": 0, "spoiled": 0})
                    done(office, "/station/s1/close", {"rev": 1})
                    done(office, "/con/c1/draw", {"edition": 1, "order": ["B", "A"]})
                    done(office, "/con/c1/certify", {"edition": 2})
                    press(port, "--setup", "setup.toml")
                    press(port, "--setup", "setup.toml", *site_folder(site='language = "es"\n'),
                          folder="es")
                self.assertEqual(
                    page_of("con-c1.html").tables["Seats of each list"][1:],
                    [["A Alpha", str(seats[0])], ["B Beta", str(seats[1])], ["Total", "3"]])
                for folder, said, more in (
                    ("pages", "A lot was drawn, in this order: B, then A.",
                     " For a list’s second seat, its fourth and so on this order is turned round."),
                    ("es", "Hubo sorteo, con este orden: B, después A.",
                     " Para el segundo escaño de una candidatura, el cuarto y así sucesivamente, "
                     "este orden se invierte.")):
                    with self.subTest(folder=folder, said=said, more=more):
                        self.assertIn(f"<p>{said}{more if turned else ''}</p>",
                                      read("con-c1.html", folder))
                self.assertEqual([entry["lot"] for entry in json.loads(read("setup.json"))], [lot])
                least, most = "AB" if seats == [1, 2] else "BA"
                for folder, said in (
                    ("pages", f"{least} would have one more seat in Twin Town, and {most} one "
                              "fewer, with 1 more vote"),
                    ("es", f"{least} tendría un escaño más en Twin Town, y {most} uno menos, con 1 "
                           "voto más")):
                    with self.subTest(folder=folder, said=said):
                        text = shown_text(read("index.html", folder))
                        self.assertEqual((said in text, "lacked 1" in text),
                                         (method != "hare", False))
                Path("returns/c1.csv").write_text(read("stations-c1-3.csv"), encoding="utf-8")
                Path("lots").write_text(
                    " ".join(["c1", *json.loads(read("con-c1.json"))["view"]["lot"]]),
                    encoding="utf-8")
                words = [sys.executable, ROOT / "examples/recount.py", "--setup", "setup.toml",
                         "--returns", "returns"]
                self.assertEqual(ran(*words, "--lots", "lots"),
                                 f"c1 A {seats[0]} B {seats[1]} (1 of 1 stations)\n")
                self.assertTrue(ran(*words, status=1).endswith("; a lot is missing)\n"))

    def test_a_code_in_capitals(self):
        """Codes differ by the case of their letters: each file has them as they are."""
        answers = results_of(RESULT | {"con": "C1"})
        with answering_desk(answers) as (port, _):
            press(port)
        self.assertEqual(read("index.csv").splitlines()[1:], ["C1,1,0,0,0,0,1,3,true"])
        self.assertEqual([line.split(",")[0] for line in read("results.csv").splitlines()[1:]],
                         ["C1", "C1"])
        self.assertEqual(json.loads(read("index.json"))["constituencies"][0]["con"], "C1")

    def test_a_page_without_a_certificate(self):
        """A reopened constituency: the certificate is shown as withdrawn, on top and with its note,
        and no seat as given. One that never had a certificate has none yet."""
        never = REOPENED | results_of(WITHDRAWN | {"past": []})
        for desk, state in ((REOPENED, "Certificate withdrawn"), (never, "No certificate yet")):
            with self.subTest(desk=desk, state=state):
                with answering_desk(desk) as (port, _):
                    press(port)
                page, text = page_of("con-c1.html"), read("con-c1.html")
                self.assertIn("<h1><bdi>Twin Town</bdi></h1>\n<p class=\"state state-", text)
                self.assertIn(f">Not final: {state[0].lower()}{state[1:]}</p>", text)
                self.assertIn(f"<b>{state}.</b>", text)
                self.assertNotIn("Seats of each list", page.tables)
                self.assertEqual((page.figures, text.count('class="hole"')), (2, 2))
                self.assertEqual(
                    page_of("count.html").tables["Progress of the constituencies"][1][:2],
                    ["Twin Town", state.lower()])
                self.assertEqual(
                    page_of("index.html").tables["Constituencies in the order of their names"][1],
                    [f"Twin Town {state.lower()}, 100.00% counted", "–", "provisional: B 2 A 1"])
                withdrawn = ('<a href="con-c1.html"><bdi>Twin Town</bdi></a> was certified and is '
                             'reopened')
                self.assertEqual(withdrawn in read("index.html"), desk is REOPENED)
                if desk is REOPENED:
                    self.assertIn("a &lt;recount&gt;", text)
                    self.assertEqual(page.tables["Certificate of edition 3, withdrawn"][1:],
                                     [["A Alpha", "1"], ["B Beta", "2"]])
        self.assertEqual(read("con-c1.csv").splitlines()[1:],
                         ["A,Alpha,100,50.00,yes,,1", "B,Beta,100,50.00,yes,,2"])

    def test_blank_votes_are_below_the_lists(self):
        """With their share, where shares are of the valid votes; once something is counted."""
        Path("setup.toml").write_text(with_stations(1), encoding="utf-8")
        Path("lists.toml").write_text(with_stations(1).replace('"valid"', '"lists"'),
                                      encoding="utf-8")
        some, none = RESULT | {"blank": 9}, with_lists(WITHDRAWN, votes=[0, 0]) | {"closed": 0}
        # 9 of 209 are 4.306.. per cent; and 9 of 200 + 9 is no share of the votes for lists.
        for words, result, row in (
                (("--setup", "setup.toml"), some, ["9", "4.31%", "–"]),
                ((), some, ["9", "4.31%", "–"]),
                (("--setup", "lists.toml"), some | {"base": "lists"}, ["9", "–", "–"]),
                ((), some | {"base": "lists"}, ["9", "–", "–"]),
                (("--setup", "setup.toml"), none, None)):
            with self.subTest(words=words, row=row):
                with answering_desk(TWIN | results_of(result)) as (port, _):
                    press(port, *words, *site_folder(site=BOTH))
                for caption, head, page in (
                        ("Votes of each list", "Blank votes", read("con-c1.html")),
                        ("Votos por candidatura", "Votos en blanco", read("es/con-c1.html"))):
                    rows = Page(page).tables[caption]
                    of_language = [cell.replace(".", ",").replace("%", " %") if head[1] == "o"
                                   else cell for cell in row or ()]
                    self.assertEqual([one for one in rows if one[0] == head],
                                     [[head, *of_language]] if row else [])
                    if row:
                        self.assertEqual((len(rows), rows[-1][0]), (4, head))

    def test_a_certificate_after_reopenings(self):
        """It says that it is one, and which certificate before it is withdrawn."""
        past = [{"edition": 3, "seats": [2, 1]}, {"edition": 6, "seats": [3, 0]}]
        for many, said in (
                (0, ("", "")),
                (1, (" Reopened and certified again: the certificate of edition 3 is withdrawn.",
                     " Se reabrió el escrutinio y se proclamó de nuevo: la proclamación anterior "
                     "(versión 3) está anulada.")),
                (2, (" Reopened 2 times and certified again: the certificate before this one, of "
                     "edition 6, is withdrawn.",
                     " Se reabrió el escrutinio 2 veces y se proclamó de nuevo: la proclamación "
                     "anterior (versión 6) está anulada."))):
            with self.subTest(many=many):
                result = RESULT | {"edition": 9, "past": past[:many]}
                with answering_desk(TWIN | results_of(result)) as (port, _):
                    press(port, *site_folder(site=BOTH))
                pages = [shown_text(read(name)) for name in ("con-c1.html", "es/con-c1.html")]
                for page, begin, words, again in zip(
                        pages, ("Certified in edition 9: 3 seats by D’Hondt’s rule.",
                                "Proclamados 3 escaños según el método D’Hondt (versión 9)."),
                        said, ("certified again", "de nuevo")):
                    self.assertEqual(again in page, many > 0)
                    self.assertIn(begin + words, page)

    def test_what_the_width_of_a_bar_is(self):
        """Half of the votes, or all of them where a list has more."""
        for votes, full in ((100, 50), (101, 100)):
            with self.subTest(votes=votes):
                result = with_lists(RESULT, votes=[votes, 200 - votes])
                with answering_desk(TWIN | results_of(result)) as (port, _):
                    press(port, *site_folder(site=BOTH))
                self.assertIn(f"The full width of a bar is {full}% of the votes.",
                              shown_text(read("con-c1.html")))
                self.assertIn(f"El ancho completo de una barra es el {full}\u00a0% de los votos.",
                              read("es/con-c1.html"))

    def test_a_page_of_a_part_of_the_votes(self):
        """While returns are open the page says so where the votes are, and not once all are
        closed."""
        answers = REOPENED | results_of(WITHDRAWN | {"stations": 3})
        for desk, partly in ((answers, True), (REOPENED, False)):
            with self.subTest(desk=desk, partly=partly):
                with answering_desk(desk) as (port, _):
                    press(port)
                page_of("con-c1.html")
                self.assertEqual("<b>Not all votes.</b> 1 of 3 polling stations are counted, and "
                                 "these are their votes." in read("con-c1.html"), partly)
                self.assertEqual("Not all votes" in read("con-c1.html"), partly)

    def test_a_page_by_quotas(self):
        """Hare's rule, which has no quotients: LOREG's numbers of A and E, as in
        docs/FORMATS.md."""
        lists = [{"code": code, "name": name, "votes": votes, "eligible": True, "seats": seats,
                  "provisional": seats, "short": None}
                 for code, name, votes, seats in (("A", "Alpha", 168000, 3),
                                                  ("E", "Beta", 40000, 0))]
        answers = TWIN | results_of(RESULT | {
            "method": "hare", "lists": lists, "awards": [], "lot": [],
            "quota": [["A", 2, 384000, 3], ["E", 0, 320000, 0]],
            "holders": [["A", 1, "Ana"], ["A", 2, "Abel"], ["A", None, None]]})
        with answering_desk(answers) as (port, asked):
            press(port)
            self.assertEqual(asked, ["/results"])
        page = page_of("con-c1.html")
        self.assertEqual(
            page.tables["Quotas of each list"][1:],
            [["A", "168,000", "2", "384,000", "3"], ["E", "40,000", "0", "320,000", "0"]])
        self.assertNotIn("Quotients of each list", page.tables)
        self.assertNotIn("Awards in order", page.tables)

    def test_names_on_a_page(self):
        """Names are texts, whatever is in them; a candidate who is gone has the name of the
        setup."""
        name = "<script>alert('&\"')</script> "
        setup = with_stations(1).replace('"Alpha"', json.dumps(name))
        setup = setup.replace('"Ana"', '"<i>Ana</i>"').replace('"Twin Town"', '"A & <B>"')
        Path("setup.toml").write_text(setup, encoding="utf-8")
        answers = renamed(TWIN | results_of(RESULT | {
            "gone": [["A", 1, "<b>ill</b>"]],
            "holders": [["A", 2, "Abel"], ["B", 1, "Bea"], ["B", None, None]]}),
            {"Alpha": name, "Twin Town": "A & <B>"})
        with answering_desk(answers) as (port, _):
            press(port, "--setup", "setup.toml")
        page, text = page_of("con-c1.html"), read("con-c1.html")
        self.assertEqual(page.tables["Votes of each list"][1][0], f"A {name}".strip())
        self.assertIn("place 1, <bdi>&lt;i&gt;Ana&lt;/i&gt;</bdi>: "
                      "<q><bdi>&lt;b&gt;ill&lt;/b&gt;</bdi></q>", text)
        self.assertIn("<h1><bdi>A &amp; &lt;B&gt;</bdi></h1>", text)
        page_of("index.html")

    def test_a_page_that_gets_old(self):
        """The page that was there stays, with its age; its numbers do not change, and the line goes
        once the office answers. Of one constituency whose returns are none its own pages say so."""
        Path("setup.toml").write_text(with_stations(1), encoding="utf-8")
        words = ("--setup", "setup.toml")
        answers = dict(REOPENED)
        with answering_desk(answers) as (port, _):
            press(port, *words)
            first = {name: read(name) for name in ("con-c1.html", "con-c1.csv")}
            for broken, target, pages in (
                (503, "/results", 0), ("no such text\n", "/results", 0), ("{", "/results", 0),
                ([{"con": "c1"}], "/results", 0), (503, "/con/c1/stations", 1),
                ("no such text\n", "/con/c1/returns", 1)):
                with self.subTest(broken=broken, target=target):
                    answers[target] = broken
                    said = press(port, *words, status=1)
                    self.assertIn(f" pages {pages} failed 1 ", said)
                    answers[target] = REOPENED[target]
                    old = read("con-c1.html")
                    self.assertRegex(old,
                                     r'<!--age--><p class="old" role="status"><b>This page could '
                                     r"not be renewed at \d\d:\d\d \w+\.</b> It stays as it is "
                                     r"until it can be; it last changed \d+ "
                                     r"(second|minute)s? earlier\.</p>",
                                     old[:9000])
                    self.assertEqual('class="old"' in read("index.html"), target == "/results")
                    self.assertEqual(
                        re.sub("<!--age-->.*<!--/age-->", "<!--age--><!--/age-->", old),
                        first["con-c1.html"])
                    self.assertEqual(read("con-c1.csv"), first["con-c1.csv"])
                    page_of("con-c1.html")
            press(port, *words)
            # Nothing has changed meanwhile: the page is as it was first written.
            self.assertEqual(read("con-c1.html"), first["con-c1.html"])
        # Nobody listens now: every page says so, and a page that is not there is not made.
        self.assertIn(" pages 0 failed 1 GETs 1 ", press(port, status=1))
        self.assertTrue(all('class="old"' in read(name)
                            for name in ("index.html", "count.html", "con-c1.html")))
        press(port, folder="others", status=1)
        self.assertEqual(sorted(os.listdir("others")), [".provisional", ".reserve"])

    def test_a_disk_without_room(self):
        """A round that cannot write ends with a line that says so, and the next one after that
        writes everything, in a program that goes on."""
        Path("setup.toml").write_text(with_stations(1), encoding="utf-8")
        no_limit = resource.RLIM_INFINITY
        with answering_desk(TWIN) as (port, _):
            words = [sys.executable, DEPLOY / "press.py", f"http://127.0.0.1:{port}", "pages",
                     "--setup", "setup.toml"]
            how = {"stdout": subprocess.PIPE, "stderr": subprocess.STDOUT, "text": True,
                   "preexec_fn": lambda: resource.setrlimit(resource.RLIMIT_FSIZE,
                                                            (9_000, no_limit))}
            ended = subprocess.run(words, timeout=PATIENCE, check=False, **how)
            self.assertEqual((ended.returncode, ended.stdout.splitlines()[0]),
                             (1, "failed: pages: File too large: the round ended there"))
            self.assertEqual(list(Path("pages").glob(".*.new")), [])
            # The files of the start cannot be written either.
            names = "".join(f"x{n},{'N' * 300}\n" for n in range(60))
            ended = subprocess.run([*words, *site_folder(stations=f"station,name\n{names}")],
                                   timeout=PATIENCE, check=False, **how)
            self.assertEqual((ended.returncode, ended.stdout),
                             (1, "failed: pages: File too large\n"))
            with subprocess.Popen([*words, "--every", "0.1"], **how) as process:
                try:
                    for said in ("failed: pages: File too large: ", " pages 0 failed 1 ") * 2:
                        self.assertIn(said, process.stdout.readline())
                    resource.prlimit(process.pid, resource.RLIMIT_FSIZE, (no_limit, no_limit))
                    self.assertTrue(any(" pages 2 failed 0 " in process.stdout.readline()
                                        for _ in range(9)))
                    for name in ("index.html", "con-c1.html", "stations-c1-1.html"):
                        page_of(name)
                finally:
                    process.terminate()

    def test_a_page_that_gets_old_and_is_written_again(self):
        """While the office gives no answer each page says so, and later none has an age. While the
        returns of a constituency cannot be read, its own page says so, and the country goes on."""
        Path("setup.toml").write_text(with_stations(1), encoding="utf-8")
        answers = dict(TWIN)

        def round_with(words):
            """Waits for a round whose line has these words, if none before has."""
            self.assertTrue(any(words in process.stdout.readline() for _ in range(1000)), words)

        with answering_desk(answers) as (port, _):
            process = subprocess.Popen([sys.executable, DEPLOY / "press.py",
                                        f"http://127.0.0.1:{port}", "pages", "--setup",
                                        "setup.toml", "--every", "0.1"],
                                       stdout=subprocess.PIPE, stderr=subprocess.DEVNULL, text=True)
            try:
                self.assertIn(" pages 2 failed 0 ", process.stdout.readline())
                first = read("con-c1.html")
                for broken, old in (("/con/c1/returns", ("con-c1.html",)),
                                    ("/results", ("con-c1.html", "index.html", "count.html"))):
                    with self.subTest(broken=broken, old=old):
                        answers[broken] = 503
                        Path("pages/stations-c1-3.csv").unlink()  # it is asked for again
                        round_with(" failed 1 ")
                        self.assertEqual([name
                                          for name in ("con-c1.html", "index.html", "count.html")
                                          if 'class="old"' in read(name)], list(old))
                        self.assertEqual(
                            page_of("index.html").tables["Seats and votes of each list"][1:3],
                            [["B Beta", "2", "100", "50.00%"], ["A Alpha", "1", "100", "50.00%"]])
                        answers[broken] = TWIN[broken]
                        round_with(" pages 2 failed 0 ")
                        self.assertEqual(read("con-c1.html"), first)
                        self.assertNotIn('class="old"', read("index.html"))
                # A change of the progress alone changes the page too.
                answers["/results"] = [RESULT | {"closed": 0, "received": 1}]
                until(lambda: page_of("con-c1.html").tables["Returns of the stations"][1]
                      == ["1", "0", "1", "0", "0", "0"])
            finally:
                process.terminate()
                process.wait(timeout=PATIENCE)
                process.stdout.close()

    def test_pages_through_a_proxy_that_limits(self):
        """It answers 429 for a while: what it did not answer is asked again, and the page is
        written."""
        first = iter([429, 429])
        with answering_desk(TWIN | {"/results": lambda: next(first, TWIN["/results"])}) as (
            port, asked):
            self.assertIn(" pages 2 failed 0 GETs 3 ", press(port), asked)
            self.assertEqual(asked, ["/results"] * 3)

    def test_pages_that_are_written_again_and_again(self):
        """A round takes one GET, where no returns are asked for; a file is whole whenever it is
        read."""
        with answering_desk(TWIN) as (port, asked):
            process = subprocess.Popen([sys.executable, DEPLOY / "press.py",
                                        f"http://127.0.0.1:{port}", "pages", "--every", "0.1"],
                                       stdout=subprocess.PIPE, text=True)
            try:
                lines = [process.stdout.readline()]
                for _ in range(5):
                    lines.append(process.stdout.readline())
                    self.assertTrue(read("con-c1.html").endswith("</html>\n"))
            finally:
                process.terminate()
                process.wait(timeout=PATIENCE)
                process.stdout.close()
        self.assertEqual([int(re.search(r"GETs (\d+)", line)[1]) for line in lines],
                         [1] * 6)

    def test_returns_of_a_former_certificate(self):
        """A copy from before takes the office's place, and edition 2 is certified once more: its
        page has the returns of that one."""
        setup = with_stations(2)

        def elect(desk, first, *steps):
            for target, body in (("/station/s1/lodge", LODGED | {"votes": first}),
                                 ("/station/s2/lodge", LODGED | {"votes": [0, 0]}),
                                 ("/station/s1/close", {"rev": 1}),
                                 ("/station/s2/close", {"rev": 1}),
                                 ("/con/c1/certify", {"edition": 1}), *steps):
                self.assertEqual(plain(desk.port, "POST", target, json.dumps(body)).status, 200)

        with serving(setup) as desk:
            elect(desk, [100, 50])
            press(desk.port, "--setup", "setup.toml")
        self.assertEqual(read("stations-c1-2.csv").splitlines()[1:],
                         ["s1,p1,0,0,100,50", "s2,p1,0,0,0,0"])
        Path("office.db").unlink()
        with serving(setup) as desk:
            # No certificate yet: the file is nobody's.
            press(desk.port, "--setup", "setup.toml")
            self.assertEqual([name for name in os.listdir("pages") if name.startswith("stations-")],
                             [])
        Path("office.db").unlink()
        Path("pages/stations-c1-2.csv").write_text(
            "station,slip,blank,spoiled,A,B\ns1,p1,0,0,100,50\ns2,p1,0,0,0,0\n", encoding="utf-8")
        with serving(setup) as desk:
            elect(desk, [10, 50])
            # Without the setup it cannot be written, and is not linked.
            press(desk.port)
            self.assertNotIn("stations-c1-2.csv", read("con-c1.html"))
            press(desk.port, "--setup", "setup.toml")
            self.assertEqual(read("stations-c1-2.csv").splitlines()[1:],
                             ["s1,p1,0,0,10,50", "s2,p1,0,0,0,0"])
            self.assertIn("The returns of edition 2", read("con-c1.html"))
            # A certificate that was withdrawn keeps its file.
            self.assertEqual(
                plain(desk.port, "POST", "/con/c1/reopen", '{"edition":2,"note":"again"}').status,
                200)
            press(desk.port, "--setup", "setup.toml")
            self.assertIn('href="stations-c1-2.csv"', read("con-c1.html"))
