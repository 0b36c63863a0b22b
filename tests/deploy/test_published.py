"""Files that are published: hashes, files that stay, and what the proxy gives."""

import gzip
import hashlib
import json
import os
import re
import subprocess
import sys
import time
from datetime import datetime
from pathlib import Path

from tests.support import tools
from tests.support.case import needs
from tests.support.desks import answering_desk
from tests.support.pages import TWIN, press, read, site_folder
from tests.support.proxy import proxy
from tests.support.published import (
    VACATED, a_head, before_the_hour, beside, of_readers, publish, published_site, rows_of,
    write_setup,
)
from tests.support.running import PATIENCE
from tests.support.site import DEPLOY, EXAMPLES, NAME, SiteCase, readme_election, serving


def stamps():
    """When each file was written, and its number on the disk."""
    return {file.name: (file.stat().st_mtime_ns, file.stat().st_ino)
            for file in Path("pages").iterdir()}


def lines_of_readme():
    """The commands of README's section on the data, as they are to be typed."""
    section = (DEPLOY / "README.md").read_text(encoding="utf-8").split("\n## The data\n")[1].split(
        "\n## ")[0]
    return re.findall("^    (.*)$", section, re.M)


class Published(SiteCase):
    def test_the_manifest(self):
        """It has the hash of each file but itself, the head of the record of commands and the
        moment of the round."""
        for n in (7, 9):
            with self.subTest(n=n):
                before = time.time()
                publish(TWIN, *a_head(n))
                found = json.loads(read("manifest.json"))
                self.assertEqual(found["files"], {name: hashlib.sha256(data).hexdigest()
                                                  for name, data in of_readers().items()
                                                  if name != "manifest.json"})
                self.assertEqual(found["record"], {"time": f"2026-11-29T21:14:{n:02}.120+01:00",
                                                   "lines": n, "sha256": f"{n:064x}"})
                moment = datetime.fromisoformat(found["time"]).timestamp()
                self.assertLessEqual(before - 1, moment, found["time"])
                self.assertLessEqual(moment, time.time(), found["time"])
        self.assertEqual(rows_of("record.csv")[1:], [
            ["2026-11-29T21:14:07.120+01:00", "7", f"{7:064x}"],
            ["2026-11-29T21:14:09.120+01:00", "9", f"{9:064x}"]])
        # A record that lost its end, or was written again, is shown too, and named in each round
        # until it is longer than what was shown.
        for n, hash_of, named in ((9, None, False), (8, None, True), (8, None, True),
                                  (9, "f" * 64, True), (10, None, False)):
            with self.subTest(n=n, hash_of=hash_of, named=named):
                words = a_head(n)
                if hash_of:
                    Path("head").write_text(read("head", ".").replace(f"{n:064x}", hash_of),
                                            encoding="utf-8")
                with answering_desk(TWIN) as (port, _):
                    round_of = tools.run([sys.executable, DEPLOY / "press.py",
                                          f"http://127.0.0.1:{port}", "pages", *words],
                                         capture_output=True, text=True, timeout=PATIENCE)
                self.assertEqual(
                    ("of the record, and pages/record.csv has more, or another" in round_of.stderr,
                     round_of.returncode), (named, int(named)))
        self.assertEqual([row[1] for row in rows_of("record.csv")[1:]], ["7", "9", "8", "9", "10"])
        # A pipe in the place of the head is not waited for.
        os.rename("head", "kept")
        os.mkfifo("head")
        publish(TWIN, "--head", "head", status=1)
        self.assertNotIn("record", json.loads(read("manifest.json")))
        # Without a head it has none, and an office that does not answer leaves it as it was.
        publish(TWIN)
        last = read("manifest.json")
        self.assertNotIn("record", json.loads(last))
        publish({}, status=1)
        self.assertEqual(read("manifest.json"), last)

    def test_a_page_that_was_written_in_part(self):
        """A press.py that was killed after the compressed file and before the other one, in the
        language of the site and in another: the next one leaves no browser with what is not so."""
        words = site_folder(site='language = "en"\nlanguages = ["es"]\n')
        publish(TWIN, *words)
        files = [Path("pages", name) for name in ("con-c1.csv", "con-c1.html", "es/con-c1.html")]
        for file in files:
            Path(f"{file}.gz").write_bytes(gzip.compress(b"half a round", 6, mtime=0))
        publish(TWIN, *words)
        for file in files:
            with self.subTest(file=file):
                self.assertEqual(gzip.decompress(Path(f"{file}.gz").read_bytes()),
                                 file.read_bytes())

    def rewritten(self, *rounds):
        """The files that each round writes again; a round is of answers, and of a head of the
        record."""
        found = []
        for answers, head in rounds:
            before = stamps()
            time.sleep(1.1)  # so that a moment is another one
            publish(answers, "--setup", "setup.toml", *a_head(head))
            after = stamps()
            found.append({name for name in after if before.get(name) != after[name]
                          and not name.endswith((".gz", ".html"))})
            self.assertEqual({name for name in after if name.endswith(".gz")
                              and before.get(name) != after[name]
                              and not name.endswith(".html.gz")},
                             {f"{name}.gz" for name in found[-1]})
        return found

    def test_files_that_stay_as_they_are(self):
        """A round after which nothing is new writes the manifest alone; another writes what is
        new."""
        two = beside(TWIN)
        write_setup(two)
        vacated = two | {"/results": [*VACATED["/results"], *two["/results"][1:]]}
        publish(two, "--setup", "setup.toml", *a_head(7))
        names = ("con-c1.json", "con-c2.json", "index.json")
        since = [json.loads(read(name))["time"] for name in names]
        found = self.rewritten((two, 7), (two, 9), (vacated, 9))
        self.assertEqual(found, [{"manifest.json"}, {"manifest.json", "record.csv"},
                                 {"manifest.json", "con-c1.json", "elected.csv", "feed.atom"}])
        times = [json.loads(read(name))["time"] for name in names]
        self.assertLess(since[0], times[0])
        self.assertEqual(since[1:], times[1:])

    def test_a_head_that_cannot_be_used(self):
        """The pages are written, and the status says that the head failed."""
        words = a_head(7)
        for text in ("", "[]", "{}", '{"n": 9}'):
            with self.subTest(text=text):
                Path("head").write_text(text, encoding="utf-8")
                self.assertIn(" pages 2 failed 1 ", publish(TWIN, *words, status=1))
        self.assertIn(" pages 2 failed 0 ", publish(TWIN, *a_head(7)))

    @needs("nginx", "openssl")
    def test_a_reader_who_asks_again(self):
        """After a round without news each file has the ETag that it had, and is answered 304, plain
        and compressed, but for three."""
        with published_site(TWIN, *a_head(7)) as front:
            def etags():
                return {(name, kind): front.ask("GET", f"/{name}",
                                                headers={"Accept-Encoding": kind}).head["ETag"]
                        for name in of_readers() for kind in ("identity", "gzip")}

            before = etags()
            time.sleep(1.1)
            publish(TWIN, *a_head(7))
            after = etags()
            self.assertEqual(
                {name for name, kind in before if before[name, kind] != after[name, kind]},
                {"index.html", "count.html", "manifest.json"})
            for (name, kind), etag in after.items():
                found = front.ask("GET", f"/{name}",
                                  headers={"Accept-Encoding": kind, "If-None-Match": etag})
                self.assertEqual(
                    (found.status, found.body, found.head["Access-Control-Allow-Origin"]),
                    (304, b"", "*"), (name, kind))
            self.assertEqual({name: front.ask("GET", f"/{name}").head["Content-Type"]
                              for name in ("feed.atom", "con-c1.csv", "con-c1.json")},
                             {"feed.atom": "application/atom+xml",
                              "con-c1.csv": "text/csv; charset=utf-8",
                              "con-c1.json": "application/json; charset=utf-8"})

    @needs("nginx", "openssl")
    def test_what_other_sites_may_fetch(self):
        """The published files alone: no table, no command, no page of those who have a name, no
        refusal."""
        elsewhere = {"Origin": "https://newspaper.example", "Sec-Fetch-Site": "cross-site",
                     "Sec-Fetch-Mode": "cors"}
        with published_site(TWIN, *a_head(7)) as front:
            for name in ("", *of_readers()):
                with self.subTest(name=name):
                    for headers in (elsewhere, elsewhere | {"Accept-Encoding": "gzip"}, {}):
                        with self.subTest(headers=headers):
                            found = front.ask("GET", f"/{name}", headers=headers)
                            self.assertEqual((found.status,
                                              found.head.get_all("Access-Control-Allow-Origin"),
                                              found.head.get_all("X-Content-Type-Options")),
                                             (200, ["*"], ["nosniff"]))
                            self.assertEqual((
                                found.head.get_all("Access-Control-Allow-Credentials"),
                                found.head.get_all("Cache-Control")), (None, ["max-age=5"]))
            own = {"Origin": f"https://{NAME}:{front.port}"}
            for method, target, name, headers, status in (
                ("GET", "/progress", None, own, 200), ("GET", "/con/c1/tally", None, {}, 200),
                ("GET", "/progress", None, elsewhere, 403),
                ("GET", "/now/progress", "clara", own, 200),
                ("GET", "/clerk.html", "clara", elsewhere, 200),
                ("GET", "/clerk.html", None, elsewhere, 401),
                ("POST", "/station/s1/lodge", "clara", own, 200),
                ("POST", "/station/s1/lodge", "clara", elsewhere, 403),
                ("POST", "/con/c1/certify", "clara", own, 403),
                ("POST", "/con/c1/certify", "berta", own, 200),
                ("POST", "/con/c1/certify", None, own, 401),
                ("OPTIONS", "/con/c1/certify", None, elsewhere, 403),
                ("OPTIONS", "/results.csv", None, elsewhere, 405),
                ("POST", "/results.csv", "clara", elsewhere, 405),
                ("GET", "/nonesuch.csv", None, elsewhere, 404),
            ):
                with self.subTest(method=method, target=target, name=name, headers=headers):
                    found = front.ask(method, target, name=name, headers=headers)
                    self.assertEqual((found.status, found.head["Access-Control-Allow-Origin"]),
                                     (status, None))
            before_the_hour(front)
            self.assertEqual([(found.status, found.head["Access-Control-Allow-Origin"])
                              for found in (
                                  front.ask("GET", "/results.csv", headers=elsewhere),
                                  front.ask("GET", "/results.csv", headers=elsewhere, name="clara",
                                            password="x"))], [(403, None), (401, None)])

    @needs("nginx", "openssl", "curl", "jq")
    def test_what_the_readme_says_of_the_data(self):
        """Its commands, word for word but for the name of the site, on the first election."""
        setup, *others = lines_of_readme()
        with serving(EXAMPLES) as desk, proxy(desk.port) as front:
            readme_election(desk)
            press(desk.port, "--setup", "setup.toml", folder=str(front.folder / "pages"))
            Path(".curlrc").write_text(f'cacert = "{front.folder}/office/certificate.pem"\n'
                                       f'connect-to = "{NAME}:443:127.0.0.1:{front.port}"\n',
                                       encoding="utf-8")

            def typed(line, status=0):
                done = subprocess.run(
                    ["sh", "-c", f"{setup.replace('results.example.org', NAME)}\n{line}"],
                    capture_output=True, text=True, timeout=PATIENCE,
                    env={**os.environ, "CURL_HOME": os.getcwd(), "HOME": os.getcwd()})
                self.assertEqual(done.returncode, status, (line, done))
                return done.stdout

            results, columns, seats, country, short, certified, asked, again, compared = others
            self.assertEqual((typed(results), Path("results.csv").read_bytes()),
                             ("", (front.folder / "pages/results.csv").read_bytes()))
            said = typed(columns).splitlines()
            self.assertEqual(
                [line.split(": ")[0] for line in said],
                Path("results.csv").read_text(encoding="utf-8").split("\n")[0].split(","))
            self.assertIn("blank: Blank votes of closed returns. They are valid.", said)
            self.assertEqual(json.loads(typed(seats)),
                             {"ROBLE": 4, "ENCINA": 3, "HAYA": 2, "SAUCE": 0, "OLIVO": 0})
            self.assertTrue(typed(country).startswith("COUNTRY\nconstituencies 1 certified 1\n"),
                            typed(country))
            self.assertIn("\nSAUCE               0          10\n", typed(short))
            self.assertEqual(json.loads(typed(certified)),
                             {"con": "montehondo", "certified": True, "edition": 2})
            self.assertEqual(
                typed(asked),
                json.loads((front.folder / "pages/manifest.json").read_bytes())["time"] + "\n")
            self.assertEqual([typed(again), typed(again), typed(compared)],
                             ["200\n", "304\n", "results.csv: OK\n"])
            self.assertEqual(Path("results.csv").read_bytes(),
                             (front.folder / "pages/results.csv").read_bytes())
            Path("results.csv").write_text("altered", encoding="utf-8")
            self.assertEqual(typed(compared, 1), "results.csv: FAILED\n")
