"""The feed of certificates."""

import json
import shutil
import sys
import time
from pathlib import Path

from tests.support.desks import answering_desk, done, modelled
from tests.support.office import with_stations
from tests.support.pages import REOPENED, RESULT, TWIN, press, read, results_of
from tests.support.published import (
    AGAIN, CERTIFIED, OPEN, VACATED, a_head, beside, checked, entries, json_files, package_faults,
    publish, schema_of,
)
from tests.support.running import free_port
from tests.support.site import DEPLOY, EXAMPLES, SiteCase, plain, ran, readme_election, serving

WITHDRAWN = ("reopening", "Twin Town: the certificate of edition 3 is withdrawn", "a <recount>")
GONE = ("vacancy", "Twin Town: A, place 1 (Ana), is gone", "resigned <today>")
# Of the seats until they are others, or certified.
PROVISIONAL = ("provisional",
               "Twin Town: provisional seats, with 100.00% of the polling stations counted",
               "Provisional, not the result: B 2, A 1")
ANOTHER = ("certificate", "Twin Town: certified in edition 5", "A 2, B 1")


class Feed(SiteCase):
    def test_what_is_in_the_feed(self):
        """Certified, vacated, reopened, certified again: an entry each, which keeps its moment,
        though press.py is started each time."""
        Path("setup.toml").write_text(with_stations(1), encoding="utf-8")
        gone = {"gone": VACATED["/results"][0]["gone"]}
        seen, wanted = {}, []
        for answers, new in ((OPEN, []), (TWIN, [CERTIFIED]), (TWIN, []), (VACATED, [GONE]),
                             (REOPENED | results_of(REOPENED["/results"][0] | gone),
                              [PROVISIONAL, WITHDRAWN]),
                             (AGAIN | results_of(AGAIN["/results"][0] | gone), [ANOTHER])):
            with self.subTest(answers=answers, new=new):
                publish(answers, "--setup", "setup.toml")
                wanted = new + [one for one in wanted if one != PROVISIONAL]
                found = entries()
                self.assertEqual([one[1:4] for one in found], wanted)
                for of_entry, *_, moment in found:
                    self.assertEqual(seen.setdefault(of_entry, moment), moment)
                time.sleep(1.1)
        self.assertEqual(len(seen), 5)
        # The folder was emptied: the same again under the same names, and of now.
        last = max(seen.values())
        shutil.rmtree("pages")
        publish(answers, "--setup", "setup.toml")
        found = entries()
        seen = {one[0] for one in found} & set(seen)
        self.assertEqual((len(found), len(seen)), (4, 4))
        self.assertEqual([one[1:4] for one in found], [GONE, ANOTHER, WITHDRAWN, CERTIFIED])
        self.assertTrue(all(one[4] > last for one in found))
        # A feed that cannot be read is one that is not there.
        Path("pages/feed.atom").write_text("<feed", encoding="utf-8")
        publish(answers, "--setup", "setup.toml")
        self.assertEqual({one[0] for one in entries()}, seen)

    def test_entries_that_are_none_of_these_pages(self):
        """As somebody else wrote them: they are left out, and a line says so; the others stay, with
        their moments, and the pages are written."""
        Path("setup.toml").write_text(with_stations(1), encoding="utf-8")
        with answering_desk(TWIN) as (port, _):
            words = (sys.executable, DEPLOY / "press.py", f"http://127.0.0.1:{port}", "pages",
                     "--setup", "setup.toml")
            ran(*words)
            before, whole = entries(), read("feed.atom")
            for other in ("<entry/>", "<entry><id>x</id></entry>",
                          "<entry><id>x</id><link/></entry>",
                          '<entry><id>x</id><link href="y"/></entry>',
                          '<entry><link href="con-c1.html"/></entry>'):
                with self.subTest(other=other):
                    Path("pages/feed.atom").write_text(
                        whole.replace("</feed>", f"{other}</feed>"), encoding="utf-8")
                    said = ran(*words)
                    self.assertIn("feed.atom: what is none of the entries of these pages is left "
                                  "out\n", said)
                    self.assertIn(" pages 2 failed 0 ", said)
                    self.assertEqual(entries(), before)
                    self.assertNotIn("left out", ran(*words))
            # Whatever is no feed is made new.
            for other in ("<a/>", "\0", f"<feed>{whole}"):
                with self.subTest(other=other[:9]):
                    Path("pages/feed.atom").write_text(other, encoding="utf-8")
                    self.assertIn(" is left out\n", ran(*words))
                    self.assertEqual([one[1:4] for one in entries()],
                                     [one[1:4] for one in before])

    def test_texts_in_the_feed(self):
        """Whatever is in a name or in a note, the feed is XML, and keeps its moments."""
        texts = TWIN | results_of(RESULT | {
            "name": "A & <B> \uffff",
            "gone": [["A", 1, "]]></summary> \ufffe \x7f \U0001f5f3"]]})
        publish(texts)
        first = entries()
        self.assertEqual([one[1:4] for one in first], [
            ("vacancy", "A & <B> \ufffd: A, place 1, is gone",
             "]]></summary> \ufffd \x7f \U0001f5f3"),
            ("certificate", "A & <B> \ufffd: certified in edition 3", "A 1, B 2")])
        time.sleep(1.1)
        publish(texts)
        self.assertEqual(entries(), first)

    def test_a_feed_of_what_the_office_bears_out(self):
        """A copy from before takes the office's place: what it does not show goes. Another
        certificate of the same edition is another entry. What cannot be read stays."""
        publish(TWIN)
        [first] = entries()
        publish(OPEN)
        self.assertEqual(entries(), [])
        other = TWIN | results_of(AGAIN["/results"][0] | {"edition": 3, "note": "", "past": []})
        publish(other)
        [second] = entries()
        self.assertEqual((second[1:3], second[3]), (CERTIFIED[:2], "A 2, B 1"))
        self.assertNotEqual(second[0], first[0])
        # Two constituencies, of which nobody answers for one, and then for none.
        two = beside(TWIN)
        publish(two)
        both = entries()
        self.assertEqual([one[2] for one in both], [CERTIFIED[1]] * 2)
        for broken in (503, "no such text\n", [RESULT, {"con": "c2"}]):
            with self.subTest(broken=broken):
                publish(two | {"/results": broken}, status=1)
                self.assertEqual(entries(), both)
        # The second of two offices is silent.
        with answering_desk(TWIN) as (port, _):
            ran(sys.executable, DEPLOY / "press.py", f"http://127.0.0.1:{port}",
                f"http://127.0.0.1:{free_port()}", "pages", status=1)
        self.assertEqual(entries(), both)
        # The office has the other one no more.
        publish(TWIN)
        self.assertEqual(len(entries()), 1)

    def test_how_much_was_counted(self):
        """The title of provisional seats keeps the share that was counted when they were first
        these, where it is one that there was."""
        setup = with_stations(3)
        Path("setup.toml").write_text(setup, encoding="utf-8")
        with modelled(setup) as (office, port):
            for code, share in (("s1", "33.33"), ("s2", "33.33")):
                done(office, f"/station/{code}/lodge",
                     {"slip": "p1", "votes": [100, 50], "blank": 0, "spoiled": 0})
                done(office, f"/station/{code}/close", {"rev": 1})
                press(port, "--setup", "setup.toml")
                self.assertIn(f"with {share}% of the polling stations counted", read("feed.atom"))
            said = read("feed.atom")
            for other, wanted in (("33.33", "33.33"), ("66.67", "66.67"), ("100.00", "66.67"),
                                  ("33.34", "66.67"), ("0.00", "66.67"), ("", "66.67"),
                                  ("33.33\n", "66.67"), ("3333", "66.67")):
                with self.subTest(share=other):
                    Path("pages/feed.atom").write_text(said.replace("33.33", other),
                                                       encoding="utf-8")
                    press(port, "--setup", "setup.toml")
                    self.assertIn(f"with {wanted}% of the polling", read("feed.atom"))

    def test_the_data_of_an_election(self):
        """The first election of the README, by the office itself: it is certified, a seat is
        vacated, and it is reopened and certified again. What is published is what its descriptions
        say, and the feed has it all."""
        steps = ((None, None, ("certificate", "Montehondo: certified in edition 2",
                               "ROBLE 4, ENCINA 3, HAYA 2")),
                 ("vacate", {"list": "HAYA", "place": 1, "note": "resigned"},
                  ("vacancy", "Montehondo: HAYA, place 1 (Inés Campo), is gone", "resigned")),
                 ("reopen", {"edition": 2, "note": "a recount"},
                  ("reopening", "Montehondo: the certificate of edition 2 is withdrawn",
                   "a recount")),
                 ("certify", {"edition": 3}, ("certificate", "Montehondo: certified in edition 4",
                                              "ROBLE 4, ENCINA 3, HAYA 2")))
        with serving(EXAMPLES) as desk:
            press(desk.port, "--setup", "setup.toml")
            self.assertEqual((package_faults(), entries()), ([], []))
            readme_election(desk)
            for n, (command, body, _) in enumerate(steps, 1):
                with self.subTest(n=n, command=command, body=body):
                    if command:
                        self.assertEqual(plain(desk.port, "POST", f"/con/montehondo/{command}",
                                               json.dumps(body)).status, 200)
                    time.sleep(1.1)
                    press(desk.port, "--setup", "setup.toml", *a_head(n))
                    for name in json_files():
                        self.assertEqual(checked(schema_of(name), json.loads(read(name))), [], name)
                    self.assertEqual(package_faults(), [])
                    self.assertEqual([one[1:4] for one in entries() if one[1] != "provisional"],
                                     [said for *_, said in reversed(steps[:n])])
