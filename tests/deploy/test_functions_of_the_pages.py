"""Functions of the press pages, by hand: labels and dots of a half circle, quotients, who leads,
names at their limit. No office is asked.
"""

import csv
import gzip
import json
import math
import os
import re
from datetime import date
from pathlib import Path

from tests.support.case import Case
from tests.support.scripts import module

figures, results, country, site, names, head, data, press, places, con_pages, pages, parts = (
    module(name) for name in (
        "press_figures", "press_results", "press_country", "press_site", "press_names",
        "press_head", "press_data", "press", "press_places", "press_con", "press_pages",
        "press_parts"))


class HalfCircles(Case):
    def test_labels_are_moved_apart(self):
        """Each is 11.5 below the one before at least, and the last at 8 at most."""
        for heights, wanted in (
                ([-80, -80, -80], [-80, -68.5, -57]), ([-80, -75, -20], [-80, -68.5, -20]),
                ([0, 5, 30], [-15, -3.5, 8]), ([-30, -10], [-30, -10]), ([], [])):
            with self.subTest(heights=heights):
                self.assertEqual(figures.spread(heights), wanted)

    def test_where_labels_are(self):
        """Left and right of the half circle, at 7 beyond its edge: 107 times the sine and the
        cosine of the angle, with 3 below and 2 more outwards."""
        sides, lines, width, *_ = figures.placed_labels([(0.1, 100, "B 2"), (3.0, 100, "A 3")], 100)
        self.assertEqual(sides, [("end", [("-107.9", "-12.1", "A 3")]),
                                 ("start", [("108.5", "-7.7", "B 2")])])
        # Both are as wide as three letters.
        self.assertEqual((lines, round(width, 1)), ("", round(106.466 + 4 + 3 * 7.4, 1)))

    def test_a_label_that_was_moved_has_a_line(self):
        lines = figures.placed_labels([(3.0, 100, "A 3"), (3.05, 100, "B 2")], 100)[1]
        self.assertEqual(lines.count("M"), 1)

    def test_a_label_of_a_dot_within_has_a_line_to_it(self):
        """It ends at 1 beyond the edge of the dot, 80 from the middle: straight up, at -81."""
        lines = figures.placed_labels([(math.pi / 2, 80, "A 3")], 100)[1]
        self.assertTrue(lines.startswith("M0.0 -81.0L"), lines)
        self.assertEqual(figures.anchor_of([(3.0, 60), (2.0, 100), (1.0, 100), (0.5, 60)], 5),
                         (1.5, 105))
        self.assertEqual(figures.anchor_of([(3.0, 60), (2.0, 80)], 5), (2.0, 85))

    def test_dots_are_from_left_to_right(self):
        dots, _ = figures.places_of_dots(3)
        self.assertEqual([angle for angle, _ in dots], [math.pi, math.pi / 2, 0])
        for count in (1, 2, 7, 16, 52, 350, 1000):
            with self.subTest(count=count):
                dots, size = figures.places_of_dots(count)
                self.assertEqual(len(dots), count)
                self.assertEqual(dots, sorted(dots, key=lambda dot: -dot[0]))
                self.assertTrue(all(38 <= radius <= 100 for _, radius in dots))
                places = sorted((radius * math.cos(angle), radius * math.sin(angle))
                                for angle, radius in dots)
                nearest = min((math.dist(one, other) for n, one in enumerate(places)
                               for other in places[n + 1:n + 80]), default=math.inf)
                self.assertGreater(nearest, 1.9 * size)

    def test_provisional_seats_are_beside_the_others(self):
        found = figures.half_circle(site.Site(), {"A": 2, "B": 1}, 5, provisional={"B": 1, "C": 1})
        self.assertEqual(sorted(text for _, words in found["sides"] for *_, text in words),
                         ["A 2", "B 1+1", "C 0+1"])
        self.assertEqual([(one["code"], one["path"].count("M")) for one in found["groups"]],
                         [("A", 2), ("B", 1), ("B", 1), ("C", 1)])

    def test_sixteen_lists_are_named(self):
        """The first 16 of 17, and what has no list; the words for a screen reader have all."""
        seats = {f"L{n:02}": 1 for n in range(17)}
        found = figures.half_circle(site.Site(), seats, 20, [("seats_open", 3)])
        texts = sorted(text for _, words in found["sides"] for *_, text in words)
        self.assertEqual((texts[:16], len(texts)), ([f"L{n:02} 1" for n in range(16)], 17))
        self.assertEqual((found["named"], found["many"], found["said"].count("L")), (16, 17, 17))
        self.assertIsNone(figures.half_circle(site.Site(), {"A": 1}, 1)["named"])
        # A label is beyond the edge of the dots: of one dot 7 above 100 and its size.
        [(_, words)] = figures.half_circle(site.Site(), {"A": 1}, 1)["sides"]
        self.assertEqual(words, [("2.0", f"{3 - 107 - figures.places_of_dots(1)[1]:.1f}", "A 1")])


class Figures(Case):
    def test_quotients_of_each_rule(self):
        """100 votes divided by 1, 2 and 3; by 1, 3 and 5; by 1.4, 3 and 5; rounded down."""
        for method, wanted in (("dhondt", [100, 50, 33]), ("sainte-lague", [100, 33, 20]),
                               ("modified-sainte-lague", [71, 33, 20])):
            with self.subTest(method=method):
                result = {"method": method, "awards": [["A", 1, 100, 1], ["A", 2, 100, 2]],
                          "lists": [{"code": "A", "votes": 100, "eligible": True},
                                    {"code": "B", "votes": 3, "eligible": False}]}
                self.assertEqual(results.quotients_of(result, {"A": 2, "B": 0}), [
                    ("A", list(zip(wanted, [True, True, False])))])

    def test_a_majority_and_the_open_seats(self):
        for chamber, wanted in ((350, 176), (7, 4), (2, 2), (1, 1), (0, None)):
            self.assertEqual(country.Country(chamber=chamber).majority, wanted)
        found = country.Country(chamber=10, certified=4, provisional=3, question=1, uncounted=1)
        self.assertEqual(found.open, 1)

    def test_the_first_list(self):
        """None without a vote, or where two have as many."""
        for votes, wanted in (([3, 5], "B"), ([5, 5, 1], None), ([0, 0], None), ([1], "A"),
                              ([0], None), ([5, 2, 2], "A"), ([], None)):
            with self.subTest(votes=votes):
                con = {"tally": {"lists": [{"code": code, "votes": many}
                                           for code, many in zip("ABC", votes)]}}
                self.assertEqual(country.first_list(con), wanted)

    def test_what_is_compared_with_a_former_result(self):
        """Shares once all is counted, and where they are those of the valid votes."""
        it = site.Site()
        it.former = {"c1": {"seats": {"A": 2}, "votes": {"A": 60}, "valid": 80}}
        for closed, bases, seats, wanted in (
                (2, {"valid"}, {}, (None, {"A": 7500})), (1, {"valid"}, {}, (None, None)),
                (2, {"lists"}, {}, (None, None)), (2, {"valid", "lists"}, {}, (None, None)),
                (1, {"valid"}, {"seats": {}}, ({"A": 2}, None))):
            with self.subTest(closed=closed, bases=bases, seats=seats):
                all_of_it = country.Country(closed=closed, stations=2, bases=bases)
                self.assertEqual(pages.former_of(it, all_of_it, {"c1": seats}), wanted)

    def test_how_many_lists_the_line_of_seats_has(self):
        given = {f"L{n}": 20 - n for n in range(10)} | {"L99": 0}
        line = head.seats_line(site.Site(), "certified", "", given)
        self.assertEqual([code for code, _ in line["seats"]], [f"L{n}" for n in range(8)])
        self.assertIn("23", line["others"])
        del given["L8"], given["L9"]
        self.assertIsNone(head.seats_line(site.Site(), "certified", "", given)["others"])

    def test_nobody_has_won_where_there_is_no_seat(self):
        for standings in ([], [head.Standing("Alpha", 9), head.Standing("Beta", 0)]):
            self.assertIsNone(head.has_won(site.Site(), standings, 0))

    def test_where_the_majority_is(self):
        """Between the dot before it and its own, from the left."""
        dots = [(3.0, 100), (2.5, 60), (2.0, 100)]
        self.assertEqual([figures.majority_angle(dots, majority) for majority in (1, 2, 3)],
                         [math.pi, 2.75, 2.25])

    def test_a_country_that_is_certified_whole_is_final(self):
        whole = country.Country(parties=[country.Party("A", "Alpha", seats=3)], chamber=3,
                                certified=3, cons=1, certified_cons=1)
        self.assertTrue(head.country_outlook(site.Site(), whole, {})["final"])
        part = country.Country(parties=[country.Party("A", "Alpha", seats=3)], chamber=5,
                               certified=3, cons=2, certified_cons=1)
        self.assertFalse(head.country_outlook(site.Site(), part, {})["final"])


    def test_who_leads(self):
        """The lists with the second most votes are all named."""
        for votes, wanted in (
                ({"A": 50, "B": 30, "C": 30}, ("Alpha", "Beta", "Cara")),
                ({"A": 50, "B": 30, "C": 20}, ("Alpha", "Beta")), ({"A": 50, "B": 0}, ("Alpha",))):
            with self.subTest(votes=votes):
                standings = [head.Standing(name, votes.get(name[0], 0))
                             for name in ("Alpha", "Beta", "Cara")]
                said = head.leads(site.Site(), standings, 200)
                self.assertEqual(tuple(name for name in ("Alpha", "Beta", "Cara")
                                       if name in said), wanted)
        self.assertIsNone(head.leads(site.Site(), [head.Standing("Alpha", 0)], 0))

    def test_what_can_be_compared(self):
        """Shares with a former result where all stations are closed, of the valid votes alone."""
        it = site.Site()
        it.former = {"c1": {"valid": 100, "votes": {"A": 60, "B": 40}, "seats": {"A": 2, "B": 1}}}
        for closed, base, is_compared in ((3, "valid", True), (3, "lists", False),
                                          (2, "valid", False)):
            with self.subTest(closed=closed, base=base):
                con = {"tally": {"closed": closed, "stations": 3}, "rule": {"base": base}}
                seats, shares = con_pages.former_con(it, "c1", con)
                self.assertEqual((seats, shares is not None), (None, is_compared))

    def test_a_change_of_a_number(self):
        it = site.Site()
        for before, wanted in (({"A": 5}, "7 +2"), ({"A": 9}, "7 −2"), ({}, "7 +7"),
                               ({"A": 7}, "7 ±0"), (None, "7")):
            with self.subTest(before=before):
                said = str(parts.changed(it, "A", 7, before, it.number))
                self.assertEqual(re.sub("<[^>]+>", "", said).strip(), wanted)
        said = str(parts.changed(it, "A", 7, {"A": 5}, it.number, lambda value: f"{value}!"))
        self.assertIn("+2!", said)

    def test_who_lacked_the_fewest_votes(self):
        """Lists that lack no votes, since they can get no seat more, are not among them."""
        found, of_lists = country.Country(), {"A": country.Party("A", "Alpha")}
        country.add_seats(found, of_lists, "c1", {
            "past": [], "seats": {"total": 2, "seats": {"A": 2}},
            "awards": [{"list": "A"}, {"list": "B"}],
            "short": [{"list": "A", "seats": 2, "short": 40},
                      {"list": "B", "seats": 0, "short": None}]})
        self.assertEqual((found.closest, found.certified, found.certified_cons, found.without_short,
                          of_lists["A"].seats), ([(40, "A", "c1", "B")], 2, 1, 0, 2))

    def test_a_table_of_stations(self):
        """Two lines of a head, then the stations; a column that is new is not read."""
        text = ("stations of c1\ncode electors status revision slip votes blank spoiled new\n"
                "s1 300 closed 2 p1 120 3 1 x\ns2 300 - - - - - - x\n")
        self.assertEqual(results.read_stations(text),
                         {"s1": ("closed", ["p1", 120, 3, 1]), "s2": None})
        with self.assertRaises(results.NoAnswer):
            results.read_stations("a\nb\ns1 300 lost 2 p1 120 3 1\n")

    def test_in_how_many_constituencies_each_list_is_first(self):
        """The list with the most of them first, whatever the order of the constituencies; one
        where two have as many votes counts for none."""
        def con(*votes):
            return {"tally": {"lists": [{"code": code, "votes": many}
                                        for code, many in zip("ABC", votes)]}}

        cons = {"c1": con(9, 5, 1), "c2": con(1, 9, 2), "c3": con(7, 7, 2), "c4": con(2, 3, 1),
                "c5": con(0, 0, 0)}
        self.assertEqual(figures.map_key(cons), [("B", 2), ("A", 1)])

    def test_places_of_stations(self):
        entry = {"stations": [{"code": "s1"}, {"code": "s2"}, {"code": "s3"}]}
        it = site.Site()
        self.assertEqual((places.places_of(it, entry), places.places_of(it, None)), ({}, {}))
        it.places = {"s1": "North", "s3": "North", "s9": "South"}
        self.assertEqual(places.places_of(it, entry),
                         {"North": [{"code": "s1"}, {"code": "s3"}]})
        self.assertEqual(places.places_of(it, None), {})

    def test_who_has_the_most_votes_at_a_place(self):
        """Both of two lists that have as many."""
        named = {"A": "Alpha", "B": "Beta", "C": "Cara"}
        for votes, wanted in (({"A": 9, "B": 5, "C": 1}, ["Alpha"]),
                              ({"A": 2, "B": 7, "C": 7}, ["Beta", "Cara"]),
                              ({"A": 7, "B": 7, "C": 2}, ["Alpha", "Beta"])):
            with self.subTest(votes=votes):
                place = places.Place("North", [{"code": "s1"}], closed=1, electors=20, votes=votes)
                said = places.place_head(site.Site(), {"base": "valid"}, place, named)["headline"]
                self.assertEqual([name for name in named.values() if name in said], wanted)

    def test_one_constituency_is_not_said_as_several(self):
        said = [pages.certified_said(site.Site(), country.Country(
            chamber=3, certified=3, cons=cons, certified_cons=cons)) for cons in (1, 2)]
        self.assertEqual([" 2 " in one for one in said], [False, True])


class Files(Case):
    def test_a_file_and_the_same_compressed(self):
        """Where both are the same already nothing is written; where one is gone it is again."""
        folder, file, compressed = Path(), Path("a.json"), Path("a.json.gz")
        press.put(folder, "a.json", "{}\n")
        self.assertEqual((file.read_text(), gzip.decompress(compressed.read_bytes())),
                         ("{}\n", b"{}\n"))
        for one in (file, compressed):
            os.utime(one, (1, 1))
        press.put(folder, "a.json", "{}\n")
        self.assertEqual([one.stat().st_mtime for one in (file, compressed)], [1, 1])
        for one in (file, compressed):
            one.unlink()
            press.put(folder, "a.json", "{}\n")
            self.assertTrue(one.exists())
        press.put(folder, "a.json", "[]\n")
        self.assertEqual(gzip.decompress(compressed.read_bytes()), b"[]\n")

    def test_compressed_files_of_another_moment(self):
        """After a kill between the two files, or a power cut, each browser gets what is there; what
        a board compressed itself stays."""
        folder, was, now = Path(), b"edition 2\n", b"edition 1\n"
        ours = gzip.compress(was, 6, mtime=0)
        found = {"old.csv": ours, "cut.csv": ours[:-9], "empty.csv": b"", "zeros.csv": b"\0" * 40,
                 "right.csv": gzip.compress(now, 6, mtime=0)}
        for name, data in found.items():
            Path(name).write_bytes(now)
            Path(f"{name}.gz").write_bytes(data)
        board = gzip.compress(was, 6, mtime=1)
        for name, data in {"gone.csv.gz": ours, "none.csv.gz": b"", "board.csv.gz": board}.items():
            Path(name).write_bytes(data)
        os.utime("right.csv.gz", (1, 1))
        # What is no file, or cannot be read, is passed over.
        Path("folder.gz").mkdir()
        os.mkfifo("pipe.gz")
        Path("nowhere.gz").symlink_to("nonesuch")
        press.repair(folder)
        self.assertEqual({name: (Path(name).read_bytes(), gzip.decompress(
            Path(f"{name}.gz").read_bytes())) for name in found}, dict.fromkeys(found, (now, now)))
        self.assertEqual(os.stat("right.csv.gz").st_mtime, 1)
        self.assertEqual(sorted(file.name for file in folder.glob("*.csv.gz")),
                         sorted(["board.csv.gz", *(f"{name}.gz" for name in found)]))
        self.assertEqual(Path("board.csv.gz").read_bytes(), board)

    def test_kinds_of_tables(self):
        for name, key in (("index.csv", ["con"]), ("results.csv", ["con", "list"]),
                          ("elected.csv", ["con", "list", "seat"]),
                          ("record.csv", ["lines", "sha256"])):
            with self.subTest(name=name):
                found = data.resource_of(Path(name), {})
                self.assertEqual((found["path"], found["schema"]["primaryKey"]), (name, key))

    def test_names_that_a_spreadsheet_would_compute(self):
        """Also after white space and what no reader sees, and in another width."""
        for name in ("=1", "+1", "-1", "@A1", " =1", "\t=1", "\r=1", "\u00a0=1", " \u00a0\t-1",
                     "\u3000+1", "\u200b@A1", "\ufeff=1", "\uff1d1", "\uff0b1", "\uff0d1",
                     "\uff20A1", " \uff1d1", "\u00a0\uff0b1", "\ufe62" "1"):
            with self.subTest(name=name):
                self.assertEqual(data.in_a_cell(name), f"'{name}")
        for name in ("", " ", "a=1", "A +1", " A", "\u00a0A", "'=1", "\u20131", "1-1", "(+1)"):
            with self.subTest(name=name):
                self.assertEqual(data.in_a_cell(name), name)

    def test_an_object_has_what_is_not_optional(self):
        found = data.an_object({"a": {}, "b": {}, "c": {}}, "b")
        self.assertEqual(found["required"], ["a", "c"])


class Heads(Case):
    """The file of the heads that were shown of the record of commands."""

    COLUMNS, SEVEN, NINE = "time,lines,sha256\n", *(
        f"2026-11-29T21:14:{n:02}.120+01:00,{n},{n:064x}\n" for n in (7, 9))

    def put(self, text, head=None):
        """The head of a round with this file of heads; and the failures that are said of it."""
        Path("record.csv").write_bytes(text)
        time, lines, code = self.NINE.rstrip().split(",")
        good = json.dumps({"time": time, "n": int(lines), "hash": code})
        Path("head").write_text(good if head is None else head, encoding="utf-8")
        found = press.put_head(Path(), Path("head"), said := [])
        return found, "\n".join(said), Path("record.csv").read_text(encoding="utf-8")

    def test_a_file_that_is_spoiled(self):
        """The heads that are whole stay, and the new one is in a line of its own: what is none is
        left out, and named in that round alone."""
        whole = self.COLUMNS + self.SEVEN
        for name, text, kept, wrong in (
                ("whole", whole, self.SEVEN, 0),
                ("the same", whole + self.NINE, self.SEVEN, 0),
                ("empty", "", "", 0), ("cut in the columns", "time,li", "", 1),
                ("cut in the hash", whole + self.NINE[:-20], self.SEVEN, 1),
                ("cut in the number", whole + self.NINE[:29], self.SEVEN, 1),
                ("cut at the end of the line", whole + self.NINE[:-1], self.SEVEN, 1),
                ("no columns", self.SEVEN, self.SEVEN, 0),
                ("a line between", f"{self.COLUMNS}\x00\ufffd\n{self.SEVEN}", self.SEVEN, 1),
                ("a quote that is open", whole + '"' + self.NINE, self.SEVEN, 1),
                ("a field too long for a table", whole + "x" * 200_000 + "\n", self.SEVEN, 1)):
            with self.subTest(name=name):
                found, said, after = self.put(text.encode())
                self.assertEqual(after, self.COLUMNS + kept + self.NINE)
                self.assertEqual((found["n"], found["whole"]), (9, True))
                self.assertEqual(said, f"record.csv: {wrong} of its lines are no heads of a "
                                 "record, and are left out" if wrong else "")
                self.assertEqual(self.put(after.encode()), (found, "", after))

    def test_a_file_of_rubbish(self):
        for rubbish in (bytes(range(256)) * 9, b"\x00" * 9_000, b"\xff" * 9_000, b"[" * 100_000):
            with self.subTest(rubbish=rubbish[:9]):
                found, said, after = self.put(rubbish)
                self.assertEqual((found["n"], after), (9, self.COLUMNS + self.NINE))
                self.assertIn("are no heads of a record, and are left out", said)

    def test_a_folder_in_the_place_of_the_file(self):
        """It is the one that is named."""
        Path("record.csv").mkdir()
        Path("head").write_text('{"time": "x", "n": 9, "hash": "9"}', encoding="utf-8")
        self.assertIsNone(press.put_head(Path(), Path("head"), said := []))
        self.assertTrue(said[0].startswith("record.csv: "), said)

    def test_a_head_that_is_none(self):
        """It is named, the file stays as it is, and the round goes on."""
        before = self.COLUMNS + self.SEVEN
        good = {"time": "2026-11-29T21:14:09.120+01:00", "n": 9, "hash": "9" * 64}
        for head in ("", "[]", "{}", "null", "[" * 100_000, *(
                json.dumps(good | other) for other in (
                    {"n": "9"}, {"n": True}, {"n": -9}, {"n": 9.5}, {"hash": "x" * 64},
                    {"hash": None}, {"time": "a,b"}, {"time": ""}))):
            with self.subTest(head=head[:99]):
                found, said, after = self.put(before.encode(), head)
                self.assertEqual((found, after), (None, before))
                self.assertTrue(said.startswith("head: "), said)


class Names(Case):
    def test_a_day(self):
        self.assertEqual(site.Site().day(date(2026, 11, 29)), "29 November 2026")
        self.assertEqual(site.Site().day(date(2026, 1, 1)), "1 January 2026")

    def test_colours_that_can_be_read(self):
        """One with contrast enough stays as it is; others are darker or lighter."""
        for colour, ground, is_kept in (
                ("#12538c", "#eceae4", True), ("#ffff00", "#eceae4", False),
                ("#ffff00", "#2a2e36", True), ("#000040", "#2a2e36", False)):
            with self.subTest(colour=colour, ground=ground):
                found = site.readable(colour, ground)
                self.assertRegex(found, "^#[0-9a-f]{6}$")
                self.assertEqual(found == colour, is_kept)
                self.assertGreaterEqual(site.contrast(found, ground), site.FROM_GROUND)

    def test_what_turns_the_direction_is_closed(self):
        """A name that opens three turns and closes one gets two ends; an end too many is no
        opening."""
        for name in ("a\u2066b\u2067c\u2068d\u2069e", "\u2066\u2066"):
            with self.subTest(name=name):
                closed = names.closed(name)
                self.assertEqual(closed, name + "\u2069" * 2)

    def test_names_of_stations_at_their_limit(self):
        for many, column, is_taken in ((300, "name", True), (301, "name", False),
                                       (300, "place", True), (301, "place", False)):
            with self.subTest(many=many, column=column):
                row = {"station": "s1", "name": "N", "place": "P"} | {column: "x" * many}
                with Path("stations.csv").open("w", encoding="utf-8", newline="") as file:
                    out = csv.DictWriter(file, row.keys())
                    out.writeheader()
                    out.writerow(row)
                if is_taken:
                    self.assertEqual(site.read_stations(Path("stations.csv")), [row])
                else:
                    with self.assertRaisesRegex(site.Wrong, "more than 300 letters"):
                        site.read_stations(Path("stations.csv"))
