"""How `split` divides a setup among offices, by hand: which office has each constituency, at each
limit of an office, and what is written.
"""

import contextlib
import io
import sys
import tomllib
from pathlib import Path
from unittest import mock

from tests.support.case import Case
from tests.support.office import LISTS, PROFILE, constituency, station
from tests.support.scripts import loaded


def con(code, *stations):
    text = constituency(code, code.upper(), 3, "d0") + LISTS + "".join(map(station, stations))
    return text.removeprefix("\n")


class OfSplit(Case):
    def setUp(self):
        super().setUp()
        self.split = loaded("split")


class Offices(OfSplit):
    def test_the_fewest_stations(self):
        """The largest first, and of those the longest; each to the office with the fewest stations
        that has room, and the first of these."""
        for sizes, lengths, room, count, wanted in (
                ([5, 3, 2, 2], [1] * 4, 9, 2, [1, 2, 2, 1]), ([1], [1], 1, 1, [1]),
                ([2, 2, 3, 5], [1] * 4, 9, 2, [2, 1, 2, 1]), ([1, 1, 1], [1] * 3, 9, 3, [1, 2, 3]),
                ([1, 1, 1], [5, 9, 7], 12, 2, [2, 1, 2]), ([1, 1, 1], [5, 9, 7], 11, 2, None),
                ([5, 4, 3, 1], [5, 9, 2, 1], 10, 2, [1, 2, 1, 2]), ([1, 1], [4, 7], 7, 1, None),
                ([1, 1], [4, 7], 11, 1, [1, 1]), ([1], [8], 7, 2, None), ([], [], 7, 2, [])):
            with self.subTest(sizes=sizes, lengths=lengths, room=room):
                self.assertEqual(self.split.divided(sizes, lengths, room, count), wanted)

    def test_as_many_constituencies_as_an_office_has(self):
        self.split.MOST_CONSTITUENCIES = 2
        for sizes, wanted in (([9, 1, 1, 1], [1, 2, 2, 1]), ([1] * 4, [1, 2, 1, 2]),
                              ([1] * 5, None), ([1], [1])):
            with self.subTest(sizes=sizes):
                found = self.split.divided(sizes, [1] * len(sizes), 100, 2)
                self.assertEqual(found, wanted)

    def offices_of(self, sizes, lengths, count, before="#\n"):
        cons = [{"code": f"c{number}", "station": [{}] * size}
                for number, size in enumerate(sizes, 1)]
        return self.split.offices_of(before, ["x" * length for length in lengths], cons, count)

    def test_what_an_office_cannot_have(self):
        """Each office has the text before the constituencies too."""
        self.split.MOST_BYTES, self.split.MOST_CONSTITUENCIES = 1_010, 2
        self.assertEqual(self.offices_of([1, 1], [1_008, 1_008], 2), [1, 2])
        self.assertEqual(self.offices_of([1, 1], [1_007, 1], 1), [1, 1])
        for sizes, lengths, count, said in (
                ([1], [1], 2, "there is 1 constituency"),
                ([1, 1], [1, 1], 3, "there are 2 constituencies"),
                ([1, 1], [1, 1_009], 2, "constituency c2 and what comes before the constituencies "
                                        "have 1,011 bytes, and an office takes 1,010"),
                ([1] * 3, [1] * 3, 1, "3 constituencies and 3 bytes are too many for 1 office: "
                                      "each takes 2 constituencies and 1,010 bytes; 2 offices are "
                                      "enough"),
                ([1] * 5, [1_008] * 5, 2, "5 constituencies and 5,040 bytes are too many for 2 "
                                          "offices: each takes 2 constituencies and 1,010 bytes; "
                                          "5 offices are enough"),
                ([1] * 198, [1_008] * 99 + [1] * 99, 98,
                 "198 constituencies and 99,891 bytes are too many for 98 offices: each takes 2 "
                 "constituencies and 1,010 bytes; 99 offices are not enough either"),
                ([1] * 199, [1] * 199, 98,
                 "199 constituencies and 199 bytes are too many for 98 offices: each takes 2 "
                 "constituencies and 1,010 bytes; 99 offices are not enough either"),
                ([1] * 198, [1] * 198, 98,
                 "198 constituencies and 198 bytes are too many for 98 offices: each takes 2 "
                 "constituencies and 1,010 bytes; 99 offices are enough")):
            with self.subTest(said=said), self.assertRaises(self.split.Failed) as failed:
                self.offices_of(sizes, lengths, count)
            self.assertEqual(str(failed.exception), said)
        self.assertEqual(self.offices_of([1], [1_000], 1, "ñ" * 5), [1])
        self.assertRaises(self.split.Failed, self.offices_of, [1], [1_001], 1, "ñ" * 5)


class Parts(OfSplit):
    def test_the_parts_of_a_text(self):
        for text, wanted in (
                ("a = 1\n", ("a = 1\n", [])), ("", ("", [])),
                ("[[constituency]]\nb\n", ("", ["[[constituency]]\nb\n"])),
                ("# a\n[[constituency]]\nb\n \t[[ constituency\t]]\nc\n[[constituency.list]]\nd",
                 ("# a\n", ["[[constituency]]\nb\n",
                            " \t[[ constituency\t]]\nc\n[[constituency.list]]\nd"]))):
            with self.subTest(text=text):
                self.assertEqual(self.split.parts_of(text), wanted)

    def test_setups_that_cannot_be_divided(self):
        whole = PROFILE + con("c1", "s1") + con("c2", "t1")
        before, parts, cons = self.split.read(("\ufeff" + whole).encode())
        self.assertEqual((before, "".join(parts)), (PROFILE, whole.removeprefix(PROFILE)))
        self.assertEqual([one["code"] for one in cons], ["c1", "c2"])
        # (a text in which a line looks like a constituency)
        hidden = con("c1", "s1").replace('name = "C1"', 'name = """\n[[constituency]]"""', 1)
        profile = PROFILE.replace('"d0"', '"d1"')
        for text, said in (
                (PROFILE + hidden, None), (whole + profile, "the profiles have to come before the "
                                                            "constituencies"),
                (PROFILE + con("c1", "s1") + con("c1", "t1"), "c1")):
            with self.subTest(text=text), self.assertRaises(
                    (self.split.Failed, tomllib.TOMLDecodeError)) as failed:
                self.split.read(text.encode())
            self.assertIn(said or "", str(failed.exception))

    def test_what_the_proxy_reads(self):
        cons = [{"code": "c1", "station": [{"code": "s1"}, {"code": "s2"}]},
                {"code": "c2", "station": [{"code": "t1"}]}]
        head, _, text = self.split.offices_conf(cons, [2, 1], 2).partition("\n")
        self.assertTrue(head.startswith("# Which office has each constituency and each station"))
        self.assertEqual(text, """\
map "$con:$station" $office {
    default 1;
    c1: 2;
    :s1 2;
    :s2 2;
    c2: 1;
    :t1 1;
}
upstream office1 {
    server unix:/run/office-reader/1.sock;
}
upstream names1 {
    server unix:/run/office-reader/1-names.sock;
}
upstream recorder1 {
    server unix:/run/office-recorder/1.sock;
}
upstream office2 {
    server unix:/run/office-reader/2.sock;
}
upstream names2 {
    server unix:/run/office-reader/2-names.sock;
}
upstream recorder2 {
    server unix:/run/office-recorder/2.sock;
}
""")


class Written(OfSplit):
    def main(self, *words):
        """The status, what is printed and what is said."""
        printed, said = io.StringIO(), io.StringIO()
        with mock.patch.object(sys, "argv", ["split", *words]), \
                contextlib.redirect_stdout(printed), contextlib.redirect_stderr(said):
            try:
                status = self.split.main()
            except SystemExit as ended:
                status = ended.code
        return status, printed.getvalue(), said.getvalue()

    def test_two_offices(self):
        one, two, three = con("c1", "s1"), con("c2", "t1", "t2"), con("c3", "u1")
        Path("setup.toml").write_text(PROFILE + one + two + three, encoding="utf-8")
        for _ in range(2):
            self.assertEqual(self.main("setup.toml", "2", "a/b"), (
                0, "office 1: 1 constituency, 2 stations\noffice 2: 2 constituencies, 2 stations\n",
                ""))
        texts = {file.name: file.read_text(encoding="utf-8") for file in Path("a/b").iterdir()}
        self.assertEqual(set(texts), {"setup-1.toml", "setup-2.toml", "offices.conf",
                                      "progress.conf", "progress.txt", "now.txt"})
        self.assertEqual((texts["setup-1.toml"], texts["setup-2.toml"]),
                         (PROFILE + two, PROFILE + one + three))
        for name, place in (("progress.txt", "progress"), ("now.txt", "now/progress")):
            self.assertEqual(texts[name], f'<!--# include virtual="/{place}/1" -->'
                                          f'<!--# include virtual="/{place}/2" -->')

    def test_another_division_there(self):
        Path("setup.toml").write_text(PROFILE + con("c1", "s1") + con("c2", "t1"),
                                      encoding="utf-8")
        self.assertEqual(self.main("setup.toml", "2", "parts")[0], 0)
        status, printed, said = self.main("setup.toml", "1", "parts")
        self.assertEqual((status, printed), (1, ""))
        self.assertIn("parts has setup-2.toml of another division: remove it", said)
        # Where one file cannot be written, none takes the place of another.
        before = {file: file.read_bytes() for file in Path("parts").iterdir()}
        Path("setup.toml").write_text(PROFILE + con("c3", "s1") + con("c4", "t1"),
                                      encoding="utf-8")
        Path("parts/.now.txt.new").symlink_to("none/none")
        self.assertEqual(self.main("setup.toml", "2", "parts")[0], 3)
        self.assertEqual({file: file.read_bytes() for file in Path("parts").iterdir()}, before)

    def test_how_it_ends(self):
        Path("setup.toml").write_text(PROFILE + con("c1", "s1"), encoding="utf-8")
        Path("wrong.toml").write_text("x", encoding="utf-8")
        for words, status in ((("setup.toml", "1", "parts"), 0), (("wrong.toml", "1", "parts"), 1),
                              (("setup.toml", "2", "parts"), 1), (("setup.toml", "99", "parts"), 1),
                              (("setup.toml", "0", "parts"), 2), (("setup.toml", "100", "x"), 2),
                              (("none.toml", "1", "parts"), 3)):
            with self.subTest(words=words):
                self.assertEqual(self.main(*words)[0], status)
