"""The limits of a setup as the tools of `deploy/` keep them, and what `setup-json` makes of one.

Nothing is started. The faults that the office names too are in test_files_of_tools.
"""

import contextlib
import hashlib
import io
import json
import sys
from pathlib import Path
from unittest import mock

from tests.support.case import Case
from tests.support.office import LISTS, PROFILE, constituency, station
from tests.support.scripts import loaded, module

limits, odd_names = module("setup_limits"), module("odd_names")
setup_json = loaded("setup-json")
TOWN = {"code": "c1", "name": "Twin Town", "seats": 3, "profile": "p"}
EXAMPLE = PROFILE + constituency("c1", "Twin Town", 3, "d0") + LISTS + station("s1")


def profile(number):
    return {"code": f"p{number}" if number > 1 else "p", "method": "hare", "threshold": 0,
            "base": "valid"}


def a_list(number, candidates=1):
    return {"code": f"L{number}", "name": "A list", "candidates": ["Ana"] * candidates}


def a_station(number, electors=300, **more):
    return {"code": f"s{number}", "electors": electors, **more}


def numbered(make, number, **more):
    return [make(n, **more) for n in range(1, number + 1)]


def setup_of(profiles=1, cons=1, lists=1, candidates=1, stations=1, electors=300, **more):
    """A setup with this many of each entry."""
    return {"profile": numbered(profile, profiles), "constituency": [
        TOWN | {"code": f"c{n}", "list": numbered(a_list, lists, candidates=candidates),
                "station": [a_station(f"{n}-{m}", electors) for m in range(stations)], **more}
        for n in range(1, cons + 1)]}


class Limits(Case):
    prefix = "office-limits-"

    def test_entries_of_arrays(self):
        """The most of each are taken, and one more is refused with its place."""
        for how, said in (
                ({"profiles": 200}, None),
                ({"profiles": 201}, "the setup: 201 of profile, and 200 is the limit"),
                ({"cons": 200}, None),
                ({"cons": 201}, "the setup: 201 of constituency, and 200 is the limit"),
                ({"lists": 60}, None),
                ({"lists": 61}, "constituency 1 c1: 61 of list, and 60 is the limit"),
                ({"candidates": 1000}, None),
                ({"candidates": 1001}, "constituency 1 c1, list 1 L1: 1,001 of candidates, and "
                                       "1,000 is the limit"),
                ({"stations": 5000}, None), ({"stations": 5000, "size": "normal"}, None),
                ({"stations": 5001}, "constituency 1 c1: 5,001 of station, and 5,000 is the limit"),
                ({"stations": 5001, "size": "large"}, None),
                ({"stations": 20_000, "size": "large"}, None),
                ({"stations": 20_001, "size": "large"},
                 "constituency 1 c1: 20,001 of station, and 20,000 is the limit")):
            with self.subTest(how=how):
                self.assertEqual(limits.first_fault(setup_of(**how), 200), said)
        # A setup that is divided may have any number of constituencies.
        self.assertIsNone(limits.first_fault(setup_of(cons=201)))

    def test_electors_of_a_constituency(self):
        """5,000 times a million is the limit, agents among them."""
        last, one = a_station("x", 999_000, agents=1000), a_station("y", 1)
        for stations, more, is_taken in (
                (5000, (), True), (5000, (one,), False), (4999, (last,), True),
                (4999, (last, one), False), (4999, (a_station("x", 1_000_000),), True)):
            with self.subTest(stations=stations, more=more):
                setup = setup_of(stations=stations, electors=1_000_000, size="large")
                setup["constituency"][0]["station"] += more
                self.assertEqual(limits.first_fault(setup), None if is_taken else (
                    "constituency 1 c1: electors and agents of all stations are more than "
                    "5,000,000,000"))

    def test_codes_that_differ_in_capitals_alone(self):
        """A fault for the proxy, and none for an office: of constituencies and of stations."""
        alike = "which the proxy does not tell apart"
        cons = setup_of(cons=2)
        cons["constituency"][1]["code"] = "C1"
        stations = setup_of(cons=2)
        stations["constituency"][0]["station"][0]["code"] = "s-a"
        stations["constituency"][1]["station"][0]["code"] = "s-A"
        lists = setup_of(lists=2)
        lists["constituency"][0]["list"][1]["code"] = "l1"
        for setup, said in (
                (cons, f"constituency 2: constituency C1 and c1 at constituency 1 c1 differ in "
                       f"capitals alone, {alike}"),
                (stations, "constituency 2 c2, station 1: station s-A and s-a at constituency 1 "
                           f"c1, station 1 s-a differ in capitals alone, {alike}"),
                (lists, None)):
            with self.subTest(said=said):
                self.assertEqual(limits.first_fault(setup), said)
                self.assertIsNone(limits.first_fault(setup, sees_capitals=True))

    def test_what_is_a_name(self):
        for text, is_one in (("x", True), ("", False), ("x" * 80, True), ("x" * 81, False),
                             ("ñ" * 40, True), ("ñ" * 40 + "x", False), ("a\x1fb", False),
                             ("a b", True), ("a~b", True), ("a\x7fb", False), ("a\x80b", True),
                             ("a\nb", False), (7, False), (None, False)):
            with self.subTest(text=text):
                self.assertEqual(limits.is_name(text), is_one)

    def test_what_is_said_of_a_value(self):
        """The first hundred characters; a number with its word."""
        for text, wanted in (("x" * 98, f"'{'x' * 98}'"), ("x" * 99, f"'{'x' * 99}..")):
            self.assertEqual(limits.shown(text), wanted)
        self.assertEqual([limits.counted(n, "station") for n in (0, 1, 2)],
                         ["0 stations", "1 station", "2 stations"])
        self.assertEqual([limits.counted(n, "constituency", "constituencies") for n in (1, 200)],
                         ["1 constituency", "200 constituencies"])

    def test_arrays_that_are_none(self):
        for old, value, said in (
                ("profile", [], "the setup: profile is empty"),
                ("profile", {}, "the setup: profile is no array of tables"),
                ("constituency", [{}, 3], "the setup: constituency is no array of tables"),
                ("constituency", None, "the setup: constituency is missing")):
            with self.subTest(value=value):
                setup = setup_of() | {old: value}
                setup = {key: one for key, one in setup.items() if one is not None}
                self.assertEqual(limits.first_fault(setup), said)
        for names in ([], ["Ana", 3], "Ana"):
            with self.subTest(names=names):
                setup = setup_of()
                setup["constituency"][0]["list"][0]["candidates"] = names
                self.assertEqual(limits.first_fault(setup), "constituency 1 c1, list 1 L1: "
                                                            "candidates is no array of names")


def parts(*cons):
    """The parts of a setup: constituencies, each with the codes of its stations."""
    return [{"code": code, "name": code, "lists": [], "stations": [
        {"code": one} for one in stations]} for code, *stations in cons]


class SetupJson(Case):
    prefix = "office-setup-json-"

    def run_tool(self, *words):
        out, said = io.StringIO(), io.StringIO()
        with (mock.patch.object(sys, "argv", ["setup-json", *words]),
              contextlib.redirect_stdout(out), contextlib.redirect_stderr(said)):
            try:
                setup_json.main()
            except SystemExit as ended:
                return ended.code
        return out.getvalue(), said.getvalue()

    def test_what_the_proxy_reads(self):
        """By hand: a line for each code, and a pattern for those that differ in capitals alone."""
        text = "[]\n"
        found = setup_json.codes_conf(parts(("c1", "s1", "S1", "s11"), ("c2", "s2")), text)
        lines = [line.strip() for line in found.splitlines() if not line.startswith("#")]
        self.assertEqual(lines, [
            'map ":$con" $known_con {', 'default "";', ":c1 c1;", ":c2 c2;", "}",
            'map ":$station" $home {', "default $con;", ": $con;", r'"~^:s1\z" c1;',
            r'"~^:S1\z" c1;', ":s11 c1;", ":s2 c2;", "}",
            "map $http_office_setup $is_other_setup {", "default 1;", '"" 0;',
            f"{hashlib.sha256(text.encode()).hexdigest()} 0;", "}"])
        for code in ("s;", "s" * 17, "", "s1\n"):
            with self.subTest(code=code):
                self.assertRaises(ValueError, setup_json.codes_conf, parts(("c1", code)), text)
        self.assertIn(f":{'s' * 16} c1;", setup_json.codes_conf(parts(("c1", "s" * 16)), text))

    def test_a_text_of_just_the_bytes_of_an_office(self):
        Path("setup.toml").write_text(EXAMPLE, encoding="utf-8")
        length = len(EXAMPLE.encode())
        with mock.patch.object(limits, "MOST_BYTES", length):
            self.assertEqual(setup_json.read_setup(Path("setup.toml"))[0]["code"], "c1")
        with mock.patch.object(limits, "MOST_BYTES", length - 1):
            self.assertRaisesRegex(setup_json.Refused, f"{length} bytes, and {length - 1} is the",
                                   setup_json.read_setup, Path("setup.toml"))

    def test_the_setup_with_which_a_record_began(self):
        """It is written once more where an older package wrote it of this setup; else the new
        one."""
        before, one = Path("before.json"), {"code": "c1", "name": "Twin Town"}
        for known, setup, is_before in (
                ([one], [one | {"entry": "double"}], True), ([one], [one], True),
                ([one | {"entry": "double"}], [one | {"entry": "double"}], True),
                ([one], [one | {"seats": 3}], False), ([one | {"seats": 3}], [one], False),
                ([one, one], [one], False)):
            with self.subTest(known=known, setup=setup):
                text = setup_json.json_text(known)
                before.write_text(text, encoding="utf-8")
                found = setup_json.text_of(setup, before)
                self.assertEqual(json.loads(found), known if is_before else setup)
                self.assertEqual(setup_json.text_of(setup, None), setup_json.json_text(setup))

    def test_names_beside_the_codes_or_elsewhere(self):
        """staff.conf is beside the codes, unless --staff says where; without either nobody is
        known."""
        Path("setup.toml").write_text(EXAMPLE, encoding="utf-8")
        Path("office").mkdir()
        Path("office/staff.conf").write_text("s1 clerk;\n", encoding="utf-8")
        Path("other.conf").write_text('clara "clerk c1 c9";\n', encoding="utf-8")
        refused = "failed: setup.toml: station s1 is called as one of the staff"
        bound = "clara is bound to c9, which is no constituency of this setup\n"
        for words, wanted in (
                (("office/codes.conf",), refused),
                (("office/codes.conf", "--staff", "other.conf"), ("", bound)),
                (("--staff", "office/staff.conf"), refused),
                (("--staff", "none.conf"), None), ((), None)):
            with self.subTest(words=words):
                found = self.run_tool("setup.toml", ".", *words)
                if wanted is None:
                    self.assertEqual((found[0].startswith("# The constituencies"), found[1]),
                                     (True, ""))
                else:
                    self.assertEqual(found, wanted)

    def test_files_that_others_read(self):
        """Each is readable by all, and nothing stays beside."""
        Path("setup.toml").write_text(EXAMPLE, encoding="utf-8")
        self.run_tool("setup.toml", ".", "codes.conf")
        for name in ("setup.json", "setup.json.gz", "codes.conf"):
            self.assertEqual(Path(name).stat().st_mode & 0o777, 0o644)
        self.assertEqual(sorted(path.name for path in Path().iterdir()),
                         ["codes.conf", "setup.json", "setup.json.gz", "setup.toml"])


    def test_codes_that_cannot_be_printed(self):
        """On a full disk nothing is written, as where a file cannot be."""
        Path("setup.toml").write_text(EXAMPLE, encoding="utf-8")
        with contextlib.suppress(OSError), open("/dev/full", "w", encoding="utf-8") as full:
            with (mock.patch.object(sys, "argv", ["setup-json", "setup.toml", "."]),
                  contextlib.redirect_stdout(full), self.assertRaises(SystemExit) as ended):
                setup_json.main()
        self.assertIn("No space left on device", ended.exception.code)
        self.assertEqual([path.name for path in Path().iterdir()], ["setup.toml"])


class OddNames(Case):
    prefix = "office-odd-"

    def test_letters_of_two_alphabets(self):
        """Those of one word; digits and signs are of none."""
        for text, words in (("Alpha", []), ("Альфа", []), ("Alpha Альфа", []), ("Aльфа", ["Aльфа"]),
                            ("Ωmega one", ["Ωmega"]), ("Α1-b2", []), ("Α1b2 x", ["Α1b2"]),
                            ("שaם", []), ("Տol", ["Տol"]), ("Ꮪol", ["Ꮪol"]), ("Mª 2º", [])):
            with self.subTest(text=text):
                self.assertEqual(odd_names.mixed(text), words)

    def test_characters_that_nobody_sees(self):
        """Controls, and what turns a text round or breaks a line; spaces are none."""
        for text, codes in (("a b\u00a0c\u3000d", []), ("a\tb", ["U+0009"]),
                            ("\u202ea\u200b\u202e", ["U+200B", "U+202E"]), ("a\u2028b", ["U+2028"]),
                            ("a\u2029b", ["U+2029"]), ("a\U000e0041", ["U+E0041"]),
                            ("Sol\u3164\u115f", ["U+115F", "U+3164"]), ("\u2800", ["U+2800"]),
                            ("\u1160\uffa0", ["U+1160", "U+FFA0"]), ("So\u034fl", ["U+034F"])):
            with self.subTest(text=text):
                self.assertEqual(odd_names.unseen(text), codes)

    def test_names_of_one_look(self):
        """Where they are compared: constituencies, lists of one, candidates of one list."""
        def of(code, name, lists):
            return {"code": code, "name": name, "lists": [
                {"code": str(n), "name": title, "candidates": people}
                for n, (title, people) in enumerate(lists, 1)]}

        setup = [of("c1", "Town", [("Red", ["Ana", "Eva"]), ("Blue", ["Ana", "E\u0301va"])]),
                 of("c2", "TOWN", [("Red", ["O'Neill", "Oneill", "0neill"]), ("R.E.D.", ["Bo"])])]
        self.assertEqual(odd_names.warnings(setup), [
            "the constituencies: Town and TOWN look alike",
            "the lists of c2: Red and R.E.D. look alike",
            "list 1 of c2: O'Neill and Oneill look alike",
            "list 1 of c2: O'Neill and 0neill look alike"])
