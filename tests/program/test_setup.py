"""Setup files: which `office new` takes, and what it answers to the others."""

import os

from tests.support.office import CONSTITUENCY, LISTS, PROFILE, station
from tests.support.program import ProgramCase, Ran, office, same, write
from tests.support.setups import (
    CODES, CONSTITUENCIES, EDITS, EXAMPLE, GOOD_PROFILE, STATION, TEXTS, cases_of,
)


def answer(text):
    """The outcome of `office new`: `read N` with the number of constituencies, or the word of the
    refusal and where the fault is. Only an office that was made leaves a file, and that is taken
    away.
    """
    write("setup.toml", text)
    ran = office("new", "--db", "office.db", "--setup", "setup.toml")
    if ran.status:
        assert ran.err.startswith("refused: ") and not os.path.exists("office.db"), (text, ran)
        word = ran.err.removeprefix("refused: ").removesuffix("\n")
        same(ran, Ran(1, "", f"refused: {word}\n"))
        return word.replace("\n", " / ")
    assert ran.out.startswith("constituencies "), (text, ran)
    count = ran.out.removeprefix("constituencies ").removesuffix("\n")
    same(ran, Ran(0, f"constituencies {count}\n", ""))
    os.remove("office.db")
    return f"read {count}"


def comes_to(word, text, line=None):
    found = answer(text)
    same(found, "read 1" if word == "read" else word, line or text)


def entries(header, count, rest):
    """This many entries of an array, each with a code of its own and the same rest."""
    return "".join(f'{header}\ncode = "x{number}"\n{rest}' for number in range(count))


class Setup(ProgramCase):
    def test_each_key_has_its_faults(self):
        for edit, word in cases_of(EDITS):
            with self.subTest(edit=edit, word=word):
                old, new = edit.split(" => ")
                self.assertIn(old, EXAMPLE)
                comes_to(word, EXAMPLE.replace(old, new.replace(" / ", "\n"), 1), edit)

    def test_texts_that_are_codes_and_texts_that_are_none(self):
        for code, word in cases_of(CODES):
            with self.subTest(code=code, word=word):
                comes_to(word, EXAMPLE.replace('"c1"', f'"{code}"'), code)

    def test_the_first_fault_is_answered(self):
        for text, word in cases_of(TEXTS):
            with self.subTest(text=text, word=word):
                comes_to(word, text)
        for text, word in cases_of(CONSTITUENCIES):
            with self.subTest(text=text, word=word):
                comes_to(word, GOOD_PROFILE + text)

    def test_arrays_of_tables_end_at_their_limits(self):
        profile = 'method = "hare"\nthreshold = 0\nbase = "lists"\n'
        for profiles, lists, stations, word in (
            (199, 58, 4999, "read"),
            (200, 1, 1, "over_limit profile"),
            (1, 59, 1, "over_limit list / at constituency 1 c1"),
            (1, 1, 5000, "over_limit station / at constituency 1 c1"),
        ):
            with self.subTest(profiles=profiles, lists=lists, stations=stations, word=word):
                comes_to(
                    word,
                    PROFILE
                    + entries("[[profile]]", profiles, profile)
                    + CONSTITUENCY
                    + LISTS
                    + entries("[[constituency.list]]", lists, 'name = "L"\ncandidates = ["C"]\n')
                    + STATION
                    + entries("[[constituency.station]]", stations, "electors = 1\n"),
                    word,
                )
        comes_to("over_limit constituency", PROFILE + entries("[[constituency]]", 201, ""))
        cons = "".join(
            (CONSTITUENCY + LISTS + STATION)
            .replace('"c1"', f'"c{number}"')
            .replace('"s1"', f'"s{number}"')
            for number in range(200)
        )
        self.assertEqual(answer(PROFILE + cons), "read 200")

    def test_a_list_has_1000_candidates_at_most(self):
        names = '"Bea"' + ', "Bo"' * 999
        comes_to("read", EXAMPLE.replace('"Bea"', names))
        comes_to(
            "over_limit candidates / at constituency 1 c1, list 2 B",
            EXAMPLE.replace('"Bea"', names + ', "Bo"'),
        )

    def test_as_many_candidates_as_a_text_has_room_for(self):
        """Some two million, of sixty lists in each of some thirty constituencies."""
        names = "[" + '"x",' * 1000 + "]"
        lists = ",".join(
            f'{{code="L{number}",name="L",candidates={names}}}' for number in range(60)
        )
        text, count = PROFILE, 0
        while len(text) + 60 * 4060 < 8388608:
            count += 1
            text += (
                CONSTITUENCY.replace('"c1"', f'"c{count}"')
                + f'list=[{lists}]\nstation=[{{code="s{count}",electors=1}}]\n'
            )
        self.assertGreater(count, 30)
        self.assertEqual(answer(text), f"read {count}")

    def test_a_text_has_8_mib_at_most(self):
        most = (EXAMPLE + "#").ljust(8388608)
        comes_to("read", most, "most")
        comes_to("over_limit text", most + " ", "over")

    def test_further_keys_as_long_as_a_text_may_be(self):
        """They are passed over: a text that fills eight mebibytes, many keys, and many members of
        an array.
        """
        for more in (
            f'more = "{"x" * 8388000}"',
            "\n".join(f"k{n} = {n}" for n in range(200000)),
            f"more = [{'0,' * 500000}]",
        ):
            with self.subTest(more=more):
                comes_to("read", EXAMPLE + more, more[:40])

    def test_the_last_place_that_a_fault_may_have(self):
        """The last byte of eight mebibytes, in one line or in as many lines; and the last entry of
        each array, with a code of sixteen characters.
        """
        comes_to("not_toml / at line 1, column 8388608", b" " * 8388607 + b"\xff", "one line")
        comes_to("not_toml / at line 8388608, column 1", b"\n" * 8388607 + b"\xff", "lines")
        comes_to("not_toml / at line 8388607, column 2", "\n" * 8388606 + "b\n", "a key alone")
        profiles = "".join(PROFILE.replace('"d0"', f'"P{number:015}"') for number in range(1, 201))
        comes_to(
            "bad_value base / at profile 200 P000000000000200",
            profiles[::-1].replace('"dilav"', '"setov"', 1)[::-1],
        )
        cons = [
            (CONSTITUENCY.replace('"d0"', '"P000000000000200"') + LISTS + STATION)
            .replace('"c1"', f'"C{number:015}"')
            .replace('"s1"', f'"S{number:015}"')
            for number in range(1, 200)
        ]
        last = CONSTITUENCY.replace('"d0"', '"P000000000000200"').replace(
            '"c1"', '"C000000000000200"'
        )
        lists = [
            f'\n[[constituency.list]]\ncode = "L{number:015}"\nname = "L"\ncandidates = ["Bo"]\n'
            for number in range(1, 60)
        ]
        names = '"Bo", ' * 999
        comes_to(
            (
                "bad_value candidates / at constituency 200 C000000000000200, list 60"
                " L000000000000060, candidate 1000"
            ),
            profiles
            + "".join([*cons, last, *lists])
            + '\n[[constituency.list]]\ncode = "L000000000000060"\nname = "L"\ncandidates ='
            f' [{names}"{"x" * 81}"]\n',
            "candidate",
        )
        stations = [station(f"T{number:015}") for number in range(1, 5000)]
        comes_to(
            (
                "duplicate S000000000000001 / at constituency 200 C000000000000200, station 5000; "
                "first at constituency 1 C000000000000001, station 1 S000000000000001"
            ),
            profiles + "".join([*cons, last, *lists, *stations, station("S000000000000001")]),
            "station",
        )

    def test_the_line_and_the_byte_at_which_a_text_ceases_to_be_toml(self):
        comes_to("not_toml / at line 1, column 9", b'name = "\xff"')
        comes_to("not_toml / at line 3, column 6", b'a = 1\n\nb = "\xff"\n')
        comes_to("not_toml / at line 2, column 2", "a = 1\nb\n")
        comes_to("not_toml / at line 2, column 1", "a = 1\na = 2\n")
        comes_to("not_toml / at line 1, column 6", "a =  ,\n")
        # A column counts bytes: the letter before has two.
        comes_to("not_toml / at line 1, column 8", 'a = "ä\nb')
        comes_to("not_toml / at line 2, column 8", b'a = 1\nb = "\xc3\xa4\xff"')
        # A character that breaks off ceases to be one at its first byte.
        comes_to("not_toml / at line 1, column 6", b'a = "\xe2\x82')

    def test_the_entry_that_has_a_code_first_is_named(self):
        profiles = PROFILE + PROFILE.replace('"d0"', '"d1"') + PROFILE.replace('"d0"', '"d2"')
        comes_to(
            "duplicate d1 / at profile 4; first at profile 2 d1",
            profiles + PROFILE.replace('"d0"', '"d1"'),
        )
        cons = [
            (CONSTITUENCY + LISTS + station(f"s{number}1") + station(f"s{number}2")).replace(
                '"c1"', f'"c{number}"'
            )
            for number in range(1, 4)
        ]
        comes_to(
            "duplicate c2 / at constituency 4; first at constituency 2 c2",
            PROFILE + "".join(cons) + CONSTITUENCY.replace('"c1"', '"c2"'),
        )
        for number in (1, 2, 3):
            for place in (1, 2):
                with self.subTest(number=number, place=place):
                    comes_to(
                        (
                            f"duplicate s{number}{place} / at constituency 3 c3, station 3; first"
                            f" at constituency {number} c{number}, station {place} s{number}{place}"
                        ),
                        PROFILE + "".join(cons) + station(f"s{number}{place}"),
                    )

    def test_a_text_that_breaks_off_is_a_setup_or_has_a_fault(self):
        answers = [answer(EXAMPLE[:end]) for end in range(len(EXAMPLE))]
        # Those that end after a digit of the number of electors.
        self.assertEqual(
            [end for end, word in enumerate(answers) if word == "read 1"],
            [len(EXAMPLE) - back for back in (3, 2, 1)],
        )
