"""How many keys a first entry in the clerks' page takes, counted as the page sees them, and what
the page proposes of the next paper of a pile."""

import json
import random

from tests.support import browser
from tests.support.case import needs
from tests.support.clerks import said
from tests.support.desks import done
from tests.support.typed_slips import (
    ENTER, FIELD, TEXTS, VALUES, TypedCase, place, setup_of,
)

# Thirty stations of a town, two of each section.
STATIONS = [f"46-001-{section:02}-{table}" for section in range(1, 16) for table in "AB"]
SHARES = (30, 26, 15, 10, 8, 5, 3, 2)
# Seconds a key takes by the keystroke model, of an average typist and of one trained on the number
# pad; and those to read one of the 13 figures of a paper: two codes, ten figures and their total.
AVERAGE, TRAINED, READING, FIGURES = 0.28, 0.18, 1.2, 13
COUNT = "window.pressed = 0; addEventListener('keydown', () => { window.pressed += 1; }, true)"
PRESSED = "const many = window.pressed; window.pressed = 0; return many"
# What is proposed beside the station and in its empty field, and beside the slip.
PROPOSED = """return [document.getElementById('proposed').textContent,
    document.getElementById('station').value, document.getElementById('station').placeholder]"""
SLIP = "return document.getElementById('lodge').elements.slip"


def pile():
    """The papers of a pile, in the order of the list: station, slip and figures."""
    draw = random.Random(1)
    for number, code in enumerate(STATIONS, 101):
        voters = draw.randint(266, 504)
        votes = [round(voters * share / 100 * draw.lognormvariate(0, 0.3)) for share in SHARES]
        figures = [*votes, draw.randint(0, 9), draw.randint(0, 9)]
        yield code, f"r{number}", [*figures, sum(figures)]


def typed(figures):
    return [f"{figure}{ENTER}" for figure in figures]


def sent(it, language, words="lodged"):
    """Waits until a slip was accepted, ticking what the paper says though it is unusual."""
    if it.run("const all = document.querySelectorAll('#lodge .warning input'); "
              "all.forEach((e) => e.click()); return all.length"):
        it.click("#lodge fieldset > button")
    said(it, TEXTS[language][words])


class KeysOfEntries(TypedCase):
    def choose(self, it, language, *pressed):
        it.keys(*pressed, ENTER)
        said(it, TEXTS[language]["now"])
        self.assertEqual(it.run(FIELD), "slip")

    @needs("chromium")
    def test_the_keys_of_a_first_entry(self):
        """Of a pile in order the first two papers are typed with their codes; of each later one the
        station is proposed, and the last figure of the slip's code is enough. It takes at most 36
        keys on the average; the seconds are the model's."""
        office = self.published(setup_of(codes=STATIONS))
        with browser.tab() as it, self.page(it, "en", office):
            it.run(COUNT)
            counts = []
            for number, (code, slip, figures) in enumerate(pile()):
                _, _, section, table = code.split("-")
                in_order = number > 1
                self.choose(it, "en", "" if number else f"{section.lstrip('0')}{table.lower()}")
                self.assertEqual(it.run("return shown.station"), code)
                it.keys(slip[-1] if in_order else slip, ENTER, *typed(figures))
                counts.append(it.run(PRESSED))
                sent(it, "en")
            lodged = [json.loads(office.ask("GET", f"/station/{code}")[1]) for code in STATIONS]
        wanted = [(slip, figures[:8], figures[8], figures[9]) for _, slip, figures in pile()]
        self.assertEqual([(one["slip"], one["votes"], one["blank"], one["spoiled"])
                          for one in lodged], wanted)
        average = sum(counts) / len(counts)
        print(f"{average:.1f} keys; of an average typist "
              f"{average * AVERAGE + FIGURES * READING:.1f} s, of a trained one "
              f"{average * TRAINED + FIGURES * READING:.1f} s")
        self.assertLessEqual(average, 36)
        self.assertLessEqual(max(counts[2:]), 38)

    @needs("chromium")
    def test_what_is_proposed(self):
        """Enter takes the proposed station, and no more than that however often it is pressed: of
        the slip's code a figure is typed. A slip that does not follow on the one before is looked
        at twice; a paper of elsewhere in the pile is found by its code, and so is a pile the other
        way round."""
        names = f"station,name\n{STATIONS[1]},Escuela Ausiàs March\n"
        figures = typed(next(pile())[2])
        with browser.tab() as it:
            for language, texts in TEXTS.items():
                office = self.published(setup_of(codes=STATIONS), stations=names)
                with self.subTest(language=language), self.page(it, language, office):
                    self.assertEqual(it.run(PROPOSED), ["", "", ""])
                    self.choose(it, language, "1a")
                    it.keys("r108", ENTER, *figures)
                    sent(it, language)
                    named = f"{STATIONS[1]}, Escuela Ausiàs March"
                    self.assertEqual(it.run(PROPOSED), [
                        place(texts["station_proposed"], station=named), "", STATIONS[1]])
                    it.run("document.activeElement.dispatchEvent(new KeyboardEvent('keydown', "
                           "{ key: 'Enter', repeat: true, bubbles: true }))")
                    self.assertEqual(it.run("return [shown.station, busy]"), [STATIONS[0], False])
                    self.choose(it, language)
                    self.assertEqual((it.run(PROPOSED), it.run(f"{SLIP}.placeholder")),
                                     (["", STATIONS[1], ""], ""))
                    it.keys("r109", ENTER, *figures)
                    sent(it, language)
                    # Who presses Enter too often is at the slip, and has typed nothing.
                    self.choose(it, language)
                    self.assertEqual(it.text("#lodge-help"),
                                     place(texts["slip_proposed"], slip="r110"))
                    it.keys(ENTER * 5)
                    self.assertEqual((it.run(FIELD), it.run(f"{SLIP}.validationMessage"),
                                      it.run(VALUES, "lodge")), ("slip", texts["slip_end"],
                                                                 [""] * 12))
                    self.ends(it, language)
                    it.keys("0", ENTER, *figures)
                    sent(it, language)
                    # Somebody else entered the next two, which the page knows of one.
                    for code in STATIONS[3:5]:
                        done(office, f"/station/{code}/lodge", {
                            "slip": code, "votes": [50] * 8, "blank": 0, "spoiled": 0})
                    it.keys(ENTER)
                    said(it, texts["now"])
                    self.assertEqual((it.run("return shown.station"), it.run(FIELD),
                                      it.run(PROPOSED)[1:]), (STATIONS[3], "station",
                                                              ["", STATIONS[4]]))
                    it.click("#find")
                    said(it, texts["open_listed"].split("{")[0])
                    self.assertEqual(it.run(PROPOSED)[2], STATIONS[5])
                    it.run("document.getElementById('station').focus()")
                    self.other_way(it, language, figures)

    def ends(self, it, language):
        """The slips that are meant by some ends, after r109, and how one is looked at twice."""
        texts, value = TEXTS[language], f"{SLIP}.value"
        for end, slip in (("1", "r111"), ("9", "r109"), ("12", "r112"), ("99", "r99"),
                          ("207", "r207"), ("r1100", "r1100"), ("x7", "x7"), ("4000", "4000")):
            with self.subTest(end=end):
                it.run(f"{SLIP}.select()")
                it.keys(end, ENTER)
                said(it, place(texts["slip_jumps"], slip=slip, proposed="r110",
                               station=STATIONS[2]))
                self.assertEqual((it.run(value), it.run(FIELD)), (slip, "slip"))
        it.keys(ENTER)
        self.assertEqual(it.run("return document.activeElement.name"), "votes")
        it.run(f"{SLIP}.focus(); {SLIP}.select()".replace("return ", ""))

    @needs("chromium")
    def test_the_numbers_of_slips(self):
        """The next one, and the one that is meant by an end, after some slips: with and without
        letters, with zeros before, beyond a power of ten, and downwards."""
        rows = ((("r108", "r109"), "r110", {"0": "r110", "12": "r112", "9": "r109"}),
                (("998", "999"), "1000", {"0": "1000", "00": "1000", "998": "998"}),
                (("0998", "0999"), "1000", {"0": "1000", "9": "0999", "11": "1011"}),
                (("a-003", "a-002"), "a-001", {"1": "a-001", "0": "a-000", "003": "a-003"}),
                (("1001", "1000"), "999", {"9": "999", "8": "998", "1002": "1002"}),
                (("r1", "r2", "r4"), "r5", {"5": "r5", "9": "r9"}),
                # These are not numbered one after the other, or no more.
                (("r108", "r110"), "", {}), (("r108", "s109"), "", {}), (("x", "y"), "", {}),
                (("r1", "r2", "s3"), "", {}))
        with browser.tab() as it, self.page(
                it, "en", self.published(setup_of(codes=STATIONS))):
            for slips, proposed, ends in rows:
                with self.subTest(slips=slips):
                    it.run("pile = { con: null }; for (const slip of arguments[0]) "
                           "putOnPile('46-001-01-A', slip)", slips)
                    self.assertEqual(it.run("return proposedSlip()"), proposed)
                    for end, slip in ends.items():
                        self.assertEqual(it.run("return slipMeant(arguments[0])", end), slip)

    def other_way(self, it, language, figures):
        """Two papers from the end of the list, which was typed with their codes, and the one that
        is proposed then."""
        texts = TEXTS[language]
        for code, slip in (("15b", "r130"), ("15a", "r129")):
            self.choose(it, language, code)
            # The station was typed: the slip need not follow.
            it.keys(slip, ENTER, *figures)
            sent(it, language)
        self.assertEqual(it.run(PROPOSED)[2], STATIONS[-3])
        self.choose(it, language)
        self.assertEqual(it.text("#lodge-help"),
                         place(texts["slip_proposed"], slip="r128"))
        it.keys("8", ENTER, *figures)
        sent(it, language)
        self.assertEqual(it.run(PROPOSED)[2], STATIONS[-4])

    @needs("chromium")
    def test_where_nothing_is_proposed(self):
        """To whoever enters a slip a second time, and where one entry is enough: there the codes
        that are typed are all that ties the figures to their station."""
        figures = typed(next(pile())[2])
        with browser.tab() as it:
            for entry, name, role in (("single", "clara", "clerk"), ("double", "sara", "second")):
                office = self.published(setup_of(entry, STATIONS))
                with self.subTest(entry=entry, role=role), self.page(it, "en", office, name, role):
                    for number, (code, end) in enumerate(zip(STATIONS, ("1a", "1b", "2a")), 101):
                        if role == "second":
                            done(office, f"/station/{code}/lodge", self.lodged(number))
                        self.choose(it, "en", end)
                        self.assertEqual((it.run(PROPOSED), it.text("#lodge-help")),
                                         (["", code, ""], ""))
                        it.keys(f"r{number}", ENTER, *figures)
                        sent(it, "en", "lodged" if role == "clerk" else "same_closed")
                        self.assertEqual(it.run(PROPOSED), ["", code, ""])
                        it.run("document.getElementById('station').select()")

    def lodged(self, number):
        figures = next(pile())[2]
        return {"slip": f"r{number}", "votes": figures[:8], "blank": figures[8],
                "spoiled": figures[9]}
