"""The drawings of the press pages, by values worked by hand: bars, half circles of dots with their
labels, the map, and the picture for those who share a page.

A half circle is 100 high above the middle of its base, to which x and y are counted: y downwards.
"""

import math
import re

from tests.support.case import Case
from tests.support.pictures import read_picture
from tests.support.scripts import module
from tests.support.site import DEPLOY

country, figures, image, pages, site = map(module, (
    "press_country", "press_figures", "press_image", "press_pages", "press_site"))

# Colours that are alike, and one that is not.
DARK, LIGHT = ("#101010", "#101010"), ("#f0f0f0", "#f0f0f0")
# The angles of five dots in a row, from left to right, and the radius of each: 0.44 times 26.
FIVE, DOT = (math.pi, 3 * math.pi / 4, math.pi / 2, math.pi / 4, 0), 11.44


def coloured(**colours):
    found = site.Site()
    found.colours = colours
    return found


def numbers(text):
    return [float(number) for number in re.findall(r"-?\d+\.\d", text)]


def texts_of(circle):
    return [text for _, words in circle["sides"] for *_, text in words]


def row(code, share, **more):
    return {"code": code, "name": f"List {code}", "share": share, "eligible": True} | more


class Bars(Case):
    def test_the_widths_of_bars(self):
        """Of half of the votes, where no list has more, and no threshold is higher."""
        for shares, threshold, scale, widths, line in (
                ((5_000, 1_250), 500, "50%", ["100.00", "25.00"], "10.00"),
                ((5_001, 1_250), 500, "100%", ["50.01", "12.50"], "5.00"),
                ((1_250, 1), 6_000, "100%", ["12.50", "0.01"], "60.00"),
                ((1_250, 1), 5_000, "50%", ["25.00", "0.02"], "100.00"),
                ((5_000,), 0, "50%", ["100.00"], None)):
            with self.subTest(shares=shares, threshold=threshold):
                rows = [row(code, share) for code, share in zip("AB", shares)]
                found = figures.bars(site.Site(), rows, threshold, "a limit")
                self.assertEqual([bar["width"] for bar in found["bars"]], widths)
                self.assertEqual((found["line"], found["limit"]), (line, "a limit"))
                self.assertEqual(found["scale"],
                                 f"The full width of a bar is {scale} of the votes.")

    def test_twelve_bars(self):
        """The thirteenth list and those after it are not drawn, and their number is given. What a
        screen reader says has as many; without a threshold there is no line."""
        for many, left in ((12, 0), (13, 1), (15, 3)):
            with self.subTest(many=many):
                rows = [row(f"L{n}", 4_000 - n) for n in range(many)]
                found = figures.bars(site.Site(), rows)
                self.assertEqual([bar["code"] for bar in found["bars"]],
                                 [f"L{n}" for n in range(12)])
                self.assertEqual((found["more"], found["line"], found["limit"]), (left, None, ""))
                self.assertEqual(found["said"].split(", "),
                                 [f"L{n} {'40.00' if not n else f'39.{100 - n}'} per cent"
                                  for n in range(12)])
        self.assertEqual([bar["share"] for bar in found["bars"][:2]], ["40.00%", "39.99%"])


class Dots(Case):
    def test_rows_of_dots(self):
        """Each row has dots by its length. Of thirteen in a row the middles are 314.16 / 12 = 26.2
        apart, which is all that a dot takes; of fourteen 24.2, so that two rows have larger ones,
        31 apart: of 169 parts 100 and 69, or 8.3 and 5.7 dots. Of twenty-eight three rows, 20.7
        apart. Of thirty-four 14.3, 11.3 and 8.4 are one too few, and of thirty-five 14.7, 11.7 and
        8.6 one too many: the outer row makes up for it. A thousand have fifteen rows, the most."""
        for count, dots in ((1, [1]), (13, [13]), (14, [8, 6]), (27, [16, 11]), (28, [12, 9, 7]),
                            (34, [15, 11, 8]), (35, [14, 12, 9])):
            with self.subTest(count=count):
                self.assertEqual(figures.rows_of_dots(count)[1], dots)
        self.assertEqual([figures.rows_of_dots(count)[0] for count in (13, 14)], [[100], [100, 69]])
        radii = figures.rows_of_dots(1_000)[0]
        self.assertEqual((len(radii), round(radii[-1], 2)), (15, 42.13))

    def test_how_large_a_dot_is(self):
        """0.88 of what two neighbours are apart, in a row or across the rows, and of 26 at most."""
        for count in (*range(1, 60), 100, 350, 1_000):
            with self.subTest(count=count):
                dots, size = figures.places_of_dots(count)
                radii = sorted({radius for _, radius in dots})
                free = [26, *(after - one for one, after in zip(radii, radii[1:]))]
                for radius in radii:
                    angles = [angle for angle, of in dots if of == radius]
                    free += [(one - after) * radius for one, after in zip(angles, angles[1:])]
                self.assertAlmostEqual(2 * size, 0.88 * min(free))
                self.assertEqual(radii[-1], 100)
                self.assertGreaterEqual(round(radii[0]), 42)

    def test_places_of_dots(self):
        """From one end to the other; of dots above one another the inner one first. One alone is in
        the middle."""
        for count, wanted in ((1, [math.pi / 2]), (2, [math.pi, 0]), (5, list(FIVE))):
            self.assertEqual(figures.places_of_dots(count), ([(at, 100) for at in wanted], DOT))
        dots, _ = figures.places_of_dots(14)
        self.assertEqual((dots[:2], dots[-2:]), ([(math.pi, 69), (math.pi, 100)],
                                                 [(0, 69), (0, 100)]))

    def test_dots_as_lines(self):
        """A dot at the left, one at the top and one at the right; of a hollow one the hole, and of
        one with a rim what is within, is 1.45 times its radius wide, and one of nobody 0.8."""
        dots = [(math.pi, 100), (math.pi / 2, 60), (0, 100)]
        for values, code, hole, rim, width in (
                ({}, "A", None, None, None), ({"rimmed": True}, "A", None, "14.5", None),
                ({"hollow": True}, "A", "14.5", None, None), ({}, None, None, None, "8.0")):
            with self.subTest(values=values, code=code):
                found = figures.group_of_dots(code, dots, 10, **values)
                self.assertEqual(numbers(found.pop("path")), [-100, 0, 0, -60, 100, 0])
                self.assertEqual(found, {"code": code, "hole": hole, "rim": rim, "width": width})


class HalfCircles(Case):
    def test_a_half_circle_of_five_seats(self):
        """Two of A; of B one and one provisional, which is hollow; and one that nobody has. The
        line of the majority of three is between the second dot and the third, at 112.5 degrees:
        cosine -0.3827, sine 0.9239; from 30 to 116.44, which is 5 beyond the dots. The label of A
        is at 157.5 degrees, that of B at 67.5 and that of the last at 0: each 118.44 from the
        middle, with 3 below and 2 outwards."""
        found = figures.half_circle(coloured(A=DARK, B=LIGHT), {"A": 2, "B": 1}, 5,
                                    [("circle_lot", 0), ("circle_open", 1)], 3, {"A": 0, "B": 1})
        groups = [(one["code"], numbers(one["path"]), one["hole"], one["rim"], one["width"])
                  for one in found["groups"]]
        self.assertEqual(groups, [("A", [-100, 0, -70.7, -70.7], None, None, None),
                                  ("B", [0, -100], None, None, None),
                                  ("B", [70.7, -70.7], "16.6", None, None),
                                  (None, [100, 0], None, None, "9.2")])
        self.assertEqual(found["line"], ["-11.5", "-27.7", "-44.6", "-107.6"])
        self.assertEqual(found["sides"], [
            ("end", [("-111.4", "-42.3", "A 2")]),
            ("start", [("47.3", "-106.4", "B 1+1"), ("120.4", "3.0", "not certified 1")])])
        # From the middle 118.44, 4 and fifteen letters of 7.4; from 8 above the dots to 8 below.
        self.assertEqual(found["box"], "-233 -119 467 127")
        self.assertEqual(found["said"], "A 2, B 1 and 1 provisional, not certified 1")
        self.assertEqual([found[key] for key in ("hollow", "grey", "rimmed", "named", "many",
                                                 "stroke", "lines", "majority", "total")],
                         ["hollow_dots", True, False, None, 2, "22.9", "", 3, 5])

    def test_one_seat(self):
        """Its label is above it, and the frame 12 above that. Nobody has a line of the majority
        where none is given."""
        found = figures.half_circle(site.Site(), {"A": 1, "B": 0}, 1)
        self.assertEqual(found["sides"], [("start", [("2.0", "-115.4", "A 1")])])
        self.assertEqual(found["box"], "-114 -127 229 135")
        self.assertEqual([found[key] for key in ("said", "hollow", "grey", "rimmed", "line",
                                                 "majority", "many")],
                         ["A 1", None, False, False, None, None, 1])

    def test_what_is_said_of_provisional_seats(self):
        """The numbers after a plus are there only where others are certified. Lists are in the
        order of both together."""
        for seats, more, labels, said, hollow in (
                ({"A": 0, "B": 0}, {"A": 1, "B": 2}, ["B 2", "A 1"],
                 "B 2 provisional, A 1 provisional", "hollow_alone"),
                ({"A": 2, "B": 0}, {"A": 0, "B": 1}, ["A 2", "B 0+1"], "A 2, B 1 provisional",
                 "hollow_dots"),
                ({"A": 1}, {"B": 2}, ["B 0+2", "A 1"], "B 2 provisional, A 1",
                 "hollow_dots"),
                ({"A": 2}, {}, ["A 2"], "A 2", None),
                ({"A": 1, "B": 1}, {"A": 0}, ["A 1", "B 1"], "A 1, B 1", None)):
            with self.subTest(seats=seats, more=more):
                found = figures.half_circle(site.Site(), seats, 3, provisional=more)
                self.assertEqual((texts_of(found), found["said"], found["hollow"]),
                                 (labels, said, hollow))

    def test_a_rim_between_lists_of_like_colours(self):
        """Around the dots of each second of them; none around hollow dots or those of nobody."""
        for colours, seats, more, rims in (
                ({"A": DARK, "B": DARK, "C": DARK, "D": LIGHT}, (2, 1, 1, 1), {},
                 [None, "16.6", None, None]),
                ({"A": DARK, "B": DARK, "C": DARK, "D": DARK}, (2, 1, 1, 1), {},
                 [None, "16.6", None, "16.6"]),
                ({"A": DARK, "B": LIGHT, "C": DARK, "D": DARK}, (2, 1, 1, 1), {},
                 [None, None, None, "16.6"]),
                ({"A": DARK, "B": DARK}, (4, 0), {"B": 1}, [None, None])):
            with self.subTest(colours=colours, seats=seats):
                found = figures.half_circle(coloured(**colours), dict(zip("ABCD", seats)), 5,
                                            [("circle_open", 0)], provisional=more)
                self.assertEqual([one["rim"] for one in found["groups"]], rims)
                self.assertEqual(found["rimmed"], any(rims))
        found = figures.half_circle(site.Site(), {"A": 1}, 2, [("circle_open", 1)])
        self.assertEqual([one["rim"] for one in found["groups"]], [None, None])

    def test_how_many_lists_are_named(self):
        """Sixteen are all named; of seventeen the caption says that sixteen are."""
        for many, named in ((16, None), (17, 16)):
            found = figures.half_circle(site.Site(), {f"L{n}": 1 for n in range(many)}, many)
            self.assertEqual((found["named"], found["many"], len(texts_of(found))),
                             (named, many, 16))

    def test_a_half_circle_that_cannot_be_made_out(self):
        """Of more than a thousand seats, or sixty lists, there is none; nor of no seat."""
        for chamber, lists, is_drawn in ((1_000, 60, True), (1_001, 60, False), (1_000, 61, False),
                                         (2, 1, True), (1, 1, True), (2, 0, False), (0, 0, False)):
            with self.subTest(chamber=chamber, lists=lists):
                all_of_it = country.Country(chamber=chamber, certified=lists, parties=[
                    country.Party(f"L{n}", "", seats=n % 2, provisional=(n + 1) % 2)
                    for n in range(lists)] + [country.Party("Z", "")])
                self.assertEqual(pages.circle_of(site.Site(), all_of_it) is not None, is_drawn)

    def test_a_label_beside_the_line_of_the_majority(self):
        """It is moved to 0.2 from the line where it is within 0.12, to its own side."""
        for line, angle, wanted in ((None, 1.0, 1.0), (1.0, 1.1, 1.2), (1.0, 0.9, 0.8),
                                    (1.0, 1.13, 1.13), (1.0, 0.87, 0.87)):
            with self.subTest(line=line, angle=angle):
                self.assertAlmostEqual(figures.clear_of(line, angle), wanted)

    def test_a_label_that_is_moved_far_has_a_line(self):
        """One that is 7 below another, which is 47 above the base, is moved down by 4.5: it has a
        line to its dot. One 8 below is moved by 3.5, and has none. At a height of 38.5 the half
        circle of 107 is sqrt(107^2 - 41.5^2) = 98.6 wide, from the text's middle."""
        first = (math.asin(53 / 107), 100, "A 1")
        for sine, lines, x, y in ((46, "M91.2 -43.4L98.6 -41.5", "100.6", "-38.5"),
                                  (45, "", "100.6", "-38.5")):
            with self.subTest(sine=sine):
                found = figures.placed_labels(
                    [first, (math.asin(sine / 107), 100, "B 1")], 100)
                self.assertEqual(found[:2], ([("start", [("95.0", "-50.0", "A 1"),
                                                         (x, y, "B 1")])], lines))
                # On the left everything is as on the right.
                found = figures.placed_labels(
                    [(math.pi - angle, *more) for angle, *more in (
                        first, (math.asin(sine / 107), 100, "B 1"))], 100)
                self.assertEqual(found[0], [("end", [("-95.0", "-50.0", "A 1"),
                                                     (f"-{x}", y, "B 1")])])
                self.assertEqual(found[1], lines.replace("M", "M-").replace("L", "L-"))

    def test_the_frame_has_room_for_its_labels(self):
        """The lowest ends 4 below its line, and the highest begins 12 above: of two at the right
        end the lower one is moved to 8, and the upper one to 11.5 above it. Both have lines.
        Without labels the frame is that of the dots."""
        self.assertEqual(figures.placed_labels([], 100), ([], "", 103, -108, 8))
        sides, lines, width, top, bottom = figures.placed_labels(
            [(0, 100, "A 1"), (0.001, 100, "B 1")], 100)
        self.assertEqual(sides, [("start", [("109.0", "-3.5", "B 1"), ("109.0", "8.0", "A 1")])])
        self.assertEqual(lines, "M101.0 -0.1L107.0 -6.5M101.0 -0.0L107.0 5.0")
        self.assertEqual((round(width, 1), top, bottom), (107 + 4 + 22.2, -108, 12))
        *_, top, bottom = figures.placed_labels([(1.5, 100, "A 1")], 100)
        self.assertEqual((round(top, 1), bottom), (round(-107 * math.sin(1.5) + 3 - 12, 1), 8))


class Maps(Case):
    @staticmethod
    def con(*votes, certified=True):
        return {"tally": {"name": "North", "lists": [{"code": code, "votes": many}
                                                     for code, many in zip("AB", votes)]},
                "view": {"certified": certified}}

    def test_a_shape_of_a_constituency(self):
        """A text within it that has none has the code of its first list; others stay."""
        empty, text = ("text", None, {}, [], ""), ("text", None, {"x": "1"}, [], "Bay")
        drawing = ("svg", None, {"viewBox": "0 0 9 9"}, [
            ("g", "north", {}, [("path", None, {"d": "M0 0"}, [], ""), empty, text], ""),
            ("g", "sea", {}, [empty], "")], "")
        for con, first, pale in ((self.con(3, 5), "B", False),
                                 (self.con(5, 3, certified=False), "A", True),
                                 (self.con(5, 5), None, False)):
            with self.subTest(first=first):
                top = figures.map_shape(drawing, {"north": con})
                self.assertEqual((top["kind"], top["places"], top["con"]),
                                 ("svg", {"viewBox": "0 0 9 9"}, None))
                north, sea = top["inner"]
                self.assertEqual(north["con"], {"code": "north", "name": "North", "first": first,
                                                "pale": pale})
                self.assertEqual([part["text"] for part in north["inner"][1:]],
                                 [first or "", "Bay"])
                self.assertEqual((sea["con"], sea["inner"][0]["text"]), (None, ""))


class Pictures(Case):
    """The picture of 1200 by 630 points."""

    @staticmethod
    def drawn(**values):
        """The colour of a point of the picture of a country, by column and row."""
        it = site.Site()
        it.colours = {"A": ("#ff0000", "#00ff00"), "B": ("#0000ff", "#00ff00")}
        all_of_it = country.Country(**({"stations": 4, "closed": 1} | values))
        columns, rows, points = read_picture(image.shared_image(it, all_of_it))
        return columns, rows, lambda x, y: tuple(points[(y * columns + x) * 3:][:3])

    def test_its_colours_are_those_of_the_pages(self):
        style = (DEPLOY / "press.css").read_text(encoding="utf-8")
        for colour, name in ((image.PAPER, "paper"), (image.COUNTED, "good")):
            found = re.search(f"--{name}: #([0-9a-f]{{6}});", style)[1]
            self.assertEqual(bytes(colour).hex(), found)

    def test_the_form_of_the_file(self):
        """PNG: 0x4b0 by 0x276 points of eight bits for each of three colours, neither interlaced
        nor of another kind; and the end that each such file has."""
        png = image.Canvas().png()
        self.assertEqual(png[:29], b"\x89PNG\r\n\x1a\n\0\0\0\rIHDR\0\0\x04\xb0\0\0\x02\x76"
                                   b"\x08\x02\0\0\0")
        self.assertEqual(png[-12:], b"\0\0\0\0IEND\xae\x42\x60\x82")

    def test_a_line_whose_ends_are_within_points(self):
        """From 2.25 to 5.5: three quarters of the third point, all of the next two, half of the
        sixth. One that is within a point takes its own part of it, and one of no length none."""
        black, paper = (0, 0, 0), image.PAPER
        quarter, half = (tuple(round(part * left) for part in paper) for left in (0.25, 0.5))
        for begin, end, wanted in (
                (2.25, 5.5, [paper, paper, quarter, black, black, half, paper]),
                (2, 4, [paper, paper, black, black, paper, paper, paper]),
                (2.25, 2.75, [paper, paper, half, paper, paper, paper, paper]),
                (2.5, 2.5, [paper] * 7), (2, 2, [paper] * 7)):
            with self.subTest(begin=begin, end=end):
                canvas = image.Canvas()
                canvas.line(9, begin, end, black)
                row = [tuple(canvas.rows[9][x * 3:x * 3 + 3]) for x in range(7)]
                self.assertEqual(row, wanted)
                self.assertEqual(len(canvas.rows[9]), 3600)

    def test_a_dot(self):
        """Of a radius of 5 around 10, 20: 3 or 4 from its middle it is 8 or 6 wide; where it ends
        there is none of it, wherever its middle is."""
        for x, y in ((10, 20), (10.25, 20)):
            canvas = image.Canvas()
            canvas.dot(x, y, 5, (0, 0, 0))
            full = {row: sum(canvas.rows[row][at * 3] == 0 for at in range(40))
                    for row in range(40)}
            other = {row: sum(0 < canvas.rows[row][at * 3] < 251 for at in range(40))
                     for row in range(40)}
            with self.subTest(x=x):
                ends = 0 if x == 10 else 2
                for row, width in ((14, 0), (15, 0), (16, 6), (17, 8), (20, 10), (23, 8), (24, 6),
                                   (25, 0), (26, 0)):
                    self.assertEqual((full[row], other[row]),
                                     (width - ends // 2 * bool(width), ends * bool(width)))

    def test_dots_and_the_bar(self):
        """Five seats, in a half circle of 460 points around (600, 520): one of A at the left, one
        of B, two rings and the last, each with a radius of 52.6 points. The bar is 920 points
        wide, in the middle, and a quarter of it is full."""
        columns, rows, point = self.drawn(chamber=5, parties=[
            country.Party("A", "", seats=1), country.Party("B", "", seats=1, provisional=2)])
        self.assertEqual((columns, rows), (1200, 630))
        red, blue = (255, 0, 0), (0, 0, 255)
        for at, colour in (
                ((140, 520), red), ((88, 520), red), ((86, 520), image.PAPER),
                ((191, 520), red), ((193, 520), image.PAPER),
                # 45 degrees: 325.3 to the left and above the middle
                ((275, 195), blue), ((600, 60), image.PAPER), ((600, 8), image.OPEN_SEAT),
                ((600, 17), image.OPEN_SEAT), ((600, 18), image.PAPER), ((600, 7), image.PAPER),
                ((1060, 520), image.PAPER), ((1111, 520), image.OPEN_SEAT),
                ((1113, 520), image.PAPER), ((925, 195), image.PAPER)):
            with self.subTest(at=at):
                self.assertEqual(point(*at), colour)
        for at, colour in (
                ((139, 580), image.PAPER), ((140, 580), image.COUNTED),
                ((369, 580), image.COUNTED), ((370, 580), image.TRACK),
                ((1059, 580), image.TRACK), ((1060, 580), image.PAPER),
                ((1000, 559), image.PAPER), ((1000, 560), image.TRACK), ((1000, 585), image.TRACK),
                ((1000, 586), image.PAPER)):
            with self.subTest(at=at):
                self.assertEqual(point(*at), colour)

    def test_how_many_seats_the_picture_has(self):
        """A thousand at most, of which the first is at the left, and one at least, which is at the
        top. Else there is the bar alone."""
        red = (255, 0, 0)
        for chamber, at, colour in ((1_000, (140, 519), red), (1_001, (140, 519), image.PAPER),
                                    (1, (600, 60), red), (0, (600, 60), image.PAPER)):
            with self.subTest(chamber=chamber):
                *_, point = self.drawn(chamber=chamber, parties=[
                    country.Party("A", "", seats=chamber)])
                self.assertEqual(point(*at), colour)
                self.assertEqual(point(200, 570), image.COUNTED)

    def test_how_long_the_bar_is(self):
        """A point at least where something is counted, and a point less than all where not all
        is."""
        for closed, stations, points in ((0, 0, 0), (0, 9, 0), (9, 9, 920), (1, 4, 230),
                                         (1, 60_000, 1), (59_999, 60_000, 919)):
            with self.subTest(closed=closed, stations=stations):
                self.assertEqual(round(image.counted_points(closed, stations, 920), 6), points)
