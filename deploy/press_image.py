"""The picture that other sites show beside a link to the results: the certified seats as a half
circle of dots in the colours of their lists, the others as pale rings, and a bar of how much is
counted.

It has no word, so that no provisional seat is in it: a picture may be shown without the words that
are beside it here.
"""

import math
import struct
import zlib

from press_figures import MOST_DOTS, places_of_dots
from press_results import counted_share

WIDTH, HEIGHT = 1200, 630
# The ground, the seats that are not certified, the bar and what is counted of it.
PAPER, OPEN_SEAT, TRACK, COUNTED = ((251, 250, 247), (190, 187, 178), (226, 223, 214),
                                    (29, 107, 60))
# The middle of the half circle, points for each of its own, and the bar.
MIDDLE, SCALE = (600, 520), 4.6
BAR = (140, 560, 920, 26)


class Canvas:
    """A picture of points, three bytes each."""

    def __init__(self):
        self.rows = [bytearray(bytes(PAPER) * WIDTH) for _ in range(HEIGHT)]

    def line(self, y, begin, end, colour):
        """A line of one point of height, within the picture; its ends may be within a point, and
        are mixed."""
        row, first, last = self.rows[y], math.ceil(begin), math.floor(end)
        row[first * 3:last * 3] = bytes(colour) * (last - first)
        ends = [(first - 1, first - begin), (last, end - last)]
        for x, part in ends if first <= last else [(last, end - begin)]:
            at = slice(x * 3, x * 3 + 3)
            row[at] = bytes(round(old + (new - old) * part) for old, new in zip(row[at], colour))

    def dot(self, x, y, radius, colour):
        for row in range(math.ceil(y - radius), math.floor(y + radius) + 1):
            half = math.sqrt(max(radius ** 2 - (row - y) ** 2, 0))
            self.line(row, x - half, x + half, colour)

    def png(self):
        def part(kind, data):
            end = struct.pack(">I", zlib.crc32(kind + data))
            return struct.pack(">I", len(data)) + kind + data + end

        lines = b"".join(b"\0" + bytes(row) for row in self.rows)
        return (b"\x89PNG\r\n\x1a\n"
                + part(b"IHDR", struct.pack(">IIBBBBB", WIDTH, HEIGHT, 8, 2, 0, 0, 0))
                + part(b"IDAT", zlib.compress(lines, 6)) + part(b"IEND", b""))


def colour_of(text):
    return tuple(int(text[place:place + 2], 16) for place in (1, 3, 5))


def counted_points(closed, stations, width):
    """How much of the bar is full, in points: all of it only where all is counted, and nothing only
    where nothing is."""
    if closed in (0, stations):
        return width if closed else 0
    return min(max(width * counted_share(closed, stations) / 10_000, 1), width - 1)


def shared_image(site, country):
    """The picture, as PNG."""
    canvas = Canvas()
    if country.chamber <= MOST_DOTS:
        dots, size = places_of_dots(country.chamber)
        seats = [colour_of(site.colours_of(party.code)[0]) for party in country.parties
                 for _ in range(party.seats)]
        for (angle, radius), colour in zip(dots, [*seats, *[None] * len(dots)]):
            x = MIDDLE[0] + SCALE * radius * math.cos(angle)
            y = MIDDLE[1] - SCALE * radius * math.sin(angle)
            canvas.dot(x, y, SCALE * size, colour or OPEN_SEAT)
            if not colour:
                canvas.dot(x, y, SCALE * size * 0.8, PAPER)
    left, top, width, height = BAR
    counted = counted_points(country.closed, country.stations, width)
    for row in range(top, top + height):
        canvas.line(row, left, left + width, TRACK)
        canvas.line(row, left, left + counted, COUNTED)
    return canvas.png()
