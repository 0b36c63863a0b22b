"""Pictures of the pages, as numbers and places: a template draws them."""

import math

from press_country import first_list
from press_site import like

# Bars that a page shows; and seats and lists of which a half circle can be made out.
SHOWN_BARS, MOST_DOTS, MOST_LABELS = 12, 1_000, 60
# Lists that are named beside a half circle, so that their labels are no higher than it is.
NAMED_LISTS = 16
# Of the labels beside a half circle: how far one is below another, and how wide a letter is.
LABEL_STEP, LETTER_WIDTH = 11.5, 7.4


# ---- bars


def bars(site, rows, threshold=0, limit=""):
    """Shares of the first lists, and the threshold as a line across them. The track is half of the
    votes, or all where a list has more."""
    rows, more = rows[:SHOWN_BARS], len(rows) - SHOWN_BARS
    full = 5_000 if max([*(row["share"] for row in rows), threshold]) <= 5_000 else 10_000
    said = ", ".join(site.say("per_cent_said", list=row["code"], share=site.per_cent(row["share"]))
                     for row in rows)
    return {
        "said": said, "limit": limit, "more": more,
        "scale": site.say("bars_scale", share=site.number(full // 100)),
        "line": f"{threshold / full * 100:.2f}" if threshold else None,
        "bars": [row | {"share": site.share(row["share"]),
                        "width": f"{row['share'] / full * 100:.2f}"} for row in rows]}


# ---- a half circle of seats


def rows_of_dots(count):
    """Radii of the rows of a half circle of dots, how many each has, and the radius of a dot, as
    large as it may be; of as large ones those in the fewest rows."""
    found = []
    for rows in range(1, 16):
        gap = 62 / rows
        radii = [100 - gap * row for row in range(rows)]
        dots = [round(count * radius / sum(radii)) for radius in radii]
        dots[0] += count - sum(dots)
        apart = [math.pi * radius / (many - 1) for radius, many in zip(radii, dots) if many > 1]
        found.append((radii, dots, min([gap, 26, *apart]) * 0.44))
    return max(found, key=lambda rows: rows[2])


def places_of_dots(count):
    """Angle and radius of each dot of a half circle, from left to right, and a dot's radius."""
    radii, dots, size = rows_of_dots(count)
    found = []
    for radius, many in zip(radii, dots):
        found += [(math.pi * (1 - (place / (many - 1) if many > 1 else 0.5)), radius)
                  for place in range(many)]
    return sorted(found, key=lambda dot: (-dot[0], dot[1])), size


def half_circle(site, seats, total, left=(), majority=None, provisional=None):
    """The seats as a half circle of dots, by list in the order of seats, then those that are left,
    each kind with its words; the first lists are named beside their own. Certified seats are full
    dots, with a rim around each where the colour is much like that of the list before. Provisional
    seats are hollow dots after those of the list; where others are certified, their number is after
    a plus. The word is in the caption."""
    provisional = provisional or {}
    has_certified = any(seats.values())
    sums = {code: (seats.get(code, 0), provisional.get(code, 0))
            for code in dict.fromkeys([*seats, *provisional])}
    groups = sorted(((code, *of) for code, of in sums.items() if any(of)),
                    key=lambda group: -sum(group[1:]))
    named = [*groups, *((None, many, words) for words, many in left if many)]
    dots, size = places_of_dots(total)
    at = majority_angle(dots, majority) if majority else None
    drawn, labels, start, rimmed, before = [], [], 0, False, None
    for code, many, more in named:
        words, more = (more, 0) if code is None else (None, more)
        own, start = dots[start:start + many + more], start + many + more
        rimmed = bool(code and before and not rimmed
                      and like(site.colours_of(before), site.colours_of(code)))
        drawn += [group_of_dots(code, own[:many], size, rimmed)] if many else []
        drawn += [group_of_dots(code, own[many:], size, hollow=True)] if more else []
        before = code
        middle, edge = anchor_of(own, size)
        said = f"{many}+{more}" if more and has_certified else f"{many + more}"
        if code is None or len(labels) < NAMED_LISTS:
            labels.append((clear_of(at, middle), edge, f"{code or site.say(words)} {said}"))
    sides, lines, width, top, bottom = placed_labels(labels, 100 + size)
    return {
        "said": ", ".join(dots_said(site, *group) for group in named),
        "hollow": (None if not any(provisional.values()) else
                   "hollow_dots" if has_certified else "hollow_alone"),
        "grey": any(many for _, many in left), "rimmed": any(group["rim"] for group in drawn),
        "named": NAMED_LISTS if len(groups) > NAMED_LISTS else None, "many": len(groups),
        "box": f"{-width:.0f} {top:.0f} {2 * width:.0f} {bottom - top:.0f}",
        "stroke": f"{2 * size:.1f}", "groups": drawn, "sides": sides, "lines": lines,
        "line": majority_line(at, 100 + size) if majority else None,
        "majority": majority, "total": total}


def dots_said(site, code, many, more):
    said = f"{code or site.say(more)} {many}"
    if not more or code is None:
        return said
    return site.say("circle_provisional", list=code, many=more) if not many else (
        site.say("circle_both", said=said, many=more))


def anchor_of(dots, size):
    """Where the line of a label ends: the angle, and the edge of a dot there. That is in the middle
    of the dots of the outer row, or at the outermost dot."""
    radius = max(radius for _, radius in dots)
    angles = [angle for angle, of in dots if of == radius]
    return (angles[0] + angles[-1]) / 2, radius + size


def group_of_dots(code, dots, size, rimmed=False, hollow=False):
    """The dots of a list, as lines of no length with round ends, as wide as the picture says; of
    the open seats where there is no list, which are small. A rim is what is left of a dot around a
    smaller one."""
    places = [(radius * math.cos(angle), -radius * math.sin(angle)) for angle, radius in dots]
    path = "".join(f"M{x:.1f} {y:.1f}h0" for x, y in places)
    hole = 1.45 * size if hollow else 0
    return {"code": code, "path": path, "hole": f"{hole:.1f}" if hole else None,
            "rim": f"{1.45 * size:.1f}" if rimmed else None,
            "width": None if code else f"{0.8 * size:.1f}"}


def majority_angle(dots, majority):
    """Between the dot before the majority's and its own."""
    return (dots[majority - 2][0] + dots[majority - 1][0]) / 2 if majority > 1 else math.pi


def clear_of(line, angle):
    """The angle of a label; beside that of the line, where it would be on it."""
    if line is None or abs(angle - line) > 0.12:
        return angle
    return line + math.copysign(0.2, angle - line)


def majority_line(angle, outer):
    x, y = math.cos(angle), -math.sin(angle)
    return [f"{end:.1f}" for end in (30 * x, 30 * y, (outer + 5) * x, (outer + 5) * y)]


def placed_labels(labels, outer):
    """Labels beside a half circle, each at its angle or as near as the others leave room, with
    lines to those that are moved or whose dot is within; and what they take: half of the width, the
    top and the bottom."""
    sides, lines, width, top, bottom = [], "", outer + 3, -outer - 8, 8.0
    for side in (-1, 1):
        own = sorted(((-(outer + 7) * math.sin(angle) + 3, angle, edge, text)
                      for angle, edge, text in labels
                      if (math.cos(angle) > 0) == (side > 0)), key=lambda label: label[0])
        words = []
        for height, (wanted, angle, edge, text) in zip(spread([one[0] for one in own]), own):
            reach = outer + 7
            beside = math.sqrt(max(reach ** 2 - (height - 3) ** 2, 0)) if height < 3 else reach
            x = side * max(abs(reach * math.cos(angle)), beside)
            if abs(height - wanted) > 4 or edge < outer:
                lines += (f"M{(edge + 1) * math.cos(angle):.1f} "
                          f"{-(edge + 1) * math.sin(angle):.1f}L{x:.1f} {height - 3:.1f}")
            words.append((f"{x + 2 * side:.1f}", f"{height:.1f}", text))
            width = max(width, abs(x) + 4 + LETTER_WIDTH * len(text))
            top, bottom = min(top, height - 12), max(bottom, height + 4)
        sides += [("start" if side > 0 else "end", words)] if words else []
    return sides, lines, width, top, bottom


def spread(heights):
    """Heights from the top down, moved apart where labels would be on one another."""
    found = list(heights)
    for place in range(1, len(found)):
        found[place] = max(found[place], found[place - 1] + LABEL_STEP)
    limit = 8.0
    for place in reversed(range(len(found))):
        found[place] = min(found[place], limit)
        limit = found[place] - LABEL_STEP
    return found


# ---- a map


def map_shape(shape, cons, first=None):
    """A shape of the map; that of a constituency has the colour of its first list, whose code is
    shown by a text within it that has none of its own."""
    kind, code, places, inner, text = shape
    con, found = cons.get(code), None
    if con:
        first = first_list(con)
        found = {"code": code, "name": con["tally"]["name"], "first": first,
                 "pale": not con["view"]["certified"]}
    return {"kind": kind, "places": places, "con": found, "text": text or first or "",
            "inner": [map_shape(part, cons, first) for part in inner]}


def map_key(cons):
    """In how many constituencies each list has the most votes."""
    found = {}
    for first in filter(None, map(first_list, cons.values())):
        found[first] = found.get(first, 0) + 1
    return sorted(found.items(), key=lambda one: -one[1])
