"""Parts of pages: rows, tables and sections, and their division where a page has no room for all.

A part is HTML that templates made. The length of parts decides which page each is on, so that they
are made before the page is.
"""

import math
import re
from typing import NamedTuple

from press_results import counted_share
from press_templates import AGE, Markup

# Bytes of a page, which is then below 60 kB with a line that says how old it is too; and of rows
# in a table, where there is more than one page.
PAGE_ROOM, TABLE_ROOM = 56_900, 26_000
# The counts of a constituency's returns, by their states.
COUNTED = ("stations", "missing", "received", "queried", "corrected", "closed")
NOTHING = Markup("")


class Part(Markup):
    """A part of a page, with the captions and titles by which links from other pages name it."""

    heads = ()

    def __new__(cls, text, heads=()):
        found = super().__new__(cls, text)
        found.heads = tuple(heads)
        return found


class Head(NamedTuple):
    """The head of a column."""
    said: str
    numbers: bool = False


def numbers(said):
    """The head of a column of numbers."""
    return Head(said, True)


def together(parts):
    """Parts that follow one another as one."""
    return Part(NOTHING.join(parts), [head for part in parts for head in part.heads])


def size(part):
    return len(part.encode())


def pieces(texts, room):
    """Texts one after the other, in groups that have room on a page each."""
    groups, length = [[]], 0
    for text in texts:
        more = size(text)
        if groups[-1] and length + more > room:
            groups, length = [*groups, []], 0
        groups[-1].append(text)
        length += more
    return groups


# ---- rows and tables


def list_name(site, code, name=None):
    return site.templates.parts.list_name(code, name)


def list_link(site, code, name):
    return site.templates.parts.list_link(code, name)


def row_of(site, first, *cells):
    """A row, of texts and parts; the first is its head."""
    return site.templates.parts.row(first, cells)


def stacked_row(site, first, *cells):
    """A row of a table of the kind `stacked`."""
    return site.templates.parts.stacked_row(first, cells)


def blank_row(site, blank, share, *cells):
    """The row of the blank votes, below those of the lists, in a table of the kind `stacked`. The
    share is in hundredths of a per cent, or None where shares are of other votes."""
    shown = "–" if share is None else site.share(share)
    return stacked_row(site, site.said("blank_votes"), site.number(blank), shown, *cells)


def framed(site, caption, heads, rows, kind="", wide=False):
    """A table of such rows, whose classes name the columns of numbers by their places. One that is
    wider than a phone is `wide`: there it has a frame, within which it is moved. The kind `stacked`
    has the head of each row above its cells on a phone, so that no name is broken; there `under`
    has the last cell under the one before it, and `no-received` and its like lack a column."""
    heads = [head if isinstance(head, Head) else Head(head) for head in heads]
    classes = [*kind.split(), *(f"n{place}" for place, head in enumerate(heads, 1) if head.numbers)]
    fewer = {"under": 1, "no-received": 1, "no-queried": 1, "no-corrected": 1}
    columns = len(heads) - 1 - sum(fewer.get(one, 0) for one in classes)
    table = site.templates.parts.table(caption, heads, rows, " ".join(classes), wide,
                                       columns if "stacked" in classes else 0)
    return Part(table, [caption])


def tables(site, caption, heads, rows, kind="", wide=False, room=TABLE_ROOM):
    """A table of rows; where they have more bytes than there is room for, several, of which the
    last one alone ends with the sum."""
    *parts, last = pieces(rows, room)
    goes_on = kind.replace("totalled", "").strip()
    return [*(framed(site, caption, heads, part, goes_on, wide) for part in parts),
            framed(site, caption, heads, last, kind, wide)]


def table(site, caption, heads, rows, kind="", wide=False):
    """All of it in one."""
    return tables(site, caption, heads, rows, kind, wide, math.inf)[0]


def sections(site, title, parts, said=NOTHING, after=NOTHING):
    """A section with a title, what is said and its part, and one for each further part."""
    first, *more = parts
    return [Part(site.templates.parts.section(title, said, first, after), first.heads),
            *sections_on(site, more)]


def sections_on(site, parts):
    """A section without a title for each part."""
    return [Part(site.templates.parts.section_on(part), part.heads) for part in parts]


def changed(site, code, value, before, written, of_change=None):
    """A number of a list, and how much it is more or less than before, where that is known. The
    change is written without a unit, by a function of its own."""
    change = None
    if before is not None:
        change = site.change(value - before.get(code, 0), of_change or written)
    return site.templates.parts.changed(written(value), change)


def changing(site, words, before):
    """The head of a column of such numbers."""
    return numbers(site.templates.parts.changing(site.said(words).lower(), before is not None))


def progress_bar(site, said, done, of):
    return site.templates.parts.progress(said, f"{counted_share(done, of) / 100:.2f}")


def votes_said(site, valid, blank, spoiled):
    return site.said("votes_are", valid=site.number(valid), blank=site.number(blank),
                     spoiled=site.number(spoiled))


def hundredths(votes, base):
    """A share in hundredths of a per cent, rounded down."""
    return votes * 10_000 // base if base else 0


def rounded(votes, base):
    """A share in hundredths of a per cent, rounded half up."""
    return (votes * 20_000 + base) // (2 * base) if base else 0


def shown_share(votes, base, threshold, is_eligible):
    """The share of a list, rounded half up; but rounded down where it would be shown as reaching
    the threshold, and the list does not reach it."""
    share = rounded(votes, base)
    return share if is_eligible or share < threshold else hundredths(votes, base)


def base_of(con):
    """The votes of which shares are, by the rule of a constituency."""
    if con["rule"]["base"] == "lists":
        return sum(row["votes"] for row in con["tally"]["lists"])
    return con["tally"]["valid"]


def list_share(con, row):
    """The share of a list of a constituency in hundredths of a per cent, as each page has it."""
    return shown_share(row["votes"], base_of(con), con["rule"]["threshold"], row["eligible"])


def by_votes(con):
    """The lists of a constituency, those with most votes first."""
    return sorted(con["tally"]["lists"], key=lambda row: -row["votes"])


# ---- the division into pages


def room_beside(*parts):
    """Bytes that a page has room for, beside these parts of it."""
    return PAGE_ROOM - sum(map(size, parts))


def divided(parts, room, links):
    """Parts in groups that have room on a page each, beside the links from each page to the
    others, which this function makes of groups and the place of one."""
    groups, before = pieces(parts, room), 0
    while before < len(groups):
        before = len(groups)
        groups = pieces(parts, room - size(links(groups, 0)))
    return groups


def details_links(site, files, groups, here):
    """Links to the pages on which another goes on, by the tables and the texts of each."""
    named = [dict.fromkeys(head for part in group for head in part.heads) for group in groups]
    pages = [(file, Markup(", ").join(heads)) for file, heads in zip(files, named)]
    return site.templates.parts.details(pages, here)


def parts_links(site, name, parts, here):
    """Links to pages of rows, by the labels of the first and the last row of each."""
    if len(parts) == 1 and here == 0:
        return NOTHING
    pages = [(f"{name}-{place}.html", f"{labels[0]} – {labels[-1]}")
             for place, labels in enumerate(parts, 1)]
    return site.templates.parts.pieces(pages, here)


def searched(site, name, rows, labels, empty):
    """Rows in groups that have room on a page each that is otherwise as the empty one, and the
    function that makes the links between these pages, by the labels of rows."""
    def links(groups, here):
        left = iter(labels)
        return parts_links(site, name, [[next(left) for _ in group] for group in groups], here)

    return divided(rows, room_beside(empty), links), links


# ---- a page that gets old


def unaged(text):
    return re.sub("(?<={})(?s:.*?)(?={})".format(*AGE), "", text, count=1)
