"""Names of constituencies, lists, persons and stations, and notes, as readers see them: none changes
the order of what is beside it.

A name may have characters that turn the direction of a text. On a page each is in an element of its
own, and in plain text between U+2068 and U+2069, which end what a name has begun.
"""

import re
import unicodedata

# The characters that begin an isolated part of a text, and the one that ends it.
BEGINS, ENDS = "\u2066\u2067\u2068", "\u2069"
# A line that ends would end the isolation too.
LINE_ENDS = "\n\r\v\f\x1c\x1d\x1e\x85\u2028\u2029"
SPACES = str.maketrans(LINE_ENDS, " " * len(LINE_ENDS))
# Letters of a name in a link to one of many pages.
LETTERS = 24
# Most names have none of these characters.
SPECIAL = re.compile(f"[{BEGINS}{ENDS}{LINE_ENDS}]")


def closed(name):
    """A name in which each isolated part that begins ends, and none ends that has not begun."""
    if not SPECIAL.search(str(name)):
        return str(name)
    found, begun = [], 0
    for letter in str(name).translate(SPACES):
        if letter == ENDS and not begun:
            continue
        begun += (letter in BEGINS) - (letter == ENDS)
        found.append(letter)
    return "".join(found) + ENDS * begun


def isolated(name):
    """A name within plain text."""
    return f"\u2068{closed(name)}\u2069"


def label(name):
    """The beginning of a name, for a link that has two of them."""
    return isolated(name if len(name) <= LETTERS else f"{name[:LETTERS - 1]}…")


def in_order(name):
    """The key by which a name is ordered: its letters without accents and case, and the numbers
    within it as numbers, so that 2 is before 10. Texts and numbers take turns in it."""
    letters = unicodedata.normalize("NFD", name.casefold())
    plain = "".join(letter for letter in letters if not unicodedata.combining(letter))
    return [int(part) if place % 2 else part
            for place, part in enumerate(re.split(r"(\d+)", plain))]
