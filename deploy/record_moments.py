"""Between which lines of a record something was so."""

import math
from typing import NamedTuple


class Between(int):
    """The line of a command without an answer that was done after it, and before the one that bears it out."""

    def __new__(cls, since, until):
        found = super().__new__(cls, since)
        found.until = until
        return found


def latest(moment):
    """The line by which a command was done, where this is its moment."""
    return getattr(moment, "until", moment)


class Span(NamedTuple):
    """A part of the office, and from which line of the record on it was so, before which line."""
    said: str
    since: float
    until: float


def span_of(said, moments, number):
    """The span of the value of this number, from 1, of which each began at its line; 0 is before the first."""
    since = moments[number - 1] if number else 0
    return Span(said, since, latest(moments[number]) if number < len(moments) else math.inf)
