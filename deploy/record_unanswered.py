"""Commands of a record whose answer nobody knows: which of them a later answer bears out.

Such a command was done or not. A later answer shows what the office had before its own command: the revision of a return and
its status, or the edition of a constituency. Where this is one past what the record has, and one of these commands alone leads
there, it is taken as done. An act past the record leads there only if it is the same step, of that place from that number to that
status; nobody can tell it from the command, so each that was taken as done is said. What an answer shows to be as it was before
was not changed by a command that was sent earlier. At a place of which an answer shows what the record cannot explain, no
command is taken as done any more.
"""

import contextlib
import json
from typing import NamedTuple

from record_commands import CLOSED, CORRECTED, LEAVES, OF_STATIONS, QUERIED, RECEIVED, answer_of, figures_of, said_in

# The statuses of a return: one that is there has one of these.
THERE = (RECEIVED, QUERIED, CORRECTED, CLOSED)
# The statuses of a return on which each command is done.
ON = {"query": (RECEIVED, CORRECTED, CLOSED), "correct": (QUERIED,), "close": (RECEIVED, CORRECTED), "confirm": (RECEIVED, CORRECTED)}


class State(NamedTuple):
    """The state of a place: the revision of a return, its status and its figures; the edition of a constituency, and whether it
    is certified; of a candidate 1 if he is gone, else 0."""
    number: int
    status: int | None = None
    figures: tuple | None = None


class Shown(NamedTuple):
    """A place as an answer shows it: its number, the statuses of which it has one, figures that it has, and
    others that it does not have; None where it does not say."""
    number: int | None = None
    statuses: tuple | None = None
    figures: tuple | None = None
    others: tuple | None = None

    def fits(self, state):
        """Whether a place may have been so."""
        return (self.number in (None, state.number) and (self.statuses is None or state.status in self.statuses)
                and (None in (self.figures, state.figures) or self.figures == state.figures)
                and (None in (self.others, state.figures) or self.others != state.figures))


def place_of(command):
    """The place that a command, not an import, changes."""
    if command.what in OF_STATIONS:
        return "station", command.code
    if command.what == "vacate":
        return "gone", command.code, said_in(command.body, "list"), said_in(command.body, "place")
    return "con", command.code


def led_to(command, figures, now):
    """The state to which a command leads, with the figures that it brings; None where it is refused."""
    number, status, known = now
    if command.what in ("lodge", "import", "import/semicolon"):
        return State(1, RECEIVED, figures) if number == 0 and figures else None
    if command.what == "vacate":
        return State(1) if number == 0 else None
    if said_in(command.body, "rev" if command.what in LEAVES else "edition") != number or number == 0:
        return None
    if command.what in LEAVES:
        brought = figures if command.what in ("correct", "confirm") else known
        is_right = brought == known if command.what == "confirm" and known else brought or command.what != "correct"
        return State(number + 1, LEAVES[command.what], brought) if status in ON[command.what] and is_right else None
    return State(number + 1, command.what == "certify") if status == (command.what == "reopen") else None


def shown_by(command, entry, con):
    """Each place that the answer to a command of this constituency shows, and what: as it was before the command."""
    what, led, place, home = command.what, answer_of(entry), place_of(command), ("con", con["code"])
    ok, word = led.get("ok"), led.get("word")
    # (of the words that no line here names each says that the number in the command is right)
    named = led["now"] if word == "stale" else said_in(command.body, "rev" if what in LEAVES else "edition")
    if word in ("certified", "not_certified"):
        yield home, Shown(None, (word == "certified",))
    elif what == "vacate":
        if ok == "vacated" or word in ("already_gone", "not_holder"):
            yield home, Shown(None, (True,))
            yield place, Shown(int(word == "already_gone"))
    elif ok == "edition":
        yield home, Shown(led["edition"] - 1, (what == "reopen",))
        for station in con["station"]:
            yield ("station", station["code"]), Shown(None, (CLOSED,))
    elif ok in ("moved", "lodged"):
        yield home, Shown(None, (False,))
        confirmed = figures_of(command.body) if what == "confirm" else None
        yield place, Shown(led["rev"] - 1, ON[what], confirmed) if ok == "moved" else Shown(0)
    elif ok == "same":
        # (what was sent twice is the same as it was sent the first time)
        if "again" not in entry:
            yield place, Shown(led["rev"], None, figures_of(command.body))
    elif word in ("differs", "no_return"):
        yield place, Shown(led["rev"], None, None, figures_of(command.body)) if word == "differs" else Shown(0)
    elif word and entry["status"] == 409:
        yield place, Shown(named, (what == "reopen",) if place == home else None)


def answered_in(lines):
    """The numbers of the commands that have an answer in these lines."""
    found = set()
    for line in lines:
        with contextlib.suppress(ValueError, KeyError, TypeError, RecursionError):
            found.add(json.loads(line)["to"])
    return found


class Unanswered:
    """The commands whose answer nobody knows, by the places that they may have changed."""

    def __init__(self):
        # Those of a place, each with the figures that it brings there; the numbers of those that
        # were not done; and the places where the record lacks what was done.
        self.commands, self.not_done, self.unexplained = {}, set(), set()

    def add(self, place, command, figures, since):
        """Answers to commands that were sent after this line come after it: it was done before, or never will be."""
        self.commands.setdefault(place, []).append((command, figures, since))

    def keep(self, place, waiting):
        if waiting:
            self.commands[place] = waiting

    def leading(self, place, now, shown):
        """Each command that leads to what is shown, with its figures. The same one, sent again by the same name, is one."""
        found = {}
        for command, figures, _ in self.commands.get(place, ()):
            led = led_to(command, figures, now) if command.number not in self.not_done else None
            if led and shown.fits(led):
                found.setdefault((command.name, command.what, figures or command.body), (command, figures))
        return list(found.values())

    def take(self, place, now, shown, number):
        """The command that was done, and its figures, where what the answer to the command of this number shows of a place does not
        follow without it; else None."""
        found, waiting = self.leading(place, now, shown), self.commands.pop(place, [])
        if shown.fits(now):
            # (one that would have led elsewhere was not done, nor was a file of a station that has
            # no return)
            past = [one for one in waiting if one[2] < number]
            self.not_done |= {one.number for one, *_ in past if shown.number == 0}
            self.keep(place, [one for one in waiting if one not in past or one[:2] in found])
            return None
        # (a number alone does not say whether a return was queried or closed: the next act does)
        if found and not shown.statuses and shown.number != 1:
            self.keep(place, waiting)
            return None
        if len(found) == 1 and place not in self.unexplained:
            return found[0]
        self.unexplained.add(place)
        return None
