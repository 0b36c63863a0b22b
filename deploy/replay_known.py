"""The record as it is by now, for `replay`: the states of each return and each constituency.

There are several where nobody knows whether a command was done. The state of a return is its
revision, its status, and its figures: the slip and the counts. That of a constituency is its
edition, whether it is certified, its lot, and who is gone. A part that is None may be anything, as
where the record lacks the first lines of a return; one that is unknown is that of no office.
"""

import json

from record_commands import LARGEST, items, judged_rows

LEAVES = {"query": "queried", "correct": "corrected", "close": "closed", "confirm": "closed"}
OF_CONSTITUENCIES = ("draw", "certify", "reopen", "vacate")
# What is done over the returns that are there.
OVER_RETURNS = (*LEAVES, *OF_CONSTITUENCIES)
RECEIVED = "received"
UNKNOWN = "unknown"
# With more states than these nobody knows any longer which lot a constituency has and who is gone:
# each vacancy that may have been done doubles them.
MOST_STATES = 256
# No return; a return that nobody knows, if there is one; and a constituency at first.
ABSENT, FORGOTTEN = (0, "", ""), (None, None, UNKNOWN)
NEW = (1, False, (), frozenset())


def place_of(command):
    """The place that a command is on, by its office, kind and code; and what it does there."""
    _, kind, code, act = (command["words"][2].split("/", 3) + ["", "", ""])[:4]
    return (command["office"], kind, code), act


def object_of(text):
    """The JSON object that a body or an answer is; an empty one where it is none."""
    try:
        # (under a key that an office ignores, a number may have more digits than Python reads)
        found = json.loads(text, parse_int=lambda digits: int(digits[:20]))
        return found if isinstance(found, dict) else {}
    except (ValueError, TypeError, RecursionError):
        return {}


def number_in(said, key):
    """The revision or the edition that an object names; None where it does not."""
    return said[key] if type(said.get(key)) is int else None


def named_by(place, said):
    """The revision or the edition that a command at this place names."""
    return number_in(said, "rev" if place[1] == "station" else "edition")


def is_known_act(place, act):
    return act in ((*LEAVES, "lodge") if place[1] == "station" else OF_CONSTITUENCIES)


def figures_of(said):
    """The slip and the counts of a return; None where an object has none."""
    try:
        return said["slip"], items(said["votes"], said["blank"], said["spoiled"])
    except (KeyError, TypeError):
        return None


def who_goes(said):
    return said.get("list"), said.get("place")


def is_known(state):
    """Whether the record says all of it."""
    return None not in state and UNKNOWN not in state


def led_to(state, rows):
    """The state of a station after the rows of a file; how many of them are lodged, the same as
    the return, and other than it, at least and at most; and the first of these others."""
    if state[2] in (None, UNKNOWN):
        return state, (0, 0, 0), (1, len(rows), len(rows)), None
    counts, others = [0, 0, 0], []
    for number, figures in rows:
        if state == ABSENT:
            state, counts[0] = (1, RECEIVED, figures), 1
        elif state[2] == figures:
            counts[1] += 1
        else:
            counts[2] += 1
            others.append([number, 7])
    return state, counts, counts, others[0] if others else None


def agreeing(ways, wrong, led):
    """Of what the rows of a file may lead to, by their stations, what the answer to its import
    allows; None where it allows nothing. The rows that are refused or bad are known."""
    first, answer = led.get("first"), [led.get(key) for key in ("lodged", "same", "differs")]
    bad = [row for row in wrong if row[1] == 0]
    if [led.get("bad"), led.get("refused")] != [len(bad), len(wrong) - len(bad)]:
        return None
    # (it is the first row that is neither lodged nor the same)
    if (first is None) != (not wrong and answer[2] == 0):
        return None
    least, most = ({at: [pick(ns) for ns in zip(*(way[which] for way in some))]
                    for at, some in ways.items()} for which, pick in ((1, min), (2, max)))
    lows, highs = ([sum(ns) for ns in zip(*of.values(), (0, 0, 0))] for of in (least, most))

    def is_allowed(at, way):
        """Whether the rows of the other stations may lead to the rest of what is answered."""
        rest = [(low - least[at][k] + way[1][k], high - most[at][k] + way[2][k])
                for k, (low, high) in enumerate(zip(lows, highs))]
        is_first = first in [other[3] for other in ways[at]]
        return (all(low <= n <= high for n, (low, high) in zip(answer, rest))
                and (way[3] is None or first <= way[3])
                and (way[3] == first or not is_first or not is_known(way[0])))

    try:
        kept = {at: [way for way in some if is_allowed(at, way)] for at, some in ways.items()}
        firsts = [None, *wrong, *(way[3] for some in kept.values() for way in some)]
        is_whole = all(is_known(way[0]) for some in ways.values() for way in some)
        agrees = (all(kept.values()) and (kept or answer == [0, 0, 0])
                  and all(first <= row for row in wrong)
                  and (first in firsts or not is_whole))
    except TypeError:
        return None
    return kept if agrees else None


def rows_in(command, most, lists):
    """The good rows of a file, by their stations, and the others."""
    (office, *_), act = place_of(command)
    text, rows, wrong = command["body"].decode(errors="surrogateescape"), {}, []
    for number, (station, found) in enumerate(
            judged_rows(text, act.endswith("semicolon"), most, lists), 1):
        if isinstance(found, int):
            wrong.append([number, found])
        else:
            rows.setdefault((office, "station", station), []).append((number, found))
    return rows, wrong


class Known:
    """The record by now."""

    def __init__(self, cons, is_setup):
        # By the office, the kind and the code; the lines by which they came there; and those that
        # a command of their own was done on.
        self.states, self.lines, self.own = {}, {}, set()
        # The lines of the files that were taken.
        self.files = set()
        # The stations of each constituency, with the most votes that each may have, by the setup.
        # An office does not show how many agents of them there are.
        self.is_setup = is_setup
        self.most = {con["code"]: {station["code"]: station["electors"] + station.get("agents", 0)
                                   for station in con["stations"]} for con in cons}
        self.lists = {con["code"]: [row["code"] for row in con.get("lists", ())] for con in cons}
        self.homes = {code: con for con, stations in self.most.items() for code in stations}

    def at(self, place):
        return self.states.get(place, {ABSENT if place[1] == "station" else NEW})

    def may_be(self, place, now):
        """The states by the record of which this may be one."""
        return {state for state in self.at(place)
                if all(known in (None, found) for known, found in zip(state, now))}

    def catch_up(self, command, answer, unsure):
        """Where an answer does not follow from what is known, commands of which nobody knows
        whether they were done were done before it."""
        (place, act), led = place_of(command), object_of(answer)
        if act.startswith("import"):
            follows = self.ways(command, led, True) is not None
        else:
            follows = not is_known_act(place, act) or self.after(command, led, True)
        for one in () if follows else unsure:
            at, what = place_of(one)
            if at == place or what == "lodge" or what.startswith("import"):
                self.take(one, None)

    def take(self, command, answer):
        """A command that was done, with its answer; of one that may have been done that is None.
        It says what is wrong, if the answer cannot be so."""
        (place, act), led, is_done = place_of(command), object_of(answer), answer is not None
        if act.startswith("import"):
            return self.take_file(command, led, is_done)
        if is_known_act(place, act):
            try:
                found = self.after(command, led, is_done)
            except TypeError:
                # (no office accepts a body with a list in the place of a text)
                found = set()
            if is_done and not found:
                found = {self.lost(command, led)}
            if act == "query" and found and (home := self.homes.get(place[2])):
                con = place[0], "con", home
                cleared = {(*state[:2], (), state[3]) for state in self.at(con)}
                self.put(con, command, cleared, is_done)
            if found:
                self.own.add(place)
                self.put(place, command, found, is_done)
        return None

    def take_before(self, command, unanswered):
        """Commands without an answer may have been done before one that has its answer, even where
        that follows without them: those on its place, and files of its constituency."""
        place, act = place_of(command)
        file_of = place[0], "con", self.homes.get(place[2])
        for one in unanswered:
            at, what = place_of(one)
            is_file = what.startswith("import") and at == file_of
            if act.startswith("import") or at == place or is_file:
                self.take(one, None)

    def refuse(self, command, answer, unsure=()):
        """A command that was refused, as stale or for a return that differs: that was there. Where
        the record did not lead to it, commands of which nobody knew whether they were done were
        done before it; or the record lacks what was done."""
        (place, _), led = place_of(command), object_of(answer)
        word, number = led.get("word"), number_in(led, "now" if "now" in led else "rev")
        if word not in ("differs", "stale") or number is None or place not in self.states:
            return
        given = figures_of(object_of(command["body"])) if word == "differs" else None

        def fitting():
            return {state for state in self.states[place] if state[0] in (number, None)
                    and (given is None or state[2] != given)}

        for one in () if fitting() else unsure:
            if place_of(one)[0] == place:
                self.take(one, None)
        if kept := fitting():
            self.states[place] = kept
        else:
            unknown = (UNKNOWN,) if place[1] == "station" else (UNKNOWN, UNKNOWN)
            self.put(place, command, {(number, None, *unknown)}, True)

    def put(self, place, command, found, is_done):
        """The states of a place after a command. Of two returns of one revision nobody knows which
        it was."""
        found = found if is_done else found | self.at(place)
        if place[1] == "station":
            figures = {at: {it for one, _, it in found if one == at} for at, *_ in found}
            found = {(at, status, it if len(figures[at]) == 1 else UNKNOWN)
                     for at, status, it in found}
        elif len(found) > MOST_STATES:
            found = {(*state[:2], UNKNOWN, UNKNOWN) for state in found}
        self.states[place], self.lines[place] = found, command["n"]

    def after(self, command, led, is_done):
        """The states of a place after a command; none where its answer does not follow."""
        (place, act), said = place_of(command), object_of(command["body"])
        before, named = self.at(place), named_by(place, said)
        figures, order = figures_of(said) or UNKNOWN, said.get("order")
        if act == "lodge" and led.get("ok") == "same":
            return {(at, status, figures) for at, status, it in before
                    if at == number_in(led, "rev") and it in (figures, None, UNKNOWN)}
        if act == "lodge":
            return {(1, RECEIVED, figures)} if is_done or ABSENT in before else set()
        if act == "vacate":
            return {(at, True, lot, gone if gone in (None, UNKNOWN) else gone | {who_goes(said)})
                    for at, certified, lot, gone in before if certified is not False}
        before = {state for state in before if named and state[0] in (named, None)}
        if act in LEAVES:
            brought = figures if act in ("correct", "confirm") else None
            return {(named + 1, LEAVES[act], brought or it) for _, _, it in before
                    if act != "confirm" or it in (brought, None, UNKNOWN)}
        drawn = tuple(order) if isinstance(order, list) else UNKNOWN
        return {(named + 1, act == "certify", drawn if act == "draw" else lot, gone)
                for _, _, lot, gone in before}

    def lost(self, command, led):
        """The state after a command whose answer does not follow: nobody knows what lines before it
        brought. If there is none of this place at all it may be anything, as after a file that was
        imported while nothing was served."""
        (place, act), said = place_of(command), object_of(command["body"])
        rest = UNKNOWN if place in self.states else None
        if place[1] == "station":
            brings = act in ("lodge", "correct", "confirm")
            figures = figures_of(said) or UNKNOWN if brings else rest
            return number_in(led, "rev"), LEAVES.get(act), figures
        return number_in(led, "edition"), act in ("certify", "vacate"), rest, rest

    def take_file(self, command, led, is_done):
        """A file of returns. One of which nobody knows whether it was done is taken once, and not
        before each later command: it changes only stations that have no return, and none loses
        its return."""
        if not is_done and command["n"] in self.files:
            return None
        self.files.add(command["n"])
        place, _ = place_of(command)
        ways = self.ways(command, led, is_done)
        if ways is None and self.is_setup:
            for at in [(place[0], "station", code) for code in self.most.get(place[2], ())]:
                # (one that has a return keeps it)
                if ABSENT in self.at(at):
                    self.put(at, command, {FORGOTTEN}, True)
            return "its answer is not what its rows lead to: nobody knows which of them it recorded"
        if ways is not None:
            for at, some in ways.items():
                self.put(at, command, {way[0] for way in some}, is_done)
            return None
        most = self.most.get(place[2])
        rows, _ = rows_in(command, most and dict.fromkeys(most, LARGEST), None)
        for at, some in rows.items():
            if ABSENT in self.at(at):
                self.put(at, command, {(1, RECEIVED, figures) for _, figures in some}, False)
        return None

    def ways(self, command, led, is_done):
        """The possibilities of the stations of a file by its answer, or before there is one; None
        where none fits. By the setup it is known which rows are refused. An office does not show
        how many agents a station has, for which a row with more votes than electors may be
        recorded: then the answer says it, where all such rows are refused, or none."""
        con = place_of(command)[0][2]
        most, lists = self.most.get(con), self.lists.get(con)
        limits = [most]
        if most and not self.is_setup:
            limits.append(dict.fromkeys(most, LARGEST))
        for limit in limits if is_done or self.is_setup else ():
            rows, wrong = rows_in(command, limit, lists)
            found = {at: [led_to(state, some) for state in self.at(at)]
                     for at, some in rows.items()}
            if (kept := agreeing(found, wrong, led) if is_done else found) is not None:
                return kept
        return None

