"""Acts of the board that need two names: the same request from both, within an hour, over the same returns.

The first request waits: its line in the record has the status 202. The second one is sent to the
office; its line has in `first` the number of that line. Whatever changes a return of the
constituency, or its edition, or may have done so, ends the wait: the next request is a first one
again. A vacancy changes neither. All of this follows from the lines of the record in their order,
so that the recorder knows after a start what it knew before.
"""

import itertools
import json
from datetime import UTC, datetime, timedelta

from record_index import UNKNOWN

ACTS = ("draw", "certify", "reopen", "vacate")
# What a change that ends a wait is of: acts of the board change the edition, and the others a
# return. After a command whose answer is not known it may be either.
EDITION, RETURN, UNSURE = "edition", "return", "unknown"
PATIENCE = timedelta(hours=1)
# The status of a request that waits for a second name.
WAITS = 202
# The status of a request in its own line that was not sent: the office did not say what it has.
NOT_SENT = (502, 503, 504)
# What waits in vain is looked for once in this time, and an answer names this many that wait.
FORGET, NAMED = timedelta(minutes=1), 5
# In the place of a constituency: nobody knows which one, or none.
ANY, NONE = None, False


def needs_two(path):
    return path.split("/")[3:] in [[act] for act in ACTS]


def request_of(entry):
    """The parts that have to be the same: the office, the act and its constituency, and the body."""
    return entry["office"], entry["path"], entry.get("body"), entry.get("body_base64")


def con_of(entry):
    """The office of a request of the board, and its constituency."""
    return entry["office"], entry["path"].split("/")[2]


def is_refused(entry):
    """Whether an answer says that nothing was changed: it was refused, or recorded before, or a file had nothing new."""
    if entry["status"] != 200:
        return isinstance(entry["status"], int) and 400 <= entry["status"] < 500
    if "again" in entry:
        # What was recorded before was recorded perhaps as it was sent the first time.
        return False
    try:
        said = json.loads(entry["answer"])
        return said["ok"] == "same" or (said["ok"] == "import" and said["lodged"] == 0)
    except (ValueError, KeyError, TypeError, RecursionError):
        return False


class Waiting:
    """The requests that wait for a second name: of each the number and the time, by its name."""

    def __init__(self, stations=None):
        # The constituency of each station, where it is known.
        self.stations = stations or {}
        # The requests of each constituency of an office; and those that a change has ended.
        self.requests, self.ended = {}, {}
        # The commands without an answer by their numbers: the office, and what each may change. And
        # the offices that may yet do a command whose answer is not known.
        self.under_way, self.unsettled = {}, set()
        # When those that wait in vain were forgotten.
        self.forgot = datetime.min.replace(tzinfo=UTC)

    def take(self, entry):
        """A line of the record, after the line before it: a command, or an answer."""
        if "to" in entry:
            self.answered(entry)
            return
        self.of_board(entry)
        if "status" not in entry:
            what = EDITION if needs_two(entry["path"]) else RETURN
            self.under_way[entry["n"]] = entry["office"], self.changed_by(entry["path"]), what

    def of_board(self, entry):
        """A command of the record, as a line has it: it waits, or it has found its second name."""
        if entry.get("status") == WAITS:
            moment = datetime.fromisoformat(entry["time"])
            self.forget(moment)
            request, con = request_of(entry), con_of(entry)
            self.requests.setdefault(con, {}).setdefault(request, {})[entry["name"]] = entry["n"], moment
        elif "first" in entry:
            for some in (self.requests, self.ended):
                some.get(con_of(entry), {}).pop(request_of(entry), None)

    def changed_by(self, path):
        """The constituency of which a command may change a return, or the edition."""
        _, kind, code, act = path.split("/", 3)
        if act == "vacate":
            return NONE
        return code if kind == "con" else self.stations.get(code, ANY)

    def answered(self, entry):
        """An answer, in the order in which the office did the commands. After a command that was accepted, whatever was sent
        before is done, or never will be. An office that a failed disk has shut refuses too, as what it cannot read."""
        office, con, what = self.under_way.pop(entry["to"], (ANY, ANY, UNSURE))
        if entry["status"] in UNKNOWN:
            self.unsettled.add(office)
        elif entry["status"] == 200:
            self.unsettled.discard(office)
        if not is_refused(entry):
            self.end(office, con, UNSURE if entry["status"] in UNKNOWN else what)

    def begin(self):
        """The recorder starts, after the last line: nobody knows what became of commands without an answer."""
        for number in list(self.under_way):
            self.answered({"to": number, "status": None})

    def end(self, office, con, why):
        """Ends what waits of a constituency, since this has changed there."""
        for at in [at for at in self.requests if office in (ANY, at[0]) and con in (ANY, at[1])]:
            for request, given in self.requests.pop(at).items():
                ended = {name: (*one, why) for name, one in given.items()}
                self.ended.setdefault(at, {}).setdefault(request, {}).update(ended)

    def firsts(self, entry, moment):
        """The other names that gave this request in the last hour, by the numbers of their lines."""
        return {number: name for name, (number, _) in self.before(self.requests, entry, moment)}

    def too_early(self, entry, moment):
        """The other names that gave this request in the last hour, before a change that has ended it: name, time and
        what has changed."""
        return [(name, first, why) for name, (_, first, why) in self.before(self.ended, entry, moment)]

    @staticmethod
    def before(requests, entry, moment):
        given = requests.get(con_of(entry), {}).get(request_of(entry), {})
        return [(name, one) for name, one in given.items()
                if name != entry["name"] and timedelta(0) <= moment - one[1] < PATIENCE]

    def others(self, entry, moment):
        """The last other acts of the constituency that wait: the name, the time, the act and the body."""
        found = ((name, first, path.rpartition("/")[2], body)
                 for request, given in reversed(self.requests.get(con_of(entry), {}).items()) if request != request_of(entry)
                 for _, path, body, _ in [request]
                 for name, (_, first) in reversed(given.items()) if moment - first < PATIENCE)
        return list(itertools.islice(found, NAMED))[::-1]

    def forget(self, moment):
        """Forgets the acts that wait in vain, so that they cost no memory: once a minute, since a name may have
        thousands that wait."""
        if abs(moment - self.forgot) < FORGET:
            return
        self.forgot = moment
        for some in (self.requests, self.ended):
            for con, requests in list(some.items()):
                for request, given in list(requests.items()):
                    for name in [name for name, (_, first, *_) in given.items() if moment - first >= PATIENCE]:
                        del given[name]
                    if not given:
                        del requests[request]
                if not requests:
                    del some[con]
