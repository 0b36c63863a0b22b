"""Records at random, sent again to offices at random: the model of an office gives the answers.

An office is new, an older copy, or one of these that has served on by itself. What the record may
have left is worked out with the model too, by doing each command without an answer or not.
"""

import contextlib
import copy
import io
import json
import random
import tomllib
from types import SimpleNamespace

from tests.support import model
from tests.support.case import Case
from tests.support.office import DOUBLE, constituency, party_list, profile, station
from tests.support.record import a_command, chained
from tests.support.scripts import loaded, module

replay, press_data = loaded("replay"), module("press_data")

LISTS = party_list("A", "Alpha", "Ana", "Abel", "Alma", "Aldo") + party_list("B", "Beta", "Bea")
SETUP = tomllib.loads(
    profile("d0") + constituency("c1", "Twin Town", 2, "d0") + LISTS
    + "".join(station(f"s{n}", 45) + "agents = 5\n" * (n == 1) for n in (1, 2, 3))
    + constituency("c2", "Port", 3, "d0") + DOUBLE + LISTS + station("t1"))
CONS = press_data.parts_of_setup(SETUP)
HOMES = {"s1": "c1", "s2": "c1", "s3": "c1", "t1": "c2"}
HEADER = "station,slip,blank,spoiled,A,B"
# Rows that no office of this setup records: without a number, of another constituency, with too
# many votes or a million, and with a field of more characters than a reader of CSV takes by itself.
ODD = (",,,,,", "t1,p1,0,0,10,20", "s9,p1,0,0,10,20", "s1,p1,0,0,40,11", "s2,p1,0,0,40,11",
       "s1,p1,0,0,1000001,0", "s3,p1,0", f"s1,{'p' * 140_000},0,0,10,20")
OVER_RETURNS = ("query", "correct", "close", "confirm", "draw", "certify", "reopen", "vacate")
UNANSWERED = (None, 502, 503, 504)


def figures(chance):
    return {"slip": chance.choice(("p1", "p1", "p2")),
            "votes": [chance.choice((10, 20)), chance.choice((10, 20))], "blank": 0, "spoiled": 0}


def row(code, found):
    return f"{code},{found['slip']},0,0,{','.join(map(str, found['votes']))}"


def a_file(chance):
    rows = [row(code, figures(chance)) for code in ("s1", "s2", "s3")
            for _ in range(chance.choice((0, 1, 1, 2)))]
    rows += chance.sample(ODD, chance.choice((0, 0, 1, 2)))
    chance.shuffle(rows)
    return "/con/c1/import", "\n".join((HEADER, *rows))


def command_to(office, chance):
    """A command, mostly one that the office accepts."""
    code = chance.choice(("s1", "s2", "s3", "t1"))
    con = office.cons[HOMES[code]]
    found, edition, which = con.returns.get(code), con.edition, chance.random()
    on, of = f"/station/{code}/", f"/con/{con.code}/"
    if con.certified is not None and which < 0.7:
        if which < 0.3:
            return f"{of}reopen", json.dumps({"edition": edition, "note": "sum"})
        return f"{of}vacate", json.dumps({"list": "A", "place": chance.randint(1, 4), "note": "x"})
    if which < 0.7 and con.statuses()[3] == len(con.electors) and con.certified is None:
        if con.poll().group()[0] and not con.lot:
            order = chance.choice((["A", "B"], ["B", "A"]))
            return f"{of}draw", json.dumps({"edition": edition, "order": order})
        return f"{of}certify", json.dumps({"edition": edition})
    if not found or which > 0.9:
        if con.code == "c1" and chance.random() < 0.5:
            return a_file(chance)
        return f"{on}lodge", json.dumps(figures(chance))
    rev = found["rev"] - (chance.random() < 0.1)
    if found["status"] == "queried":
        return f"{on}correct", json.dumps({"rev": rev, **figures(chance)})
    if found["status"] == "closed" or which < 0.15:
        return f"{on}query", json.dumps({"rev": rev, "note": "14?"})
    if con.twice:
        own = {key: found[key] for key in ("slip", "votes", "blank", "spoiled")}
        second = figures(chance) if chance.random() < 0.2 else own
        return f"{on}confirm", json.dumps({"rev": rev, **second})
    return f"{on}close", json.dumps({"rev": rev})


def state(office):
    """Each return and each constituency of an office."""
    found = {}
    for con in office.cons.values():
        found[con.code] = (con.edition, con.certified is not None, tuple(con.lot),
                           frozenset(con.gone))
        for code in con.electors:
            it = con.returns.get(code)
            found[code] = it and (it["rev"], it["status"], it["slip"], *it["votes"])
    return found


def parts_of(target, body):
    """The rows of each station of a file, as files; or a command as it is. Of a file without an
    answer each return is looked at by itself."""
    if not target.endswith("import"):
        return [body]
    rows = body.split("\n")[1:]
    return ["\n".join((HEADER, *(one for one in rows if one.startswith(f"{code},"))))
            for code in HOMES if any(one.startswith(f"{code},") for one in rows)]


def serve_on(office, recorded, after, chance):
    """Does commands of the office's own: any ones, or those that the record has next, with figures
    of another paper here and there."""
    if chance.random() < 0.5:
        for _ in range(chance.choice((1, 3, 6))):
            office.ask("POST", *command_to(office, chance))
        return
    later = [one for one in recorded.entries[after:] if "path" in one]
    for one in later[:chance.randint(1, len(later) or 1)]:
        body = one["body"]
        if chance.random() < 0.3:
            body = body.replace(*chance.choice((("20", "10"), ("10", "20"))), 1)
        if chance.random() < 0.9:
            office.ask("POST", one["path"], body)


def fits(target, answer, status, found):
    """Whether a command may have been answered so. Who moves into a seat says who else is gone,
    and this is not worked out."""
    return status == 200 and (found == answer or target.endswith("vacate"))


class Recorded:
    """A record at random: its lines, what it may have left after each command, and copies of its
    office."""

    def __init__(self, chance):
        self.office, self.entries = model.Office(SETUP), []
        self.copies, self.before = [(0, copy.deepcopy(self.office))], {}
        self.worlds, self.unknown = [copy.deepcopy(self.office)], 0
        for _ in range(chance.randint(3, 22)):
            # Sometimes two ask at once, and the second may be done first.
            asked = [command_to(self.office, chance) for _ in range(chance.choice((1, 1, 1, 2)))]
            numbers = range(len(self.entries) + 1, len(self.entries) + 1 + len(asked))
            self.entries += [a_command(body, target) for target, body in asked]
            for number, command in chance.sample([*zip(numbers, asked)], len(asked)):
                self.do(number, *command, chance)
            self.copies.append((len(self.entries), copy.deepcopy(self.office)))
        self.is_answered = 2 * len(self.before) == len(self.entries)
        self.is_known, self.left = not self.unknown, [state(world) for world in self.worlds]

    def do(self, number, target, body, chance):
        """A command is done and answered; or it has another answer or none, and nobody knows."""
        self.before[number] = [state(world) for world in self.worlds]
        if self.unknown < 4 and chance.random() < 0.08:
            self.unknown += 1
            for part in parts_of(target, body):
                done = copy.deepcopy(self.worlds)
                for world in done:
                    world.ask("POST", target, part)
                known = [state(world) for world in self.worlds]
                self.worlds += [world for world in done if state(world) not in known]
            if chance.random() < 0.5:
                self.office.ask("POST", target, body)
            if chance.random() < 0.7:
                self.entries.append({"to": number, "status": chance.choice(UNANSWERED),
                                     "answer": ""})
            return
        status, answer = self.office.ask("POST", target, body)
        self.entries.append({"to": number, "status": status, "answer": answer})
        if status == 200:
            self.worlds = [world for world in self.worlds
                           if fits(target, answer, *world.ask("POST", target, body))]


def sent_again(recorded, after, office, has_setup):
    """The status of `replay`, what it printed, and the first command that the office did over
    something else than the record's."""
    desks, wrong = {1: "desk"}, []
    def send(_, method, path, body):
        before = state(office)
        status, answer = office.ask(method, path, body.decode())
        if (method, status) == ("POST", 200) and path.split("/")[3] in OVER_RETURNS:
            code = path.split("/")[2]
            here = [code] if code in HOMES else [code, *(at for at in HOMES if HOMES[at] == code)]
            known = recorded.before[recorded.entries[it.number - 1]["to"]]
            if any(before[at] not in [one[at] for one in known] for at in here):
                wrong.append((path, body, before, known))
        return status, answer

    replay.send, said = send, io.StringIO()
    setup = SimpleNamespace(cons=CONS, hash="known") if has_setup else replay.Setup(None, desks)
    it = replay.Replay(desks, after, None, {}, setup)
    with contextlib.redirect_stdout(said):
        for line in chained(*recorded.entries).splitlines():
            it.take(line)
        status = it.end()
    return status, said.getvalue(), wrong


class AtRandom(Case):
    RECORDS = 200

    def test_nothing_is_done_over_something_else(self):
        """Nothing is done over another return, lot or certificate than the record's; and each
        office that then has something that the record cannot have left is named. Over a new office
        or an older copy nothing is to be looked at, where each answer is known; and nothing differs
        in the record's own office, where each command has one of any status."""
        for seed in range(self.RECORDS):
            chance = random.Random(seed)
            recorded = Recorded(chance)
            for has_setup in (True, False):
                if recorded.is_answered:
                    _, said, _ = sent_again(recorded, *recorded.copies[-1], has_setup)
                    with self.subTest(seed=seed, has_setup=has_setup, said=said):
                        self.assertNotIn("the office has something else", said)
                after, office = chance.choice((recorded.copies[0], chance.choice(recorded.copies)))
                office, own = copy.deepcopy(office), chance.random() < 0.6
                if own:
                    serve_on(office, recorded, after, chance)
                status, said, wrong = sent_again(recorded, after, office, has_setup)
                found = state(office)
                others = [at for at, it in found.items()
                          if it not in [one[at] for one in recorded.left]]
                with self.subTest(seed=seed, has_setup=has_setup, after=after, own=own, said=said):
                    self.assertEqual(wrong, [])
                    self.assertTrue(status == 1 or not others, others)
                    if recorded.is_known and not own and has_setup:
                        self.assertEqual((status, found), (0, recorded.left[0]))
