"""Who may do what through the proxy."""

import collections
import json

from tests.support.case import needs
from tests.support.desks import recording_desk
from tests.support.office import with_stations
from tests.support.proxy import office_and_proxy, with_a_second
from tests.support.running import tries, until
from tests.support.site import SiteCase

GETS = ("/progress", "/country", "/results", "/station/s1", "/con/c1",
        *(f"/con/c1/{name}"
          for name in (
              "tally", "seats", "quotients", "awards", "quota", "short", "holders", "past",
              "provisional", "result", "stations", "returns")))
# The texts of slips, for who may see them.
OF_SLIPS = ("/station/s1", "/con/c1/stations", "/con/c1/returns")
OF_CLERKS = ("/station/s1/query", "/station/s1/correct", "/station/s1/close", "/con/c1/import",
             "/con/c1/import/semicolon")
TRIALS = ("/con/c1/trial", "/con/c1/trial/semicolon")
OF_BOARD = ("/con/c1/draw", "/con/c1/certify", "/con/c1/reopen", "/con/c1/vacate")
# Who asks, and what each is answered: lodging for s1, the clerks' commands, the board's. 400 is the
# desk's: {} is no command. Without the right password nobody learns what a name may do.
ROLES = {
    "nobody": (401, 401, 401),
    "s1": (400, 403, 403),
    "s2": (403, 403, 403),
    "clara": (400, 400, 403),
    "berta": (403, 403, 400),
    "unknown": (401, 401, 401),
    "clara with another password": (401, 401, 401),
    "berta with another password": (401, 401, 401),
    "s1 with another password": (401, 401, 401),
    "clara with the password of s1": (401, 401, 401),
}
# Who asks, and what each is answered to a second entry and to a query of s1. 200 is the desk's.
SECOND_ROLES = {
    "nobody": (401, 401), "s1": (403, 403), "clara": (403, 200), "berta": (403, 403),
    "sara": (200, 200), "unknown": (401, 401), "sara with another password": (401, 401),
    "sara with the password of clara": (401, 401),
}


class Roles(SiteCase):
    @needs("nginx", "openssl")
    def test_tables_of_all_stations_are_kept_for_longer(self):
        """For ten seconds: they are as they were when the table of progress, which is kept for one,
        is another one already."""
        with office_and_proxy(with_stations(6)) as (_, front):
            stations = iter(range(1, 7))

            def kept(name):
                before = front.ask("GET", f"/con/c1/{name}", name="clara")
                number = next(stations)
                front.ask("GET", "/progress")
                self.assertEqual(front.ask(
                    "POST", f"/station/s{number}/lodge",
                    {"slip": "p1", "votes": [1, 2], "blank": 0, "spoiled": 0}, "clara").status, 200)
                until(lambda: front.ask("GET", "/progress").body.split()[3] == b"%d" % number)
                self.assertNotEqual(front.ask("GET", f"/now/con/c1/{name}", name="clara").body,
                                    before.body)
                again = front.ask("GET", f"/con/c1/{name}", name="clara")
                self.assertEqual((again.body, before.status), (before.body, 200))

            for name in ("stations", "returns"):
                with self.subTest(name=name):
                    tries(lambda: kept(name))

    @needs("nginx", "openssl")
    def test_each_role_against_each_route(self):
        with office_and_proxy(with_stations(2)) as (_, front):
            for name in ("s1", "s2"):
                front.name("stations", name)
            for number, (who, statuses) in enumerate(ROLES.items(), 1):
                with self.subTest(number=number, who=who, statuses=statuses):
                    # Each from an address of its own, so that no limit is reached.
                    name, _, how = who.partition(" with ")
                    password = {"another password": "other",
                                "the password of s1": front.passwords["s1"]}.get(how)
                    asks = {"name": None if name == "nobody" else name, "password": password,
                            "source": f"127.0.2.{number}"}
                    for targets, wanted in zip(
                        (["/station/s1/lodge"], OF_CLERKS + TRIALS, OF_BOARD), statuses):
                        with self.subTest(targets=targets, wanted=wanted):
                            for target in targets:
                                with self.subTest(target=target):
                                    found = front.ask("POST", target, {}, **asks)
                                    self.assertEqual(found.status, wanted, found)
                                    self.assertTrue(wanted != 400 or b'"word":"bad_' in found.body,
                                                    found)
                    for target in GETS:
                        with self.subTest(target=target):
                            found = front.ask("GET", target, **asks)
                            if target in OF_SLIPS:
                                self.assertIn(found.status, self.of_slips(name, target, statuses))
                                continue
                            # Nothing is lodged or certified: the desk says so, to everybody alike.
                            word = b"no_return" if "station" in target else b"not_certified"
                            self.assertTrue(found.status == 200 or word in found.body, found)
            # Ten commands each: those of four names with their passwords are recorded, also what
            # they may not do. Trials are not.
            record = collections.Counter((line["name"], line["status"])
                                         for line in front.record(40))
            self.assertEqual(record, {("s1", 400): 1, ("s1", 403): 9, ("s2", 403): 10,
                                      ("clara", 400): 6, ("clara", 403): 4, ("berta", 400): 4,
                                      ("berta", 403): 6})
            refused = collections.Counter(line["name"] for line in front.refused(90))
            self.assertEqual(refused, {"": 15, "unknown": 15, "clara": 30, "berta": 15, "s1": 15})

    @staticmethod
    def of_slips(name, target, statuses):
        """The statuses of what a slip says: of no return, 404."""
        sees = name in ("clara", "berta") or (name, target) == ("s1", "/station/s1")
        return (401,) if statuses[0] == 401 else (200, 404) if sees else (403,)

    @needs("nginx", "openssl")
    def test_what_has_a_name_of_its_own(self):
        """Reads past the cache and the clerks' page need a name; the page's answer says which it
        is, and in which role."""
        with office_and_proxy(with_stations(1)) as (_, front):
            front.name("stations", "s1")
            for target in ("/now/progress", "/now/con/c1", "/clerk.html"):
                with self.subTest(target=target):
                    self.assertEqual(front.ask("GET", target).status, 401)
                    self.assertEqual(front.ask("GET", target, name="clara", password="x").status,
                                     401)
                    self.assertEqual([front.ask("GET", target, name=name).status
                                      for name in ("clara", "berta", "s1")], [200] * 3)
            for name, role in (("clara", "clerk"), ("berta", "board"), ("s1", "station")):
                with self.subTest(name=name, role=role):
                    head = front.ask("HEAD", "/clerk.html", name=name).head
                    self.assertEqual((head["X-Office-Name"], head["X-Office-Role"]), (name, role))
            self.assertEqual(front.ask("POST", "/station/s1/lodge",
                                       {"slip": "p1", "votes": [1, 2], "blank": 0, "spoiled": 0},
                                       "s1").body, b'{"ok":"lodged","rev":1}')
            # Past the cache the return is there at once.
            self.assertEqual(
                json.loads(front.ask("GET", "/now/station/s1", name="clara").body)["votes"], [1, 2])

    @needs("nginx", "openssl")
    def test_a_page_that_shows_another_name(self):
        """Its commands are answered 412, and neither recorded nor done; a program that says no name
        is served. Who has no password is asked for it first."""
        long = "Z_-9" * 4
        with recording_desk() as (port, messages), with_a_second(port) as front:
            for code in ("s1", "a", long):
                front.name("stations", code)
            for name, target, said, wanted in (
                    ("clara", "/station/s1/lodge", "clara", 200),
                    ("clara", "/station/s1/lodge", "", 200),
                    ("clara", "/station/s1/lodge", None, 200),
                    ("s1", "/station/s1/lodge", "s1", 200), ("a", "/station/a/lodge", "a", 200),
                    (long, f"/station/{long}/lodge", long, 200),
                    ("clara", "/station/s1/lodge", "sara", 412),
                    ("sara", "/station/s1/confirm", "clara", 412),
                    ("berta", "/con/c1/certify", "clara", 412),
                    ("clara", "/con/c1/import", "bruno", 412),
                    ("clara", "/con/c1/trial/semicolon", "bruno", 412),
                    ("s1", "/station/s1/lodge", "S1", 412), ("a", "/station/a/lodge", "aa", 412),
                    ("a", "/station/a/lodge", "a:a", 412),
                    (long, f"/station/{long}/lodge", long[:-1], 412),
                    *(("clara", "/station/s1/lodge", said, 412)
                      for said in ("Clara", "clar", "claraa", "clara:clara", "clara clara",
                                   "x" * 4000)),
                    # What the role may not do either.
                    ("sara", "/station/s1/lodge", "sara", 403),
                    ("sara", "/station/s1/lodge", "clara", 412)):
                with self.subTest(name=name, target=target, said=said):
                    before = len(messages)
                    found = front.ask("POST", target, {}, name,
                                      None if said is None else {"Office-By": said})
                    self.assertEqual((found.status, len(messages) - before),
                                     (wanted, int(wanted == 200)))
            # Without the right password it is not even compared, as after a log out.
            for name, password in ((None, None), ("clara", "x"), ("logout", "logout"),
                                   ("no name", "x")):
                with self.subTest(name=name):
                    self.assertEqual(front.ask("POST", "/station/s1/lodge", {}, name, {
                        "Office-By": "bruno"}, password=password).status, 401)
            self.assertEqual([(line["name"], line["status"]) for line in front.record(7)], [
                *[("clara", 200)] * 3, ("s1", 200), ("a", 200), (long, 200), ("sara", 403)])

    @needs("nginx", "openssl")
    def test_what_a_page_that_shows_another_name_reads(self):
        """Nothing that a name is needed for, as it would show it to whoever has that page: it is
        answered 412, which is kept for nobody. Who has no password is asked for it first."""
        with recording_desk() as (port, _), with_a_second(port) as front:
            front.name("stations", "s1")

            def statuses(name, *saids, target="/now/con/c1", password=None):
                return [front.ask("GET", target, None, name,
                                  None if said is None else {"Office-By": said},
                                  password=password).status for said in saids]

            for target in ("/now/station/s1/history", "/now/con/c1/typed", "/now/station/s1",
                           "/now/progress", "/now/results", "/now/con/c1/result",
                           "/now/con/c1/stations", "/now/con/c1/returns", *OF_SLIPS):
                with self.subTest(target=target):
                    self.assertEqual(
                        statuses("clara", "sara", "clara", "sara", "Clara", "", None,
                                 target=target), [412, 200, 412, 412, 200, 200])
                    self.assertEqual(front.ask("GET", target, None, "clara", {
                        "Office-By": "sara"}).head["Cache-Control"], "no-store")
                    self.assertEqual([statuses(name, "bruno", target=target, password=password)
                                      for name, password in ((None, None), ("clara", "x"),
                                                             ("logout", "logout"))], [[401]] * 3)
            self.assertEqual(statuses("s1", "s1", "s2", "S1", target="/now/station/s1"),
                             [200, 412, 412])
            # What the role may not see either; and what is for everybody is for this page too.
            self.assertEqual(statuses("sara", "sara", "clara", target="/now/station/s1"),
                             [403, 412])
            self.assertEqual([statuses("clara", "sara", target=target) for target in (
                "/progress", "/con/c1", "/con/c1/result", "/clerk.html")], [[200]] * 4)

    @needs("nginx", "openssl")
    def test_a_command_that_is_sent_again(self):
        """By the text that a page gives each command, where that is one: done and recorded once for
        each name. No field of a client is more to the recorder than that."""
        with recording_desk() as (port, messages), with_a_second(port) as front:
            def times(*texts, name="clara"):
                before = len(messages)
                for text in texts:
                    found = front.ask("POST", "/station/s1/query", {}, name, text and {
                        "Office-Once": text})
                    self.assertEqual((found.status, found.body), (200, b'{"ok":"lodged","rev":1}'))
                return len(messages) - before

            for texts, wanted in ((("1-22-3", "1-22-3"), 1), (("x" * 64, "x" * 64), 1),
                                  (("1", "2", "1"), 2), ((None, None), 2), (("", ""), 2),
                                  (("x" * 65, "x" * 65), 2), (("a b", "a b"), 2),
                                  (("é", "é"), 2), (("a\x85Office-Name: x",) * 2, 2)):
                with self.subTest(texts=texts):
                    self.assertEqual(times(*texts), wanted)
            self.assertEqual([times("1", "1", name="bruno"), times("1", "1", name="sara")], [1, 1])
            self.assertEqual([(line["name"], line["status"]) for line in front.record(18)],
                             [*[("clara", 200)] * 16, ("bruno", 200), ("sara", 200)])

    @needs("nginx", "openssl")
    def test_who_may_enter_a_second_time(self):
        """The role `second` may confirm and query, read past the cache and load the page; every
        other command is refused to it, and a second entry to every other role."""
        with recording_desk() as (port, messages), with_a_second(port) as front:
            front.name("stations", "s1")
            for number, (who, statuses) in enumerate(SECOND_ROLES.items(), 1):
                with self.subTest(number=number, who=who, statuses=statuses):
                    name, _, how = who.partition(" with ")
                    password = {"another password": "other",
                                "the password of clara": front.passwords["clara"]}.get(how)
                    asks = {"name": None if name == "nobody" else name, "password": password,
                            "source": f"127.0.9.{number}"}
                    self.assertEqual((who, *(
                        front.ask("POST", f"/station/s1/{what}", {}, **asks).status
                        for what in ("confirm", "query"))), (who, *statuses))
            asked = [head.split(b" ")[1] for head, _ in messages]
            self.assertEqual(asked,
                             [b"/station/s1/query", b"/station/s1/confirm", b"/station/s1/query"])
            messages.clear()
            for target in ("/station/s1/lodge", "/station/sara/lodge", "/station/s1/correct",
                           "/station/s1/close", "/con/c1/import", "/con/c1/import/semicolon",
                           *TRIALS, *OF_BOARD):
                with self.subTest(target=target):
                    self.assertEqual(front.ask("POST", target, {}, "sara").status, 403)
            self.assertEqual(messages, [])
            self.assertEqual([front.ask("GET", target, name="sara").status
                              for target in ("/now/progress", "/clerk.html", "/con/c1")], [200] * 3)
            self.assertEqual(front.ask("HEAD", "/clerk.html", name="sara").head["X-Office-Role"],
                             "second")
            # The page of another site sends nothing under this name either.
            self.assertEqual(front.ask("POST", "/station/s1/confirm", {}, "sara",
                                       {"Sec-Fetch-Site": "cross-site"}).status, 403)
            # Two commands of each of four names that had their passwords, and the ten that sara may
            # not give.
            confirms = [(line["name"], line["role"], line["status"]) for line in front.record(18)
                        if line["path"].endswith("/confirm")]
            self.assertEqual(confirms, [("s1", "station", 403), ("clara", "clerk", 403),
                                        ("berta", "board", 403), ("sara", "second", 200)])
