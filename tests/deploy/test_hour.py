"""Nothing is public before the hour."""

import re
from datetime import datetime, timedelta
from pathlib import Path
from unittest import mock

from tests.support.case import needs
from tests.support.desks import recording_desk
from tests.support.office import with_stations
from tests.support.proxy import errors, proxy
from tests.support.running import until
from tests.support.scripts import loaded
from tests.support.site import DEPLOY, NAME, SiteCase, printed, ran


class Hour(SiteCase):
    @needs("nginx", "openssl")
    def test_nothing_is_public_before_the_hour(self):
        """Tables and pages are for names with their passwords, and from the hour on for everybody;
        nothing is done at the hour."""
        with recording_desk(b"TALLY c1 Twin Town\n") as (port, messages), proxy(port) as front:
            (front.folder / "pages/index.html").write_text("a page", encoding="utf-8")
            targets = ("/", "/index.html", "/progress", "/country", "/con/c1", "/con/c1/tally")
            without = ({}, {"name": "clara", "password": "x"}, {"name": "x", "password": "x"})
            # Where the machine is too slow for what is asked before the hour, the hour is a later
            # one.
            for seconds in (12, 60, 300):
                front.end()
                messages.clear()
                hour = datetime.now().astimezone() + timedelta(seconds=seconds)
                front.put("embargo.conf", printed(DEPLOY / "embargo", hour.isoformat()))
                front.start()
                refused = [(target, [front.ask("GET", target, **words).status for words in without])
                           for target in targets]
                passed_on = len(messages)
                answered = [front.ask("GET", target, name="clara").status for target in targets]
                done = front.ask("POST", "/station/s1/close", {}, "clara").status
                if datetime.now().astimezone() < hour:
                    break
            self.assertLess(datetime.now().astimezone(), hour, "this took too long")
            self.assertEqual((refused, passed_on, answered, done),
                             ([(target, [403, 401, 401]) for target in targets], 0, [200] * 6, 200))
            until(lambda: datetime.now().astimezone() > hour + timedelta(seconds=1))
            self.assertEqual([front.ask("GET", target).status for target in targets], [200] * 6)
        for words in ([], [""], ["tomorrow"], ["2026-11-29T20:00:00"],
                      ["2100-11-29T20:00:00+01:00", "x", "y"]):
            ran(DEPLOY / "embargo", *words, status=2)

    def test_the_hour_as_a_pattern(self):
        """Of some hours the seconds before and after."""
        for second in (1_795_978_800, 1_795_979_999, 1_800_000_000, 2_000_000_000, 1_999_999_999):
            with self.subTest(second=second):
                said = printed(DEPLOY / "embargo",
                               datetime.fromtimestamp(second).astimezone().isoformat(), "--past")
                pattern = re.search('"~(.*)" office;', said)[1]
                for moment in (second - 1000, second - 61, second - 1, second, second + 1,
                               second + 60, second + 10**9):
                    with self.subTest(moment=moment):
                        self.assertEqual(bool(re.match(pattern, f"{moment}.000")), moment < second)
        # A fraction of a second is over before anything is public.
        for fraction, last in ((".000000", "59"), (".000001", "00"), (".999999", "00")):
            with self.subTest(fraction=fraction):
                said = printed(DEPLOY / "embargo", f"2026-11-29T20:00:00{fraction}+00:00", "--past")
                pattern = re.search('"~(.*)" office;', said)[1]
                second = 1_795_982_400 - (last == "59")
                self.assertEqual([bool(re.match(pattern, f"{second + more}.000"))
                                  for more in (-1, 0, 1)], [True, True, False])
        self.assertEqual(printed(DEPLOY / "embargo", "now"),
                         (DEPLOY / "nginx/embargo.conf").read_text(encoding="utf-8"))

    @needs("nginx", "openssl")
    def test_an_hour_that_the_proxy_does_not_have_yet(self):
        """It goes by the one before until it is told to read the new one: `status` says so, and
        asks no office."""
        looks, later = loaded("status_looks.py"), "2100-01-01T00:00:00+00:00"
        Path("setup.toml").write_text(with_stations(2), encoding="utf-8")
        with recording_desk() as (port, messages), proxy(port) as front:
            looks.PROXY, file = ("127.0.0.1", front.port), front.folder / "office/embargo.conf"
            found = lambda: looks.look_at_hour(file, NAME)
            past, public, closed = "2020-01-01T00:00:00+00:00", "everything is public", (
                "nothing is public yet")
            for hour, before, after in (("now", public, public), (later, public, closed),
                                        ("now", closed, public), (past, public, public)):
                with self.subTest(hour=hour):
                    front.put("embargo.conf", printed(DEPLOY / "embargo", hour, "--past"))
                    by = (f"; by {file}, if the proxy has read it, it is for everybody: "
                          f"{'at once' if hour == 'now' else hour}")
                    other = ("; the proxy goes by another hour: look at the file, then nginx -t && "
                             "systemctl reload nginx") * (before != after)
                    said = found()
                    self.assertEqual((said.is_well, said.says), (
                        before == after, before + by + other))
                    front.end()
                    front.start()
                    self.assertEqual(found(), looks.Found("hour", True, after + by))
            self.assertEqual(messages, [])
            for status, said, wrong in ((500, 0.1, "it answers with status 500"),
                                        (None, "away", "away")):
                with self.subTest(status=status), mock.patch.object(
                        looks, "answered", lambda *_, it=(status, said): it):
                    self.assertEqual(found(), looks.Found(
                        "hour", False, f"the proxy does not answer as {NAME}: {wrong}"))
            # (the hour comes while the proxy is asked)
            moments = iter((False, True))
            looks.is_early = lambda _: next(moments)
            self.assertTrue(found().is_well)
            looks.is_early = lambda _: True
            self.assertFalse(looks.look_at_hour(file, "other.example").is_well)
        for text in (None, b"\xff", b'    "~^(" office;\n'):
            with self.subTest(text=text):
                looks = loaded("status_looks.py")
                if text:
                    Path("embargo.conf").write_bytes(text)
                said = looks.look_at_hour("embargo.conf", NAME)
                self.assertIn("embargo.conf cannot be read: ", said.says)
                self.assertFalse(said.is_well)

    @needs("nginx", "openssl")
    def test_names_before_the_hour(self):
        """A name that cannot be one gets into no log there either."""
        with recording_desk() as (port, messages), proxy(port) as front:
            front.end()
            front.put("embargo.conf", printed(DEPLOY / "embargo", "2100-01-01T00:00:00+00:00"))
            front.start()
            for name in ("x\ny", "x\x1b[31m", "clara ", "../staff", "x" * 33):
                with self.subTest(name=name):
                    for target in ("/", "/con/c1", "/progress"):
                        with self.subTest(target=target):
                            self.assertEqual(
                                front.ask("GET", target, name=name, password="x").status, 401)
            for name, status in ((None, 403), ("x y", 401)):
                with self.subTest(name=name, status=status):
                    head = front.ask("GET", "/", name=name, password="x").head
                    self.assertEqual(
                        [head.get_all(field) for field in ("X-Frame-Options", "Cache-Control")],
                        [["DENY"], ["max-age=5"]])
            self.assertEqual((messages, errors(front)), ([], ""))
