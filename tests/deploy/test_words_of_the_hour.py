"""The hours that `deploy/embargo` takes, and its words for them, at noon of an election's day."""

import contextlib
import io
from datetime import UTC, datetime, timedelta
from pathlib import Path
from unittest import mock

from tests.support.case import Case
from tests.support.scripts import loaded

embargo = loaded("embargo")
NOON = datetime(2026, 11, 29, 12, tzinfo=UTC)


class Noon(datetime):
    """A clock on which it is always noon."""

    @classmethod
    def now(cls, tz=None):
        return NOON.astimezone(tz)


class WordsOfTheHour(Case):
    prefix = "office-embargo-"

    def setUp(self):
        super().setUp()
        patch = mock.patch.object(embargo, "datetime", Noon)
        patch.start()
        self.addCleanup(patch.stop)

    def run_tool(self, *words):
        """The status, what is printed, and what is said on standard error."""
        out, said = io.StringIO(), io.StringIO()
        with contextlib.redirect_stdout(out), contextlib.redirect_stderr(said):
            status = embargo.main(list(words))
        return status, out.getvalue(), said.getvalue()

    def test_how_long_until_the_hour(self):
        for seconds, said in ((0, "0 d 0 h 0 min"), (59, "0 d 0 h 0 min"), (60, "0 d 0 h 1 min"),
                              (3599, "0 d 0 h 59 min"), (3600, "0 d 1 h 0 min"),
                              (86_399, "0 d 23 h 59 min"), (86_400, "1 d 0 h 0 min"),
                              (12 * 86_400 + 5 * 3600 + 7 * 60, "12 d 5 h 7 min"), (-1, None)):
            with self.subTest(seconds=seconds):
                hour = NOON + timedelta(seconds=seconds)
                self.assertEqual(embargo.told(hour), "everything is public at once" if said is None
                                 else f"nothing is public until {hour.isoformat()}, in {said}")
        self.assertEqual(embargo.told(None), "everything is public at once")

    def test_what_is_past(self):
        """The moment itself is; with --past it may be."""
        for word, is_taken in (("2026-11-29T12:00:00+00:00", False),
                               ("2026-11-29T12:00:01+00:00", True),
                               ("2026-11-29T12:59:59+01:00", False),
                               ("2026-11-29T13:00:01+01:00", True),
                               ("2026-11-29T12:00:00.5+00:00", True)):
            with self.subTest(word=word):
                status, out, said = self.run_tool(word)
                self.assertEqual((status, bool(out), "is past" in said),
                                 (0, True, False) if is_taken else (2, False, True))
                self.assertEqual(self.run_tool(word, "--past")[0], 0)
                self.assertEqual(self.run_tool("--past", word)[0], 0)

    def test_hours_that_the_proxy_knows(self):
        """It has seconds since 1970 in ten digits."""
        for word, is_taken in (("1970-01-01T00:00:00+00:00", False),
                               ("1970-01-01T00:00:01+00:00", True),
                               ("1970-01-01T00:59:59+01:00", False),
                               ("2286-11-20T17:46:39+00:00", True),
                               ("2286-11-20T17:46:40+00:00", False)):
            with self.subTest(word=word):
                status, _, said = self.run_tool(word, "--past")
                self.assertEqual((status, "before 1970, or too late for the proxy" in said),
                                 (0, False) if is_taken else (2, True))

    def test_a_fraction_of_a_second_ends_with_it(self):
        for fraction, wanted in (("", "20:00:00"), (".000001", "20:00:01"), (".9", "20:00:01")):
            found = embargo.read_time(f"2026-11-29T20:00:00{fraction}+00:00", False)
            self.assertEqual(found.isoformat(), f"2026-11-29T{wanted}+00:00")

    def test_words_that_are_wrong(self):
        hour = "2026-11-29T20:00:00+01:00"
        for words in ((), ("--past",), (hour, "file", "more"), ("now", "file", "more"),
                      ("2026-11-29T20:00:00",), ("",), ("Now",)):
            with self.subTest(words=words):
                self.assertEqual(self.run_tool(*words), (2, "", embargo.USAGE + "\n"))
        for words in (("--help",), (hour, "-h")):
            self.assertEqual(self.run_tool(*words), (0, embargo.__doc__.strip() + "\n", ""))
        self.assertEqual(list(Path().iterdir()), [])

    def test_the_text_of_the_proxy(self):
        """By hand: the hour is 1,795,978,800 seconds after 1970; a smaller digit at a place, after
        those before it, is earlier."""
        hour = "2026-11-29T20:00:00+01:00"
        pattern = ("[0-0]|1[0-6]|17[0-8]|179[0-4]|1795[0-8]|17959[0-6]|179597[0-7]|1795978[0-7]")
        text = (f"# From when on tables and pages are for everybody: {hour}. deploy/embargo wrote "
                f'it.\nmap $msec $before_the_hour {{\n    default off;\n    "~^({pattern})" office;'
                "\n}\n")
        said = f"nothing is public until {hour}, in 0 d 7 h 0 min"
        self.assertEqual(self.run_tool(hour), (0, text, f"{said}\n"))
        reload = ", once the proxy is reloaded: nginx -t && systemctl reload nginx\n"
        self.assertEqual(self.run_tool(hour, "hour.conf"), (0, "", said + reload))
        self.assertEqual((Path("hour.conf").read_text(), Path("hour.conf").stat().st_mode & 0o777),
                         (text, 0o644))
        self.assertEqual(self.run_tool("now", "hour.conf"),
                         (0, "", "everything is public at once" + reload))
        self.assertNotIn("office;", Path("hour.conf").read_text())
        self.assertEqual([path.name for path in Path().iterdir()], ["hour.conf"])
