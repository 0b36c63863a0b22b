"""The pattern of the moments before an hour, at hours and moments of each kind."""

import random
import re
from datetime import datetime

from tests.support.case import Case
from tests.support.scripts import loaded

embargo = loaded("embargo")


class HoursAtRandom(Case):
    def test_each_moment_before_and_none_after(self):
        """Of hours with each digit at each place, moments near by and far away."""
        draw = random.Random(71)
        hours = [draw.randrange(1_700_000_000, 3_000_000_000) for _ in range(300)]
        # Each digit at each place but the first, and hours that end in zeros.
        hours += [
            1_790_000_000 // 10**place * 10**place + digit * 10**place
            for place in range(9)
            for digit in range(10)
        ]
        for hour in hours:
            before = re.compile(f"^({embargo.earlier(hour)})")
            moments = [hour + sign * 10**n for n in range(9) for sign in (-1, 1)]
            moments += [draw.randrange(10**9, 10**10) for _ in range(20)] + [hour]
            found = [moment for moment in moments if before.match(f"{moment}.000")]
            self.assertEqual(found, [moment for moment in moments if moment < hour], hour)

    def test_an_hour_within_a_second(self):
        """Nothing is public before it."""
        hour = datetime.fromisoformat("2026-11-29T20:00:00.600+01:00")
        before = re.compile(re.search('"~(.*)" office', embargo.conf(hour))[1])
        second = int(hour.timestamp())
        found = [at for at in (second - 1, second, second + 1) if before.match(f"{at}.599")]
        self.assertEqual(found, [second - 1, second])
