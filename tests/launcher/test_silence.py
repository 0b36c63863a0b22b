"""A build that says nothing for twenty seconds."""

import re
import threading

from tests.support.launcher import CRATES, LauncherCase
from tests.support.running import PATIENCE


class Silence(LauncherCase):
    def test_a_build_that_is_silent_is_spoken_of_all_the_same(self):
        copy = self.copy
        copy.plan("echo '== tally_frac'; exec sleep 900")
        ran = copy.start("show")
        timer, seen, still = (
            threading.Timer(PATIENCE / 2, ran.terminate),
            [],
            f"still proving, {CRATES - 1} of {CRATES} crates left",
        )
        timer.start()
        for line in ran.stderr:
            seen.append(line)
            if still in line:
                break
        timer.cancel()
        # After twenty seconds without a word.
        assert still in seen[-1] and re.search(r", after 0 min [2-5]\d s$", seen[-1]), seen
