"""`examples/recount.py` beside the office, on random polls with right and wrong lots."""

import os

from tests.support.program import ProgramCase
from tests.support.recounts import METHODS, batch, kinds_of


class BesideTheOffice(ProgramCase):
    def test_lots_of_each_kind(self):
        """A recount says of each lot what the office answers to it."""
        polls, differs = batch(seed=20231, count=150)
        self.assertEqual(differs, [])
        self.assertEqual({poll.rule["method"] for poll in polls}, set(METHODS))
        self.assertEqual([kind for kind, count in kinds_of(polls).items() if count < 5], [])
        # These have lots that the office never took.
        os.remove("copy.db")
        os.remove("one.db")
