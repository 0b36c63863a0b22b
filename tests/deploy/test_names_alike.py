"""Passwords of names of which one begins like another."""

import os
from pathlib import Path

from tests.support import tools
from tests.support.case import Case
from tests.support.running import PATIENCE
from tests.support.site import DEPLOY


class NamesAlike(Case):
    def given(self, name):
        """Gives a name of the staff a password."""
        done = tools.run(
            [DEPLOY / "password", "staff", name],
            capture_output=True,
            text=True,
            timeout=PATIENCE,
            env={**os.environ, "PASSWORDS": os.path.abspath("names")},
        )
        self.assertEqual((done.returncode, done.stderr), (0, ""))

    def lines(self):
        text = Path("names/staff.htpasswd").read_text(encoding="utf-8")
        return dict(line.split(":", 1) for line in text.splitlines())

    def test_a_new_password_leaves_those_of_longer_and_shorter_names(self):
        names = ("ana", "anabel", "an", "clara", "clara2", "Clar")
        Path("names").mkdir()
        roles = "".join(f"{name} clerk;\n" for name in names)
        Path("names/staff.conf").write_text(roles, encoding="utf-8")
        for name in names:
            self.given(name)
        for name in names:
            with self.subTest(name=name):
                before = self.lines()
                self.assertEqual(sorted(before), sorted(names))
                self.given(name)
                after = self.lines()
                self.assertEqual([one for one in names if after[one] != before[one]], [name])
