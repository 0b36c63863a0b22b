"""Command lines that the launcher answers at once, where the program is not built."""

import re

from tests.support.case import ROOT
from tests.support.launcher import LauncherCase


def commands():
    """The commands of the program, in their order."""
    source = (ROOT / "crates/tally_office_line/src/line.rt").read_text(encoding="utf-8")
    return re.findall(r"^    push_command\(&mut commands, (\w+)_command", source, re.M)


class AtOnce(LauncherCase):
    def test_what_needs_no_program_is_answered_at_once(self):
        copy, names = self.copy, commands()
        self.assertEqual(len(names), 7)
        unknown = "office: no such command: '{}'. The commands are {} and {}\n"
        for word in ("frobnicate", "chek", "Check", "serv e", "./check"):
            with self.subTest(word=word):
                wanted = unknown.format(word, ", ".join(names[:-1]), names[-1])
                self.assertEqual(copy.run(word), (2, "", wanted))
        for word in ("--version", "-V"):
            with self.subTest(word=word):
                self.assertEqual(copy.run(word), (2, "", "office 0.1.0\n"))
        wanted = (ROOT / "docs/help.txt").read_text(encoding="utf-8")
        for words in ((), ("--help",), ("-h",), ("help",)):
            with self.subTest(words=words):
                self.assertEqual(copy.run(*words), (2, "", wanted))
        wanted = "office: --unproved stands before the command: ./office --unproved check\n"
        self.assertEqual(copy.run("check", "--semicolon", "--unproved"), (2, "", wanted))
        self.assertEqual(copy.calls(), [])

    def test_the_program_that_is_built_answers_itself(self):
        copy = self.copy
        self.assertTrue(copy.run("show")[1].startswith("build 1\n"))
        for words in (("frobnicate",), ("--version",), ("--help",), ("check", "--unproved")):
            with self.subTest(words=words):
                status, out, errors = copy.run(*words)
                self.assertEqual((status, errors), (1, "an error\n"))
                self.assertEqual(out.splitlines()[2:], list(words))
        self.assertEqual(copy.runs(), 1)
