"""The program for `check`, `allot` and `recount`, which the launcher builds first."""

import re

from tests.support.launcher import NAMES, PROVED, SMALL, WAITS, LauncherCase, append
from tests.support.running import PATIENCE


# The commands that need no office.
COMMANDS = ("check", "allot", "recount")


class Small(LauncherCase):
    def test_it_is_made_of_no_database_and_no_http(self):
        self.assertLess({*SMALL} - {"tally_office_small"}, {*NAMES})
        for name in SMALL:
            with self.subTest(name=name):
                self.assertNotRegex(name, "^tally_(store|desk)")

    def test_each_of_its_commands_builds_it_alone(self):
        copy = self.copy
        for builds, word in enumerate(COMMANDS, 1):
            with self.subTest(word=word):
                append(copy.root / "crates/tally_office_small/src/main.rt")
                status, out, errors = copy.run(word, "a b")
                wanted = f"build {builds}\n{copy.folder}\n{word}\na b\n"
                self.assertEqual((status, out), (1, wanted))
                said = "office: the program for check, allot and recount is built\nan error\n"
                assert errors.endswith(said) and f"{len(SMALL)} crates" in errors, errors
                self.assertEqual(copy.run(word), (1, wanted.removesuffix("a b\n"), "an error\n"))
                labels = re.findall('"//crates/([a-z_]+)"', (copy.bin / "below").read_text())
                self.assertEqual(sorted([*labels, "tally_office_small"]), SMALL)
        assert copy.small.exists() and not copy.program.exists()
        self.assertEqual(copy.runs(), len(COMMANDS))

    def test_every_other_command_builds_the_whole_program_which_then_answers_all(self):
        copy = self.copy
        self.assertTrue(copy.run("check")[1].startswith("build 1\n"))
        self.assertTrue(copy.run("show")[1].startswith("build 2\n"))
        for word in (*COMMANDS, "show"):
            with self.subTest(word=word):
                wanted = (1, f"build 2\n{copy.folder}\n{word}\n", "an error\n")
                self.assertEqual(copy.run(word), wanted)
        self.assertEqual(copy.runs(), 2)
        # Once the whole one is of other sources, the small one answers, or is built again.
        append(copy.root / "crates/tally_store/src/lib.rt")
        self.assertTrue(copy.run("allot")[1].startswith("build 1\n"))
        append(copy.root / "crates/tally_frac/src/share.rt")
        self.assertTrue(copy.run("allot")[1].startswith("build 3\n"))

    def test_a_command_that_waited_for_the_whole_program_takes_it(self):
        copy = self.copy
        copy.plan('until [ -e "$here/go" ]; do sleep 0.1; done\n' + PROVED)
        first = copy.start("show")
        copy.wait_for(copy.bin / "pid")
        second = copy.start("check")
        self.assertEqual(second.stderr.readline(), WAITS)
        (copy.bin / "go").touch()
        for ran in (first, second):
            out, errors = ran.communicate(timeout=PATIENCE / 2)
            assert ran.returncode == 1 and out.startswith("build 1\n"), (out, errors)
        self.assertEqual(copy.runs(), 1)

    def test_a_first_look_finds_a_setup_in_the_callers_folder(self):
        copy = self.copy
        copy.tries("echo; echo 'run=ended status=0 runners=2 proved=no' >&2; exit 0")
        for words in (("--setup", "a b.toml"), ("--setup=a b.toml",)):
            with self.subTest(words=words):
                self.assertEqual(copy.run("--unproved", "recount", *words)[0], 0)
        for words in (("--setup", "/a.toml"), ("--setup=/a.toml",)):
            with self.subTest(words=words):
                self.assertEqual(copy.run("--unproved", "recount", *words)[0], 0)
        begin, given = "try --seconds 600 -- recount --setup", f"{copy.folder}/a b.toml"
        self.assertEqual(
            copy.calls(),
            [f"{begin} {given}", f"{begin}={given}", f"{begin} /a.toml", f"{begin}=/a.toml"],
        )
