"""`./office --unproved`, which proves nothing."""

import signal

from tests.support.launcher import PROVED, LauncherCase, ends
from tests.support.running import PATIENCE


UNPROVED = """\
office: nothing will be proved: this compiles the program and runs it once, in some \
three minutes, and keeps nothing
office: './office {0}', without --unproved, proves and builds the program, and then runs \
it (some 40 minutes, the first time)
{1}office: nothing of this was proved: './office {0}', without --unproved, proves and builds \
the program, and then runs it
"""


class FirstLook(LauncherCase):
    def test_a_first_look_runs_the_check_without_proof(self):
        copy = self.copy
        text = copy.folder / "returns.csv"
        text.write_text("first\nlast")
        before = copy.files()
        with text.open() as given:
            status, out, errors = copy.run("--unproved", "check", "--semicolon", stdin=given)
        words = ["try", "--seconds", "600", "--", "check", "--semicolon"]
        self.assertEqual(
            (status, out),
            (1, "\n".join([str(copy.root / "crates/tally_office_small"), *words, "first", "last"])),
        )
        self.assertEqual(errors, UNPROVED.format("check --semicolon", "refused: bad_header\n"))
        self.assertEqual(copy.calls(), [" ".join(words)])
        # It leaves nothing, so the next start proves and builds.
        self.assertEqual(copy.files(), before)
        assert copy.run("check")[1].startswith("build 1\n")
        # Of the program that is built it changes nothing either, whatever status it gives.
        before = copy.files()
        for found in (0, 2, 3):
            with self.subTest(found=found):
                copy.tries(
                    f"echo; echo 'run=ended status={found} runners=2 proved=no' >&2; exit {found}"
                )
                self.assertEqual(
                    copy.run("--unproved", "check"), (found, "\n", UNPROVED.format("check", ""))
                )
        assert (
            copy.files() == before
            and copy.run("check")[1].startswith("build 1\n")
            and copy.runs() == 1
        )

    def test_a_first_look_runs_an_allotment_with_the_values_of_its_options(self):
        copy = self.copy
        copy.tries("echo; echo 'run=ended status=0 runners=2 proved=no' >&2; exit 0")
        options = ["--seats", "8", "--method", "dhondt", "--threshold", "300"]
        line = " ".join(["allot", *options])
        self.assertEqual(
            copy.run("--unproved", "allot", *options), (0, "\n", UNPROVED.format(line, ""))
        )
        self.assertEqual(copy.calls(), [f"try --seconds 600 -- {line}"])

    def test_a_first_look_is_of_check_and_its_flags_or_of_an_allotment(self):
        copy = self.copy
        wanted = (
            "office: --unproved is for 'check', 'allot' and 'recount' alone: './office {}', without"
            " it, proves and builds the program, and then runs it\n"
        )
        for words, name in (
            ((), "COMMAND"),
            (("new", "--db", "a.db", "--setup", "a.toml"), "new"),
            (("--help",), "--help"),
            (("",), ""),
        ):
            with self.subTest(words=words, name=name):
                self.assertEqual(copy.run("--unproved", *words), (3, "", wanted.format(name)))
        for words in (("returns.csv",), ("--semicolon", "returns.csv"), ("",)):
            with self.subTest(words=words):
                status, out, errors = copy.run("--unproved", "check", *words)
                assert (status, out) == (
                    3,
                    "",
                ) and "on standard input: ./office --unproved check < FILE\n" in errors, errors
        self.assertEqual(copy.calls(), [])
        status, out, errors = copy.run("--unproved", "check", rt=False)
        assert (
            (status, out) == (3, "")
            and "the command 'rt'" in errors
            and "is not on the PATH" in errors
        ), errors

    def test_a_first_look_that_fails_is_status_3(self):
        copy = self.copy
        said = "office: the program could not be compiled and run without proof:\n"
        for status, lines in (
            (1, ["src/main.rt:1:1: error[x]: y", "run=none proved=no"]),
            (4, ["a fault", "run=fault at=4 proved=no"]),
            (2, []),
        ):
            with self.subTest(status=status, lines=lines):
                copy.tries("".join(f"echo '{line}' >&2\n" for line in lines) + f"exit {status}")
                found, out, errors = copy.run("--unproved", "check")
                shown = "".join(f"  {line}\n" for line in lines or [""])
                assert (found, out) == (3, "") and errors.endswith(said + shown), (found, errors)
        # The program's own output is not taken for the report of how it ended.
        copy.tries("printf 'run=ended status=0 \\nrun=none proved=no\\n' >&2; exit 1")
        self.assertEqual(copy.run("--unproved", "check")[0], 3)

    def test_the_last_lines_of_a_first_look_that_fails_are_shown(self):
        """Twenty of them."""
        self.copy.tries("seq 1 30 >&2; exit 1")
        errors = self.copy.run("--unproved", "check")[2]
        self.assertEqual(errors.splitlines()[-20:], [f"  {n}" for n in range(11, 31)])
        self.assertNotIn("  10\n", errors)

    def test_a_first_look_that_takes_a_moment_says_none_of_it(self):
        """It is said from some seconds of silence on."""
        self.copy.tries("sleep 1.5; echo 'run=ended status=0 runners=2 proved=no' >&2; exit 0")
        status, _, errors = self.copy.run("--unproved", "check")
        self.assertEqual((status, errors), (0, UNPROVED.format("check", "")))

    def test_a_first_look_waits_for_no_build(self):
        copy = self.copy
        copy.plan('until [ -e "$here/go" ]; do sleep 0.1; done\n' + PROVED)
        first = copy.start("check")
        copy.wait_for(copy.bin / "pid")
        status, out, errors = copy.run("--unproved", "check")
        assert (
            status == 1
            and out.endswith("\ncheck\n")
            and errors == UNPROVED.format("check", "refused: bad_header\n")
        ), errors
        self.assertIs(first.poll(), None, "the build ended first")
        (copy.bin / "go").touch()
        out, errors = first.communicate(timeout=PATIENCE / 2)
        assert out.startswith("build 1\n") and copy.runs() == 1, (out, errors)

    def test_a_first_look_that_is_ended_ends_what_it_runs(self):
        copy = self.copy
        for number in (signal.SIGTERM, signal.SIGINT, signal.SIGHUP):
            with self.subTest(number=number):
                (copy.bin / "child").unlink(missing_ok=True)
                copy.tries(f"sleep 900 & echo $! >'{copy.bin}/child'; wait")
                ran = copy.start("--unproved", "check")
                copy.wait_for(copy.bin / "child")
                ran.send_signal(number)
                errors = ran.communicate(timeout=PATIENCE / 2)[1]
                assert ran.returncode == -number and errors.endswith(
                    "office: the first look was ended\n"
                ), (ran.returncode, errors)
                for name in ("pid", "child"):
                    with self.subTest(name=name):
                        assert ends(int((copy.bin / name).read_text()))
