"""Builds that fail or are ended, and what the launcher says of them."""

import os
import resource
import signal

from tests.support.launcher import NOBODY, PROVED, WAITS, LauncherCase, append, ends
from tests.support.running import PATIENCE


# The report on a function whose contract is not proved.
OPEN = """
cat <<'END'
== tally_frac
fn tally_frac::rank::RankKey::new: proved
note: src/share.rt:60:5: it is not proved that what the function ensures holds when it returns \
(`returns`)
fn tally_frac::share::Share::floor: no proof: expected answers in \
./proofs/share/Share/floor/Answers.antt
fn tally_frac::share::ShareDebug::fmt: proved
help: write ./proofs/share/Share/floor/Answers.antt with these lines
note: `returns` of proofs/share/Share/floor/Answers.antt must prove: \
c.self.num ≡ whole_part c.args.self.now
  names you can use, by step:
crate tally_frac: modules loaded=1088 checked=7
logic=not-proved
rt: rt lemma WORD.. finds a lemma by guessed names or words of the goal
END
exit 1
"""


class Failures(LauncherCase):
    def test_a_tree_that_cannot_be_written_is_status_3(self):
        copy = self.copy
        for folder, _, _ in os.walk(copy.folder):
            os.chmod(folder, 0o555)
        how = {"user": NOBODY, "group": NOBODY, "extra_groups": []} if os.geteuid() == 0 else {}
        try:
            status, out, errors = copy.run("show", **how)
        finally:
            for folder, _, _ in os.walk(copy.folder):
                os.chmod(folder, 0o755)
        assert (
            (status, out) == (3, "") and errors.count("\n") == 1 and "cannot be written" in errors
        ), (status, errors)
        self.assertEqual(copy.runs(), 0)
        copy.run("show")
        for folder, _, _ in os.walk(copy.folder):
            os.chmod(folder, 0o555)
        try:
            status, out, errors = copy.run("show", **how)
            os.chmod(copy.root / "crates/tally_frac/src", 0o755)
            append(copy.root / "crates/tally_frac/src/share.rt")
            old = copy.run("show", **how)
        finally:
            for folder, _, _ in os.walk(copy.folder):
                os.chmod(folder, 0o755)
        assert status == 1 and out.startswith(
            "build 1\n"
        ), "a current program runs where nothing can be written"
        assert old[:2] == (3, "") and "cannot be written" in old[2], old

    def test_without_the_toolchain_is_status_3(self):
        copy = self.copy
        status, out, errors = copy.run("show", rt=False)
        assert (status, out) == (3, "") and errors.count("\n") == 1 and "'rt'" in errors, (
            status,
            errors,
        )

    def test_a_program_that_another_user_may_not_run_is_status_3(self):
        copy = self.copy
        copy.run("show")
        how = {"user": NOBODY, "group": NOBODY, "extra_groups": []} if os.geteuid() == 0 else {}
        # (who owns a file that cannot be read can build another)
        for path in [copy.out, copy.program][: 2 if how else 1]:
            mode = path.stat().st_mode
            path.chmod(0)
            try:
                status, out, errors = copy.run("show", **how)
            finally:
                path.chmod(mode)
            assert (status, out) == (3, "") and errors.count("\n") == 1, (status, errors)
            assert (
                "is not for this user to read" in errors and "not built yet" not in errors
            ), errors
        assert copy.run("show")[1].startswith("build 1\n")

    def test_a_log_that_cannot_be_written_is_said_once(self):
        copy = self.copy
        # As on a full disk, a write beyond 6,000 bytes fails.
        how = {
            "restore_signals": False,
            "preexec_fn": lambda: resource.setrlimit(resource.RLIMIT_FSIZE, (6000, 6000)),
        }
        long = f"for n in {{1..200}}; do echo 'note: {'x' * 100}'; done\n"
        copy.plan(long + PROVED)
        status, out, errors = copy.run("show", **how)
        said = [line for line in errors.splitlines() if "error" in line.lower() or "cannot" in line]
        assert status == 1 and out.startswith("build 1\n"), (status, errors)
        self.assertEqual(
            said,
            [
                (
                    f"office: {copy.out}/office.log cannot be written to the end of the report: is"
                    " the disk full?"
                ),
                "an error",
            ],
        )
        copy.plan(long + "exit 1")
        append(copy.root / "crates.txt", "# changed\n")
        status, out, errors = copy.run("show", **how)
        assert status == 3 and errors.endswith(
            f"office: the report, as far as it could be written, is in {copy.out}/office.log\n"
        ), errors

    def test_what_fails_is_status_3(self):
        copy = self.copy
        copy.run("show")
        plans = {
            "a proof": ("exit 1", ""),
            "a build": (PROVED, "exit 1"),
            "a build with no program": (PROVED, f"rm -f '{copy.program}'"),
            "a proof that is killed": ("kill -9 $$", ""),
            "a build that is killed": (PROVED, "kill -9 $$"),
        }
        for name, (plan, end) in plans.items():
            with self.subTest(name=name):
                copy.plan(plan)
                copy.end(end)
                append(copy.root / "crates.txt", "# changed\n")
                status, out, errors = copy.run("show")
                self.assertEqual((status, out), (3, ""), f"{name}: {status} {errors}")
        copy.plan(PROVED)
        copy.end("printf '\\177ELF%080d' 0 >out/tally_office; chmod +x out/tally_office")
        self.assertEqual(copy.run("show")[0], 3, "a program that cannot be started")
        (copy.root / "crates.txt").unlink()
        self.assertEqual(copy.run("show")[0], 3, "no crates.txt")

    def test_a_failed_build_shows_the_open_goal_first(self):
        copy = self.copy
        copy.plan(OPEN)
        status, out, errors = copy.run("show")
        lines = [line.strip() for line in errors.splitlines()]
        at = lines.index("office: the program could not be proved and built:")
        assert status == 3 and out == ""
        self.assertEqual(
            lines[at + 1 : -1],
            [
                "tally_frac::share::Share::floor is not proved",
                (
                    "src/share.rt:60:5: it is not proved that what the function ensures holds when"
                    " it returns (`returns`)"
                ),
                (
                    "`returns` of proofs/share/Share/floor/Answers.antt must prove: c.self.num ≡"
                    " whole_part c.args.self.now"
                ),
            ],
            errors,
        )
        self.assertEqual(lines[-1], f"office: the whole report is in {copy.out}/office.log")
        copy.plan(
            "echo 'src/share.rt:63:9: error[unknown-field]: no field `nun` on type `Share`' >&2;"
            " exit 1"
        )
        self.assertIn("\n  src/share.rt:63:9: error[unknown-field]: no field", copy.run("show")[2])
        copy.plan("echo 'rt: No space left on device' >&2; exit 2")
        self.assertIn("\n  rt: No space left on device\n", copy.run("show")[2])

    def test_a_launcher_that_is_ended_ends_its_build(self):
        copy = self.copy
        for number in (signal.SIGTERM, signal.SIGINT, signal.SIGHUP):
            with self.subTest(number=number):
                (copy.bin / "pid").unlink(missing_ok=True)
                (copy.bin / "child").unlink(missing_ok=True)
                # The build has a process of its own, which the end of `rt` alone would not end.
                copy.plan(f"sleep 900 & echo $! >'{copy.bin}/child'; wait")
                ran = copy.start("show")
                copy.wait_for(copy.bin / "child")
                waiting = copy.start("show")
                ran.send_signal(number)
                # Long before the 900 seconds of the build.
                ran.communicate(timeout=PATIENCE / 2)
                self.assertEqual(ran.returncode, -number)
                for name in ("pid", "child"):
                    with self.subTest(name=name):
                        assert ends(int((copy.bin / name).read_text()))
                assert not (copy.out / "below").exists()
                waiting.terminate()
                waiting.communicate(timeout=PATIENCE / 2)
                self.assertEqual(waiting.returncode, -signal.SIGTERM)

    def test_after_a_build_that_was_ended_the_next_in_line_builds(self):
        copy = self.copy
        copy.plan('echo begun >"$here/begun"; exec sleep 900')
        first = copy.start("show")
        copy.wait_for(copy.bin / "begun")
        copy.plan(PROVED)
        second = copy.start("show")
        self.assertEqual(second.stderr.readline(), WAITS)
        first.terminate()
        out, errors = second.communicate(timeout=PATIENCE / 2)
        assert second.returncode == 1 and out.startswith("build 1\n"), errors
