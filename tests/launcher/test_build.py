"""The launcher `office`: when it builds the program, and of what."""

import os
import re
import shutil
import subprocess
from pathlib import Path

from tests.support.launcher import NAMES, PROVED, WAITS, Copy, LauncherCase, append
from tests.support.running import PATIENCE


def unpacked(file):
    """Replaces a file as archives are unpacked: by another text, with a time of long ago."""
    new = file.with_suffix(".new")
    new.write_text(file.read_text() + "// unpacked\n")
    os.utime(new, (1_000_000_000, 1_000_000_000))
    new.rename(file)


def written_over(file):
    """Writes a text of the same size into a file, and gives it back the time that it had."""
    before = file.stat()
    file.write_text(file.read_text().replace("votes", "stove"))
    os.utime(file, ns=(before.st_atime_ns, before.st_mtime_ns))


class Build(LauncherCase):
    def test_first_launch_builds_and_the_next_does_not(self):
        copy = self.copy
        status, out, errors = copy.run("show", "a b", "*")
        assert status == 1 and out.splitlines() == [
            "build 1",
            str(copy.folder),
            "show",
            "a b",
            "*",
        ], (status, out)
        assert errors.endswith("office: the program is built\nan error\n"), errors
        self.assertNotIn("the program's own output", out + errors)
        first, second = copy.calls()
        assert re.fullmatch("all check --jobs [1-9][0-9]*", first) and second == "run -- check", (
            first,
            second,
        )
        self.assertEqual((copy.bin / "input").read_text(), "station,slip,blank,spoiled,A\n")
        folder, *lines = (copy.bin / "below").read_text().splitlines()
        labels = re.findall('"//crates/([a-z_]+)"', "".join(lines))
        assert sorted([*labels, "tally_office"]) == NAMES and lines[-1] == "#![tactic(auto)]", lines
        assert folder == str(copy.out / "below") and not Path(folder).exists(), folder
        self.assertEqual(copy.run("show"), (1, f"build 1\n{copy.folder}\nshow\n", "an error\n"))
        self.assertEqual(copy.runs(), 1)

    def test_input_and_folder_are_the_callers(self):
        copy = self.copy
        text = copy.folder / "returns.csv"
        text.write_text("first\nlast")
        elsewhere = copy.folder / "elsewhere"
        elsewhere.mkdir()
        link = elsewhere / "count"
        link.symlink_to("../the office/office")
        for launcher in ("./count", "../the office/office"):
            with self.subTest(launcher=launcher):
                with text.open() as given:
                    status, out, _ = copy.run(
                        "--semicolon", launcher=launcher, cwd=elsewhere, stdin=given
                    )
                assert status == 1 and out.splitlines()[1:] == [
                    str(elsewhere),
                    "--semicolon",
                    "first",
                    "last",
                ], out
        assert (
            copy.runs() == 1 and (copy.bin / "given").read_text() == ""
        ), "a build reads what the caller gives to the program"

    def test_two_launches_at_once_build_once(self):
        copy = self.copy
        # The build goes on once all the others wait for it.
        copy.plan('until [ -e "$here/go" ]; do sleep 0.1; done\n' + PROVED)
        first = copy.start("show")
        copy.wait_for(copy.bin / "pid")
        others = [copy.start("show") for _ in range(3)]
        for ran in others:
            with self.subTest(ran=ran):
                self.assertEqual(ran.stderr.readline(), WAITS)
        (copy.bin / "go").touch()
        for ran in [first, *others]:
            with self.subTest(ran=ran):
                out, errors = ran.communicate(timeout=PATIENCE / 2)
                assert ran.returncode == 1 and out.startswith("build 1\n"), (out, errors)
                self.assertNotIn(WAITS, errors)
        self.assertEqual(copy.runs(), 1)

    def test_each_change_of_what_it_is_made_of_builds_again(self):
        copy = self.copy
        copy.run("show")
        builds = 1
        crates = copy.root / "crates"
        changes = {
            "an edit of a crate below": lambda: append(crates / "tally_frac/src/share.rt"),
            "an edit of a definition": lambda: append(crates / "tally_setup/specs/Code.antt"),
            "an edit of a proof": lambda: append(crates / "tally_frac/proofs/Lib.antt"),
            "an edit of the program": lambda: append(crates / "tally_office/src/main.rt"),
            "a new file": lambda: (crates / "tally_frac/src/new.rt").write_text("// new\n"),
            "a file that is gone": lambda: (crates / "tally_frac/src/new.rt").unlink(),
            "a file that was unpacked with its old time": lambda: unpacked(
                crates / "tally_frac/src/rank.rt"
            ),
            "a file that was written over with its time kept": lambda: written_over(
                crates / "tally_frac/src/rank.rt"
            ),
            "a list of crates": lambda: append(copy.root / "crates.txt", "# a comment\n"),
            "a toolchain": lambda: (copy.version("stub 2"), append(copy.bin / "rt", "# changed\n")),
            "a program that something else built": lambda: append(copy.program, "# changed\n"),
            "a program that is gone": lambda: copy.program.unlink(),
        }
        for name, change in changes.items():
            with self.subTest(name=name):
                change()
                builds += 1
                out = copy.run("show")[1]
                assert out.startswith(f"build {builds}\n"), f"{name}: {out}"
                self.assertEqual(copy.run("show")[1], out)
                self.assertEqual(copy.runs(), builds)

    def test_what_it_is_not_made_of_builds_nothing(self):
        copy = self.copy
        copy.run("show")
        crates = copy.root / "crates"
        append(crates / "tally_test_report/src/lib.rt")
        append(crates / "tally_test_core/src/lib.rt")
        (crates / "tally_frac/README.md").write_text("changed\n")
        os.utime(crates / "tally_frac/src/share.rt")
        assert copy.run("show")[2] == "an error\n" and copy.runs() == 1
        copied = Copy.__new__(Copy)
        copied.__dict__.update(copy.__dict__, root=copy.folder / "copied", started=copy.started)
        for how in ("-a", "-r"):
            with self.subTest(how=how):
                subprocess.run(["cp", how, str(copy.root), str(copied.root)], check=True)
                assert copied.run("show")[1].startswith("build 1\n")
                shutil.rmtree(copied.root)
        assert copy.run("show", rt=False)[1].startswith(
            "build 1\n"
        ), "without rt a current program runs"
        self.assertEqual(copy.runs(), 1)

    def test_an_edit_during_a_build_builds_again(self):
        copy = self.copy
        copy.plan(f"echo '// changed' >>'{copy.root}/crates/tally_frac/src/share.rt'\n" + PROVED)
        status, out, errors = copy.run("show")
        assert (
            status == 1 and out.startswith("build 1\n") and "a source changed meanwhile" in errors
        ), errors
        copy.plan(PROVED)
        assert copy.run("show")[1].startswith("build 2\n")
        assert copy.run("show")[1].startswith("build 2\n")

    def test_a_launcher_that_changes_during_a_build_goes_on(self):
        copy = self.copy
        copy.plan(f"printf 'exit 7\\n%.0s' {{1..3000}} >'{copy.root}/office'\n" + PROVED)
        status, out, errors = copy.run("show")
        assert status == 1 and out.startswith("build 1\n"), (status, errors)

    def test_a_toolchain_by_a_relative_path_builds(self):
        copy = self.copy
        for _ in range(2):
            status, out, errors = copy.run("show", rt="bin")
            self.assertEqual((status, out), (1, f"build 1\n{copy.folder}\nshow\n"), errors)
        self.assertEqual(errors, "an error\n")

    def test_no_more_crates_are_proved_at_a_time_than_a_container_has_memory_for(self):
        copy = self.copy
        memory, limit = copy.folder / "meminfo", copy.folder / "limit"
        launcher = copy.root / "office"
        text = launcher.read_text()
        for old, new in (
            ("memory=/proc/meminfo", f"memory='{memory}'"),
            ("memory_limits=(/sys/fs/cgroup/memory.max ", f"memory_limits=('{limit}' "),
        ):
            self.assertEqual(text.count(old), 1, old)
            text = text.replace(old, new)
        launcher.write_text(text)
        memory.write_text("MemTotal: 99000000 kB\nMemAvailable: 24000000 kB\n")
        wanted = 2 * len(os.sched_getaffinity(0))
        for said, room in (
            ("max", 8),
            ("9223372036854771712", 8),
            ("6500000000", 2),
            ("1000000", 1),
        ):
            with self.subTest(said=said, room=room):
                limit.write_text(f"{said}\n")
                append(copy.root / "crates.txt", "# changed\n")
                self.assertEqual(copy.run("show")[0], 1)
                jobs = [
                    line
                    for line in (copy.bin / "calls").read_text().splitlines()
                    if line.startswith("all ")
                ][-1]
                self.assertEqual(jobs, f"all check --jobs {min(room, wanted)}")
