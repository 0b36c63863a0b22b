"""How many crates and minutes the launcher says are left of a build."""

import re
import shutil
import subprocess
import sys
import time

from tests.support.case import ROOT
from tests.support.launcher import (
    CRATES,
    FORECAST,
    NAMES,
    PROVED,
    RECORDED,
    TIMED,
    LauncherCase,
    append,
    lines_of,
    minutes_in,
)


def forecast(copy, record, ended, queue, now=0, workers=1):
    """Returns what is forecast of a build: `ended` are the times at which parts ended, and how they
    came.
    """
    files = [copy.folder / name for name in ("record", "ended", "queue")]
    for file, text in zip(files, [lines_of(record), lines_of(ended), queue]):
        file.write_text(text)
    words = ["awk", "-v", f"now={now}", "-v", f"workers={workers}", "-f", FORECAST, *files]
    ran = subprocess.run(words, capture_output=True, text=True, check=True)
    assert ran.stderr == "", ran.stderr
    return ran.stdout.strip()


def times_as_long(copy):
    """Returns how many times as long as is recorded a build of `TIMED` took to read and to prove
    its first crate, which a busy machine adds to.
    """
    ends = (copy.out / "office.ends").read_text()
    took = int(re.search(r"^tally_frac (\d+) new$", ends, re.M)[1])
    return took / (RECORDED["reading"] + RECORDED["tally_frac"])


class TimeLeft(LauncherCase):
    def test_a_build_says_what_it_needs_and_how_many_crates_are_left(self):
        copy = self.copy
        lines = copy.run("show")[2].splitlines()
        assert all(
            need in lines[1] for need in ("8 GB of disk", "(6 for the last)", "some 40 minutes")
        ), lines
        self.assertEqual(
            lines[2:],
            [
                f"office: tally_frac is proved, 28 functions: {CRATES - 1} of {CRATES} crates left",
                f"office: 1 of {CRATES} crates were proved before and are taken over",
                (
                    f"office: tally_office is proved, 28 functions: {CRATES - 3} of {CRATES} crates"
                    " left"
                ),
                "office: the program is built",
                "an error",
            ],
        )

    def test_a_forecast_goes_along_the_crates(self):
        copy = self.copy
        record = {"reading": 180, "low": 600, "beside": 1200, "high": 600, "building": 120}
        queue = (
            "reading new\nlow new reading\nbeside new reading\nhigh new reading low\nbuilding new"
            " high beside\n"
        )
        again = queue.replace("low new", "low again").replace("high new", "high again")
        read = {"reading": "180 new"}

        def says(wanted, record=record, ended={}, queue=queue, **how):
            said = forecast(copy, record, ended, queue, **how)
            self.assertEqual(said, wanted)

        says("about 45 min")
        says("about 25 min", workers=2)
        says("about 25 min", workers=9)
        says("about 17 min", ended=read, now=480, workers=2)
        says("about 9 min", ended={**read, "low": "780 new"}, now=960, workers=2)
        says(
            "about 1 min",
            ended={**read, "low": "780 new", "beside": "1380 new", "high": "1380 new"},
            now=1490,
            workers=2,
        )
        # A machine that is twice as slow, and one of which that is not known yet since it still
        # reads.
        says("about 44 min", ended={"reading": "360 new"}, now=360, workers=2)
        says("about 47 min", now=300, workers=2)
        # Where a machine takes half the time until `low` is proved, the rest does too.
        half = {"reading": "90 new", "low": "390 new"}
        says("about 6 min", ended=half, now=390, workers=2, record={**record, "beside": 600})
        # A part that takes longer than it should is not said to have ended.
        late = {**read, "low": "780 new", "beside": "1380 new"}
        says("about 11 min", ended=late, now=2580, workers=2)
        # A crate that the record lacks takes the mean.
        says("about 25 min", record={it: record[it] for it in record if it != "high"}, workers=2)
        says("about 39 min", record={"reading": 180, "low": 600, "building": 960}, workers=2)
        says("", record={})
        # A crate that is kept takes no time, whether that was known or not.
        says("about 22 min", queue=queue.replace("reading new", "reading kept"), workers=2)
        says(
            "about 15 min",
            queue=queue.replace("beside new", "beside kept").replace("low new", "low kept"),
        )
        says("about 12 min", ended={**read, "low": "180 kept", "beside": "180 kept"}, now=180)
        # A crate proved again has a ratio of its own, which is unknown before one has ended.
        says("at most 45 min", queue=again)
        says("about 23 min", ended={**read, "low": "240 again"}, queue=again, now=240)

    def test_a_build_says_how_many_minutes_are_left(self):
        copy = self.copy
        copy.record(RECORDED)
        copy.plan(TIMED.format(3))
        lines = copy.run("show")[2].splitlines()
        said = minutes_in(lines[1])
        assert lines[1].endswith(
            f"on a machine as fast as the one where that was measured, about {said} min"
        ), lines
        assert 32 <= said <= 40, lines
        now = minutes_in(lines[2])
        wanted = (
            f"office: tally_frac is proved, 28 functions: {CRATES - 1} of {CRATES} crates and about"
            f" {now} min left"
        )
        assert lines[2] == wanted and 0.7 <= now / said / times_as_long(copy) <= 1.3, lines

    def test_a_machine_that_is_slower_than_the_record_takes_longer(self):
        copy = self.copy
        copy.record(RECORDED)
        copy.plan(TIMED.format(6))
        lines = copy.run("show")[2].splitlines()
        assert (
            times_as_long(copy) >= 1.5
            and 0.7 <= minutes_in(lines[2]) / minutes_in(lines[1]) / times_as_long(copy) <= 1.3
        ), lines

    def test_minutes_left_shrink_as_a_build_goes_on(self):
        copy = self.copy
        copy.record(
            {**RECORDED, "tally_setup": 1800, "tally_report": 1200, "tally_desk_message": 1}
        )
        crates = "".join(
            f"echo '== {name}'\n"
            for name in NAMES
            if name not in ("tally_frac", "tally_office", "tally_desk_message")
        )
        message = "echo '== tally_desk_message'\necho 'logic=proved functions=7 sum=0'\n"
        copy.plan(TIMED.format(3).replace("printf", crates + message + "printf"))
        lines = copy.run("show")[2].splitlines()
        assert minutes_in(lines[1]) >= 80 and minutes_in(lines[2]) >= 56, lines
        self.assertEqual(
            lines[3],
            f"office: {CRATES - 3} of {CRATES} crates were proved before and are taken over",
        )
        assert f"1 of {CRATES} crates" in lines[4] and 15 <= minutes_in(
            lines[4]
        ) <= 45 * times_as_long(copy), lines

    def test_what_an_earlier_build_left_is_taken_over(self):
        copy = self.copy
        copy.record(RECORDED)
        kept = ["tally_frac", "tally_setup", "tally_desk_message", "tally_store_schema"]
        for crate in kept:
            copy.keep(crate)
        taken = f"of {CRATES} crates were proved before and are taken over"
        copy.plan(
            "".join(f"echo '== {crate}'\n" for crate in [*kept, "tally_import_records"])
            + "sleep 2; exit 1"
        )
        lines = copy.run("show")[2].splitlines()
        assert (
            lines[1] == f"office: 4 {taken}"
            and "about 3" in lines[2]
            and lines[3] == f"office: 5 {taken}"
        ), lines
        # The crates above one that changed are proved again, over what is left of it.
        append(copy.root / "crates/tally_frac/src/share.rt")
        copy.plan("exit 1")
        lines = copy.run("show")[2].splitlines()
        assert lines[1] == f"office: 2 {taken}" and "at most 3" in lines[2], lines
        append(copy.root / "crates.txt", "# a comment\n")
        self.assertNotIn("taken over", copy.run("show")[2])
        # Above a crate that is not proved nothing is taken over.
        copy.plan(
            'for crate in frac setup law; do echo "== tally_$crate"; [ $crate != frac ] || echo'
            " logic=not-proved; done; exit 1"
        )
        self.assertNotIn("taken over", copy.run("show")[2])
        # All but the program is kept, so no sources are read.
        for crate in NAMES:
            shutil.rmtree(copy.root / "crates" / crate / "out", ignore_errors=True)
            if crate != "tally_office":
                copy.keep(crate)
        copy.plan(PROVED)
        lines = copy.run("show")[2].splitlines()
        assert lines[1] == f"office: {CRATES - 1} {taken}" and minutes_in(lines[2]) == 30, lines

    def test_one_crate_that_is_taken_over_is_said_too(self):
        copy = self.copy
        copy.keep("tally_frac")
        copy.plan("exit 1")
        self.assertIn(f"office: 1 of {CRATES} crates were proved before and are taken over",
                      copy.run("show")[2].splitlines())

    def test_a_build_notes_when_its_parts_ended(self):
        copy = self.copy
        copy.plan(
            TIMED.format(3).replace(
                "printf",
                (
                    "echo '== tally_desk_message'; echo '== below'; echo logic=proved functions=0;"
                    " printf"
                ),
            )
        )
        begun = time.monotonic()
        copy.run("show")
        took = time.monotonic() - begun
        lines = [line.split() for line in (copy.out / "office.ends").read_text().splitlines()]
        self.assertEqual(
            [line[0] for line in lines],
            ["workers", "reading", "tally_frac", "tally_desk_message", "tally_office", "building"],
        )
        self.assertEqual([line[2] for line in lines[1:]], ["new", "new", "kept", "new", "new"])
        (copy.root / "bench").mkdir()
        shutil.copy(ROOT / "bench/building.py", copy.root / "bench")
        record = copy.root / "bench/crate_seconds.txt"
        record.write_text("# a comment\nreading 900\ntally_desk_message 40\ntally_gone 7\n")
        subprocess.run(
            [sys.executable, copy.root / "bench/building.py"], check=True, capture_output=True
        )
        written = dict(
            line.split() for line in record.read_text().splitlines() if not line.startswith("#")
        )
        self.assertEqual(
            [*written], ["reading", "tally_desk_message", "tally_frac", "tally_office", "building"]
        )
        assert (
            written["tally_desk_message"] == "40"
            and 3 <= int(written["reading"]) <= took + 1
            and int(written["tally_frac"]) <= max(took - 3, 3)
        ), written
