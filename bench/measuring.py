"""The tools with which the benchmarks measure."""

import os
import re
import shutil
import statistics
import subprocess
import sys
import tempfile
import time
from dataclasses import dataclass


class Numbers:
    """Numbers that look random and are the same on every run."""

    def __init__(self, seed):
        self.state = seed

    def below(self, limit):
        self.state = (self.state * 6364136223846793005 + 1442695040888963407) % 2**64
        return (self.state >> 33) % limit


def run(command, path, status=0):
    """Runs a command on a file, which has to end with this status: its processor time in
    milliseconds, and what it wrote."""
    with open(path, "rb") as text, tempfile.TemporaryFile() as output:
        errors = None if status == 0 else subprocess.DEVNULL
        child = subprocess.Popen(command, stdin=text, stdout=output, stderr=errors)
        _, ended, usage = os.wait4(child.pid, 0)
        child.returncode = os.waitstatus_to_exitcode(ended)
        if child.returncode != status:
            sys.exit(f"{command[0]} answered the exit status {child.returncode}")
        output.seek(0)
        return (usage.ru_utime + usage.ru_stime) * 1000, output.read()


@dataclass
class Ran:
    """The cost of a run of a command: milliseconds of the processor and of the clock, its peak memory in
    MiB, or None where GNU time is not there, and what it wrote."""

    spent: float
    clock: float
    peak: float
    output: bytes


def run_timed(command, status=0):
    """Runs a command, which has to end with this status.

    GNU time starts it where it is there, since a process that this script starts counts the script's own
    memory at first. What GNU time takes itself, some tenths of a millisecond, is counted with it.
    """
    timer = shutil.which("time")
    with tempfile.NamedTemporaryFile() as peak_file:
        timed = [timer, "-f", "%M", "-o", peak_file.name] if timer else []
        began = time.monotonic()
        spent, output = run([*timed, *map(str, command)], os.devnull, status)
        clock = (time.monotonic() - began) * 1000
        peak = int(peak_file.read().split()[-1]) / 1024 if timer else None
    return Ran(spent, clock, peak, output)


@dataclass
class Medians:
    """Of several runs of a command the median and the least milliseconds of the processor, the median of
    the clock's, and the peak memory in MiB."""

    spent: float
    least: float
    clock: float
    peak: float


def in_turn(rounds, commands, before=lambda: None, refused=()):
    """The cost of each command, by its name. In each round the commands run one after the other, each after
    `before`. Those that are refused end with status 1."""
    runs = {name: [] for name in commands}
    for _ in range(rounds):
        for name, command in commands.items():
            before()
            runs[name].append(run_timed(command, int(name in refused)))
    return {name: medians_of(found) for name, found in runs.items()}


def medians_of(runs):
    spent = [ran.spent for ran in runs]
    peaks = [ran.peak for ran in runs if ran.peak is not None]
    clock = statistics.median(ran.clock for ran in runs)
    return Medians(statistics.median(spent), min(spent), clock, max(peaks, default=None))


def counted(command, folder):
    """The instructions of a command, and where they are spent: a line for each function."""
    profile = folder / "profile"
    counting = ["valgrind", "--tool=callgrind", f"--callgrind-out-file={profile}", *map(str, command)]
    subprocess.run(counting, capture_output=True)
    annotate = ["callgrind_annotate", "--inclusive=yes", "--threshold=100", profile]
    lines = subprocess.run(annotate, capture_output=True, text=True, check=True).stdout
    return number_before(lines, r"\(100\.0%\)  PROGRAM TOTALS"), lines


def within(profile, function):
    """The instructions of a function with all that it calls."""
    return number_before(profile, rf".*:tally_\w+::{function}\b")


def number_before(lines, what):
    found = re.search(rf"^ *([\d,]+) +{what}", lines, re.MULTILINE)
    if found is None:
        sys.exit(f"the profile has no {what}")
    return int(found[1].replace(",", ""))


def took_text(name, took):
    """The cost of a command, as the first columns of a line."""
    return f"  {name:22} {took.spent:7.0f} {took.least:7.0f} {took.clock:14.0f} {number_text(took.peak):>6}"


def number_text(number, places=1):
    """A number as text, or `-` where there is none."""
    return "-" if number is None else f"{number:,.{places}f}"
