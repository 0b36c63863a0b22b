#!/usr/bin/env python3
"""Measures the least stack on which a check runs: by `office check`, and by a program of `check_csv` alone.

    bench/stack.py [--program PATH] [--alone PATH] [--rounds N]

Each text is checked with a stack of 16 KiB (`ulimit -s`), then with 4 KiB more, and so on until no signal ends the program. The
system begins a stack at a random place, so this is done several times, and the least and the most are printed. Beside them is
`office --help`, which only reads its command line. The environment is empty.

`bench/check_alone.rattle`, the program of `check_csv` alone, is proved and built first, unless `--alone PATH` names it.
"""

import argparse
import resource
import subprocess
import sys
import tempfile
from pathlib import Path

# The modules imported from here are not to be left beside it in compiled form.
sys.dont_write_bytecode = True
from building import PROGRAM, build_office
from check import HOSTILE, WORKLOADS, text_of

EXAMPLE = Path(__file__).resolve().parent.parent / "examples" / "returns.csv"


def least(words, text):
    """The least stack in KiB, in steps of 4, with which no signal ends the program on this text."""
    for size in range(16, 512, 4):
        bytes_of = size * 1024
        ran = subprocess.run(
            words, input=text, capture_output=True, env={},
            preexec_fn=lambda: resource.setrlimit(resource.RLIMIT_STACK, (bytes_of, bytes_of)))
        if ran.returncode >= 0:
            return size
    sys.exit(f"{words} does not end with 508 KiB of stack")


def main():
    words = argparse.ArgumentParser(description=__doc__.splitlines()[0])
    words.add_argument("--program", type=Path, default=PROGRAM, help="the built program")
    words.add_argument("--alone", type=Path, help="check_alone, where it is built already")
    words.add_argument("--rounds", type=int, default=3, help="how often each least stack is looked for")
    given = words.parse_args()
    texts = {"examples/returns.csv": EXAMPLE.read_bytes(), "distinct": text_of(WORKLOADS["distinct"]()).encode()}
    texts |= {name: make() for name, make in HOSTILE.items()}
    with tempfile.TemporaryDirectory() as folder:
        alone = given.alone or build_office(Path(folder), "check_alone", ["//crates/tally_import"])
        runs = [(name, [[given.program, "check"], [alone]], text) for name, text in texts.items()]
        print(f"{'least stack, KiB':<28}{'office':>10}{'check_csv':>12}")
        for name, programs, text in [*runs, ("office --help", [[given.program, "--help"]], b"")]:
            found = [[least(program, text) for _ in range(given.rounds)] for program in programs]
            print(f"{name:<28}" + "".join(f"{f'{min(kib)}-{max(kib)}':>11}" for kib in found), flush=True)


if __name__ == "__main__":
    main()
