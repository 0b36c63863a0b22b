#!/usr/bin/env python3
"""Builds the programs that the benchmarks measure; run by itself, records how long a build of the program took.

    python3 bench/building.py            after a first build by ./office: from the ends that it noted
    python3 bench/building.py ENDS       from a copy of that file, crates/tally_office/out/office.ends, or from that of the
                                         program for check, allot and recount, crates/tally_office_small/out/office.ends
    python3 bench/building.py --files    from the times of the files that checks left, where there is no such file

It writes bench/crate_seconds.txt, from which ./office says how long a build takes. Parts of which it finds no whole
measurement keep their seconds: of a crate that was taken over, or proved over what an earlier build left.
"""

import argparse
import hashlib
import json
import os
import shutil
import subprocess
import sys
import tempfile
from contextlib import contextmanager
from pathlib import Path

HERE = Path(__file__).resolve().parent
ROOT = HERE.parent
TOP = "tally_office"
# The program for `check`, `allot` and `recount`.
SMALL = "tally_office_small"
PROGRAM = ROOT / "crates" / TOP / "out" / TOP
RECORD = HERE / "crate_seconds.txt"
ENDS = PROGRAM.with_name("office.ends")

BUILD = """load("@rattle//bazel/rattle:crate.bzl", "rattle_crate")

rattle_crate(
    name = "{name}",
    deps = {libraries},
)
"""


def need(command):
    """Stops where a command is not there."""
    if shutil.which(command) is None:
        sys.exit(f"the command {command!r} is not on the PATH")


def build_office(folder, name, libraries):
    """Proves and builds the Rattle program `name`.rattle, and copies it to `folder`: its path.

    It is built in a folder within the repository, so that it finds the crates below it with what
    earlier proofs of them left. That folder is then removed, since the gate refuses a Rattle source
    or a build file that is not of its crates; for the same reason the source does not end in `.rt`.
    """
    need("rt")
    print(f"proving and building {name}: some minutes where its crates are not proved yet", file=sys.stderr)
    with tempfile.TemporaryDirectory(dir=HERE, prefix="building-") as crate:
        crate = Path(crate)
        (crate / "src").mkdir()
        shutil.copy(HERE / f"{name}.rattle", crate / "src" / "main.rt")
        (crate / "BUILD.bazel").write_text(BUILD.format(name=name, libraries=json.dumps(libraries)))
        # It also runs the program, which ends with an error here, having no arguments.
        ran = subprocess.run(
            ["rt", "run"],
            cwd=crate,
            stdin=subprocess.DEVNULL,
            capture_output=True,
            text=True,
        )
        built = crate / "out" / name
        if not built.is_file():
            sys.exit(f"{name} is not built:\n{ran.stdout[-3000:]}{ran.stderr[-3000:]}")
        return shutil.copy(built, folder / name)


class Kept:
    """A program beside the office that is kept in `bench/out` with a checksum of what it is made of, so that it is built again only
    where that changed. Libraries are named as `build_office` names them."""

    def __init__(self, name, libraries):
        self.name, self.libraries = name, libraries
        self.path = HERE / "out" / name
        self.sum = self.path.with_suffix(".sum")

    def crates(self):
        """The crates of the repository that it is made of."""
        return sorted(crates_in_turn([library.rpartition("/")[2] for library in self.libraries]))

    def sum_of_sources(self):
        """A checksum of its source, of those of the crates below it, and of the toolchain, by its name."""
        found = hashlib.sha256(subprocess.run(["rt", "version"], capture_output=True, check=True).stdout)
        files = [HERE / f"{self.name}.rattle"]
        for crate in self.crates():
            parts = [ROOT / "crates" / crate / part for part in ("src", "specs", "proofs")]
            files += [it for part in parts for it in sorted(part.rglob("*")) if it.is_file()]
        for file in files:
            found.update(f"{file.relative_to(ROOT)}\n".encode() + hashlib.sha256(file.read_bytes()).digest())
        return found.hexdigest()

    def is_kept(self):
        """Whether a program of these sources is kept."""
        if not (shutil.which("rt") and self.sum.is_file() and self.path.is_file()):
            return False
        return self.sum.read_text() == self.sum_of_sources()

    def built(self):
        """The program, which is built where none of these sources is kept."""
        if not self.is_kept():
            sources = self.sum_of_sources()
            self.path.parent.mkdir(exist_ok=True)
            build_office(self.path.parent, self.name, self.libraries)
            self.sum.write_text(sources)
        return self.path


@contextmanager
def keeper_program(name, description, runs, sizes):
    """The Rattle program `name`.rattle over a keeper in memory, its folder, and how many runs and
    rounds the command line asks for; says on what machine and with which sizes it runs.
    """
    parser = argparse.ArgumentParser(description=description)
    parser.add_argument("--runs", type=int, default=runs, help="how often the program runs on a text")
    parser.add_argument("--rounds", type=int, default=10, help="the rounds of a run")
    args = parser.parse_args()
    libraries = [f"//crates/{crate}" for crate in ("tally_core", "tally_import", "tally_rules")]
    with tempfile.TemporaryDirectory() as folder:
        folder = Path(folder)
        program = str(build_office(folder, name, libraries))
        load = os.getloadavg()[0]
        print(f"{os.cpu_count()} processors, {processor()}, load {load:.1f}, {args.runs} runs")
        print(f"of {args.rounds} rounds; {sizes}\n")
        yield program, folder, args.runs, args.rounds


def build_plain(folder, name):
    """Builds the plain Rust program of this folder: the program's path."""
    need("rustc")
    program = folder / name
    source = HERE / f"{name}.rs"
    subprocess.run(["rustc", "--edition", "2024", "-O", "-o", program, source], check=True)
    return program


def processor():
    """The name of the processor, where the system says it."""
    try:
        lines = Path("/proc/cpuinfo").read_text().splitlines()
    except OSError:
        return "an unknown processor"
    names = [line.partition(":")[2].strip() for line in lines if line.startswith("model name")]
    return (names or ["an unknown processor"])[0]


def crates_in_turn(tops=(TOP,)):
    """These crates and those below them, with those of the repository that each uses, in the order in which `rt` takes them: by
    how many are below.
    """
    lines = [line.partition("#")[0].partition(":") for line in (ROOT / "crates.txt").read_text().splitlines()]
    all_uses = {name.split()[0]: used.split() for name, _, used in lines if name.strip()}
    uses, below = {}, {}

    def add(crate):
        used = [it for it in all_uses[crate] if it in all_uses]
        for it in used:
            if it not in uses:
                add(it)
        uses[crate] = used
        below[crate] = {*used}.union(*(below[it] for it in used))

    for top in tops:
        if top in all_uses and top not in uses:
            add(top)
    return {crate: uses[crate] for crate in sorted(uses, key=lambda it: len(below[it]))}


def seconds_of_ends(ends):
    """The seconds of each part, by the times at which the parts ended: a worker begins a crate once those that it uses ended."""
    lines = [line.split() for line in ends.read_text().splitlines()]
    workers = next(int(line[1]) for line in lines if line[0] == "workers")
    ended = {part: int(at) for part, at, *_ in lines}
    how = {part: came for part, _, *came in lines}
    if "reading" not in ended:
        sys.exit(f"no crate of that build ended, by {ends}")
    top, building = (SMALL, "building_small") if "building_small" in ended or SMALL in ended else (TOP, "building")
    took = {"reading": ended["reading"]} if how["reading"] == ["new"] else {}
    free = [ended["reading"]] * workers
    for crate, used in crates_in_turn((top,)).items():
        if crate not in ended:
            continue
        first = free.index(min(free))
        begun = max([free[first], *(ended.get(it, 0) for it in used)])
        free[first] = ended[crate]
        if how[crate] == ["new"]:
            took[crate] = ended[crate] - begun
    if building in ended and top in ended:
        took[building] = ended[building] - ended[top]
    return took


def seconds_of_files():
    """The seconds of each crate, by the times of the files that its check left: the folder of the library is made again when the
    check begins, and its stamp is written last. In a copy, whose folders are newer, and for the program itself the first
    module stands for the folder. A crate that was proved in several goes is left out.
    """
    took = {}
    for crate in crates_in_turn():
        out = ROOT / "crates" / crate / "out"
        modules = [it.stat().st_mtime for it in (out / "incremental").rglob("*") if it.is_file()]
        stamp = out / "rlib" / "stamp"
        if not modules or (crate != TOP and not stamp.is_file()):
            continue
        begun, ended = min(modules), max(modules)
        if crate != TOP:
            ended = stamp.stat().st_mtime
            made = float(subprocess.check_output(["stat", "-c", "%.W", stamp.parent]))
            if begun < made < ended:
                continue
            if made:
                begun = min(begun, made)
        took[crate] = round(ended - begun)
    return took


def longest_chain(seconds):
    """The chain of crates that takes longest, and its seconds."""
    chains = {}
    for crate, used in crates_in_turn().items():
        longest, names = max((chains[it] for it in used), default=(0, []))
        chains[crate] = longest + seconds.get(crate, 0), [*names, crate]
    return chains[TOP]


def write_record(took):
    """Writes what parts took into the record, and prints what changes."""
    lines = RECORD.read_text().splitlines() if RECORD.is_file() else []
    head = [line for line in lines if line.startswith("#")]
    old = {part: int(number) for part, number in (line.split() for line in lines if line and line not in head)}
    parts = ["reading", *sorted(crates_in_turn((TOP, SMALL))), "building", "building_small"]
    seconds = {**{part: old[part] for part in parts if part in old}, **took}
    for part in parts:
        if part not in took:
            print(f"{part}: {f'still {old[part]} s' if part in old else 'no seconds'}, not measured")
        elif took[part] != old.get(part):
            print(f"{part}: {took[part]} s" + (f", was {old[part]}" if part in old else ""))
    RECORD.write_text("\n".join([*head, *(f"{it} {seconds[it]}" for it in parts if it in seconds)]) + "\n")
    longest, chain = longest_chain(seconds)
    alone = seconds.get("reading", 0) + seconds.get("building", 0)
    print(f"all crates: {sum(seconds.get(it, 0) for it in crates_in_turn())} s")
    print(f"the longest chain: {longest} s, {longest + alone} s with reading and building")
    print(" ".join(f"{it.removeprefix('tally_')} {seconds.get(it, 0)}" for it in chain))


def main():
    parser = argparse.ArgumentParser(description="Records how long each part of a build of the program took.")
    parser.add_argument("ends", nargs="?", type=Path, default=ENDS, help="when the parts ended, as ./office notes it")
    parser.add_argument("--files", action="store_true", help="take the times of the files that checks left")
    args = parser.parse_args()
    if not args.files and not args.ends.is_file():
        sys.exit(f"there is no file {args.ends}: ./office writes it while it builds")
    write_record(seconds_of_files() if args.files else seconds_of_ends(args.ends))


if __name__ == "__main__":
    main()
