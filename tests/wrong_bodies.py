#!/usr/bin/env python3
"""Tries the wrong bodies in `tests/wrong_bodies`, which `rt ci` does not try.

The prover has to refuse each.

    python3 tests/wrong_bodies.py [--jobs N] [--built FOLDER] [CRATE..]

Each is an edit of the source of a crate, in the form of those in `crates/*/must-fail`, in a folder
with the name of the crate; with names of crates, only theirs. A function is proved by the contracts
of those that it calls, whatever their bodies are. So one check of a crate tries many edits, of as
many functions: for each of them a goal has to be open within the function that the edit changed. An
edit for which none is, or that changes something else than functions, is tried alone: then any goal
will do. An edit that is refused only since a proof names what it took away says little of a
contract, and counts as failed.

The checks take the libraries that `rt ci` leaves. It runs first, in a copy of the sources without
any edit, unless --built names a folder of the same sources in which it passed. All takes an hour on
four processors, and some 2 GB for each job. The last line is `N passed, M failed`.
"""

import argparse
import os
import re
import shutil
import subprocess
import sys
import tempfile
from concurrent.futures import ThreadPoolExecutor
from dataclasses import dataclass
from pathlib import Path

ROOT = Path(__file__).resolve().parent.parent
EDITS = ROOT / "tests/wrong_bodies"
KIT = Path(shutil.which("rt") or "/opt/rattle/bin/rt").resolve().parent.parent
# What a check reads of a crate.
PARTS = ("src", "specs", "proofs")
FUNCTION = re.compile(r"( *)(pub(\([a-z]+\))? )?(const |unsafe )*fn \w+")
# An open goal, and a proof that does not fit, each with its place.
GOAL = re.compile(r"note: (src/\S+):(\d+):\d+: it is not proved")
UNFIT = re.compile(r"(?:note: )?(?:\./)?proofs/(\S+)/Answers\.antt:\d+:\d+: (?:error|`)")
# What is said where a proof names what an edit took away.
NAMES = re.compile(r"has no field|is not in scope|has no `|was not admitted|is not admitted")


@dataclass(frozen=True)
class Edit:
    """An edit: its file, the texts that it exchanges, and the functions that it changes, each by
    its name and the number of its first line; None where it changes something else."""

    crate: str
    name: str
    file: str
    pairs: tuple
    functions: frozenset | None

    def __str__(self):
        return f"{self.crate}/{self.name}"


def functions_in(text):
    """The functions of a source: the name, the first line and the last one of each. A function ends
    at the brace below its first letter."""
    lines = text.splitlines()
    for first, line in enumerate(lines, 1):
        if found := FUNCTION.match(line):
            end = found[1] + "}"
            last = next((n for n, it in enumerate(lines[first:], first + 1) if it == end), first)
            yield line.partition("fn ")[2].split("(")[0].split("<")[0], first, last


def function_at(functions, line):
    """The innermost function around a line; None where there is none."""
    around = [(first, name) for name, first, last in functions if first <= line <= last]
    return max(around)[::-1] if around else None


def read_edit(crate, path):
    file, pairs, olds = None, [], []
    for line in path.read_text(encoding="utf-8").splitlines():
        word, _, said = line.partition(": ")
        if word == "file":
            file = said.strip()
        elif word == "old":
            olds.append(said)
        elif word == "new":
            pairs.append((olds.pop(), said))
    text = (ROOT / "crates" / crate / file).read_text(encoding="utf-8")
    functions = list(functions_in(text))
    changed = set()
    for old, new in pairs:
        if text.count(old) != 1:
            raise ValueError(f"{crate}/{path.name}: its text is in {file} {text.count(old)} times")
        changed.add(function_at(functions, text[: text.index(old)].count("\n") + 1))
        text = text.replace(old, new)
    is_in_functions = file.startswith("src/") and None not in changed
    return Edit(
        crate, path.name, file, tuple(pairs), frozenset(changed) if is_in_functions else None
    )


def batches(edits):
    """The edits in groups, in each of which no function is changed twice."""
    groups = []
    for edit in edits:
        if edit.functions is None:
            groups.append(([edit], None))
            continue
        places = {(edit.file, function) for function in edit.functions}
        for group, taken in groups:
            if taken is not None and not taken & places:
                group.append(edit)
                taken |= places
                break
        else:
            groups.append(([edit], set(places)))
    return [group for group, _ in groups]


def libraries():
    """The libraries that each crate of the repository names."""
    lines = (ROOT / "crates.txt").read_text(encoding="utf-8").splitlines()
    rows = (line.partition("#")[0].partition(":") for line in lines)
    return {name.strip(): of.split() for name, colon, of in rows if colon}


def below(crate, known):
    """The crates of the repository below a crate."""
    found = [it for it in known[crate] if it in known]
    for it in found:
        found += [other for other in below(it, known) if other not in found]
    return found


def check(crate, edits, kept, built, known):
    """Checks a crate with these edits, over what an earlier check left in `kept`: what it says."""
    with tempfile.TemporaryDirectory(prefix="wrong-body-") as room:
        for part in PARTS:
            if (ROOT / "crates" / crate / part).is_dir():
                shutil.copytree(ROOT / "crates" / crate / part, f"{room}/{part}")
        for edit in edits:
            path = Path(room, edit.file)
            text = path.read_text(encoding="utf-8")
            for old, new in edit.pairs:
                text = text.replace(old, new)
            path.write_text(text, encoding="utf-8")
        root = next(it for it in ("src/lib.rt", "src/main.rt") if Path(room, it).exists())
        words = [KIT / "bin/rattle", "check", "--crate-name", crate, root]
        for it in ["std", *known[crate]]:
            rlib = f"crates/{it}/out/rlib" if it in known else KIT / "rlibs"
            words += ["--extern", f"{it}={built / rlib}/{it}.rlib"]
        words += ["-L", f"dependency={KIT}/rlibs"]
        for it in below(crate, known):
            words += ["-L", f"dependency={built}/crates/{it}/out/rlib"]
        words += ["--antt-project", KIT / "rattle/logic/antt-project.json"]
        words += ["--logic-built", KIT / "logic_built", "--links", f"{crate}=", "--jobs", "1"]
        words += ["--incremental", kept]
        ran = subprocess.run(words, cwd=room, stdout=subprocess.PIPE, stderr=subprocess.STDOUT)
        # (why a name is not there is in a line of its own)
        text = ran.stdout.decode(errors="replace").replace("\n  has no ", " has no ")
        return text.rstrip().splitlines()


def is_refused(edit, said):
    """Whether a check refuses an edit that it tried beside others: in words, where it says so."""
    text = (ROOT / "crates" / edit.crate / edit.file).read_text(encoding="utf-8")
    functions = list(functions_in(text))
    names = {name for name, _ in edit.functions}
    goals, unfit = [], []
    for line in said:
        if found := GOAL.match(line):
            is_there = found[1] == edit.file
            if is_there and function_at(functions, int(found[2])) in edit.functions:
                goals.append(line)
        elif (found := UNFIT.match(line)) and not NAMES.search(line):
            *of, name = found[1].split("/")
            if Path(edit.file).stem in of and name in names:
                unfit.append(line)
    return next(iter(goals + unfit), None)


def is_refused_alone(said):
    """Whether a check refuses the only edit that it tried: in words, where it says so."""
    told = [it for it in said if GOAL.match(it) or re.match(r"(\./)?proofs/\S+: error", it)]
    return next((it for it in told if not NAMES.search(it)), None)


def try_crate(crate, edits, built, known):
    """Tries the edits of a crate, and gives those that were refused, each with what was said."""
    refused = {}
    with tempfile.TemporaryDirectory(prefix="wrong-bodies-") as kept:
        alone = []
        for group in batches(edits):
            said = check(crate, group, kept, built, known)
            is_verdict = said[-1].startswith("logic=not-proved")
            for edit in group:
                one = edit.functions is not None and is_verdict and is_refused(edit, said)
                if one or is_verdict and len(group) == 1 and (one := is_refused_alone(said)):
                    refused[edit] = one
                elif len(group) > 1:
                    alone.append(edit)
        for edit in alone:
            said = check(crate, [edit], kept, built, known)
            if said[-1].startswith("logic=not-proved") and (one := is_refused_alone(said)):
                refused[edit] = one
    for edit in edits:
        print(f"{edit}: {'refused: ' + refused[edit][:140] if edit in refused else 'NOT REFUSED'}",
              flush=True)
    return refused


def build(room):
    """Lets `rt ci` prove a copy of the sources without edits."""
    for name in ("crates.txt", "HANDLES"):
        shutil.copy(ROOT / name, room)
    leave = shutil.ignore_patterns("out", "must-fail")
    shutil.copytree(ROOT / "crates", room / "crates", ignore=leave)
    subprocess.run(["git", "init", "--quiet"], cwd=room, check=True)
    subprocess.run(["rt", "ci"], cwd=room, check=True)


def main():
    words = argparse.ArgumentParser(
        description=__doc__, formatter_class=argparse.RawDescriptionHelpFormatter
    )
    words.add_argument("--jobs", type=int, default=os.cpu_count(), help="checks at a time")
    words.add_argument("--built", type=Path, help="a folder of these sources where rt ci passed")
    words.add_argument("crate", nargs="*", help="only the wrong bodies of these crates")
    asked = words.parse_args()
    known = libraries()
    crates = asked.crate or sorted(it.name for it in EDITS.iterdir())
    edits = {it: [read_edit(it, file) for file in sorted((EDITS / it).glob("*.edit"))]
             for it in crates}
    if unknown := [it for it, found in edits.items() if not found]:
        print(f"wrong_bodies: no wrong body of {unknown[0]} is there\n0 passed, 1 failed")
        return 2
    refused = {}
    with tempfile.TemporaryDirectory(prefix="wrong-bodies-built-") as room:
        if not asked.built:
            build(Path(room))
        built = (asked.built or Path(room)).resolve()
        # (those that take the longest first)
        order = sorted(crates, key=lambda it: -len(below(it, known)) - len(edits[it]))
        with ThreadPoolExecutor(asked.jobs) as jobs:
            tried = [jobs.submit(try_crate, it, edits[it], built, known) for it in order]
            for one in tried:
                refused |= one.result()
    failed = [edit for it in crates for edit in edits[it] if edit not in refused]
    for edit in failed:
        print(f"not refused, or not tried: {edit}")
    print(f"{len(refused)} passed, {len(failed)} failed")
    return 1 if failed else 0


if __name__ == "__main__":
    sys.exit(main())
