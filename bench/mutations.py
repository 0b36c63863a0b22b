#!/usr/bin/env python3
"""Changes one word of code that is proved nowhere at a time, and prints what no test notices.

    bench/mutations.py --count 200 --seed 7
    bench/mutations.py --count 20 --file deploy/embargo --program PATH
    bench/mutations.py --count 500 --seed 8 --kept kept.json

The code is the launcher, the scripts of deploy/, the recount, and the script of the clerks' page.
A mutation turns a comparison, a sign, an `and` or a number. First the suites run once as they are,
while it is kept which lines each test executes (bench/executed_lines.py). Then for each mutation
those tests run that execute its statement, a few quick ones of each suite first, until one fails.
A line of Python that no test was seen to execute, the launcher, and the script of the page have
the suites that name their file. A test that fails without a mutation as well does not count. All
of this happens in copies of the tree, each a repository of its own. With --kept a later run of the
same tree need not begin with all suites. The last line is the score, and the exit status is 1 if a
mutation survived.

A line names the tests that failed. Where it is one that measures time, on a busy machine, it says
little: look at those.
"""

import argparse
import ast
import io
import json
import os
import random
import re
import shutil
import subprocess
import sys
import tempfile
import threading
import tokenize
from collections import Counter
from concurrent.futures import ThreadPoolExecutor
from contextlib import suppress
from dataclasses import dataclass, field
from functools import cache
from itertools import accumulate
from pathlib import Path

ROOT = Path(__file__).resolve().parent.parent
# The script of the clerks' page, and what builds the pages that have it.
SCRIPT, BUILD = "deploy/clerk/script.js", "deploy/build-clerk"
# The seconds of tests that are run for one mutation at most.
LONGEST = 300
TURNED = {
    "<": "<=", "<=": "<", ">": ">=", ">=": ">", "==": "!=", "!=": "==", "===": "!==", "!==": "===",
    "+": "-", "-": "+", "and": "or", "or": "and", "&&": "||", "||": "&&", "not": "", "!": "",
    "True": "False", "False": "True", "true": "false", "false": "true", "continue": "break",
    "break": "continue", "//": "/", "|=": "=", "+=": "=", "any": "all", "all": "any", "min": "max",
    "max": "min", "-eq": "-ne", "-ne": "-eq", "-gt": "-ge", "-ge": "-gt", "-lt": "-le", "-e": "-d",
    "-n": "-z", "-z": "-n", "</dev/null": "", "exec": "",
}
SHELL = re.compile(
    r"</dev/null|(?<=\s)(?:&&|\|\||!|-eq|-ne|-gt|-ge|-lt|-e|-n|-z|exec)(?=\s)|\b\d+\b")
# (`=>` is no comparison)
PAGE = re.compile(
    r"[!=]==|&&|\|\||(?<!=)[<>]=?(?=\s)|(?<=\s)[+-](?=\s)|\btrue\b|\bfalse\b|\b\d+\b")


@dataclass(frozen=True, order=True)
class Mutation:
    file: str
    line: int  # from 0
    column: int
    old: str
    new: str

    def apply(self, folder):
        """Makes the mutation in a copy of the tree."""
        path = folder / self.file
        lines = path.read_text(encoding="utf-8").splitlines(keepends=True)
        text, end = lines[self.line], self.column + len(self.old)
        lines[self.line] = text[:self.column] + self.new + text[end:]
        path.write_text("".join(lines), encoding="utf-8")
        if self.file == SCRIPT:
            subprocess.run([sys.executable, folder / BUILD], check=True)

    def __str__(self):
        text = (ROOT / self.file).read_text(encoding="utf-8").splitlines()[self.line].strip()
        return f"{self.file}:{self.line + 1}: {self.old} => {self.new or 'nothing'} in: {text[:90]}"


# ---- which files there are, and which tests name them


def first_line(path):
    with path.open(encoding="utf-8", errors="replace") as lines:
        return lines.readline()


@cache
def files():
    """The files of code that is proved nowhere, each with its language."""
    found = {"office": "shell", "examples/recount.py": "python", SCRIPT: "page"}
    for path in sorted((ROOT / "deploy").iterdir()):
        if path.is_file() and (path.suffix == ".py" or re.match("#!.*python", first_line(path))):
            found[f"deploy/{path.name}"] = "python"
        elif path.is_file() and re.match("#!.*sh$", first_line(path)):
            found[f"deploy/{path.name}"] = "shell"
    return found


def text_of(path):
    return path.read_text(encoding="utf-8") if path.is_file() else ""


def names_of(file):
    """A file and those of its folder that import it, directly or not."""
    found, left = set(), [Path(file)]
    while left:
        one = left.pop()
        if one not in found:
            found.add(one)
            imports = re.compile(rf"^\s*(?:from|import) {re.escape(one.stem)}\b", re.M)
            others = map(Path, files() if one.suffix == ".py" else ())
            left += [other for other in others if imports.search(text_of(ROOT / other))]
    return found


def imported(path):
    """The modules of tests/support that a test imports, directly or not, and itself."""
    found, left = set(), [path]
    while left:
        one = left.pop()
        if one not in found:
            found.add(one)
            text = text_of(one)
            names = re.findall(r"tests\.support\.(\w+)", text)
            for some in re.findall(r"from tests\.support import ([^\n(]+)", text):
                names += re.findall(r"\w+", some)
            left += [ROOT / f"tests/support/{name}.py" for name in names]
    return found


def tests_of(file):
    """The test modules that name a file, and after them those whose modules of tests/support do:
    each with its place in the order in which they are run."""
    names = {name for one in names_of(file) for name in {one.name, one.stem}}
    pattern = re.compile(rf"""["'/](?:{'|'.join(map(re.escape, sorted(names)))})["'\s?#]""")
    tests = {".".join(path.relative_to(ROOT).with_suffix("").parts): path
             for path in sorted((ROOT / "tests").rglob("test_*.py"))}
    if file == "office":
        return {module: likeness(module, file) for module in tests if ".launcher." in module}
    if file == SCRIPT:
        # Those that name the pages that are built of it, or have one in a browser.
        pattern = re.compile(r"clerk(?:_es)?\.html|support\.clerks")
    named = {module for module, path in tests.items() if pattern.search(text_of(path))}
    through = {module for module, path in tests.items()
               if any(pattern.search(text_of(one)) for one in imported(path))}
    likely = {module: likeness(module, file) for module in sorted(named | through)}
    return {module: how + 3 * (how > 0 and module not in named) for module, how in likely.items()}


def likeness(module, file):
    """How far the name of a test module is from a file's: 0 where it has it, 1 the first word. The
    functions of the clerks' page are tried by suites of the page."""
    if file == SCRIPT:
        return 0 if module.endswith("_of_the_page") else 1 if "clerk" in module else 2
    stem = Path(file).stem.replace("-", "_")
    first, words = stem.split("_")[0], re.split("[._]", module)
    return 0 if stem in module else 1 if first in words or first + "s" in words else 2


# ---- mutations


def of_python(text):
    """Words of Python code, by its own tokens: none is in a text or a comment."""
    for token in tokenize.generate_tokens(io.StringIO(text).readline):
        if token.type in (tokenize.OP, tokenize.NAME, tokenize.NUMBER):
            yield token.start[0] - 1, token.start[1], token.string


def of_lines(text, pattern):
    """Words of lines that are no comments."""
    for number, line in enumerate(text.splitlines()):
        if not re.match(r"\s*(#|//|\*|<)", line):
            yield from ((number, found.start(), found[0]) for found in pattern.finditer(line))


def mutations_of(file, language):
    text = text_of(ROOT / file)
    if language == "python":
        words = of_python(text)
    else:
        words = of_lines(text, PAGE if language == "page" else SHELL)
    for line, column, old in words:
        new = str(int(old) + 1) if old.isdecimal() else TURNED.get(old)
        if new is not None:
            yield Mutation(file, line, column, old, new)


# ---- the runs


def git(folder, *words):
    of_nobody = ("-c", "user.name=nobody", "-c", "user.email=nobody@example.org",
                 "-c", "commit.gpgsign=false")
    subprocess.run(["git", "-C", folder, *of_nobody, *words], check=True, stdout=subprocess.DEVNULL)


def copied(folder):
    """Copies what the repository has, and what is new in it, into a repository of its own."""
    listed = subprocess.run(["git", "ls-files", "-co", "--exclude-standard", "-z"], cwd=ROOT,
                            capture_output=True, check=True).stdout.decode()
    for name in filter(None, listed.split("\0")):
        if (ROOT / name).is_file():
            (folder / name).parent.mkdir(parents=True, exist_ok=True)
            shutil.copy2(ROOT / name, folder / name, follow_symlinks=False)
    git(folder, "init", "--quiet")
    git(folder, "add", "--all")
    git(folder, "commit", "--quiet", "--message", "The tree")


@dataclass
class Known:
    """The seconds of each test, and the tests that execute each line.

    The name of a suite among the tests stands for the whole suite.
    """

    tree: str
    seconds: dict = field(default_factory=dict)
    # Of each file, for the number of each line.
    executed: dict = field(default_factory=dict)

    def take(self, folder):
        """Takes the files that processes left in a folder."""
        for path in folder.iterdir():
            for line in path.read_text(encoding="utf-8", errors="replace").splitlines():
                match line.split("\t"):
                    case "test", test, seconds:
                        suite = test.rsplit(".", 2)[0]
                        self.seconds[test] = float(seconds)
                        self.seconds[suite] = self.seconds.get(suite, 0) + float(seconds)
                    case "line", test, file, number:
                        tests = self.executed.setdefault(file, {}).setdefault(number, [])
                        if test not in tests:
                            tests.append(test)

    def of_statement(self, mutation):
        """The tests that execute some line of the statement that a mutation is in. One that is in no
        function is executed before the tests, and may matter to each of the file and of those that
        import it."""
        tests, (first, last, is_within) = set(), statement(mutation.file, mutation.line + 1)
        for name in [mutation.file] if is_within else map(str, names_of(mutation.file)):
            lines = self.executed.get(name, {})
            for number in range(first, last + 1) if is_within else lines:
                tests |= set(lines.get(str(number), ()))
        return tests & self.seconds.keys()

    def in_turn(self, mutation):
        """The tests that run for a mutation, a few of each suite first. Those that take longest are
        left out, as soon as the others take LONGEST."""
        tests = sorted(self.of_statement(mutation), key=self.seconds.get)
        if not tests:
            suites = tests_of(mutation.file)
            return sorted(suites, key=lambda suite: (suites[suite], self.seconds.get(suite, 60)))
        times = accumulate(map(self.seconds.get, tests))
        quick = [test for test, time in zip(tests, times) if time <= LONGEST] or tests[:1]
        of_suite, first, rest = Counter(), [], []
        for test in quick:
            suite = ".".join(test.split(".")[:3])
            of_suite[suite] += 1
            (first if of_suite[suite] <= 3 else rest).append(test)
        return first + rest


def statement(file, line):
    """The first and the last line of the innermost statement at a line of Python, of one that has
    others in it those of its head; and whether it is in a function."""
    found, is_within = (line, line), False
    if files()[file] == "python":
        # (what is met later is further within)
        for node in ast.walk(syntax(file)):
            if isinstance(node, (ast.stmt, ast.ExceptHandler, ast.match_case)):
                body = getattr(node, "body", None)
                first = getattr(node, "lineno", None) or node.pattern.lineno
                last = max(first, body[0].lineno - 1) if body else node.end_lineno
                if first <= line <= last:
                    found = first, last
                if isinstance(node, ast.FunctionDef) and last < line <= node.end_lineno:
                    is_within = True
    return *found, is_within


@cache
def syntax(file):
    return ast.parse(text_of(ROOT / file))


def known_of_tests(names, kept):
    """Runs the suites of these files once, and gives what they executed; or what is kept of the
    same tree and files."""
    with tempfile.TemporaryDirectory() as folder, tempfile.TemporaryDirectory() as result:
        copied(Path(folder))
        tree = subprocess.run(["git", "-C", folder, "rev-parse", "HEAD^{tree}"], check=True,
                              capture_output=True, text=True).stdout + " ".join(names)
        if kept and kept.exists():
            known = Known(**json.loads(kept.read_text(encoding="utf-8")))
            if known.tree == tree:
                return known
        suites = sorted({suite for name in names for suite in tests_of(name)})
        with tempfile.TemporaryDirectory() as begins:
            shutil.copy2(ROOT / "bench/executed_lines.py", f"{begins}/sitecustomize.py")
            # Tests and tools of other users write there too, and read the module.
            for open_to_all in (begins, result):
                os.chmod(open_to_all, 0o777)
            subprocess.run(
                [sys.executable, "tests/run.py", *suites], cwd=folder, stdout=subprocess.DEVNULL,
                env={**os.environ, "PYTHONPATH": begins, "EXECUTED_IN": result,
                     "EXECUTED_OF": os.path.realpath(folder)})
        known = Known(tree)
        known.take(Path(result))
    if kept:
        kept.write_text(json.dumps(vars(known)), encoding="utf-8")
    return known


def failing(tests, folder, seconds):
    """Those of these tests that fail first, or a word if they end otherwise."""
    words = [sys.executable, "-B", "-m", "unittest", "--failfast", *tests]
    with tempfile.TemporaryFile() as said:
        process = subprocess.Popen(words, cwd=folder, stdin=subprocess.DEVNULL, stderr=said,
                                   stdout=subprocess.DEVNULL, start_new_session=True)
        try:
            status = process.wait(timeout=60 + 4 * seconds)
        except subprocess.TimeoutExpired:
            status = "too long"
        finally:
            # What a test that failed has left running.
            with suppress(ProcessLookupError):
                os.killpg(process.pid, 9)
            process.wait()
        said.seek(0)
        text = said.read().decode(errors="replace")
    # (a class that cannot begin stands for its tests)
    names = re.findall(r"^(?:FAIL|ERROR): \w+ \(([\w.]+)", text, re.M)
    return [] if status == 0 else names or [str(status)]


def noticed_by(mutation, folder, known):
    """The first tests that fail with a mutation and not without it, or none."""
    tests = known.in_turn(mutation)
    while tests:
        seconds = sum(known.seconds.get(test, 60) for test in tests)
        mutation.apply(folder)
        # (the package is made of what is committed)
        git(folder, "commit", "--quiet", "--all", "--message", "A mutation")
        names = failing(tests, folder, seconds)
        git(folder, "reset", "--quiet", "--hard", "HEAD~1")
        again = [test for test in tests if any(name.startswith(test) or test.startswith(name)
                                               for name in names)] or tests
        if not names or not failing(again, folder, seconds):
            return names
        # They fail without a mutation too: the others.
        tests = [test for test in tests if test not in again]
    return []


def score(chosen, known, workers):
    """Tries these mutations, and prints each: those that survive."""
    left, lock, survivors = list(reversed(chosen)), threading.Lock(), []

    def work():
        with tempfile.TemporaryDirectory() as folder:
            copied(Path(folder))
            while True:
                with lock:
                    if not left:
                        return
                    mutation = left.pop()
                by = noticed_by(mutation, Path(folder), known)
                with lock:
                    survivors.extend([] if by else [mutation])
                    print(f"noticed by {' '.join(by)}: {mutation}" if by else
                          f"SURVIVED: {mutation}", flush=True)

    with ThreadPoolExecutor(workers) as pool:
        for done in [pool.submit(work) for _ in range(workers)]:
            done.result()
    print("\nNo test noticed:" if survivors else "", *survivors, sep="\n")
    return len(survivors)


def main():
    command = argparse.ArgumentParser(
        description=__doc__, formatter_class=argparse.RawDescriptionHelpFormatter)
    command.add_argument("--count", type=int, default=200, help="of all, or of the file")
    command.add_argument("--seed", type=int, default=1)
    command.add_argument("--file", action="append", choices=sorted(files()), help="only this file")
    command.add_argument("--program", type=Path, help="the office; otherwise the one that is built")
    command.add_argument("--kept", type=Path, metavar="FILE",
                         help="what is known of the tests, for the same tree; made if need be")
    command.add_argument("--workers", type=int, default=os.cpu_count(), help="at a time")
    command.add_argument("--list", action="store_true", help="print the mutations, and run nothing")
    given = command.parse_args()
    if given.program:
        os.environ["OFFICE_PROGRAM"] = str(given.program.resolve())
    elif not os.environ.get("OFFICE_PROGRAM"):
        os.environ["OFFICE_PROGRAM"] = str(ROOT / "crates/tally_office/out/tally_office")
    names = sorted(set(given.file or files()))
    every = sorted(mutation for name in names for mutation in mutations_of(name, files()[name]))
    chosen = random.Random(given.seed).sample(every, min(given.count, len(every)))
    if given.list:
        print(*chosen, sep="\n")
        return 0
    survived = score(chosen, known_of_tests(names, given.kept), given.workers)
    print(f"{len(chosen)} of {len(every)} mutations: {len(chosen) - survived} noticed, "
          f"{survived} survived")
    return 1 if survived else 0


if __name__ == "__main__":
    sys.exit(main())
