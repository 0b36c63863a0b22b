"""The words of documents and comments, and how long lines are."""

import ast
import re
import tokenize
from functools import cache

from tests.support.case import ROOT
from tests.support.documents import (
    DOCUMENTS,
    DocumentCase,
    found_in,
    shown,
    text_of,
    without_blocks,
)


# The scripts, programs and settings outside of the crates, by how they mark a comment.
PYTHON = (
    "tests/*.py",
    "tests/*/*.py",
    "bench/*.py",
    "deploy/*.py",
    "deploy/backup",
    "deploy/build-clerk",
    "deploy/desk",
    "deploy/embargo",
    "deploy/entries",
    "deploy/export",
    "deploy/make-deb",
    "deploy/office-site",
    "deploy/papers",
    "deploy/password",
    "deploy/replay",
    "deploy/setup-from-tables",
    "deploy/setup-json",
    "deploy/split",
    "deploy/status",
    "examples/*.py",
)


HASHED = (
    "office",
    "test",
    "deploy/*.conf",
    "deploy/nginx/*.conf",
    "deploy/*.service",
    "deploy/package/*",
    "deploy/*.timer",
    "bench/*.awk",
    "bench/crate_seconds.txt",
    "deploy/*.toml",
    "deploy/clerk/*.toml",
    "examples/setup.toml",
    "examples/site/*.toml",
    "examples/tables/*.toml",
    "examples/tables/*/*.toml",
)


SLASHED = ("bench/*.rattle", "bench/*.rs", "deploy/clerk/*.js", "deploy/templates/*.js")


MARKED = (
    "deploy/*.css",
    "deploy/clerk/*.css",
    "deploy/clerk/*.html",
    "deploy/templates/*.css",
    "deploy/templates/*.html",
    "deploy/www/*.html",
)


# The words that are not written, and those that are written for them. They are looked for in the
# documents, in the help texts, in comments and docstrings, and in the names of tests and of edits;
# not in other names, and not in examples.
WORDS = {
    r"\bwant of memory\b|\bmemory ran out\b": "out of memory",
    r"\bstands?\b(?! (?:out|for|alone|apart))": "is, exists, is recorded",
    r"\bstood\b": "was, was recorded",
    r"\btold\b(?! to )": "answered, reported, known",
    r"\bcounts count\b": "is added to the totals",
    r"\bwhich is this\b": "the present one",
    r"\bof which nothing is known\b": "of unknown content",
    r"\bfront of the text\b": "a prefix of the text",
    r"\bon the errors\b": "on standard error",
    r"\bkeeps nothing\b": "stores nothing",
    r"\bis no text of returns\b": "is not a file of returns",
    r"\b(?:does not|never) gives? up\b": "returns an answer",
    r"\blet go\b": "freed, dropped",
    r"\bown profile\b": "this project's own rule",
    r"\banew\b": "again",
    r"\bso many\b": "this many, or a number",
    r"\bnothing of it\b": "none of it",
    r"\bbehind\b(?! (?:(?:a|the) (?:reverse )?proxy|one address|nginx))": "after",
}


def prose(text):
    """The text without its blocks, names and links: what is left is words."""
    text = without_blocks(text)
    text = "\n".join("" if line.startswith("    ") else line for line in text.split("\n"))
    text = re.sub(r"`[^`\n]*`", "`", text)
    return re.sub(r"\]\([^)\s]*\)", "]", text)


def words_of_code(path):
    """The words of a file of code or of definitions, each with its line: its comments, and of a
    help all of it.
    """
    for number, line in enumerate(text_of(path).split("\n"), 1):
        comment = re.search(r"//[/!]?\s(.*)|--\s(.*)", line)
        if comment or path.name == "help.rt":
            text = comment[1] or comment[2] or "" if comment else line
            yield number, re.sub(r"`[^`]*`", "`", text)


@cache
def definitions_of(path):
    """A file of Python, its classes and its functions, as syntax trees."""
    return [
        node
        for node in ast.walk(ast.parse(text_of(path)))
        if isinstance(node, (ast.Module, ast.ClassDef, ast.FunctionDef))
    ]


@cache
def comments_in(path):
    """The comments of a file of Python, as tokens."""
    with path.open("rb") as file:
        return [it for it in tokenize.tokenize(file.readline) if it.type == tokenize.COMMENT]


def docstrings_of(path):
    """The docstrings of a file of Python, each with its line."""
    for node in definitions_of(path):
        if said := ast.get_docstring(node):
            yield node.body[0].lineno, said


def documentation_of(path):
    """The `///` lines of a file of code, each with its number."""
    for number, line in enumerate(text_of(path).split("\n"), 1):
        if found := re.match(r"\s*///\s*(.*)", line):
            yield number, found[1]


def words_of_python(path):
    """The words of a file of Python, each with its line: its comments, its docstrings and the
    names of its tests.
    """
    for token in comments_in(path):
        yield token.start[0], re.sub(r"`[^`]*`", "`", token.string)
    for number, said in docstrings_of(path):
        # (a name in back quotes may be broken over lines)
        yield number, re.sub(r"`[^`]*`", "`", said)
    for node in definitions_of(path):
        if isinstance(node, ast.FunctionDef) and node.name.startswith("test_"):
            yield node.lineno, node.name.replace("_", " ")


def comments_of_script(path):
    """The comments of a script or of settings that are lines of their own, each line with its
    number: those after a `#`, or those within the marks of a page, a template or a style sheet.
    """
    text = text_of(path)
    if path.suffix in (".css", ".html"):
        for found in re.finditer(r"<!--.*?-->|/\*.*?\*/|\{#.*?#\}", text, re.S):
            yield from enumerate(found[0].split("\n"), text.count("\n", 0, found.start()) + 1)
    else:
        yield from (
            (number, line)
            for number, line in enumerate(text.split("\n"), 1)
            if re.match(r"\s*#(?!!)", line)
        )


def comments_of_python(path):
    """The comments of a file of Python that are lines of their own."""
    for token in comments_in(path):
        if token.line.lstrip().startswith("#"):
            yield token.start[0], token.line.rstrip("\n")


def words_of_edit(path):
    """The words of an edit: its text, and its name."""
    yield from enumerate(text_of(path).split("\n"), 1)
    yield 0, path.stem.replace("-", " ")


def unwanted(path, lines):
    """The words of lines that are not to be written."""
    for number, line in lines:
        for pattern, better in WORDS.items():
            for found in re.findall(pattern, line, re.I):
                yield f"{shown(path)}:{number}: {found!r} (write: {better})"


class Words(DocumentCase):
    def test_the_words_of_the_documents(self):
        self.finds_nothing(
            len(DOCUMENTS),
            [
                wrong
                for path in DOCUMENTS
                for wrong in unwanted(path, enumerate(prose(text_of(path)).split("\n"), 1))
            ],
        )

    def test_the_words_of_comments_and_of_the_help(self):
        kinds = ("src/**/*.rt", "specs/**/*.antt", "specs.antt", "proofs/**/*.antt")
        paths = found_in(*(f"crates/*/{kind}" for kind in kinds), *SLASHED)
        self.finds_nothing(
            len(paths), [wrong for path in paths for wrong in unwanted(path, words_of_code(path))]
        )

    def test_the_words_of_the_description_of_the_routes(self):
        path = ROOT / "docs/openapi.json"
        lines = enumerate(text_of(path).split("\n"), 1)
        said = [
            (number, line)
            for number, line in lines
            if re.match(r'\s*"(?:summary|description|title)": ', line)
        ]
        self.finds_nothing(
            len(said), [*unwanted(path, said)] if said else ["nothing is said there"]
        )

    def test_the_words_of_scripts(self):
        paths, others = found_in(*PYTHON), found_in(*HASHED, *MARKED)
        wrong = [wrong for path in paths for wrong in unwanted(path, words_of_python(path))]
        for path in others:
            said = (
                (number, re.sub(r"`[^`]*`", "`", line)) for number, line in comments_of_script(path)
            )
            wrong += unwanted(path, said)
        self.finds_nothing(len(paths) + len(others), wrong)

    def test_a_comment_stands_alone(self):
        """No `///` line and no docstring begins with "What" or "The same"."""
        sources, scripts = found_in("crates/*/src/**/*.rt"), found_in(*PYTHON)
        said = [(path, documentation_of(path)) for path in sources]
        said += [(path, docstrings_of(path)) for path in scripts]
        wrong = [
            f"{shown(path)}:{number}: {text[:40]!r} (write: a subject)"
            for path, lines in said
            for number, text in lines
            if re.match(r"(?:What|The same)\b", text)
        ]
        self.finds_nothing(min(len(sources), len(scripts)), wrong)

    def test_the_words_of_edits(self):
        paths = found_in("tests/wrong_bodies/*/*.edit", "crates/*/must-fail/*.edit")
        self.finds_nothing(
            len(paths), [wrong for path in paths for wrong in unwanted(path, words_of_edit(path))]
        )

    def test_no_clause_definition_or_comment_is_above_100_columns(self):
        """In crates of tests and in proofs only comments are looked at.

        An attribute may be longer, and a text of SQL.
        """
        paths = found_in(
            "crates/*/src/**/*.rt", "crates/*/specs/**/*.antt", "crates/*/proofs/**/*.antt"
        )
        wrong = []
        for path in paths:
            whole = not re.search(r"/proofs/|/tally_test_[a-z]+/", path.as_posix())
            for number, line in enumerate(text_of(path).split("\n"), 1):
                longer = re.search(r'codes "(?:CREATE|SELECT|INSERT|UPDATE|DELETE) |^#\[', line)
                looked_at = re.match(r"\s*(?:--|//)", line) or whole and not longer
                if len(line) > 100 and looked_at:
                    wrong.append(f"{shown(path)}:{number}: {len(line)} columns")
        self.finds_nothing(len(paths), wrong)

    def test_no_comment_of_a_script_is_above_100_columns(self):
        """Of the scripts, programs and settings outside of the crates.

        A docstring may be longer, and a comment beside code.
        """
        comments = [(path, comments_of_python(path)) for path in found_in(*PYTHON)]
        comments += [(path, comments_of_script(path)) for path in found_in(*HASHED, *MARKED)]
        for path in found_in(*SLASHED):
            lines = enumerate(text_of(path).split("\n"), 1)
            comments.append(
                (path, [(number, line) for number, line in lines if re.match(r"\s*//", line)])
            )
        wrong = []
        for path, lines in comments:
            wrong += [
                f"{shown(path)}:{number}: {len(line)} columns"
                for number, line in lines
                if len(line) > 100
            ]
        self.finds_nothing(len(comments), wrong)

    def test_no_file_of_tests_is_above_700_lines_or_100_columns(self):
        wrong = []
        paths = found_in("tests/*.py", "tests/*/*.py")
        for path in paths:
            lines = text_of(path).splitlines()
            if len(lines) > 700:
                wrong.append(f"{shown(path)}: {len(lines)} lines")
            for number, line in enumerate(lines, 1):
                if len(line) > 100:
                    wrong.append(f"{shown(path)}:{number}: {len(line)} columns")
        self.finds_nothing(len(paths), wrong)
