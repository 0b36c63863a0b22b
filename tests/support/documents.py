"""The documents of this repository: their links, and the names and labels that these have."""

import re
from functools import cache

from tests.support.case import ROOT, Case


DOCUMENTS = sorted(
    path
    for pattern in (
        "*.md",
        "docs/*.md",
        "examples/*.md",
        "bench/*.md",
        "deploy/**/*.md",
        "crates/*/README.md",
    )
    for path in ROOT.glob(pattern)
)


LAW = ROOT / "docs/LAW.md"


PROMISES = ROOT / "docs/PROMISES.md"


LINK = re.compile(r"\[([^\]]*)\]\(([^)\s]+)\)")


# Where a link or a picture leads, in each form that Markdown has for it.
TARGET = re.compile(
    r"""\]\(\s*<?([^)\s>]+)|^ {0,3}\[[^\]]+\]:\s*<?([^\s>]+)|\b(?:href|src)=["']([^"'\s]+)""", re.M
)


# A link with a name as its text, and the labels that follow it.
NAMED = re.compile(r"\[`([^`\]]+)`\]\(([^)\s]+)\)(: `[^`]+`(?:(?:, | and )`[^`]+`)*)?")


def text_of(path):
    return path.read_text(encoding="utf-8")


def shown(path):
    return str(path.relative_to(ROOT))


def without_blocks(text):
    """The text without what is between lines of back quotes or tildes."""
    return re.sub(r"^(?:```|~~~).*?^(?:```|~~~)", "", text, flags=re.M | re.S)


def targets(path):
    """Where the links of a document lead that lead into this repository."""
    text = re.sub(r"`[^`\n]*`", "`", without_blocks(text_of(path)))
    for found in TARGET.findall(text):
        target = "".join(found)
        if "://" not in target and not target.startswith("mailto:"):
            yield target


@cache
def functions(path):
    """The contracts of the functions of a file of code, by name: the text from each `fn` up to its
    body.
    """
    found = {}
    for name, contract in re.findall(
        r"\bfn (\w+)\b(.*?)(?:^\s*\{|;\s*$)", text_of(path), re.M | re.S
    ):
        found.setdefault(name, []).append(contract)
    return found


def named(path, lines=r".*"):
    """The links of a document with a name as their text, in its lines of one form: the name, the
    file and the labels.
    """
    text = "\n".join(re.findall(rf"^{lines}$", text_of(path), re.M))
    for name, target, labels in NAMED.findall(text):
        if "://" not in target and not target.startswith("#"):
            yield name, (path.parent / target.split("#")[0]).resolve(), re.findall(
                r"`([^`]+)`", labels or ""
            )


def found_in(*patterns):
    return sorted(path for pattern in patterns for path in ROOT.glob(pattern))


class DocumentCase(Case):
    """A test that looks at documents or sources, and lists what is wrong in them."""

    def finds_nothing(self, count, wrong):
        self.assertEqual(list(wrong), [])
        self.assertTrue(count, "nothing was looked at")
