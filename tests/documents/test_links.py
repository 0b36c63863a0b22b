"""Where the links of documents lead, and whether what they name is there.

A link with a name as its text, such as [`allot`](../crates/tally_allot/src/allotment.rt):
`allotment`, has to lead to a file that has this function, definition, test or edit. The labels that
follow have to be clauses of the function.
"""

import re
from functools import cache

from tests.support.case import ROOT
from tests.support.documents import (
    DOCUMENTS,
    LINK,
    DocumentCase,
    found_in,
    functions,
    named,
    shown,
    targets,
    text_of,
    without_blocks,
)


@cache
def anchors(path):
    """The anchors of the headings of a document, as a browser of repositories makes them."""
    found = {}
    for heading in re.findall(r"^#+ +(.*)$", without_blocks(text_of(path)), re.M):
        heading = LINK.sub(r"\1", heading)
        name = re.sub(r"[^\w\- ]", "", heading.lower()).replace(" ", "-")
        count = found.get(name, 0)
        found[name] = count + 1
        if count:
            found[f"{name}-{count}"] = 1
    return set(found)


def has_name(path, name):
    """Whether a file has what a link to it names."""
    if path.as_posix().endswith(f"/{name}"):
        return True
    last = re.escape(name.split("::")[-1])
    text = text_of(path) if path.is_file() else ""
    if path.suffix == ".antt":
        return (
            path.stem == name
            or re.search(
                rf"^\s*(?:(?:abbrev|unfoldable|pub|record|data|ghost)\s+)*{last}\s", text, re.M
            )
            is not None
        )
    if path.suffix == ".rt":
        if path.stem == name:
            return True
        first = re.escape(name.split("::")[0])
        of_type = (
            "::" not in name
            or re.search(rf"\b{first}\b|mod {first}\b", text + path.stem) is not None
        )
        words = (
            rf"\b(?:fn|struct|enum|trait|const|type|mod) {last}\b|\bghost {last}:|\bfor {last}\b|^ "
            rf"   {last}\b"
        )
        return of_type and re.search(words, text, re.M) is not None
    if path.suffix == ".py":
        return re.search(rf"^ *(?:def|class) {last}\b", text, re.M) is not None
    if path.suffix == ".edit":
        return path.stem == name
    return True


def has_label(path, name, label):
    """Whether a clause of a function has this label; of a type, whether one of the file has it."""
    contracts = functions(path).get(name.split("::")[-1], [text_of(path)])
    return any(
        re.search(rf"\b(?:ensures|requires|ghost) {re.escape(label)}\b", it) for it in contracts
    )


class Links(DocumentCase):
    def test_every_link_leads_to_a_file(self):
        wrong, count = [], 0
        for path in DOCUMENTS:
            for target in targets(path):
                if not target.startswith("#"):
                    count += 1
                    if not (path.parent / target.split("#")[0]).exists():
                        wrong.append(f"{shown(path)}: {target}")
        self.finds_nothing(count, wrong)

    def test_every_anchor_is_a_heading(self):
        wrong, count = [], 0
        for path in DOCUMENTS:
            for target in targets(path):
                file, _, anchor = target.partition("#")
                to = (path.parent / file).resolve() if file else path
                if anchor and to.suffix == ".md" and to.is_file():
                    count += 1
                    if anchor not in anchors(to):
                        wrong.append(f"{shown(path)}: {target}")
        self.finds_nothing(count, wrong)

    def test_what_a_link_names_is_in_its_file(self):
        wrong, count = [], 0
        for path in DOCUMENTS:
            for name, file, _ in named(path):
                count += 1
                if not has_name(file, name):
                    wrong.append(f"{shown(path)}: `{name}` in {file.name}")
        self.finds_nothing(count, wrong)

    def test_the_labels_after_a_link_are_clauses(self):
        wrong, count = [], 0
        for path in DOCUMENTS:
            for name, file, labels in named(path):
                for label in labels if file.suffix == ".rt" and file.is_file() else ():
                    count += 1
                    if not has_label(file, name, label):
                        wrong.append(f"{shown(path)}: {name}: {label}, in {file.name}")
        self.finds_nothing(count, wrong)

    def test_each_name_of_a_recipe_or_a_page_is_in_the_sources(self):
        """Names in backticks in CONTRIBUTING, in most documents of `docs` and in the pages of the
        crates, linked or not, and what the examples of the pages call.
        """
        sources = [
            path
            for folder in ("crates", "tests", "examples")
            for path in (ROOT / folder).rglob("*")
            if "out" not in path.parts
        ]
        sources = [path for path in sources if path.is_file() and path.suffix != ".md"]
        sources += [ROOT / name for name in ("docs/openapi.json", "office", "test")]
        words = {
            word
            for path in sources
            for word in re.findall(
                r"\w[\w-]*", path.stem + " " + path.read_text(encoding="utf-8", errors="ignore")
            )
        }
        of_the_kit = {
            "Host",
            "Origin",
            "Some",
            "Usage",
            "with_capacity",
            "is_ok",
            "is_none",
            "with_items",
            "Abort",
        }
        # (of its goals, its files and its plants, and of the system)
        of_the_kit |= {
            "Proof",
            "f-requires",
            "f-requires-clause-x",
            "f-requires-clause-sound",
            "returns-in-Some-Err",
            "not-source",
        }
        of_the_kit |= {"malloc", "nice"}
        words |= of_the_kit
        calls = {
            name
            for path in found_in("crates/*/src/**/*.rt")
            for name in re.findall(r"\bfn (\w+)|^    (\w+)\(", text_of(path), re.M)
        }
        calls = {name for names in calls for name in names} | of_the_kit
        named_by = (
            "HOW_TO_CHANGE",
            "ARCHITECTURE",
            "PROMISES",
            "LAW",
            "ALLOTMENT",
            "DEFINITIONS",
            "DECISIONS",
            "PROOFS",
        )
        documents = [ROOT / "CONTRIBUTING.md", *(ROOT / f"docs/{name}.md" for name in named_by)]
        documents += [path for path in DOCUMENTS if path.parent.parent == ROOT / "crates"]
        wrong, count = [], 0
        for path in documents:
            called = re.findall(
                r"\b([A-Za-z]\w*)\(", "\n".join(re.findall(r"^    .*", text_of(path), re.M))
            )
            named_there = re.findall(r"`([A-Za-z_][\w-]{3,})`", text_of(path))
            count += len(called) + len(named_there)
            wrong += [f"{shown(path)}: {name} is called" for name in called if name not in calls]
            for name in named_there:
                if name not in words and not name.startswith(("tally_", "_")):
                    wrong.append(f"{shown(path)}: {name}")
        self.finds_nothing(count, wrong)
