"""Definitions, promises, crates and wrong bodies: each is where it has to be named."""

import re
from functools import cache

from tests.support.case import ROOT
from tests.support.documents import (
    DOCUMENTS,
    LINK,
    PROMISES,
    DocumentCase,
    found_in,
    functions,
    named,
    shown,
    targets,
    text_of,
)


@cache
def believed():
    """The files of `specs` that the promises say have to be believed."""
    lines = [line for line in text_of(PROMISES).splitlines() if line.startswith("To be believed: ")]
    found = [
        target for line in lines for _, target in LINK.findall(line) if target.endswith(".antt")
    ]
    return {(PROMISES.parent / target).resolve() for target in found}


# An import from `specs` of this repository: the crate, the path, and the words or the file's name.
USE = re.compile(
    r"^\s*(?:ghost )?use Rattle\.(tally_\w+)\.specs\.([\w.]+?)(?:\.\{([^}]*)\}| as (\w+));?$", re.M
)


def crates():
    lines = [
        line.split("#")[0].split(":")[0].strip()
        for line in text_of(ROOT / "crates.txt").splitlines()
    ]
    return [line for line in lines if line]


class Lists(DocumentCase):
    def test_definitions_in_blocks_are_word_by_word(self):
        """A block of a document that holds a definition (`pub record`, `abbrev pub`) is in a file
        that the document links.
        """
        wrong, count = [], 0
        for path in DOCUMENTS:
            files = {
                (path.parent / target).resolve()
                for _, target in LINK.findall(text_of(path))
                if target.endswith(".antt")
            }
            text = " ".join(" ".join(text_of(file).split()) for file in files if file.is_file())
            for block in re.findall(r"(?:^    .*\n)+", text_of(path), re.M):
                if re.search(r"\bpub record\b|\babbrev pub\b", block):
                    count += 1
                    if " ".join(block.split()) not in text:
                        wrong.append(f"{shown(path)}: {block.split(chr(10))[0].strip()}")
        self.finds_nothing(count, wrong)

    def test_each_folder_of_wrong_bodies_is_named_by_its_crate(self):
        edits = [*ROOT.glob("crates/*/must-fail/*.edit"), *ROOT.glob("tests/wrong_bodies/*/*.edit")]
        wrong = []
        for folder in sorted({path.parent for path in edits}):
            crate = folder.parent.name if folder.name == "must-fail" else folder.name
            page = ROOT / "crates" / crate / "README.md"
            if folder not in {(page.parent / target).resolve() for target in targets(page)}:
                wrong.append(f"{shown(page)}: {shown(folder)}")
        self.finds_nothing(len(edits), wrong)

    def test_each_wrong_body_can_be_planted(self):
        # `rt must-fail` says so only of those that it tries. What an edit takes away has to be
        # there once, after its earlier pairs.
        edits = [*ROOT.glob("crates/*/must-fail/*.edit"), *ROOT.glob("tests/wrong_bodies/*/*.edit")]
        wrong = []
        for path in sorted(edits):
            crate = path.parent.parent.name if path.parent.name == "must-fail" else path.parent.name
            text = old = ""
            for line in path.read_text().splitlines():
                key, _, rest = line.partition(": ")
                if key == "file":
                    text = text_of(ROOT / "crates" / crate / rest.strip())
                elif key == "old":
                    old = rest
                    if text.count(old) != 1:
                        wrong.append(
                            f"{shown(path)}: {old.strip()!r} is there {text.count(old)} times"
                        )
                elif key == "new":
                    text = text.replace(old, rest, 1)
        self.finds_nothing(len(edits), wrong)

    def test_each_definition_and_each_lemma_is_cited(self):
        """By code, by another definition or lemma, or by a document."""
        word = re.compile(r"[^\s(){}\[\],;.]+")
        head = re.compile(
            r" *(?:(?:pub|abbrev|unfoldable|record|data) )*([^\W\d][^\s:]*)(?: :| \(| \{)"
        )
        cited, defined = set(), {}
        for path in DOCUMENTS:
            cited.update(
                name
                for names in re.findall(r"`([^`\n]+)`", text_of(path))
                for name in word.findall(names)
            )
        for path in found_in(
            "crates/*/src/**/*.rt", "crates/*/specs/**/*.antt", "crates/*/proofs/**/*.antt"
        ):
            is_code, is_lemma = (
                path.suffix == ".rt",
                path.parent.name == "proofs" or "specs" in path.parts,
            )
            own, begins = None, r"\S"
            for line in text_of(path).split("\n"):
                if re.match(r"\s*(?:(?:pub |ghost )*use |--|//)", line):
                    continue
                words = word.findall(line.replace("::", " "))
                if re.match(r"\S", line):
                    # (what a module has is indented by two)
                    begins = r" {0,2}\S" if line.startswith("module ") else r"\S"
                # a line that begins with a name defines it; it and those below it cite the others
                if words and not is_code and re.match(begins, line):
                    found = None if words[0] == "module" else head.match(line)
                    own = found[1] if found else words[0]
                    if found and is_lemma:
                        defined[own] = path
                cited.update(name for name in words if name != own)
        self.finds_nothing(
            len(defined),
            sorted(f"{shown(path)}: {name}" for name, path in defined.items() if name not in cited),
        )

    def test_the_promises_name_each_file_that_has_to_be_believed(self):
        files = {
            path
            for path in ROOT.glob("crates/*/specs/*.antt")
            if path.stem not in ("Lib", "internal")
        }
        wrong = [f"{shown(path)}: in no list of PROMISES" for path in sorted(files - believed())]
        wrong += [
            f"{shown(path)}: believed, and not right in `specs`"
            for path in sorted(believed() - files)
        ]
        self.finds_nothing(len(files), wrong)

    def test_the_definitions_go_through_each_file_that_has_to_be_believed(self):
        """In at most 450 lines."""
        path = ROOT / "docs/DEFINITIONS.md"
        linked = {(path.parent / target.split("#")[0]).resolve() for target in targets(path)}
        wrong = [f"{shown(file)}: not in DEFINITIONS" for file in sorted(believed() - linked)]
        lines = len(text_of(path).splitlines())
        self.finds_nothing(
            len(believed()), wrong if lines <= 450 else [*wrong, f"{shown(path)}: {lines} lines"]
        )

    def test_what_is_believed_names_nothing_else(self):
        """The definitions that a believed file imports of this repository are believed too, or are
        types of the code (`declared`).
        """
        wrong, count = [], 0
        for path in sorted(believed()):
            for crate, place, _, _ in USE.findall(text_of(path)):
                first = place.split(".")[0]
                if first not in ("declared", "contracts"):
                    count += 1
                    if (
                        ROOT / "crates" / crate / "specs" / f"{place.replace('.', '/')}.antt"
                        not in believed()
                    ):
                        wrong.append(f"{shown(path)}: {crate}, {place}")
        self.finds_nothing(count, wrong)

    def test_the_clauses_of_the_promises_use_no_internal_word(self):
        """Those of the promises by number on the pages of the crates too."""
        wrong, count = [], 0
        pages = ((path, r"\| \d+ .*") for path in found_in("crates/*/README.md"))
        for name, file, labels in (
            link for path, lines in [(PROMISES, ".*"), *pages] for link in named(path, lines)
        ):
            if file.suffix != ".rt" or not file.is_file():
                continue
            internal = set()
            for _, place, words, alias in USE.findall(text_of(file)):
                if place.split(".")[0] == "internal":
                    internal.update(
                        [alias]
                        if alias
                        else [word.strip().split(" as ")[-1] for word in words.split(",")]
                    )
            for contract in functions(file).get(name.split("::")[-1], []):
                for clause in re.split(r"\b(?=(?:ensures|requires)\b)", contract)[1:]:
                    label = re.match(r"ensures (\w+)", clause)
                    if label and labels and label[1] not in labels:
                        continue
                    count += 1
                    for word in sorted(internal & set(re.findall(r"[^\W\d][\w-]*", clause))):
                        wrong.append(f"{shown(file)}: {name}: {word}")
        self.finds_nothing(count, wrong)

    def test_each_promise_has_a_number_of_its_own(self):
        """Of the rows of PROMISES and of those on the pages of the crates."""
        rows = {}
        for path in (PROMISES, *found_in("crates/*/README.md")):
            for number in re.findall(r"^\| (\d+) \|", text_of(path), re.M):
                rows.setdefault(int(number), []).append(shown(path))
        wrong = [
            f"{number}: {', '.join(paths)}"
            for number, paths in sorted(rows.items())
            if len(paths) > 1
        ]
        self.finds_nothing(
            len(rows), wrong if len(rows) >= 100 else [*wrong, f"only {len(rows)} promises"]
        )

    def test_no_document_names_a_place_on_one_machine(self):
        places = re.compile("[/](?:opt|work|farm|root|tmp)[/][a-z]")
        self.finds_nothing(
            len(DOCUMENTS),
            [
                f"{shown(path)}: {found}"
                for path in DOCUMENTS
                for found in places.findall(text_of(path))
            ],
        )

    def test_each_crate_is_on_the_map(self):
        text = text_of(ROOT / "docs/ARCHITECTURE.md")
        self.finds_nothing(
            len(crates()), [name for name in crates() if not re.search(rf"\b{name}\b", text)]
        )

    def test_the_layers_have_the_same_headings(self):
        """Those of `crates.txt` and of the table of layers in ARCHITECTURE, with the same crates
        under each.
        """
        layers, name = {}, None
        for line in text_of(ROOT / "crates.txt").splitlines():
            if line.startswith("# ---- "):
                name = line[7:].split(":")[0].strip()
                layers[name] = set()
            elif name and re.match(r"\w+:", line):
                layers[name].add(line.split(":")[0])
        rows = re.findall(
            r"^\| \*\*(.+?)\*\* \| (.*) \|$", text_of(ROOT / "docs/ARCHITECTURE.md"), re.M
        )
        wrong = (
            []
            if rows and list(layers) == [name for name, _ in rows]
            else [f"crates.txt has {list(layers)}"]
        )
        for name, cell in rows:
            listed = set(re.findall(r"(?:\[|`|, )(tally_\w+)(?:\]|`|(?=[,:]))", cell))
            missing = layers.get(name, set()) - listed
            if missing:
                wrong.append(f"{name}: {', '.join(sorted(missing))}")
        self.finds_nothing(len(rows), wrong)

    def test_documents_are_as_short_as_they_have_to_be(self):
        most = {"README.md": 75, "CONTRIBUTING.md": 60, "docs/GUIDE.md": 221}
        counts = {name: len(text_of(ROOT / name).splitlines()) for name in most}
        self.finds_nothing(
            len(most),
            [f"{name}: {count} lines" for name, count in counts.items() if count > most[name]],
        )

    def test_each_crate_has_a_page_of_at_most_40_lines(self):
        wrong = []
        for name in crates():
            page = ROOT / "crates" / name / "README.md"
            if not page.is_file():
                wrong.append(f"{name}: none")
            elif len(text_of(page).splitlines()) > 40:
                wrong.append(f"{name}: {len(text_of(page).splitlines())} lines")
        self.finds_nothing(len(crates()), wrong)
