"""docs/LAW.md: each rule has its source and all its parts, with links."""

import re
from functools import cache

from tests.support.documents import LAW, LINK, NAMED, DocumentCase, functions, text_of


# The parts of a rule of the law, and where the links of each lead. (A proof may have none.)
PARTS = {
    "Definition": (".antt",),
    "Code": (".rt",),
    "Clause": (".rt",),
    "Test": (".rt", ".py"),
    "Wrong body": (".edit",),
    "Proof": (),
}


@cache
def rules(path):
    """The rules of the law, each with its title, what is said above its parts and above it in its
    chapter, and the parts.
    """
    found, chapter = [], ""
    for section in re.split(r"^(?=###? )", text_of(path), flags=re.M):
        title, _, text = section.partition("\n")
        above = re.split(r"^- ", text, maxsplit=1, flags=re.M)[0]
        if title.startswith("### "):
            found.append(
                (title[4:], chapter + above, re.findall(r"^- \*\*([^*]+):\*\* (.*)$", text, re.M))
            )
        else:
            chapter = above
    return found


class Law(DocumentCase):
    def test_each_rule_of_the_law_has_all_its_parts(self):
        """Its source too: a sentence of the law in Spanish, its article, or that the rule is this
        project's own.
        """
        wrong = []
        for title, above, parts in rules(LAW):
            if [name for name, _ in parts] != list(PARTS):
                wrong.append(f"{title}: {', '.join(name for name, _ in parts)}")
            if not re.search(r"^> «.+» \(\d+\.\d|^\d+\.\d+|project's own", above, re.M):
                wrong.append(f"{title}: no source")
            for name, text in parts:
                targets = [target for _, target in LINK.findall(text)]
                if PARTS.get(name) and not (
                    targets and all(target.endswith(PARTS[name]) for target in targets)
                ):
                    wrong.append(f"{title}: {name}")
                of_proofs = any(
                    re.search(r"/proofs/|/specs/internal/", target) for target in targets
                )
                if name == "Proof" and not of_proofs and not text.startswith("nothing was written"):
                    wrong.append(f"{title}: no proof")
        count = len(rules(LAW))
        self.finds_nothing(count, wrong if count >= 30 else [*wrong, f"only {count} rules"])

    def test_the_law_says_which_wrong_bodies_the_gate_tries(self):
        wrong, count = [], 0
        for title, _, parts in rules(LAW):
            gate, _, outside = dict(parts).get("Wrong body", "").partition("outside the gate")
            for text, folder in ((gate, "/must-fail/"), (outside, "/tests/wrong_bodies/")):
                targets = [target for _, target in LINK.findall(text)]
                count += len(targets)
                wrong += [f"{title}: {target}" for target in targets if folder not in target]
        self.finds_nothing(count, wrong if count else ["none is named"])

    def test_a_clause_of_the_law_without_a_label_is_the_only_one(self):
        wrong, count = [], 0
        for _, _, parts in rules(LAW):
            for name, target, labels in NAMED.findall(dict(parts).get("Clause", "")):
                if not labels:
                    count += 1
                    contracts = functions((LAW.parent / target).resolve()).get(
                        name.split("::")[-1], []
                    )
                    if not any(len(re.findall(r"\bensures\b", it)) == 1 for it in contracts):
                        wrong.append(name)
        self.finds_nothing(count, wrong if count else ["no clause is named"])

    def test_the_law_quotes_its_definitions_word_by_word(self):
        wrong, count = [], 0
        for _, _, parts in rules(LAW):
            definition = dict(parts).get("Definition", "")
            files = [(LAW.parent / target).resolve() for _, target in LINK.findall(definition)]
            text = " ".join(" ".join(text_of(file).split()) for file in files if file.is_file())
            for quote in re.findall(r"`([^`]+)`", NAMED.sub("", definition)):
                count += 1
                if " ".join(quote.split()) not in text:
                    wrong.append(quote)
        self.finds_nothing(count, wrong if count >= 20 else [*wrong, f"only {count} quotes"])
