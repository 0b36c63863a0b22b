"""docs/openapi.json: its operations, examples, refusals and words."""

import json

from tests.support.case import ROOT


DOCUMENT = json.loads((ROOT / "docs/openapi.json").read_text(encoding="utf-8"))


FORMATS = (ROOT / "docs/FORMATS.md").read_text(encoding="utf-8")


PHRASES = {
    "200": "OK",
    "400": "Bad Request",
    "404": "Not Found",
    "405": "Method Not Allowed",
    "409": "Conflict",
    "411": "Length Required",
    "503": "Service Unavailable",
}


def at(reference):
    """The part that a reference such as `#/components/schemas/Code` names."""
    found = DOCUMENT
    for part in reference.removeprefix("#/").split("/"):
        found = found[part]
    return found


def resolved(value):
    return at(value["$ref"]) if "$ref" in value else value


def operations():
    for path, methods in DOCUMENT["paths"].items():
        for method, operation in methods.items():
            yield path, method, operation


def contents(part):
    """The content of a request or a response: of each type its schema, and each example by its
    name.
    """
    for kind, content in part["content"].items():
        for name, example in content["examples"].items():
            yield kind, content["schema"], name, resolved(example)["value"]


def compact(value):
    return json.dumps(value, separators=(",", ":"), ensure_ascii=False, sort_keys=True)


def table(front):
    """The rows of the table of FORMATS that begins with this line."""
    lines = FORMATS.split(front + "\n", 1)[1].splitlines()[1:]
    rows = []
    for line in lines:
        if not line.startswith("|"):
            return rows
        rows.append([cell.strip().strip("`") for cell in line.strip("|").split("|")])
    return rows


def refusals():
    return {
        int(n): (word, status)
        for n, word, status, _ in table("| Number | Word | Status | When, and what is with it |")
    }


def words():
    return {word: status for word, status, _ in table("| Word | Status | When |")}
