"""docs/openapi.json beside the routes, the words and the tests of the desk."""

import json
import re

from tests.support.case import ROOT, Case
from tests.support.openapi import (
    DOCUMENT,
    PHRASES,
    at,
    compact,
    contents,
    operations,
    refusals,
    resolved,
    words,
)


ROUTES = (ROOT / "crates/tally_desk_routes/src/routes.rt").read_text(encoding="utf-8")


TESTED = "\n".join(
    path.read_text(encoding="utf-8")
    for crate in ("tally_test_desk", "tally_test_http")
    for path in sorted((ROOT / "crates" / crate / "src").glob("*.rt"))
).replace('\\"', '"')


# The refusals of the checks that a request goes through (`Lodge`, `Moves`, `Decide` of
# tally_returns; `Certification` of tally_machine_law). The other routes to a constituency have its
# own alone.
CHECKS = {
    "/station/{s}": {1, 8},
    "/station/{s}/lodge": {1, 4, 6, 7},
    "/station/{s}/query": {1, 5, 8, 9, 11, 12, 13},
    "/station/{s}/correct": {1, 4, 6, 8, 9, 11, 12, 13},
    "/station/{s}/close": {1, 8, 9, 11, 12, 13, 24},
    "/station/{s}/confirm": {1, 4, 6, 7, 8, 9, 11, 12, 13},
    "/con/{c}/draw": {2, 9, 11, 12, 14, 15, 16, 17, 18},
    "/con/{c}/certify": {2, 9, 11, 12, 14, 15, 19},
    "/con/{c}/reopen": {2, 5, 10, 11, 12},
    "/con/{c}/vacate": {2, 3, 5, 10, 20, 21},
}


def references(value):
    if isinstance(value, dict):
        if "$ref" in value:
            yield value["$ref"]
        for part in value.values():
            yield from references(part)
    elif isinstance(value, list):
        for part in value:
            yield from references(part)


def fits(schema, value):
    """Whether a value is of a schema, in the words of schemas that the document uses."""
    schema = resolved(schema)
    known = {
        "type",
        "properties",
        "required",
        "additionalProperties",
        "items",
        "enum",
        "oneOf",
        "nullable",
    }
    known |= {
        "minimum",
        "maximum",
        "minLength",
        "maxLength",
        "pattern",
        "minItems",
        "maxItems",
        "description",
    }
    assert set(schema) <= known, f"a word of schemas that is not known: {set(schema) - known}"
    if "oneOf" in schema:
        return sum(fits(part, value) for part in schema["oneOf"]) == 1
    if value is None:
        return schema.get("nullable", False)
    if "enum" in schema and value not in schema["enum"]:
        return False
    kind = schema["type"]
    if kind == "boolean":
        return isinstance(value, bool)
    if kind == "integer":
        low, high = schema.get("minimum", value), schema.get("maximum", value)
        return isinstance(value, int) and not isinstance(value, bool) and low <= value <= high
    if kind == "string":
        low, high = schema.get("minLength", 0), schema.get("maxLength", 1 << 30)
        return (
            isinstance(value, str)
            and low <= len(value) <= high
            and re.search(schema.get("pattern", ""), value) is not None
        )
    if kind == "array":
        low, high = schema.get("minItems", 0), schema.get("maxItems", 1 << 30)
        return (
            isinstance(value, list)
            and low <= len(value) <= high
            and all(fits(schema["items"], x) for x in value)
        )
    assert kind == "object", f"a type that is not known: {kind}"
    properties = schema["properties"]
    return (
        isinstance(value, dict)
        and set(schema["required"]) <= set(value)
        and (schema.get("additionalProperties", True) or set(value) <= set(properties))
        and all(fits(properties[key], x) for key, x in value.items() if key in properties)
    )


def answers():
    for path, method, operation in operations():
        for status, response in operation["responses"].items():
            for kind, schema, name, value in contents(resolved(response)):
                yield f"{method} {path} {status} {name}", status, kind, schema, value
    # The answer of every target that is on none of the paths.
    for kind, schema, name, value in contents(DOCUMENT["components"]["responses"]["no_route"]):
        yield "no route", "404", kind, schema, value


class OpenApi(Case):
    def test_every_reference_names_something(self):
        for reference in references(DOCUMENT):
            with self.subTest(reference=reference):
                at(reference)

    def test_every_part_is_used(self):
        used = set(references(DOCUMENT)) | {"#/components/responses/no_route"}
        for kind, parts in DOCUMENT["components"].items():
            for name in parts:
                with self.subTest(kind=kind, name=name):
                    self.assertIn(f"#/components/{kind}/{name}", used)

    def test_the_routes_are_those_of_the_desk(self):
        routes = dict(re.findall(r'"(/[^"]*)",\s*Route::(\w+)', ROUTES))
        gets = set(
            re.findall(
                r"Route::(\w+)",
                ROUTES.split("pub fn takes_get", 1)[1]
                .split("=> false", 1)[0]
                .rsplit("=> true", 1)[0],
            )
        )
        want = {(path, "get" if name in gets else "post") for path, name in routes.items()}
        self.assertEqual(len(want), 30)
        self.assertEqual({(path, method) for path, method, _ in operations()}, want)

    def test_every_operation_has_a_name_of_its_own(self):
        names = [operation["operationId"] for _, _, operation in operations()]
        self.assertEqual(len(set(names)), len(names))
        assert all(operation["summary"] for _, _, operation in operations())

    def test_the_codes_of_a_path_are_its_parameters(self):
        for path, method, operation in operations():
            with self.subTest(path=path, method=method):
                names = [p["name"] for p in operation.get("parameters", []) if p["in"] == "path"]
                self.assertEqual(names, re.findall(r"{(\w+)}", path))

    def test_only_post_has_a_body(self):
        for path, method, operation in operations():
            with self.subTest(path=path, method=method):
                self.assertEqual("requestBody" in operation, method == "post")

    def test_each_refusal_has_its_number_word_and_status(self):
        self.assertEqual(len(refusals()), 22)
        for number, (word, status) in refusals().items():
            with self.subTest(number=number, word=word, status=status):
                schema = DOCUMENT["components"]["schemas"][f"Refused_{number}_{word}"]
                self.assertEqual(schema["properties"]["refused"]["enum"], [number])
                self.assertEqual(schema["properties"]["word"]["enum"], [word])
                found = {
                    s
                    for _, s, _, _, value in answers()
                    if isinstance(value, dict) and value.get("refused") == number
                }
                self.assertEqual(found, {status})

    def test_each_route_has_the_refusals_of_its_checks(self):
        for path, method, operation in operations():
            with self.subTest(path=path, method=method):
                named = (
                    re.search(r"/Refused_(\d+)_", name)
                    for name in references(operation["responses"])
                )
                found = {int(number.group(1)) for number in named if number}
                want = CHECKS.get(path, {2} if path.startswith("/con/") else set())
                self.assertEqual(found, want)

    def test_each_word_has_its_status(self):
        self.assertEqual(len(words()), 14)
        for word, status in words().items():
            with self.subTest(word=word, status=status):
                found = {s for _, s, _, _, value in answers() if value == {"word": word}}
                self.assertEqual(found, {status})

    def test_statuses_have_their_phrases(self):
        for path, method, operation in operations():
            for status, response in operation["responses"].items():
                with self.subTest(path=path, method=method, status=status):
                    if status != "200":
                        self.assertEqual(resolved(response)["description"], PHRASES[status])

    def test_every_answer_names_its_fields(self):
        for path, method, operation in operations():
            with self.subTest(path=path, method=method):
                for status, response in operation["responses"].items():
                    with self.subTest(status=status):
                        headers = resolved(response)["headers"]
                        self.assertEqual("Allow" in headers, status == "405")
                        self.assertEqual(
                            resolved(headers["Connection"])["schema"]["enum"], ["close"]
                        )
                allow = resolved(operation["responses"]["405"])["headers"]["Allow"]
                self.assertEqual(allow["schema"]["enum"], [method.upper()])

    def test_examples_are_of_their_schemas(self):
        for name, _, _, schema, value in answers():
            with self.subTest(name=name, value=value):
                assert fits(schema, value)
        for path, method, operation in operations():
            with self.subTest(path=path, method=method):
                if "requestBody" in operation:
                    for _, schema, name, value in contents(operation["requestBody"]):
                        with self.subTest(name=name, value=value):
                            assert fits(schema, value)

    def test_answers_are_in_the_tests_of_the_desk(self):
        for name, status, kind, _, value in answers():
            with self.subTest(name=name, status=status, kind=kind, value=value):
                if kind != "application/json":
                    self.assertIn(f"{status} {PHRASES[status]}|" + value.replace("\n", "|"), TESTED)
                else:
                    line = (
                        re.escape(f"{status} {PHRASES[status]}|")
                        + r"(\d+\|)?"
                        + re.escape(compact(value))
                    )
                    whole = (
                        re.escape(f"HTTP/1.1 {status} {PHRASES[status]}")
                        + r"[^{]*"
                        + re.escape(compact(value))
                    )
                    assert re.search(line, TESTED) or re.search(
                        whole, TESTED
                    ), f"{name}: {compact(value)}"

    def test_bodies_are_in_the_tests_of_the_desk(self):
        for path, method, operation in operations():
            with self.subTest(path=path, method=method):
                if "requestBody" not in operation:
                    continue
                target = re.sub(r"{c}", "c1", re.sub(r"{s}", "s1", path))
                for kind, _, name, value in contents(operation["requestBody"]):
                    with self.subTest(kind=kind, name=name, value=value):
                        body = (
                            value.replace("\n", "|")
                            if kind == "text/csv"
                            else json.dumps(value, separators=(",", ":"))
                        )
                        self.assertIn(f"POST {target} {body} = 200 OK", TESTED)
