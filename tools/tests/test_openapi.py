"""Tests that docs/openapi.json, docs/API.md and the stored replies in demo/ say the same of routes,
methods, parameters, replies and faults."""

import json
import os
import re
import unittest
from typing import Any, Iterator, NamedTuple
from urllib.parse import parse_qsl

from codenav.names import KEY, PROJECT

TOP = os.path.dirname(os.path.dirname(os.path.dirname(os.path.abspath(__file__))))
TYPES = {
    "object": dict,
    "array": list,
    "string": str,
    "integer": int,
    "boolean": bool,
    "null": type(None),
}


def text_of(*path: str) -> str:
    """The text of a file of the repository."""
    with open(os.path.join(TOP, *path), encoding="utf-8", newline="") as file:
        return file.read()


OPENAPI = json.loads(text_of("docs", "openapi.json"))
API = text_of("docs", "API.md")


def resolved(value: dict[str, Any]) -> dict[str, Any]:
    """What a `$ref` leads to, or the value itself."""
    while "$ref" in value:
        found: Any = OPENAPI
        for name in value["$ref"].removeprefix("#/").split("/"):
            found = found[name]
        value = found
    return value


def is_valid(value: Any, schema: dict[str, Any]) -> bool:
    """Whether a value is of a schema, by the keywords of JSON Schema that the description uses."""
    schema = resolved(schema)
    types = schema.get("type", list(TYPES))
    holds = any(
        type(value) is TYPES[name] for name in ([types] if isinstance(types, str) else types)
    )
    holds = (
        holds
        and ("const" not in schema or value == schema["const"])
        and ("enum" not in schema or value in schema["enum"])
    )
    holds = holds and all(is_valid(value, part) for part in schema.get("allOf", []))
    holds = holds and (
        "oneOf" not in schema or sum(is_valid(value, part) for part in schema["oneOf"]) == 1
    )
    if isinstance(value, str):
        holds = (
            holds
            and re.search(schema.get("pattern", ""), value) is not None
            and len(value) >= schema.get("minLength", 0)
        )
    elif type(value) is int:
        holds = holds and schema.get("minimum", value) <= value <= schema.get("maximum", value)
    elif isinstance(value, list):
        holds = holds and schema.get("minItems", 0) <= len(value) <= schema.get(
            "maxItems", len(value)
        )
        holds = holds and all(is_valid(item, schema.get("items", {})) for item in value)
    elif isinstance(value, dict):
        members = schema.get("properties", {})
        holds = (
            holds
            and set(schema.get("required", [])) <= set(value)
            and (schema.get("additionalProperties", True) or set(value) <= set(members))
        )
        holds = holds and all(
            is_valid(member, members.get(name, {})) for name, member in value.items()
        )
    return holds


class Operation(NamedTuple):
    """What a description says of a method of a path: its parameters and whether each must be there,
    the reply, and the faults by their statuses."""

    parameters: dict[str, bool]
    reply: str
    faults: dict[str, set[str]]


def schema_of(response: dict[str, Any]) -> dict[str, Any]:
    """The schema of a response's body."""
    schema: dict[str, Any] = resolved(response)["content"]["application/json"]["schema"]
    return schema


def described() -> dict[tuple[str, str], Operation]:
    """The operations of docs/openapi.json."""
    operations = {}
    for path, item in OPENAPI["paths"].items():
        for method in set(item) - {"parameters"}:
            parameters = [
                resolved(parameter)
                for parameter in item.get("parameters", []) + item[method]["parameters"]
            ]
            responses = dict(item[method]["responses"])
            reply = responses.pop("200")["description"]
            faults = {
                status: set(schema_of(response)["allOf"][1]["properties"]["fault"]["enum"])
                for status, response in responses.items()
            }
            operations[path, method.upper()] = Operation(
                {one["name"]: one["required"] for one in parameters}, reply, faults
            )
    return operations


def rows(heading: str) -> list[list[str]]:
    """The cells of the table whose head begins so in docs/API.md."""
    after = API.split(f"\n| {heading} |", 1)[1].split("\n\n", 1)[0].splitlines()[2:]
    return [[cell.strip() for cell in re.split(r"(?<!\\)\|", row)[1:-1]] for row in after]


def faults_in(text: str) -> Iterator[tuple[str, str]]:
    """The statuses and codes that a text names, as `400 D03` or `422 L01 to L20`."""
    for status, first, last in re.findall(r"\b(\d{3}) ([A-Z]\d\d)(?: to ([A-Z]\d\d))?", text):
        for number in range(int(first[1:]), int((last or first)[1:]) + 1):
            yield status, f"{first[0]}{number:02}"


def documented() -> dict[tuple[str, str], Operation]:
    """The operations of docs/API.md."""
    of_any = list(faults_in(API.split("### Faults of any request\n\n", 1)[1].split("\n\n")[0]))
    operations = {}
    for path, method, parameters, reply, named in rows("Route"):
        needed = {
            name: not optional and " or " not in parameters
            for optional, name in re.findall(r"(\(?)`(\w+)`", parameters)
        }
        faults: dict[str, set[str]] = {}
        for status, code in [*faults_in(named), *of_any]:
            faults.setdefault(status, set()).add(code)
        operations[path.strip("`"), method] = Operation(
            {**({"p": True} if "{p}" in path else {}), **needed}, reply, faults
        )
    return operations


class Exchange(NamedTuple):
    """A stored request and its reply."""

    method: str
    path: str
    parameters: list[tuple[str, str]]
    status: str
    fields: dict[str, str]
    reply: Any


def messages(text: str) -> Iterator[tuple[str, dict[str, str], str]]:
    """The first lines, the fields and the bodies of messages that follow each other."""
    while text:
        head, _, text = text.partition("\r\n\r\n")
        first, *lines = head.split("\r\n")
        fields = dict(line.split(": ", 1) for line in lines)
        length = int(fields.get("Content-Length", 0))
        yield first, fields, text[:length]
        text = text[length:]


def exchanges() -> list[Exchange]:
    """The requests of demo/each_route.http with their replies."""
    found = []
    pairs = zip(
        messages(text_of("demo", "each_route.http")),
        messages(text_of("demo", "each_route.replies")),
        strict=True,
    )
    for (request, _, _), (reply, fields, body) in pairs:
        method, target, _ = request.split(" ")
        path, _, query = target.partition("?")
        found.append(
            Exchange(method, path, parse_qsl(query), reply.split(" ")[1], fields, json.loads(body))
        )
    return found


def template_of(path: str) -> str | None:
    """The path of the description that has a path of a request, or None."""
    return next(
        (
            one
            for one in OPENAPI["paths"]
            if re.fullmatch(re.escape(one).replace(r"\{p\}", "[^/]+"), path)
        ),
        None,
    )


class OpenApi(unittest.TestCase):
    def test_the_description_and_the_docs(self) -> None:
        self.assertEqual(described(), documented())

    def test_codes_and_statuses(self) -> None:
        listed = {(status, code) for code, _, status in rows("Fault")}
        used = {
            (status, code)
            for one in documented().values()
            for status, codes in one.faults.items()
            for code in codes
        }
        self.assertEqual(listed, {pair for pair in used if pair[0] != "422"})
        definitions = set(
            re.findall(
                r"^\| ([LET]\d\d) \|", text_of("docs", "inside", "DEFINITIONS.md"), re.MULTILINE
            )
        )
        self.assertEqual(definitions, {code for status, code in used if status == "422"})

    def test_forms(self) -> None:
        forms = {
            name: resolved(one)["schema"]
            for name, one in OPENAPI["components"]["parameters"].items()
        }
        self.assertEqual(
            [forms[name]["pattern"] for name in ("p", "project", "key")],
            [f"^{form.pattern}$" for form in (PROJECT, PROJECT, KEY)],
        )
        texts = {
            name: cells[1]
            for cells in rows("Parameter")
            for name in re.findall(r"`\{?(\w+)\}?`", cells[0])
        }
        self.assertEqual(set(texts), set(forms))
        for name in ("profile", "declaration"):
            self.assertEqual(re.findall(r"`(\w+)`", texts[name]), forms[name]["enum"])

    def test_each_schema_is_used(self) -> None:
        text = text_of("docs", "openapi.json")
        for kind, components in OPENAPI["components"].items():
            for name in components:
                self.assertIn(f'"#/components/{kind}/{name}"', text)

    def test_stored_replies(self) -> None:
        answered = set()
        for one in exchanges():
            path = template_of(one.path)
            with self.subTest(one.method, path=one.path, status=one.status):
                self.assertEqual(one.fields["Content-Type"], "application/json")
                if path is None:
                    self.assertEqual((one.status, one.reply["fault"]), ("404", "H06"))
                    continue
                methods = {method for known, method in described() if known == path}
                self.assertEqual("Allow" in one.fields, one.status == "405")
                method = one.method if one.method in methods else one.fields["Allow"]
                operation = OPENAPI["paths"][path][method.lower()]
                self.assertTrue(is_valid(one.reply, schema_of(operation["responses"][one.status])))
                forms = {resolved(form)["name"]: resolved(form) for form in operation["parameters"]}
                good = all(is_valid(value, forms[name]["schema"]) for name, value in one.parameters)
                self.assertEqual(good, one.reply.get("fault") != "D03")
                answered.add((path, method, one.status))
        self.assertEqual(
            {(path, method) for path, method, status in answered if status == "200"},
            set(documented()),
        )
        self.assertLessEqual(
            {"D01", "D02", "D03", "H03", "H06", "H07"},
            {one.reply.get("fault") for one in exchanges()},
        )

    def test_what_is_of_no_schema(self) -> None:
        place: dict[str, Any] = {
            "end": {"character": 1, "line": 0},
            "project": "a",
            "start": {"character": 0, "line": 0},
            "uri": "file:///a",
        }
        tag: dict[str, Any] = {
            "address": "1",
            "fields": [["a", "b"]],
            "file": "f",
            "kind": None,
            "line": 1,
            "name": "n",
            "project": "a",
        }
        cases: list[tuple[str, dict[str, Any], list[dict[str, Any]]]] = [
            (
                "Places",
                {"places": [place]},
                [
                    {},
                    {"places": [{**place, "x": 1}]},
                    {"places": [{**place, "end": {"character": -1, "line": 0}}]},
                    {"places": {}},
                ],
            ),
            (
                "Tags",
                {"tags": [tag]},
                [
                    {"tags": [{**tag, "kind": 1}]},
                    {"tags": [{**tag, "line": 0}]},
                    {"tags": [{**tag, "fields": [["a"]]}]},
                ],
            ),
            (
                "Hover",
                {"contents": ["a", {"language": "c", "value": "f"}]},
                [{"contents": 1}, {"contents": {"value": "f"}}, {"contents": [None]}],
            ),
            ("Profile", {"profile": 2}, [{"profile": 3}, {"profile": "2"}]),
            ("Removed", {"removed": True}, [{"removed": 1}]),
        ]
        for name, good, bad in cases:
            schema = OPENAPI["components"]["schemas"][name]
            self.assertEqual(
                [is_valid(value, schema) for value in [good, *bad]], [True] + [False] * len(bad)
            )


if __name__ == "__main__":
    unittest.main()
