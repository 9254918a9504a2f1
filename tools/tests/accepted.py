"""Whether the server accepts a dump, said again in Python from docs/inside/DEFINITIONS.md, plainly and
slowly: what the tests hold the tools' output to."""

import json
import re
from typing import Any, Optional

from codenav.urls import href

Element = dict[str, Any]

MOST_ID, MOST_NUMBER, MOST_LINE, MOST_LEVELS = 9007199254740991, 2147483647, 1_048_576, 127
MOST_ELEMENTS = 100_000
HALF = re.compile("[\ud800-\udfff]")
ROLES = ("definitions", "references", "referenceResults")
RESULTS = {
    "1": {
        "textDocument/definition": "definitionResult",
        "textDocument/references": "referenceResult",
        "textDocument/hover": "hoverResult",
    },
}
RESULTS["2"] = {
    **RESULTS["1"],
    "textDocument/declaration": "declarationResult",
    "textDocument/implementation": "implementationResult",
}
KNOWN = {
    "metaData",
    "project",
    "document",
    "range",
    "resultSet",
    "moniker",
    "packageInformation",
    "$event",
}


def whole(text: str) -> Any:
    """A number without a fraction: -0 isn't whole, as `serde_json` reads it."""
    return -0.0 if text == "-0" else int(text)


def is_id(value: Any) -> bool:
    """Whether a value is an id."""
    if type(value) is int:
        return 0 <= value <= MOST_ID
    if not isinstance(value, str) or HALF.search(value):
        return False
    return 0 < len(value.encode("utf-8")) <= 128


def is_text(value: Any) -> bool:
    """Whether a value is a text without U+0000."""
    return isinstance(value, str) and "\0" not in value


def position(value: Any) -> Optional[tuple[int, int]]:
    """A position, or None."""
    if not isinstance(value, dict):
        return None
    line, character = value.get("line"), value.get("character")
    if any(type(n) is not int or not 0 <= n <= MOST_NUMBER for n in (line, character)):
        return None
    return line, character  # type: ignore[return-value]


def is_part(part: Any) -> bool:
    """Whether a value is a text, or a text in a language."""
    return isinstance(part, str) or (
        isinstance(part, dict)
        and isinstance(part.get("language"), str)
        and isinstance(part.get("value"), str)
    )


def is_contents(value: Any) -> bool:
    """Whether a value is hover contents."""
    if isinstance(value, list):
        return all(map(is_part, value))
    if isinstance(value, dict) and "kind" in value:
        return value["kind"] in ("plaintext", "markdown") and isinstance(value.get("value"), str)
    return is_part(value)


def bad_vertex(element: Element) -> bool:
    """L07."""
    label, get = element["label"], element.get
    if label == "document":
        uri = get("uri")
        return not isinstance(uri, str) or href(uri) is None
    if label == "range":
        start, end = position(get("start")), position(get("end"))
        return start is None or end is None or start > end
    if label == "hoverResult":
        result = get("result")
        return not isinstance(result, dict) or not is_contents(result.get("contents"))
    if label == "moniker":
        return not (is_text(get("scheme")) and is_text(get("identifier"))) or get(
            "kind", "local"
        ) not in ("import", "export", "local")
    if label == "packageInformation":
        return not (
            is_text(get("name")) and is_text(get("manager")) and is_text(get("version", ""))
        )
    if label == "$event":
        scope = get("scope")
        return (
            not isinstance(scope, str)
            or scope == "document"
            and (get("kind") not in ("begin", "end") or not is_id(get("data")))
        )
    return False


class Checker:
    """Takes the lines of a dump, one after the other."""

    def __init__(self, profile: str) -> None:
        self.results = RESULTS[profile]
        self.vertices: dict[Any, Element] = {}
        self.ids: set[Any] = set()
        self.urls: set[Optional[str]] = set()
        self.single: set[tuple[str, Any]] = set()
        self.next: dict[Any, Any] = {}
        self.home: dict[Any, Any] = {}
        self.spans: dict[Any, list[tuple[Any, ...]]] = {}
        self.ended: dict[Any, set[str]] = {}
        self.items: list[tuple[int, Element]] = []
        self.lines: dict[Any, int] = {}
        self.number = 0

    def label(self, own: Any) -> str:
        """The label of a vertex, where it has one in this profile."""
        label = str(self.vertices[key(own)]["label"])
        return label if label in KNOWN or label in self.results.values() else "other"

    def line(self, number: int, text: bytes) -> Optional[str]:
        """The fault of a line."""
        self.number = number
        if len(text) > MOST_LINE:
            return "L01"
        try:
            element = json.loads(text.decode("utf-8"), parse_int=whole)
            json.dumps(element, ensure_ascii=False, allow_nan=False).encode("utf-8")
        except (ValueError, RecursionError):
            return "L02"
        if depth(element) > MOST_LEVELS:
            return "L02"
        if not isinstance(element, dict) or not is_id(element.get("id")):
            return "L03"
        if element.get("type") not in ("vertex", "edge") or not isinstance(
            element.get("label"), str
        ):
            return "L05"
        is_metadata = (element["type"], element["label"]) == ("vertex", "metaData")
        if key(element["id"]) in self.ids:
            return "L04"
        self.ids.add(key(element["id"]))
        if (number == 1) != is_metadata:
            return "L06"
        code = self.vertex(element) if element["type"] == "vertex" else self.edge(element)
        return code or ("L20" if number > MOST_ELEMENTS else None)

    def vertex(self, element: Element) -> Optional[str]:
        """The fault of a vertex."""
        if element["label"] == "metaData" and (
            element.get("version") != "0.6.0"
            or element.get("positionEncoding", "utf-16") != "utf-16"
        ):
            return "L06"
        if bad_vertex(element):
            return "L07"
        self.vertices[key(element["id"])] = element
        self.lines[key(element["id"])] = self.number
        if element["label"] == "document":
            if href(element["uri"]) in self.urls:
                return "L19"
            self.urls.add(href(element["uri"]))
        if element["label"] == "$event" and element["scope"] == "document":
            done = self.ended.setdefault(key(element["data"]), set())
            if (
                key(element["data"]) not in self.vertices
                or element["kind"] in done
                or element["kind"] == "end"
                and "begin" not in done
            ):
                return "L17"
            done.add(element["kind"])
        return None

    def edge(self, element: Element) -> Optional[str]:
        """The fault of an edge."""
        label, source, one, several = (
            element["label"],
            element.get("outV"),
            element.get("inV"),
            element.get("inVs"),
        )
        is_list = label in ("contains", "item")
        has_one, has_several = "inV" in element, "inVs" in element
        if label in self.results or label in ("next", "moniker", "packageInformation", "attach"):
            is_shaped = has_one and not has_several
        else:
            is_shaped = has_several and not has_one if is_list else has_one != has_several
        targets = [one] if has_one else several
        if (
            not is_shaped
            or not is_id(source)
            or not isinstance(targets, list)
            or not all(map(is_id, targets))
        ):
            return "L08"
        shard = element.get("shard", element.get("document")) if label == "item" else None
        if label == "item" and (
            "property" in element and element["property"] not in ROLES or not is_id(shard)
        ):
            return "L15"
        if any(key(end) not in self.vertices for end in (source, *targets)):
            return "L09"
        return self.order(element, label, source, targets, shard)

    def order(
        self, element: Element, label: str, source: Any, targets: list[Any], shard: Any
    ) -> Optional[str]:
        """The fault of an edge with sound ends."""
        out, into = self.label(source), {self.label(own) for own in targets}
        if not self.may_join(label, out, into, element.get("property")):
            return "L10"
        if label == "contains" and out == "document":
            fault = self.contain(source, targets)
            if fault:
                return fault
        if label in self.results or label in ("next", "packageInformation"):
            if (label, key(source)) in self.single:
                return "L13"
            self.single.add((label, key(source)))
        if label == "next":
            self.next[key(source)] = key(targets[0])
            at, steps = key(source), 0
            while at in self.next and steps <= len(self.next):
                at, steps = self.next[at], steps + 1
            if steps > len(self.next):
                return "L14"
        if label == "item" and out != "other":
            if key(shard) not in self.vertices or self.label(shard) not in ("document", "project"):
                return "L16"
            self.items.append((self.number, element))
        for own in (source, *targets):
            if "end" in self.ended.get(self.home.get(key(own)), set()):
                return "L18"
        return None

    def may_join(self, label: str, out: str, into: set[str], role: Optional[str]) -> bool:
        """Whether an edge of a label may join such vertices (L10)."""
        if label == "contains":
            return (
                out == "project" and into <= {"document"} or out == "document" and into <= {"range"}
            )
        if label == "next":
            return out in ("range", "resultSet") and into == {"resultSet"}
        if label in self.results:
            return out in ("range", "resultSet") and into == {self.results[label]}
        if label == "moniker":
            return out in ("range", "resultSet") and into == {"moniker"}
        if label == "packageInformation":
            return out == "moniker" and into == {"packageInformation"}
        if label == "attach":
            return out == "moniker" and into == {"moniker"}
        if label != "item" or out == "other":
            return True
        if out == "definitionResult":
            return role in (None, "definitions") and into <= {"range"}
        if out in ("declarationResult", "implementationResult"):
            return role is None and into <= {"range"}
        if out == "referenceResult":
            return (
                role in ("definitions", "references")
                and into <= {"range"}
                or role == "referenceResults"
                and into <= {"referenceResult"}
            )
        return False

    def contain(self, source: Any, targets: list[Any]) -> Optional[str]:
        """L18, L11 and L12 of a `contains` edge."""
        if "end" in self.ended.get(key(source), set()):
            return "L18"
        spans = self.spans.setdefault(key(source), [])
        for own in targets:
            if key(own) in self.home:
                return "L11"
            self.home[key(own)] = key(source)
            vertex = self.vertices[key(own)]
            span = (*position(vertex["start"]), *position(vertex["end"]))  # type: ignore[misc]
            if any(conflicts(span, other) for other in spans):
                return "L12"
            spans.append(span)
        return None

    def end(self) -> Optional[tuple[int, str]]:
        """The fault of the whole dump: the line of the first element that has one, and its code."""
        alone = [
            (self.lines[own], "E01")
            for own, element in self.vertices.items()
            if element["label"] == "range" and own not in self.home
        ]
        return min(
            [*alone, *((n, "E02") for n, item in self.items if self.is_astray(item))], default=None
        )

    def is_astray(self, item: Element) -> bool:
        """Whether a target of an item isn't in the document that its shard names (E02)."""
        shard = key(item.get("shard", item.get("document")))
        if item.get("property") == "referenceResults":
            return False
        if self.vertices[shard]["label"] != "document":
            return False
        return any(self.home.get(key(own)) != shard for own in item["inVs"])


def key(own: Any) -> Any:
    """An id as the key of a table, in which 1 and "1" differ."""
    return (type(own).__name__, own)


def conflicts(one: tuple[Any, ...], other: tuple[Any, ...]) -> bool:
    """Whether two spans are equal, or overlap and aren't nested."""
    if one == other:
        return True
    overlap = max(one[:2], other[:2]) < min(one[2:], other[2:])
    nested = (
        one[:2] <= other[:2]
        and other[2:] <= one[2:]
        or other[:2] <= one[:2]
        and one[2:] <= other[2:]
    )
    return overlap and not nested


def depth(value: Any) -> int:
    """How deep arrays and objects are nested."""
    if isinstance(value, dict):
        value = list(value.values())
    return 1 + max(map(depth, value), default=0) if isinstance(value, list) else 0


def lines_of(body: bytes) -> list[bytes]:
    """The lines of a body, without their line feeds."""
    return body.removesuffix(b"\n").split(b"\n") if body else []


def fault(body: bytes, profile: str) -> Optional[str]:
    """The first fault of a dump as `line N: CODE`, or None where the server accepts it in a
    profile."""
    checker, number = Checker(profile), 0
    for number, text in enumerate(lines_of(body), 1):
        code = checker.line(number, text)
        if code:
            return f"line {number}: {code}"
    found = checker.end() if number else (1, "L06")
    return f"line {found[0]}: {found[1]}" if found else None
