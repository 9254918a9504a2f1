"""Dumps in which each word of some texts is a symbol of its own name: what stands behind `def` or
`class` is its definition, and all else are references. So what an index of them answers can be read
off the texts."""

import json
import re
from typing import Any, Iterator, NamedTuple

from codenav.texts.places import units

WORD = re.compile(r"[^\W\d]\w*")
DEFINES = re.compile(r"(?:def|class)\s+\Z")
KEYWORDS = {"def", "class", "return", "pass", "import"}


class Word(NamedTuple):
    """A word of a document, where it is, in UTF-16 code units, and whether it's defined there."""

    uri: str
    text: str
    line: int
    start: int
    end: int
    is_definition: bool

    def span(self) -> dict[str, Any]:
        """Its range."""
        ends = [{"line": self.line, "character": at} for at in (self.start, self.end)]
        return {"start": ends[0], "end": ends[1]}


def words_of(texts: dict[str, str]) -> Iterator[Word]:
    """The words of texts, by the addresses of these."""
    for uri, text in texts.items():
        for number, line in enumerate(text.split("\n")):
            start = after = 0
            for found in WORD.finditer(line):
                start += units(line[after : found.start()])
                after, end = found.end(), start + units(found[0])
                if found[0] not in KEYWORDS:
                    before = line[max(found.start() - 9, 0) : found.start()]
                    is_definition = DEFINES.search(before) is not None
                    yield Word(uri, found[0], number, start, end, is_definition)
                start = end


def dump_of(texts: dict[str, str]) -> bytes:
    """The dump of texts, by the addresses of these."""
    rows: list[dict[str, Any]] = []

    def add(**members: Any) -> int:
        rows.append({"id": len(rows) + 1, **members})
        return len(rows)

    def vertex(label: str, **members: Any) -> int:
        return add(type="vertex", label=label, **members)

    def edge(label: str, start: int, **members: Any) -> int:
        return add(type="edge", label=label, outV=start, **members)

    vertex("metaData", version="0.6.0", positionEncoding="utf-16")
    documents = {uri: vertex("document", uri=uri, languageId="python") for uri in texts}
    words = list(words_of(texts))
    sets, ranges = dict[str, dict[str, int]](), dict[Word, int]()
    for name in dict.fromkeys(word.text for word in words):
        own = {what: vertex(what) for what in ("resultSet", "definitionResult", "referenceResult")}
        own["hover"] = vertex("hoverResult", result={"contents": f"the word {name}"})
        edge("textDocument/definition", own["resultSet"], inV=own["definitionResult"])
        edge("textDocument/references", own["resultSet"], inV=own["referenceResult"])
        edge("textDocument/hover", own["resultSet"], inV=own["hover"])
        sets[name] = own
    for word in words:
        ranges[word] = vertex("range", **word.span())
        edge("next", ranges[word], inV=sets[word.text]["resultSet"])
    for uri, document in documents.items():
        if inside := [ranges[word] for word in words if word.uri == uri]:
            edge("contains", document, inVs=inside)
    found: dict[tuple[str, bool, str], list[int]] = {}
    for word, place in ranges.items():
        found.setdefault((word.text, word.is_definition, word.uri), []).append(place)
    for (name, is_definition, uri), inside in found.items():
        own, more = sets[name], {"inVs": inside, "shard": documents[uri]}
        role = "definitions" if is_definition else "references"
        edge("item", own["referenceResult"], property=role, **more)
        if is_definition:
            edge("item", own["definitionResult"], **more)
    return b"".join(json.dumps(row).encode() + b"\n" for row in rows)
