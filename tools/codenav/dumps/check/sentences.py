"""What an indexer should have written in place of a faulty element: one sentence for each code, or
for each of its labels."""

from codenav.dumps.lsif.elements import Element
from codenav.kinds import KINDS

CODES = {
    "L01": "a line has at most 1,048,576 bytes without its line feed: write an edge with so many targets as several edges, and cut a text that is so long.",
    "L02": "each line is one JSON value in UTF-8, nested in at most 127 levels, and no line is blank.",
    "L03": "each line is an object with an `id`, a whole number from 0 to 9007199254740991 or a text of 1 to 128 bytes; the dump is no JSON array.",
    "L04": 'each element has an id that no other element has, vertices and edges alike; the number 1 and the text "1" are two ids.',
    "L05": '`type` is "vertex" or "edge", and `label` is a text.',
    "L06": 'the first line, and no other, is a `metaData` vertex with `version` "0.6.0" and, where it has one, `positionEncoding` "utf-16"; '
    "`codenav prepare` sets the version.",
    "L09": "a vertex is written before each edge that names it, and an edge joins vertices alone.",
    "L11": "a range is named once in all `contains` edges.",
    "L12": "a document has one range for each span, and ranges that overlap are nested, one in the other; `codenav prepare` merges equal ones.",
    "L13": "one edge of this label, at most, goes out from a vertex.",
    "L14": "`next` edges lead on to other vertices, and never back to one that they came from.",
    "L15": 'an `item` edge has the id of a document or project as `shard` (or as `document`), and a `property`, where it has one, is "definitions", '
    '"references" or "referenceResults".',
    "L16": "the `shard` (or where there is none, `document`) of an `item` edge is the id of a document or project that is written before it.",
    "L17": "a document event names in `data` a document that is written before it, and of a document there is one begin and one end at most, and no end "
    "without a begin before it.",
    "L18": "a document ends after the last edge that goes out from it by `contains` or names one of its ranges.",
    "L19": "a document is one vertex, and no two have uris that the URL Standard serializes to one text.",
    "L20": "a dump has at most 100,000 elements: write several dumps, or leave out what has no effect, as `codenav prepare --strip` does.",
    "E01": "a `contains` edge from its document names each range.",
    "E02": "an `item` edge has as `shard` the document that contains its targets: targets in several documents need an edge for each.",
}
VERTICES = {
    "document": "a `document` has a `uri` that the URL Standard parses, with its scheme.",
    "range": "a `range` has a `start` and an `end`, each with a `line` and a `character` from 0 to 2147483647, and doesn't start after its end.",
    "hoverResult": 'a `hoverResult` has in `result` the `contents`: a text, a `kind` ("plaintext" or "markdown") and a `value`, '
    "a `language` and a `value`, or an array of texts and of objects with `language` and `value`.",
    "moniker": 'a `moniker` has texts without U+0000 as `scheme` and `identifier`, and a `kind`, where it has one, is "import", "export" or "local".',
    "packageInformation": "a `packageInformation` has texts without U+0000 as `name`, `manager` and, where it has one, `version`.",
    "$event": 'an event has a text as `scope` and, where that is "document", as `kind` "begin" or "end" and as `data` the document\'s id.',
}
JOINED = {
    "contains": "a project with documents, or a document with ranges",
    "next": "a range or a resultSet with a resultSet",
    **{
        kind.edge: f"a range or a resultSet with {'an' if kind.result[0] in 'aeiou' else 'a'} {kind.result}"
        for kind in KINDS
    },
    "moniker": "a range or a resultSet with a moniker",
    "packageInformation": "a moniker with a packageInformation",
    "attach": "a moniker with a moniker",
    "item": 'a definitionResult with ranges (`property` "definitions" or none), a referenceResult with ranges ("definitions" or "references") or with '
    'referenceResults ("referenceResults"), and in profile 2 a declarationResult or an implementationResult with ranges (none)',
}


def edge_members(label: str) -> str:
    """What ends an edge of a label has."""
    if label in ("contains", "item"):
        return f"an edge `{label}` has the id of its source in `outV` and an array of ids in `inVs`, and no `inV`."
    if label in JOINED:
        return f"an edge `{label}` has the id of its source in `outV` and that of its target in `inV`, and no `inVs`."
    return f"an edge `{label}` has the id of its source in `outV`, and either the id of its target in `inV` or an array of ids in `inVs`."


def sentence(code: str, element: Element) -> str:
    """The sentence for a code, of the element that has the fault."""
    label = str(element.get("label"))
    if code == "L07":
        text = VERTICES.get(label, "each member of a vertex has the form that its label asks for.")
    elif code == "L08":
        text = edge_members(label)
    elif code == "L10":
        text = f"an edge `{label}` joins {JOINED.get(label, 'vertices')}."
    else:
        text = CODES[code]
    return f"What an indexer should write: {text}"
