"""Adds to a prepared dump what the dump that it was made of says beside what the server answers: as
documents beside its own, whose hovers have it. So it's replaced and removed with the dump."""

import json
import os
from dataclasses import replace
from itertools import count
from typing import Any, Iterator

from codenav import limits
from codenav.dumps.dump import opened_dump
from codenav.dumps.lsif.elements import Element, Span, span_of, targets_of
from codenav.dumps.lsif.more import More, read_more
from codenav.dumps.lsif.reading import Source
from codenav.outcome import Outcome
from codenav.publishing.made import Row
from codenav.records import MORE_OF, MORE_ON

PIECE = 200_000
"""Characters of a list in one hover."""
MOST_ENDS = 1_000
SPARE = 100
"""Elements that are left to what else is added."""
WHAT = "types, monikers, folds and links"
KEPT = {
    text
    for what in ("typeDefinition", "foldingRange", "documentLink")
    for text in (f"vertex {what}Result", f"edge textDocument/{what}")
}
"""The notes of labels that have no effect without it."""
OF_SET = Row(WHAT, None, "not kept with sets")


def add_more(raw: str, dump: str) -> list[Row]:
    """Adds it to the file of a prepared dump; answers what was left out. Raises NotADump."""
    with opened_dump(raw) as source:
        if not isinstance(source, Source):
            return [Row(WHAT, None, "of a SCIP index")]
        known = read_more(source)
    own, taken, elements = prepared_ranges(dump, known)
    ids = (name for number in count(1) if (name := f"{MORE_OF}{number}") not in taken)
    lines = [
        json.dumps(one).encode() + b"\n"
        for uri, more in known.items()
        if uri in own
        for one in elements_of(uri, more, own[uri], ids)
    ]
    size = os.path.getsize(dump) + sum(map(len, lines))
    over = limits.excesses(elements + len(lines) + SPARE, size + SPARE * 1_000, 0)
    if over:
        return [Row(WHAT, None, str(over[0]))]
    with open(dump, "ab") as file:
        file.writelines(lines)
    return []


def without_kept(outcome: Outcome) -> Outcome:
    """What came of a dump, without the labels that have an effect now."""
    notes = (one for one in outcome.notes if one.what not in KEPT)
    return replace(outcome, notes=tuple(notes))


def prepared_ranges(
    dump: str, known: dict[str, More]
) -> tuple[dict[str, list[Span]], set[Any], int]:
    """The spans of the documents of a prepared dump of which more is known, by their addresses; its
    ids, and how many elements it has."""
    documents, spans = dict[Any, str](), dict[Any, Span]()
    found, taken, elements = dict[str, list[Span]](), set[Any](), 0
    with opened_dump(dump) as source:
        assert isinstance(source, Source)
        for row in source.rows():
            element, elements = row.element, elements + 1
            taken.add(element.get("id"))
            if element["label"] == "document" and element["uri"] in known:
                documents[element["id"]] = element["uri"]
                found[element["uri"]] = []
            elif element["label"] == "range" and (span := span_of(element)) is not None:
                spans[element["id"]] = span
            elif element["label"] == "contains" and element["outV"] in documents:
                own = found[documents[element["outV"]]]
                own += [spans[one] for one in targets_of(element) if one in spans]
    return found, taken, elements


def elements_of(uri: str, more: More, spans: list[Span], ids: Iterator[str]) -> Iterator[Element]:
    """The elements for a document: of its places one with their spans, and of its lists one with a
    place for each piece of them."""
    places = {
        span: json.dumps(more.places[span], sort_keys=True) for span in spans if span in more.places
    }
    yield from document_of(MORE_OF + uri, places, ids)
    texts = [json.dumps([what, one]) for what in ("folds", "links") for one in getattr(more, what)]
    pieces, size = list[list[str]](), PIECE
    for text in texts:
        if size + len(text) > PIECE:
            pieces.append([])
            size = 0
        pieces[-1].append(text)
        size += len(text)
    lists = {
        (number, 0, number, 1): f"[{','.join(piece)}]"
        for number, piece in enumerate(pieces)
        if sum(map(len, piece)) < limits.MOST_LINE_BYTES // 2
    }
    yield from document_of(MORE_ON + uri, lists, ids)


def document_of(uri: str, texts: dict[Span, str], ids: Iterator[str]) -> Iterator[Element]:
    """A document whose places have hovers of these texts; nothing where there are none."""
    if not texts:
        return
    vertex, edge = {"type": "vertex"}, {"type": "edge"}
    document, places, hovers = next(ids), dict[Span, str](), dict[str, str]()
    yield {"id": document, **vertex, "label": "document", "uri": uri, "languageId": "json"}
    for span in texts:
        places[span] = next(ids)
        ends = [{"line": span[at], "character": span[at + 1]} for at in (0, 2)]
        own = {"id": places[span], **vertex, "label": "range"}
        yield {**own, "start": ends[0], "end": ends[1]}
    for text in dict.fromkeys(texts.values()):
        hovers[text] = next(ids)
        result = {"contents": text}
        yield {"id": hovers[text], **vertex, "label": "hoverResult", "result": result}
    inside = list(places.values())
    for at in range(0, len(inside), MOST_ENDS):
        own = {"id": next(ids), **edge, "label": "contains", "outV": document}
        yield {**own, "inVs": inside[at : at + MOST_ENDS]}
    for span, text in texts.items():
        own = {"id": next(ids), **edge, "label": "textDocument/hover", "outV": places[span]}
        yield {**own, "inV": hovers[text]}
