"""What the element of a fault conflicts with, for each code."""

import json
from typing import Callable, Iterator

from codenav.addresses import serialized
from codenav.dumps.check.lines import Dump, ends, targets
from codenav.dumps.lsif.elements import Element, Id, shard_of
from codenav.dumps.overlaps import crossing

MOST_RANGES = 5


def contained(dump: Dump, line: int) -> dict[Id, tuple[int, Id]]:
    """What `contains` edges before a line name: the first such edge's line, and where it goes out
    from."""
    result: dict[Id, tuple[int, Id]] = {}
    for number, edge in dump.before(line, "edge", "contains"):
        for own in targets(edge):
            result.setdefault(own, (number, edge["outV"]))
    return result


def events(dump: Dump, line: int) -> Iterator[tuple[int, Element]]:
    """The document events before a line."""
    return (
        (number, event)
        for number, event in dump.before(line, "vertex", "$event")
        if event.get("scope") == "document"
    )


def nothing(dump: Dump, line: int, element: Element) -> list[str]:
    """A fault of one line alone: the element says it all."""
    return [""]


def same_id(dump: Dump, line: int, element: Element) -> list[str]:
    """L04: the earlier element."""
    first = dump.first[element["id"]]
    return [dump.shown(first)] if first < line else []


def other_metadata(dump: Dump, line: int, element: Element) -> list[str]:
    """L06: of a later line the first."""
    return [dump.shown(1)] if line > 1 else [""]


def not_earlier(dump: Dump, line: int, element: Element) -> list[str]:
    """L09: what each end names that is no earlier vertex."""
    late = [
        own
        for own in ends(element)
        if dump.first.get(own, line) >= line or dump.at(dump.first[own])["type"] != "vertex"
    ]
    return [dump.named(own, line) for own in dict.fromkeys(late)]


def joined(dump: Dump, line: int, element: Element) -> list[str]:
    """L10: the source, and one target of each label."""
    kinds: dict[str, Id] = {}
    for own in ends(element)[1:]:
        if own in dump.first:
            kinds.setdefault(dump.at(dump.first[own])["label"], own)
    return [dump.named(own, line) for own in dict.fromkeys([element.get("outV"), *kinds.values()])]


def contained_before(dump: Dump, line: int, element: Element) -> list[str]:
    """L11: the range, and the `contains` edge that named it."""
    homes = contained(dump, line)
    here: set[Id] = set()
    for own in targets(element):
        if own in homes:
            return [dump.placed(own, homes[own][1]), dump.shown(homes[own][0])]
        if own in here:
            return [
                dump.placed(own, element.get("outV")),
                f"{dump.name}:{line}: its inVs have {json.dumps(own)} twice",
            ]
        here.add(own)
    return []


def overlapping(dump: Dump, line: int, element: Element) -> list[str]:
    """L12: both ranges."""
    document = element.get("outV")
    own = [own for own, (_, home) in contained(dump, line).items() if home == document]
    spans = {one: span for one in own + targets(element) if (span := dump.span(one)) is not None}
    order = sorted(spans, key=lambda one: (*spans[one][:2], -spans[one][2], -spans[one][3]))
    pair = next(crossing((spans[one][:2], spans[one][2:]) for one in order), ())
    return [dump.placed(order[at], document) for at in pair]


def edge_before(dump: Dump, line: int, element: Element) -> list[str]:
    """L13: the earlier edge of this label out of the same vertex."""
    return [
        dump.shown(number)
        for number, edge in dump.before(line, "edge", element["label"])
        if edge["outV"] == element.get("outV")
    ]


def way_back(dump: Dump, line: int, element: Element) -> list[str]:
    """L14: the `next` edges from the target to the source."""
    steps = {
        edge["outV"]: (number, edge["inV"]) for number, edge in dump.before(line, "edge", "next")
    }
    at, notes = element.get("inV"), []
    while at != element.get("outV") and at in steps:
        number, at = steps.pop(at)
        notes.append(dump.shown(number))
    return (notes or [""]) if at == element.get("outV") else []


def shard_named(dump: Dump, line: int, element: Element) -> list[str]:
    """L16: what the shard names."""
    return [dump.named(shard_of(element), line)]


def event_before(dump: Dump, line: int, element: Element) -> list[str]:
    """L17: what the event's data names, and the earlier events of that document."""
    data = element.get("data")
    return [dump.named(data, line)] + [
        dump.shown(number) for number, event in events(dump, line) if event.get("data") == data
    ]


def ended_before(dump: Dump, line: int, element: Element) -> list[str]:
    """L18: the end of the document and, where a range of it is named, that range and the edge that
    contains it."""
    over = {
        event["data"]: number for number, event in events(dump, line) if event.get("kind") == "end"
    }
    if element["label"] == "contains" and element.get("outV") in over:
        return [dump.shown(over[element["outV"]])]
    homes = contained(dump, line)
    for own in ends(element):
        if own in homes and homes[own][1] in over:
            return [
                dump.placed(own, homes[own][1]),
                dump.shown(homes[own][0]),
                dump.shown(over[homes[own][1]]),
            ]
    return []


def same_uri(dump: Dump, line: int, element: Element) -> list[str]:
    """L19: the earlier document."""
    own = serialized(str(element.get("uri")))
    found = [
        number
        for number, document in dump.before(line, "vertex", "document")
        if serialized(str(document.get("uri"))) == own
    ]
    return [dump.shown(number) for number in found] or [
        "the earlier document has a uri that is written in another way"
    ]


def in_no_document(dump: Dump, line: int, element: Element) -> list[str]:
    """E01: the range."""
    return [] if element["id"] in contained(dump, dump.count + 1) else [dump.placed(element["id"])]


def elsewhere(dump: Dump, line: int, element: Element) -> list[str]:
    """E02: the ranges that aren't in the shard, with the documents that they're in, and the
    shard."""
    homes, shard = contained(dump, dump.count + 1), shard_of(element)
    away = [
        own for own in dict.fromkeys(targets(element)) if own in homes and homes[own][1] != shard
    ]
    notes = [dump.placed(own, homes[own][1]) for own in away[:MOST_RANGES]]
    if len(away) > MOST_RANGES:
        notes.append(f"and {len(away) - MOST_RANGES} ranges more")
    return [*notes, dump.named(shard, line)] if away else []


ANY = ""
CONFLICTS: dict[str, tuple[str, str, Callable[[Dump, int, Element], list[str]]]] = {
    "L04": (ANY, ANY, same_id),
    "L06": (ANY, ANY, other_metadata),
    "L07": ("vertex", ANY, nothing),
    "L08": ("edge", ANY, nothing),
    "L09": ("edge", ANY, not_earlier),
    "L10": ("edge", ANY, joined),
    "L11": ("edge", "contains", contained_before),
    "L12": ("edge", "contains", overlapping),
    "L13": ("edge", ANY, edge_before),
    "L14": ("edge", "next", way_back),
    "L15": ("edge", "item", nothing),
    "L16": ("edge", "item", shard_named),
    "L17": ("vertex", "$event", event_before),
    "L18": ("edge", ANY, ended_before),
    "L19": ("vertex", "document", same_uri),
    "E01": ("vertex", "range", in_no_document),
    "E02": ("edge", "item", elsewhere),
}
"""The type and the label of the elements that can have a fault, and what finds its conflicts."""


def conflicts(dump: Dump, line: int, code: str, element: Element) -> list[str]:
    """What an element conflicts with; nothing where it can't have the fault, as where the report is
    of another dump."""
    kind, label, find = CONFLICTS[code]
    if kind not in (ANY, element["type"]) or label not in (ANY, element["label"]):
        return []
    try:
        return find(dump, line, element)
    except (KeyError, TypeError, ValueError, AttributeError):
        return []
