"""Says of a dump alone why a request at a place is answered as it is: each range there, the
innermost first, with whether it speaks and by which edges, the result and its items, and the keys
that other projects are asked by; or what is missing. Numbers of lines are those of the dump, from
1, and positions count from 0 as there.
"""

import os
from typing import BinaryIO, NamedTuple, Optional
from urllib.parse import quote

from codenav.addresses import serialized
from codenav.dumps.check.followed import Found, Graph, Trail
from codenav.dumps.check.lines import Dump
from codenav.dumps.lsif.reading import plain
from codenav.faults import BadCall, NotADump
from codenav.kinds import Kind, hover_text
from codenav.texts.places import KEPT, Maps, place_line, place_of, uri_of


class Answered(NamedTuple):
    """Why a request is answered as it is, in lines, and whether a range is asked."""

    lines: list[str]
    is_asked: bool


def document_of(graph: Graph, path: str, maps: Maps) -> int:
    """The line of the document of a file, or of the one document whose uri is `path` or ends with
    it; raises BadCall."""
    uri, end = serialized(uri_of(path, maps)), "/" + quote(os.path.normpath(path), safe=KEPT)
    own = [line for line, known in graph.documents.items() if serialized(known) == uri]
    near = [line for line, known in graph.documents.items() if known == path or known.endswith(end)]
    if len(own or near) != 1:
        known = ", ".join(list(graph.documents.values())[:3])
        raise BadCall(
            f"{path} is {len(near)} of the {len(graph.documents)} documents of {graph.dump.name}: {known}"
        )
    return (own or near)[0]


def asked(trails: list[Trail], kind: Kind) -> Optional[Trail]:
    """The trail of the range that a request is asked of."""
    return next((trail for trail in trails if trail.speaks(kind)), None)


def places(graph: Graph, trail: Optional[Trail], kind: Kind) -> list[Found]:
    """The places of this dump that a request is answered with, in order and each once."""
    found = [] if trail is None else [graph.place(own) for _, own in graph.items(trail, kind)]
    by_order = {
        (place["uri"].encode(), *place["start"].values(), *place["end"].values()): place
        for place in found
    }
    return [by_order[order] for order in sorted(by_order)]


def contents(graph: Graph, trail: Optional[Trail], kind: Kind) -> Optional[str]:
    """The text of the hover contents of this dump that a request is answered with."""
    if trail is None or trail.bound is None or kind.name != "hover":
        return None
    found = graph.hover(graph.dump.at(trail.bound)["inV"])
    return None if found is None else hover_text(found)


def reason(trail: Trail, kind: Kind) -> str:
    """Why a request is asked of the range of a trail where no smaller range speaks, or why it
    isn't."""
    article = "an" if kind.shown[0] in "aeiou" else "a"
    if trail.bound is not None:
        return f"asked, for it has {article} {kind.shown}"
    count = len(trail.nexts)
    along = (
        (
            "itself or along its `next` edge"
            if count == 1
            else f"itself or along its {count} `next` edges"
        )
        if count
        else "and no `next` edge"
    )
    missing = f"it has no {kind.shown} {along}"
    kinds = " or ".join(kind.asks)
    return (
        f"asked, for {missing}, but an {kinds} moniker"
        if trail.speaks(kind)
        else f"not asked: {missing}, and no {kinds} moniker"
    )


def steps(graph: Graph, trail: Trail, kind: Kind, maps: Maps) -> list[str]:
    """The edges of a trail with what they lead to, and its monikers."""
    dump, lines = graph.dump, []
    for line in (*trail.nexts, *([] if trail.bound is None else [trail.bound])):
        edge = dump.at(line)
        lines.append(
            f"{edge['label']} edge at line {line}, to the {graph.vertex(edge['inV'])['label']} at line {dump.first[edge['inV']]}"
        )
    for line, own in graph.items(trail, kind):
        lines.append(
            f"item edge at line {line}, to the range at line {dump.first[own]}: {place_line(place_of(graph.place(own), maps), False)}"
        )
    lines += [
        f"{moniker.kind} moniker at line {moniker.line}, by the edge at line {moniker.edge}: {moniker.key}"
        for moniker in trail.monikers
    ]
    return [f"  {line}" for line in (*lines, *trail.refused)]


def outcome(graph: Graph, trail: Optional[Trail], kind: Kind) -> list[str]:
    """What the answer has of this dump, and what it may have of others."""
    text = contents(graph, trail, kind)
    if trail is None:
        return ["answer: empty, for no range here is asked"]
    if text is not None:
        return [
            f"answer: the contents of the {kind.shown}",
            *(f"  {line}" for line in text.splitlines()),
        ]
    if trail.bound is not None and kind.name == "hover":
        return ["answer: empty, for the server takes no contents of its hover result"]
    count = len(places(graph, trail, kind))
    lines = [f"answer: {count} place{'' if count == 1 else 's'} of this dump"]
    if trail.bound is not None and count == 0:
        is_taken = not any(line.startswith("item ") for line in trail.refused)
        which = kind.shown if is_taken else f"{kind.shown} that the server takes"
        lines[0] += f", for no `item` edge of its {which} leads to a range that a document contains"
    for moniker in trail.monikers:
        if moniker.kind in kind.asks:
            lines.append(
                f"  and those of other projects that have an {' or '.join(kind.answers)} moniker with the key of line {moniker.line}"
            )
    return lines


def explained(graph: Graph, trails: list[Trail], kind: Kind, maps: Maps) -> list[str]:
    """The lines on the ranges at a position, the innermost first, and the answer."""
    speaker, lines, is_asked = asked(trails, kind), [], False
    for trail in trails:
        why = "not asked, for a smaller range is" if is_asked else reason(trail, kind)
        lines.append(
            f"range at line {trail.line}, {trail.span[0]}:{trail.span[1]} to {trail.span[2]}:{trail.span[3]}: {why}"
        )
        lines += [] if is_asked else steps(graph, trail, kind, maps)
        is_asked = is_asked or trail is speaker
    return [*(lines or ["no range covers the position"]), *outcome(graph, speaker, kind)]


def why(
    file: BinaryIO, name: str, kind: Kind, path: str, position: tuple[int, int], maps: Maps
) -> Answered:
    """Why a request at a position of a file is answered as it is by the dump in a file, which
    messages call by a name. Raises BadCall and NotADump."""
    try:
        with plain(file, name) as lines:
            graph = Graph(Dump(name, lines, None))
            document = document_of(graph, path, maps)
            trails = [graph.trail(own, kind) for own in graph.covering(document, position)]
            head = f"{kind.name} at {graph.documents[document]} (line {document}), {position[0]}:{position[1]}"
            refused = graph.not_taken([graph.dump.at(document)["id"]], ("contains",))
            said = [head, *refused, *explained(graph, trails, kind, maps)]
            return Answered(said, asked(trails, kind) is not None)
    except (KeyError, TypeError):
        raise NotADump(f"{name}: not a dump that `codenav check-lsif` accepts") from None
