"""What `publish --more` kept beside a dump: of a place the types and the monikers, and of a document
what can be folded and what is a link."""

import json
from typing import Any, Callable, Iterator, Optional

from codenav.addresses import serialized
from codenav.client.fetch import is_place
from codenav.records import MORE_OF, MORE_ON

TYPES, MONIKERS, FOLDS, LINKS = "typeDefinition", "moniker", "foldingRange", "documentLink"
OF_DOCUMENTS = {FOLDS: "folds", LINKS: "links"}
MORE = (TYPES, MONIKERS, *OF_DOCUMENTS)
MOST_PIECES = 100
TEXTS = {"scheme": str, "identifier": str, "unique": str}
Query = Callable[[str, dict[str, Any], str], Any]
Row = dict[str, Any]


def found_more(what: str, project: str, query: Query, asked: dict[str, Any]) -> list[Row]:
    """What is kept of a place that is asked for, or of its document: monikers as the Language Server
    Protocol has them, else places as those of an answer are, with what is said of them as `own`.
    Raises NoReply."""
    uri = serialized(asked["uri"])
    if what in OF_DOCUMENTS:
        kept = list(of_document(OF_DOCUMENTS[what], uri, query))
        found = [(fold_of if what == FOLDS else link_of)(uri, one) for one in kept]
        return [own for one in found if is_place(own := {"project": project, **one})]
    facts = read(query("hover", {**asked, "uri": MORE_OF + uri}, "contents"))
    facts = facts if isinstance(facts, dict) else {}
    if what == MONIKERS:
        return [one for one in listed(facts.get("monikers")) if is_moniker(one)]
    places = [{"project": project, **type_of(one)} for one in listed(facts.get("types"))]
    return [one for one in places if is_place(one)]


def of_document(what: str, uri: str, query: Query) -> Iterator[Any]:
    """What is kept of a document, piece by piece. Raises NoReply."""
    for number in range(MOST_PIECES):
        at = {"uri": MORE_ON + uri, "line": number, "character": 0}
        piece = read(query("hover", at, "contents"))
        if piece is None:
            return
        yield from (one[1] for one in listed(piece) if listed(one)[:1] == [what] and len(one) == 2)


def read(contents: Any) -> Optional[Any]:
    """What the contents of a hover have; None where they've nothing."""
    try:
        return json.loads(contents)
    except (TypeError, ValueError, RecursionError):
        return None


def listed(value: Any) -> list[Any]:
    """A list, or an empty one in the place of something else."""
    return value if isinstance(value, list) else []


def position(line: Any, character: Any) -> Row:
    """A position, which may be none."""
    return {"line": line, "character": 0 if character is None else character}


def type_of(kept: Any) -> Row:
    """The place of a type."""
    uri, *ends = [*listed(kept), *[None] * 5][:5]
    return {"uri": uri, "start": position(*ends[:2]), "end": position(*ends[2:])}


def fold_of(uri: str, kept: Any) -> Row:
    """The place of what can be folded."""
    own = kept if isinstance(kept, dict) else {}
    start, end = (
        position(own.get(f"{one}Line"), own.get(f"{one}Character")) for one in ("start", "end")
    )
    return {"uri": uri, "start": start, "end": end, "own": own}


def link_of(uri: str, kept: Any) -> Row:
    """The place of a link."""
    own = kept if isinstance(kept, dict) else {}
    kept_range = own.get("range")
    span = kept_range if isinstance(kept_range, dict) else {}
    return {"uri": uri, "start": span.get("start"), "end": span.get("end"), "own": own}


def is_moniker(value: Any) -> bool:
    """Whether a value has the members of a moniker."""
    return isinstance(value, dict) and all(
        type(value.get(name)) is kind for name, kind in TEXTS.items()
    )
