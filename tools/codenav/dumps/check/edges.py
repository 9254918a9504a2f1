"""Which edges of a dump the server takes, by their ends, and else why it doesn't. Neither the order of
elements nor the `shard` of an item is looked at, nor what other edges there are."""

import json
from typing import Any, Callable

from codenav.dumps.lsif.elements import Element
from codenav.dumps.prepare.labels import FROM, INTO, LABELS, NUMBERS
from codenav.dumps.prepare.survey import is_sound
from codenav.kinds import KINDS

ROLES = ("definitions", "references", "referenceResults")
JOINED: dict[str, dict[tuple[str, str], tuple[Any, ...]]] = {
    "contains": {("project", "document"): (), ("document", "range"): ()},
    "item": {
        **{(kind.result, "range"): kind.properties for kind in KINDS if kind.properties},
        ("referenceResult", "referenceResult"): ("referenceResults",),
    },
    **{
        label: {(LABELS[source], LABELS[target]): () for source in FROM[label]}
        for label, target in INTO.items()
    },
}
"""What edges of each label join, and the properties of an item that does."""


def flaw(edge: Element, kind: Callable[[Any], str]) -> str:
    """Why the server doesn't take an edge of one of these labels; the empty text where it does.
    `kind` answers the label of a vertex by its id, or the empty text where none has it."""
    label, own, role = edge["label"], edge.get("outV"), edge.get("property")
    is_list = label in ("contains", "item")
    member, other = ("inVs", "inV") if is_list else ("inV", "inVs")
    those = edge.get(member) if is_list else [edge.get(member)]
    if other in edge or not isinstance(those, list) or not all(map(is_sound, [own, *those])):
        return f"it hasn't its ends in `outV` and `{member}` alone (L08 bad edge ends)"
    with_role = ""
    if label == "item":
        if "property" in edge and role not in ROLES:
            return f"its `property` is {json.dumps(role)} (L15 bad item property or shard)"
        with_role = f" as {json.dumps(role)}" if role else " without a `property`"
    for end in (own, *those):
        if not kind(end):
            return f"no vertex has the id {json.dumps(end)} (L09 vertex not emitted before)"
    source, kinds = kind(own), {kind(end) for end in those}
    if label == "item" and source not in (*NUMBERS, "$event"):
        return ""
    for (known, target), roles in JOINED[label].items():
        if known == source and kinds <= {target} and (label != "item" or role in roles):
            return ""
    ends = " and a ".join(sorted(kinds)) or "nothing"
    return f"it leads from a {source} to a {ends}{with_role} (L10 edge may not join these)"
