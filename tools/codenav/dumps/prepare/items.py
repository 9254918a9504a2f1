"""Writes the `item` edges of a dump by its plan: one for each document of the places of a result."""

from typing import Any, Optional

from codenav.dumps.lsif.elements import Element, Row, is_id, shard_of, targets_of
from codenav.dumps.prepare.labels import (
    DECLARATION,
    DEFINITION,
    DOCUMENT,
    IMPLEMENTATION,
    OTHER,
    PROJECT,
    RANGE,
    REFERENCE,
)
from codenav.dumps.prepare.numbers import NONE
from codenav.dumps.prepare.plan import DROPPED, KEPT, MOVED
from codenav.dumps.prepare.putting import WRITTEN, WRITTEN_AS_SET, Putting

ROLES = (None, "definitions", "references", "referenceResults")
LISTED = (DEFINITION, DECLARATION, IMPLEMENTATION)
REFUSED = "refused"


class Items:
    """Writes `item` edges."""

    def __init__(self, putting: Putting) -> None:
        plan = putting.plan
        self.putting, self.notes = putting, plan.notes
        self.number, self.state, self.ids = putting.number, putting.state, putting.ids
        self.kinds, self.home, self.moved = plan.kinds, plan.home, plan.moved

    def item(self, row: Row) -> None:
        """Writes the places of a result: an edge for each document that they're in."""
        element, state, number = row.element, self.state, self.number
        source = number[element["outV"]]
        if state[source] in (DROPPED, MOVED):
            return
        if state[source] < WRITTEN:
            raise self.putting.changed(row)
        given = element.get("property")
        role = self.role_of(self.kinds[source], given, row.line)
        if role is REFUSED:
            return
        shard = shard_of(element)
        place = number.get(shard, NONE) if is_id(shard) else NONE
        is_place = (
            place != NONE and state[place] == WRITTEN and self.kinds[place] in (DOCUMENT, PROJECT)
        )
        if (
            role == given
            and is_place
            and "inV" not in element
            and self.is_fitting(row, role, place)
        ):
            self.putting.again(
                row,
                {
                    "inVs": [self.ids[number[own]] for own in element["inVs"]],
                    "document": None,
                    "shard": self.ids[place],
                }
                if self.putting.renumbers
                else {},
            )
            return
        self.places(
            row, role, [number[own] for own in targets_of(element)], place if is_place else NONE
        )

    def role_of(self, kind: int, given: Any, line: int) -> Any:
        """The property that an `item` edge out of a vertex is written with; REFUSED where it isn't
        written."""
        if kind == REFERENCE:
            if given in ROLES[1:]:
                return given
            if given is None or given == "declarations":
                of = "without a property" if given is None else f"with the property {given}"
                self.notes.mend(f"item of a referenceResult {of}", line)
                return "references" if given is None else "definitions"
        elif kind in LISTED:
            if given is None or (given, kind) == ("definitions", DEFINITION):
                return given
            if given in ("definitions", "declarations"):
                return None
        elif kind == OTHER:
            return given if given in ROLES else None
        else:
            self.notes.leave_out("`item` edge out of a vertex that is no result", f"line {line}")
            return REFUSED
        of = "without a property" if given is None else f"with the property {str(given)[:40]}"
        self.notes.mend(f"item {of}, dropped", line)
        return REFUSED

    def is_fitting(self, row: Row, role: Optional[str], place: int) -> bool:
        """Whether the targets of an `item` edge can stay as they are: ranges of the document that
        it names, or of a project's documents, or results."""
        number, state, home, kinds = self.number, self.state, self.home, self.kinds
        targets = row.element.get("inVs")
        if not isinstance(targets, list):
            return False
        if kinds[number[row.element["outV"]]] == OTHER:
            return all(state[number[own]] == WRITTEN for own in targets)
        if role == "referenceResults":
            return all(
                kinds[number[own]] == REFERENCE and state[number[own]] == WRITTEN for own in targets
            )
        if kinds[place] == PROJECT:
            return all(
                kinds[number[own]] == RANGE and state[number[own]] == WRITTEN for own in targets
            )
        for own in targets:
            target = number[own]
            if home[target] != place or state[target] != WRITTEN:
                return False
        return True

    def places(self, row: Row, role: Optional[str], targets: list[int], place: int) -> None:
        """Writes an `item` edge anew, in one edge for each document of its targets."""
        kind = self.kinds[self.number[row.element["outV"]]]
        parts: dict[int, dict[int, None]] = {}
        for target in targets:
            target = self.moved.get(target, target)
            if self.state[target] == KEPT:
                raise self.putting.changed(row)
            if self.state[target] not in (WRITTEN, WRITTEN_AS_SET):
                continue
            if kind == OTHER or role == "referenceResults" == self.role_into(target):
                parts.setdefault(self.putting.somewhere if place == NONE else place, {})[
                    target
                ] = None
            elif self.kinds[target] == RANGE and role != "referenceResults":
                parts.setdefault(self.home[target], {})[target] = None
            else:
                self.notes.leave_out(
                    "target of an `item` edge that is no place", f"line {row.line}"
                )
        if place != NONE and self.kinds[place] == DOCUMENT and len(parts) > 1:
            self.notes.mend("item over several documents, as one for each", row.line)
        elif place not in parts and parts:
            self.notes.mend("item whose document isn't that of its places", row.line)
        for at, (shard, own) in enumerate(parts.items()):
            changes: Element = {
                "inV": None,
                "inVs": [self.ids[target] for target in own],
                "property": role,
            }
            changes.update(document=None, shard=self.ids[shard])
            self.putting.again(row, changes, at == 0)

    def role_into(self, target: int) -> str:
        """What an `item` edge to a vertex is to have as its property, where that is no range."""
        return "referenceResults" if self.kinds[target] == REFERENCE else ""

    def inline(self, source: int, role: Optional[str], targets: list[int]) -> None:
        """Writes the places that stood within a result."""
        parts: dict[int, dict[int, None]] = {}
        for target in (self.moved.get(target, target) for target in targets):
            if self.putting.is_there(source, target):
                shard = self.home[target] if self.kinds[target] == RANGE else self.putting.somewhere
                if self.kinds[target] == (REFERENCE if role == "referenceResults" else RANGE):
                    parts.setdefault(shard, {})[target] = None
        for shard, own in parts.items():
            self.new_items(source, list(own), role, shard)

    def new_items(
        self, source: int, targets: list[int], role: Optional[str], shard: Optional[int]
    ) -> None:
        """Writes an `item` edge that the dump didn't have."""
        own = {} if role is None else {"property": role}
        place = self.ids[self.putting.somewhere if shard is None else shard]
        self.putting.new_edge(
            "item",
            source,
            inVs=[self.putting.id_of(target) for target in targets],
            shard=place,
            **own,
        )
