"""The second reading of a dump for `prepare`: each element is written as the plan has it, as
it stands where it can.

The order that the server asks for, a vertex before each edge that names it, is looked after once
more here, of what is written: `state` has what was written already, and an edge to anything else
ends the call.
"""

from typing import Callable, Iterator, Optional

from codenav.dumps.lsif.elements import Element, Row, leads_nowhere, targets_of
from codenav.dumps.lsif.json_values import text_of
from codenav.dumps.lsif.writer import LineWriter
from codenav.dumps.prepare.items import Items
from codenav.dumps.prepare.labels import DOCUMENT, FROM, LABELS, PROJECT, RANGE, SINGLE
from codenav.dumps.prepare.numbers import NONE
from codenav.dumps.prepare.plan import AS_SET, DROPPED, KEPT, MOVED, Plan
from codenav.dumps.prepare.putting import WRITTEN, WRITTEN_AS_SET, Putting
from codenav.dumps.prepare.vertices import Mender
from codenav.dumps.tables.reader import Reader


class Rewriting:
    """Writes a dump by its plan."""

    def __init__(
        self, plan: Plan, mender: Mender, writer: LineWriter, reader: Optional[Reader]
    ) -> None:
        self.plan, self.survey, self.mender = plan, plan.survey, mender
        self.notes, self.kinds, self.moved = plan.notes, plan.kinds, plan.moved
        self.putting = Putting(plan, writer, reader)
        self.items = Items(self.putting)
        self.number, self.state, self.ids = self.items.number, self.items.state, self.items.ids
        self.contained = bytearray(plan.count)
        self.bits = {label: 1 << at for at, label in enumerate(SINGLE)}
        self.written = bytearray(plan.count + len(plan.new_kinds))

    def run(self, rows: Callable[[], Iterator[Row]]) -> None:
        """Writes the elements in their order where that's the server's, else the vertices and then
        the edges; and then what the dump didn't have."""
        head = self.survey.metadata
        if head is None:
            return
        if not self.survey.disorder:
            for row in rows():
                self.vertex(row) if row.element["type"] == "vertex" else self.edge(row)
        else:
            self.notes.mend(
                "order: the metaData, then the vertices, then the edges", self.survey.disorder
            )
            self.vertex(head)
            for row in rows():
                if row.element["type"] == "vertex" and row.element["label"] != "metaData":
                    self.vertex(row)
            for row in rows():
                if row.element["type"] == "edge":
                    self.edge(row)
        self.add()

    def vertex(self, row: Row) -> None:
        """Writes a vertex, mended."""
        own = row.element["id"]
        number = self.number[own]
        state = self.state[number]
        if state == DROPPED or state == MOVED:
            return
        if state == AS_SET:
            element: Optional[Element] = {"id": own, "type": "vertex", "label": "resultSet"}
        else:
            size = len(row.text if row.text is not None else text_of(row.element))
            element = self.mender.mended(row.element, row.line, size)
        if element is None:
            raise self.putting.changed(row)
        if self.survey.encoding != "utf-16" and element["label"] == "range":
            element = {**element, **self.converted(number)}
        elif self.plan.final["packageInformation"][number] in self.survey.halved:
            element = self.survey.mender.halved(element, row.line)
        if self.putting.renumbers:
            element = {**element, "id": self.ids[number]}
        self.state[number] = WRITTEN_AS_SET if state == AS_SET else WRITTEN
        self.putting.put(row, element)

    def converted(self, number: int) -> Element:
        """The ends of a range whose positions were converted."""
        numbers = self.survey.numbers
        ends = {"start": numbers.starts[number], "end": numbers.ends[number]}
        return {name: {"line": at >> 31, "character": at & 0x7FFFFFFF} for name, at in ends.items()}

    def edge(self, row: Row) -> None:
        """Writes an edge, mended."""
        label = row.element["label"]
        if leads_nowhere(row.element):
            return
        if label == "item":
            self.items.item(row)
        elif label == "contains":
            self.contains(row)
        elif label in FROM:
            self.joining(row, label)
        elif label == "nextMoniker":
            self.joining(row, "attach")
        elif not self.survey.strip:
            self.other(row)

    def joining(self, row: Row, label: str) -> None:
        """Writes an edge between two vertices where it's one that the plan has."""
        element, is_first = row.element, True
        source = self.number[element["outV"]]
        for own in targets_of(element):
            target = self.number[own]
            if not self.stays(label, source, target, row):
                continue
            changes: Element = {}
            if element["label"] != label:
                changes["label"] = label
                self.notes.mend(f"`{element['label']}` edge, as `{label}`", row.line)
            if "inVs" in element:
                changes.update(inV=own, inVs=None)
                self.notes.mend(f"`{label}` edge with `inVs`, with `inV`", row.line)
            if self.putting.renumbers:
                changes["inV"] = self.ids[target]
            self.putting.again(row, changes, is_first)
            is_first = False

    def stays(self, label: str, source: int, target: int, row: Row) -> bool:
        """Whether an edge is written; one of a label that leaves a vertex once is so once."""
        plan, state = self.plan, self.state
        if state[source] in (DROPPED, MOVED) or state[target] in (DROPPED, MOVED):
            return False
        if state[source] < WRITTEN or state[target] < WRITTEN:
            raise self.putting.changed(row)
        if not plan.fits(label, source, target):
            if label not in SINGLE:
                self.notes.leave_out(
                    f"`{label}` edge that joins other vertices than it may", f"line {row.line}"
                )
            return False
        if label == "moniker":
            return source not in plan.mute and source not in plan.without_monikers
        if label == "attach":
            return True
        bit = self.bits[label]
        if plan.final[label][source] != target or self.written[source] & bit:
            return False
        self.written[source] |= bit
        return True

    def contains(self, row: Row) -> None:
        """Writes which of its documents a project, or of its ranges a document, contains."""
        element, state, kinds = row.element, self.state, self.kinds
        source = self.number[element["outV"]]
        owner = self.moved.get(source, source)
        if kinds[owner] not in (DOCUMENT, PROJECT) or state[owner] == DROPPED:
            return
        if state[owner] != WRITTEN:
            raise self.putting.changed(row)
        wanted = RANGE if kinds[owner] == DOCUMENT else DOCUMENT
        kept, done = [], self.contained
        for own in targets_of(element):
            target = self.number[own]
            if state[target] == WRITTEN and kinds[target] == wanted and not done[target]:
                done[target] = 1
                kept.append(self.ids[target])
            elif state[target] == KEPT:
                raise self.putting.changed(row)
        changes: Element = {} if kept == element.get("inVs") else {"inVs": kept}
        if "inV" in element:
            changes["inV"] = None
            self.notes.mend("`contains` edge with `inV`, with `inVs`", row.line)
        if owner != source:
            changes["outV"] = self.ids[owner]
        if kept or not targets_of(element):
            self.putting.again(row, changes)

    def other(self, row: Row) -> None:
        """Writes an edge of a label that has no effect, where its ends stay."""
        element = row.element
        source = self.number[element["outV"]]
        targets = [self.number[own] for own in targets_of(element)]
        kept = [self.moved.get(target, target) for target in targets]
        kept = [target for target in dict.fromkeys(kept) if self.state[target] != DROPPED]
        owner = self.moved.get(source, source)
        if self.state[owner] == DROPPED or not kept:
            return
        if any(self.state[end] < WRITTEN for end in (owner, *kept)):
            raise self.putting.changed(row)
        changes: Element = {}
        if self.ids[owner] != element["outV"]:
            changes["outV"] = self.ids[owner]
        ids = [self.ids[target] for target in kept]
        if ids != targets_of(element) or ("inV" in element) == ("inVs" in element):
            changes["inV"] = None if "inVs" in element else ids[0]
            if "inVs" in element:
                changes["inVs"] = ids
        self.putting.again(row, changes)

    def add(self) -> None:
        """Writes what the dump didn't have: vertices, then edges."""
        plan = self.plan
        for kind in plan.new_kinds:
            self.putting.new_ids.append(self.putting.fresh())
            self.putting.new(
                {"id": self.putting.new_ids[-1], "type": "vertex", "label": LABELS[kind]}
            )
        for label, source in dict.fromkeys(plan.set_edges):
            target, bit = plan.final[label][source], self.bits[label]
            if (
                target == NONE
                or self.written[source] & bit
                or not self.putting.is_there(source, target)
            ):
                continue
            self.written[source] |= bit
            self.putting.new_edge(label, source, inV=self.putting.id_of(target))
        for edge in plan.new_edges:
            targets = [target for target in edge.targets if self.putting.is_there(target)]
            if edge.label == "item" and targets:
                self.items.new_items(edge.source, targets, edge.role, edge.shard)
            elif targets:
                self.putting.new_edge(edge.label, edge.source, inV=self.putting.id_of(targets[0]))
        for source, role, targets in self.survey.inlined:
            self.items.inline(source, role, targets)
