"""Writes elements by a plan, and knows what was written."""

from typing import Any, Optional

from codenav.dumps.lsif.elements import Element, Id, Row
from codenav.dumps.lsif.json_values import text_of
from codenav.dumps.lsif.writer import LineWriter
from codenav.dumps.prepare.labels import DOCUMENT, PROJECT
from codenav.dumps.prepare.numbers import NONE
from codenav.dumps.prepare.plan import Plan
from codenav.dumps.tables.reader import Reader
from codenav.faults import NotADump
from codenav.limits import MOST_LINE_BYTES

WRITTEN, WRITTEN_AS_SET = 4, 5
"""What stands in the place of `KEPT` and `AS_SET` of a plan once a vertex is written."""
PART_BYTES = 1 << 19


class Putting:
    """Writes elements. `state` is that of the plan, with what was written already. A reader, where
    there is one, takes each element."""

    def __init__(self, plan: Plan, writer: LineWriter, reader: Optional[Reader]) -> None:
        self.plan, self.writer, self.reader = plan, writer, reader
        self.number, self.state = plan.survey.numbers.of, bytearray(plan.state)
        self.renumbers = not plan.survey.are_ids_sound
        self.ids: list[Id] = (
            list(range(1, plan.count + 1)) if self.renumbers else plan.survey.numbers.ids()
        )
        self.last = plan.count if self.renumbers else plan.survey.greatest
        self.new_ids: list[Id] = []
        places = (n for n in range(plan.count) if plan.kinds[n] in (DOCUMENT, PROJECT))
        self.somewhere = next((n for n in places if not plan.state[n]), NONE)

    def fresh(self) -> Id:
        """An id that no element has."""
        self.last += 1
        return self.last

    def id_of(self, number: int) -> Id:
        """The id of a vertex, an old or a new one."""
        return (
            self.ids[number] if number < self.plan.count else self.new_ids[number - self.plan.count]
        )

    def is_there(self, *numbers: int) -> bool:
        """Whether vertices were written."""
        count = self.plan.count
        return all(number >= count or self.state[number] >= WRITTEN for number in numbers)

    def changed(self, row: Row) -> NotADump:
        """The refusal where the second reading finds what the first didn't."""
        return NotADump(
            f"{self.plan.survey.name}, line {row.line}: not what was read before: did it change?"
        )

    def line(self, text: bytes, element: Element) -> None:
        """Writes an element by its text."""
        self.writer.put(text)
        if self.reader is not None:
            self.reader.take(element, len(text) + 1)

    def put(self, row: Row, element: Element) -> None:
        """Writes an element of the input as it is now, with the CR before the line end that it
        had."""
        text = row.text
        if element is not row.element or text is None:
            text = text_of(element) + (b"\r" if text is not None and text.endswith(b"\r") else b"")
        if len(text) > MOST_LINE_BYTES and len(element.get("inVs") or ()) > 1:
            self.parted(row, element, len(text))
        else:
            self.line(text, element)

    def parted(self, row: Row, element: Element, size: int) -> None:
        """Writes an edge to so many vertices that its line would be too long as several edges."""
        self.plan.notes.mend("edge of a line that is too long, as several", row.line)
        targets = element["inVs"]
        most = max(1, len(targets) * PART_BYTES // size)
        for at in range(0, len(targets), most):
            part = {**element, "inVs": targets[at : at + most]}
            if at:
                part["id"] = self.fresh()
            self.line(text_of(part), part)

    def again(self, row: Row, changes: Element, is_first: bool = True) -> None:
        """Writes an edge with changed members, of which those that are None go. Only the first of
        several edges that it becomes has its id."""
        if not (is_first and self.plan.survey.are_edges_sound) or self.renumbers:
            changes["id"] = self.fresh()
        if self.renumbers and "outV" not in changes:
            changes["outV"] = self.ids[self.number[row.element["outV"]]]
        if not changes:
            self.put(row, row.element)
            return
        element = {"id": None, **row.element, **changes}
        self.put(row, {name: value for name, value in element.items() if value is not None})

    def new(self, element: Element) -> None:
        """Writes an element that the dump didn't have."""
        self.put(Row(0, None, element), element)

    def new_edge(self, label: str, source: int, **members: Any) -> None:
        """Writes an edge that the dump didn't have."""
        self.new(
            {
                "id": self.fresh(),
                "type": "edge",
                "label": label,
                "outV": self.id_of(source),
                **members,
            }
        )
