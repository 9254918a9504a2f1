"""The elements of a conversion, as they're written as a dump."""

from json import dumps
from typing import Any

from codenav.dumps.lsif.writer import LineWriter

LAST = 0x7FFFFFFF


class Writer(LineWriter):
    """Writes elements, whose ids are their lines. Most of them have nothing but numbers and labels,
    and need no escapes."""

    def line(self, rest: str) -> int:
        """Writes an element by the text behind its id, which it answers."""
        self.put(f'{{"id":{self.elements + 1},{rest}'.encode(errors="replace"))
        return self.elements

    def vertex(self, label: str, **members: Any) -> int:
        """Writes a vertex and answers its id."""
        if not members:
            return self.line(f'"type":"vertex","label":"{label}"}}')
        rest = dumps(members, ensure_ascii=False, separators=(",", ":"))
        return self.line(f'"type":"vertex","label":"{label}",{rest[1:]}')

    def range(self, start: int, end: int) -> int:
        """Writes a range, whose ends are packed, and answers its id."""
        return self.line(
            f'"type":"vertex","label":"range","start":{{"line":{start >> 31},"character":{start & LAST}}},'
            f'"end":{{"line":{end >> 31},"character":{end & LAST}}}}}'
        )

    def edge(self, label: str, source: int, target: int) -> None:
        """Writes an edge to one vertex."""
        self.line(f'"type":"edge","label":"{label}","outV":{source},"inV":{target}}}')

    def edges(self, label: str, source: int, targets: list[int], *more: str) -> None:
        """Writes an edge to several vertices; `more` are further members, as they're written."""
        ids = ",".join(map(str, targets))
        rest = "".join(f",{member}" for member in more)
        self.line(f'"type":"edge","label":"{label}","outV":{source},"inVs":[{ids}]{rest}}}')

    def items(self, result: int, places: list[int], shard: int, role: str = "") -> None:
        """Writes the places of a result in a document, or the results that it leads to."""
        more = (f'"property":"{role}"',) if role else ()
        self.edges("item", result, places, f'"shard":{shard}', *more)
