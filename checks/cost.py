#!/usr/bin/env python3
"""Counts what a check and an upload of a dump cost the built program: the bytes of memory that it
asks for, against those of the dump, and the instructions that it takes for a dump twice as long.
Both are counted by valgrind (Debian's `valgrind`), so they don't depend on the machine's load. The
dumps are of shapes in which a step over all that came before would show. The status is 1 where a
cost is over its limit.

usage: checks/cost.py PROGRAM
"""

import json
import os
import random
import re
import subprocess
import sys
import tempfile
from concurrent.futures import ThreadPoolExecutor
from typing import Any, Callable, Iterator

Element = dict[str, Any]
Shape = Callable[[int], list[Element]]
ELEMENTS = 2_000
LONG = 10
"""Chains have so many times as many elements, since a step along one is cheap."""
# the most bytes asked for, for a byte of the dump, and the most times as many instructions for a
# dump twice as long
MOST_BYTES = {"check": 60, "upload": 200}
MOST_GROWTH = 2.1


def vertex(label: str, **members: Any) -> Element:
    """A vertex, whose id is the number of its line."""
    return {"type": "vertex", "label": label, **members}


def edge(label: str, source: int, target: int | list[int], **members: Any) -> Element:
    """An edge."""
    ends = "inVs" if isinstance(target, list) else "inV"
    return {"type": "edge", "label": label, "outV": source, ends: target, **members}


def span(line: int, last: int, end: int = 1) -> Element:
    """A range from the start of a line to a character of the last line."""
    places = {"line": line, "character": 0}, {"line": last, "character": end}
    return vertex("range", start=places[0], end=places[1])


def head() -> list[Element]:
    """What each dump begins with: its document is the second element."""
    return [
        vertex("metaData", version="0.6.0", positionEncoding="utf-16"),
        vertex("document", uri="file:///a", languageId="x"),
    ]


def ranges(spans: Iterator[Element] | list[Element]) -> list[Element]:
    """Ranges of the document, each with an edge of its own."""
    found = head()
    for one in spans:
        found += [one, edge("contains", 2, [len(found) + 1])]
    return found


def rising(count: int) -> list[Element]:
    return ranges([span(line, line) for line in range(count // 2)])


def falling(count: int) -> list[Element]:
    return ranges([span(line, line) for line in reversed(range(count // 2))])


def mixed(count: int) -> list[Element]:
    lines = list(range(count // 2))
    random.Random(1).shuffle(lines)
    return ranges([span(line, line) for line in lines])


def nested(count: int) -> list[Element]:
    return ranges([span(line, count - line) for line in range(count // 2)])


def beside_nested(count: int) -> list[Element]:
    """Small ranges behind one another, each in a great one that began before all of them."""
    deep = count // 4
    great = [span(line, 4 * count - line) for line in range(deep)]
    return ranges([*great, *(span(deep + line, deep + line) for line in range(deep))])


def together(count: int) -> list[Element]:
    """One edge to all ranges, half of which are in one of the others."""
    each = count // 2
    found = head() + [span(line, line) for line in range(each)]
    found += [span(line, line + 1) for line in range(each, 3 * each, 2)]
    return found + [edge("contains", 2, list(range(3, len(found) + 1)))]


def fan(count: int, many: str = "resultSet") -> list[Element]:
    """A long chain of result sets, with a result at its end, and as many vertices that lead to its
    beginning."""
    each = count // 4
    found = head() + [vertex("resultSet") for _ in range(each)]
    first, last = 3, 2 + each
    found += [edge("next", first + step, first + step + 1) for step in range(each - 1)]
    found.append(vertex("definitionResult"))
    found.append(edge("textDocument/definition", last, len(found)))
    outer = len(found) + 1
    found += [span(line, line) if many == "range" else vertex("resultSet") for line in range(each)]
    if many == "range":
        found.append(edge("contains", 2, list(range(outer, outer + each))))
    return found + [edge("next", outer + step, first) for step in range(each)]


def fan_of_ranges(count: int) -> list[Element]:
    return fan(count, "range")


def items(count: int) -> list[Element]:
    """Many results with an item each."""
    found = head() + [span(1, 1), edge("contains", 2, [3])]
    for _ in range(count // 2):
        found.append(vertex("referenceResult"))
        found.append(edge("item", len(found), [3], document=2, property="references"))
    return found


SHAPES: tuple[Shape, ...] = (
    rising,
    falling,
    mixed,
    nested,
    beside_nested,
    together,
    fan,
    fan_of_ranges,
    items,
)


def text_of(elements: list[Element]) -> bytes:
    """The lines of a dump."""
    rows = ({"id": number, **one} for number, one in enumerate(elements, start=1))
    return b"".join(json.dumps(row, separators=(",", ":")).encode() + b"\n" for row in rows)


def number_in(words: list[str], tool: list[str], form: str) -> int:
    """A number that valgrind prints of a call, which has to end with 0."""
    call = subprocess.run(["valgrind", *tool, *words], capture_output=True, check=False)
    found = re.search(form, call.stderr.decode(errors="replace"))
    if call.returncode != 0 or found is None or b"fault" in call.stdout:
        sys.exit(f"cost: {words}: status {call.returncode}: {(call.stdout + call.stderr)[-500:]!r}")
    return int(found[1].replace(",", ""))


COUNTS = ["--tool=cachegrind", "--cache-sim=no", "--cachegrind-out-file=/dev/null"]
HEAP = ["--undef-value-errors=no", "--leak-check=no"]


def call_of(program: str, kind: str, body: bytes, path: str) -> list[str]:
    """A call that checks or uploads a dump, which a file gets."""
    with open(path, "wb") as file:
        if kind == "upload":
            line = "PUT /projects/app/lsif?key=k HTTP/1.1\r\nHost: localhost\r\n"
            file.write(f"{line}Content-Length: {len(body)}\r\n\r\n".encode())
        file.write(body)
    return [program, *(["check-lsif"] if kind == "check" else ["replay", ":memory:"]), path]


def row_of(program: str, kind: str, shape: Shape, room: str) -> str:
    """A line for a shape; it ends with what is over a limit."""
    count = ELEMENTS * (LONG if shape in (fan, fan_of_ranges) else 1)
    path = os.path.join(room, f"{kind}-{shape.__name__}")
    small = text_of(shape(ELEMENTS))
    said = number_in(call_of(program, kind, small, path), HEAP, r"([0-9,]+) bytes allocated")
    a_byte, cost = said / len(small), []
    for own in count, 2 * count:
        body = text_of(shape(own))
        counted = number_in(call_of(program, kind, body, path), COUNTS, r"I\s+refs:\s+([0-9,]+)")
        cost.append(counted / len(body))
    growth = 2 * cost[1] / cost[0]
    over = [f"over {MOST_BYTES[kind]} bytes"] * (a_byte > MOST_BYTES[kind])
    over += [f"over {MOST_GROWTH} times"] * (growth > MOST_GROWTH)
    line = f"{kind} {shape.__name__}: {a_byte:.1f} bytes for a byte, {growth:.2f} times"
    return line + (f": {', '.join(over)}" if over else "")


def main() -> int:
    """Prints a line for each shape; answers 1 where one is over a limit."""
    if len(sys.argv) != 2:
        print(__doc__, file=sys.stderr)
        return 2
    program = os.path.abspath(sys.argv[1])
    calls = [(kind, shape) for kind in MOST_BYTES for shape in SHAPES]
    with tempfile.TemporaryDirectory() as room:
        with ThreadPoolExecutor(len(os.sched_getaffinity(0))) as pool:
            made = [pool.submit(row_of, program, kind, shape, room) for kind, shape in calls]
            rows = [one.result() for one in made]
    print("\n".join(rows))
    return int(any(": over" in row for row in rows))


if __name__ == "__main__":
    sys.exit(main())
