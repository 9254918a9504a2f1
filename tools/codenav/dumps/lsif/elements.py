"""The elements of a dump in LSIF: JSON objects with a type, a label and, where they're vertices, an
id."""

import json
from typing import Any, NamedTuple, Optional, Union

from codenav.dumps.lsif.json_values import DECODER, MOST_LEVELS, levels
from codenav.faults import NotADump

Id = Union[int, str]
Span = tuple[int, int, int, int]
Element = dict[str, Any]


class Row(NamedTuple):
    """An element with the line that it begins on, from 1, and its text as the server reads it: None
    where that can't stand as a line of its own."""

    line: int
    text: Optional[bytes]
    element: Element


def is_id(value: Any) -> bool:
    """Whether a JSON value has the form of an id."""
    return type(value) is int or type(value) is str


def span_of(element: Element) -> Optional[Span]:
    """The span of a range, or None where its members aren't whole numbers."""
    numbers: list[int] = []
    for end in (element.get("start"), element.get("end")):
        for member in ("line", "character"):
            number = end.get(member) if isinstance(end, dict) else None
            if type(number) is not int:
                return None
            numbers.append(number)
    return numbers[0], numbers[1], numbers[2], numbers[3]


def shard_of(item: Element) -> Any:
    """Where the targets of an `item` edge are, as it says."""
    return item["shard"] if "shard" in item else item.get("document")


def targets_of(edge: Element) -> list[Any]:
    """What an edge leads to, as it says: the members of `inVs`, or `inV` alone; nothing where it has
    neither."""
    one, several = edge.get("inV"), edge.get("inVs")
    return [*([] if one is None else [one]), *(several if isinstance(several, list) else [])]


def leads_nowhere(edge: Element) -> bool:
    """Whether an edge has no target, nor a list that may be empty."""
    return edge.get("inV") is None and not isinstance(edge.get("inVs"), list)


def check_id(element: Element, place: str) -> None:
    """Raises NotADump where an element has no id."""
    if "id" not in element:
        raise NotADump(f"{place}: no element with an id")
    if not is_id(element["id"]):
        own = json.dumps(element["id"])
        own = own if len(own) <= 80 else f"{own[:77]}..."
        raise NotADump(f"{place}: the id {own}, which is neither a whole number nor a text")


def checked(value: Any, text: str, place: str) -> Element:
    """A JSON value as an element; raises NotADump where it's none. `place` begins the message."""
    if not isinstance(value, dict):
        raise NotADump(f"{place}: no element, which is a JSON object")
    kind = value.get("type")
    if (kind != "vertex" and kind != "edge") or type(value.get("label")) is not str:
        raise NotADump(f"{place}: no element with a type and a label")
    if kind == "vertex":
        check_id(value, place)
    if text.count("{") + text.count("[") > MOST_LEVELS and levels(value) > MOST_LEVELS:
        raise NotADump(f"{place}: nested in more than {MOST_LEVELS} levels")
    return value


def element_of(line: bytes, place: str) -> Element:
    """The element of a line; `place` begins the message where there is none. Each element has an id
    here, as the server asks for one."""
    try:
        text = line.decode("utf-8")
        value = DECODER.decode(text)
    except (UnicodeDecodeError, ValueError, RecursionError):
        raise NotADump(f"{place}: not JSON") from None
    if isinstance(value, list):
        raise NotADump(f"{place}: a JSON array; a dump has one element a line")
    if isinstance(value, dict):
        check_id(value, place)
    return checked(value, text, place)
