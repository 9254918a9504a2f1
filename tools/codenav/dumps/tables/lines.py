"""The lines of a prepared dump: the elements that the server takes."""

from typing import Optional

from codenav.dumps.lsif.elements import Element, is_id
from codenav.dumps.lsif.json_values import scan
from codenav.dumps.lsif.reading import SPACE
from codenav.dumps.prepare.vertices import VERSION


class Faulty(Exception):
    """An element that the server would refuse too; the text says why."""


def text_of(element: Element, member: str, default: Optional[str] = None) -> str:
    """A member that has to be a text."""
    value = element.get(member, default)
    if not isinstance(value, str):
        raise Faulty(f"its {member} is no text (L07)")
    return value


def element_of(line: bytes) -> Element:
    """The element of a line; raises Faulty where it's none."""
    try:
        text = line.decode("utf-8").strip(SPACE)
        value, end = scan(text, 0)
    except (ValueError, RecursionError, StopIteration):
        raise Faulty("not JSON (L02)") from None
    if end != len(text):
        raise Faulty("not JSON (L02)")
    if type(value) is not dict or not is_id(value.get("id")):
        raise Faulty("no element with an id (L03)")
    if value.get("type") not in ("vertex", "edge") or type(value.get("label")) is not str:
        raise Faulty("no element with a type and a label (L05)")
    return value


def first_element(element: Element) -> None:
    """Refuses a first element that isn't the metaData of a prepared dump."""
    if (element["type"], element["label"]) != ("vertex", "metaData"):
        raise Faulty("not the metaData that a dump begins with (L06)")
    if element.get("version") != VERSION:
        raise Faulty(f"of version {element.get('version')} and not {VERSION}")
    if element.get("positionEncoding", "utf-16") != "utf-16":
        raise Faulty("its positions aren't counted in utf-16 (L06)")
