"""The limits of the server for a dump, and for a tags file, whose body may be as long."""

from codenav.outcome import Excess

MOST_ELEMENTS = 100_000
MOST_BODY_BYTES = 33_554_432
MOST_LINE_BYTES = 1_048_576
MOST_TAG_LINES = 100_000
MOST_TAG_BYTES = 65_536


def excesses(elements: int, body_bytes: int, longest_line: int) -> list[Excess]:
    """Which limits of the server a dump goes over."""
    found = (
        Excess("elements", elements, MOST_ELEMENTS, "L20"),
        Excess("bytes", body_bytes, MOST_BODY_BYTES, "H04"),
        Excess("bytes in the longest line", longest_line, MOST_LINE_BYTES, "L01"),
    )
    return [one for one in found if one.number > one.most]
