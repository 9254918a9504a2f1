"""Characters of a document as UTF-16 code units, where its indexer counted bytes or code points:
its text is needed then. A byte order mark counts as indexers count it, that are given a file as it
is."""

import codecs
from array import array
from bisect import bisect_left
from typing import Optional

from codenav.texts.decoded import MARKS, decoded, is_utf_8
from codenav.texts.places import units

UTF_8, UTF_16, UTF_32 = 1, 2, 3
ENCODINGS = {"utf-8": UTF_8, "utf-16": UTF_16, "utf-32": UTF_32}
COUNTED = {UTF_8: "bytes", UTF_32: "code points"}


class Columns:
    """The lines of a document, and of those that were asked for the characters in both counts."""

    def __init__(self, encoding: int, body: bytes) -> None:
        self.encoding = encoding
        self.lines = (decoded(body).encode() if body[:2] in MARKS else body).split(b"\n")
        self.tables: dict[int, Optional[tuple["array[int]", "array[int]"]]] = {}

    def units(self, line: int, character: int) -> Optional[int]:
        """The UTF-16 code units before a character of a line; None where the line has no such
        character."""
        if self.encoding == UTF_16:
            return character
        if line >= len(self.lines):
            return None
        text = self.lines[line].removesuffix(b"\r")
        if line not in self.tables:
            self.tables[line] = table(text, self.encoding)
        both = self.tables[line]
        if both is None:
            return character if character <= len(text) else None
        counted, before = both
        at = bisect_left(counted, character)
        return before[at] if at < len(counted) and counted[at] == character else None


def table(text: bytes, encoding: int) -> Optional[tuple["array[int]", "array[int]"]]:
    """Where each character of a line begins, and where the last one ends, with the UTF-16 code
    units before it; None where each byte is one of these."""
    if text.isascii() or not is_utf_8(text):
        return None
    mark = text.startswith(codecs.BOM_UTF8)
    counted, before = array("i", [0]), array("i", [0])
    at = unit = 0
    for character in text.decode():
        at += len(character.encode()) if encoding == UTF_8 else 1
        unit += units(character)
        counted.append(at)
        before.append(max(unit - mark, 0))
    return counted, before
