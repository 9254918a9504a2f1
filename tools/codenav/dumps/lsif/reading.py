"""Reads dumps in LSIF as people have them: an element a line or one JSON array, plain or packed by
gzip or zstd, in UTF-8 or UTF-16, with or without a byte order mark and empty lines. One element is
held at a time, so a dump of any size is read in little memory.
"""

import codecs
import json
import os
import tempfile
from contextlib import contextmanager
from typing import Any, BinaryIO, Callable, Iterator, Optional, cast

from codenav.dumps.lsif.elements import Row, checked
from codenav.dumps.lsif.json_values import Reader, text_of
from codenav.dumps.packed import Chunks, at_least, joined, unpacked
from codenav.faults import NotADump
from codenav.outcome import READ, Note, Notes

MOST_ELEMENT_BYTES = 1 << 26
MARKS = (
    (codecs.BOM_UTF8, "utf-8"),
    (codecs.BOM_UTF16_LE, "utf-16-le"),
    (codecs.BOM_UTF16_BE, "utf-16-be"),
)
SPACE = " \t\r\n"
NOT_JSON = "not JSON"


def transcoded(chunks: Chunks, encoding: str) -> Chunks:
    """What chunks in UTF-16 are in UTF-8."""
    decoder = codecs.getincrementaldecoder(encoding)()
    for chunk in chunks:
        yield decoder.decode(chunk).encode("utf-8", "surrogatepass")
    decoder.decode(b"", True)


class Shape:
    """What was found of how a dump is written, for the report."""

    def __init__(self) -> None:
        self.forms: list[str] = []
        self.mended = Notes()

    def notes(self) -> tuple[Note, ...]:
        """How it's written, where that's not line by line in UTF-8, and what of it the server reads
        otherwise."""
        return (*(Note(READ, form) for form in self.forms), *self.mended.all())


class Source:
    """A dump in a file, which can be read more than once. Its messages begin with `name`."""

    def __init__(self, file: BinaryIO, name: str) -> None:
        self.file, self.name = file, name
        self.shape, self.reader = Shape(), Reader()
        self.size = os.fstat(file.fileno()).st_size
        self.watch: Callable[[int], None] = lambda read: None

    def rows(self) -> Iterator[Row]:
        """The elements in their order; raises NotADump where the file has something else."""
        self.file.seek(0)
        self.shape = Shape()
        try:
            chunks = self.plain()
            head = at_least(chunks, 1)
            while not head.strip() and (more := at_least(chunks, 1)):
                head += more
                if len(head) > MOST_ELEMENT_BYTES:
                    raise NotADump(f"{self.name}: nothing but white space")
            if head.lstrip()[:1] == b"[":
                self.shape.forms.append("one JSON array")
                yield from self.members(joined(head, chunks))
            else:
                yield from self.lines(joined(head, chunks))
        except UnicodeDecodeError as fault:
            raise NotADump(f"{self.name}: not {fault.encoding.upper()}") from None

    def plain(self) -> Chunks:
        """The dump's bytes, unpacked, in UTF-8 and without byte order mark."""
        chunks, packed_by = unpacked(self.file, self.name, self.watch)
        if packed_by:
            self.shape.forms.append(f"packed by {packed_by}")
        head = at_least(chunks, 4)
        for mark, encoding in MARKS:
            if head.startswith(mark):
                self.shape.forms.append(f"byte order mark of {encoding.upper()[:6].strip('-')}")
                rest = joined(head[len(mark) :], chunks)
                return rest if encoding == "utf-8" else transcoded(rest, encoding)
        for encoding, zero in (("utf-16-le", 1), ("utf-16-be", 0)):
            if len(head) > 3 and head[zero] == head[zero + 2] == 0 < head[1 - zero]:
                self.shape.forms.append("UTF-16")
                return transcoded(joined(head, chunks), encoding)
        return joined(head, chunks)

    def too_long(self, line: int) -> NotADump:
        """The refusal of an element that is longer than any that is read."""
        return NotADump(
            f"{self.name}, line {line}: longer than {MOST_ELEMENT_BYTES} bytes, the limit of an element; is it a dump?"
        )

    def lines(self, chunks: Chunks) -> Iterator[Row]:
        """The elements of a dump that has one a line."""
        number, rest, scan = 0, b"", self.reader.scan
        for chunk in chunks:
            if len(rest) > MOST_ELEMENT_BYTES:
                raise self.too_long(number + 1)
            pieces = (rest + chunk).split(b"\n") if rest else chunk.split(b"\n")
            rest = pieces.pop()
            for line in pieces:
                number += 1
                try:
                    text = line.decode("utf-8").strip(SPACE)
                    value, end = scan(text, 0)
                except (ValueError, RecursionError, StopIteration):
                    if self.is_empty(line, number):
                        continue
                    raise NotADump(f"{self.name}, line {number}: {reason(line)}") from None
                if end != len(text):
                    raise NotADump(f"{self.name}, line {number}: not JSON: more than one value")
                yield self.row(number, line, text, value)
        if rest and not self.is_empty(rest, number + 1):
            yield from self.last(rest, number + 1)

    def last(self, line: bytes, number: int) -> Iterator[Row]:
        """The element of a last line, which no line feed ends."""
        if len(line) > MOST_ELEMENT_BYTES:
            raise self.too_long(number)
        try:
            text = line.decode("utf-8").strip(SPACE)
            value = self.reader.decoder.decode(text)
        except (ValueError, RecursionError):
            why = reason(line)
            if why == NOT_JSON:
                why += ", and its end is missing: is the dump cut off?"
            raise NotADump(f"{self.name}, line {number}: {why}") from None
        yield self.row(number, line, text, value)

    def row(self, number: int, line: Optional[bytes], text: str, value: Any) -> Row:
        """The element of a text on a line, which is written anew where the server reads it
        otherwise."""
        element = checked(value, text, f"{self.name}, line {number}")
        if self.reader.wholes or "-0" in text or "\\u" in text:
            for what in self.reader.unlike(text, element):
                self.shape.mended.mend(what, number)
                if line is not None:
                    line = text_of(element) + (b"\r" if line.endswith(b"\r") else b"")
        return Row(number, line, element)

    def is_empty(self, line: bytes, number: int) -> bool:
        """Whether a line is empty, which is noted."""
        if line.strip(b" \t\r\n"):
            return False
        self.shape.mended.mend("empty line", number)
        return True

    def members(self, chunks: Chunks) -> Iterator[Row]:
        """The elements of a dump that is one JSON array."""
        decoder = codecs.getincrementaldecoder("utf-8")()
        text, at, number, wanted, ended = "", 0, 1, "[", False
        for chunk in chunks:
            text, at = text[at:] + decoder.decode(chunk), 0
            if len(text) > MOST_ELEMENT_BYTES:
                raise self.too_long(number)
            while not ended:
                at, number = skipped(text, at, number)
                if at == len(text):
                    break
                mark = text[at]
                if mark not in wanted:
                    raise NotADump(f"{self.name}, line {number}: not an array of elements")
                if mark != "{":
                    ended, at = mark == "]", at + 1
                    wanted = "{]" if mark == "[" else "{"
                    continue
                self.reader.wholes = 0
                try:
                    value, end = self.reader.scan(text, at)
                except json.JSONDecodeError as fault:
                    if fault.pos < len(text) - 16 and not fault.msg.startswith("Unterminated"):
                        raise NotADump(f"{self.name}, line {number}: not JSON") from None
                    break
                except (ValueError, RecursionError):
                    raise NotADump(f"{self.name}, line {number}: not JSON") from None
                except StopIteration:
                    break
                own = text[at:end]
                plain = None if "\n" in own or "\r" in own else own.encode("utf-8")
                yield self.row(number, plain, own, value)
                number += own.count("\n")
                at, wanted = end, ",]"
            if ended and text[at:].strip(SPACE):
                raise NotADump(f"{self.name}, line {number}: something behind the array's end")
        decoder.decode(b"", True)
        if not ended:
            raise NotADump(
                f"{self.name}, line {number}: not JSON, or cut off, in the array's element that begins here"
            )


def reason(line: bytes) -> str:
    """Why a line isn't read."""
    try:
        line.decode("utf-8")
    except UnicodeDecodeError as fault:
        return f"not UTF-8, at byte {fault.start + 1}"
    return NOT_JSON


def skipped(text: str, at: int, line: int) -> tuple[int, int]:
    """Where the next thing behind white space begins, and on which line."""
    while at < len(text) and text[at] in SPACE:
        line += text[at] == "\n"
        at += 1
    return at, line


@contextmanager
def plain(file: BinaryIO, name: str) -> Iterator[BinaryIO]:
    """A dump with an element a line, in UTF-8: the file itself where it's so, else a temporary one,
    in which lines count the elements."""
    source = Source(file, name)
    with tempfile.TemporaryFile() as copy:
        for row in source.rows():
            if not source.shape.forms:
                yield file
                return
            copy.write((text_of(row.element) if row.text is None else row.text) + b"\n")
        yield cast(BinaryIO, copy) if source.shape.forms else file
