"""Reads a SCIP index one document at a time. Only the fields of the outermost message are cut here,
so that an index of any size is read in little memory; each document is then a message that Debian's
python3-protobuf reads, by scip.proto.
"""

import os
from contextlib import contextmanager
from typing import TYPE_CHECKING, BinaryIO, Callable, Iterator, TypeVar

from google.protobuf.message import DecodeError

from codenav.dumps.scip.scip_pb2 import Document, Metadata, SymbolInformation
from codenav.faults import NotADump

if TYPE_CHECKING:
    from codenav.dumps.scip.scip_pb2 import Message

Piece = tuple[int, int]
Read = TypeVar("Read", bound="Message")

VARINT, BYTES = 0, 2
FIXED = {1: 8, 5: 4}
METADATA_FIELD, DOCUMENT_FIELD, EXTERNAL_FIELD = 1, 2, 3
HEAD_BYTES = 20


def varint(body: bytes, at: int) -> tuple[int, int]:
    """The number that begins at a byte, and where the next thing begins; raises IndexError where
    the bytes end before it does."""
    number = shift = 0
    while True:
        byte = body[at]
        at += 1
        number |= (byte & 127) << shift
        if byte < 128:
            return number, at
        shift += 7
        if shift > 63:
            raise ValueError("a number of more than ten bytes")


def messages(file: BinaryIO, name: str) -> Iterator[tuple[int, Piece]]:
    """The number of each field of an index that is a message, with where that begins and how many
    bytes it has. Fields that are numbers, of which the schema has none, are passed over."""
    size, at = file.seek(0, 2), 0
    while at < size:
        file.seek(at)
        head = file.read(HEAD_BYTES)
        try:
            tag, begin = varint(head, 0)
            length, form = FIXED.get(tag & 7, 0), tag & 7
            if form in (VARINT, BYTES):
                number, begin = varint(head, begin)
                length = number if form == BYTES else 0
        except (IndexError, ValueError):
            raise NotADump(f"{name}: no SCIP index, or cut off, at byte {at}") from None
        known = form in (VARINT, BYTES, *FIXED) and tag >> 3
        if not known or at + begin + length > size:
            raise NotADump(f"{name}: no SCIP index, or cut off, at byte {at}")
        if form == BYTES:
            yield tag >> 3, (at + begin, length)
        at += begin + length


@contextmanager
def quiet() -> Iterator[None]:
    """Keeps what the library itself prints of a faulty message off the standard error."""
    kept, nowhere = os.dup(2), os.open(os.devnull, os.O_WRONLY)
    try:
        os.dup2(nowhere, 2)
        yield
    finally:
        os.dup2(kept, 2)
        os.close(kept)
        os.close(nowhere)


class IndexFile:
    """An index in a file that is read several times, and where in it each document's messages
    are."""

    def __init__(self, file: BinaryIO, name: str) -> None:
        """Reads the metadata; raises NotADump where there is none, as in what is no index."""
        self.file, self.name = file, name
        self.size = os.fstat(file.fileno()).st_size
        self.pieces: dict[str, list[Piece]] = {}
        self.external: list[Piece] = []
        self.watch: Callable[[int], None] = lambda read: None
        self.metadata = Metadata()
        found = False
        for number, piece in messages(file, name):
            if number == METADATA_FIELD:
                found = True
                self.metadata.MergeFrom(self.read([piece], Metadata))
        if not found:
            raise NotADump(f"{name}: no SCIP index: it has no metadata")

    def read(self, pieces: list[Piece], form: type[Read]) -> Read:
        """The message whose bytes are those pieces, one after the other: so a document that comes
        in several messages is one."""
        found = form()
        for begin, length in pieces:
            self.file.seek(begin)
            body = self.file.read(length)
            try:
                with quiet():
                    found.MergeFromString(body)
            except (DecodeError, ValueError):
                raise NotADump(
                    f"{self.name}: no SCIP index: the message at byte {begin} isn't one of its schema"
                ) from None
        return found

    def find(self, path_of: Callable[[str, int], str]) -> None:
        """Finds the messages of documents in their order, each filed under a path; without one,
        which `path_of` answers by an empty text, it's left out. It may be called again."""
        self.pieces, self.external = {}, []
        for number, piece in messages(self.file, self.name):
            if number == EXTERNAL_FIELD:
                self.external.append(piece)
            elif number == DOCUMENT_FIELD:
                path = path_of(self.read([piece], Document).relative_path, piece[0])
                if path:
                    self.pieces.setdefault(path, []).append(piece)

    def documents(self) -> Iterator[tuple[str, Document]]:
        """The documents, one at a time, whole."""
        for path, pieces in list(self.pieces.items()):
            self.watch(pieces[0][0])
            yield path, self.read(pieces, Document)

    def external_symbols(self) -> Iterator[SymbolInformation]:
        """What is said of symbols that no document of the index defines."""
        return (self.read([piece], SymbolInformation) for piece in self.external)
