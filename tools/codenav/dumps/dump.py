"""A dump in LSIF or an index in SCIP, by its first bytes, packed or not."""

from __future__ import annotations

import sys
import tempfile
from contextlib import contextmanager
from typing import IO, TYPE_CHECKING, BinaryIO, Iterator, Union, cast

from codenav.dumps.lsif.reading import Source
from codenav.dumps.packed import at_least, joined, opened, unpacked
from codenav.faults import BadCall
from codenav.kinds import KINDS

if TYPE_CHECKING:
    from codenav.dumps.scip.messages import IndexFile

Dump = Union[Source, "IndexFile"]

HEAD_BYTES = 4096
FIELDS = (b"\x0a", b"\x12", b"\x1a")
"""The tags of `metadata`, `documents` and `external_symbols`."""


def is_index(head: bytes) -> bool:
    """Whether what begins so is a SCIP index and no LSIF dump: its first byte is the tag of one of
    the fields of an index, which come in any order, and no object or array follows."""
    text = head.lstrip()
    is_json = text[:1] in (b"{", b"[") and text[1:].lstrip()[:1] in (b'"', b"{", b"[", b"}", b"")
    return head[:1] in FIELDS and text != b"" and not is_json


def index_in(file: BinaryIO, name: str) -> IndexFile:
    """The index in a file; raises BadCall where what reads its messages isn't installed."""
    try:
        from codenav.dumps.scip.messages import IndexFile
    except ModuleNotFoundError as fault:
        if (fault.name or "").partition(".")[0] != "google":
            raise
        raise BadCall(
            f"it needs Debian's python3-protobuf, which {sys.executable} hasn't"
        ) from None
    return IndexFile(file, name)


def is_scip(path: str) -> bool:
    """Whether a file is a SCIP index."""
    with opened(path) as file:
        return is_index(at_least(unpacked(file, path)[0], HEAD_BYTES))


def profile_of(path: str) -> str:
    """The profile in which a prepared dump is read: 2 where it has results of that alone. Of an
    index it isn't known, so it's 2."""
    with opened(path) as file:
        return "2" if is_index(file.read(HEAD_BYTES)) else profile_in(file)


def profile_in(file: IO[bytes]) -> str:
    """The same of a dump in a file."""
    labels = [f'"{kind.result}"'.encode() for kind in KINDS if not kind.is_of("1")]
    file.seek(0)
    return "2" if any(label in line for line in file for label in labels) else "1"


@contextmanager
def opened_dump(path: str) -> Iterator[Dump]:
    """What is in a file, or on the standard input for `-`: a `Source` where it's no index. Raises
    NotADump where what it begins with can't be unpacked, or it's an index without metadata."""
    name = "standard input" if path == "-" else path
    with opened(path) as file:
        chunks, packed_by = unpacked(file, name)
        head = at_least(chunks, HEAD_BYTES)
        if not is_index(head[:HEAD_BYTES]):
            yield Source(file, name)
        elif not packed_by:
            yield index_in(file, name)
        else:
            with tempfile.TemporaryFile() as copy:
                copy.writelines(joined(head, chunks))
                copy.flush()
                yield index_in(cast(BinaryIO, copy), name)
