"""Inputs as people have them: a file, or the standard input; plain, or packed by gzip or zstd."""

import os
import shutil
import sys
import tempfile
import zlib
from contextlib import contextmanager
from errno import EISDIR
from typing import BinaryIO, Callable, Iterator, cast

from codenav.faults import NotADump

Chunks = Iterator[bytes]

CHUNK = 1 << 20
ZSTD_PIECE = 1 << 10
MOST_GROWTH = 100
SMALL_BYTES = 1 << 26
GZIP, ZSTD = b"\x1f\x8b", b"\x28\xb5\x2f\xfd"


def read_chunks(file: BinaryIO) -> Chunks:
    """The bytes of a file."""
    while chunk := file.read(CHUNK):
        yield chunk


def gunzipped(chunks: Chunks) -> Chunks:
    """What chunks in gzip unpack to; raises zlib.error, and EOFError where they end early."""
    unpacker = zlib.decompressobj(31)
    for chunk in chunks:
        while chunk:
            yield unpacker.decompress(chunk, CHUNK)
            chunk = unpacker.unconsumed_tail or unpacker.unused_data
            if unpacker.eof and chunk.lstrip(b"\0"):
                unpacker = zlib.decompressobj(31)
            elif unpacker.eof:
                break
    yield unpacker.flush()
    if not unpacker.eof:
        raise EOFError


def unzstd(chunks: Chunks) -> Chunks:
    """What chunks in zstd unpack to, in small pieces, since a few bytes may unpack to many; raises
    ValueError, and EOFError where they end early."""
    try:
        import zstandard
    except ImportError:
        needed = f"Debian's python3-zstandard, which {sys.executable} hasn't"
        raise ValueError(f"packed by zstd, which needs {needed}") from None
    unpacker = zstandard.ZstdDecompressor().decompressobj()
    for chunk in chunks:
        for at in range(0, len(chunk), ZSTD_PIECE):
            piece = chunk[at : at + ZSTD_PIECE]
            while piece:
                if unpacker.eof:
                    unpacker = zstandard.ZstdDecompressor().decompressobj()
                try:
                    yield unpacker.decompress(piece)
                except zstandard.ZstdError:
                    raise ValueError("not whole as zstd wrote it") from None
                piece = unpacker.unused_data if unpacker.eof else b""
    if not unpacker.eof:
        raise EOFError


def joined(first: bytes, rest: Chunks) -> Chunks:
    """Chunks behind a first one."""
    yield first
    yield from rest


def at_least(chunks: Chunks, size: int) -> bytes:
    """So many bytes from the beginning of chunks, or more, or all."""
    found = b""
    for chunk in chunks:
        found += chunk
        if len(found) >= size:
            break
    return found


def unpacked(
    file: BinaryIO, name: str, watch: Callable[[int], None] = lambda read: None
) -> tuple[Chunks, str]:
    """The bytes of a file from its beginning, unpacked, and what it's packed by: `gzip`, `zstd` or
    nothing. `watch` takes how many of its bytes are read. Where it isn't whole the chunks end with
    NotADump."""
    file.seek(0)
    chunks = read_chunks(file)
    head = at_least(chunks, 4)
    plain = joined(head, chunks)
    for mark, by, unpack in ((GZIP, "gzip", gunzipped), (ZSTD, "zstd", unzstd)):
        if head.startswith(mark):
            return limited(unpack(plain), file, name, watch), by
    return limited(plain, file, name, watch), ""


def limited(chunks: Chunks, file: BinaryIO, name: str, watch: Callable[[int], None]) -> Chunks:
    """The chunks; an early end to what grows beyond all that a dump does."""
    grown = 0
    try:
        for chunk in chunks:
            grown += len(chunk)
            at = file.tell()
            watch(at)
            if grown > SMALL_BYTES and grown > MOST_GROWTH * at:
                raise NotADump(
                    f"{name}: unpacks to more than {MOST_GROWTH} times its {at} bytes, the limit; a dump that is so is unpacked beforehand"
                )
            yield chunk
    except ValueError as fault:
        raise NotADump(f"{name}: {fault}") from None
    except (EOFError, zlib.error):
        raise NotADump(f"{name}: cut off, or not whole as it was packed") from None


@contextmanager
def opened(path: str) -> Iterator[BinaryIO]:
    """A file, or the standard input for `-`, to be read more than once: what can't be is copied to
    a temporary file first."""
    if os.path.isdir(path):
        raise IsADirectoryError(EISDIR, os.strerror(EISDIR), path)
    with open(0 if path == "-" else path, "rb", closefd=path != "-") as file:
        if path != "-" and os.path.isfile(path):
            yield file
            return
        with tempfile.TemporaryFile() as copy:
            shutil.copyfileobj(file, copy)
            copy.seek(0)
            yield cast(BinaryIO, copy)
