"""The texts of source files as editors show them: without a byte order mark, which says UTF-8 or
UTF-16. A line that is neither is read as Latin-1, so its columns count bytes."""

import codecs
import os
import re
import stat
from bisect import bisect_right
from contextlib import suppress
from functools import cached_property
from typing import Callable, Iterable

from codenav.faults import BadCall

MARK = "\ufeff"
MARKS = {codecs.BOM_UTF16_LE: "utf-16-le", codecs.BOM_UTF16_BE: "utf-16-be"}
MOST_BYTES = 50_000_000
"""Of a text that is read: about as much as VS Code sends of one to its extensions."""
PAIR = re.compile("[\U00010000-\U0010ffff]")
"""A character that is two UTF-16 code units."""
OTHERS = ("utf-8", "latin-1", "cp1252", "iso8859-15")
"""How editors read a file that isn't UTF-8: all of it in one way."""


def is_utf_8(body: bytes) -> bool:
    """Whether bytes are UTF-8."""
    try:
        body.decode()
    except UnicodeDecodeError:
        return False
    return True


def decoded(body: bytes) -> str:
    """The text of bytes. Raises ValueError where they're none."""
    if body[:2] in MARKS:
        return body[2:].decode(MARKS[body[:2]], "replace")
    if is_utf_8(body):
        return body.decode().removeprefix(MARK)
    if b"\0" in body:
        raise ValueError("not a text")
    lines = body.removeprefix(codecs.BOM_UTF8).split(b"\n")
    return "\n".join(line.decode("utf-8" if is_utf_8(line) else "latin-1") for line in lines)


def may_be_text(head: bytes) -> bool:
    """Whether bytes that begin so may be a text."""
    if b"\0" not in head or head[:2] in MARKS:
        return True
    try:
        codecs.getincrementaldecoder("utf-8")().decode(head)
    except UnicodeDecodeError:
        return False
    return True


def is_read_as(body: bytes, text: str) -> bool:
    """Whether a text is one that an editor may have read of bytes, but for its line ends."""

    def plain(other: str) -> str:
        return other.removeprefix(MARK).replace("\r\n", "\n")

    with suppress(ValueError):
        if plain(decoded(body)) == plain(text):
            return True
    is_known = body[:2] in MARKS or is_utf_8(body)
    return not is_known and any(
        plain(body.decode(encoding, "replace")) == plain(text) for encoding in OTHERS
    )


def body_of(path: str, most: int = MOST_BYTES) -> bytes:
    """The bytes of a file. Raises BadCall where it can't be read, is none with a text, as a device
    or a pipe, or has more bytes than that."""
    try:
        with open(path, "rb", opener=at_once) as file:
            found = os.fstat(file.fileno())
            if not stat.S_ISREG(found.st_mode):
                raise BadCall(f"{path}: not a regular file")
            if found.st_size > most:
                raise BadCall(f"{path}: more than {most} bytes")
            return file.read()
    except (OSError, ValueError) as fault:
        raise BadCall(f"{path}: {getattr(fault, 'strerror', fault)}") from None


def at_once(path: str, flags: int) -> int:
    """Opens a file, and doesn't wait for who writes into a pipe."""
    return os.open(path, flags | os.O_NONBLOCK | os.O_NOCTTY)


def text_of(path: str) -> str:
    """The text of a file. Raises BadCall where it has none."""
    return read_text(path).text


def lines_in(text: str) -> list[str]:
    """The lines of a text without their ends; the last one is empty where a line feed ends it."""
    return [line.removesuffix("\r") for line in text.split("\n")]


def lines_of(path: str) -> list[str]:
    """The lines of a file. Raises BadCall where it has no text."""
    return lines_in(text_of(path))


class Text:
    """The text of a file; `others` are its lines, from 0, that aren't UTF-8."""

    def __init__(self, text: str, others: Iterable[int] = ()) -> None:
        self.text, self.others = text, set(others)
        self.pairs: dict[int, list[int]] = {}

    @cached_property
    def lines(self) -> list[str]:
        """The lines without their ends."""
        return lines_in(self.text)

    def characters(self, line: int, count: int) -> int:
        """How many characters the first `count` UTF-16 code units of a line have; half of one is
        one, and so is each unit beyond its end. Raises IndexError."""
        if line not in self.pairs:
            found = PAIR.finditer(self.lines[line])
            self.pairs[line] = [one.end() + number for number, one in enumerate(found, 1)]
        return count - bisect_right(self.pairs[line], count)


def read_text(path: str) -> Text:
    """The text of a file. Raises BadCall where it has none."""
    body = body_of(path)
    try:
        text = decoded(body)
    except ValueError as fault:
        raise BadCall(f"{path}: {fault}") from None
    if body[:2] in MARKS or is_utf_8(body):
        return Text(text)
    lines = enumerate(body.split(b"\n"))
    return Text(text, (number for number, line in lines if not is_utf_8(line)))


class Texts:
    """The texts of files, each of which is read once for an answer, by whatever path it's named;
    of over `MOST_BYTES` characters those that were read last are kept. `read` reads a file."""

    def __init__(self, read: Callable[[str], Text] = read_text) -> None:
        self.read = read
        self.paths: dict[str, str] = {}
        self.kept: dict[str, Text] = {}
        self.room = MOST_BYTES

    def clear(self) -> None:
        """Forgets all, for the next answer."""
        self.__init__(self.read)  # type: ignore[misc]

    def of(self, path: str) -> Text:
        """A file's text. Raises BadCall where it has none."""
        if path not in self.paths:
            self.paths[path] = os.path.realpath(path)
        real = self.paths[path]
        if real not in self.kept:
            found = self.kept[real] = self.read(path)
            self.room -= len(found.text)
            while self.room < 0 and len(self.kept) > 1:
                self.room += len(self.kept.pop(next(iter(self.kept))).text)
        return self.kept[real]

    def text(self, path: str) -> str:
        """The same as one text."""
        return self.of(path).text
