"""Tests of the texts of source files: byte order marks, UTF-16, and what is neither it nor UTF-8."""

import contextlib
import os
import tempfile
import unittest

from codenav.faults import BadCall
from codenav.texts.columns import UTF_8, UTF_16, UTF_32, Columns
from codenav.texts.decoded import MOST_BYTES, decoded, is_read_as, lines_of, read_text, text_of
from codenav.texts.places import shown

TEXT = "caf\u00e9 = \U0001F600;\r\nx\n"
READ: list[tuple[bytes, str]] = [
    (TEXT.encode(), TEXT),
    (TEXT.encode("utf-8-sig"), TEXT),
    (b"\xff\xfe" + TEXT.encode("utf-16-le"), TEXT),
    (b"\xfe\xff" + TEXT.encode("utf-16-be"), TEXT),
    (b"\xff\xfe\x00\xd8", "\ufffd"),
    ("a\ufeff".encode(), "a\ufeff"),
    (b"x\ncaf\xe9\n", "x\ncaf\xe9\n"),
    (b"\xef\xbb\xbfx\ncaf\xe9\n", "x\ncaf\xe9\n"),
    ("\u00e9\u20ac\n".encode() + b"\xe9\x80\n", "\u00e9\u20ac\n\xe9\x80\n"),
    (b"a\0b", "a\0b"),
    (b"", ""),
]
"""Bytes, and the text that they are."""
EDITED: list[tuple[bytes, str, bool]] = [
    (TEXT.encode("utf-8-sig"), TEXT, True),
    (TEXT.encode("utf-8-sig"), "\ufeff" + TEXT, True),
    (TEXT.encode("utf-8-sig"), TEXT.replace("\r\n", "\n"), True),
    (TEXT.encode(), TEXT + "y", False),
    (TEXT.encode(), TEXT.encode().decode("latin-1"), False),
    (b"caf\xe9 \x80", "caf\xe9 \x80", True),
    (b"caf\xe9 \x80", "caf\xe9 \u20ac", True),
    (b"caf\xe9 \x80", "caf\ufffd \ufffd", True),
    (b"caf\xe9 \x80", "caf\xe9 x", False),
    ("\u00e9\n".encode() + b"\xe9", "\xc3\xa9\n\xe9", True),
    ("\u00e9\n".encode() + b"\xe9", "\u00e9\n\xe9", True),
]
"""The bytes of a file, the text of an editor, and whether it may have read that of these."""
COUNTED: list[tuple[bytes, int, int, int, object]] = [
    (TEXT.encode(), UTF_8, 0, 6, 5),
    (TEXT.encode(), UTF_8, 0, 4, None),
    (TEXT.encode(), UTF_8, 0, 12, 9),
    (TEXT.encode(), UTF_32, 0, 8, 9),
    (TEXT.encode(), UTF_16, 0, 8, 8),
    (TEXT.encode(), UTF_8, 1, 1, 1),
    (TEXT.encode(), UTF_8, 1, 2, None),
    (TEXT.encode(), UTF_8, 3, 0, None),
    (TEXT.encode("utf-8-sig"), UTF_8, 0, 3, 0),
    (TEXT.encode("utf-8-sig"), UTF_8, 0, 9, 5),
    (TEXT.encode("utf-8-sig"), UTF_32, 0, 1, 0),
    (b"\xff\xfe" + TEXT.encode("utf-16-le"), UTF_8, 0, 6, 5),
    (b"caf\xe9 = x\n\xc3\xa9y", UTF_8, 0, 7, 7),
    (b"caf\xe9 = x\n\xc3\xa9y", UTF_8, 0, 9, None),
    (b"caf\xe9 = x\n\xc3\xa9y", UTF_8, 1, 2, 1),
]
"""The bytes of a file, what an indexer counts, a line, a character so counted, and the UTF-16 code
units before it. clang and rust-analyzer count the bytes of a mark."""


class Texts(unittest.TestCase):
    def test_read(self) -> None:
        for body, text in READ:
            with self.subTest(body):
                self.assertEqual(decoded(body), text)
                self.assertTrue(is_read_as(body, text))

    def test_edited(self) -> None:
        for body, text, is_same in EDITED:
            with self.subTest(body, text=text):
                self.assertEqual(is_read_as(body, text), is_same)

    def test_counted(self) -> None:
        for body, encoding, line, character, units in COUNTED:
            with self.subTest(body, encoding=encoding, at=(line, character)):
                self.assertEqual(Columns(encoding, body).units(line, character), units)

    def test_shown(self) -> None:
        """A path is printed from the folder of the call where it lies there."""
        with tempfile.TemporaryDirectory() as folder, contextlib.chdir(folder):
            for path, text in (
                (os.path.join(folder, "a/b.c"), "a/b.c"),
                (os.path.join(folder, "..b.c"), "..b.c"),
                (os.path.dirname(folder), os.path.dirname(folder)),
                ("/no/b.c", "/no/b.c"),
            ):
                self.assertEqual(shown(path), text)

    def test_files(self) -> None:
        with tempfile.TemporaryDirectory() as folder:
            path = os.path.join(folder, "a")
            with open(path, "wb") as file:
                file.write(b"\xef\xbb\xbfx\r\ncaf\xe9\n")
            self.assertEqual(lines_of(path), ["x", "caf\xe9", ""])
            self.assertEqual(read_text(path).others, {1})
            with open(path, "wb") as file:
                file.write(b"\xe9\0")
            pipe = os.path.join(folder, "pipe")
            os.mkfifo(pipe)
            for other, fault in (
                (path, "not a text"),
                (f"{path}\0", "embedded null byte"),
                (folder, "Is a directory"),
                (pipe, "not a regular file"),
                ("/dev/null", "not a regular file"),
                (f"{path}/no", "Not a directory"),
            ):
                with self.subTest(other), self.assertRaisesRegex(BadCall, f"^{other}: {fault}$"):
                    text_of(other)
            with open(path, "wb") as file:
                file.truncate(MOST_BYTES + 1)
            with self.assertRaisesRegex(BadCall, f"^{path}: more than 50000000 bytes$"):
                text_of(path)
