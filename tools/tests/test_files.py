"""Tests of files that are written: whole or not at all, and with the mode of the one before."""

import os
import stat
import tempfile
import unittest
from typing import Any, Callable
from unittest import mock

from codenav.files import new_folder, whole_file


class Files(unittest.TestCase):
    def setUp(self) -> None:
        self.folder = self.enterContext(tempfile.TemporaryDirectory())
        self.path = os.path.join(self.folder, "one")

    def written(self, text: str) -> None:
        with whole_file(self.path) as out:
            out.write(text.encode())

    def test_the_mode_stays(self) -> None:
        self.written("first")
        umask = os.umask(0o022)
        os.umask(umask)
        self.assertEqual(stat.S_IMODE(os.stat(self.path).st_mode), 0o666 & ~umask)
        os.chmod(self.path, 0o600)
        with whole_file(self.path) as out:
            out.write(b"second")
            modes = {stat.S_IMODE(file.stat().st_mode) for file in os.scandir(self.folder)}
        self.assertEqual(modes, {0o600})
        self.assertEqual(stat.S_IMODE(os.stat(self.path).st_mode), 0o600)

    def test_what_is_left(self) -> None:
        """What a killed call left is written anew, and what somebody else has there isn't."""
        other, left = os.path.join(self.folder, "other"), f"{self.path}.0.new"
        rows: list[tuple[Callable[[], object], bool]] = [
            (lambda: os.rename(other, left), False),
            (lambda: os.symlink(other, left), True),
            (lambda: os.mkdir(left), True),
        ]
        for makes, stays in rows:
            with open(other, "w", encoding="utf-8") as file:
                file.write("what was left is longer")
            makes()
            self.written("new")
            with open(self.path, encoding="utf-8") as file:
                self.assertEqual(file.read(), "new")
            self.assertEqual(os.path.lexists(left), stays)
            if os.path.islink(left):
                with open(other, encoding="utf-8") as file:
                    self.assertEqual(file.read(), "what was left is longer")
                os.unlink(left)

    def test_a_folder_that_stays(self) -> None:
        """What can't be removed is named, however deep it is."""
        real = os.open
        for name in "set", "":

            def refused(path: str, *words: Any, **more: Any) -> int:
                if os.path.basename(path) == (name or os.path.basename(folder)):
                    raise OSError(5, "Input/output error", path)
                return real(path, *words, **more)

            with (
                self.assertRaises(OSError) as raised,
                mock.patch("os.open", refused),
                new_folder("codenav-", self.folder) as folder,
            ):
                os.makedirs(os.path.join(folder, "set", "deep"))
            self.assertEqual((raised.exception.errno, raised.exception.filename), (5, folder))
        with new_folder("codenav-", self.folder) as folder:
            os.makedirs(os.path.join(folder, "set"))
        self.assertFalse(os.path.exists(folder))

    def test_where_there_are_no_locks(self) -> None:
        with mock.patch("fcntl.flock", side_effect=OSError(95, "Operation not supported")):
            with whole_file(self.path) as other:
                other.write(b"other")
                self.written("second")
            self.assertEqual(os.listdir(self.folder), ["one"])
        with open(self.path, encoding="utf-8") as file:
            self.assertEqual(file.read(), "other")

    def test_what_fails(self) -> None:
        """Nothing of it is left, nor is anything taken away that another process writes."""
        self.written("first")
        with whole_file(self.path) as other:
            other.write(b"other")
            with self.assertRaisesRegex(ValueError, "no"):
                with whole_file(self.path) as out:
                    out.write(b"second")
                    raise ValueError("no")
            self.assertEqual(len(os.listdir(self.folder)), 2)
        with open(self.path, encoding="utf-8") as file:
            self.assertEqual((file.read(), os.listdir(self.folder)), ("other", ["one"]))


if __name__ == "__main__":
    unittest.main()
