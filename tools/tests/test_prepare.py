"""Tests of what `prepare` makes of an input: a dump, or a set of what is too large for one."""

import gzip
import io
import os
import tempfile
import unittest
from contextlib import redirect_stderr
from glob import glob as files_like
from unittest import mock

from codenav import limits
from codenav.cli.prepare import PREPARE
from codenav.dumps.dump import profile_of
from codenav.progress import Quiet
from codenav.sets.files import MANIFEST, read_head
from codenav.sets.split.split import SplitOptions, split
from tests.packages import needs
from tests.servers import TOP

DEMO = os.path.join(TOP, "demo")
RAW, SCIP = os.path.join(DEMO, "crate.raw.lsif"), os.path.join(DEMO, "crate.scip")
OF_SCIP = ["--source", os.path.join(DEMO, "crate")]


class Prepare(unittest.TestCase):
    def setUp(self) -> None:
        self.folder = self.enterContext(tempfile.TemporaryDirectory())
        self.out = os.path.join(self.folder, "out")

    def called(self, *words: str) -> tuple[int, str]:
        """The status, and what was said with OUT as the output's name."""
        with redirect_stderr(io.StringIO()) as said:
            status = PREPARE.main(words)
        return status, said.getvalue().replace(self.out, "OUT")

    def parts(self) -> dict[str, bytes]:
        """The files of the set that was written, which are those of its manifest."""
        found = {}
        for name in os.listdir(self.out):
            with open(os.path.join(self.out, name), "rb") as file:
                found[name] = file.read()
        head = read_head(os.path.join(self.out, MANIFEST))
        self.assertEqual({f"{part.project}.lsif" for part in head.parts}, {*found} - {MANIFEST})
        return found

    def test_a_set_of_what_is_too_large(self) -> None:
        """Without being asked, and the same as where it's asked for; its folder stays a set."""
        needs("google.protobuf", "python3-protobuf")
        for dump, most, more in ((RAW, 190, list[str]()), (SCIP, 160, OF_SCIP)):
            self.out = os.path.join(self.folder, os.path.basename(dump))
            words = ["--name", "own", "--elements", str(most), "--jobs", "1", *more, dump, self.out]
            with mock.patch.object(limits, "MOST_ELEMENTS", most):
                status, said = self.called(*words)
            self.assertEqual((status, " parts of at most " in said), (0, True), said)
            found = self.parts()
            self.assertEqual(self.called(*words)[0], 0)
            self.assertEqual(self.parts(), found)
            self.out += "-asked"
            with mock.patch.object(limits, "MOST_ELEMENTS", most):
                status, said = self.called("--set", *words[:-1], self.out)
            self.assertEqual((status, "over the limits" in said), (0, False), said)
            self.assertEqual(self.parts(), found)

    def test_what_can_be_no_set(self) -> None:
        """The standard output, and a line that is too long, are written; a file stays as it was."""
        with open(self.out, "wb") as file:
            file.write(b"before")
        with mock.patch.object(limits, "MOST_ELEMENTS", 150):
            said = "OUT: the set that it becomes is a folder, and this is none\n"
            self.assertEqual(self.called(RAW, self.out), (2, f"codenav prepare: {said}"))
            status, lines = self.called(RAW, os.devnull)
            self.assertEqual((status, "elements, the server takes 150 (L20)" in lines), (1, True))
        self.assertEqual(os.listdir(self.folder), ["out"])
        with open(self.out, "rb") as file:
            self.assertEqual(file.read(), b"before")
        with mock.patch.object(limits, "MOST_LINE_BYTES", 150):
            status, lines = self.called(RAW, self.out)
        self.assertEqual((status, "longest line, the server takes 150 (L01)" in lines), (1, True))
        self.assertGreater(os.path.getsize(self.out), 9_000)
        self.assertEqual(
            self.called("--set", RAW, "-"), (2, f"codenav prepare: {said.replace('OUT', '-')}")
        )

    def test_a_set_of_what_is_prepared(self) -> None:
        """It's that of the dump as it stands, read as it asks for; its folder's own folder may be
        missing."""
        samples = os.path.join(TOP, "tools", "tests", "samples", "*", "dump.lsif")
        profiles = set()
        for dump in (RAW, *sorted(files_like(samples))):
            with self.subTest(dump):
                home = tempfile.mkdtemp(dir=self.folder)
                prepared, self.out = os.path.join(home, "dump"), os.path.join(home, "a", "b")
                more = ["--source", os.path.dirname(dump), "--lenient"]
                if self.called(*more, dump, prepared)[0]:
                    continue
                words = ["--set", "--name", "own", "--jobs", "1", prepared, self.out]
                status, said = self.called(*words)
                self.assertEqual(status, 0, said)
                found, options = self.parts(), SplitOptions("own", profile_of(prepared), jobs=1)
                self.out += "-itself"
                split(prepared, options, self.out, Quiet())
                self.assertEqual(found, self.parts())
                profiles.add(options.profile)
        self.assertEqual(profiles, {"1", "2"})

    def test_messages(self) -> None:
        """They name what was given, and no file of the call's own."""
        empty = os.path.join(self.folder, "empty")
        with open(empty, "w", encoding="utf-8") as file:
            file.write('{"id":1,"type":"vertex","label":"metaData","version":"0.6.0"}\n')
        said = f"codenav prepare: {empty}: no document to write\n"
        self.assertEqual(self.called("--set", empty, self.out), (2, said))
        self.assertEqual(os.listdir(self.folder), ["empty"])

    def test_a_packed_index(self) -> None:
        """An index that is packed gives what it gives as it is."""
        needs("google.protobuf", "python3-protobuf")
        packed = os.path.join(self.folder, "packed")
        with open(SCIP, "rb") as file, gzip.open(packed, "wb") as out:
            out.write(file.read())
        bodies = []
        for source in (SCIP, packed):
            self.assertEqual(self.called(*OF_SCIP, source, self.out)[0], 0)
            with open(self.out, "rb") as file:
                bodies.append(file.read())
        self.assertEqual(*bodies)
        with open(packed, "r+b") as file:
            file.truncate(os.path.getsize(packed) - 20)
        said = f"codenav prepare: {packed}: cut off, or not whole as it was packed\n"
        self.assertEqual(self.called(packed, self.out), (2, said))

    def test_documents_that_are_left_out(self) -> None:
        """By their paths or their addresses; a pattern that is like none is refused."""
        needs("google.protobuf", "python3-protobuf")
        for dump, more in ((RAW, list[str]()), (SCIP, OF_SCIP)):
            for glob in ("src/l*.rs", "file:///*/src/lib.rs"):
                status, said = self.called(*more, "--without", glob, dump, self.out)
                self.assertEqual(status, 0, said)
                self.assertIn("mended: document left out, as --without asks: 1, the first", said)
            said = f"codenav prepare: {dump}: no document is like `x/*`, which is to be left out\n"
            self.assertEqual(
                self.called(*more, "--without", "src/*", "--without", "x/*", dump, self.out),
                (2, said),
            )


if __name__ == "__main__":
    unittest.main()
