"""Tests of what an index says of itself: the record that `publish` adds to a dump keeps the rules of
a dump and the limits of the server, and no tool stumbles over it."""

import io
import json
import os
import tempfile
import unittest
from contextlib import redirect_stderr, redirect_stdout
from typing import Any
from unittest import mock

from codenav import limits
from codenav.cli.explain import WHY
from codenav.cli.prepare import PREPARE
from codenav.progress import Quiet
from codenav.records import ADDRESS, Prepared, Record, new_record, record_in
from codenav.sets.surface.surface import write_surface
from tests.dump_walks import Question, Walk, answered
from tests.split_files import split_file
from tests.test_publish import RAW

COMMIT = "0123456789abcdef" * 2 + "01234567"
RECORD = Record(COMMIT, "file:///src/tr/crate", "m")
ADDED = 5
"""Elements of a record."""


def quietly(tool: Any, *words: str) -> tuple[int, str]:
    """The status of a tool, and all that it says."""
    with redirect_stdout(io.StringIO()) as said, redirect_stderr(said):
        status = tool(list(words))
    return status, said.getvalue()


class Records(unittest.TestCase):
    def setUp(self) -> None:
        self.folder = self.enterContext(tempfile.TemporaryDirectory())
        self.path = os.path.join(self.folder, "dump.lsif")
        self.assertEqual(quietly(PREPARE.main, "--strip", RAW, self.path)[0], 0)

    def elements(self) -> list[dict[str, Any]]:
        """The elements of the dump."""
        with open(self.path, "rb") as dump:
            return [json.loads(line) for line in dump]

    def test_what_is_read(self) -> None:
        """A record is three texts, and more is for later; its commit is one or nothing."""
        good = RECORD._asdict()
        for contents, record in (
            (json.dumps(good), RECORD),
            (json.dumps({**good, "more": 1}), RECORD),
            (json.dumps({**good, "revision": ""}), RECORD._replace(revision="")),
            (json.dumps({**good, "revision": "HEAD"}), None),
            (json.dumps({**good, "revision": COMMIT + "\n"}), None),
            (json.dumps({**good, "folder": None}), None),
            (json.dumps({"revision": COMMIT}), None),
            (json.dumps([good]), None),
            ("[" * 100_000, None),
            ("text", None),
            (None, None),
            ({"kind": "markdown", "value": json.dumps(good)}, None),
        ):
            self.assertEqual(record_in(contents), record, contents)
        self.assertNotEqual(new_record("", "").mark, new_record("", "").mark)

    def test_what_is_added(self) -> None:
        """The dump's own elements stay; what comes behind them is found by a hover alone, in each
        profile."""
        before = self.elements()
        self.assertTrue(Prepared(self.path).add(RECORD))
        after = self.elements()
        self.assertEqual((after[:-ADDED], len(after)), (before, len(before) + ADDED))
        for profile in ("1", "2"):
            walk, at = Walk(after, profile), Question("hover", ADDRESS, (0, 0))
            self.assertEqual(record_in(answered({"app": walk}, "app", at)), RECORD)
        found = Prepared(self.path)
        self.assertEqual((found.is_recorded, found.record), (True, RECORD))
        self.assertEqual((found.elements, found.root), (len(after), "file:///src/tr/crate"))

    def test_ids_that_are_taken(self) -> None:
        taken = [f"{ADDRESS} 1", f"{ADDRESS} 3"]
        with open(self.path, "ab") as dump:
            for own in taken:
                text = json.dumps({"id": own, "type": "vertex", "label": "resultSet"})
                dump.write(text.replace("c", "\\u0063", own == taken[0]).encode() + b"\n")
            dump.seek(-1, os.SEEK_END)
            dump.truncate()
        self.assertTrue(Prepared(self.path).add(RECORD))
        ids = [element["id"] for element in self.elements()]
        self.assertEqual(len(ids), len(set(ids)))
        self.assertTrue(set(taken) < set(ids))

    def test_limits(self) -> None:
        """A dump that is too large with its record stays as it is."""
        count, size = len(self.elements()), os.path.getsize(self.path)
        for name, most, fits in (
            ("MOST_ELEMENTS", count + ADDED, True),
            ("MOST_ELEMENTS", count + ADDED - 1, False),
            ("MOST_BODY_BYTES", size + 100, False),
        ):
            with mock.patch.object(limits, name, most):
                self.assertEqual(Prepared(self.path).add(RECORD), fits)
            self.assertEqual(os.path.getsize(self.path) > size, fits)
            os.truncate(self.path, size)

    def test_the_other_tools(self) -> None:
        """The record is prepared as it is, and splits and surfaces are those of the dump."""
        plain = os.path.join(self.folder, "plain")
        os.mkdir(plain)
        split_file(self.path, plain, "app")
        write_surface(self.path, "1", f"{plain}.surface", Quiet())
        self.assertTrue(Prepared(self.path).add(RECORD))
        again = f"{self.path}.again"
        status, said = quietly(PREPARE.main, "--strip", "--report", self.path, again)
        count = len(self.elements())
        self.assertIn(f"; elements {count} -> {count}\n", said)
        self.assertEqual(status, 0, said)
        self.assertEqual(Prepared(again).record, RECORD)
        status, said = quietly(WHY.main, self.path, os.path.join("src", "lib.rs"), "18", "12")
        self.assertEqual((status, said.splitlines()[-1]), (0, "answer: 1 place of this dump"))
        status, said = quietly(WHY.main, "--request", "hover", self.path, ADDRESS, "1", "1")
        self.assertEqual(status, 0, said)
        parts = os.path.join(self.folder, "parts")
        split_file(self.path, parts, "app")
        write_surface(self.path, "1", f"{parts}.surface", Quiet())
        with open(f"{plain}.surface", "rb") as one, open(f"{parts}.surface", "rb") as other:
            self.assertEqual(one.read(), other.read())


if __name__ == "__main__":
    unittest.main()
