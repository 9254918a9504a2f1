"""Tests of what users give wrongly, or do at once, to a set on a real server: each is one plain line
with status 2, and the set answers as before."""

import os
import subprocess
import unittest

from codenav.faults import Fault
from codenav.sets.publish.store import Store
from tests.servers import TOP, command
from tests.split_files import split_file
from tests.test_set_service import CRATE, LIB, MAP, NAME, OnFile, Revisions

RAW = os.path.join(TOP, "demo", "crate.raw.lsif")
TOO_LONG = "x" * 48
SECONDS = 300
FOREIGN = b"\\x02set\tother\t1\n"
PLACE = ["definition", LIB, "18", "12"]


class BadInput(OnFile):
    """A set on a server, and calls of the tools."""

    def setUp(self) -> None:
        super().setUp()
        self.both = Revisions(self.folder)
        self.publish(self.both.folders[0])

    def launched(self, tool: str, *words: str) -> "subprocess.Popen[str]":
        """A call of a tool."""
        return subprocess.Popen(
            [*command(tool), *words],
            stdin=subprocess.DEVNULL,
            stdout=subprocess.PIPE,
            stderr=subprocess.PIPE,
            text=True,
        )

    def called(self, tool: str, *words: str) -> tuple[int, str, str]:
        """The status of a call, and what it prints on both limits."""
        with self.launched(tool, *words) as call:
            said, warned = call.communicate(timeout=SECONDS)
        return call.returncode, said, warned

    def refused(self, text: str, tool: str, *words: str) -> None:
        """A call is refused by one line with a text."""
        status, said, warned = self.called(tool, *words)
        self.assertEqual((status, said, warned.count("\n")), (2, "", 1), warned)
        self.assertRegex(warned, f"^codenav {tool}: .*{text}")

    def test_calls(self) -> None:
        """Calls that can't be carried out change nothing."""
        before, files = self.projects(), sorted(os.listdir(self.both.folders[0]))
        folder, nowhere = self.both.folders[0], os.path.join(self.folder, "nowhere")
        rows = {
            "47 characters": ["publish", "--set", "--dump", RAW, self.url, TOO_LONG, CRATE],
            "manifest.tags.* No such file": ["upload", self.url, nowhere],
        }
        for text, words in rows.items():
            with self.subTest(text):
                self.refused(text, *words)
                self.assertEqual(self.projects(), before)
                self.assertEqual(sorted(os.listdir(folder)), files)
                self.assertFalse(os.path.exists(nowhere))
        whole = os.path.join(self.folder, "whole.lsif")
        for text, path, name, most in (
            ("line 1: of version 0.5.0 and not 0.6.0; .* prepares a dump", RAW, NAME, 200),
            ("a set is 1 to 47 characters of a-z 0-9 _ -, .* not 'x+'", whole, TOO_LONG, 200),
            ("a part has 1 to 100000 elements, not 100001", whole, NAME, 100_001),
        ):
            with self.assertRaisesRegex(Fault, text):
                split_file(path, folder, name, elements=most)
            self.assertEqual(sorted(os.listdir(folder)), files)
        self.assertEqual(self.both.answering(self.url), 0)
        self.assertEqual(self.publish(folder), "parts 2, kept 2, new 0, removed 0")

    def test_a_manifest_of_somebody_else(self) -> None:
        """A publish and a question are refused, and what stands there stays."""
        Store(self.url).put(f"{NAME}-parts", "tags", FOREIGN, "foreign")
        text = "isn't the manifest of a set: somebody else wrote it"
        self.refused(text, "upload", self.url, self.both.folders[1])
        self.refused(text, "ask", *MAP, self.url, NAME, *PLACE)
        tags = Store(self.url).tags(f"{NAME}-parts", "\x02")
        self.assertEqual([tag["file"] for tag in tags], ["other"])
        Store(self.url).remove(f"{NAME}-parts")
        self.publish(self.both.folders[1])
        self.assertEqual(self.both.answering(self.url), 1)

    def test_two_publishes_at_once(self) -> None:
        """Of two calls at once one publishes, and the other does so behind it or is refused; the
        set is one revision whole."""
        for _ in range(3):
            calls = [self.launched("upload", self.url, own) for own in self.both.folders]
            done = []
            for call in calls:
                with call:
                    said, warned = call.communicate(timeout=SECONDS)
                done.append((call.returncode, said, warned))
            self.assertIn(0, [status for status, _, _ in done], done)
            for status, said, warned in done:
                if status == 0:
                    self.assertRegex(said, "^parts 2, kept [0-2], new [0-2], removed [0-2]\n$")
                else:
                    self.assertEqual((status, warned.count("\n")), (2, 1), warned)
                    self.assertRegex(warned, f"another publish of {NAME} (is under way|was faster)")
            self.both.answering(self.url)
            self.assertEqual(len(self.projects()), 3)

    def test_a_part_removed_by_hand(self) -> None:
        """A question that needs the part is refused, and the next publish puts it back."""
        head = Store(self.url).head(NAME)
        assert head is not None
        Store(self.url).remove(head.part_of("file:///src/tr/crate/src/lib.rs"))
        self.refused(
            f"a part of the set {NAME} is gone; publish the set again",
            *["ask", *MAP, self.url, NAME, *PLACE],
        )
        words = ["upload", self.url, self.both.folders[0]]
        self.assertEqual(self.called(*words), (0, "parts 2, kept 1, new 1, removed 0\n", ""))
        self.assertEqual(self.both.answering(self.url), 0)


if __name__ == "__main__":
    unittest.main()
