"""Tests of which files `browse` shows and lists, and of characters that turn a text around."""

import json
import os
import re
import tempfile
import unittest
from urllib.parse import quote

from codenav.settings.found import Settings
from tests.test_browse import Served, unlinked

BAD = ["/", "//", "/etc/", "../", ".git/", "src/.kept/", "src/../"]
TURNED = {"name": "a\u202ets.rs", "text": 'let a = "\u202e\u2066 x \u2069"; // \u202a\u2068\n'}


class Shown(Served, unittest.TestCase):
    def setUp(self) -> None:
        self.top = os.path.realpath(self.enterContext(tempfile.TemporaryDirectory()))
        for name, text in (
            ("src/a.rs", "fn a() {}\n"),
            (".git/config", "secret\n"),
            ("src/.kept/x.rs", "secret\n"),
            (".env", "secret\n"),
            (TURNED["name"], TURNED["text"]),
        ):
            path = os.path.join(self.top, name)
            os.makedirs(os.path.dirname(path), exist_ok=True)
            with open(path, "w", encoding="utf-8") as file:
                file.write(text)
        self.serve(Settings("http://127.0.0.1:1", "app", self.top))
        self.addCleanup(self.stop)

    def names(self, at: str) -> list[str]:
        """The entries of a folder, as the tree is given them."""
        status, body, _ = self.got(f"/list?path={quote(at)}&start=0&end=99")
        return [entry["name"] for entry in json.loads(body)["entries"]] if status == 200 else []

    def test_folders_that_are_not_listed(self) -> None:
        self.assertEqual((self.names(""), self.names("src/")), (["src/", "a\ufffdts.rs"], ["a.rs"]))
        for at in BAD:
            with self.subTest(at):
                self.assertEqual(self.names(at), [])
                self.assertEqual(self.got(f"/list?path={quote(at)}&start=0&end=99")[0], 403)

    def test_names_that_begin_with_a_dot(self) -> None:
        for name in ".git/config", ".git", "src/.kept/x.rs", ".env":
            with self.subTest(name):
                status, body, _ = self.got(f"/files/{name}")
                self.assertEqual((status, "secret" in body), (403, False))

    def test_a_link_that_leads_to_itself(self) -> None:
        for name in "loop", "src/loop":
            os.symlink("loop", os.path.join(self.top, name))
        self.assertEqual(self.names("src/"), ["a.rs"])
        body = self.got("/files/src/a.rs")[1]
        self.assertIn('<a href="/files/src/a.rs" aria-current="page">a.rs</a>', body)
        self.assertEqual(self.got("/files/loop")[0], 404)

    def test_characters_that_turn_a_text_around(self) -> None:
        """Each is drawn as a mark in its place, so that no other character moves."""
        body = self.got(f"/files/{quote(TURNED['name'])}")[1]
        body = re.sub(' data-path="[^"]*"', "", body)
        self.assertNotRegex(body, "[\u202a-\u202e\u2066-\u2069]")
        body = unlinked(body)
        self.assertIn('let a = "\ufffd\ufffd x \ufffd"; // \ufffd\ufffd\n', body)
        self.assertIn(quote(TURNED["name"]), body)


if __name__ == "__main__":
    unittest.main()
