"""Tests of what the page of `browse` has of a word: all of its references, counted by files and a
page at a time, its definition with the lines behind it, and the link at it; and of what reads
without a script."""

import os
import tempfile
import unittest
from typing import Any
from urllib.parse import quote

from codenav.browse.listed import MOST_PLACES
from codenav.settings.found import Settings
from tests.packages import needs
from tests.test_browse import PLACE, Served

FILES, EACH = 250, 12
README = "# Kettle\n\nIt *boils*. <script>x</script> [web](https://w.example/) [no](javascript:x)\n"


class Panel(Served, unittest.TestCase):
    def setUp(self) -> None:
        self.top = os.path.realpath(self.enterContext(tempfile.TemporaryDirectory()))
        self.write("README.md", README)
        self.write("src/main.rs", "fn run() {\n    run();\n}\n")
        for number in range(FILES):
            self.write(f"src/many/f{number:03}.rs", "run();\n" * EACH)
        self.serve(Settings("http://127.0.0.1:1", "app", self.top))
        self.addCleanup(self.stop)

    def write(self, name: str, text: str) -> None:
        """Writes a file of the folder."""
        path = os.path.join(self.top, name)
        os.makedirs(os.path.dirname(path), exist_ok=True)
        with open(path, "w", encoding="utf-8") as file:
            file.write(text)

    def place(self, name: str, line: int, character: int) -> dict[str, Any]:
        """A place of the word, as the index answers it."""
        ends = {"line": line, "character": character + 3}
        start = {"line": line, "character": character}
        return {**PLACE, "uri": f"file://{self.top}/{name}", "start": start, "end": ends}

    def places(self) -> list[dict[str, Any]]:
        """All places of the word; its definition isn't the first."""
        names = [f"src/many/f{number:03}.rs" for number in range(FILES)]
        many = [self.place(name, line, 0) for name in names for line in range(EACH)]
        return [*many, self.place("src/main.rs", 1, 4), self.place("src/main.rs", 0, 3)]

    def test_all_references_can_be_reached(self) -> None:
        path = "/ask?what=references&path=src/main.rs&line=0&character=3"
        count = FILES * EACH + 2
        seen: list[tuple[str, int]] = []
        for start in range(0, count, MOST_PLACES):
            answer = self.asked(f"{path}&start={start}", {"places": self.places()})[1]
            self.assertEqual((answer["count"], answer["start"]), (count, start))
            seen += [(row["file"], row["line"]) for row in answer["places"]]
        self.assertEqual((len(seen), len(set(seen))), (count, count))
        self.assertEqual(answer["said"], f"{count:,} references in {FILES + 1} files")
        self.assertEqual((answer["files"]["src/many/f007.rs"], len(answer["files"])), (EACH, 251))

    def test_references_of_some_paths(self) -> None:
        path = "/ask?what=references&path=src/main.rs&line=0&character=3"
        for only, count, files in (("F007", 12, 1), ("src/many/", 3000, 250), ("none", 0, 0)):
            with self.subTest(only):
                answer = self.asked(f"{path}&only={quote(only)}", {"places": self.places()})[1]
                self.assertEqual((answer["count"], len(answer["files"])), (count, files))
        for start in "-1", "x", "1" * 10:
            self.assertEqual(self.asked(f"{path}&start={start}", {"places": []})[0], 400, start)

    def test_the_definition_with_its_text(self) -> None:
        path = "/ask?what=definition&path=src/main.rs&line=1&character=4"
        [row] = self.asked(path, {"places": [self.place("src/main.rs", 0, 3)]})[1]["places"]
        self.assertEqual((row["text"], row["around"]), ("fn run() {", ["    run();", "}"]))

    def test_the_link_at_a_word(self) -> None:
        """It leads on to a definition that is one alone, else to the word with its panel."""
        own, other = self.place("src/main.rs", 0, 3), self.place("src/many/f000.rs", 0, 0)
        away = {**PLACE, "uri": "file:///etc/passwd"}
        cases: list[tuple[list[dict[str, Any]], str]] = [
            ([own], "/files/src/main.rs#L1C4"),
            ([own, other], "/files/src/main.rs#L2C5&refs"),
            ([away], "/files/src/main.rs#L2C5&refs"),
            ([], "/files/src/main.rs#L2C5&refs"),
        ]
        for places, to in cases:
            with self.subTest(to, places=len(places)), self.replies({"places": places}):
                status, _, headers = self.got("/files/src/main.rs?at=2.5")
                self.assertEqual((status, headers.get("Location")), (303, to))
        for at, status in ("x", 400), ("1.", 400), ("1.99999999999", 400):
            self.assertEqual(self.got(f"/files/src/main.rs?at={at}")[0], status, at)

    def test_pages_that_read_without_a_script(self) -> None:
        body = self.got("/files/src/main.rs")[1]
        for text in (
            '<a href="?at=1.4">run</a>() {\n    <a href="?at=2.5">run</a>();',
            '<a class="up" href="/files/src">src</a>',
            "<h1>main.rs</h1>",
        ):
            self.assertIn(text, body)
        self.assertIn('<a href="/files/src/main.rs">main.rs</a>', self.got("/files/src")[1])
        needs("markdown_it", "python3-markdown-it")
        body = self.got("/")[1]
        for text in (
            '<li><a href="/files/src">src/</a></li>',
            "<h1>Kettle</h1><p>It <em>boils</em>. &lt;script&gt;x&lt;/script&gt; ",
            '<a href="https://w.example/" rel="noopener noreferrer">web</a> [no](javascript:x)',
        ):
            self.assertIn(text, body)


if __name__ == "__main__":
    unittest.main()
