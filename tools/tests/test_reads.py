"""Tests of how often files are read and servers are asked for one answer, and of how long answers
take that have many places in one file."""

import json
import os
import random
import subprocess
import sys
import tempfile
import time
import unittest
from collections import Counter
from contextlib import contextmanager
from typing import Any, Callable, Iterator
from unittest import mock

from codenav.browse.answers import Browser
from codenav.browse.folder import Folder
from codenav.asking.outlines import MOST_LETTERS, Outlines
from codenav.cli.ask import ASK
from codenav.cli.command import Command
from codenav.cli.projects import REMOVE
from codenav.cli.publish import PUBLISH
from codenav.client import http
from codenav.client.http import exchange
from codenav.names import PART
from codenav.records import line_of
from codenav.sets.publish.store import Store
from codenav.settings.found import Settings
from codenav.texts.decoded import Text, text_of
from codenav.texts.places import Place, place_line, uri_of
from codenav.texts.revisions import Batch
from tests.in_process import InProcess
from tests.servers import TOP, OnServer
from tests.test_kept_revision import quietly

TIMES = 12
COUNTED: Counter[str] = Counter()


def note(event: str, given: Any) -> None:
    """Counts the files that are opened."""
    if event == "open" and isinstance(given[0], str):
        COUNTED[given[0]] += 1


sys.addaudithook(note)


def noted(call: Callable[[], object], path: str) -> int:
    """How often it's noted that a call opens a file, by any of its names."""
    COUNTED.clear()
    call()
    return sum(count for name, count in COUNTED.items() if os.path.realpath(name) == path)


def opened(call: Callable[[], object], path: str) -> int:
    """How often a call opens a file, each of which may be noted several times."""
    return noted(call, path) // noted(lambda: text_of(path), path)


def dump(uri: str, names: list[tuple[int, int, int]]) -> bytes:
    """A dump in which places, each a line, a start and an end, are references of the first one."""
    rows: list[dict[str, Any]] = [
        {"type": "vertex", "label": "metaData", "version": "0.6.0", "positionEncoding": "utf-16"},
        {"type": "vertex", "label": "document", "uri": uri, "languageId": "c"},
        {"type": "vertex", "label": "resultSet"},
        {"type": "vertex", "label": "definitionResult"},
        {"type": "vertex", "label": "referenceResult"},
        {"type": "vertex", "label": "hoverResult", "result": {"contents": "a word"}},
        {"type": "edge", "label": "textDocument/definition", "outV": 3, "inV": 4},
        {"type": "edge", "label": "textDocument/references", "outV": 3, "inV": 5},
        {"type": "edge", "label": "textDocument/hover", "outV": 3, "inV": 6},
    ]
    first = len(rows) + 1
    for line, start, end in names:
        ends = [{"line": line, "character": character} for character in (start, end)]
        rows.append({"type": "vertex", "label": "range", "start": ends[0], "end": ends[1]})
    ranges = [first + number for number in range(len(names))]
    rows.append({"type": "edge", "label": "contains", "outV": 2, "inVs": ranges})
    rows += [{"type": "edge", "label": "next", "outV": own, "inV": 3} for own in ranges]
    item: dict[str, Any] = {"type": "edge", "label": "item", "shard": 2}
    rows.append({**item, "outV": 4, "inVs": ranges[:1]})
    rows.append({**item, "outV": 5, "inVs": ranges[:1], "property": "definitions"})
    rows.append({**item, "outV": 5, "inVs": ranges[1:], "property": "references"})
    return b"".join(
        json.dumps({"id": at, **row}).encode() + b"\n" for at, row in enumerate(rows, 1)
    )


class Reads(OnServer):
    def setUp(self) -> None:
        super().setUp()
        self.folder = os.path.realpath(self.enterContext(tempfile.TemporaryDirectory()))
        self.file = os.path.join(self.folder, "a.c")

    def put(self, text: str, names: list[tuple[int, int, int]], tags: str = "") -> None:
        """Writes a file, and uploads an index of it."""
        with open(self.file, "w", encoding="utf-8") as out:
            out.write(text)
        store, key = Store(self.url), str(time.monotonic())
        store.put("app", "lsif", dump(uri_of(self.file, []), names), f"a{key}".replace(".", "-"))
        if tags:
            store.put("app", "tags", tags.encode(), f"t{key}".replace(".", "-"))

    def calls(self, revisions: list[str]) -> dict[str, Callable[[], object]]:
        """Questions of each tool, of an index of a revision, if it's known."""
        own = [f"--revision={one}" for one in revisions]
        found: dict[str, Callable[[], object]] = {}
        for what in "definition", "references", "hover":
            place = [*own, self.url, "app", what, self.file, "1", "5"]
            found[f"ask {what}"] = lambda place=place: quietly(ASK.main, *place)  # type: ignore[misc]
        for what, words in {
            "names": ["names", "--prefix", "wo"],
            "by name": ["definition", "--by-name", self.file, "1", "5"],
        }.items():
            place = [*own, "--tags", f"app={self.folder}", self.url, "app", *words]
            found[f"ask {what}"] = lambda place=place: quietly(ASK.main, *place)  # type: ignore[misc]
        settings = Settings(self.url, "app", self.folder, revisions=tuple(revisions))
        browser = Browser(Folder(self.folder), settings)
        shown = {"path": "a.c", "line": "0", "character": "4"}
        for what in "definition", "references", "hover":
            asked = {**shown, "what": what}
            found[f"page {what}"] = lambda asked=asked: browser.asked(asked)  # type: ignore[misc]
        found["page names"] = lambda: browser.names({"prefix": "wo"})
        found["page outline"] = lambda: browser.outline({"path": "a.c"})
        return found

    def test_a_file_is_read_once_for_an_answer(self) -> None:
        """Also one that has a kept revision, from which it differs."""
        text = "int word(void);\nint main(void) { return word() + word(); }\n"
        names = [(0, 4, 8), (1, 24, 28), (1, 33, 37)]
        tags = 'main\ta.c\t2;"\tf\nword\ta.c\t1;"\tf\n'
        self.put(text, names, tags)
        git = ["git", "-C", self.folder, "-c", "user.name=n", "-c", "user.email=e"]
        for is_known in False, True:
            if is_known:
                for words in ["init", "-q"], ["add", "."], ["commit", "-qm", "c"]:
                    subprocess.run([*git, *words], check=True)
                with open(self.file, "a", encoding="utf-8") as out:
                    out.write("\n")
            for name, call in self.calls(["HEAD"] * is_known).items():
                asked: Counter[str] = Counter()

                def counting(batch: Batch, line: str) -> bytes:
                    asked.update([line] if line.endswith(" a.c") else [])
                    return Batch.answered(batch, line)  # type: ignore[attr-defined,no-any-return]

                with self.subTest(name, is_known=is_known), mock.patch.object(
                    Batch, "answered", Batch.asked, create=True
                ), mock.patch.object(Batch, "asked", counting):
                    self.assertEqual(opened(call, self.file), 1)
                    self.assertLessEqual(max(asked.values(), default=0), 1)

    def test_an_editor(self) -> None:
        self.put("int word(void);\n", [(0, 4, 8)], 'word\ta.c\t1;"\tf\n')
        workspace = Settings(self.url, "app", self.folder)
        with InProcess(workspace) as editor:
            begin = {"rootUri": uri_of(self.folder, []), "capabilities": {}}
            editor.answer({"id": 1, "method": "initialize", "params": begin})
            document = {"uri": uri_of(self.file, []), "text": "int word(void);\n\n"}
            at: dict[str, Any] = {"textDocument": document, "position": {"line": 0, "character": 4}}
            for is_open in False, True:
                if is_open:
                    editor.take({"method": "textDocument/didOpen", "params": at})
                for method, params in (
                    ("textDocument/definition", at),
                    ("textDocument/references", {**at, "context": {"includeDeclaration": True}}),
                    ("textDocument/hover", at),
                    ("textDocument/documentSymbol", at),
                    ("workspace/symbol", {"query": "wo"}),
                ):
                    message = {"id": 2, "method": method, "params": params}
                    with self.subTest(method, is_open=is_open):
                        self.assertLessEqual(opened(lambda: editor.answer(message), self.file), 1)

    def test_many_places_of_one_file(self) -> None:
        """Of 1.35 MB, as many lines and as one: what a call takes is hardly by its places."""
        words = [f"\u4e00\U0001f600 word {number:06} " + "x" * 655 for number in range(2_000)]
        wanted = [str(len(" ".join(words[:n])) + 4 + (n > 0)) for n in range(2_000)]
        for between in "\n", " ":
            text = between.join(words) + "\n"
            names, at = [], 0
            for number, word in enumerate(words):
                line, start = (number, 4) if between == "\n" else (0, at + 4)
                names.append((line, start, start + 4))
                at += len(word) + 2
            with self.subTest(between):
                few: dict[str, float] = {}
                for tool, count in (("ask", 20), ("page", 20), ("ask", 2_000), ("page", 2_000)):
                    self.put(text, names[:count])
                    before = time.process_time()
                    if tool == "ask":
                        place = [self.file, "1", "4"]
                        status, said, _ = quietly(ASK.main, self.url, "app", "references", *place)
                        columns = [line.rpartition(":")[2] for line in said.split()]
                        self.assertEqual((status, len(columns)), (0, count))
                        if between == " ":
                            self.assertEqual(columns, wanted[:count])
                    else:
                        browser = Browser(
                            Folder(self.folder), Settings(self.url, "app", self.folder)
                        )
                        own = {"path": "a.c", "line": "0", "character": "4"}
                        found = browser.asked({"what": "references", **own})
                        self.assertEqual(found["count"], count)
                        self.assertEqual(len(found["places"]), min(count, 50))
                    taken = time.process_time() - before
                    self.assertLess(taken, few.setdefault(tool, taken) * TIMES + 1, tool)


@contextmanager
def counted() -> Iterator[list[str]]:
    """What is asked of servers meanwhile."""
    asked: list[str] = []

    def counting(*given: Any) -> Any:
        asked.append(given[2])
        return exchange(*given)

    with mock.patch.object(http, "exchange", counting):
        yield asked


class Requests(OnServer):
    def test_nothing_lists_all_projects(self) -> None:
        """However a question ends, few requests are made."""
        store = Store(self.url)
        store.put("tagged", "tags", b'run\ta.c\t1;"\tf\n' + line_of(""), "k1")
        store.put("app", "lsif", dump("file:///a.c", [(0, 0, 3)]), "k2")
        servers = ["--all-projects", "--servers", f"{self.url},http://localhost:{self.port}"]
        at = [os.path.join(TOP, "demo", "crate", "src", "lib.rs"), "18", "12"]
        crate = ["--no-tags", "--dump", os.path.join(TOP, "demo", "crate.raw.lsif")]
        rows: list[tuple[Command[Any], list[str], int]] = [
            (ASK, [self.url, "app", "names", "run"], 5),
            (ASK, [self.url, "tagged", "names", "run"], 2),
            (ASK, [self.url, "tagged", "names", "ran"], 7),
            (ASK, [self.url, "tagged", "hover", *at], 6),
            (ASK, [self.url, "none", "names", "run"], 7),
            (ASK, [self.url, "none", "names", *servers, "run"], 3),
            (ASK, [self.url, "none", "definition", *at], 8),
            (ASK, [self.url, "none", "hover", *at], 6),
            (PUBLISH, [*crate, self.url, "crate", os.path.dirname(at[0])], 3),
            (PUBLISH, [*crate, self.url, "crate", os.path.dirname(at[0])], 3),
            (ASK, [self.url, "crate", "definition", *at], 4),
            (REMOVE, [self.url, "crate"], 2),
            (REMOVE, [self.url, "crate"], 2),
        ]
        with counted() as asked:
            for tool, words, most in rows:
                with self.subTest(tool.word, words=words):
                    asked.clear()
                    quietly(tool.main, *words)
                    self.assertLessEqual(len(asked), most, asked)
                    self.assertGreater(len(asked), 0)
                    self.assertNotIn("/projects", asked)

    def test_lists_for_a_set(self) -> None:
        """Where a set changed all projects are listed once, and else never; what somebody removed
        comes back."""
        crate = os.path.join(TOP, "demo", "crate")
        dump = os.path.join(self.enterContext(tempfile.TemporaryDirectory()), "dump.lsif")
        with open(f"{crate}.raw.lsif", encoding="utf-8") as file:
            text = file.read()

        def hand() -> None:
            [part] = [one for one in Store(self.url).projects() if PART.fullmatch(one)]
            Store(self.url).remove(part)

        rows: tuple[tuple[int, Callable[[], None], int, str], ...] = (
            (0, lambda: None, 1, "new 1, removed 0"),
            (0, lambda: None, 0, "new 0, removed 0"),
            (1, lambda: None, 1, "new 1, removed 1"),
            (1, lambda: None, 0, "new 0, removed 0"),
            (1, hand, 1, "new 1, removed 0"),
            (1, lambda: None, 0, "new 0, removed 0"),
        )
        for down, before, lists, said in rows:
            with self.subTest(down=down, lists=lists):
                before()
                with open(dump, "w", encoding="utf-8") as out:
                    out.write(text.replace('"line":19,', f'"line":{19 + down},'))
                words = ["--set", "--no-tags", "--dump", dump, self.url, "crate", crate]
                with counted() as asked:
                    status, printed, _ = quietly(PUBLISH.main, *words)
                self.assertEqual((status, asked.count("/projects")), (0, lists), asked)
                self.assertIn(said, printed)
                self.assertLessEqual(len(asked), 14 + 14 * lists)

    def test_letters_of_an_outline(self) -> None:
        """A file of many ideographs is asked for some of them at a time."""
        text = " ".join(map(chr, range(0x4E00, 0x4E00 + 2_000))) + " main\n"
        asked: list[str] = []

        def names(prefix: str) -> list[dict[str, Any]]:
            asked.append(prefix)
            return [{"name": prefix, "file": "a.c"}]

        outlines = Outlines(names)
        for count in range(1, 22):
            tags, left = outlines.of("a.c", text)
            self.assertEqual(len(asked), min(count * MOST_LETTERS, 2_001))
            self.assertEqual(left, 2_001 - len(asked))
            self.assertEqual(tags[0]["name"], "m")
        self.assertEqual((len(set(asked)), asked[0]), (2_001, "m"))


class Columns(unittest.TestCase):
    def test_random_lines(self) -> None:
        """Against each character's own length."""
        rng = random.Random(5)
        for _ in range(2_000):
            line = "".join(rng.choice("a\u00e9\u4e00\U0001f600\U0010ffff") for _ in range(9))
            text = Text(f"\n{line}\r\n")
            units, wanted = 0, dict[int, int]()
            for number, character in enumerate(line):
                for half in range(len(character.encode("utf-16-le")) // 2):
                    wanted[units] = number + half
                    units += 1
            wanted.update({units + more: len(line) + more for more in range(3)})
            for count, characters in wanted.items():
                self.assertEqual(text.characters(1, count), characters, (line, count))
            place = Place("file:///a", 1, 0)
            self.assertEqual(place_line(place, False, lambda _: text), "file:///a:2:1")


if __name__ == "__main__":
    unittest.main()
