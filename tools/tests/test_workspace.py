"""Tests of an editor over several checkouts: what `.codenav.toml` may say, which project is asked,
and, over a real server, that answers about edited, renamed and unsaved files are those about the
indexed ones.
"""

import io
import os
import re
import tempfile
import unittest
from contextlib import redirect_stderr, redirect_stdout
from typing import Any

from codenav.asking.workspace import Workspace
from codenav.cli.prepare import PREPARE
from codenav.cli.upload import UPLOAD
from codenav.faults import BadCall
from codenav.settings.found import FILE, Settings, settings_in
from codenav.texts.decoded import text_of
from codenav.texts.places import Place as FilePlace
from codenav.texts.places import units, uri_of
from tests.repository import InRepository, checkouts
from tests.servers import TOP, OnServer
from tests.test_lsp import Editor

GOOD = """
server = "http://h:1/"
set = "app@next"
revision = "v1"
indexed = "../old"
[map]
"file:///src/app/" = "."
[tags]
app = "."
lib = "/lib"
[revisions]
lib = "HEAD~1"
"""
TEXTS = "are texts, not empty and without the character U+0000"
Place = tuple[str, str, int]


class SettingsFile(unittest.TestCase):
    def setUp(self) -> None:
        self.folder = os.path.realpath(self.enterContext(tempfile.TemporaryDirectory()))

    def read(self, text: str, folder: str = "") -> Settings:
        """What a file with a text says."""
        return settings_in(self.write(text, folder))

    def write(self, text: str, folder: str = "") -> str:
        """Writes a file of settings, and answers its path."""
        path = os.path.join(self.folder, folder, FILE)
        os.makedirs(os.path.dirname(path), exist_ok=True)
        with open(path, "w", encoding="utf-8") as file:
            file.write(text)
        return path

    def test_all_keys(self) -> None:
        found = self.read(GOOD, "work")
        work = os.path.join(self.folder, "work")
        self.assertEqual(
            found,
            Settings(
                "http://h:1",
                "app@next",
                work,
                [("file:///src/app", work)],
                {"app": work, "lib": "/lib"},
                ("lib=HEAD~1", "v1"),
                os.path.join(self.folder, "old"),
            ),
        )

    def test_a_byte_order_mark(self) -> None:
        self.assertEqual(self.read("\ufeff" + GOOD), self.read(GOOD))

    def test_what_is_refused(self) -> None:
        named = 'server = "http://h:1"\nproject = "app"\n'
        for text, fault in (
            ("x = ", "Invalid value"),
            ('server = "http://h:1"', "it names neither a project nor a set"),
            (named + 'set = "app"', "it names both a project and a set"),
            ('project = "app"', "no server, and CODENAV_URL has none"),
            ('server = "x"\nproject = "app"', "server: not the address of a server"),
            ('server = "http://[::1"\nproject = "app"', "server: not the address of a server"),
            ('server = "http://a..b"\nproject = "app"', "server: not the address of a server"),
            (named + 'servers = ["http://[::1"]', "servers: not the address of a server"),
            (named + "servers = [1]", "the values of servers are texts"),
            ("a = " + "[" * 60_000, "nested too deeply"),
            ("a = " + "1" * 5_000, "Exceeds the limit"),
            ("a." * 201 + "b = 1", "a line with over 200 dots"),
            ("#" * 100_000, "more than 65536 bytes"),
            (named + 'revision = "a\\u0000"', f"the values of revision {TEXTS}"),
            (named + 'revision = ""', f"the values of revision {TEXTS}"),
            (named + 'indexed = "a\\u0000"', f"the values of indexed {TEXTS}"),
            (named + 'map = { "file:///x" = "a\\u0000" }', f"the values of map {TEXTS}"),
            (named + 'tags = { app = "a\\u0000" }', f"the values of tags {TEXTS}"),
            (named + 'revisions = { app = "a\\u0000" }', f"the values of revisions {TEXTS}"),
            ('server = "http://h:1"\nproject = "No"', "a project is 1 to 64 characters"),
            (named + "maps = {}", "no key 'maps': there are server, project, set, map"),
            (named + "map = 1", "map isn't a table"),
            (named + "revision = 1", "revision isn't a text"),
            (named + "tags = { lib = 1 }", f"the values of tags {TEXTS}"),
            (named + 'tags = { No = "x" }', "a project is 1 to 64 characters"),
        ):
            with self.subTest(text), self.assertRaises(BadCall) as caught:
                self.read(text)
            line = str(caught.exception)
            self.assertTrue(line.startswith(f"{self.folder}/{FILE}: {fault}"), line)
            self.assertNotIn("\n", line)

    def test_which_settings_count(self) -> None:
        lines = [f'server = "http://h:1"\nproject = "{name}"\n' for name in ("outer", "inner")]
        self.read(lines[0])
        self.read(lines[1], "deep/inner")
        self.write("x = ", "bad")
        given = Settings("http://h:1", "given", os.path.join(self.folder, "deep"))
        for settings, path, project in (
            (None, "a.rs", "outer"),
            (None, "deep/a.rs", "outer"),
            (None, "deep/inner/src/a.rs", "inner"),
            (None, "bad/a.rs", "outer"),
            (given, "deep/a.rs", "given"),
            (given, "deep/inner/a.rs", "inner"),
            (given, "a.rs", "outer"),
            (given, "/elsewhere/a.rs", "given"),
            (None, "/elsewhere/a.rs", None),
        ):
            said: list[str] = []
            root = settings.folder if settings else self.folder
            workspace = Workspace(root, settings, said.append, text_of)
            found = workspace.settings(os.path.join(self.folder, path))
            self.assertEqual(found and found.project, project, path)
            self.assertEqual(len(said), path.startswith("bad"))

    def test_settings_that_change(self) -> None:
        """They count at the next question: mended, changed, broken and removed."""
        said: list[str] = []
        workspace = Workspace(self.folder, None, said.append, text_of)
        path, own = os.path.join(self.folder, "deep", "a.rs"), os.path.join(self.folder, FILE)
        good = 'server = "http://127.0.0.1:1"\nproject = "%s"\n'
        unknown = f"neither a {FILE} above {path} nor the command line says"
        refused = "Connection refused"
        for number, (folder, text, fault) in enumerate(
            (
                ("", "", unknown),
                ("", "x = ", f"{own}: Invalid value"),
                ("", good % "one", f"one: http://127.0.0.1:1: {refused}"),
                ("", good % "two", f"two: http://127.0.0.1:1: {refused}"),
                ("deep", "x = ", f"two: http://127.0.0.1:1: {refused}"),
                ("deep", good % "deep", f"deep: http://127.0.0.1:1: {refused}"),
                ("deep", "", f"two: http://127.0.0.1:1: {refused}"),
                ("", "y = ", f"{own}: Invalid value"),
                ("", "", unknown),
            )
        ):
            with self.subTest(number):
                if text:
                    os.utime(self.write(text, folder), ns=(number, number))
                elif os.path.exists(os.path.join(self.folder, folder, FILE)):
                    os.remove(os.path.join(self.folder, folder, FILE))
                with self.assertRaises(BadCall) as caught:
                    workspace.ask("definition", FilePlace(path, 0, 0))
                self.assertTrue(str(caught.exception).startswith(fault), caught.exception)
        deep = os.path.join(self.folder, "deep", FILE)
        self.assertEqual([line.split(": ")[0] for line in said], [deep])

    def test_another_beside(self) -> None:
        """It asks by itself, since what's known of a project is of one question at a time, and has
        the same texts; also where settings changed meanwhile."""
        path = os.path.join(self.folder, "a.rs")
        workspace = Workspace(self.folder, None, print, text_of)
        other = workspace.beside()
        for name in "one", "two":
            self.write(f'server = "http://h:1"\nproject = "{name}"\n')
            projects = []
            for each in workspace, other:
                settings = each.settings(path)
                assert settings is not None
                projects.append(each.project(settings, "app"))
            self.assertIsNot(*projects)
            self.assertIs(projects[0].today, projects[1].today)


class OnCheckouts(OnServer, InRepository):
    """The demo crates are two checkouts, each of a project of its own, with a `.codenav.toml`."""

    def setUp(self) -> None:
        OnServer.setUp(self)
        InRepository.setUp(self)
        self.texts: dict[str, str] = {}
        checkouts(self.home, self.url)
        for name, project in ("crate", "temperature"), ("user", "kettle"):
            dump = os.path.join(self.home, f"{name}.lsif")
            raw = os.path.join(TOP, "demo", f"{name}.raw.lsif")
            with redirect_stdout(io.StringIO()), redirect_stderr(io.StringIO()):
                self.assertEqual(PREPARE.main([raw, dump]), 0)
                self.assertEqual(UPLOAD.main([self.url, project, dump]), 0)
        for folder, _, names in os.walk(self.home):
            for name in names:
                if name.endswith(".rs"):
                    path = os.path.join(folder, name)
                    self.texts[path] = text_of(path)

    def editor(self) -> Editor:
        """An editor over both checkouts, of which the command line says nothing."""
        editor = Editor()
        self.addCleanup(self.end, editor)
        editor.call("initialize", {"rootUri": uri_of(self.home, []), "capabilities": {}})
        return editor

    def end(self, editor: Editor) -> None:
        """Ends an editor."""
        self.assertEqual(editor.end("shutdown", "exit"), (0, b""))

    def named(self, texts: dict[str, str], path: str, line: int, character: int) -> Place:
        """What a place is, however the text moved: the file, the word, and how many such words
        stand before it; at the top it's the file itself."""
        name = os.path.basename(path).replace("scales", "scale")
        if (line, character) == (0, 0):
            return name, "", 0
        found = [place for place in words(texts[path]) if place[1:] == (line, character)]
        word = found[0][0] if found else "?"
        before = [
            one for one in words(texts[path]) if one[0] == word and one[1:] < (line, character)
        ]
        return name, word, len(before)

    def survey(self, editor: Editor, texts: dict[str, str]) -> dict[tuple[Place, str], list[Place]]:
        """The definition at each word, and in one file the references, in an editor that shows
        these texts."""
        found = {}
        for path, text in texts.items():
            for _, line, character in words(text):
                for what in ("definition", "references") if "scale" in path else ("definition",):
                    at = {
                        "textDocument": {"uri": uri_of(path, [])},
                        "position": {"line": line, "character": character},
                        "context": {"includeDeclaration": True},
                    }
                    places = editor.call(f"textDocument/{what}", at)[0] or []
                    own = self.named(texts, path, line, character), what
                    found[own] = sorted(
                        self.named(texts, place["uri"][7:], *place["range"]["start"].values())
                        if place["uri"][7:] in texts
                        else (place["uri"], "", 0)
                        for place in places
                    )
        return found

    def test_edited_renamed_and_unsaved_files(self) -> None:
        before = self.survey(self.editor(), self.texts)
        self.assertGreater(sum(map(bool, before.values())), 20)
        lib, scale, user = (
            os.path.join(self.home, name)
            for name in ("crate/src/lib.rs", "crate/src/scale.rs", "user/src/lib.rs")
        )
        texts = dict(self.texts)
        texts[lib] = "zeta!();\n\n" + texts[lib].replace("    Reading {", "\tReading {")
        scales = scale.replace("scale.rs", "scales.rs")
        texts[scales] = ("added!();\n" + texts.pop(scale)).replace("\n", "\r\n")
        os.remove(scale)
        for path in lib, scales:
            with open(path, "w", encoding="utf-8", newline="") as file:
                file.write(texts[path])
        texts[user] = "// unsaved\n\n" + texts[user]
        editor = self.editor()
        opened = {"uri": uri_of(user, []), "languageId": "rust", "version": 1, "text": texts[user]}
        editor.notify("textDocument/didOpen", {"textDocument": opened})
        after = self.survey(editor, texts)
        right = 0
        for own, places in after.items():
            wanted = before.get(own, [])
            self.assertLessEqual(set(places), set(wanted), own)
            right += bool(places) and places == wanted
        self.assertGreaterEqual(right, 0.9 * sum(map(bool, before.values())))

    def test_the_next_question_goes_to_the_project_of_the_file(self) -> None:
        os.remove(os.path.join(self.home, "crate", FILE))
        editor = self.editor()
        at = self.place("user/src/lib.rs", "fahrenheit(")
        [place] = editor.call("textDocument/definition", at)[0]
        self.assertEqual(place["uri"], uri_of(os.path.join(self.home, "crate/src/scale.rs"), []))
        at = {"textDocument": {"uri": place["uri"]}, "position": place["range"]["start"]}
        references = editor.call(
            "textDocument/references", {**at, "context": {"includeDeclaration": True}}
        )[0]
        self.assertIsInstance(references, list)

    def place(self, name: str, text: str) -> dict[str, Any]:
        """The position of a text in a file."""
        path = os.path.join(self.home, name)
        before, _, _ = self.texts[path].partition(text)
        last = before.rpartition("\n")[2]
        return {
            "textDocument": {"uri": uri_of(path, [])},
            "position": {"line": before.count("\n"), "character": units(last)},
        }


def words(text: str) -> list[tuple[str, int, int]]:
    """The words of a text, with their lines and characters."""
    lines = re.split(r"\r\n|\n", text)
    return [
        (found[0], number, found.start())
        for number, line in enumerate(lines)
        for found in re.finditer(r"\w+", line)
    ]


if __name__ == "__main__":
    unittest.main()
