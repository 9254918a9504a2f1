"""Tests of definitions by name, where a project has tags alone and where they're asked for, and of
what is said of projects that aren't known."""

import io
import os
import tempfile
import unittest
from contextlib import redirect_stderr, redirect_stdout
from typing import Optional

from codenav.asking.by_name import name_at
from codenav.asking.workspace import Workspace
from codenav.browse.answers import Browser
from codenav.browse.folder import Folder
from codenav.cli.ask import ASK
from codenav.cli.browse import BROWSE, browser_of
from codenav.cli.upload import UPLOAD
from codenav.faults import NoReply
from codenav.records import line_of
from codenav.settings.found import FILE, Settings
from codenav.texts.decoded import text_of
from codenav.texts.places import Place, uri_of
from tests.servers import TOP, OnServer
from tests.test_lsp import Editor

DUMP = os.path.join(TOP, "demo", "base.lsif")
FILES = {
    "src/main.c": "int area(int r);\nint main(void) { return area(2) + twice(1) + gone(); }\n",
    "src/help.c": "static int twice(int x) { return 2 * x; }\n",
    "lib/area.c": "int area(int r) { return r * r; }\nstatic int twice(int x) { return x; }\n",
    "lib/main.h": "int twice_as_much;\n",
}
TAGS = (
    ("area", "lib/area.c", "/^int area(int r) { return r * r; }$/"),
    ("main", "src/main.c", "2"),
    ("twice", "lib/area.c", "/^static int twice(int x) { return x; }$/"),
    ("twice", "src/help.c", "/^static int twice(int x) { return 2 * x; }$/"),
    ("twice_as_much", "lib/main.h", "1"),
)
LINES = "".join(map("{0[0]}\t{0[1]}\t{0[2]}\n".format, TAGS))
ALONE = "app has tags alone"


class Names(unittest.TestCase):
    def test_the_identifier_at_a_character(self) -> None:
        for line, character, name in (
            ("a.bc = d", 0, "a"),
            ("a.bc = d", 1, "a"),
            ("a.bc = d", 2, "bc"),
            ("a.bc = d", 4, "bc"),
            ("a.bc = d", 6, ""),
            ("a.bc = d", 8, "d"),
            ("a.bc = d", 99, "d"),
            ("\U0001f600e\u0301f g", 2, "e\u0301f"),
            ("\U0001f600e\u0301f g", 5, "e\u0301f"),
            ("", 0, ""),
        ):
            self.assertEqual(name_at(line, character), name, (line, character))


class OverTags(OnServer):
    """Tests over a project that has tags alone."""

    def setUp(self) -> None:
        super().setUp()
        self.folder = os.path.realpath(self.enterContext(tempfile.TemporaryDirectory()))
        for name, text in {
            **FILES,
            "tags": LINES + line_of("").decode(),
        }.items():
            path = os.path.join(self.folder, name)
            os.makedirs(os.path.dirname(path), exist_ok=True)
            with open(path, "w", encoding="utf-8") as file:
                file.write(text)
        self.put("app", os.path.join(self.folder, "tags"))

    def put(self, *words: str) -> None:
        """Uploads a dump or tags."""
        with redirect_stdout(io.StringIO()):
            self.assertEqual(UPLOAD.main([self.url, *words]), 0)

    def asked(self, project: str, what: str, *words: str) -> tuple[int, list[str], str]:
        """The status of `ask`, and what it prints on both outputs, from the folder on."""
        with redirect_stdout(io.StringIO()) as said, redirect_stderr(io.StringIO()) as warned:
            status = ASK.main(
                ["--tags", f"{project}={self.folder}", self.url, project, what, *words]
            )
        places = said.getvalue().replace(os.path.relpath(self.folder) + "/", "")
        return status, places.replace(self.folder + "/", "").split(), warned.getvalue()

    def test_ask(self) -> None:
        main = os.path.join(self.folder, "src/main.c")
        by_name = f"codenav ask: {ALONE}: the definition is by name\n"
        for what, column, found in (
            ("definition", "27", (0, ["lib/area.c:1:5"], by_name)),
            ("definition", "36", (0, ["src/help.c:1:12", "lib/area.c:2:12"], by_name)),
            ("definition", "7", (0, ["src/main.c:2:5"], by_name)),
            ("definition", "48", (1, [], by_name)),
            ("references", "27", (1, [], f"codenav ask: {ALONE}: no references\n")),
            ("hover", "27", (1, [], f"codenav ask: {ALONE}: no hover\n")),
        ):
            with self.subTest(what, column=column):
                self.assertEqual(self.asked("app", what, main, "2", column), found)

    def test_files_that_changed(self) -> None:
        """What isn't as it was is said, and what is gone isn't shown."""
        main, area = (os.path.join(self.folder, name) for name in ("src/main.c", "lib/area.c"))
        note = f"codenav ask: {ALONE}: the definition is by name\n"
        guessed, gone = "1 of 1 places are guessed: ", "1 of 1 tags aren't shown, for "
        for text, places, said in (
            ("\n" + FILES["lib/area.c"], ["lib/area.c:2:5"], ""),
            ("\nlong area(int r);\n", ["lib/area.c:2:6"], guessed),
            ("\nint areas;\n", [], f"{gone}neither "),
            (None, [], f"{gone}their files aren't here: "),
        ):
            with self.subTest(text):
                self.written(area, text)
                for words in (("names", "area"), ("definition", main, "2", "27")):
                    is_name = words[0] == "names"
                    status, found, told = self.asked("app", *words)
                    found = [one.removesuffix(":") for one in found if one != "area"]
                    self.assertEqual((status, found), (0 if places else 1, places))
                    told = told if is_name else told.removesuffix(note)
                    wanted = said and f"codenav ask: {said}"
                    self.assertEqual(told[: len(wanted) or None], wanted)

    def written(self, path: str, text: Optional[str]) -> None:
        """Writes a file, or removes it."""
        if text is None:
            os.unlink(path)
        else:
            with open(path, "w", encoding="utf-8") as file:
                file.write(text)

    def test_a_project_with_a_dump_is_asked_by_name_alone_where_that_is_wished(self) -> None:
        self.put("app", DUMP)
        main = os.path.join(self.folder, "src/main.c")
        status, found, said = self.asked("app", "definition", main, "2", "27")
        self.assertEqual((status, found), (2, []))
        self.assertIn("D02 no such document", said)
        wished = "codenav ask: the definition is by name, among the tags of app\n"
        self.assertEqual(
            self.asked("app", "definition", "--by-name", main, "2", "27"),
            (0, ["lib/area.c:1:5"], wished),
        )

    def test_projects_that_are_not_known(self) -> None:
        self.put("dump", DUMP)
        main = os.path.join(self.folder, "src/main.c")
        for project in "app", "dump":
            self.assertEqual(self.asked(project, "names", "none"), (1, [], ""))
        tags = os.path.join(self.folder, "others")
        self.written(tags, LINES)
        self.put("others", tags)
        unknown = f"has neither a dump at {self.url} nor tags that `codenav publish` made: it may not be there"
        for project in "ap", "others":  # others has tags that don't say so
            wanted = (2, list[str](), f"codenav ask: {project} {unknown}\n")
            self.assertEqual(self.asked(project, "names", "none"), wanted)
            status, _, told = self.asked(project, "hover", main, "2", "27")
            self.assertEqual((status, told.split(":")[1]), (2, " D01 project has no dump"))
        status, found, _ = self.asked("others", "definition", main, "2", "27")
        self.assertEqual((status, found), (0, ["lib/area.c:1:5"]))

    def uri(self, name: str) -> str:
        """The address of a file."""
        return uri_of(os.path.join(self.folder, name), [])

    def test_an_editor(self) -> None:
        """What is said of the project is said once for each kind."""
        editor = Editor(self.url, "app")
        editor.call("initialize", {"rootUri": uri_of(self.folder, []), "capabilities": {}})
        # a text that isn't saved counts
        document = {"uri": self.uri("src/help.c"), "text": "\n\n" + FILES["src/help.c"]}
        editor.notify("textDocument/didOpen", {"textDocument": document})
        twice = [("src/help.c", 2, 11), ("lib/area.c", 1, 11)]
        rows: list[tuple[int, list[tuple[str, int, int]], list[str]]]
        note = f"codenav: {ALONE}: the definition is by name"
        rows = [(26, [("lib/area.c", 0, 4)], [note]), (36, twice, []), (47, [], [])]
        for character, places, said in rows:
            at = {"line": 1, "character": character}
            found, told = editor.call(
                "textDocument/definition",
                {"textDocument": {"uri": self.uri("src/main.c")}, "position": at},
            )
            starts = [(one["uri"], *one["range"]["start"].values()) for one in found]
            self.assertEqual(starts, [(self.uri(name), *place) for name, *place in places])
            self.assertEqual([text for _, _, text in told], said)
        document = {"uri": self.uri("src/main.c"), "text": "area();\n"}
        editor.notify("textDocument/didOpen", {"textDocument": document})
        area = {"textDocument": document, "position": {"line": 0, "character": 0}}
        found, told = editor.call("textDocument/definition", area)
        note = f"{document['uri']} isn't as in its file: positions are those of the files on disk"
        self.assertEqual((len(found), [text for _, _, text in told]), (1, [f"codenav: {note}"]))
        self.assertEqual(editor.end("shutdown", "exit")[0], 0)

    def test_tags_that_come_later(self) -> None:
        """They're found at the next question for a definition, and then what's said is said."""
        workspace = Workspace(
            self.folder, Settings(self.url, "late", self.folder), lambda _: None, text_of
        )
        path = os.path.join(self.folder, "src/main.c")
        for what in "definition", "references":
            with self.assertRaisesRegex(NoReply, "^late: D01 project has no dump"):
                workspace.ask(what, Place(path, 1, 26))
        self.put("late", os.path.join(self.folder, "tags"))
        [found] = workspace.ask("definition", Place(path, 1, 26)).found
        self.assertEqual(found["path"], os.path.join(self.folder, "lib/area.c"))
        note = workspace.ask("references", Place(path, 1, 26)).note
        self.assertEqual(note, "late has tags alone: no references")

    def test_where_it_is_wished(self) -> None:
        """An editor and the page are answered by name of a project that has a dump, whoever says
        which project it is."""
        self.put("app", DUMP)
        with open(os.path.join(self.folder, FILE), "w", encoding="utf-8") as file:
            file.write(f'server = "{self.url}"\nproject = "app"\n')
        for words in ["--by-name", self.url, "app"], ["--by-name"]:
            with self.subTest(words=words):
                editor = Editor(*words)
                editor.call("initialize", {"rootUri": uri_of(self.folder, []), "capabilities": {}})
                at = {"line": 1, "character": 26}
                document = {"textDocument": {"uri": self.uri("src/main.c")}, "position": at}
                found, _ = editor.call("textDocument/definition", document)
                self.assertEqual([one["uri"] for one in found], [self.uri("lib/area.c")])
                self.assertEqual(editor.end("shutdown", "exit")[0], 0)
        call = BROWSE.read(["--by-name", self.folder])
        at_area = {"path": "src/main.c", "line": "1", "character": "26"}
        with browser_of(call) as browser:
            found = browser.asked({"what": "definition", **at_area})
        self.assertEqual([row["href"] for row in found["places"]], ["/files/lib/area.c#L1C5"])

    def test_the_page(self) -> None:
        browser = Browser(Folder(self.folder), Settings(self.url, "app", self.folder))
        at = {"path": "src/main.c", "line": "1", "character": "36"}
        found = browser.asked({"what": "definition", **at})
        self.assertEqual(
            [row["href"] for row in found["places"]],
            ["/files/src/help.c#L1C12", "/files/lib/area.c#L2C12"],
        )
        self.assertEqual(
            found["said"], f"2 definitions in 2 files; {ALONE}: the definition is by name"
        )
        for what in "references", "hover":
            self.assertEqual(browser.asked({"what": what, **at})["said"], f"{ALONE}: no {what}")
