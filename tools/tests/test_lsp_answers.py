"""Tests of what the bridge answers of an index and of the text at hand: against texts of which each
word is a symbol, ctags' own lines, and Python's own syntax trees."""

import ast
import os
import random
import shutil
import subprocess
import unittest
from typing import Any, Iterator, Optional
from unittest import mock

from codenav.asking.outlines import Outlines
from codenav.lsp.ctags import tagged
from codenav.lsp.outline import MOST
from codenav.lsp.positions import Counted, Positions, encoding_of
from codenav.settings.found import FILE
from codenav.sets.publish.store import Store
from codenav.texts.places import uri_of
from tests.in_process import InProcess
from tests.lsp_shapes import RESULTS, ends, fault_in
from tests.randomly import check_cases
from tests.repository import InRepository
from tests.servers import OnServer
from tests.word_dumps import Word, dump_of, words_of

CTAGS = "apt-get install universal-ctags"
NESTED = {"textDocument": {"documentSymbol": {"hierarchicalDocumentSymbolSupport": True}}}
TEXT = """\
def low(x):
    return x

def \u00e9\U0001f600_high(y):  # \u4e00
    z = low(low(y)); \u00e9 = high = 1
    def inner(low): return low(1)
    return inner

class Box:
    def held(self, low=low):
        return low(2)
"""
OTHER = "import low\nlow(3)\n"
SHOWN_FLAT = [
    ("low", None),
    ("\u00e9\U0001f600_high", None),
    ("inner", "\u00e9\U0001f600_high"),
    ("Box", None),
    ("held", "Box"),
]
"""The symbols of the text, with what they're in."""


def units_of(text: str, encoding: str) -> int:
    """The length of a text in an encoding."""
    width = {"utf-8": 1, "utf-16-le": 2, "utf-32-le": 4}
    name = encoding if encoding == "utf-8" else f"{encoding}-le"
    return len(text.encode(name)) // width[name]


class Asked(OnServer, InRepository):
    """An index of files, which an editor asks in this process."""

    def setUp(self) -> None:
        OnServer.setUp(self)
        InRepository.setUp(self)
        self.editor = self.enterContext(InProcess(None))
        self.count = 0
        self.write(FILE, f'server = "{self.url}"\nproject = "app"\n')

    def put(self, texts: dict[str, str], tags: str = "") -> None:
        """Writes files, and uploads an index of them."""
        uris = {self.uri(name): text for name, text in texts.items()}
        for name, text in texts.items():
            self.write(name, text)
        self.count += 1
        store = Store(self.url)
        store.put("app", "lsif", dump_of(uris), f"dump-{self.count}")
        if tags:
            store.put("app", "tags", tags.encode(), f"tags-{self.count}")

    def uri(self, name: str) -> str:
        """The address of a file."""
        return uri_of(os.path.join(self.top, name), [])

    def begin(self, *encodings: str, nested: bool = True) -> None:
        """Has the editor say what it can do."""
        capabilities = {**(NESTED if nested else {})}
        if encodings:
            capabilities["general"] = {"positionEncodings": list(encodings)}  # type: ignore[dict-item]
        self.ask("initialize", {"rootUri": self.uri("."), "capabilities": capabilities})

    def ask(self, method: str, params: Any) -> Any:
        """What a request is answered."""
        message = {"id": self.count, "method": method, "params": params}
        result = self.editor.answer(message).get("result")
        self.assertEqual(fault_in(result, RESULTS[method]), "")
        return result

    def at(self, name: str, line: int, character: int, method: str, **more: Any) -> Any:
        """What a request at a place of a file is answered."""
        place = {"line": line, "character": character}
        params = {"textDocument": {"uri": self.uri(name)}, "position": place, **more}
        return self.ask(f"textDocument/{method}", params)

    def open(self, name: str, text: str) -> None:
        """Has the editor open a file with a text."""
        document = {"uri": self.uri(name), "languageId": "python", "version": 1, "text": text}
        self.editor.take({"method": "textDocument/didOpen", "params": {"textDocument": document}})

    def said(self) -> list[str]:
        """The messages to the user, and forgets them."""
        said = [one["params"]["message"] for one in self.editor.sent if "method" in one]
        self.editor.sent[:] = [one for one in self.editor.sent if "method" not in one]
        return said


class Places(Asked):
    def test_each_place(self) -> None:
        """In each encoding, at the begin of each word, in it and right behind it, what the words
        say is found; behind other things nothing is."""
        texts = {"a.py": TEXT, "b.py": OTHER}
        self.put(texts)
        words = list(words_of({self.uri(name): text for name, text in texts.items()}))
        for encoding in "utf-16", "utf-8", "utf-32":
            self.editor = self.enterContext(InProcess(None))
            self.begin(*dict.fromkeys([encoding, "utf-16"]))

            def sent(word: Word) -> dict[str, Any]:
                text = texts[os.path.basename(word.uri)].split("\n")[word.line]
                body = text.encode("utf-16-le")
                parts = (body[: 2 * at].decode("utf-16-le") for at in (word.start, word.end))
                columns = [units_of(part, encoding) for part in parts]
                found = [{"line": word.line, "character": column} for column in columns]
                return {"start": found[0], "end": found[1]}

            for word in words:
                name = os.path.basename(word.uri)
                same = [one for one in words if one.text == word.text]
                defined = [one for one in same if one.is_definition]
                (_, first), (_, last) = ends(sent(word))
                for character in first, last - 1, last:
                    asked = name, word.line, character
                    with self.subTest(encoding, word=word, character=character):
                        hover = self.at(*asked, "hover")
                        self.assertEqual(hover, {"contents": f"the word {word.text}"})
                        self.assertEqual(
                            self.at(*asked, "definition"),
                            [{"uri": one.uri, "range": sent(one)} for one in defined],
                        )
                        self.assertEqual(
                            self.at(*asked, "documentHighlight"),
                            [{"range": sent(one)} for one in same if one.uri == word.uri],
                        )
                        self.assertCountEqual(
                            self.at(*asked, "references", context={"includeDeclaration": True}),
                            [{"uri": one.uri, "range": sent(one)} for one in same],
                        )
            for line, character in (1, 2), (2, 0), (0, 11), (9, 99):
                self.assertIsNone(self.at("a.py", line, character, "hover"), (line, character))
            self.assertEqual(self.said()[1:], [])

    def test_which_encoding(self) -> None:
        rows: list[tuple[Any, str]] = [
            (None, "utf-16"),
            ([], "utf-16"),
            (["utf-16"], "utf-16"),
            (["utf-16", "utf-8"], "utf-8"),
            (["utf-32", "utf-16"], "utf-32"),
            (["utf-7", 8, None], "utf-16"),
            ("utf-8", "utf-16"),
        ]
        for offered, encoding in rows:
            self.assertEqual(encoding_of(offered), encoding, offered)

    def test_random_positions(self) -> None:
        """Of any line, against its encodings; a half of a character counts as none, and what is
        behind the end as the end."""

        def drawn(strategies: Any) -> dict[str, Any]:
            characters = strategies.sampled_from("ab\u00e9\u4e00\U0001f600\ud800")
            return {
                "line": strategies.text(characters, max_size=12),
                "count": strategies.integers(0, 60),
                "encoding": strategies.sampled_from(["utf-8", "utf-16", "utf-32"]),
            }

        def check(line: str, count: int, encoding: str) -> None:
            def units(part: str) -> int:
                sizes = {"utf-8": 1, "utf-16": 2, "utf-32": 4}
                name = encoding if encoding == "utf-8" else f"{encoding}-le"
                return len(part.encode(name, "surrogatepass")) // sizes[encoding]

            wanted = max(at for at in range(len(line) + 1) if units(line[:at]) <= count)
            counted = Counted(line, encoding)
            self.assertEqual(counted.index(count), wanted)
            self.assertEqual(counted.count(wanted), units(line[:wanted]))
            positions = Positions(encoding, lambda _: [line])
            self.assertLessEqual(positions.sent("", (count, count))[1], units(line))
            self.assertEqual(positions.sent("", (count + 1, count)), (0, units(line)))

        check_cases(self, 500, drawn, check)

    def test_a_revision_that_moves(self) -> None:
        """One that is named by a branch is looked up for each question: after a commit and a new
        upload there are answers."""
        settings = f'server = "{self.url}"\nproject = "app"\nrevision = "HEAD"\n'
        self.write(FILE, settings)
        self.put({"a.py": OTHER})
        self.commit()
        self.begin()
        self.assertIsNotNone(self.at("a.py", 1, 0, "hover"))
        for count in 1, 2:
            self.put({"a.py": "\n" * count + OTHER.replace("low", "high")})
            self.commit()
            found = self.at("a.py", 1 + count, 0, "documentHighlight")
            self.assertEqual([one["range"]["start"]["line"] for one in found], [count, count + 1])
        self.assertEqual(self.said(), [])

    def test_refusals(self) -> None:
        """Each cause is shown once, until what it's of has an answer: a document that isn't there
        by itself, and a server for all documents of its checkout. What editors ask of their own
        says nothing of a document that no index has."""
        self.put({"a.py": OTHER})
        self.begin()
        self.write("b.py", OTHER)
        self.write("c.py", OTHER)
        self.said()
        for name, method, count in (
            ("b.py", "documentHighlight", 0),
            ("b.py", "definition", 1),
            ("b.py", "hover", 0),
            ("a.py", "hover", 0),
            ("b.py", "definition", 0),
            ("c.py", "definition", 1),
        ):
            self.at(name, 1, 0, method)
            shown = [one for one in self.said() if " D02 " in one]
            self.assertEqual(len(shown), count, (name, method))
        self.server.end()
        for name, count in ("a.py", 1), ("b.py", 0), ("a.py", 0):
            self.at(name, 1, 0, "definition")
            self.assertEqual(len(self.said()), count, name)
        self.start()
        self.put({"a.py": OTHER})
        self.assertEqual(len(self.at("a.py", 1, 0, "documentHighlight")), 2)
        self.server.end()
        self.at("a.py", 1, 0, "documentHighlight")
        self.assertEqual(len(self.said()[-1:]), 1)

    def test_bad_settings(self) -> None:
        """Those nearest to a file are shown, where others above it count."""
        self.put({"deep/a.py": OTHER})
        self.write(f"deep/{FILE}", "x = ")
        self.begin()
        self.assertIsNotNone(self.at("deep/a.py", 1, 0, "hover"))
        shown = [one["params"]["type"] for one in self.editor.sent if "Message" in str(one)]
        self.assertEqual(shown[0], 2)
        self.assertIn("deep/.codenav.toml: ", self.said()[0])
        methods = [one["method"] for one in self.editor.sent if "method" in one]
        self.assertEqual(methods, [])


class Lists(Asked):
    def test_many_places(self) -> None:
        """Of one file of 1.35 MB, of as many lines and of one: a line is looked at once in each
        encoding, however many places it has."""
        words = [f"\u4e00\U0001f600 word {number:06} " + "." * 655 for number in range(2_000)]
        for between, lines in ("\n", 2_001), (" ", 2):
            self.put({"a.py": "def word\n" + between.join(words)})
            for encoding in "utf-16", "utf-8":
                self.editor = self.enterContext(InProcess(None))
                self.begin(encoding)
                for method in "documentHighlight", "references":
                    counted = mock.Mock(side_effect=Counted)
                    more = {"context": {"includeDeclaration": True}}
                    with self.subTest(method, encoding=encoding, lines=lines), mock.patch(
                        "codenav.lsp.positions.Counted", counted
                    ):
                        found = self.at("a.py", 0, 4, method, **more)
                        self.assertEqual(len(found), 2_001)
                        self.assertLessEqual(counted.call_count, 2 * lines + 2)

    def test_no_endless_list(self) -> None:
        """Of many places so many are shown, and it's said."""
        self.put({"a.py": "def low\n" + "low " * 200})
        self.begin()
        with mock.patch("codenav.lsp.answers.MOST_PLACES", 100):
            context = {"includeDeclaration": True}
            found = self.at("a.py", 0, 4, "references", context=context)
        self.assertEqual(len(found), 100)
        self.assertIn("codenav: 100 of 201 places are shown", self.said())


def python_text(draws: Any) -> str:
    """A text of nested functions and classes, whose names are calls elsewhere."""
    lines, names = list[str](), ["low", "high", "Box", "held"]

    def body(depth: int) -> None:
        for _ in range(draws.randrange(1, 4)):
            kind = draws.choice(["def", "class", "call", "call", ""]) if depth < 4 else "call"
            name, indent = draws.choice(names), "    " * depth
            if kind == "call":
                lines.append(f"{indent}{name}({draws.choice(names)}())")
            elif kind:
                lines.append(f"{indent}{kind} {name}{'(self)' if kind == 'def' else ''}:")
                body(depth + 1)
            else:
                lines.append("")
        lines.append("    " * depth + "pass")

    body(0)
    return "\n".join(lines)


Scope = tuple[str, int]


def scopes_of(text: str) -> dict[int, Optional[Scope]]:
    """Of each line of Python the innermost function that it's in, without one the innermost class:
    its name and its line."""
    found: dict[int, Optional[Scope]] = dict.fromkeys(range(text.count("\n") + 1))

    def walk(node: ast.AST, called: bool) -> None:
        for own in ast.iter_child_nodes(node):
            is_function = isinstance(own, ast.FunctionDef)
            if isinstance(own, (ast.FunctionDef, ast.ClassDef)):
                if is_function or not called:
                    for line in range(own.lineno - 1, own.end_lineno or 0):
                        found[line] = own.name, own.lineno - 1
                walk(own, called or is_function)
            else:
                walk(own, called)

    walk(ast.parse(text), False)
    return found


@unittest.skipUnless(shutil.which("ctags"), CTAGS)
class Outline(Asked):
    def symbols(self, name: str, text: str) -> Any:
        """The symbols of a file with a text."""
        self.open(name, text)
        return self.ask("textDocument/documentSymbol", {"textDocument": {"uri": self.uri(name)}})

    def flat(self, symbols: Any) -> Iterator[Any]:
        """All symbols, each before those inside it."""
        for one in symbols:
            yield one
            yield from self.flat(one.get("children", []))

    def test_ctags_own_lines(self) -> None:
        """Each line of ctags is a symbol with the name there, of files of several languages: of
        this program's own, of the text at hand and not of the file's."""
        self.begin()
        top = os.path.dirname(os.path.dirname(os.path.dirname(os.path.abspath(__file__))))
        for path in (
            "tools/codenav/asking/index.py",
            "tools/tests/neovim.lua",
            "demo/crate/src/lib.rs",
            "demo/crate/src/scale.rs",
            "docs/EDITORS.md",
        ):
            with open(os.path.join(top, path), encoding="utf-8") as file:
                text = file.read()
            name = os.path.basename(path)
            saved = self.write(name, "other\n")
            shown = self.symbols(name, text)
            with open(saved, "w", encoding="utf-8") as file:
                file.write(text)
            done = subprocess.run(
                ["ctags", "--options=NONE", "-f", "-", "--fields=+n", saved],
                capture_output=True,
                text=True,
                check=True,
            )
            known = [line.split("\t") for line in done.stdout.splitlines()]
            wanted = sorted(
                (one[0], int(field[5:]) - 1)
                for one in known
                for field in one
                if field[:5] == "line:"
            )
            found = list(self.flat(shown))
            with self.subTest(path):
                self.assertGreater(len(found), 0)
                own = sorted((one["name"], one["selectionRange"]["start"]["line"]) for one in found)
                self.assertEqual(own, wanted)
                for one in found:
                    (line, start), (_, end) = ends(one["selectionRange"])
                    self.assertIn(text.split("\n")[line][start:end], (one["name"], ""))

    def test_nested(self) -> None:
        """Of random Python, against its own syntax tree: what is in what, and where it ends."""
        self.begin()
        for number in range(40):
            text = python_text(random.Random(number))
            lines = text.split("\n")
            wanted = []

            def walk(node: ast.AST, above: tuple[str, ...]) -> None:
                for own in ast.iter_child_nodes(node):
                    if isinstance(own, (ast.FunctionDef, ast.ClassDef)):
                        end = max(
                            [one.end_lineno or 0 for one in ast.walk(own) if hasattr(one, "lineno")]
                        )
                        wanted.append((*above, own.name, own.lineno - 1, end - 1))
                        walk(own, (*above, own.name))
                    else:
                        walk(own, above)

            def listed(symbols: Any, above: tuple[str, ...]) -> Iterator[tuple[Any, ...]]:
                for one in symbols:
                    (line, _), (end, _) = ends(one["range"])
                    while not lines[end].strip():
                        end -= 1
                    yield (*above, one["name"], line, end)
                    yield from listed(one.get("children", []), (*above, one["name"]))

            walk(ast.parse(text), ())
            with self.subTest(number):
                self.assertCountEqual(list(listed(self.symbols("a.py", text), ())), wanted, text)

    def test_ends_by_layout(self) -> None:
        """Of languages of which ctags doesn't say where a symbol ends."""
        for name, text, wanted in (
            (
                "a.rs",
                "mod a {\n  fn b(\n    c: u8,\n  ) -> u8\n  where\n    u8: Copy,\n  {\n    1\n  }\n\n"
                "  fn d() {}\n}\nstruct E;\nimpl E {\n    fn f(&self) {\n    }\n}\n",
                {"a": (0, 11), "b": (1, 8), "d": (10, 10), "E": (13, 16), "f": (14, 15)},
            ),
            (
                "a.ts",
                "class A {\n  m(x) {\n    return 1;\n  }\n}\nfunction g()\n{\n  return 2;\n}\n",
                {"A": (0, 4), "m": (1, 3), "g": (5, 8)},
            ),
        ):
            self.editor = self.enterContext(InProcess(None))
            self.begin()
            found = {
                one["name"]: tuple(line for line, _ in ends(one["range"]))
                for one in self.flat(self.symbols(name, text))
            }
            self.assertEqual(found, wanted)

    def test_an_editor_that_knows_no_nesting(self) -> None:
        self.begin(nested=False)
        shown = self.symbols("a.py", TEXT)
        self.assertEqual([one["name"] for one in shown], [n for n, *_ in SHOWN_FLAT])
        self.assertEqual([one.get("containerName") for one in shown], [c for _, c in SHOWN_FLAT])

    def test_many_symbols(self) -> None:
        """49,000 of them, beside one another, inside one another and in one line: so many are shown
        as a list may have, and that's said; those inside are left out first."""
        most = MOST
        beside = "".join(f"def f{number}(): pass\n" for number in range(49_000))
        held = "".join(f"class C{number}:\n  def m(self): pass\n" for number in range(most))
        deep = (
            "".join(" " * depth + f"class C{depth}:\n" for depth in range(400)) + " " * 400 + "pass"
        )
        one_line = "enum e {" + ",".join(f"a{number}" for number in range(20_000)) + "};\n"
        self.begin()
        for name, text, count in (
            ("a.py", beside, most),
            ("b.py", held, most),
            ("c.py", deep, 400),
            ("d.c", one_line, most),
        ):
            shown = self.symbols(name, text)
            with self.subTest(name):
                self.assertEqual(len(list(self.flat(shown))), count)
                said = [one for one in self.said() if "symbols of" in one]
                self.assertEqual(len(said), count == most)
                if name == "b.py":
                    self.assertEqual(len(shown), most)

    def test_a_text_that_changes_meanwhile(self) -> None:
        """Its symbols are those of the new text; one that changes each time is left to the editor to
        ask again."""
        self.begin()
        real, edits = tagged, ["def late(): pass\n"]

        def meanwhile(texts: dict[str, str]) -> Any:
            if edits:
                with self.editor.bridge.requests.lock:
                    self.editor.bridge.editor.open.put(self.uri("a.py"), edits.pop())
            return real(texts)

        with mock.patch("codenav.lsp.outlines.tagged", meanwhile):
            names = [one["name"] for one in self.symbols("a.py", TEXT)]
            self.assertEqual(names, ["late"])
            edits[:] = [f"def f{number}(): pass\n" for number in range(9)]
            self.open("a.py", OTHER)
            message = {"id": 9, "method": "textDocument/documentSymbol"}
            params = {"textDocument": {"uri": self.uri("a.py")}}
            answer = self.editor.answer({**message, "params": params})
            self.assertEqual(answer["error"]["code"], -32801)


class OutlineOfTags(Asked):
    """Without ctags symbols are those of the tags that the index has."""

    def setUp(self) -> None:
        super().setUp()
        self.enterContext(mock.patch("codenav.lsp.ctags.CTAGS", "no-such-ctags"))

    def test_tags(self) -> None:
        tags = (
            'Box\ta.py\t/^class Box:$/;"\tc\tline:9\n'
            'held\ta.py\t/^    def held(self, low=low):$/;"\tm\tline:10\tclass:Box\n'
            'low\ta.py\t/^def low(x):$/;"\tf\tline:1\n'
            'other\tb.py\t/^import low$/;"\tf\tline:1\n'
        )
        self.put({"a.py": TEXT, "b.py": OTHER}, tags)
        self.begin()
        self.open("a.py", "\n" + TEXT)
        params = {"textDocument": {"uri": self.uri("a.py")}}
        shown = self.ask("textDocument/documentSymbol", params)
        found = [(one["name"], one["kind"], ends(one["range"])) for one in shown]
        self.assertEqual(found, [("low", 12, [(1, 0), (2, 12)]), ("Box", 5, [(9, 0), (11, 21)])])
        [held] = shown[1]["children"]
        self.assertEqual((held["name"], ends(held["range"])[0]), ("held", (10, 0)))

    def test_ideographs(self) -> None:
        """Of a text whose words begin with 2,000 letters the server isn't asked for each."""
        letters = [chr(0x4E00 + number) for number in range(2_000)]
        self.put({"a.py": " ".join(letters)}, 'main\ta.py\t1;"\tf\n')
        self.begin()
        asked = list[Any]()
        real = Outlines.read_one

        def counting(own: Any, letter: str) -> None:
            asked.append(letter)
            real(own, letter)

        with mock.patch.object(Outlines, "read_one", counting):
            params = {"textDocument": {"uri": self.uri("a.py")}}
            self.ask("textDocument/documentSymbol", params)
        self.assertLessEqual(len(asked), 100)


class Symbols(Asked):
    def test_ranks(self) -> None:
        """A name is found by its beginning, by a word in it and by its letters; then the same file
        comes first, the project's own, and functions before variables."""
        rows = [
            ("to_fahrenheit", "a.py", "f"),
            ("Fahrenheit", "a.py", "c"),
            ("fahr", "b.py", "v"),
            ("fahr", "b.py", "f"),
            ("fahr", "a.py", "v"),
            ("unfahrbar", "a.py", "f"),
            ("f_a_h_r", "b.py", "f"),
            ("far", "b.py", "f"),
        ]
        rows.sort(key=lambda row: row[0].encode())
        tags = "".join(f'{name}\t{file}\t1;"\t{kind}\n' for name, file, kind in rows)
        text = " ".join(name for name, _, _ in rows) + "\n"
        self.put({"a.py": text, "b.py": text}, tags)
        self.begin()
        self.at("a.py", 0, 0, "hover")
        shown = self.ask("workspace/symbol", {"query": "fahr"})
        found = [
            (one["name"], os.path.basename(one["location"]["uri"]), one["kind"]) for one in shown
        ]
        self.assertEqual(
            found,
            [
                ("fahr", "a.py", 13),
                ("fahr", "b.py", 12),
                ("fahr", "b.py", 13),
                ("Fahrenheit", "a.py", 5),
                ("to_fahrenheit", "a.py", 12),
                ("unfahrbar", "a.py", 12),
                ("f_a_h_r", "b.py", 12),
            ],
        )

    def test_a_server_that_is_down(self) -> None:
        self.begin()
        self.server.end()
        self.assertEqual(self.ask("workspace/symbol", {"query": "fahr"}), [])
        self.assertEqual(len(self.said()), 1)


@unittest.skipUnless(shutil.which("ctags"), CTAGS)
class Calls(Asked):
    def test_random_texts(self) -> None:
        """Of random Python: the items are the definitions; who calls is by the syntax trees, and who
        is called by the words."""
        for number in range(8):
            draws = random.Random(number)
            texts = {"a.py": python_text(draws), "b.py": python_text(draws)}
            self.put(texts)
            self.editor = self.enterContext(InProcess(None))
            self.begin()
            scopes = {self.uri(name): scopes_of(text) for name, text in texts.items()}
            words = list(words_of({self.uri(name): text for name, text in texts.items()}))
            for word in {one.text: one for one in words}.values():
                defined = [one for one in words if one.text == word.text and one.is_definition]
                name = os.path.basename(word.uri)
                items = self.at(name, word.line, word.start, "prepareCallHierarchy") or []
                with self.subTest(number, word=word):
                    self.assertEqual(
                        [(one["name"], one["uri"], one["selectionRange"]) for one in items],
                        [(one.text, one.uri, one.span()) for one in defined],
                    )
                for item in items[:2]:
                    self.check_calls(item, words, scopes)

    def check_calls(
        self, item: Any, words: list[Word], scopes: dict[str, dict[int, Optional[Scope]]]
    ) -> None:
        """Compares the calls of an item with those of the words."""
        incoming, outgoing = dict[Any, list[Any]](), dict[Any, list[Any]]()
        first = item["selectionRange"]["start"]["line"]
        for word in words:
            scope = scopes[word.uri][word.line]
            if word.text == item["name"] and not word.is_definition:
                key = word.uri, *(scope or (os.path.basename(word.uri), 0))
                incoming.setdefault(key, []).append(word.span())
            lines = range(first, ends(item["range"])[1][0] + 1)
            if word.uri == item["uri"] and word.line in lines and word.text != "self":
                own = word.line, word.start
                for one in words:
                    is_other = one.uri != word.uri or (one.line, one.start) != own
                    is_called = scopes[one.uri][one.line] == (one.text, one.line)
                    is_function = is_called and self.is_function(one)
                    if one.text == word.text and one.is_definition and is_other and is_function:
                        if own != (first, item["selectionRange"]["start"]["character"]):
                            key = one.uri, one.text, one.line
                            outgoing.setdefault(key, []).append(word.span())
        for what, way, wanted in ("incoming", "from", incoming), ("outgoing", "to", outgoing):
            found = {
                (
                    one[way]["uri"],
                    one[way]["name"],
                    one[way]["selectionRange"]["start"]["line"],
                ): one["fromRanges"]
                for one in self.ask(f"callHierarchy/{what}Calls", {"item": item})
            }
            with self.subTest(what, item=item):
                self.assertEqual(found, wanted)

    def is_function(self, word: Word) -> bool:
        """Whether a definition is that of a function."""
        with open(os.path.join(self.top, os.path.basename(word.uri)), encoding="utf-8") as file:
            return file.read().split("\n")[word.line].lstrip().startswith("def ")

    def test_a_call_outside_of_functions(self) -> None:
        """It's one by the file, whose beginning is what is selected."""
        self.put({"a.py": "def low(x):\n    return x\nlow(1)\n"})
        self.begin()
        [item] = self.at("a.py", 0, 4, "prepareCallHierarchy")
        first, last = ({"line": line, "character": 0} for line in (0, 3))
        spans = {
            "range": {"start": first, "end": last},
            "selectionRange": {"start": first, "end": first},
        }
        self.assertEqual(
            [one["from"] for one in self.ask("callHierarchy/incomingCalls", {"item": item})],
            [{"name": "a.py", "kind": 1, "uri": self.uri("a.py"), **spans}],
        )

    def test_calls_of_what_stands_around(self) -> None:
        """An item at a place that has no name is the function that the place is in."""
        self.put({"a.py": "def low(x):\n    return x\ndef high(x):\n    y = 1\n    low(y)\n"})
        self.begin()
        for line, named in (2, ["low"]), (3, ["low"]), (4, ["low"]), (1, []):
            start = {"line": line, "character": 4}
            item = {"uri": self.uri("a.py"), "selectionRange": {"start": start, "end": start}}
            calls = self.ask("callHierarchy/outgoingCalls", {"item": item})
            self.assertEqual([one["to"]["name"] for one in calls], named, line)

    def test_no_endless_lists(self) -> None:
        """Of many files and of many words so many are looked at, and it's said."""
        texts = {f"f{number}.py": "def f(x):\n    low(1)\n" for number in range(30)}
        self.put({**texts, "a.py": "def low(x):\n    " + "low(x) " * 30})
        self.begin()
        [item] = self.at("a.py", 0, 4, "prepareCallHierarchy")
        with mock.patch("codenav.lsp.calls.MOST_FILES", 10), mock.patch(
            "codenav.lsp.calls.MOST_WORDS", 10
        ):
            self.said()
            self.assertEqual(len(self.ask("callHierarchy/incomingCalls", {"item": item})), 10)
            [call] = self.ask("callHierarchy/outgoingCalls", {"item": item})
        self.assertLessEqual(len(call["fromRanges"]), 10)
        self.assertEqual(len(self.said()), 2)


if __name__ == "__main__":
    unittest.main()
