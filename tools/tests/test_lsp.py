"""Tests of the language server bridge, over pipes, against a small server on this machine that
gives stored replies."""

import json
import os
import subprocess
import tempfile
import threading
import unittest
from contextlib import suppress
from http.server import BaseHTTPRequestHandler, ThreadingHTTPServer
from typing import Any, ClassVar
from unittest import mock
from urllib.parse import parse_qsl, urlsplit

from codenav.asking.tags import AWAY, GUESSED, SAID
from codenav.lsp import bridge as lsp
from codenav.lsp.answers import QUERIES
from codenav.lsp.open_documents import OpenDocuments, document_name
from codenav.records import ADDRESS
from codenav.texts.places import uri_of
from tests.editor_addresses import NAME, SAME, SPELLINGS
from tests.in_process import InProcess
from tests.lsp_shapes import ERROR, RESULTS, TOLD, fault_in
from tests.servers import command

TOP = os.path.dirname(os.path.dirname(os.path.dirname(os.path.abspath(__file__))))
LSP = command("lsp")
TEXT = "fn main() {}\n  main();\n"
PLACE: dict[str, Any] = {"start": {"line": 1, "character": 2}, "end": {"line": 1, "character": 5}}
NOT_MAPPED = [
    (
        "window/logMessage",
        3,
        "codenav: app: no revision is kept with its index; its places aren't mapped",
    )
]
TAG = {
    "name": "main",
    "file": "src/main.rs",
    "address": "/^fn main() {}$/",
    "fields": [],
    "kind": "f",
    "line": 1,
}


def codes(answer: dict[str, Any]) -> tuple[Any, Any]:
    """The id of an answer, and the code of its error, or None."""
    return answer["id"], answer.get("error", {}).get("code")


class Replies(BaseHTTPRequestHandler):
    """Answers each GET by the stored status and body, and keeps the paths and parameters that were
    asked, but for those of the record of the revision, of which it has none."""

    status, body = 200, b"{}"
    asked: list[tuple[str, dict[str, str]]] = []

    def do_GET(self) -> None:
        """Answers one request."""
        parts = urlsplit(self.path)
        asked = dict(parse_qsl(parts.query))
        status, body = self.status, self.body
        if asked.get("uri") == ADDRESS and status == 200:
            body = b'{"contents":null}'
        else:
            type(self).asked.append((parts.path, asked))
        if parts.path == "/names":
            tags = json.loads(body).get("tags", []) if body.startswith(b"{") else []
            own = [tag for tag in tags if tag["project"] == asked.get("project", tag["project"])]
            status, body = 200, json.dumps({"tags": own}).encode()
        with suppress(OSError):  # of who waits no more
            self.send_response(status)
            self.send_header("Content-Length", str(len(body)))
            self.end_headers()
            self.wfile.write(body)

    def log_message(self, *_: Any) -> None:
        """Prints nothing."""


class Editor:
    """An editor's end of the bridge."""

    def __init__(self, *words: str) -> None:
        self.run = subprocess.Popen(
            [*LSP, *words], stdin=subprocess.PIPE, stdout=subprocess.PIPE, stderr=subprocess.PIPE
        )
        self.last = 0

    def send(self, body: bytes) -> None:
        """Sends a content behind a head."""
        self.write(b"Content-Length: %d\r\n\r\n%s" % (len(body), body))

    def write(self, text: bytes) -> None:
        """Sends bytes."""
        self.run.stdin.write(text)  # type: ignore[union-attr]
        self.run.stdin.flush()  # type: ignore[union-attr]

    def notify(self, method: str, params: Any = None) -> None:
        """Sends a notification."""
        self.send(json.dumps({"jsonrpc": "2.0", "method": method, "params": params}).encode())

    def ask(self, method: str, params: Any = None) -> int:
        """Sends a request; answers its id."""
        self.last += 1
        self.send(
            json.dumps(
                {"jsonrpc": "2.0", "id": self.last, "method": method, "params": params}
            ).encode()
        )
        return self.last

    def read(self) -> dict[str, Any]:
        """The next message, behind a head of its length alone."""
        head = self.run.stdout.readline()  # type: ignore[union-attr]
        name, _, length = head.partition(b": ")
        assert name == b"Content-Length", head
        assert self.run.stdout.readline() == b"\r\n"  # type: ignore[union-attr]
        message: dict[str, Any] = json.loads(self.run.stdout.read(int(length)))  # type: ignore[union-attr]
        assert message.pop("jsonrpc") == "2.0"
        return message

    def call(self, method: str, params: Any = None) -> tuple[Any, list[tuple[str, int, str]]]:
        """What a request is answered, and the messages to the user before that: their methods,
        types and texts."""
        own, told = self.ask(method, params), []
        while "id" not in (message := self.read()):
            assert not fault_in(message["params"], TOLD), message
            told.append(
                (message["method"], message["params"]["type"], message["params"]["message"])
            )
        assert message.pop("id") == own
        if "error" in message:
            assert not (fault := fault_in(message["error"], ERROR)), (method, fault)
            return message["error"]["code"], told
        assert not (fault := fault_in(message["result"], RESULTS[method])), (method, fault)
        return message["result"], told

    def end(self, *methods: str) -> tuple[int, bytes]:
        """The status and what was printed as an error, after requests and `exit` or, with none, the
        input's end."""
        for method in methods:
            (self.notify if method == "exit" else self.call)(method)
        self.run.stdin.close()  # type: ignore[union-attr]
        with self.run as run:
            return run.wait(20), run.stderr.read()  # type: ignore[union-attr]


class Lsp(unittest.TestCase):
    server: ClassVar[ThreadingHTTPServer]
    url: ClassVar[str]

    @classmethod
    def setUpClass(cls) -> None:
        cls.server = ThreadingHTTPServer(("127.0.0.1", 0), Replies)
        cls.url = f"http://127.0.0.1:{cls.server.server_port}"
        threading.Thread(target=cls.server.serve_forever, daemon=True).start()

    @classmethod
    def tearDownClass(cls) -> None:
        cls.server.shutdown()
        cls.server.server_close()

    def setUp(self) -> None:
        held = tempfile.TemporaryDirectory()
        self.addCleanup(held.cleanup)
        self.folder = held.name
        os.mkdir(os.path.join(self.folder, "src"))
        self.path = os.path.join(self.folder, "src", "main.rs")
        with open(self.path, "w", encoding="utf-8") as file:
            file.write(TEXT)
        self.uri = uri_of(self.path, [])
        place = {"line": 0, "character": 3}
        self.at: dict[str, Any] = {"textDocument": {"uri": self.uri}, "position": place}
        Replies.asked = []

    def editor(self, *words: str, url: str = "") -> Editor:
        """An editor that has initialized the bridge, in the folder, for the project `app`, and to
        which was said once that nothing is mapped."""
        editor = Editor(*words, url or self.url, "app")
        result, _ = editor.call(
            "initialize",
            {"processId": None, "rootUri": uri_of(self.folder, []), "capabilities": {}},
        )
        editor.notify("initialized", {})
        self.assertEqual(result["capabilities"]["positionEncoding"], "utf-16")
        if not url:
            stored = Replies.status, Replies.body
            self.answer({"contents": None})
            self.assertEqual(editor.call("textDocument/hover", self.at), (None, NOT_MAPPED))
            (Replies.status, Replies.body), Replies.asked = stored, []
        return editor

    def write(self, name: str, text: str) -> str:
        """Writes a file of the folder, and answers its path."""
        path = os.path.join(self.folder, name)
        os.makedirs(os.path.dirname(path), exist_ok=True)
        with open(path, "w", encoding="utf-8") as file:
            file.write(text)
        return path

    def answer(self, reply: Any, status: int = 200) -> None:
        """Stores what the server answers from now on."""
        Replies.status, Replies.body = (
            status,
            reply if isinstance(reply, bytes) else json.dumps(reply).encode(),
        )

    def test_each_request(self) -> None:
        places = {
            "places": [
                {**PLACE, "project": project, "uri": uri}
                for project, uri in (("app", self.uri), ("app", "http://h/a"), ("lib", self.uri))
            ]
        }
        found = [{"uri": uri, "range": PLACE} for uri in (self.uri, "http://h/a")]
        at, path = {"uri": self.uri, "line": "0", "character": "3"}, "/projects/app/"
        contents = [{"language": "rust", "value": "fn main()"}, "text"]
        editor = self.editor()
        cases: list[tuple[str, dict[str, Any], dict[str, Any], Any, tuple[str, dict[str, str]]]] = [
            ("textDocument/definition", {}, places, found, (path + "definition", at)),
            ("textDocument/declaration", {}, places, found, (path + "declaration", at)),
            ("textDocument/implementation", {}, {"places": []}, [], (path + "implementation", at)),
            (
                "textDocument/references",
                {"context": {"includeDeclaration": True}},
                places,
                found,
                (path + "references", {**at, "declaration": "yes"}),
            ),
            (
                "textDocument/references",
                {"context": {"includeDeclaration": False}},
                places,
                found,
                (path + "references", {**at, "declaration": "no"}),
            ),
            (
                "textDocument/hover",
                {},
                {"contents": contents},
                {"contents": contents},
                (path + "hover", at),
            ),
            ("textDocument/hover", {}, {"contents": None}, None, (path + "hover", at)),
        ]
        for method, more, reply, result, asked in cases:
            with self.subTest(method, more=more):
                self.answer(reply)
                Replies.asked = []
                self.assertEqual(editor.call(method, {**self.at, **more}), (result, []))
                self.assertEqual(Replies.asked[:1], [asked])
                is_asked_why = result == [] and method == "textDocument/implementation"
                after = [(path + "profile", {"uri": self.uri})] if is_asked_why else []
                self.assertEqual(Replies.asked[1:], after)
        self.assertEqual(editor.end("shutdown", "exit"), (0, b""))

    def test_what_the_profile_has_not(self) -> None:
        """It's said once that a project of profile 1 has no implementations."""
        text = "app was uploaded in profile 1, which has no implementations: --profile 2 has them"
        editor = self.editor()
        for profile, told in (
            (2, []),
            (1, [("window/showMessage", 2, f"codenav: {text}")]),
            (1, []),
        ):
            self.answer({"places": [], "profile": profile})
            found = editor.call("textDocument/implementation", self.at)
            self.assertEqual(found, ([], told))
        editor.end("shutdown", "exit")

    def test_maps(self) -> None:
        self.answer(
            {"places": [{**PLACE, "project": "app", "uri": "file:///src/a%20b/src/main.rs"}]}
        )
        editor = self.editor("--map", f"file:///src/a%20b={self.folder}")
        self.assertEqual(
            editor.call("textDocument/definition", self.at),
            ([{"uri": self.uri, "range": PLACE}], []),
        )
        self.assertEqual(Replies.asked[0][1]["uri"], "file:///src/a%20b/src/main.rs")
        editor.end("shutdown", "exit")

    def test_spellings(self) -> None:
        """The text that an editor has is found, however it spells the address of its file, and
        gets its own spelling back; a file with a mark that's as it was indexed is said to be
        changed by nobody."""
        text, new = "fn main() {}\r\n\t/* \U0001F600 */ main();\r\n", "// new\r\n\r\n"
        indexed = self.enterContext(tempfile.TemporaryDirectory())
        for folder in (self.folder, indexed):
            with open(os.path.join(folder, NAME), "wb") as file:
                file.write(text.encode("utf-8-sig"))
        own, main = uri_of(os.path.join(self.folder, NAME), []), {"line": 0, "character": 3}
        places = [{"project": "app", "uri": own, "start": main, "end": {**main, "character": 7}}]
        self.answer({"places": places})
        for one in SPELLINGS:
            with self.subTest(one.editor):
                uri = f"file://{one.host}{self.folder}/{one.name}"
                editor, document = Editor("--indexed", indexed, self.url, "app"), {"uri": uri}
                editor.call("initialize", {"rootUri": uri_of(self.folder, [])})

                def asked(line: int) -> Any:
                    at = {"textDocument": document, "position": {"line": line, "character": 10}}
                    found, said = editor.call("textDocument/definition", at)
                    return [(it["uri"], it["range"]["start"]["line"]) for it in found], said

                def sent(*parts: str) -> str:
                    return "".join(parts).replace("\r\n", one.line_end)

                Replies.asked = []
                editor.notify(
                    "textDocument/didOpen", {"textDocument": {**document, "text": sent(text)}}
                )
                self.assertEqual(asked(1), ([(uri, 0)], []))
                changes = [{"text": sent(new, text)}]
                editor.notify(
                    "textDocument/didChange", {"textDocument": document, "contentChanges": changes}
                )
                found, said = asked(3)
                self.assertEqual((found, len(said)), ([(uri, 2)], 1))
                editor.notify("textDocument/didClose", {"textDocument": document})
                self.assertEqual(asked(1), ([(own, 0)], []))
                at = {"uri": own, "line": "1", "character": "10"}
                self.assertEqual(Replies.asked, [("/projects/app/definition", at)] * 3)
                editor.end("shutdown", "exit")

    def test_open_documents(self) -> None:
        """One document, by each address and path of it."""
        link = os.path.join(self.folder, "link.rs")
        os.symlink(self.path, link)
        for uris in [*SAME, [self.uri, uri_of(link, [])]]:
            for uri in uris:
                documents = OpenDocuments()
                documents.put(uri, "text")
                for other in uris:
                    found = documents.find(document_name(other))
                    self.assertEqual(found and (found.uri, found.text), (uri, "text"), other)
                    self.assertEqual(documents.uri_of(document_name(other)), uri)
                documents.remove(uri)
                self.assertIsNone(documents.find(document_name(uri)))

    def test_symbols(self) -> None:
        """Of a project of which the folder isn't there nothing is shown; where a file changed
        since, the line that has the name is. Both are said."""

        def symbol(project: str, folder: str, line: int, character: int) -> dict[str, Any]:
            at = {"line": line, "character": character}
            return {
                "name": "main",
                "kind": 12,
                "containerName": project,
                "location": {
                    "uri": uri_of(f"{folder}/src/main.rs", []),
                    "range": {"start": at, "end": at},
                },
            }

        self.answer({"tags": [{**TAG, "project": project} for project in ("app", "lib", "other")]})
        changed = os.path.join(self.folder, "lib")
        os.makedirs(os.path.join(changed, "src"))
        with open(os.path.join(changed, "src", "main.rs"), "w", encoding="utf-8") as file:
            file.write("// main was here\n")
        editor = self.editor("--tags", f"lib={changed}", "--tags", "other=/no/other")
        said = f"{SAID[GUESSED].format(1, 3)}; {SAID[AWAY].format(1, 3)}"
        self.assertEqual(
            editor.call("workspace/symbol", {"query": "ma"}),
            (
                [symbol("app", self.folder, 0, 3), symbol("lib", changed, 0, 3)],
                [("window/logMessage", 3, f"codenav: {said}")],
            ),
        )
        asked = [
            ("/names", {"prefix": "ma", "project": project}) for project in ("app", "lib", "other")
        ]
        self.assertEqual([one for one in Replies.asked if one[1]["prefix"] == "ma"], asked)
        Replies.asked = []
        self.assertEqual(editor.call("workspace/symbol", {"query": ""}), ([], []))
        self.assertEqual(Replies.asked, [])
        editor.end("shutdown", "exit")

    def test_many_symbols(self) -> None:
        self.answer({"tags": [{**TAG, "project": "app"}] * 300})
        editor = self.editor()
        symbols, told = editor.call("workspace/symbol", {"query": "ma"})
        said = "codenav: of 300 names with 'ma' 256 are shown"
        self.assertEqual((len(symbols), told), (256, [("window/logMessage", 3, said)]))
        editor.end("shutdown", "exit")

    def test_a_folder_that_is_a_link(self) -> None:
        """An editor that opened a folder by a symbolic link has the files by that; the index has
        them by their real paths."""
        link = f"{self.folder}-link"
        os.symlink(self.folder, link)
        self.addCleanup(os.unlink, link)
        own = uri_of(os.path.join(link, "src", "main.rs"), [])
        self.answer({"places": [{**PLACE, "project": "app", "uri": self.uri}]})
        editor = Editor(self.url, "app")
        editor.call("initialize", {"rootUri": uri_of(link, []), "capabilities": {}})
        found = editor.call("textDocument/definition", {**self.at, "textDocument": {"uri": own}})
        self.assertEqual(found, ([{"uri": own, "range": PLACE}], NOT_MAPPED))
        self.assertEqual(Replies.asked[-1][1]["uri"], self.uri)
        editor.end("shutdown", "exit")

    def test_what_the_server_refuses(self) -> None:
        editor = self.editor()
        good = {"places": [{**PLACE, "project": "app", "uri": self.uri}]}
        for status, reply, text in (
            (
                404,
                {"fault": "D01", "text": "project has no dump"},
                f"app: D01 project has no dump: {self.uri}",
            ),
            (
                404,
                {"fault": "D02", "text": "no such document"},
                f"app: D02 no such document: {self.uri}: the project has no such document, or its dump was made in another "
                "folder, which --map URI=FOLDER says",
            ),
            (400, {"fault": "D03", "text": "bad parameter"}, f"app: D03 bad parameter: {self.uri}"),
            (
                503,
                {"fault": "S01", "text": "store refused"},
                "app: S01 store refused, which means that the server can't read its database: the file is damaged, or another "
                f"program changed it: {self.uri}",
            ),
            (503, {"fault": "S02", "text": "out of memory"}, f"app: S02 out of memory: {self.uri}"),
            (
                502,
                b"<html>",
                f"app: {self.url}: not a reply of codenav, status 502, the proxy has no answer of codenav: {self.uri}",
            ),
            (200, b"{}", f"app: {self.url}: not a reply of codenav, status 200: {self.uri}"),
        ):
            with self.subTest(text):
                self.answer(reply, status)
                told = [("window/showMessage", 2, f"codenav: {text}")]
                self.assertEqual(editor.call("textDocument/definition", self.at), ([], told))
                self.assertEqual(editor.call("textDocument/definition", self.at), ([], []))
                self.answer(good)
                self.assertEqual(editor.call("textDocument/definition", self.at)[1], [])
                self.answer(reply, status)
                self.assertEqual(editor.call("textDocument/hover", self.at), (None, told))
        editor.end("shutdown", "exit")

    def test_a_server_that_is_down(self) -> None:
        editor = self.editor(url="http://127.0.0.1:1")
        result, told = editor.call(
            "textDocument/references", {**self.at, "context": {"includeDeclaration": True}}
        )
        self.assertEqual((result, len(told), told[0][:2]), ([], 1, ("window/showMessage", 2)))
        self.assertIn("http://127.0.0.1:1: Connection refused", told[0][2])
        self.assertEqual(editor.call("workspace/symbol", {"query": "a"})[0], [])
        self.assertEqual(editor.end("shutdown", "exit"), (0, b""))

    def test_bad_messages(self) -> None:
        editor = self.editor()
        at = {"textDocument": {"uri": self.uri}, "position": {"line": 0, "character": 3}}

        def message(**members: Any) -> bytes:
            return json.dumps({"jsonrpc": "2.0", **members}).encode()

        def opened(uri: str) -> bytes:
            document = {"textDocument": {"uri": uri, "text": "other"}}
            return message(method="textDocument/didOpen", params=document)

        def definition(params: Any) -> bytes:
            return message(id=9, method="textDocument/definition", params=params)

        for body, own, code in (
            (b"{", None, -32700),
            (b"\xff", None, -32700),
            (b"", None, -32700),
            (b"[" * 100_000, None, -32700),
            (b"[]", None, -32600),
            (b"7", None, -32600),
            (message(id=None, method="shutdown"), None, -32600),
            (message(id=1.5, method="shutdown"), None, -32600),
            (message(id=True, method="shutdown"), None, -32600),
            (message(id=9), 9, -32600),
            (message(id="x", method=7), "x", -32600),
            (b'{"id":9,"method":"shutdown"}', 9, -32600),
            (message(id=9, method="shutdown", params=7), 9, -32600),
            (message(id=9, method="initialize", params={}), 9, -32600),
            (message(id=9, method="textDocument/rename", params=at), 9, -32601),
            (message(id=9, method="$/unknown"), 9, -32601),
            (message(id=9, method="exit"), 9, -32601),
            (definition(None), 9, -32602),
            (definition([]), 9, -32602),
            (definition({**at, "textDocument": {"uri": 7}}), 9, -32602),
            (definition({**at, "position": {"line": 0}}), 9, -32602),
            (definition({**at, "position": {"line": -1, "character": 0}}), 9, -32602),
            (definition({**at, "position": {"line": 0, "character": 2147483648}}), 9, -32602),
            (definition({**at, "position": {"line": 0, "character": True}}), 9, -32602),
            (definition({**at, "textDocument": {"uri": "file:///\ud800"}}), 9, -32602),
            (message(id=9, method="workspace/symbol", params={"query": "\ud800"}), 9, -32602),
            (message(id=9, method="textDocument/references", params=at), 9, -32602),
            (message(id=9, method="workspace/symbol", params={}), 9, -32602),
        ):
            with self.subTest(body[:80]):
                editor.send(body)
                answer = editor.read()
                self.assertEqual((answer["id"], answer["error"]["code"]), (own, code))
        for head in (
            b"\r\n",
            b"Content-Length: x\r\n\r\n",
            b"Content-Type: a\r\n\r\n",
            b"Content-Length: 99999999999\r\n\r\n",
        ):
            editor.write(head)
            self.assertEqual(editor.read()["error"]["code"], -32700)
        for body in (
            message(id=4, result=None),
            message(method="textDocument/didOpen"),
            message(method="textDocument/didChange", params={"contentChanges": [7]}),
            opened("file:///x/\ud800.c"),
            opened("file:///x/%00.c"),
            opened(f"{self.uri}%00"),
            opened(""),
            message(method="$/cancelRequest", params=7),
            message(method="$/cancelRequest", params={"id": 1}),
            message(method="unknown"),
        ):
            editor.send(body)
        self.answer({"places": [{**PLACE, "project": "app", "uri": self.uri}]})
        found = [{"uri": self.uri, "range": PLACE}]
        self.assertEqual(editor.call("textDocument/definition", self.at), (found, []))
        other = {**self.at, "textDocument": {"uri": f"{self.uri}%00"}}
        self.assertEqual(editor.call("textDocument/definition", other)[0], found)
        body = message(id="end", method="shutdown")
        editor.write(
            b"Content-Type: application/vscode-jsonrpc; charset=utf-8\r\ncontent-length:%d \r\n\r\n%s"
            % (len(body), body)
        )
        self.assertEqual(editor.read(), {"id": "end", "result": None})
        self.assertEqual(editor.end("exit"), (0, b""))

    def test_the_order_of_a_life(self) -> None:
        editor = Editor(self.url, "app")
        self.assertEqual(editor.call("textDocument/hover", self.at)[0], -32002)
        self.assertEqual(editor.call("shutdown")[0], -32002)
        self.assertEqual(editor.call("initialize", None)[0], -32602)
        result, _ = editor.call("initialize", {"workspaceFolders": None, "rootUri": None})
        self.assertEqual(
            {name for name in result["capabilities"] if name.endswith("Provider")},
            {
                f"{name}Provider"
                for name in (
                    "definition",
                    "declaration",
                    "implementation",
                    "references",
                    "hover",
                    "documentHighlight",
                    "documentSymbol",
                    "workspaceSymbol",
                    "callHierarchy",
                    "typeDefinition",
                    "moniker",
                    "foldingRange",
                    "documentLink",
                )
            },
        )
        self.assertEqual(editor.call("shutdown"), (None, []))
        self.assertEqual(editor.call("textDocument/hover", self.at)[0], -32600)
        self.assertEqual(editor.end("exit"), (0, b""))
        self.assertEqual(self.editor().end("exit"), (1, b""))
        self.assertEqual(self.editor().end(), (1, b""))

    def test_texts_that_differ_from_the_file(self) -> None:
        def document(text: str) -> dict[str, Any]:
            return {
                "textDocument": {"uri": self.uri, "languageId": "rust", "version": 1, "text": text}
            }

        self.answer({"contents": None})
        editor = self.editor()
        told = [
            (
                "window/logMessage",
                3,
                f"codenav: {self.uri} isn't as in its file: positions are those of the indexed file",
            )
        ]
        for notification, params, expected in (
            ("didOpen", document(TEXT), []),
            (
                "didChange",
                {**document(""), "contentChanges": [{"text": "x"}, {"text": TEXT + "x"}]},
                told,
            ),
            ("didChange", {**document(""), "contentChanges": [{"text": TEXT + "xy"}]}, []),
            ("didSave", document(""), []),
            (
                "didChange",
                {**document(""), "contentChanges": [{"text": TEXT.replace("\n", "\r\n")}]},
                [],
            ),
            ("didChange", {**document(""), "contentChanges": [{"text": ""}]}, told),
            ("didClose", document(""), []),
        ):
            editor.notify(f"textDocument/{notification}", params)
            self.assertEqual(
                editor.call("textDocument/hover", self.at), (None, expected), notification
            )
        editor.notify("textDocument/didOpen", {"textDocument": {"uri": "untitled:1", "text": "x"}})
        result, said = editor.call(
            "textDocument/hover", {**self.at, "textDocument": {"uri": "untitled:1"}}
        )
        self.assertEqual((result, len(said), Replies.asked[-1][1]["uri"]), (None, 1, "untitled:1"))
        editor.end("shutdown", "exit")

    def test_bad_settings(self) -> None:
        """They're one message, up to when they're mended."""
        path = os.path.join(self.folder, ".codenav.toml")
        editor = Editor()
        editor.call("initialize", {"rootUri": uri_of(self.folder, []), "capabilities": {}})
        self.answer({"contents": None})
        bad = f"codenav: {path}: server: not the address of a server, as http://127.0.0.1:8080: "
        for server, told in (
            ("http://[::1", [("window/showMessage", 2, f"{bad}'http://[::1'")]),
            ("http://[::1", []),
            (self.url, NOT_MAPPED),
        ):
            with open(path, "w", encoding="utf-8") as file:
                file.write(f'server = "{server}"\nproject = "app"\n')
            editor.notify("textDocument/didOpen", {"textDocument": {"uri": self.uri, "text": TEXT}})
            self.assertEqual(editor.call("textDocument/hover", self.at), (None, told))
        self.assertEqual(editor.end("shutdown", "exit"), (0, b""))

    def hanging(self, *servers: str) -> tuple[InProcess, threading.Event, list[str]]:
        """An editor over servers of which these hang until the event, and the paths that they're
        asked for; what they answer is a place of each file `a.rs`."""
        hangs, asked = threading.Event(), list[str]()
        self.addCleanup(hangs.set)

        def fetch_from(server: str, _: float) -> Any:
            def fetch(path: str, _: object, member: str) -> Any:
                if server in servers:
                    asked.append(path)
                    self.assertTrue(hangs.wait(600))
                uri = uri_of(os.path.join(self.folder, "a", "a.rs"), [])
                places = [{**PLACE, "project": "app", "uri": uri}]
                found: dict[str, Any] = {"places": places, "tags": [], "contents": None}
                return found[member]

            return fetch

        for name, server in zip("ab", ("http://h:1", "http://h:2")):
            self.write(f"{name}/.codenav.toml", f'server = "{server}"\nproject = "app"\n')
            self.write(f"{name}/a.rs", TEXT)
        self.enterContext(mock.patch("codenav.asking.workspace.fetch_from", fetch_from))
        editor = self.enterContext(InProcess(None))
        root = {"rootUri": uri_of(self.folder, []), "capabilities": {}}
        editor.answer({"id": 0, "method": "initialize", "params": root})
        return editor, hangs, asked

    def at_file(self, name: str) -> dict[str, Any]:
        """A place of a file."""
        return {**self.at, "textDocument": {"uri": uri_of(os.path.join(self.folder, name), [])}}

    def test_a_server_that_hangs(self) -> None:
        """It stops no other question; what waits for it can be cancelled, of which nothing more is
        asked or said, and `shutdown` ends it all at once: each has one answer."""
        editor, hangs, asked = self.hanging("http://h:1")
        hover = {"method": "textDocument/hover", "params": self.at_file("a/a.rs")}
        for number in range(1, 51):
            editor.take({"id": number, **hover})
        document = {"textDocument": {"uri": "untitled:1"}}
        outline = {"id": 51, "method": "textDocument/documentSymbol", "params": document}
        self.assertEqual(editor.answer(outline), {"id": 51, "result": []})
        cancelled: list[Any] = [1, 50, 1, 51, "no such"]
        for own in cancelled:
            editor.take({"method": "$/cancelRequest", "params": {"id": own}})
        editor.answer({"id": 52, "method": "shutdown"})
        editor.answer({"id": 53, **hover})
        hangs.set()
        editor.settle()
        self.assertEqual(
            [codes(one) for one in editor.sent],
            [
                *((own, None) for own in (0, 51)),
                *((own, -32800) for own in (1, 50, *range(2, 50))),
                *((52, None), (53, -32600)),
            ],
        )
        self.assertLessEqual(len(asked), 50)

    def test_two_servers_of_which_one_hangs(self) -> None:
        """A question to the other is answered meanwhile, and both about what's open then."""
        editor, hangs, _ = self.hanging("http://h:1")
        method, uri = "textDocument/definition", self.at_file("a/a.rs")["textDocument"]["uri"]
        editor.take({"id": 1, "method": method, "params": self.at_file("a/a.rs")})
        found = editor.answer({"id": 2, "method": method, "params": self.at_file("b/a.rs")})
        self.assertEqual(found, {"id": 2, "result": [{"uri": uri, "range": PLACE}]})
        opened = {"textDocument": {"uri": uri, "text": "fn\n ma"}}
        editor.take({"method": "textDocument/didOpen", "params": opened})
        hangs.set()
        end = {"line": 1, "character": 3}
        span = {"start": {"line": 1, "character": 2}, "end": end}
        self.assertEqual(editor.answers(3)[2], {"id": 1, "result": [{"uri": uri, "range": span}]})

    def test_an_id_that_waits(self) -> None:
        """A second request of it is refused, and the first one still has its answer."""
        editor, hangs, _ = self.hanging("http://h:1")
        params = self.at_file("a/a.rs")
        editor.take({"id": 1, "method": "textDocument/hover", "params": params})
        for method, code in ("textDocument/hover", -32600), ("no/method", -32601):
            answer = editor.answer({"id": 1, "method": method, "params": params})
            self.assertEqual(codes(answer), (1, code))
        hangs.set()
        self.assertEqual(editor.answers(4)[3], {"id": 1, "result": None})

    def test_an_unexpected_fault(self) -> None:
        """It ends neither the bridge nor the answers that come after it, and is shown once."""
        opened = {"textDocument": {"uri": self.uri, "text": TEXT}}
        planted = mock.Mock(side_effect=KeyError("a\nb"))
        rows: list[tuple[dict[str, Any], str, dict[str, Any]]] = [
            ({"id": 1}, "textDocument/hover", self.at),
            ({}, "textDocument/didOpen", opened),
        ]
        for own, method, params in rows:
            with mock.patch.dict(QUERIES, {method: planted}), mock.patch.dict(
                lsp.NOTIFICATIONS, {method: planted} if not own else {}
            ), InProcess(None) as editor:
                editor.answer({"id": 0, "method": "initialize", "params": {}})
                message = {**own, "method": method, "params": params}
                for _ in range(2):
                    if own:
                        self.assertEqual(codes(editor.answer(message)), (1, -32603))
                    else:
                        editor.take(message)
                editor.answer({"id": 2, "method": "shutdown"})
                said = [one["params"] for one in editor.sent if "method" in one]
            text = f"codenav: {method}: KeyError: 'a\\nb'"
            self.assertEqual(said, [{"type": 1, "message": text}])

    def test_a_log_that_is_full(self) -> None:
        editor = Editor("--log", "/dev/full", self.url, "app")
        editor.call("initialize", {"rootUri": uri_of(self.folder, []), "capabilities": {}})
        said = b"codenav lsp: /dev/full: No space left on device\n"
        self.assertEqual(editor.end("shutdown", "exit"), (0, said))

    def test_the_log(self) -> None:
        log = os.path.join(self.folder, "log")
        self.editor("--log", log).end("shutdown", "exit")
        with open(log, "rb") as file:
            lines = [line.split(b" ", 1) for line in file.read().splitlines()]
        self.assertEqual(
            [(way, json.loads(body).get("method")) for way, body in lines],
            [
                (b"<-", "initialize"),
                (b"->", None),
                (b"<-", "initialized"),
                (b"<-", "textDocument/hover"),
                (b"->", "window/logMessage"),
                (b"->", None),
                (b"<-", "shutdown"),
                (b"->", None),
                (b"<-", "exit"),
            ],
        )

    def test_what_is_refused(self) -> None:
        for words, message in (
            ([self.url, "No"], "a project is 1 to 64 characters of a-z 0-9 _ -, not 'No'"),
            (
                ["http://[::1", "app"],
                "not the address of a server, as http://127.0.0.1:8080: 'http://[::1'",
            ),
            (["--map", "foo", self.url, "app"], "--map takes URI=FOLDER, neither of them empty"),
            (
                ["--tags", "foo", self.url, "app"],
                "--tags takes PROJECT=FOLDER, neither of them empty",
            ),
            (["--log", "/no/log", self.url, "app"], "/no/log: No such file or directory"),
        ):
            done = subprocess.run(
                [*LSP, *words], stdin=subprocess.DEVNULL, capture_output=True, check=False
            )
            self.assertEqual(
                (done.returncode, done.stdout, done.stderr.decode()),
                (2, b"", f"codenav lsp: {message}\n"),
            )


if __name__ == "__main__":
    unittest.main()
