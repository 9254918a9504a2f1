"""Tests of a bridge of which an editor asks, cancels, edits and shuts down in any order, while the
server answers when it likes: against a plain model of which request has which answer when."""

import os
import tempfile
import threading
import unittest
from collections import deque
from typing import Any, Callable, NamedTuple, Optional, cast
from unittest import mock

from codenav.settings.found import FILE
from codenav.texts.places import uri_of
from tests.in_process import SECONDS, InProcess
from tests.lsp_shapes import ERROR, RESULTS, TOLD, ends, fault_in, ranges_in
from tests.randomly import check_cases

TEXTS = [
    "",
    "low\n",
    "a low\nlow b\n",
    "def low():\n  \u4e00\U0001f600 = low(low)\n\n\nlow()",
    "x" * 50,
]
SERVERS = ("http://127.0.0.1:1", "http://127.0.0.1:2")
CANCELLED, SHUT = -32800, -32600
METHODS = (
    *("definition", "references", "documentHighlight", "hover", "prepareCallHierarchy"),
    *("documentSymbol", "incoming", "outgoing", "symbol"),
    *("typeDefinition", "moniker", "foldingRange", "documentLink"),
)


class Held(NamedTuple):
    """A request to a server that waits: which server's it is, and what lets it go."""

    server: str
    go: threading.Event


class Servers:
    """Servers that answer each request when they're let to; of all documents they have places on
    the first lines, whether the texts have such or not."""

    def __init__(self, uris: dict[str, str]) -> None:
        self.uris = uris
        self.held = deque[Held]()
        self.changed = threading.Condition()
        self.is_open = False

    def fetch_from(self, server: str, _: float) -> Any:
        """What asks a server."""

        def fetch(path: str, parameters: dict[str, Any], member: str) -> Any:
            own = Held(server, threading.Event())
            with self.changed:
                if not self.is_open:
                    self.held.append(own)
                else:
                    own.go.set()
                self.changed.notify_all()
            assert own.go.wait(SECONDS)
            span = [{"line": line, "character": 2} for line in (0, 1)]
            place: dict[str, Any] = {"project": "app", "start": span[0], "end": span[1]}
            places = [{**place, "uri": uri} for uri in self.uris.values()]
            found: dict[str, Any] = {"places": places, "tags": [], "contents": None, "profile": 2}
            return found[member]

        return fetch

    def let_go(self, number: int, is_idle: Callable[[], bool]) -> bool:
        """Answers a request that waits, or comes; says whether there was one before all ended."""
        with self.changed:
            while not self.held and not is_idle():
                self.changed.wait(0.001)
            if self.held:
                self.held.rotate(number)
                self.held.pop().go.set()
                return True
        return False

    def open(self) -> None:
        """Answers all that wait, and all that come."""
        with self.changed:
            self.is_open = True
            while self.held:
                self.held.pop().go.set()


class Turns(unittest.TestCase):
    def setUp(self) -> None:
        self.folder = os.path.realpath(self.enterContext(tempfile.TemporaryDirectory()))
        self.uris = dict[str, str]()
        for name, server in zip("ab", SERVERS):
            os.mkdir(os.path.join(self.folder, name))
            path = os.path.join(self.folder, name, "a.py")
            with open(os.path.join(self.folder, name, FILE), "w", encoding="utf-8") as file:
                file.write(f'server = "{server}"\nproject = "app"\n')
            with open(path, "w", encoding="utf-8") as file:
                file.write(TEXTS[2])
            self.uris[name] = uri_of(path, [])

    def test_random_turns(self) -> None:
        """Each request has one answer: its own, or that it was cancelled, or that the server is shut
        down, as it was before `shutdown` or behind it. None has a place outside a text that the
        editor had between the question and the answer."""

        def drawn(strategies: Any) -> dict[str, Any]:
            number = strategies.integers(0, 9)
            turn = strategies.one_of(
                strategies.tuples(
                    strategies.just("ask"),
                    strategies.sampled_from(METHODS),
                    strategies.sampled_from("ab"),
                    strategies.integers(0, 3),
                ),
                strategies.tuples(strategies.just("cancel"), number),
                strategies.tuples(
                    strategies.just("edit"),
                    strategies.sampled_from("ab"),
                    strategies.sampled_from(TEXTS),
                ),
                strategies.tuples(strategies.just("go"), number, number),
                strategies.tuples(strategies.just("go"), number, number),
                strategies.tuples(strategies.just("settle"), number),
            )
            encodings = strategies.sampled_from(["utf-8", "utf-16", "utf-32"])
            return {
                "turns": strategies.lists(turn, min_size=10, max_size=40),
                "behind": strategies.lists(strategies.sampled_from(METHODS), max_size=3),
                "encoding": encodings,
            }

        check_cases(self, 60, drawn, self.check)

    def check(self, turns: list[Any], behind: list[str], encoding: str) -> None:
        """Takes turns, shuts down, asks more, and compares."""
        servers = Servers(self.uris)
        with mock.patch("codenav.asking.workspace.fetch_from", servers.fetch_from), InProcess(
            None
        ) as editor:
            play = Play(self, editor, servers, encoding)
            for turn in turns:
                play.take(turn)
            play.shut(behind)
            servers.open()
            play.compare()

    def test_all_are_answered(self) -> None:
        """Without an end each request has the answer that was asked for, in whatever order the
        servers answer."""
        servers = Servers(self.uris)
        with mock.patch("codenav.asking.workspace.fetch_from", servers.fetch_from), InProcess(
            None
        ) as editor:
            play = Play(self, editor, servers, "utf-16")
            for number in range(100):
                play.take(("ask", METHODS[number % len(METHODS)], "ab"[number % 2], 0))
                play.take(("go", number, 3))
            servers.open()
            for answer in editor.answers(101)[1:]:
                self.assertIn("result", answer)
            play.shut([])
            play.compare()


class Play:
    """An editor that takes turns, and what the model knows of it: the requests in order, and of each
    what its answer may be."""

    def __init__(self, test: Turns, editor: InProcess, servers: Servers, encoding: str) -> None:
        self.test, self.editor, self.servers, self.encoding = test, editor, servers, encoding
        self.asked: dict[int, str] = {0: "initialize"}
        self.may: dict[int, set[Optional[int]]] = {0: {None}}
        self.texts = {name: [TEXTS[2]] for name in "ab"}
        self.since: dict[int, dict[str, int]] = {0: {"a": 0, "b": 0}}
        self.seen: dict[int, dict[str, int]] = {}
        capabilities = {"general": {"positionEncodings": [encoding, "utf-16"]}}
        root = uri_of(test.folder, [])
        self.request("initialize", {"rootUri": root, "capabilities": capabilities}, 0)

    def request(self, method: str, params: Any, own: int) -> None:
        """Sends a request."""
        self.editor.take({"id": own, "method": method, "params": params})
        self.notice()

    def notice(self) -> None:
        """Notes of answers that came which texts the editor had by then."""
        for answer in self.editor.answers(0):
            own = cast(int, answer["id"])
            self.seen.setdefault(own, {name: len(texts) for name, texts in self.texts.items()})

    def take(self, turn: Any) -> None:
        """Takes a turn."""
        what, *rest = turn
        if what == "ask":
            self.ask(*rest)
        elif what == "cancel" and self.asked:
            own = list(self.asked)[rest[0] % len(self.asked)]
            self.may[own] |= {CANCELLED} if own else set()
            self.editor.take({"method": "$/cancelRequest", "params": {"id": own}})
        elif what == "edit":
            name, text = rest
            self.texts[name].append(text)
            document = {"uri": self.test.uris[name], "text": text}
            self.editor.take(
                {"method": "textDocument/didOpen", "params": {"textDocument": document}}
            )
        elif what == "go":
            for _ in range(1 + rest[1]):
                self.servers.let_go(rest[0], self.editor.is_idle)
        elif what == "settle":
            while self.servers.let_go(rest[0], self.editor.is_idle):
                pass
        self.notice()

    def ask(self, method: str, name: str, line: int) -> None:
        """Asks."""
        own, at = len(self.asked), {"line": line, "character": 2}
        document = {"uri": self.test.uris[name]}
        params: dict[str, Any] = {"textDocument": document, "position": at}
        params["context"] = {"includeDeclaration": True}
        span = {"start": at, "end": at}
        params["item"] = {**document, "selectionRange": span, "range": span}
        params["query"] = "low"
        known = {
            "incoming": "callHierarchy/incomingCalls",
            "outgoing": "callHierarchy/outgoingCalls",
        }
        known["symbol"] = "workspace/symbol"
        self.asked[own] = known.get(method, f"textDocument/{method}")
        self.may[own] = {None}
        self.since[own] = {one: len(texts) - 1 for one, texts in self.texts.items()}
        self.request(self.asked[own], params, own)

    def shut(self, behind: list[str]) -> None:
        """Shuts down, and asks more."""
        answered = {one["id"] for one in self.editor.answers(0)}
        for own in self.asked:
            if own not in answered:
                self.may[own] |= {CANCELLED}
        self.end = len(self.asked)
        self.asked[self.end], self.may[self.end] = "shutdown", {None}
        self.request("shutdown", None, self.end)
        self.since[self.end] = self.since[0]
        for method in behind:
            self.ask(method, "a", 0)
            self.may[len(self.asked) - 1] = {SHUT}

    def compare(self) -> None:
        """Compares all answers with the model."""
        self.editor.settle()
        answers = self.editor.answers(len(self.asked))
        order = [one["id"] for one in answers]
        test = self.test
        test.assertEqual(sorted(order), sorted(self.asked))
        test.assertEqual(set(order[: self.end + 1]), set(range(self.end + 1)))
        test.assertEqual(order[self.end :], list(range(self.end, len(self.asked))))
        for one in self.editor.sent:
            if "method" in one:
                test.assertEqual(fault_in(one["params"], TOLD), "")
        for answer in answers:
            own, error = answer["id"], answer.get("error")
            test.assertIn(error and error["code"], self.may[own], self.asked[own])
            if error is not None:
                test.assertEqual(fault_in(error, ERROR), "")
            else:
                method, result = self.asked[own], answer["result"]
                test.assertEqual(fault_in(result, RESULTS[method]), "")
                self.places(own, result)

    def places(self, own: int, result: Any) -> None:
        """Has each range of a result lie in a text of its document, of those that the editor had
        between the question and the answer."""
        width = {"utf-8": 1, "utf-16": 2, "utf-32": 4}[self.encoding]
        name = self.encoding if width == 1 else f"{self.encoding}-le"

        def is_inside(at: tuple[int, int], text: str) -> bool:
            lines = text.split("\n")
            return at[0] < len(lines) and at[1] <= len(lines[at[0]].encode(name)) // width

        texts = [
            text
            for one, known in self.texts.items()
            for text in known[self.since[own][one] : self.seen.get(own, {}).get(one, len(known))]
        ]
        for span in ranges_in(result):
            inside = [text for text in texts if all(is_inside(at, text) for at in ends(span))]
            self.test.assertTrue(inside, (span, texts))


if __name__ == "__main__":
    unittest.main()
