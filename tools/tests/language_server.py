#!/usr/bin/python3 -B
"""Stands in for a language server, of a language that is a little of C: `int NAME` at the begin of a
line is a definition where the line has a `{`, and else a declaration. It fails as the variable
FAULT says: `KIND METHOD WORD OFTEN`, where WORD is the word asked for, or `*`, and OFTEN is `once`, for
which the file FAILED is a mark, `always`, or a number: at that request of each process."""

import json
import os
import re
import subprocess
import sys
import tempfile
import time
from typing import Any

sys.path.insert(0, os.path.dirname(os.path.dirname(os.path.realpath(__file__))))

from codenav.lsp.jsonrpc import Message, message_of, read_body, write_message

NAMED = re.compile(r"^int (\w+)")
WORD = re.compile(r"[A-Za-z_]\w*")
KINDS = ("end", "hang", "lost", "late", "error", "no-json", "formless", "memory", "unread")
TEXTS: dict[str, list[str]] = {}
SIZE = 300 << 20


def span(line: int, start: int, end: int) -> dict[str, Any]:
    """A range on one line."""
    ends = [{"line": line, "character": at} for at in (start, end)]
    return {"start": ends[0], "end": ends[1]}


def named(uri: str) -> list[tuple[int, str, bool]]:
    """The names of a document: the line, the name, and whether it's defined there."""
    found = [(at, NAMED.match(line), "{" in line) for at, line in enumerate(TEXTS[uri])]
    return [(at, match[1], defined) for at, match, defined in found if match]


def places(word: str, defined: bool) -> list[dict[str, Any]]:
    """Where a word is defined, or declared."""
    return [
        {"uri": uri, "range": span(line, 4, 4 + len(name))}
        for uri in sorted(TEXTS)
        for line, name, is_defined in named(uri)
        if name == word and is_defined == defined
    ]


def word_at(params: Any) -> str:
    """The word at a place."""
    position = params["position"]
    line = TEXTS[params["textDocument"]["uri"]][position["line"]]
    found = WORD.match(line, position["character"])
    return found[0] if found else ""


def tokens(uri: str) -> list[int]:
    """The tokens of the words but `int`, each by its distance from the one before it."""
    data, line, start = list[int](), 0, 0
    for at, text in enumerate(TEXTS[uri]):
        for word in WORD.finditer(text):
            if word[0] != "int":
                data += [at - line, word.start() - (start if at == line else 0), len(word[0]), 0, 0]
                line, start = at, word.start()
    return data


def result_of(method: str, params: Any) -> Any:
    """The answer to a request."""
    if method == "initialize":
        legend = {"tokenTypes": ["function"], "tokenModifiers": []}
        offers = {"hoverProvider": {}, "semanticTokensProvider": {"legend": legend}}
        more = {"implementationProvider": True, "documentLinkProvider": {}}
        return {"capabilities": {**offers, **more}}
    if method == "documentLink":
        return []
    if method == "semanticTokens/full":
        return {"data": tokens(params["textDocument"]["uri"])}
    if method == "documentSymbol":
        return [
            {
                "name": name,
                "kind": 12,
                "range": span(line, 0, 9),
                "selectionRange": span(line, 4, 4 + len(name)),
            }
            for line, name, _ in named(params["textDocument"]["uri"])
        ]
    word = word_at(params)
    if method == "hover":
        return {"contents": f"about {word}"}
    if method == "implementation":
        return places(f"{word}_made", True)
    here = {"uri": params["textDocument"]["uri"], "line": params["position"]["line"]}
    found = places(word, True)
    is_own = any(
        one["uri"] == here["uri"] and one["range"]["start"]["line"] == here["line"] for one in found
    )
    return (is_own and places(word, False)) or found or places(word, False)


def send(**message: Any) -> None:
    """Sends a message."""
    write_message(sys.stdout.buffer, json.dumps({"jsonrpc": "2.0", **message}).encode())


class Faults:
    """When and how it fails."""

    def __init__(self) -> None:
        words = os.environ.get("FAULT", "").split()
        self.kind, self.method, self.word, self.often = words or ["", "", "", ""]
        self.count = 0

    def is_due(self, method: str, params: Any) -> bool:
        """Whether a request is one to fail at."""
        self.count += 1
        if self.often.isdecimal():
            return self.count == int(self.often)
        if method != self.method:
            return False
        if self.word != "*" and word_at(params) != self.word:
            return False
        mark = os.environ["FAILED"]
        if self.often == "once" and os.path.exists(mark):
            return False
        with open(mark, "w", encoding="ascii"):
            return True


def fail(kind: str, own: Any, params: Any, taken: list[bytes]) -> Any:
    """Fails at a request; answers the message to send in place of the answer, or nothing."""
    if kind == "end":
        sys.exit(1)
    if kind == "hang":
        time.sleep(600)
    if kind == "memory":
        taken.append(b"x" * SIZE)
        time.sleep(600)
    if kind == "no-json":
        write_message(sys.stdout.buffer, b"{")
    if kind == "error":
        return {"id": own, "error": {"code": 1, "message": "failed"}}
    if kind == "unread":
        text = f"nothing is known of {params['textDocument']['uri']}"
        return {"id": own, "error": {"code": 0, "message": text}}
    return {"id": own, "result": {"data": 7, "contents": 7}} if kind == "formless" else None


def serve() -> None:
    """Serves up to the end of the input."""
    faults, taken = Faults(), list[bytes]()
    tempfile.mkstemp()  # as servers leave files there
    if "CHILD" in os.environ:
        child = subprocess.Popen(["sleep", "600"])
        with open(os.environ["CHILD"], "a", encoding="ascii") as file:
            file.write(f"{os.getpid()} {child.pid}\n")
    while (body := read_body(sys.stdin.buffer)) is not None:
        message: Message = message_of(body)
        method = str(message.get("method")).removeprefix("textDocument/")
        params = message.get("params")
        if method == "initialized" and faults.kind == "unread":
            send(method="$/progress", params={"token": 1, "value": {"kind": "begin"}})
            text = "2026/02/01 10:20:30 loading failed:\n\tno such module"
            send(method="window/logMessage", params={"type": 1, "message": text})
        if method == "didOpen":
            document = message["params"]["textDocument"]
            TEXTS[document["uri"]] = document["text"].split("\n")
            said = {"uri": document["uri"], "diagnostics": []}
            send(method="textDocument/publishDiagnostics", params=said)
        if "id" not in message or "method" not in message:
            continue
        reply: Any = None
        if faults.kind and faults.is_due(method, params):
            reply = fail(faults.kind, message["id"], params, taken)
            if faults.kind == "late":
                time.sleep(1)
            elif reply is None:
                continue
        reply = reply or {"id": message["id"], "result": result_of(method, params)}
        send(**reply)


if __name__ == "__main__":
    serve()
