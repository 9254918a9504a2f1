"""What answers of a language, asked by itself where words are defined, with a small client of its
own: clangd, gopls, rust-analyzer, tsserver, and jedi with a fresh question for each word."""

import json
import os
import shlex
import subprocess
from collections import defaultdict
from typing import Any, Callable, Iterator, Optional
from urllib.parse import unquote, urlsplit
from urllib.request import pathname2url

Line = tuple[str, int]
"""A file's path, and a zero-based line of it."""
Asks = Callable[[str, int, int], set[Line]]
"""The lines where the word is defined that is in a file at a line and a UTF-16 code unit."""

SETTINGS: dict[str, Any] = {
    "gopls": {},
    "rust-analyzer": {"checkOnSave": False, "cachePriming": {"enable": False}},
}
SERVERS = {
    ".c": ("clangd --log=error", "c"),
    ".h": ("clangd --log=error", "c"),
    ".cpp": ("clangd --log=error", "cpp"),
    ".go": ("gopls", "go"),
    ".rs": ("rust-analyzer", "rust"),
}


class Speaks:
    """A process with which JSON is exchanged, each text behind its length."""

    def __init__(self, line: str, folder: str) -> None:
        pipe = subprocess.PIPE
        self.process = subprocess.Popen(
            shlex.split(line), cwd=folder, stdin=pipe, stdout=pipe, stderr=subprocess.DEVNULL
        )

    def write(self, text: bytes) -> None:
        """Sends bytes."""
        assert self.process.stdin is not None
        self.process.stdin.write(text)
        self.process.stdin.flush()

    def read(self) -> Any:
        """The next message."""
        out, length = self.process.stdout, 0
        assert out is not None
        while line := out.readline():
            name, _, text = line.decode("ascii").partition(":")
            if name.lower() == "content-length":
                length = int(text)
            elif not line.strip() and length:
                return json.loads(out.read(length))
        raise EOFError("the server ended")


class Protocol(Speaks):
    """A server of the Language Server Protocol that has files of a folder open, and has read them."""

    def __init__(self, line: str, folder: str, texts: dict[str, str]) -> None:
        super().__init__(line, folder)
        self.count, self.is_busy = 0, line.startswith("rust-analyzer")
        self.settings = SETTINGS.get(line.split()[0])
        able = {
            "textDocument": {"definition": {"linkSupport": True}},
            "workspace": {"configuration": True},
            "experimental": {"serverStatusNotification": True},
        }
        given = {"processId": os.getpid(), "rootUri": address(folder), "capabilities": able}
        self.ask("initialize", {**given, "initializationOptions": self.settings})
        self.send({"method": "initialized", "params": {}})
        for path, text in texts.items():
            item = {"uri": address(path), "version": 1, "text": text}
            item["languageId"] = SERVERS[os.path.splitext(path)[1]][1]
            self.send({"method": "textDocument/didOpen", "params": {"textDocument": item}})
        while self.is_busy:
            self.take()
        for path in texts:  # an answer comes once the file is read
            self.ask("textDocument/documentSymbol", {"textDocument": {"uri": address(path)}})

    def send(self, message: dict[str, Any]) -> None:
        """Sends a message."""
        text = json.dumps({"jsonrpc": "2.0", **message}).encode()
        self.write(b"Content-Length: %d\r\n\r\n" % len(text) + text)

    def take(self) -> Any:
        """The next message, where it's no question: that is answered."""
        message = self.read()
        if "method" in message and "id" in message:
            items = (message.get("params") or {}).get("items")
            result = [self.settings] * len(items) if items is not None else None
            self.send({"id": message["id"], "result": result})
        if message.get("method") == "experimental/serverStatus":
            self.is_busy = not message["params"]["quiescent"]
        return message

    def ask(self, method: str, params: dict[str, Any]) -> Any:
        """The answer to a question; None where it's a fault."""
        self.count += 1
        self.send({"id": self.count, "method": method, "params": params})
        while True:
            message = self.take()
            if message.get("id") == self.count and "method" not in message:
                return message.get("result")

    def defined(self, path: str, line: int, character: int) -> set[Line]:
        """Where a word is defined."""
        position = {"line": line, "character": character}
        params = {"textDocument": {"uri": address(path)}, "position": position}
        found = self.ask("textDocument/definition", params) or []
        return {
            (file_of(one.get("targetUri") or one["uri"]), start_of(one)["line"])
            for one in (found if isinstance(found, list) else [found])
        }


class TypeScript(Speaks):
    """tsserver, which has its own protocol."""

    def __init__(self, folder: str, texts: dict[str, str]) -> None:
        super().__init__("tsserver --disableAutomaticTypingAcquisition", folder)
        self.count = 0
        for path in texts:
            self.send("open", {"file": path})

    def send(self, command: str, arguments: dict[str, Any]) -> None:
        """Sends a command."""
        self.count += 1
        asked = {"seq": self.count, "type": "request", "command": command, "arguments": arguments}
        self.write(json.dumps(asked).encode() + b"\n")

    def defined(self, path: str, line: int, character: int) -> set[Line]:
        """Where a word is defined."""
        self.send("definition", {"file": path, "line": line + 1, "offset": character + 1})
        while True:
            message = self.read()
            if message.get("request_seq") == self.count:
                return {
                    (one["file"], one["start"]["line"] - 1) for one in message.get("body") or []
                }


def by_jedi(folder: str, texts: dict[str, str]) -> Asks:
    """Python's."""
    import jedi

    project = jedi.Project(folder)

    def defined(path: str, line: int, character: int) -> set[Line]:
        script = jedi.Script(texts[path], path=path, project=project)
        column = len(texts[path].splitlines()[line].encode("utf-16-le")[: 2 * character]) // 2
        found = script.goto(line + 1, column, follow_imports=True)
        return {(str(one.module_path), (one.line or 1) - 1) for one in found if one.module_path}

    return defined


def address(path: str) -> str:
    """A file's address."""
    return "file://" + pathname2url(path)


def file_of(uri: str) -> str:
    """The path of a file by its address."""
    return unquote(urlsplit(uri).path)


def start_of(one: Any) -> Any:
    """Where a place begins."""
    return (one.get("targetSelectionRange") or one["range"])["start"]


def servers(folder: str, texts: dict[str, str]) -> Iterator[tuple[str, Optional[Asks]]]:
    """What answers of each of a folder's files, by their texts."""
    shares = defaultdict[str, dict[str, str]](dict)
    for path, text in texts.items():
        end = os.path.splitext(path)[1]
        shares[SERVERS[end][0] if end in SERVERS else "jedi" if end == ".py" else "tsserver"][
            path
        ] = text
    for line, own in shares.items():
        asks = (
            by_jedi(folder, own)
            if line == "jedi"
            else TypeScript(folder, own).defined
            if line == "tsserver"
            else Protocol(line, folder, own).defined
        )
        yield from ((path, asks) for path in own)
