"""The process that answers of files of Python: what it's asked and what it answers are JSON-RPC
messages on its standard input and output."""

import json
import os
import sys
import time
from importlib.util import find_spec
from typing import Any, Optional

from codenav.index.python.answers import Answering
from codenav.index.python.modules import Modules
from codenav.index.tags_file import files_of
from codenav.lsp.jsonrpc import message_of, read_body, write_message
from codenav.program import end_with_parent
from codenav.texts.places import path_of

ALIVE_SECONDS = 1.0
MOST_FRAMES = 5_000
STUBS = {
    "jedi": [f"third_party/typeshed/stdlib/{name}" for name in ("3.9", "3.7", "3", "2and3")],
    "mypy": ["typeshed/stdlib"],
}
"""Where libraries have stubs of Python's own modules, the first one first."""


def stubs() -> list[str]:
    """The folders of the stubs that are installed."""
    for library, folders in STUBS.items():
        spec = find_spec(library)
        for place in spec.submodule_search_locations or () if spec else ():
            return [os.path.join(place, folder) for folder in folders]
    return []


class Serving:
    """Answers messages."""

    def __init__(self, paths: list[str]) -> None:
        self.paths = paths
        self.source, self.out = sys.stdin.buffer, sys.stdout.buffer
        sys.stdout = sys.stderr  # what libraries print is no message
        self.last = time.monotonic()
        self.answering: Optional[Answering] = None

    def send(self, **message: Any) -> None:
        """Sends a message."""
        write_message(self.out, json.dumps({"jsonrpc": "2.0", **message}).encode())

    def alive(self) -> None:
        """Says now and then that it isn't at the same name still."""
        if time.monotonic() - self.last > ALIVE_SECONDS:
            self.last = time.monotonic()
            self.send(method="codenav/alive", params={})

    def begin(self, params: dict[str, Any]) -> dict[str, Any]:
        """Takes the folder; answers what this machine lacks."""
        settings = params["initializationOptions"]
        folder = path_of(params["rootUri"], []) or "/"
        modules = Modules(folder, self.paths, stubs())
        names = files_of(folder, "--cached", "--others", "--exclude-standard")
        files = [os.path.join(folder, os.fsdecode(name)) for name in names]
        roots = {modules.root(path) for path in files if path.endswith("/__init__.py")}
        modules.others = sorted(roots - {folder})
        modules.touched.ignored = settings["kept"]
        modules.touched.around.update(self.paths)
        sys.addaudithook(modules.touched.heard)
        inferring, lacking = None, []
        try:
            from codenav.index.python.by_jedi import Jedi

            inferring = Jedi(modules, settings["kept"])
        except ModuleNotFoundError as fault:
            lacking.append(str(fault.name))
        self.answering = Answering(modules, inferring, self.alive)
        return {"capabilities": {"lacking": lacking}}

    def answer(self, method: str, params: dict[str, Any]) -> Any:
        """The answer to a request."""
        if method == "initialize":
            return self.begin(params)
        assert self.answering is not None
        return self.answering.of(path_of(params["textDocument"]["uri"], []) or "")

    def serve(self) -> None:
        """Answers up to the end of the input."""
        while (body := read_body(self.source)) is not None:
            message = message_of(body)
            if "id" not in message:
                continue
            try:
                result = self.answer(message["method"], message.get("params") or {})
                self.send(id=message["id"], result=result)
            except Exception as fault:  # whatever comes of a file is said, and the next one asked
                text = f"{type(fault).__name__}: {fault}"
                self.send(id=message["id"], error={"code": 0, "message": text[:200]})


def serve(paths: list[str]) -> None:
    """Answers messages, and ends with who sends them."""
    end_with_parent()
    sys.setrecursionlimit(MOST_FRAMES)
    Serving(paths).serve()
