"""Answers an editor that speaks the Language Server Protocol 3.17, by asking `codenav serve`."""

import os
from functools import partial
from typing import Any, BinaryIO, Callable, Optional

from codenav.asking.workspace import Workspace
from codenav.lsp.answers import QUERIES, Answers
from codenav.lsp.editor import ERROR, Editor
from codenav.lsp.jsonrpc import (
    CANCELLED,
    INTERNAL_ERROR,
    INVALID_PARAMS,
    INVALID_REQUEST,
    METHOD_NOT_FOUND,
    NOT_INITIALIZED,
    Fault,
    Inbox,
    Message,
    is_exit,
    member,
)
from codenav.lsp.side_by_side import Apart, Dropped, Request, Requests
from codenav.settings.found import Settings
from codenav.texts.places import link_map, path_of

CAPABILITIES: dict[str, Any] = {
    "textDocumentSync": {"openClose": True, "change": 1},
    **{
        f"{name}Provider": True
        for name in (
            *("definition", "declaration", "implementation", "references", "hover"),
            *("documentHighlight", "documentSymbol", "workspaceSymbol", "callHierarchy"),
            *("typeDefinition", "moniker", "foldingRange"),
        )
    },
    "documentLinkProvider": {},
}


class Bridge:
    """Serves an editor. What the server refuses is an empty answer and a message to the user."""

    def __init__(
        self,
        given: Optional[Settings],
        out: BinaryIO,
        log: Callable[[str, bytes], None],
        is_by_name: bool = False,
    ) -> None:
        self.given, self.is_by_name = given, is_by_name
        self.editor = Editor(out, log)
        self.requests = Requests(self.work)
        self.workspace: Optional[Workspace] = None
        self.idle: list[Answers] = []
        self.is_shut = False

    def refuse(self, fault: Fault) -> None:
        """Answers by an error."""
        error = {"code": fault.code, "message": str(fault)}
        self.editor.send({"id": fault.own, "error": error})

    def take(self, message: Message) -> None:
        """Takes a request, a notification or a response. Notifications that aren't known, and bad
        ones, have no effect."""
        method, params, own = str(message.get("method")), message.get("params"), message.get("id")
        if "method" not in message:
            return
        if own is None:
            self.guarded(method, None, lambda: self.note(method, params))
        elif method in QUERIES and self.workspace is not None and not self.is_shut:
            if own in self.requests.pending:
                self.refuse(Fault(INVALID_REQUEST, "the id of a request that waits", own))
            else:
                self.requests.add(Request(own, method, params))
        else:
            self.guarded(method, own, lambda: self.answer(own, method, params))

    def note(self, method: str, params: Any) -> None:
        """Takes a notification."""
        if method in NOTIFICATIONS:
            NOTIFICATIONS[method](self, params)

    def answer(self, own: Any, method: str, params: Any) -> None:
        """Answers a request that waits for nothing; raises Fault."""
        result: Optional[Message] = None
        if self.is_shut:
            raise Fault(INVALID_REQUEST, "shut down")
        if method == "initialize":
            result = self.initialize(params)
        elif self.workspace is None:
            raise Fault(NOT_INITIALIZED, "not initialized")
        elif method == "shutdown":
            self.end()
        else:
            raise Fault(METHOD_NOT_FOUND, f"no method {method}")
        self.editor.send({"id": own, "result": result})

    def work(self, request: Request) -> None:
        """Answers a question. Raises Dropped where it has its answer."""
        assert self.workspace is not None
        answers = self.idle.pop() if self.idle else self.more()
        self.editor.texts.clear()

        def done() -> None:
            result = QUERIES[request.method](answers, request.params)
            self.requests.finish()
            self.editor.send({"id": request.own, "result": result})

        try:
            self.guarded(request.method, request.own, done)
        finally:
            self.idle.append(answers)

    def more(self) -> Answers:
        """What answers while others wait."""
        assert self.workspace is not None
        return Answers(self.editor, self.workspace.beside(), self.requests)

    def guarded(self, method: str, own: Any, done: Callable[[], None]) -> None:
        """Does what a message asks for; answers a request that can't be by an error. A notification
        has no answer."""
        try:
            try:
                done()
            except UnicodeEncodeError:
                raise Fault(INVALID_PARAMS, "half a surrogate pair") from None
            except (BrokenPipeError, Dropped, Fault):
                raise
            except Exception as fault:  # whatever it is, the editor needs the other answers
                text = f"{type(fault).__name__}: {' '.join(str(fault).split())}"
                self.editor.refuse(f"{method}: {text}", method, method, ERROR)
                raise Fault(INTERNAL_ERROR, text) from None
        except Fault as fault:
            self.requests.finish()
            if own is not None:
                fault.own = own
                self.refuse(fault)

    def end(self) -> None:
        """Answers what waits: nothing of it comes any more."""
        self.is_shut = True
        for own in list(self.requests.pending):
            self.cancelled(own, "shut down")

    def cancelled(self, own: Any, why: str) -> None:
        """Answers a request that waits, if it does."""
        if type(own) in (int, str) and self.requests.take(own):
            self.refuse(Fault(CANCELLED, why, own))

    def initialize(self, params: Any) -> Message:
        """Says what the bridge can do."""
        if self.workspace is not None:
            raise Fault(INVALID_REQUEST, "initialized before")
        if not isinstance(params, dict):
            raise Fault(INVALID_PARAMS, "no parameters")
        folders = params.get("workspaceFolders") or [{"uri": params.get("rootUri")}]
        uri = (
            folders[0].get("uri")
            if isinstance(folders, list) and isinstance(folders[0], dict)
            else None
        )
        root = (path_of(uri, []) if isinstance(uri, str) else None) or os.getcwd()
        root = os.path.normpath(root)
        given = self.given and self.given._replace(
            folder=root, maps=[*self.given.maps, *link_map(root)]
        )
        editor = self.editor
        editor.take(params.get("capabilities"))
        self.workspace = Workspace(
            *(root, given, editor.say, editor.today, self.is_by_name),
            tell=lambda fault: editor.refuse(fault, fault, fault),
            apart=partial(Apart, requests=self.requests),
        )
        offered = {"positionEncoding": editor.encoding, **CAPABILITIES}
        return {"capabilities": offered, "serverInfo": {"name": "codenav"}}

    def opened(self, params: Any) -> None:
        """Keeps the text of a document that was opened."""
        uri = member(params, "textDocument.uri", str)
        self.editor.open.put(uri, member(params, "textDocument.text", str))

    def changed(self, params: Any) -> None:
        """Keeps the text of a document that was changed; each change has the whole."""
        changes = member(params, "contentChanges", list)
        if changes:
            uri = member(params, "textDocument.uri", str)
            self.editor.open.put(uri, member(changes[-1], "text", str))

    def closed(self, params: Any) -> None:
        """Forgets a document that was closed."""
        self.editor.open.remove(member(params, "textDocument.uri", str))

    def cancel(self, params: Any) -> None:
        """Answers a request that the editor doesn't wait for any more."""
        self.cancelled(params.get("id") if isinstance(params, dict) else None, "cancelled")


NOTIFICATIONS: dict[str, Callable[[Bridge, Any], None]] = {
    "textDocument/didOpen": Bridge.opened,
    "textDocument/didChange": Bridge.changed,
    "textDocument/didClose": Bridge.closed,
    "$/cancelRequest": Bridge.cancel,
}


def serve(bridge: Bridge, inbox: Inbox) -> int:
    """Serves up to `exit` or the end of the input; answers 0 where the editor shut the server down
    before."""
    while True:
        fault: Optional[Fault] = None
        message: Optional[Message] = None
        try:
            message = inbox.next()
        except Fault as bad:
            fault = bad
        with bridge.requests.lock:
            if fault is not None:
                bridge.refuse(fault)
            elif message is None or is_exit(message):
                bridge.requests.pending.clear()
                return 0 if bridge.is_shut else 1
            else:
                bridge.take(message)
