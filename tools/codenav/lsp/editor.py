"""An editor: what it has open, how it counts, and what it was sent."""

import json
import os
import re
from typing import Any, BinaryIO, Callable, Optional, Sequence

from codenav.faults import NO_DOCUMENT, BadCall
from codenav.lsp.ctags import Entry
from codenav.lsp.jsonrpc import Message, write_message
from codenav.lsp.open_documents import OpenDocuments
from codenav.lsp.positions import UTF_16, Positions, encoding_of
from codenav.texts.decoded import Texts, body_of, is_read_as

ERROR, WARNING, INFO = 1, 2, 3
LOG, SHOW = "window/logMessage", "window/showMessage"
ADDRESS = re.compile(r": [a-z][a-z0-9+.-]*:\S*\Z")
"""The address that a refusal ends with of the document that was asked for."""


class Editor:
    """An editor. Its documents and what it's told are all requests' alike; `outlines` has the texts
    whose symbols were read last."""

    def __init__(self, out: BinaryIO, log: Callable[[str, bytes], None]) -> None:
        self.out, self.log = out, log
        self.open, self.texts = OpenDocuments(), Texts()
        self.encoding, self.is_nested = UTF_16, False
        self.here = ""
        self.edited: set[str] = set()
        self.refused: set[tuple[str, str]] = set()
        self.noted = {""}
        self.outlines: dict[str, tuple[str, list[Entry]]] = {}

    def take(self, capabilities: Any) -> None:
        """Takes what the editor says that it can do."""
        self.encoding = encoding_of(inside(capabilities, "general", "positionEncodings"))
        path = ("textDocument", "documentSymbol", "hierarchicalDocumentSymbolSupport")
        self.is_nested = inside(capabilities, *path) is True

    def send(self, message: Message) -> None:
        """Sends a message."""
        body = json.dumps({"jsonrpc": "2.0", **message}, separators=(",", ":")).encode()
        self.log("->", body)
        write_message(self.out, body)

    def tell(self, method: str, kind: int, text: str) -> None:
        """Sends a message for the user."""
        self.send({"method": method, "params": {"type": kind, "message": f"codenav: {text}"}})

    def say(self, text: str) -> None:
        """Writes a line to the editor's log."""
        self.tell(LOG, INFO, text)

    def note(self, text: str) -> None:
        """Shows how else something was found, once."""
        if text not in self.noted:
            self.noted.add(text)
            self.tell(SHOW, INFO, text)

    def refuse(self, text: str, uri: str, of: str, kind: int = WARNING) -> None:
        """Shows why nothing answers of a document, that's of a folder of settings: once for each
        cause, up to when there's an answer of that document, or of the folder."""
        is_own = f" {NO_DOCUMENT} " in text
        cause = (uri, text) if is_own else (of, ADDRESS.sub("", text))
        if cause not in self.refused:
            self.refused.add(cause)
            self.tell(SHOW, kind, text)

    def answered(self, uri: str, of: str) -> None:
        """Forgets what was shown of a document and of a folder, since both have answers."""
        self.refused = {cause for cause in self.refused if cause[0] not in (uri, of)}

    def today(self, path: str) -> str:
        """The text of a file as the editor has it. Raises BadCall where it can't be read."""
        document = self.open.find(path)
        return self.texts.text(path) if document is None else document.text

    def lines(self, name: str) -> Optional[Sequence[str]]:
        """The lines of a document as the editor has it; None where they can't be known."""
        document = self.open.find(name)
        if document is not None:
            return document.own.lines
        try:
            return self.texts.of(name).lines if os.path.isabs(name) else None
        except BadCall:
            return None

    def positions(self) -> Positions:
        """What converts the positions of an answer."""
        return Positions(self.encoding, self.lines)

    def compare(self, name: str, of: str, shown: str) -> None:
        """Says that the text in the editor isn't that of the file, and which one has the positions,
        or, where that's known, that it isn't the indexed one: once, up to when it's that again."""
        document, is_edited = self.open.find(name), bool(of)
        if document is not None and not of:
            try:
                is_edited = not is_read_as(body_of(name), document.text)
            except BadCall:
                is_edited = True
        if is_edited and name not in self.edited:
            uri = self.open.uri_of(name)
            self.say(
                f"{uri} changed since: answers are of {of}"
                if of
                else f"{uri} isn't as in its file: positions are those of {shown}"
            )
        (self.edited.add if is_edited else self.edited.discard)(name)


def inside(value: Any, *names: str) -> Any:
    """What names lead to in objects; None where that isn't there."""
    for name in names:
        value = value.get(name) if isinstance(value, dict) else None
    return value
