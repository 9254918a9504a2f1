"""The answers to an editor's questions, each by asking the index at a place of the text that the
editor has."""

import json
import os
from typing import Any, Callable, Optional

from codenav.asking.more import FOLDS, LINKS, MONIKERS, MORE, OF_DOCUMENTS, TYPES
from codenav.asking.project import HIGHLIGHT, Reply
from codenav.asking.workspace import Workspace
from codenav.faults import NO_DOCUMENT, BadCall
from codenav.lsp.calls import Calls, of_item
from codenav.lsp.editor import Editor
from codenav.lsp.jsonrpc import INVALID_PARAMS, Fault, Message, member
from codenav.lsp.open_documents import document_name
from codenav.lsp.outlines import Outlined
from codenav.lsp.side_by_side import Requests
from codenav.texts.places import Place
from codenav.texts.tagged import is_part
from codenav.texts.today import NotThere

MOST = 2147483647
MOST_PLACES = 10_000
QUIET = (HIGHLIGHT, *MORE)
"""What editors ask of their own, also in files that no index has, and what few indexes have."""


class Answers:
    """Answers one question at a time, of an editor that others may answer meanwhile."""

    def __init__(self, editor: Editor, workspace: Workspace, requests: Requests) -> None:
        self.editor, self.workspace = editor, workspace
        self.outlined = Outlined(editor, workspace, requests)

    def place(self, params: Any) -> tuple[str, Place]:
        """The address of the document and the place that a question is about; raises Fault."""
        uri = member(params, "textDocument.uri", str)
        line = member(params, "position.line", int)
        character = member(params, "position.character", int)
        if not (0 <= line <= MOST and 0 <= character <= MOST):
            raise Fault(INVALID_PARAMS, "no position")
        name = document_name(uri)
        at = self.editor.positions().taken(name, (line, character))
        self.editor.here = name
        return uri, Place(name, *at)

    def ask(self, what: str, params: Any, **more: str) -> Any:
        """What a query at a position found, or None; a refusal is shown once for each cause."""
        uri, at = self.place(params)
        return self.ask_at(what, uri, at, **more)

    def ask_at(self, what: str, uri: str, at: Place, **more: str) -> Any:
        """The same at a place. Right behind a word where nothing is, it's asked at the word."""
        of = self.folder(at.name)
        try:
            reply = self.replied(what, at, **more)
        except NotThere as fault:
            self.editor.say(str(fault))
            return None
        except BadCall as fault:
            if what not in QUIET or f" {NO_DOCUMENT} " not in str(fault):
                self.editor.refuse(str(fault), uri, of)
            return None
        shown = "the files on disk" if reply.note else "the indexed file"
        self.editor.compare(at.name, reply.of, shown)
        self.editor.note("" if what in QUIET else reply.note)
        if reply.why:
            self.editor.refuse(reply.why, uri, of)
        else:
            self.editor.answered(uri, of)
        return reply.found

    def folder(self, name: str) -> str:
        """The folder of the settings by which a document is asked for."""
        found = self.workspace.settings(name) if os.path.isabs(name) else self.workspace.given
        return found.folder if found else ""

    def replied(self, what: str, at: Place, **more: str) -> Reply:
        """A reply at a place, or at the word that ends there. Raises NotThere, and BadCall."""
        try:
            reply = self.workspace.ask(what, at, **more)
            if reply.found or what in OF_DOCUMENTS or not self.is_behind_word(at):
                return reply
        except NotThere:
            if not self.is_behind_word(at):
                raise
        return self.workspace.ask(what, at._replace(character=at.character - 1), **more)

    def is_behind_word(self, at: Place) -> bool:
        """Whether a word ends at a place."""
        line = (self.editor.lines(at.name) or [])[at.line : at.line + 1]
        body = line[0].encode("utf-16-le", "surrogatepass") if line else b""
        around = [
            body[2 * one : 2 * one + 2].decode("utf-16-le", "replace")
            for one in (at.character - 1, at.character)
            if one >= 0
        ]
        return len(around) == 2 and is_part(around[0] or " ") and not is_part(around[1] or " ")

    def locations(self, what: str, params: Any, **more: str) -> list[Message]:
        """The places that a query at a position found, one that several projects have once."""
        found = self.ask(what, params, **more) or []
        places = {
            (one["path"] or one["uri"], *map(ends, (one["start"], one["end"]))): None
            for one in found
        }
        if len(places) > MOST_PLACES:
            self.editor.say(f"{MOST_PLACES} of {len(places)} places are shown")
        positions, uris = self.editor.positions(), dict[str, str]()
        locations = []
        for name, *span in list(places)[:MOST_PLACES]:
            if name not in uris:
                uris[name] = self.editor.open.uri_of(name)
            own = {"uri": uris[name], "range": positions.range(name, (span[0], span[1]))}
            locations.append(own)
        return list({json.dumps(own): own for own in locations}.values())

    def references(self, params: Any) -> list[Message]:
        """Where it's used."""
        declaration = "yes" if member(params, "context.includeDeclaration", bool) else "no"
        return self.locations("references", params, declaration=declaration)

    def highlights(self, params: Any) -> list[Message]:
        """Where it's used in the same document."""
        return [{"range": one["range"]} for one in self.locations(HIGHLIGHT, params)]

    def hover(self, params: Any) -> Optional[Message]:
        """What is said of it."""
        contents = self.ask("hover", params)
        return None if contents is None else {"contents": contents}

    def monikers(self, params: Any) -> Optional[list[Message]]:
        """By what names other projects know it."""
        return self.ask(MONIKERS, params) or None

    def folds(self, params: Any) -> list[Message]:
        """What can be folded in a document."""
        positions, folds = self.editor.positions(), list[Message]()
        for name, one in self.of_document(FOLDS, params):
            own = {"kind": one["own"]["kind"]} if type(one["own"].get("kind")) is str else {}
            for end in "start", "end":
                line, character = positions.sent(name, ends(one[end]))
                own[f"{end}Line"] = line
                own.update(
                    {f"{end}Character": character} if f"{end}Character" in one["own"] else {}
                )
            folds.append(own)
        return folds

    def links(self, params: Any) -> list[Message]:
        """The links of a document."""
        positions, links = self.editor.positions(), list[Message]()
        for name, one in self.of_document(LINKS, params):
            own = {"range": positions.range(name, (ends(one["start"]), ends(one["end"])))}
            texts = {what: one["own"].get(what) for what in ("target", "tooltip")}
            links.append(
                {**own, **{what: text for what, text in texts.items() if type(text) is str}}
            )
        return links

    def of_document(self, what: str, params: Any) -> list[tuple[str, Any]]:
        """The places in a document that more is kept of, each with its name."""
        uri = member(params, "textDocument.uri", str)
        name = document_name(uri)
        found = self.ask_at(what, uri, Place(name, 0, 0)) or []
        return [(name, one) for one in found[:MOST_PLACES]]

    def outline(self, params: Any) -> list[Message]:
        """The symbols of a document."""
        uri = member(params, "textDocument.uri", str)
        self.editor.here = document_name(uri)
        return self.outlined.document(uri)

    def symbols(self, params: Any) -> list[Message]:
        """The symbols whose names have a text."""
        return self.outlined.found(member(params, "query", str))

    def calls(self) -> Calls:
        """What answers about calls."""
        return Calls(self.editor, self.outlined, self.ask_at)

    def prepare_calls(self, params: Any) -> Optional[list[Message]]:
        """What is defined of a word, of which calls are asked for."""
        uri, at = self.place(params)
        return self.calls().prepared(uri, at) or None

    def incoming(self, params: Any) -> list[Message]:
        """What calls it."""
        return self.calls().incoming(*of_item(self.editor, params))

    def outgoing(self, params: Any) -> list[Message]:
        """What it calls."""
        return self.calls().outgoing(*of_item(self.editor, params))


def ends(position: dict[str, int]) -> tuple[int, int]:
    """A position of an answer."""
    return position["line"], position["character"]


def locations_of(what: str) -> Callable[[Answers, Any], Any]:
    """What answers a query by places."""
    return lambda answers, params: answers.locations(what, params)


QUERIES: dict[str, Callable[[Answers, Any], Any]] = {
    "textDocument/definition": locations_of("definition"),
    "textDocument/declaration": locations_of("declaration"),
    "textDocument/implementation": locations_of("implementation"),
    "textDocument/references": Answers.references,
    "textDocument/documentHighlight": Answers.highlights,
    "textDocument/typeDefinition": locations_of(TYPES),
    "textDocument/moniker": Answers.monikers,
    "textDocument/foldingRange": Answers.folds,
    "textDocument/documentLink": Answers.links,
    "textDocument/hover": Answers.hover,
    "textDocument/documentSymbol": Answers.outline,
    "workspace/symbol": Answers.symbols,
    "textDocument/prepareCallHierarchy": Answers.prepare_calls,
    "callHierarchy/incomingCalls": Answers.incoming,
    "callHierarchy/outgoingCalls": Answers.outgoing,
}
