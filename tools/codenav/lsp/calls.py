"""Who calls whom: what refers to a symbol, by the symbols that this stands in, and what stands in a
symbol and is defined as one that can be called.

So each reference is taken for a call, also where a function is passed on or imported.
"""

import os
from itertools import islice
from typing import Any, Callable, Iterator, NamedTuple, Optional

from codenav.faults import BadCall
from codenav.lsp.editor import Editor
from codenav.lsp.jsonrpc import Message, member
from codenav.lsp.open_documents import document_name
from codenav.lsp.outline import Symbol, enclosing, flat, range_of
from codenav.lsp.outlines import Outlined
from codenav.lsp.positions import Range
from codenav.lsp.symbols import CALLED, FILE, FUNCTION
from codenav.texts.moved.tokens import Token, tokens_of
from codenav.texts.places import Place, units
from codenav.texts.today import NotThere, position_of

MOST_ITEMS, MOST_FILES, MOST_WORDS = 16, 200, 500
"""What a question may take: definitions, files of references, and words that are asked for."""


class Where(NamedTuple):
    """A place of an answer: its document, and its range in UTF-16 code units."""

    name: str
    span: Range


def where(found: dict[str, Any]) -> Where:
    """A place of an answer."""
    return Where(
        found["path"] or found["uri"], (position_of(found["start"]), position_of(found["end"]))
    )


def of_item(editor: Editor, params: Any) -> tuple[str, Place]:
    """The address and the place of the item that a question is about; raises Fault."""
    uri = member(params, "item.uri", str)
    line = member(params, "item.selectionRange.start.line", int)
    character = member(params, "item.selectionRange.start.character", int)
    name = document_name(uri)
    at = editor.positions().taken(name, (max(line, 0), max(character, 0)))
    return uri, Place(name, *at)


class Calls:
    """Answers about calls. `ask` asks the index at a place of a document."""

    def __init__(self, editor: Editor, outlined: Outlined, ask: Callable[..., Any]) -> None:
        self.editor, self.outlined, self.ask = editor, outlined, ask
        self.positions = editor.positions()

    def prepared(self, uri: str, at: Place) -> list[Message]:
        """What is defined of the word at a place."""
        found = [where(one) for one in self.ask("definition", uri, at) or []]
        places = list(dict.fromkeys(found))[:MOST_ITEMS]
        outlines = self.outlined.of({place.name for place in places})
        return [self.item(place, defined_at(outlines[place.name], place)) for place in places]

    def incoming(self, uri: str, at: Place) -> list[Message]:
        """What refers to the symbol at a place."""
        files: dict[str, list[Range]] = {}
        for one in self.ask("references", uri, at, declaration="no") or []:
            place = where(one)
            files.setdefault(place.name, []).append(place.span)
        if len(files) > MOST_FILES:
            self.editor.say(f"the calls of {MOST_FILES} of {len(files)} files are shown")
        files = dict(islice(files.items(), MOST_FILES))
        outlines, calls = self.outlined.of(files), list[Message]()
        for name, spans in files.items():
            inside = enclosing(outlines[name], (span[0][0] for span in spans))
            groups: dict[int, tuple[Optional[Symbol], list[Range]]] = {}
            for span in dict.fromkeys(spans):
                symbol = inside.get(span[0][0])
                groups.setdefault(id(symbol), (symbol, []))[1].append(span)
            calls += [
                {
                    "from": self.item_of(name, symbol),
                    "fromRanges": [self.positions.range(name, span) for span in own],
                }
                for symbol, own in groups.values()
            ]
        return calls

    def outgoing(self, uri: str, at: Place) -> list[Message]:
        """What the symbol at a place refers to that can be called."""
        name = at.name
        symbols = self.outlined.of([name])[name]
        start = (at.line, at.character)
        own = defined_at(symbols, Where(name, (start, start)))
        own = own or enclosing(symbols, [at.line]).get(at.line)
        if own is None:
            return []
        found: dict[Where, list[Range]] = {}
        are_calls = dict[Where, bool]()
        words = list(islice(self.words(name, own), MOST_WORDS + 1))
        if len(words) > MOST_WORDS:
            self.editor.say(f"the calls of the first {MOST_WORDS} words of {own.name} are shown")
        for word, is_call in words[:MOST_WORDS]:
            span = (word.line, word.start), (word.line, word.end)
            for target in self.defined(name, word):
                if target != Where(name, span):
                    found.setdefault(target, []).append(span)
                    are_calls[target] = are_calls.get(target, False) or is_call
        outlines, calls = self.outlined.of({target.name for target in found}), list[Message]()
        for target, spans in found.items():
            symbol = defined_at(outlines[target.name], target)
            if symbol.kind in CALLED if symbol else are_calls[target]:
                ranges = [self.positions.range(name, span) for span in spans]
                calls.append({"to": self.item(target, symbol), "fromRanges": ranges})
        return calls

    def words(self, name: str, own: Symbol) -> Iterator[tuple[Token, bool]]:
        """The words of a symbol but its name, and whether a bracket follows."""
        lines = self.editor.lines(name) or []
        for number in range(own.line, min(own.last + 1, len(lines))):
            tokens = tokens_of(lines[number], number)
            for at, token in enumerate(tokens):
                is_name = (number, token.start) == (own.line, own.start)
                if token.is_word and not token.text[0].isdigit() and not is_name:
                    yield token, tokens[at + 1 : at + 2] != [] and tokens[at + 1].text == "("

    def defined(self, name: str, word: Token) -> list[Where]:
        """Where a word of a document is defined; nowhere where nothing answers."""
        try:
            at = Place(name, word.line, word.start)
            return [where(one) for one in self.outlined.workspace.ask("definition", at).found]
        except (NotThere, BadCall):
            return []

    def item(self, place: Where, symbol: Optional[Symbol]) -> Message:
        """What is defined at a place, as the protocol has it."""
        if symbol is not None:
            return self.item_of(place.name, symbol)
        lines, (start, end) = self.positions.lines(place.name) or [], place.span
        line = lines[start[0]] if start[0] < len(lines) else ""
        body = line.encode("utf-16-le", "surrogatepass")[2 * start[1] : 2 * end[1]]
        text = body.decode("utf-16-le", "replace") if start[0] == end[0] else ""
        own = self.positions.range(place.name, place.span)
        return self.made(text, FUNCTION, place.name, own, own)

    def item_of(self, name: str, symbol: Optional[Symbol]) -> Message:
        """A symbol of a document, or the document itself, as the protocol has it."""
        lines = self.positions.lines(name) or [""]
        if symbol is None:
            whole = (0, 0), (len(lines) - 1, units(lines[-1]))
            spans = [self.positions.range(name, span) for span in (whole, ((0, 0), (0, 0)))]
            return self.made("", FILE, name, *spans)
        start = (symbol.line, symbol.start), (symbol.line, symbol.end)
        spans = [self.positions.range(name, span) for span in (range_of(symbol, lines), start)]
        return self.made(symbol.name, symbol.kind, name, *spans)

    def made(self, text: str, kind: int, name: str, whole: Message, own: Message) -> Message:
        """An item of a document."""
        return {
            "name": text.strip() or os.path.basename(name) or name,
            "kind": kind,
            "uri": self.editor.open.uri_of(name),
            "range": whole,
            "selectionRange": own,
        }


def defined_at(symbols: list[Symbol], place: Where) -> Optional[Symbol]:
    """The symbol whose name stands at a place."""
    start = place.span[0]
    return next((one for one in flat(symbols) if (one.line, one.start) == start), None)
