"""What the Language Server Protocol 3.17 says of the messages that a language server sends: the
members of each, which of them have to be there, and of what kind each is. A client that takes
nothing else checks them."""

import re
from typing import Any, Callable, NamedTuple, Union

Shape = Union["Members", "Each", "Any_", Callable[[Any], bool]]
ENCODINGS = ("utf-8", "utf-16", "utf-32")
MOST = 2147483647


class Members(NamedTuple):
    """An object with these members, and of those that may be there."""

    needed: dict[str, Any]
    may: dict[str, Any] = {}


class Each(NamedTuple):
    """An array whose values are of a shape."""

    shape: Any


class Any_(NamedTuple):
    """A value of one of some shapes."""

    shapes: tuple[Any, ...]


def uinteger(value: Any) -> bool:
    """An unsigned integer."""
    return type(value) is int and 0 <= value <= MOST


def text(value: Any) -> bool:
    """A text."""
    return type(value) is str


def seen_text(value: Any) -> bool:
    """A text with more than white space, which is shown."""
    return type(value) is str and value.strip() != ""


def uri(value: Any) -> bool:
    """An address with a scheme."""
    return type(value) is str and re.match(r"[A-Za-z][A-Za-z0-9+.-]*:\S*\Z", value) is not None


def null(value: Any) -> bool:
    """Nothing."""
    return value is None


def truth(value: Any) -> bool:
    """A boolean."""
    return type(value) is bool


def one_of(*values: Any) -> Callable[[Any], bool]:
    """What is one of some values."""
    return lambda value: value in values and type(value) is not bool


def number_to(most: int) -> Callable[[Any], bool]:
    """A number of an enumeration, from 1."""
    return lambda value: type(value) is int and 1 <= value <= most


POSITION = Members({"line": uinteger, "character": uinteger})
RANGE = Members({"start": POSITION, "end": POSITION})
LOCATION = Members({"uri": uri, "range": RANGE})
LOCATIONS = Each(LOCATION)
SYMBOL_KIND = number_to(26)
MARKED = Any_((text, Members({"language": text, "value": text})))
MARKUP = Members({"kind": one_of("plaintext", "markdown"), "value": text})
HOVER = Any_((null, Members({"contents": Any_((MARKED, MARKUP, Each(MARKED)))}, {"range": RANGE})))
DOCUMENT_SYMBOL = Members(
    {"name": seen_text, "kind": SYMBOL_KIND, "range": RANGE, "selectionRange": RANGE},
    {"detail": text},
)
DOCUMENT_SYMBOL.may["children"] = Each(DOCUMENT_SYMBOL)
SYMBOL = Members({"name": text, "kind": SYMBOL_KIND, "location": LOCATION}, {"containerName": text})
ITEM = Members(
    {"name": text, "kind": SYMBOL_KIND, "uri": uri, "range": RANGE, "selectionRange": RANGE},
    {"detail": text},
)
MONIKER = Members(
    {
        "scheme": text,
        "identifier": text,
        "unique": one_of("document", "project", "group", "scheme", "global"),
    },
    {"kind": one_of("import", "export", "local")},
)
FOLD = Members(
    {"startLine": uinteger, "endLine": uinteger},
    {"startCharacter": uinteger, "endCharacter": uinteger, "kind": text, "collapsedText": text},
)
LINK = Members({"range": RANGE}, {"target": uri, "tooltip": text})
INITIALIZED = Members(
    {
        "capabilities": Members(
            {
                "positionEncoding": one_of(*ENCODINGS),
                "textDocumentSync": Members({"openClose": truth, "change": number_to(2)}),
            },
            {
                **{
                    f"{name}Provider": truth
                    for name in (
                        "definition declaration implementation typeDefinition references hover "
                        "documentHighlight documentSymbol workspaceSymbol callHierarchy moniker "
                        "foldingRange"
                    ).split()
                },
                "documentLinkProvider": Members({}, {"resolveProvider": truth}),
            },
        ),
        "serverInfo": Members({"name": text}, {"version": text}),
    }
)
RESULTS: dict[str, Any] = {
    "initialize": INITIALIZED,
    "shutdown": null,
    "textDocument/definition": LOCATIONS,
    "textDocument/declaration": LOCATIONS,
    "textDocument/implementation": LOCATIONS,
    "textDocument/typeDefinition": LOCATIONS,
    "textDocument/references": LOCATIONS,
    "textDocument/hover": HOVER,
    "textDocument/documentHighlight": Each(Members({"range": RANGE}, {"kind": number_to(3)})),
    "textDocument/documentSymbol": Any_((Each(DOCUMENT_SYMBOL), Each(SYMBOL))),
    "textDocument/moniker": Any_((null, Each(MONIKER))),
    "textDocument/foldingRange": Any_((null, Each(FOLD))),
    "textDocument/documentLink": Any_((null, Each(LINK))),
    "textDocument/prepareCallHierarchy": Any_((null, Each(ITEM))),
    "workspace/symbol": Each(SYMBOL),
    "callHierarchy/incomingCalls": Each(Members({"from": ITEM, "fromRanges": Each(RANGE)})),
    "callHierarchy/outgoingCalls": Each(Members({"to": ITEM, "fromRanges": Each(RANGE)})),
}
ERROR = Members({"code": lambda value: type(value) is int, "message": text})
TOLD = Members({"type": number_to(4), "message": text})


def fault_in(value: Any, shape: Any, at: str = "") -> str:
    """What of a value isn't of a shape, with the way to it; nothing where all is."""
    if isinstance(shape, Members):
        if type(value) is not dict or not shape.needed.keys() <= value.keys():
            return f"{at}: {value!r:.80} has not all of {list(shape.needed)}"
        allowed = {**shape.needed, **shape.may}
        found = (
            fault_in(own, allowed[name], f"{at}.{name}") if name in allowed else f"{at}.{name}"
            for name, own in value.items()
        )
        return next(filter(None, found), "") or order_fault(value, shape, at)
    if isinstance(shape, Each):
        if type(value) is not list:
            return f"{at}: {value!r:.80} is no array"
        own = (fault_in(one, shape.shape, f"{at}[{number}]") for number, one in enumerate(value))
        return next(filter(None, own), "")
    if isinstance(shape, Any_):
        faults = [fault_in(value, one, at) for one in shape.shapes]
        return "" if "" in faults else faults[-1]
    return "" if shape(value) else f"{at}: {value!r:.80}"


def order_fault(value: Any, shape: Any, at: str) -> str:
    """What of an object's ranges isn't as the protocol wants it: an end isn't before its start, and
    what is selected of a symbol lies in it."""
    if shape is RANGE and ends(value)[0] > ends(value)[1]:
        return f"{at}: ends before it starts"
    if "selectionRange" in value:
        (start, end), (first, last) = ends(value["range"]), ends(value["selectionRange"])
        if not start <= first <= last <= end:
            return f"{at}.selectionRange: not in the range"
    return ""


def ends(span: Any) -> list[tuple[int, int]]:
    """The ends of a range."""
    return [(span[one]["line"], span[one]["character"]) for one in ("start", "end")]


def ranges_in(value: Any) -> list[Any]:
    """All ranges that a value has, at whatever depth."""
    if isinstance(value, list):
        return [one for own in value for one in ranges_in(own)]
    if not isinstance(value, dict):
        return []
    own = [value] if value.keys() == RANGE.needed.keys() else []
    return own + [one for inner in value.values() for one in ranges_in(inner)]
