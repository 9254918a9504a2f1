"""Hovers as a tree of a few kinds of nodes, which the page makes its elements of: nothing that
comes from the index is ever read as HTML.

Markdown is read by markdown-it (Debian's python3-markdown-it), with HTML in it as text; without
that module a hover is plain text. A node is a text, or a list: the name of an element, its
attributes (`href` alone), and its nodes. Code has colours, as pairs of a kind and a text.
"""

from typing import Any, Optional, Union
from urllib.parse import urlsplit

from codenav.browse.colours import KINDS, coloured, lexer_of

try:
    import markdown_it
except ImportError:
    markdown_it = None  # type: ignore[assignment]

Node = Union[str, list[Any]]
MOST_CHARACTERS = 20_000
MOST_DEPTH = 20
ELEMENTS = {
    *("p", "h1", "h2", "h3", "h4", "h5", "h6", "ul", "ol", "li", "blockquote", "em", "strong", "s"),
    *("table", "thead", "tbody", "tr", "th", "td", "hr", "br", "a"),
}


def tree_of(contents: Any) -> list[Node]:
    """The nodes of hover contents: a text in Markdown, `MarkedString`s, or `MarkupContent` (LSP
    3.17)."""
    if isinstance(contents, list):
        return [node for part in contents for node in tree_of(part)]
    if isinstance(contents, str):
        return markdown(contents)
    text = contents["value"]
    if "language" in contents:
        return [code(text, contents["language"])]
    return (
        markdown(text)
        if contents.get("kind") == "markdown"
        else [["pre", {}, [text[:MOST_CHARACTERS]]]]
    )


def markdown(text: str) -> list[Node]:
    """The nodes of a text in Markdown."""
    text = text[:MOST_CHARACTERS].strip("\n")
    if markdown_it is None:
        return [["pre", {}, [text]]] if text else []
    reader = markdown_it.MarkdownIt("commonmark", {"html": False, "maxNesting": MOST_DEPTH}).enable(
        "table"
    )
    return nodes_of(reader.parse(text))


def nodes_of(tokens: list[Any]) -> list[Node]:
    """The nodes of the tokens that markdown-it makes, which open and close elements."""
    top: list[Node] = []
    open_nodes = [top]
    for token in tokens:
        inner = open_nodes[-1]
        if token.type in ("fence", "code_block"):
            inner.append(code(token.content, token.info.strip().split(" ")[0].split(",")[0]))
        elif token.type == "inline":
            inner += nodes_of(token.children or [])
        elif token.type == "code_inline":
            inner.append(["code", {}, [token.content]])
        elif token.type == "softbreak":
            inner.append("\n")
        elif token.nesting == 1:
            node: list[Any] = [token.tag if token.tag in ELEMENTS else "span", links(token), []]
            inner.append(node)
            open_nodes.append(node[2])
        elif token.nesting == -1:
            open_nodes.pop()
        elif token.tag in ("hr", "br"):
            inner.append([token.tag, {}, []])
        elif token.content:
            inner.append(token.content)
    return top


def links(token: Any) -> dict[str, str]:
    """Where a link leads, if to a web page; any other leads nowhere."""
    address = token.attrGet("href") if token.tag == "a" else None
    return {"href": address} if address and is_web(address) else {}


def is_web(address: str) -> bool:
    """Whether an address is that of a web page."""
    try:
        return urlsplit(address).scheme in ("http", "https")
    except ValueError:
        return False


def code(text: str, language: str) -> Node:
    """A block of code in the colours of its language."""
    text = text[:MOST_CHARACTERS].strip("\n")
    lexer = lexer_of("", language) if language else None
    parts = parts_of(lexer, text) if lexer else [text]
    return ["pre", {}, [["code", {}, parts]]]


def parts_of(lexer: Optional[Any], text: str) -> list[Node]:
    """A text as the parts that have a colour, each an element whose class is the kind, and those
    that have none."""
    parts: list[Node] = []
    lines = text.split("\n")
    for number, (line, colours) in enumerate(zip(lines, coloured(lexer, text))):
        wide, at = line.encode("utf-16-le", "surrogatepass"), 0
        for before, length, kind in zip(colours[::3], colours[1::3], colours[2::3]):
            start = at + before
            end = start + length
            parts += [
                piece(wide, at, start),
                ["span", {"class": KINDS[kind]}, [piece(wide, start, end)]],
            ]
            at = end
        parts += [piece(wide, at, len(wide) // 2), "\n" * (number + 1 < len(lines))]
    return [part for part in parts if part]


def piece(wide: bytes, start: int, end: int) -> str:
    """A part of a text, by UTF-16 code units."""
    return wide[2 * start : 2 * end].decode("utf-16-le", "surrogatepass")
