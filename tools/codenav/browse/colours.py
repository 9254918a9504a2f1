"""The colours of a text: which parts of its lines are keywords, strings and so on, by Pygments,
where it's installed (Debian's python3-pygments).

A line is a list of numbers, three for each part that has a colour: how many characters lie before
it, how long it is, both in UTF-16 code units, and the number of its kind in KINDS.
"""

import os
import time
from functools import cache
from itertools import islice
from typing import Any, Iterator, Optional

from codenav.texts.places import units

try:
    from pygments import lexers
    from pygments import token as tokens
    from pygments.util import ClassNotFound
except ImportError:
    lexers = None  # type: ignore[assignment]

DATA = {"Text only", "Markdown", "JSON", "TOML", "YAML", "XML", "INI", "Diff", "reStructuredText"}
KINDS = ["comment", "keyword", "string", "number", "function", "type", "meta"]
MOST_CHARACTERS, MOST_LINE, MOST_PARTS = 3_000_000, 5_000, 400_000
SECONDS = 15.0
MISSING = "no colours: python3-pygments isn't installed"


TOKENS: dict[str, list[str]] = {
    "meta": [
        "Comment.Preproc",
        "Comment.PreprocFile",
        "Name.Decorator",
        "Name.Attribute",
        "Name.Builtin",
    ],
    "comment": ["Comment", "Literal.String.Doc"],
    "keyword": ["Keyword", "Operator.Word"],
    "string": ["Literal.String", "Literal.Date"],
    "number": ["Literal.Number"],
    "function": ["Name.Function", "Generic.Heading"],
    "type": ["Name.Class", "Name.Exception", "Name.Tag", "Generic.Subheading"],
}
"""The kinds of Pygments's tokens, the first that has a token counts."""


@cache
def kind_of(token: Any) -> int:
    """The number of a token's kind, or -1."""
    for kind, names in TOKENS.items():
        if any(token in tokens.string_to_tokentype(name) for name in names):  # type: ignore[no-untyped-call]
            return KINDS.index(kind)
    return -1


def lexer_of(name: str, language: str = "") -> Optional[Any]:
    """The lexer of a file's name, or of a language as Markdown names it; None where there is
    none."""
    if lexers is None:
        return None
    try:
        if language:
            return lexers.get_lexer_by_name(language, stripnl=False, ensurenl=False)
        return lexers.get_lexer_for_filename(name, stripnl=False, ensurenl=False)
    except ClassNotFound:
        return None


def coloured(lexer: Any, text: str) -> Iterator[list[int]]:
    """The colours of one line after the other; none of a long line, nor of what comes behind many
    parts or some seconds."""
    kept = "\n".join(line if len(line) <= MOST_LINE else "" for line in text.split("\n"))
    line: list[int] = []
    before = 0
    end = time.monotonic() + SECONDS
    for token, part in islice(lexer.get_tokens(kept), MOST_PARTS):
        kind = kind_of(token)
        pieces = part.split("\n")
        for number, piece in enumerate(pieces):
            if number:
                yield line
                line, before = [], 0
            length = len(piece) if piece.isascii() else units(piece)
            if kind >= 0 and length:
                line += [before, length, kind]
                before = 0
            else:
                before += length
        if time.monotonic() > end:
            break
    yield line


@cache
def language_by(ending: str) -> str:
    """The language of files whose names end so; nothing of data and of plain texts."""
    lexer = lexer_of(f"x{ending}")
    name = str(lexer.name) if lexer is not None else ""
    return "" if name in DATA else name


def language_of(name: str) -> str:
    """The language of a file by the end of its name; nothing where it's none."""
    ending = os.path.splitext(name)[1].lower()
    return language_by(ending) if ending and len(ending) < 12 else ""
