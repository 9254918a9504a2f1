"""Words and signs of lines, and where they stand in UTF-16 code units."""

import re
from bisect import bisect_right
from dataclasses import dataclass
from typing import Optional, Sequence

from codenav.texts.places import units

TOKEN = re.compile(r"\w+|[^\w\s]")


@dataclass(frozen=True)
class Token:
    """A word or a sign, its line from 0, and where it starts and ends there."""

    text: str
    line: int
    start: int
    end: int

    @property
    def is_word(self) -> bool:
        """Whether it's a word or a number, and no sign."""
        return self.text[0] == "_" or self.text[0].isalnum()


def tokens_of(text: str, line: int) -> list[Token]:
    """The tokens of a line."""
    if text.isascii():
        return [Token(found[0], line, found.start(), found.end()) for found in TOKEN.finditer(text)]
    tokens: list[Token] = []
    after = column = 0
    for found in TOKEN.finditer(text):
        start = column + units(text[after : found.start()])
        after, column = found.end(), start + units(found[0])
        tokens.append(Token(found[0], line, start, column))
    return tokens


def token_at(tokens: Sequence[Token], character: int) -> Optional[int]:
    """Which token a character is in: the word that begins, covers or ends there, else the sign that
    begins there."""
    index = bisect_right(tokens, character, key=lambda token: token.start) - 1
    if index < 0:
        return None
    token, before = tokens[index], tokens[index - 1] if index else None
    if token.is_word and character <= token.end:
        return index
    if before and before.is_word and before.end == character:
        return index - 1
    return index if character < token.end else None
