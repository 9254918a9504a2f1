"""How lines lie: which stand inside which, by their indentation, and which are comments."""

import re
from bisect import bisect_left, bisect_right
from typing import Container, Sequence

COMMENT = re.compile(r"\s*(//|#(?!\[|!|include|define|if|el|end|pragma|undef|\w)|--|/\*|<!--|;;)")
WORD = re.compile(r"\w+")
BRACKETS, STATEMENT_END = "()[]{}", ";"
TAB = 4
SEEN = 200
"""How many characters of a line are searched for a word."""


def is_comment(line: str) -> bool:
    """Whether a line begins as a comment does in one of the usual languages."""
    return COMMENT.match(line) is not None


def words_in(line: str) -> int:
    """How many words a line has."""
    return len(WORD.findall(line))


def indentation(line: str) -> int:
    """The columns before the first character that is no white space."""
    return len(line[: len(line) - len(line.lstrip())].expandtabs(TAB))


def is_head(bare: str) -> bool:
    """Whether a line without its indentation may head others: it has a word, begins with no bracket
    and ends no statement."""
    return (
        bare[0] not in BRACKETS
        and not bare.rstrip().endswith(STATEMENT_END)
        and WORD.search(bare[:SEEN]) is not None
    )


def enclosing(lines: Sequence[str], known: Container[int]) -> list[int]:
    """Of each line the last of the known heads above it that is less indented, or -1; of a bracket
    that begins a line the one that is no deeper.

    Heads that are as deep as a line end there, unless it's no head: a bracket closes or opens for
    one, a statement stands in its midst.
    """
    found: list[int] = []
    depths: list[int] = []
    heads: list[int] = []
    for at, line in enumerate(lines):
        bare = line.lstrip()
        if not bare:
            found.append(heads[-1] if heads else -1)
            continue
        depth = indentation(line)
        outer, inner = bisect_left(depths, depth), bisect_right(depths, depth)
        own = inner if bare[0] in BRACKETS else outer
        found.append(heads[own - 1] if own else -1)
        if at in known and is_head(bare):
            depths[outer:], heads[outer:] = [depth], [at]
        elif at in known:
            del depths[inner:], heads[inner:]
    return found


def chain(above: Sequence[int], line: int) -> set[int]:
    """The lines that a line stands inside, all the way up."""
    found = set()
    while (line := above[line]) >= 0:
        found.add(line)
    return found
