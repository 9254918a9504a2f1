"""The symbols of a document, each with those inside it.

What a symbol is in is what ctags says, and where it ends too, or where ctags doesn't, the layout of
the text.
"""

from bisect import bisect_right
from collections import deque
from dataclasses import dataclass, field
from itertools import product
from typing import Iterable, Iterator, Optional, Sequence

from codenav.asking.outlines import ends_of
from codenav.asking.tags import columns
from codenav.lsp.ctags import Entry
from codenav.lsp.symbols import CALLED, kind_of
from codenav.texts.places import units
from codenav.texts.tagged import MADE_UP

SEPARATORS = ("::", ".", "/", "\\", ":", "->", '""')
"""What ctags writes between the names of a symbol and of what it's in, by languages."""
MOST_DEPTH = 50
MOST = 10_000


@dataclass
class Symbol:
    """A symbol: its name, its kind as the protocol has it, the first line and the last one, where
    the name is on the first, in UTF-16 code units, and what is inside it, in order."""

    name: str
    kind: int
    line: int
    start: int
    end: int
    last: int
    detail: str = ""
    container: str = ""
    inside: list["Symbol"] = field(default_factory=list)


def outline_of(entries: Sequence[Entry], lines: list[str]) -> list[Symbol]:
    """The symbols of a text that are in no other, in the order of their lines."""
    entries = sorted((one for one in entries if one.line < len(lines)), key=lambda one: one.line)
    places = {
        number: (start, end)
        for number, start, end in columns(
            lines,
            {number: one.line for number, one in enumerate(entries)},
            {number: {"name": one.name} for number, one in enumerate(entries)},
        )
    }
    ends = ends_of(lines, [one.line for one in entries])
    symbols = [
        Symbol(
            f"({one.kind})" if is_made_up(one.name, *places[number]) else one.name,
            kind_of(one.kind, one.language),
            one.line,
            *places[number],
            min(max(ends[number] if one.last is None else one.last, one.line), len(lines) - 1),
            one.detail,
            one.scope,
        )
        for number, one in enumerate(entries)
    ]
    above, depths, outermost = parents(entries), dict[int, int](), list[Symbol]()
    for number in outer_first(entries):
        parent = above[number]
        if parent is not None and depths[parent] == MOST_DEPTH:
            parent = above[number] = above[parent]
        depths[number] = 0 if parent is None else depths[parent] + 1
    for number in sorted(depths, key=lambda one: depths[one], reverse=True):
        if (parent := above[number]) is not None:
            symbols[parent].last = max(symbols[parent].last, symbols[number].last)
    for number, symbol in enumerate(symbols):
        parent = above[number]
        (outermost if parent is None else symbols[parent].inside).append(symbol)
    return outermost


def is_made_up(name: str, start: int, end: int) -> bool:
    """Whether ctags made a name of what has none: the text doesn't have it."""
    return start == end and MADE_UP.match(name) is not None


def outer_first(entries: Sequence[Entry]) -> list[int]:
    """The numbers of symbols, of which none stands before one that it's in."""
    return sorted(range(len(entries)), key=lambda one: len(entries[one].scope))


def parents(entries: Sequence[Entry]) -> list[Optional[int]]:
    """Of each of some symbols, in the order of their lines, which of them it's in: the last one of
    that name and kind, or of whatever kind where none is said, that begins before it, or where that
    ends before it what that is in; None where there is none."""
    wanted = {(one.scope_kind, one.scope) for one in entries if one.scope}
    kinds = {kind for kind, _ in wanted}
    known: dict[tuple[str, str], list[int]] = {}
    for number, one in enumerate(entries):
        names = [f"{one.scope}{sign}{one.name}" for sign in SEPARATORS] if one.scope else [one.name]
        for key in product({one.kind, ""} & kinds, names):
            if key in wanted:
                known.setdefault(key, []).append(number)
    found: list[Optional[int]] = [None] * len(entries)
    for number in outer_first(entries):
        one = entries[number]
        having = known.get((one.scope_kind, one.scope), []) if one.scope else []
        at = bisect_right(having, one.line, key=lambda own: entries[own].line) - 1
        parent = having[at] if at >= 0 else None
        while parent is not None and ends_before(entries[parent], one.line):
            parent = found[parent]
        found[number] = parent
    return found


def ends_before(entry: Entry, line: int) -> bool:
    """Whether a symbol is known to end before a line."""
    return entry.last is not None and entry.last < line


def flat(symbols: Sequence[Symbol]) -> Iterator[Symbol]:
    """Symbols, each before those inside it."""
    todo = list(reversed(symbols))
    while todo:
        one = todo.pop()
        yield one
        todo += reversed(one.inside)


def cut(symbols: list[Symbol], most: int = MOST) -> int:
    """Leaves so many symbols, the outer ones before those inside them; answers how many there
    were."""
    count, level, left = 0, [symbols], most
    while level:
        behind = []
        for own in level:
            count += len(own)
            behind += [one.inside for one in own if one.inside]
            del own[max(left, 0) :]
            left -= len(own)
        level = behind
    return count


def enclosing(symbols: Sequence[Symbol], wanted: Iterable[int]) -> dict[int, Symbol]:
    """Of lines the innermost symbol that can be called and that a line is in; without one the
    innermost that it's in at all."""
    found, every = dict[int, Symbol](), sorted(flat(symbols), key=lambda one: one.line)
    for own in (every, [one for one in every if one.kind in CALLED]):
        due, stack = deque(own), list[Symbol]()
        for line in sorted(set(wanted)):
            while due and due[0].line <= line:
                stack.append(due.popleft())
            while stack and stack[-1].last < line:
                stack.pop()
            if stack:
                found[line] = stack[-1]
    return found


def range_of(symbol: Symbol, lines: Sequence[str]) -> tuple[tuple[int, int], tuple[int, int]]:
    """Where a symbol begins and ends, in UTF-16 code units."""
    return (symbol.line, 0), (symbol.last, units(lines[symbol.last]))
