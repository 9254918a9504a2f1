"""Lines that moved: what stands once in both texts and in another order, where most of what it
heads went along."""

from bisect import bisect_left
from collections import Counter
from typing import Container, Iterable

from codenav.texts.moved.layout import words_in
from codenav.texts.moved.matching import Pair
from codenav.texts.moved.sides import Side

NEAR = 20
"""How many matched lines lie between the old place of a single line that moved, and the new one."""
SHARE = 0.7
"""Of a function that moved, or that another one moved over, so many of the lines have to be there:
else what is left may be a new function's."""


class Moves:
    """What moved between two texts, and the lines in place that it moved over.

    Where two functions changed their order, nobody knows which of them moved: so the lines between
    are looked at as those that moved are.
    """

    def __init__(self, old: Side, new: Side, once: set[str], in_place: list[Pair]) -> None:
        self.old, self.new, self.once = old, new, once
        self.in_place = in_place
        self.olds, self.news = [x for x, _ in in_place], [y for _, y in in_place]
        self.moved = self.candidates()
        self.crossed = self.passed() if self.moved else set()

    def candidates(self) -> list[Pair]:
        """What is unique in both texts and not in place, with the equal lines beside it, below
        heads of the same text.

        Two unique lines of two words each, or one over a short way, as imports that were sorted
        anew.
        """
        places = {
            key: at
            for at, key in enumerate(self.new.keys)
            if key in self.once and self.new.is_free(at)
        }
        found: list[Pair] = []
        seen: set[int] = set()
        for x, key in enumerate(self.old.keys):
            if x in seen or not self.old.is_free(x) or key not in places:
                continue
            block = self.block_at(x, places[key])
            seen.update(line for line, _ in block)
            least = 1 if self.way(x, places[key]) <= NEAR else 2
            if self.unique_lines(block) >= least and self.keep_heads(block):
                found += block
        return found

    def way(self, x: int, y: int) -> int:
        """Over how many lines in place a line moved."""
        return abs(bisect_left(self.olds, x) - bisect_left(self.news, y))

    def unique_lines(self, block: Iterable[Pair]) -> int:
        """How many lines of two words or more are unique in both texts."""
        keys, lines = self.old.keys, self.old.lines
        return sum(1 for x, _ in block if keys[x] in self.once and words_in(lines[x]) >= 2)

    def keep_heads(self, block: Iterable[Pair]) -> bool:
        """Whether lines stand below the same heads as before: else they may be a copy, or what was
        moved into another function."""
        return all(self.old.head_key(x) == self.new.head_key(y) for x, y in block)

    def block_at(self, x: int, y: int) -> list[Pair]:
        """A pair of lines that aren't matched, with the equal ones beside it."""
        block = [(x, y)]
        for step in (-1, 1):
            p, q = x + step, y + step
            while (
                0 <= p < len(self.old.keys)
                and 0 <= q < len(self.new.keys)
                and self.old.keys[p] == self.new.keys[q]
                and self.old.is_free(p)
                and self.new.is_free(q)
            ):
                block.append((p, q))
                p, q = p + step, q + step
        return block

    def passed(self) -> set[Pair]:
        """The pairs in place that a moved one was before in one text and is behind in the other."""
        changes = Counter[int]()
        for x, y in self.moved:
            first, last = sorted((bisect_left(self.olds, x), bisect_left(self.news, y)))
            changes[first] += 1
            changes[last] -= 1
        found: set[Pair] = set()
        over = 0
        for at, pair in enumerate(self.in_place):
            over += changes[at]
            if over:
                found.add(pair)
        return found

    def doubtful(self) -> set[Pair]:
        """The pairs, moved or moved over, of functions of which too little is there; and what moved
        without its head."""
        pairs = {*self.moved, *self.crossed}
        whole = self.whole({x for x, _ in pairs}) if pairs else set()
        known = {x: y for x, y in self.in_place if x in whole or (x, y) not in pairs}
        for x, y in sorted(self.moved):
            head = self.old.head(x)
            if x in whole and known.get(head, -1) == self.new.head(y):
                known[x] = y
        return {(x, y) for x, y in pairs if known.get(x) != y}

    def whole(self, there: Container[int]) -> set[int]:
        """The lines that are in a function of which most lines are there, or stand for
        themselves."""
        outermost: dict[int, int] = {}
        lines, kept = Counter[int](), Counter[int]()
        for at, line in enumerate(self.old.lines):
            head = self.old.head(at)
            if head not in outermost and at not in there:
                continue
            top = outermost[at] = outermost.get(head, at)
            if words_in(line):
                lines[top] += 1
                kept[top] += at in there or at in self.old.matched
        return {at for at, top in outermost.items() if kept[top] >= SHARE * lines[top]}
