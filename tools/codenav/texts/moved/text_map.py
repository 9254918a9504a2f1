"""The map between an old text and a new one."""

from typing import Optional, Sequence

from codenav.texts.moved.copies import copied
from codenav.texts.moved.hunks import LONGEST, Hunk
from codenav.texts.moved.layout import words_in
from codenav.texts.moved.matching import Pair, patience, runs, sliding
from codenav.texts.moved.moves import Moves
from codenav.texts.moved.sides import Side
from codenav.texts.moved.tokens import Token, token_at
from codenav.texts.places import units

Position = tuple[int, int]
"""A line from 0, and a character of it in UTF-16 code units."""
Range = tuple[Position, Position]


class TextMap:
    """Leads from positions of an old text to those of a new one and back: to the same word, or to
    None where it isn't there or might be another."""

    def __init__(self, old: str, new: str) -> None:
        self.old = Side(old)
        self.new = self.old if new == old else Side(new)
        self.is_same = self.old.lines == self.new.lines
        if not self.is_same:
            self.match()

    def match(self) -> None:
        """Matches the lines, and keeps the others in hunks."""
        a, b = self.old, self.new
        pairs = patience(a.keys, b.keys)
        loose = sliding(pairs, a.keys, b.keys)
        a.loose = {x for x, _ in loose} | copied(a.keys, a.counts, b.counts)
        b.loose = {y for _, y in loose} | copied(b.keys, b.counts, a.counts)
        pairs = [(x, y) for x, y in pairs if x not in a.loose and y not in b.loose]
        once = {key for key in a.counts if key and a.counts[key] == b.counts[key] == 1}
        sure = [pair for run in runs(pairs) if self.is_sure(run, once) for pair in run]
        self.join(sure)
        self.divide(self.follow_moved(once, sure))
        self.know_heads(once)

    def know_heads(self, once: set[str]) -> None:
        """Notes which lines are known in both texts: what is matched, and what is unique in both
        and stands elsewhere.

        A line that moved without being followed takes what stands inside it along: that isn't there
        either.
        """
        a, b = self.old, self.new
        a.known, b.known = dict(a.matched), dict(b.matched)
        places = {key: at for at, key in enumerate(b.keys) if key in once and at not in b.matched}
        for x, key in enumerate(a.keys):
            if key in places and x not in a.matched and words_in(a.lines[x]) >= 2:
                a.known[x], b.known[places[key]] = places[key], x

    def join(self, pairs: Sequence[Pair]) -> None:
        """Notes pairs of matched lines."""
        for x, y in pairs:
            self.old.matched[x], self.new.matched[y] = y, x

    def is_sure(self, run: list[Pair], once: set[str]) -> bool:
        """Whether equal lines can hardly be others: a line of them is unique, three have words, or
        they begin or end both texts."""
        lines = self.old.lines
        if run[0] == (0, 0) or run[-1] == (len(lines) - 1, len(self.new.lines) - 1):
            return True
        return (
            any(self.old.keys[x] in once for x, _ in run)
            or sum(1 for x, _ in run if words_in(lines[x])) >= 3
        )

    def follow_moved(self, once: set[str], sure: list[Pair]) -> list[Pair]:
        """Matches lines that moved, and gives back those in place; what may be a copy, or have
        moved without its function, isn't there."""
        a, b = self.old, self.new
        moves = Moves(a, b, once, sure)
        gone = moves.doubtful()
        self.join([pair for pair in moves.moved if pair not in gone])
        for x, y in gone:
            a.matched.pop(x, None)
            b.matched.pop(y, None)
        a.loose |= {x for x, _ in gone}
        b.loose |= {y for _, y in gone}
        return [pair for pair in sure if pair not in gone]

    def divide(self, sure: list[Pair]) -> None:
        """Makes a hunk of what stands between matched lines, without the lines that moved or might
        have."""
        x = y = 0
        for x_end, y_end in [*sure, (len(self.old.lines), len(self.new.lines))]:
            hunk = Hunk(
                [line for line in range(x, x_end) if self.old.is_free(line)],
                [line for line in range(y, y_end) if self.new.is_free(line)],
            )
            if hunk.old and hunk.new:
                self.old.hunks.update(dict.fromkeys(hunk.old, hunk))
                self.new.hunks.update(dict.fromkeys(hunk.new, hunk))
            x, y = x_end + 1, y_end + 1

    def forward(self, line: int, character: int) -> Optional[Position]:
        """Where a position of the old text is in the new one."""
        return self.led(line, character, True)

    def backward(self, line: int, character: int) -> Optional[Position]:
        """Where a position of the new text was in the old one."""
        return self.led(line, character, False)

    def led(self, line: int, character: int, is_forward: bool) -> Optional[Position]:
        """Where a position of the one text is in the other."""
        here, there = (self.old, self.new) if is_forward else (self.new, self.old)
        if not 0 <= line < len(here.lines):
            return None
        if self.is_same:
            return line, character
        to = here.matched.get(line)
        if to is not None and here.lines[line] == there.lines[to]:
            return (to, character) if self.is_inside(line, to, is_forward) else None
        if len(here.lines[line]) > LONGEST:
            return None
        index = token_at(here.tokens(line), character)
        found = None if index is None else self.word(line, index, is_forward)
        if index is None or found is None or not self.is_inside(line, found.line, is_forward):
            return None
        return found.line, found.start + character - here.tokens(line)[index].start

    def word(self, line: int, index: int, is_forward: bool) -> Optional[Token]:
        """The token of the other text that is a line's token: on its matched line, or of its
        hunk."""
        here, there = (self.old, self.new) if is_forward else (self.new, self.old)
        to, token = here.matched.get(line), here.tokens(line)[index]
        if to is not None:
            tokens = there.tokens(to)
            same = [one.text for one in tokens] == [one.text for one in here.tokens(line)]
            return tokens[index] if same else None
        hunk = here.hunks.get(line)
        if hunk is None:
            return None
        hunk.match(self.old.lines, self.new.lines)
        return (hunk.forward if is_forward else hunk.backward).get((line, token.start))

    def is_inside(self, line: int, to: int, is_forward: bool) -> bool:
        """Whether both lines stand inside the same known lines: else one of them is in another
        function."""
        x, y = (line, to) if is_forward else (to, line)
        return {self.old.known[outer] for outer in self.old.inside(x)} == self.new.inside(y)

    def forward_range(self, start: Position, end: Position) -> Optional[Range]:
        """Where a range of the old text is in the new one: its first and its last character, in
        this order, on one line where they were.

        A range over the whole text, as some indexers write for a module, is one over the whole new
        text.
        """
        if self.is_all(start, end):
            return (0, 0), (len(self.new.lines) - 1, units(self.new.lines[-1]))
        first = self.forward(*start)
        last = self.forward(end[0], end[1] - 1) if start != end and end[1] else self.forward(*end)
        if first is None or last is None:
            return None
        behind = (last[0], last[1] + 1) if start != end and end[1] else last
        if behind < first or (start[0] == end[0]) != (first[0] == behind[0]):
            return None
        return first, behind

    def is_all(self, start: Position, end: Position) -> bool:
        """Whether a range of several lines begins where the old text does, and ends behind its last
        line that isn't empty."""
        lines = self.old.lines
        last = max((at for at, line in enumerate(lines) if line), default=0)
        return start == (0, 0) and end[0] > 0 and end >= (last, units(lines[last]))
