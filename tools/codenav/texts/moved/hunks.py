"""Changed lines of both texts, whose tokens are matched when a word of them is asked for."""

from collections import Counter
from dataclasses import dataclass, field
from typing import Sequence

from codenav.texts.moved.layout import is_comment
from codenav.texts.moved.matching import Pair, ShortestEdit, patience, runs, sliding
from codenav.texts.moved.tokens import Token, tokens_of

LONGEST = 100_000
"""The characters of a line or of a hunk that are still divided into tokens."""
STEPS, ALL_STEPS = 20_000, 100_000
SHARE = 0.7
"""Of a changed line, the old or the new one, so much of the words has to be matched: else the line
is another one."""

Place = tuple[int, int]


@dataclass
class Side:
    """The tokens of one text in a hunk."""

    tokens: list[Token]
    texts: list[str] = field(init=False)
    once: set[str] = field(init=False)

    def __post_init__(self) -> None:
        self.texts = [token.text for token in self.tokens]
        self.once = {text for text, count in Counter(self.texts).items() if count == 1}

    def shares(self, matched: list[int]) -> dict[int, float]:
        """Of each line which part of its words is matched."""
        words = Counter(token.line for token in self.tokens if token.is_word)
        kept = Counter(self.tokens[at].line for at in matched if self.tokens[at].is_word)
        return {line: kept[line] / count for line, count in words.items()}


@dataclass
class Hunk:
    """Changed lines of both texts, and, once they have been asked for, the words that are the same
    in both."""

    old: list[int]
    new: list[int]
    forward: dict[Place, Token] = field(default_factory=dict)
    backward: dict[Place, Token] = field(default_factory=dict)
    is_matched: bool = False

    def match(self, old: Sequence[str], new: Sequence[str]) -> None:
        """Matches the tokens, once."""
        if self.is_matched:
            return
        self.is_matched = True
        lines = [old[at] for at in self.old] + [new[at] for at in self.new]
        if sum(map(len, lines)) > LONGEST:
            return
        ours = Side([token for at in self.old for token in tokens_of(old[at], at)])
        theirs = Side([token for at in self.new for token in tokens_of(new[at], at)])
        for x, y in same_words(ours, theirs):
            before, after = ours.tokens[x], theirs.tokens[y]
            if is_comment(old[before.line]) == is_comment(new[after.line]):
                self.forward[before.line, before.start] = after
                self.backward[after.line, after.start] = before


def same_words(old: Side, new: Side) -> list[Pair]:
    """The words that are the same in both, of those that a diff over the tokens pairs.

    A word needs another one beside it in what is equal; or it stands once in the hunk, and has a
    sign beside it.
    """
    edit = ShortestEdit(STEPS, ALL_STEPS)
    pairs = patience(old.texts, new.texts, edit.pairs)
    loose = sliding(pairs, old.texts, new.texts)
    of_old, of_new = old.shares([x for x, _ in pairs]), new.shares([y for _, y in pairs])
    found = []
    for run in runs(pairs):
        words = [pair for pair in run if old.tokens[pair[0]].is_word]
        for x, y in words:
            is_alone = old.texts[x] in old.once and old.texts[x] in new.once and len(run) > 1
            share = max(of_old[old.tokens[x].line], of_new[new.tokens[y].line])
            if (len(words) > 1 or is_alone) and share >= SHARE and (x, y) not in loose:
                found.append((x, y))
    return found
