"""The tags of a file, by its project's tags: the server finds them by the beginnings of their names
alone, so it's asked for each letter that a word of the file begins with, once: for some of them at
a time, where the file has many.
"""

import re
import string
import time
from collections import Counter, defaultdict
from typing import Any, Callable, Iterator

from codenav.texts.moved.layout import indentation
from codenav.texts.moved.tokens import TOKEN

SECONDS = 300.0
"""For so long the tags stand that were read."""
MOST, MOST_LETTERS = 1_000, 100
OPENING, CLOSING, HEAD_ENDS = "{(", "})]", "{(:"
WHERE = re.compile(r"where\b")
LETTERS = string.ascii_letters + "_"
Tags = list[dict[str, Any]]


class Outlines:
    """The tags of projects, by their files, as far as they were asked for."""

    def __init__(self, names: Callable[[str], Tags]) -> None:
        self.names = names
        self.read_at: dict[str, float] = {}
        self.tags: dict[str, dict[str, Tags]] = {}

    def of(self, file: str, text: str) -> tuple[Tags, int]:
        """The tags of a file, whose text is given, by the name that tags have for it; and for how
        many letters the server wasn't asked, of those that aren't ASCII the rarest."""
        counts = Counter(word[0] for word in TOKEN.findall(text))
        letters = sorted(counts, key=lambda one: (not one.isascii(), -counts[one], one))
        due = [one for one in letters if self.is_due(one)]
        self.read(due[:MOST_LETTERS])
        found = [tag for one in letters for tag in self.tags.get(one, {}).get(file, [])]
        return found[:MOST], len(due[MOST_LETTERS:])

    def within(self, text: str) -> Tags:
        """The tags whose names have a text behind their beginning, or in other letters; those that
        begin with it are first, then the short ones."""
        low = text.lower()
        found = [
            tag
            for tag in self.all(text)
            if low in tag["name"].lower() and not tag["name"].startswith(text)
        ]
        names = {tag["name"] for tag in found}
        order = sorted(names, key=lambda name: (not name.lower().startswith(low), len(name), name))
        rank = {name: number for number, name in enumerate(order)}
        return sorted(found, key=lambda tag: rank[tag["name"]])[:MOST]

    def all(self, text: str) -> Iterator[dict[str, Any]]:
        """The tags whose names begin with a letter that many do, or with the first one of a text."""
        letters = sorted({*LETTERS, text[0].lower(), text[0].upper()})
        self.read(letters)
        return (tag for one in letters for tags in self.tags[one].values() for tag in tags)

    def read(self, letters: list[str]) -> None:
        """Reads the tags whose names begin with some letters, as far as they aren't known."""
        for letter in letters:
            if self.is_due(letter):
                self.read_one(letter)

    def is_due(self, letter: str) -> bool:
        """Whether the tags whose names begin with a letter aren't known."""
        return time.monotonic() - self.read_at.get(letter, -SECONDS) >= SECONDS

    def read_one(self, letter: str) -> None:
        """Reads the tags whose names begin with a letter."""
        found: defaultdict[str, Tags] = defaultdict(list)
        for tag in self.names(letter):
            if tag["name"].startswith(letter):
                found[tag["file"].removeprefix("./")].append(tag)
        self.tags[letter], self.read_at[letter] = dict(found), time.monotonic()


def ends_of(lines: list[str], heads: list[int]) -> list[int]:
    """Of lines that begin symbols, which rise, the last line of each, from 0: the one before the
    next that is indented no deeper, and with it where that one closes what the symbol opened."""
    ends = list(heads)
    open_ones: list[tuple[int, int]] = []
    last, due = 0, 0
    for number, line in enumerate(lines):
        bare = line.strip()
        if not bare:
            continue
        depth = indentation(line)
        while open_ones and open_ones[-1][0] >= depth:
            own, at = open_ones[-1]
            if own == depth and goes_on(bare):
                break
            open_ones.pop()
            ends[at] = number if own == depth and bare[0] in CLOSING else last
        last = number
        while due < len(heads) and heads[due] <= number:
            open_ones.append((depth, due))
            due += 1
    for _, at in open_ones:
        ends[at] = max(last, heads[at])
    return ends


def goes_on(bare: str) -> bool:
    """Whether a line that is indented as a symbol's first one belongs to its head still."""
    is_head = bare[-1] in HEAD_ENDS or "->" in bare and bare[-1] != ";"
    return bare[0] in OPENING or bare[0] in CLOSING and is_head or WHERE.match(bare) is not None
