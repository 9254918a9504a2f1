"""Where tags stand in the text of their file: by their address, the field `line` and their name
(tags(5)).

A pattern finds lines, of which the one nearest to the field `line` is the tag's. The lines are
sorted once, so that equal ones and those that begin alike are found by bisection; what a pattern
without `^` finds is looked for line by line, and only so long.
"""

import re
from bisect import bisect_left, bisect_right
from collections import defaultdict
from functools import cached_property, lru_cache
from typing import Any, Iterable, Iterator, NamedTuple, Optional, Sequence

ADDRESS = re.compile(r"(?P<line>[0-9]+)?;?(?:(?P<mark>[/?])(?P<pattern>.*)(?P=mark))?", re.DOTALL)
END = re.compile(r"(?<!\\)(\\\\)*\$\Z")
WORD = re.compile(r"\w+")
CUT = re.compile(r"[\r\0]")
MOST_DIGITS = 9
LONG = 1_000
FILE = ("F", "file")
"""How ctags calls the kind of a tag that is of a whole file."""
MADE_UP = re.compile("_*anon", re.IGNORECASE)
"""How the names begin that ctags makes of what has none."""
MOST_SCANNED = 20_000_000
"""Lines of a file, more of short ones than of long ones, that are gone through for patterns without
`^` and names of several words, over all its tags."""


class Pattern(NamedTuple):
    """The text that a pattern looks for, and whether the line begins and ends with it."""

    text: str
    at_start: bool
    at_end: bool

    def is_in(self, line: str) -> bool:
        """Whether the pattern finds a line."""
        if self.at_start and self.at_end:
            return line == self.text
        if self.at_start:
            return line.startswith(self.text)
        return line.endswith(self.text) if self.at_end else self.text in line


def patterns_of(written: str) -> list[Pattern]:
    """What a pattern as it's written may mean, the likeliest first: `^` at its beginning and `$` at
    its end alone are more than themselves. Where ctags cut a line behind a `$`, it writes that as
    it is."""
    at_start, at_end = written.startswith("^"), END.search(written) is not None
    text = re.sub(r"\\(.)", r"\1", written[at_start : -1 if at_end else None])
    found = [Pattern(text, at_start, at_end)]
    return [*found, Pattern(f"{text}$", at_start, False)] if at_end else found


def near_of(tag: dict[str, Any]) -> Optional[int]:
    """The line that a tag's field `line` or else the number of its address says, from 0."""
    parts = ADDRESS.fullmatch(tag["address"])
    number = parts["line"] or "" if parts else ""
    texts = [value for name, value in tag["fields"] if name == "line"] + [number]
    known = (int(one) for one in texts if one.isdecimal() and len(one) <= MOST_DIGITS)
    return next((max(line - 1, 0) for line in known), None)


@lru_cache(4096)
def is_part(character: str) -> bool:
    """Whether a character may stand in an identifier; a combining mark may."""
    return f"a{character}".isidentifier()


def words_in(text: str) -> Iterator[tuple[int, str]]:
    """The identifiers and numbers of a text, and where each begins."""
    if not text.isascii():
        text = "".join(one if is_part(one) else " " for one in text)
    return ((found.start(), found[0]) for found in WORD_IN[text.isascii()].finditer(text))


WORD_IN = {True: WORD, False: re.compile(r"[^ ]+")}


def nearest(numbers: Sequence[int], near: int) -> int:
    """Which of some rising numbers is nearest to another one; of two the greater, since texts grow
    more often than they shrink."""
    at = bisect_left(numbers, near)
    if at == len(numbers) or at and near - numbers[at - 1] < numbers[at] - near:
        at -= 1
    return numbers[at]


def found_in(line: str, name: str) -> Iterator[int]:
    """Where a text stands on a line."""
    at = line.find(name)
    while at >= 0:
        yield at
        at = line.find(name, at + 1)


def is_whole(line: str, name: str, at: int) -> bool:
    """Whether a name stands somewhere on a line with no character of an identifier on either
    side."""
    end = at + len(name)
    beside = line[max(at - 1, 0) : at] + line[end : end + 1]
    return line.startswith(name, at) and not any(map(is_part, beside))


class Words:
    """The words of a line, and where each begins."""

    def __init__(self, line: str) -> None:
        self.line = line
        self.starts: defaultdict[str, list[int]] = defaultdict(list)
        for start, word in words_in(line):
            self.starts[word].append(start)

    def first(self, name: str) -> Optional[int]:
        """Where a name stands first with no character of an identifier on either side; None where
        it doesn't."""
        parts = [(self.starts.get(word, []), start) for start, word in words_in(name)]
        if not parts:
            places: Iterable[int] = found_in(self.line, name)
        else:
            starts, inside = min(parts, key=lambda part: len(part[0]))
            places = (start - inside for start in starts)
        return next((at for at in places if at >= 0 and is_whole(self.line, name, at)), None)

    def column(self, name: str) -> int:
        """Where a name stands on the line: the first time as a whole, else inside a word; 0 where
        it doesn't."""
        whole = self.first(name)
        return max(self.line.find(name), 0) if whole is None else whole


class Tagged:
    """The lines of a file, as far as they are looked for.

    ctags cuts a line at a carriage return or a NUL.
    """

    def __init__(self, lines: list[str]) -> None:
        self.lines = lines
        self.cut = [CUT.split(line, maxsplit=1)[0] for line in self.lines]
        self.kept: dict[Pattern, list[int]] = {}
        self.cost = 1 + sum(map(len, lines)) // max(len(lines), 1) // 100
        self.scanned = 0

    def line_of(self, tag: dict[str, Any]) -> Optional[int]:
        """The line that a tag's address finds, from 0; None where it finds none.

        Of the lines that a pattern finds it's the nearest to the field `line`, or to the number
        before the pattern, and without either the first, or the last of a pattern that goes
        backwards. A number alone finds no line that lacks the name.
        """
        parts, near = ADDRESS.fullmatch(tag["address"]), near_of(tag)
        if parts and parts["mark"]:
            return self.by_pattern(patterns_of(parts["pattern"]), near, parts["mark"] == "?")
        return near if near is not None and self.may_be(tag, near) else None

    def guess(self, tag: dict[str, Any]) -> Optional[int]:
        """The line that has the name of a tag as a whole, the nearest to where the tag was or else
        the first; None where none has it."""
        named = self.named(tag["name"])
        return nearest(named, near_of(tag) or 0) if named else None

    def may_be(self, tag: dict[str, Any], near: int) -> bool:
        """Whether a line may be that of a tag: it has the name, unless that's none that stands in
        texts, as the name of a file or one that ctags makes."""
        name, line = tag["name"], self.lines[near] if near < len(self.lines) else None
        is_text = name.isidentifier() and not MADE_UP.match(name) and tag["kind"] not in FILE
        if line is None or not is_text:
            return line is not None
        if len(line) > LONG:
            having = self.having.get(name, [])
            at = bisect_left(having, near)
            if at < len(having) and having[at] == near:
                return True
        return name in line

    def by_pattern(
        self, patterns: list[Pattern], near: Optional[int], is_backwards: bool
    ) -> Optional[int]:
        """The line that a pattern finds."""
        if near is not None and near < len(self.cut):
            if any(pattern.is_in(self.cut[near]) for pattern in patterns):
                return near
        for pattern in patterns:
            found = self.found(pattern)
            if found:
                return nearest(found, near) if near is not None else found[-is_backwards]
        return None

    @cached_property
    def order(self) -> list[int]:
        """The lines in the order of their texts, equal ones as they stand."""
        return sorted(range(len(self.cut)), key=self.cut.__getitem__)

    @cached_property
    def texts(self) -> list[str]:
        """The texts of the lines in order."""
        return [self.cut[number] for number in self.order]

    def found(self, pattern: Pattern) -> list[int]:
        """The lines that a pattern finds, as they stand."""
        if pattern not in self.kept:
            self.kept[pattern] = self.looked_for(pattern)
        return self.kept[pattern]

    def looked_for(self, pattern: Pattern) -> list[int]:
        """The lines that a pattern finds, which are looked for."""
        text, length = pattern.text, len(pattern.text)
        if pattern.at_start:
            first = bisect_left(self.texts, text)
            if pattern.at_end:
                return self.order[first : bisect_right(self.texts, text, first)]
            last = bisect_right(self.texts, text, first, key=lambda line: line[:length])
            return sorted(self.order[first:last])
        numbers, cut = self.scan(range(len(self.cut))), self.cut
        if pattern.at_end:
            return [number for number in numbers if cut[number].endswith(text)]
        return [number for number in numbers if text in cut[number]]

    def scan(self, numbers: Sequence[int]) -> Sequence[int]:
        """Lines that are to be gone through; none where that has been too much."""
        if self.scanned > MOST_SCANNED:
            return []
        self.scanned += len(numbers) * self.cost
        return numbers

    @cached_property
    def having(self) -> dict[str, list[int]]:
        """The lines that have each word."""
        found: defaultdict[str, list[int]] = defaultdict(list)
        for number, line in enumerate(self.lines):
            for word in {word for _, word in words_in(line)}:
                found[word].append(number)
        return dict(found)

    def named(self, name: str) -> list[int]:
        """The lines that have a name as a whole, by the rarest of its words."""
        if name not in self.having:
            lines = [self.having.get(word, []) for _, word in words_in(name)]
            rare = self.scan(min(lines, key=len, default=[]))
            self.having[name] = [
                number
                for number in rare
                for line in [self.lines[number]]
                if any(is_whole(line, name, at) for at in found_in(line, name))
            ]
        return self.having[name]
