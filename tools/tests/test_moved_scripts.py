"""Random texts and edit scripts that know where each word went: a word leads there and back, or
nowhere; never to another word."""

import unittest
from itertools import count
from typing import Any, Optional

from codenav.texts.moved.text_map import Position, TextMap
from codenav.texts.places import units
from tests.randomly import check_cases

LINE_ENDS = ("\n", "\r\n")
KINDS = ("insert", "remove", "move", "rename", "indent", "follow")
PLAIN = KINDS[:2]
"""Kinds after which each word that stays is found, and not only a wrong one is excluded."""
Op = tuple[str, int, int]
Line = tuple[int, list[int]]


class Script:
    """A text of words with identities, which an edit script changes: a line is its indentation and
    its words."""

    def __init__(self, widths: list[tuple[int, int]], repeats: int) -> None:
        self.last = count()
        self.names: dict[int, str] = {}
        self.lines: list[Line] = [
            (indent, [self.word(repeats) for _ in range(width)]) for indent, width in widths
        ]

    def word(self, repeats: int = 0) -> int:
        """A new word: one of a few names where these repeat, else one that no other has."""
        own = next(self.last)
        self.names[own] = (
            f"n{own % repeats}" if repeats else f"é{own}" if own % 7 == 0 else f"w{own}"
        )
        return own

    def take(self, op: Op) -> None:
        """Changes the text."""
        kind, first, second = op
        at, to = first % (len(self.lines) + 1), second % (len(self.lines) + 1)
        at_line = slice(at, at + 1 + second % 3)
        if kind == "insert":
            self.lines[at:at] = [(4 * (first % 3), [self.word() for _ in range(1 + second % 4)])]
        elif kind == "remove":
            del self.lines[at_line]
        elif kind == "move":
            block = self.lines[at_line]
            del self.lines[at_line]
            self.lines[to:to] = block
        elif kind == "indent":
            self.lines[at_line] = [(indent + 4, words) for indent, words in self.lines[at_line]]
        elif kind == "follow":
            self.lines[at_line] = [(i, [*words, self.word()]) for i, words in self.lines[at_line]]
        elif at < len(self.lines):
            name = self.names[self.lines[at][1][0]]
            new = f"renamed{next(self.last)}"
            same = [own for own, known in self.names.items() if known == name]
            self.names.update(dict.fromkeys(same, new))

    def text(self, end: str, mark: str) -> tuple[str, dict[int, Position]]:
        """The text, and where each word is in it, in UTF-16 code units."""
        lines, found = [], {}
        for number, (indent, words) in enumerate(self.lines):
            line = mark * (number == 0) + " " * indent
            for at, own in enumerate(words):
                line += ("", " = 𝄞(", ", ")[min(at, 2)]
                found[own] = number, units(line)
                line += self.names[own]
            lines.append(line + ";")
        return "".join(line + end for line in lines), found


class Scripts(unittest.TestCase):
    def run_script(
        self,
        widths: list[tuple[int, int]],
        ops: list[Op],
        ends: tuple[str, str],
        marks: tuple[str, str],
        repeats: int,
    ) -> None:
        """Holds a map to what a script says; words that aren't repeated lead nowhere else. A line
        that a byte order mark comes before, or not any more, isn't the same."""
        script = Script(widths, repeats)
        old, before = script.text(ends[0], marks[0])
        names = dict(script.names)
        for op in ops:
            script.take(op)
        new, after = script.text(ends[1], marks[1])
        text_map = TextMap(old, new)
        is_exact = not repeats and {kind for kind, _, _ in ops} <= set(PLAIN)
        texts = {place: script.names[own] for own, place in after.items()}
        for own, place in before.items():
            found = text_map.forward(*place)
            stays = own in after and script.names[own] == names[own]
            wanted: Optional[Position] = after[own] if stays else None
            is_marked = marks[0] and not place[0] or marks[1] and wanted and not wanted[0]
            if is_exact and stays and not is_marked:
                self.assertEqual(found, wanted, (names[own], old, new))
            if found is None:
                continue
            self.assertEqual(texts.get(found), names[own], (old, new))
            self.assertEqual(text_map.backward(*found), place, (old, new))
            if not repeats:
                self.assertEqual(found, wanted, (names[own], old, new))
        for own, place in after.items():
            found = text_map.backward(*place)
            if found is not None and not repeats:
                self.assertEqual(found, before.get(own), (script.names[own], old, new))

    def drawn(self, strategies: Any, kinds: tuple[str, ...], repeats: Any) -> dict[str, Any]:
        """The strategy of each parameter."""
        number = strategies.integers(0, 60)
        width = strategies.tuples(strategies.sampled_from((0, 0, 4, 8)), strategies.integers(1, 5))
        mark = strategies.sampled_from(("", "", "\ufeff"))
        flat = strategies.tuples(strategies.just(0), strategies.integers(1, 5))
        return {
            "widths": strategies.lists(flat if kinds == PLAIN else width, min_size=1, max_size=40),
            "ops": strategies.lists(
                strategies.tuples(strategies.sampled_from(kinds), number, number), max_size=6
            ),
            "ends": strategies.tuples(*[strategies.sampled_from(LINE_ENDS)] * 2),
            "marks": strategies.tuples(mark, mark),
            "repeats": repeats,
        }

    def test_lines_that_come_and_go(self) -> None:
        """Each word of a line that stays is found where it is."""
        check_cases(self, 150, lambda st: self.drawn(st, PLAIN, st.just(0)), self.run_script)

    def test_all_edits(self) -> None:
        """Names that stand once lead to themselves alone."""
        check_cases(self, 150, lambda st: self.drawn(st, KINDS, st.just(0)), self.run_script)

    def test_names_that_repeat(self) -> None:
        """They lead to a word of the same name, and back to where they were."""
        check_cases(
            self, 150, lambda st: self.drawn(st, KINDS, st.sampled_from((3, 20))), self.run_script
        )


if __name__ == "__main__":
    unittest.main()
