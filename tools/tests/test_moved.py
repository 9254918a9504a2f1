"""Tests of the map between an old text and a new one: words whose way is known, rules one by one,
and that the way back leads to where it began."""

import os
import unittest
from collections import Counter
from random import Random
from typing import Optional

from codenav.texts.moved.matching import ShortestEdit, patience, rising, sliding
from codenav.texts.moved.text_map import Position, TextMap
from codenav.texts.moved.tokens import token_at, tokens_of
from codenav.texts.places import units
from tests.made_edits import EDITS, edited

SAMPLES = os.path.join(os.path.dirname(os.path.abspath(__file__)), "moved")
LANGUAGES = ("javascript", "python", "rust")
HARD = {"formatted", "several", "tabs", "sorted_imports", "indented"}
"""Kinds of edits that change what is around many words, of which half are followed at least."""
UNKNOWABLE = {"changed_copy_in_place", "rewritten_elsewhere", "several"}
"""Kinds of edits after which a text says nothing of what is a copy."""
MARK = "¦"
LONG = "def long(a):\n    b = a + 1\n    c = b * 2\n    d = c - 3\n    e = d / 4\n    return e\n"
SHORT = "def short(x):\n    y = x\n    return [y]\n"
NEW_NAME = LONG.replace("long", "newly")
FUNCTIONS = "def one(a):\n    b = a\n    return b\n\ndef two(a):\n    c = a\n    return c\n"
RULES = [
    # the word is there, on lines that are equal, indented, changed beside it
    ("a = ¦b\n", "a = ¦b\n"),
    ("a = ¦b\nc\n", "x\n    a = ¦b\nc\n"),
    ("a = f(¦b, c)\n", "a = g(¦b, c)\n"),
    ("a = ¦word\r\nb\r\n", "x\na = ¦word\nb\n"),
    ("a = wo¦rd + b\n", "x = a = wo¦rd + b\n"),
    ("'é𝄞' + ¦word + b\n", "x + 'é𝄞' + ¦word + b\n"),
    # a sign that begins there, and white space of unchanged lines alone
    ("a ¦+ b\n", "x\na ¦+ b\n"),
    ("a ¦ + b\n", "x\na ¦ + b\n"),
    ("a ¦ + b, c\n", "a + b, c, d\n"),
    # gone, or another word
    ("a = ¦b\n", "a = c\n"),
    ("a = ¦b\n", "a = bb\n"),
    ("a = ¦b\nx = y\n", "x = y\n"),
    # an insertion could stand on either side
    ("f(¦x)\n", "f(x, x)\n"),
    ("¦a\na\n", "a\na\na\n"),
    ("x\n¦  end\n  end\ny\n", "x\n  end\n  end\n  end\ny\n"),
    # a word alone is no evidence: too little of its line is left
    ("value = ¦count\n", "print(count, of, them, all)\n"),
    # a line that became a comment
    ("a = ¦b + c\nd = e\n", "# a = b + c\nd = e\n"),
    # functions that move take their words along
    (
        FUNCTIONS.replace("b = a", "b = ¦a"),
        "def two(a):\n    c = a\n    return c\n\ndef one(a):\n    b = ¦a\n    return b\n",
    ),
    # a function that moved, changed in one line, is the function; half of its lines elsewhere
    # aren't, however the two changed places
    (
        LONG.replace("d = c", "d = ¦c") + "\n" + SHORT,
        SHORT + "\n" + LONG.replace("b = a + 1", "b = f(a)").replace("d = c", "d = ¦c"),
    ),
    (
        LONG.replace("b = a", "b = ¦a") + "\n" + SHORT,
        SHORT + "\nstart()\ndef long(a):\n    b = a + 1\n    return e\n",
    ),
    (
        SHORT + "\n" + LONG.replace("b = a", "b = ¦a"),
        "def long(a):\n    b = a + 1\n    c = b * 2\n\n" + SHORT,
    ),
    # of a function that stands twice, each of them changed, nobody knows which it is; one more with
    # a new name is a new one
    (
        LONG.replace("c = b", "c = ¦b"),
        LONG.replace("a + 1", "a + 9") + "\n" + LONG.replace("d / 4", "d / 9"),
    ),
    (
        "# first\n" + SHORT.replace("y = x", "y = ¦x") + "\n" + LONG,
        "# first\n" + SHORT.replace("y = x", "y = ¦x") + "\n" + LONG + "\n" + NEW_NAME,
    ),
    # an equal line of another function isn't the line
    (
        "def one(a):\n    x = 1\n    retur¦n a\n\ndef two(a):\n    return a\n",
        "def two(a):\n    return a\n",
    ),
]
RANGES = [
    ("¦one¦\n", "x\n¦one¦\n"),
    ("f(¦a, b, c¦)\n", "g(¦a, b, c¦)\n"),
    ("f(¦a, b, c¦)\n", "f(a,\n  b, c)\n"),
    ("¦a\nb¦\nc\n", "x\n¦a\nb¦\nc\n"),
    ("¦x = 1\ny = 2\n¦", "¦z = 3\nx = 1\ny = 22\n¦"),
    ("¦¦one\n", "x\n¦¦one\n"),
    ("¦𝄞¦ + b\n", "x\n¦𝄞¦ + b\n"),
]


def marked(text: str) -> tuple[str, list[Position]]:
    """A text without its marks, and the places of these."""
    parts, places = text.split(MARK), []
    for part in range(1, len(parts)):
        before = "".join(parts[:part]).replace("\r\n", "\n").split("\n")
        places.append((len(before) - 1, units(before[-1])))
    return "".join(parts), places


def sample(language: str) -> str:
    """A text of a language."""
    with open(os.path.join(SAMPLES, f"{language}.txt"), encoding="utf-8", newline="") as file:
        return file.read()


class MadeEdits(unittest.TestCase):
    def test_each_kind(self) -> None:
        self.assertEqual(len(EDITS), 26)
        for language in LANGUAGES:
            text = sample(language)
            for edit in EDITS:
                with self.subTest(language, edit=edit.__name__):
                    new, truth = edited(edit, 0, text)
                    found = self.found(TextMap(text, new), truth)
                    there = found["right"] + found["not found"]
                    self.assertLessEqual(
                        found["wrong"], 0.02 * there * (edit.__name__ in UNKNOWABLE)
                    )
                    self.assertGreater(
                        found["right"], (0.5 if edit.__name__ in HARD else 0.9) * there
                    )

    def found(self, text_map: TextMap, truth: dict[Position, Optional[Position]]) -> Counter[str]:
        """How many words lead where, each of which leads back."""
        found: Counter[str] = Counter()
        for place, wanted in truth.items():
            to = text_map.forward(*place)
            if to is None:
                found["gone" if wanted is None else "not found"] += 1
                continue
            found["right" if to == wanted else "wrong"] += 1
            self.assertEqual(text_map.backward(*to), place)
        return found


class Rules(unittest.TestCase):
    def test_positions(self) -> None:
        for old, new in RULES:
            with self.subTest(old=old, new=new):
                (old_text, [place]), (new_text, wanted) = marked(old), marked(new)
                text_map = TextMap(old_text, new_text)
                found = text_map.forward(*place)
                self.assertEqual([found] if found else [], wanted)
                if found:
                    self.assertEqual(text_map.backward(*found), place)

    def test_ranges(self) -> None:
        for old, new in RANGES:
            with self.subTest(old=old, new=new):
                (old_text, [start, end]), (new_text, wanted) = marked(old), marked(new)
                found = TextMap(old_text, new_text).forward_range(start, end)
                self.assertEqual(list(found or ()), wanted)

    def test_places_that_no_text_has(self) -> None:
        for new in "a\n", "b\n", "":
            text_map = TextMap("a\n", new)
            self.assertIsNone(text_map.forward(2, 0))
            self.assertIsNone(text_map.backward(2, 0))
            self.assertIsNone(text_map.forward(-1, 0))
        self.assertIsNone(TextMap("a\n", "b\n").forward(0, 9))

    def test_what_is_too_long_for_tokens(self) -> None:
        line = "word, " * 20_000
        old, new = f"{line}x\nb\n", f"a\n{line}x\nb\n"
        self.assertEqual(TextMap(old, new).forward(0, 12), (1, 12))
        self.assertIsNone(TextMap(old, new.replace("x", "y")).forward(0, 12))


def longest(old: list[str], new: list[str]) -> int:
    """The length of the longest common subsequence, by the table of all beginnings."""
    row = [0] * (len(new) + 1)
    for one in old:
        before, row = row, [0]
        for at, other in enumerate(new):
            row.append(before[at] + 1 if one == other else max(row[at], before[at + 1]))
    return row[-1]


class Matching(unittest.TestCase):
    def test_rising(self) -> None:
        pairs = [(0, 4), (1, 1), (2, 2), (3, 0), (4, 3)]
        self.assertEqual(rising(pairs), [(1, 1), (2, 2), (4, 3)])
        self.assertEqual(rising([]), [])

    def test_patience(self) -> None:
        for old, new, pairs in (
            ("", "", []),
            ("abc", "abc", [(0, 0), (1, 1), (2, 2)]),
            ("abc", "axc", [(0, 0), (2, 2)]),
            ("xaby", "zabw", [(1, 1), (2, 2)]),
            ("xaay", "zaaw", []),
        ):
            self.assertEqual(patience(old, new), pairs, (old, new))

    def test_patience_with_the_rest(self) -> None:
        """At random: equal items that rise in both lists, and where none stands once, as many as a
        shortest edit has."""
        for seed in range(200):
            random = Random(seed)
            letters = "ab" if seed % 2 else "abcdefgh"
            old, new = (random.choices(letters, k=random.randrange(14)) for _ in range(2))
            pairs = patience(old, new, ShortestEdit(10**6, 10**6).pairs)
            with self.subTest(seed):
                self.assertEqual([old[x] for x, _ in pairs], [new[y] for _, y in pairs])
                for one, other in zip(pairs, pairs[1:]):
                    self.assertTrue(one[0] < other[0] and one[1] < other[1], pairs)
                if min([*Counter(old).values(), *Counter(new).values()], default=2) > 1:
                    self.assertEqual(len(pairs), longest(old, new))

    def test_shortest_edit(self) -> None:
        # the example of Myers's paper: a common subsequence of four
        edit = ShortestEdit(1000, 1000)
        pairs = edit.pairs("abcabba", "cbabac")
        self.assertEqual(len(pairs), 4)
        self.assertTrue(all("abcabba"[x] == "cbabac"[y] for x, y in pairs))
        by_second = sorted(pairs, key=lambda pair: pair[1])
        self.assertEqual(pairs, by_second)
        self.assertEqual(ShortestEdit(10, 1000).pairs("abcabba", "cbabac"), [])
        twice = ShortestEdit(60, 60)
        self.assertEqual([len(twice.pairs("abcabba", "cbabac")) for _ in range(3)], [4, 0, 0])

    def test_sliding(self) -> None:
        self.assertEqual(sliding([(0, 0), (1, 2)], "ab", "axb"), set())
        self.assertEqual(sliding([(0, 0), (1, 2)], "ab", "abb"), {(1, 2)})
        self.assertEqual(sliding([(0, 0), (1, 1), (2, 3)], "abc", "abbc"), {(1, 1)})
        self.assertEqual(sliding([(0, 0), (2, 1)], "abb", "ab"), {(2, 1)})

    def test_tokens(self) -> None:
        tokens = tokens_of("a.b  (c1)", 0)
        self.assertEqual([token.text for token in tokens], ["a", ".", "b", "(", "c1", ")"])
        self.assertEqual(
            [token_at(tokens, character) for character in range(11)],
            [0, 0, 2, 2, None, 3, 4, 4, 4, None, None],
        )


if __name__ == "__main__":
    unittest.main()
