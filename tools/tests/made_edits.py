"""Edits of a text that know what became of each word: 26 kinds, as people make them and as
formatters, renames and merges do.

A text is a list of lines, a line a list of items, words, signs and white space, each with an
identity that it keeps through an edit. What is written anew, a copy too, has a new identity.
"""

import re
from collections import Counter
from itertools import count
from random import Random
from typing import Callable, Optional

from codenav.texts.places import units

Item = tuple[int, str]
Line = list[Item]
Lines = list[Line]
Place = tuple[int, int]

ITEM = re.compile(r"\n|[^\S\n]+|\w+|[^\w\s]")
WRITTEN = count(1_000_000_000)
KEYWORDS = set(
    "if else for while return def fn let mut pub use import from class struct impl match self int char void static "
    "const function var in not and or None True False".split()
)
HEAD = re.compile(
    r"\s{0,4}(pub(\(\w+\))? |async |static |export |unsafe |const |extern )*(fn|def|class|function|impl|struct)\b"
    r"|[a-zA-Z_][\w \*]*\(.*"
)
IMPORT = re.compile(r"\s*(use|import|from|#include|const .* = require)\b")


def written(text: str) -> Line:
    """Items that are new."""
    return [(next(WRITTEN), part) for part in ITEM.findall(text)]


def copied(lines: Lines) -> Lines:
    """Lines of the same texts that are new."""
    return [[(next(WRITTEN), text) for _, text in line] for line in lines]


def text_of(line: Line) -> str:
    """The text of items."""
    return "".join(text for _, text in line)


def divided(items: Line) -> Lines:
    """The lines of items."""
    lines: Lines = [[]]
    for item in items:
        lines[-1].append(item)
        if item[1].endswith("\n"):
            lines.append([])
    return lines if lines[-1] else lines[:-1]


def is_word(text: str) -> bool:
    """Whether an item is a word or a number."""
    return text[0] == "_" or text[0].isalnum()


def is_blank(line: Line) -> bool:
    """Whether a line has nothing but white space."""
    return not text_of(line).strip()


def indent(line: Line) -> int:
    """The length of the white space before a line's text."""
    return len(line[0][1]) if line and line[0][1].isspace() and line[0][1] != "\n" else 0


def words_at(line: Line) -> list[int]:
    """Which items of a line are words."""
    return [at for at, (_, text) in enumerate(line) if is_word(text)]


def names(lines: Lines) -> list[str]:
    """The names that stand most often, at most 40."""
    found = Counter(text for line in lines for _, text in line if is_word(text))
    own = (name for name, _ in found.most_common() if not name[0].isdigit() and len(name) > 1)
    return [name for name in own if name not in KEYWORDS][:40]


def blocks(lines: Lines) -> list[tuple[int, int]]:
    """Where functions begin and end, about: from a line that heads one to the last that is deeper,
    or closes it."""
    found, at = [], 0
    while at < len(lines):
        end = at + 1
        if HEAD.match(text_of(lines[at])):
            depth = indent(lines[at])
            while end < len(lines) and (is_blank(lines[end]) or indent(lines[end]) > depth):
                end += 1
            while (
                end < len(lines)
                and re.match(r"\s*[})]", text_of(lines[end]))
                and indent(lines[end]) == depth
            ):
                end += 1
            while end > at + 1 and is_blank(lines[end - 1]):
                end -= 1
            if 4 <= end - at <= 80:
                found.append((at, end))
        at = end
    return found


def a_block(random: Random, lines: Lines) -> tuple[int, int]:
    """A function; without one some lines."""
    found = blocks(lines)
    return random.choice(found) if found else (len(lines) // 3, len(lines) // 2)


def two_blocks(random: Random, lines: Lines) -> tuple[tuple[int, int], tuple[int, int]]:
    """Two functions, the first of them above."""
    found = blocks(lines)
    first, second = sorted(random.sample(found, 2))
    return first, second


# What is added and removed


def new_lines(random: Random, lines: Lines) -> Lines:
    """Lines with new words at 8 places."""
    for _ in range(8):
        at = random.randrange(len(lines))
        pad = " " * indent(lines[at])
        lines[at:at] = [
            written(
                f"{pad}let value{random.randrange(10**6)} = made_{random.randrange(10**6)}(self, {at});\n"
            )
            for _ in range(random.randint(1, 4))
        ]
    return lines


def copied_lines(random: Random, lines: Lines) -> Lines:
    """Copies of up to 5 lines of the file at 8 places."""
    for _ in range(8):
        length = random.randint(1, 5)
        start, at = random.randrange(len(lines) - length), random.randrange(len(lines))
        lines[at:at] = copied(lines[start : start + length])
    return lines


def removed_lines(random: Random, lines: Lines) -> Lines:
    """Up to 6 lines gone at 8 places."""
    for _ in range(8):
        at = random.randrange(len(lines))
        del lines[at : at + random.randint(1, 6)]
    return lines


def removed_single_lines(random: Random, lines: Lines) -> Lines:
    """Six lines gone, of those that stand more than once."""
    found = Counter(map(text_of, lines))
    many = [line for line in lines if found[text_of(line)] > 1 and words_at(line)]
    gone = {id(line) for line in random.sample(many, min(6, len(many)))}
    return [line for line in lines if id(line) not in gone]


# What is renamed and laid out anew


def replaced_names(lines: Lines, names: dict[str, str]) -> Lines:
    """The lines with other names, each of them a new word."""
    return [
        [(next(WRITTEN), names[text]) if text in names else (own, text) for own, text in line]
        for line in lines
    ]


def renamed(random: Random, lines: Lines) -> Lines:
    """Four names changed everywhere."""
    chosen = random.sample(names(lines), 4)
    return replaced_names(lines, {name: f"{name}_{random.randrange(1000)}" for name in chosen})


def exchanged_names(random: Random, lines: Lines) -> Lines:
    """Two names exchanged everywhere: all words are in the file still, as names of other things."""
    one, other = random.sample(names(lines), 2)
    return replaced_names(lines, {one: other, other: one})


def indented(random: Random, lines: Lines) -> Lines:
    """60 lines one level deeper."""
    at, length = random.randrange(len(lines)), min(60, len(lines) // 2)
    for number in range(at, min(at + length, len(lines))):
        if not is_blank(lines[number]):
            lines[number] = [*written("    "), *lines[number]]
    return lines


def wrapped(random: Random, lines: Lines) -> Lines:
    """The body of a function inside a condition."""
    start, end = a_block(random, lines)
    pad = " " * (indent(lines[start]) + 4)
    body = [
        line if is_blank(line) else written("    ") + line for line in lines[start + 1 : end - 1]
    ]
    return [
        *lines[: start + 1],
        written(pad + "if (enabled) {\n"),
        *body,
        written(pad + "}\n"),
        *lines[end - 1 :],
    ]


def other_line_ends(random: Random, lines: Lines) -> Lines:
    """Each line ended as Windows does."""
    return [[(own, "\r\n" if text == "\n" else text) for own, text in line] for line in lines]


def tabs(random: Random, lines: Lines) -> Lines:
    """Tabs in the place of four blanks."""
    return [
        written("\t" * (indent(line) // 4)) + line[1:] if indent(line) >= 4 else line
        for line in lines
    ]


def commented(random: Random, lines: Lines) -> Lines:
    """Six lines commented out at 3 places."""
    for _ in range(3):
        at = random.randrange(len(lines))
        for number in range(at, min(at + 6, len(lines))):
            if not is_blank(lines[number]):
                lines[number] = written("// ") + lines[number]
    return lines


def joined_and_divided(random: Random, lines: Lines) -> Lines:
    """20 lines joined to the next, and 20 divided after a comma or an opening bracket."""
    for _ in range(20):
        at = random.randrange(len(lines) - 1)
        line, after = lines[at], lines[at + 1]
        if line[-1][1] == "\n" and not is_blank(line) and not is_blank(after):
            lines[at : at + 2] = [
                line[:-1] + written(" ") + (after[1:] if indent(after) else after)
            ]
    for _ in range(20):
        at = random.randrange(len(lines))
        line = lines[at]
        ends = [
            index
            for index, (_, text) in enumerate(line[:-1])
            if text in ",({[" and line[index + 1][1] != "\n"
        ]
        if ends:
            index = random.choice(ends) + 1
            rest = line[index + 1 :] if line[index][1].isspace() else line[index:]
            pad = written(" " * (indent(line) + 4))
            lines[at : at + 1] = [line[:index] + written("\n"), pad + rest]
    return lines


def formatted(random: Random, lines: Lines) -> Lines:
    """The whole file laid out anew: at most 50 wide, indented by two."""
    found: Line = []
    for line in lines:
        depth = indent(line) // 2
        width = depth
        found += written(" " * depth)
        for item in line[1:] if indent(line) else line:
            is_break = item[1].isspace() and width + len(item[1]) > 50
            is_after = item[1] in ",(" and width > 20 and random.random() < 0.1
            if item[1] != "\n" and not is_break:
                found.append(item)
                width += len(item[1])
            if item[1] != "\n" and (is_break or is_after):
                found += written("\n" + " " * (depth + 2))
                width = depth + 2
        found += written("\n")
    return divided(found)


# What moves


def moved(random: Random, lines: Lines) -> Lines:
    """A function before another one."""
    start, end = a_block(random, lines)
    rest = lines[:start] + lines[end:]
    at = a_block(random, rest)[0]
    return rest[:at] + lines[start:end] + [written("\n")] + rest[at:]


def exchanged(random: Random, lines: Lines) -> Lines:
    """A function and the next one in each other's place."""
    found = blocks(lines)
    at = random.randrange(len(found) - 1)
    (start, end), (next_start, next_end) = found[at : at + 2]
    return (
        lines[:start]
        + lines[next_start:next_end]
        + lines[end:next_start]
        + lines[start:end]
        + lines[next_end:]
    )


def sorted_imports(random: Random, lines: Lines) -> Lines:
    """Imports of one line in another order."""
    at = [
        number
        for number, line in enumerate(lines)
        if indent(line) == 0
        and IMPORT.match(text_of(line))
        and not re.search(r"[({,\\]\s*$", text_of(line))
    ]
    mixed = random.sample(at, len(at))
    old = {number: lines[number] for number in at}
    for number, other in zip(at, mixed):
        lines[number] = old[other]
    return lines


# Words of lines


def words_beside(random: Random, lines: Lines) -> Lines:
    """New words before and after words of 40 lines."""
    for _ in range(40):
        line = random.choice(lines)
        if words_at(line):
            at = random.choice(words_at(line))
            line[at : at + 1] = random.choice(
                [
                    [*written("wrap("), line[at], *written(")")],
                    [line[at], *written(f", extra{random.randrange(99)}")],
                    [*written("self."), line[at]],
                    [*written("not "), line[at]],
                ]
            )
    return lines


def words_again(random: Random, lines: Lines) -> Lines:
    """Before or after words of 30 lines the same word again, as f(x, x) of f(x)."""
    for _ in range(30):
        line = random.choice(lines)
        if words_at(line):
            at = random.choice(words_at(line))
            text = line[at][1]
            line[at : at + 1] = random.choice(
                [[line[at], *written(", " + text)], [*written(text + ", "), line[at]]]
            )
    return lines


def other_words(random: Random, lines: Lines) -> Lines:
    """60 words replaced by others of the file."""
    pool = [text for line in lines for _, text in line if is_word(text)]
    for _ in range(60):
        line, text = random.choice(lines), random.choice(pool)
        if words_at(line):
            at = random.choice(words_at(line))
            if text != line[at][1]:
                line[at] = (next(WRITTEN), text)
    return lines


# Copies of functions


def changed_copy(random: Random, lines: Lines) -> Lines:
    """A copy in which three names are others."""
    copy = copied(lines)
    own = [text for line in copy for _, text in line if is_word(text) and text not in KEYWORDS]
    return replaced_names(copy, {name: name + "2" for name in random.sample(own, min(3, len(own)))})


def copy_behind(random: Random, lines: Lines) -> Lines:
    """A function a second time, behind the first."""
    start, end = a_block(random, lines)
    return lines[:end] + [written("\n")] + copied(lines[start:end]) + lines[end:]


def copy_before(random: Random, lines: Lines) -> Lines:
    """A function a second time, before the first."""
    start, end = a_block(random, lines)
    return lines[:start] + copied(lines[start:end]) + [written("\n")] + lines[start:]


def changed_copy_behind(random: Random, lines: Lines) -> Lines:
    """A function's changed copy behind it."""
    start, end = a_block(random, lines)
    return lines[:end] + [written("\n")] + changed_copy(random, lines[start:end]) + lines[end:]


def changed_copy_before(random: Random, lines: Lines) -> Lines:
    """A function's changed copy before it."""
    start, end = a_block(random, lines)
    return lines[:start] + changed_copy(random, lines[start:end]) + [written("\n")] + lines[start:]


def changed_copy_in_place(random: Random, lines: Lines) -> Lines:
    """A function gone, and in its place a changed copy of another one."""
    (start, end), (other, other_end) = two_blocks(random, lines)
    return lines[:start] + changed_copy(random, lines[other:other_end]) + lines[end:]


def rewritten_elsewhere(random: Random, lines: Lines) -> Lines:
    """A function gone, and elsewhere a new one that has half of its lines."""
    (start, end), (other, other_end) = two_blocks(random, lines)
    if random.random() < 0.5:
        half = [line for line in copied(lines[start:end]) if random.random() < 0.5]
        new = [written("\n"), written("fn newly_made() {\n"), *half, written("}\n")]
        return lines[:start] + lines[end:other_end] + new + lines[other_end:]
    half = [line for line in copied(lines[other:other_end]) if random.random() < 0.5]
    new = [written("fn newly_made() {\n"), *half, written("}\n"), written("\n")]
    return lines[:start] + new + lines[start:other] + lines[other_end:]


Edit = Callable[[Random, Lines], Lines]
SINGLE: list[Edit] = [
    new_lines,
    copied_lines,
    removed_lines,
    removed_single_lines,
    renamed,
    exchanged_names,
    indented,
    wrapped,
    other_line_ends,
    tabs,
    commented,
    joined_and_divided,
    formatted,
    moved,
    exchanged,
    sorted_imports,
    words_beside,
    words_again,
    other_words,
    copy_behind,
    copy_before,
    changed_copy_behind,
    changed_copy_before,
    changed_copy_in_place,
    rewritten_elsewhere,
]


def several(random: Random, lines: Lines) -> Lines:
    """Six of the kinds one after the other."""
    for edit in random.sample([edit for edit in SINGLE if edit not in WHOLE], 6):
        lines = divided([item for line in edit(random, lines) for item in line])
    return lines


WHOLE = (other_line_ends, tabs, formatted, changed_copy_in_place, rewritten_elsewhere)
EDITS = [*SINGLE, several]


def places(lines: Lines) -> dict[int, Place]:
    """The line and the UTF-16 code units before it of each word, by its identity."""
    found, line, character = {}, 0, 0
    for own, text in (item for one in lines for item in one):
        if is_word(text):
            found[own] = line, character
        line += text.count("\n")
        character = (0 if "\n" in text else character) + units(text.rpartition("\n")[2])
    return found


def edited(edit: Edit, seed: int, text: str) -> tuple[str, dict[Place, Optional[Place]]]:
    """A new text, and of each word's place in the old one its place there, or None."""
    random = Random(f"{edit.__name__} {seed} {len(text)}")
    lines = divided(list(enumerate(ITEM.findall(text))))
    before = places(lines)
    new = edit(random, lines)
    after = places(new)
    return "".join(map(text_of, new)), {place: after.get(own) for own, place in before.items()}
