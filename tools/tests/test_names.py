"""Tests of the places of tags: rows by hand, random texts against patterns as ctags writes them
and plain regular expressions, and trees of real sources against the lines that ctags itself says.

`tools/tests/same_names FOLDER ..` goes through any trees.
"""

import os
import re
import shutil
import subprocess
import sys
import tempfile
import unittest
from typing import Any, Iterator, NoReturn
from unittest import mock

from codenav.asking import tags
from codenav.asking.project import Project
from codenav.faults import NoReply
from codenav.texts import tagged
from codenav.texts.places import Place, units
from codenav.texts.sources import Folder, Source
from codenav.texts.today import Today
from tests.randomly import check_cases
from tests.servers import TOP

PART = r"[\w\u0300-\u036f]"
"""A character of an identifier, of those that the texts here have."""
CONTROLS = re.compile("[\x00-\x08\x0b-\x1f\x7f]")


def tag(name: str, address: str, line: str = "", file: str = "a.c", kind: str = "f") -> tags.Tag:
    """A tag as the server has it."""
    fields = [["line", line]] if line else []
    own = {"name": name, "file": file, "address": address, "fields": fields, "kind": kind}
    return {**own, "line": 1, "project": "app"}


def column_in(line: str, name: str) -> int:
    """Where a name stands on a line, in UTF-16 code units: first as a whole, else at all, else
    0."""
    escaped = re.escape(name)
    found = re.search(f"(?<!{PART}){escaped}(?!{PART})", line) or re.search(escaped, line)
    return units(line[: found.start()]) if found else 0


def no_dump(path: str, parameters: dict[str, Any], member: str) -> NoReturn:
    """The answer of a server that has tags alone."""
    raise NoReply("D01 project has no dump")


def found_in(
    folder: str, asked: list[tags.Tag], sources: dict[str, Source]
) -> tuple[list[tuple[tags.Tag, Place]], str]:
    """The places of tags of a project whose tags file was made in a folder, and what is said."""
    names = tags.Names()
    project = Project("app", no_dump, Today(sources, [], print))
    return list(names.places(project, asked, lambda _: folder)), names.said()


class Lines(unittest.TestCase):
    def test_numbers_alone(self) -> None:
        """A number finds no line that lacks the name, however long the line is."""
        for before in "x ", "x " * 10_000:
            lines = tagged.Tagged([f"{before}name", f"{before}named", f"{before}other"])
            for line, found in (1, 0), (2, 1), (3, None), (4, None):
                with self.subTest(line, length=len(before)):
                    tag = {"name": "name", "kind": "f", "address": str(line), "fields": []}
                    self.assertEqual(lines.line_of(tag), found)


class OverFiles(unittest.TestCase):
    """Tests over files of a folder of their own."""

    def setUp(self) -> None:
        self.folder = self.enterContext(tempfile.TemporaryDirectory())

    def written(self, text: str, name: str = "a.c") -> None:
        """Writes a file."""
        path = os.path.join(self.folder, name)
        with open(path, "w", encoding="utf-8", errors="surrogateescape", newline="") as file:
            file.write(text)

    def places(self, *asked: tags.Tag) -> list[tuple[int, int]]:
        """The lines and columns of tags, from 0."""
        return self.found(*asked)[0]

    def found(self, *asked: tags.Tag, **sources: Source) -> tuple[list[tuple[int, int]], str]:
        """The same, and what is said."""
        found, said = found_in(self.folder, list(asked), dict(sources))
        return [(place.line, place.character) for _, place in found], said


class Rows(OverFiles):
    def test_lines(self) -> None:
        text = "int f;\n  /* a/b\\c */ f()\nf() $\nint f;\n#define fg 1\n#define f$x\nf();\rf();"
        for address, line, found in (
            ("3", "", 2),
            ("99", "", 6),
            ("/^int f;$/", "", 0),
            ("?^int f;$?", "", 3),
            ("4;/^int f;$/", "", 3),
            ("0;/^int f;$/", "", 0),
            ("2;/^int f;$/", "", 0),
            ("4;/a\\/b\\\\c/", "", 1),
            ("/^int/", "", 0),
            ("/ f()$/", "", 1),
            ("/^f() \\$$/", "", 2),
            ("/gone/", "", 0),
            ("/gone/", "4", 3),
            ("2;/gone/", "4", 3),
            ("/^gone$/", "5", 5),
            ("/", "0", 0),
            # equal lines, and those that begin alike: the nearest, and of two the later
            ("/^int f;$/", "1", 0),
            ("/^int f;$/", "4", 3),
            ("?^int f;$?", "1", 0),
            ("/^int f;$/", "3", 3),
            ("/^int f;$/", "1000", 3),
            ("/^int/", "3", 3),
            ("/^#define f/", "6", 5),
            ("/f()/", "3", 2),
            ("/f;$/", "4", 3),
            # cut behind a dollar, and at a carriage return
            ("/^#define f$/", "", 5),
            ("/^f();$/", "", 6),
            ("/^f();$/", "7", 6),
            # no number at all
            ("9" * 5000, "", 0),
            ("/gone/", "9" * 5000, 0),
            ("/gone/", "x", 0),
        ):
            with self.subTest(address[:20], line=line[:20]):
                self.written(text)
                self.assertEqual(
                    [place[0] for place in self.places(tag("f", address, line))], [found]
                )

    def test_numbers_in_a_file_that_changed(self) -> None:
        self.written("// new\nint f;\n\nint g;\nfg\n")
        for name, kind, number, found in (
            ("f", "v", "1", (1, 4)),
            ("f", "v", "9", (1, 4)),
            ("g", "v", "5", (4, 1)),
            ("f", "F", "3", (2, 0)),
            ("f", "file", "3", (2, 0)),
            ("0", "n", "3", (2, 0)),
            ("__anon1", "s", "3", (2, 0)),
        ):
            with self.subTest(name, number=number):
                self.assertEqual(self.places(tag(name, number, kind=kind)), [found])

    def test_what_is_gone(self) -> None:
        guessed = "1 of 1 places are guessed: "
        gone = "1 of 1 tags aren't shown, for neither "
        for text, name, address, line, found, said in (
            ("int f;\n\nint g;\n", "g", "/^int g;$/", "2", [(2, 4)], ""),
            ("int f;\n\nint g;\n", "h", "/^int h;$/", "2", [], gone),
            ("int f;\n\nint g;\n", "h", "2", "", [], gone),
            ("int f;\n\nint g;\n", "h", "9", "", [], gone),
            ("int f;\n\nint g;\n", "h", "/^int h;$/", "", [], gone),
            ("int f;\n\nint g;\n", "+", "/^+$/", "2", [], gone),
            ("int hh;\nint h2;\n", "h", "/^int h;$/", "2", [], gone),
            ("x.a.bc\n", "a.b", "/^a.b$/", "1", [], gone),
            ("x.a.bc a.b\n", "a.b", "/^a.b$/", "7", [(0, 7)], guessed),
            ("int f;\n\nh();\n", "h", "/^int h;$/", "1", [(2, 0)], guessed),
            ("int f;\n\nh();\n", "h", "1", "", [(2, 0)], guessed),
            ("", "h", "/^int h;$/", "1", [], gone),
        ):
            with self.subTest(text, name=name, address=address, line=line):
                self.written(text)
                places, told = self.found(tag(name, address, line))
                self.assertEqual((places, told[: len(said)]), (found, said))
                self.assertEqual(bool(told), bool(said))

    def test_columns(self) -> None:
        for text, name, column in (
            ("impl Iterator for Iter {", "Iter", 18),
            ("Iterator", "Iter", 0),
            ("my_Iter Iterator", "Iter", 3),
            ("xIter", "Iter", 1),
            ("int x;", "__anon1", 0),
            ("f_ = f2(f)", "f", 8),
            ("T my_operator +(T a), operator +(T b)", "operator +", 22),
            ("a += b + c", "+", 2),
            ("def +(o)", "+", 4),
            ("C::~Foo2() C::~Foo()", "~Foo", 14),
            ("aa.b = a.b1 + a.b", "a.b", 14),
            (".foo-bar2 .foo-bar {", "foo-bar", 11),
            ("(\U0001f600e\u0301 e", "e", 6),
            ("e e\u0301", "e\u0301", 2),
            ("h\u00e9 h\u00e9t\u00e9 h", "h", 8),
            ("$f = 1", "f", 1),
            ("x\u0301\u0302 x\u0301", "x\u0301", 4),
            ("\ufeffint f;", "f", 4),
            ("\udce9\udce8 f", "f", 3),
        ):
            with self.subTest(text, name=name):
                self.written(text)
                self.assertEqual(self.places(tag(name, "1")), [(0, column)])

    def test_order_and_files_that_are_gone(self) -> None:
        self.written("a\nb\n")
        self.written("c\n", "b.c")
        asked = [tag("b", "2"), tag("c", "/^c$/", file="b.c"), tag("a", "/^a$/"), tag("a", "/x/")]
        self.assertEqual(self.places(*asked), [(1, 0), (0, 0), (0, 0), (0, 0)])
        gone = [tag("b", "/^b$/", file="gone.c"), tag("b", "/^b$/", "7", file="gone.c")]
        places, said = self.found(*gone, tag("a", "1"), tag("gone", "/^gone$/"))
        self.assertEqual(places, [(0, 0)])
        self.assertRegex(
            said,
            r"\A1 of 4 tags aren't shown, for neither [^;]*; 2 of 4 tags .* aren't here: [^;]*\Z",
        )


CLASSES = "".join(
    f"class {name}:\n    def run(self):\n        return {name.lower()}\n\n\n" for name in "ABC"
)
RUN = "/^    def run(self):$/"


class Mapped(OverFiles):
    """Tags of texts that are known, in files that changed."""

    def setUp(self) -> None:
        super().setUp()
        self.old = self.enterContext(tempfile.TemporaryDirectory())

    def mapped(self, old: str, new: str, *asked: tags.Tag) -> tuple[list[tuple[int, int]], str]:
        """The places of tags of an old text, and what is said."""
        self.written(old, os.path.join(self.old, "a.c"))
        self.written(new)
        return self.found(*asked, app=Folder(self.old, self.folder))

    def test_rows(self) -> None:
        runs = [tag("run", RUN, line) for line in ("2", "7", "12")]
        top, without = "# new\n" * 5, CLASSES.replace(CLASSES[47:94], "")
        changed = f" places changed since {self.old}"
        for old, new, asked, places, said in (
            (CLASSES, CLASSES, runs, [1, 6, 11], ""),
            (CLASSES, top + CLASSES, runs, [6, 11, 16], ""),
            (CLASSES, top + CLASSES, [tag("run", "7;" + RUN)], [11], ""),
            (CLASSES, top + CLASSES, [tag("run", "7")], [11], ""),
            (CLASSES, top + CLASSES, [tag("A", "/^class A:$/")], [5], ""),
            (CLASSES, top + CLASSES, [tag("run", RUN)], [6], ""),
            (CLASSES, top + CLASSES, [tag("a.c", "1", kind="F")], [0], ""),
            # of another text: the nearest line of today
            (CLASSES, top + CLASSES, [tag("run", RUN, "8")], [6], ""),
            (CLASSES, top + CLASSES, [tag("run", RUN, "99")], [16], ""),
            (CLASSES, without, runs, [1, 6], f"1 of 3{changed}"),
            (CLASSES, "\n", runs, [], f"3 of 3{changed}"),
        ):
            with self.subTest(new, asked=asked):
                found, told = self.mapped(old, new, *asked)
                self.assertEqual(([line for line, _ in found], told), (places, said))
        os.unlink(os.path.join(self.folder, "a.c"))
        self.assertEqual(
            self.found(*runs, app=Folder(self.old, self.folder)), ([], f"3 of 3{changed}")
        )

    def test_columns(self) -> None:
        old = "a\n\U0001f600 run(f)\nb\n"
        for new, found in (
            ("\n\na\n\U0001f600 run(f)\nb\n", [(3, 3)]),
            ("a\n\U0001f600\U0001f600 x = run(f)\nb\n", [(1, 9)]),
            ("a\nb\n", []),
        ):
            asked = tag("run", "/^\U0001f600 run(f)$/", "2")
            self.assertEqual(self.mapped(old, new, asked)[0], found, new)


class Many(OverFiles):
    def steps(self, text: str, asked: list[tags.Tag]) -> int:
        """How many calls of functions finding the places of tags takes; of `g` there are none."""
        count = 0

        def counted(*_: object) -> None:
            nonlocal count
            count += 1

        self.written(text)
        shown = [one for one in asked if one["name"] != "g"]
        sys.setprofile(counted)
        try:
            found = self.places(*asked)
        finally:
            sys.setprofile(None)
        self.assertEqual(len(found), len(shown))
        return count

    def rows(self, count: int) -> Iterator[tuple[str, list[tags.Tag]]]:
        """Texts with as many tags: of equal lines, of lines that begin alike, of patterns that find
        nothing any more, and of names on one line."""
        numbers, equal, long = range(1, count + 1), "int f;\n" * count, "f" * 70
        yield equal, [tag("f", "/^int f;$/", str(n)) for n in numbers]
        yield "//\n" * 50 + equal, [tag("f", "/^int f;$/", str(n)) for n in numbers]
        alike = "".join(f"int {long}{n};\n" for n in numbers)
        yield alike, [tag(long, f"/^int {long}/", "1")] * count
        yield equal, [tag("f", f"/^g{n}/", str(n)) for n in numbers]
        yield equal, [tag("f", f"/g{n}/", str(n)) for n in numbers]
        yield "int f.f;\n" * count, [tag("f.f", f"/^g{n}/", str(n)) for n in numbers]
        yield equal, [tag("g", str(n)) for n in numbers]
        names = [f"\u00e9name{n}" for n in numbers]
        yield " ".join(names), [tag(name, "1") for name in names]
        yield "f." * count, [tag(f"f.{n}", "1") for n in numbers]

    def test_many_tags_of_one_file(self) -> None:
        """Twice as many take some twice as many steps."""
        with mock.patch.object(tagged, "MOST_SCANNED", 10_000):
            for row, twice in zip(self.rows(1_000), self.rows(2_000)):
                with self.subTest(row[0][:20], address=row[1][0]["address"]):
                    self.assertLess(self.steps(*twice), 2.5 * self.steps(*row) + 100_000)


def pattern_of(line: str, limit: int, mark: str, has_end: bool) -> str:
    """The pattern that ctags writes of a line: up to a carriage return, cut at a number of bytes
    but in no character, with backslashes before its own, before the mark and before a `$` at the
    end."""
    written, length = "", 0
    text, more, _ = line.partition("\r")
    for index, character in enumerate(text):
        if limit and length >= limit:
            return f"{mark}^{written}{mark}"
        is_last = index == len(text) - 1 and (has_end or bool(more))
        if character in ("\\", mark) or character == "$" and is_last:
            written, length = f"{written}\\", length + 1
        written, length = written + character, length + len(character.encode())
    return f"{mark}^{written}{'$' if has_end else ''}{mark}"


class Random(OverFiles):
    """Texts of few short words and equal lines."""

    PIECES = (
        "f",
        "g",
        "ff",
        "e",
        "e\u0301",
        "\U0001f600",
        " ",
        "$",
        "/",
        "\\",
        "?",
        "^",
        "~",
        "\r",
    )

    def drawn(self, strategies: Any) -> dict[str, Any]:
        """What a case is made of."""
        line = strategies.lists(strategies.sampled_from(self.PIECES), max_size=6).map("".join)
        few = strategies.lists(line, min_size=1, max_size=4)
        return {
            "lines": few.flatmap(
                lambda own: strategies.lists(strategies.sampled_from(own), min_size=1, max_size=12)
            ),
            "name": strategies.sampled_from(("f", "ff", "e", "e\u0301", "~f", "f/g", "$", "?f")),
            "limit": strategies.sampled_from((0, 1, 3, 96)),
            "mark": strategies.sampled_from("/?"),
            "kind": strategies.sampled_from(("pattern", "number", "combine")),
            "shift": strategies.integers(0, 3),
            "has_end": strategies.booleans(),
        }

    def tags_of(self, case: dict[str, Any]) -> Iterator[tags.Tag]:
        """A tag for each line, as ctags writes it."""
        lines, kind = case["lines"], case["kind"]
        for number, line in enumerate(lines, 1):
            has_end = case["has_end"] or number < len(lines)
            pattern = pattern_of(line, case["limit"], case["mark"], has_end)
            address = str(number) if kind == "number" else pattern
            yield tag(
                case["name"],
                f"{number};{pattern}" if kind == "combine" else address,
                "" if kind == "combine" else str(number),
                kind="F" if kind == "number" else "f",
            )

    def test_files_as_they_were_tagged(self) -> None:
        def check(**case: Any) -> None:
            lines = case["lines"]
            self.written("\n".join(lines) + ("\n" if case["has_end"] else ""))
            wanted = [
                (n, column_in(line.removesuffix("\r"), case["name"]))
                for n, line in enumerate(lines)
            ]
            self.assertEqual(self.places(*self.tags_of(case)), wanted)

        check_cases(self, 300, self.drawn, check)

    def test_files_with_lines_put_before(self) -> None:
        """Lines that are no tag's are put on top, and before that so many between any two lines
        that equal ones are far apart."""

        def check(**case: Any) -> None:
            case["kind"], case["limit"], shift = "pattern", 96, case["shift"]
            apart = [part for line in case["lines"] for part in (line, *["%"] * 7)]
            case["lines"] = apart
            asked = [one for one in self.tags_of(case) if one["address"][2:3] != "%"]
            self.written("\n".join(["%"] * shift + apart) + ("\n" if case["has_end"] else ""))
            found = [line for line, _ in self.places(*asked)]
            # the pattern of an empty last line finds any line
            wanted = [
                int(one["fields"][0][1]) - 1 + (0 if one["address"] in ("/^/", "?^?") else shift)
                for one in asked
            ]
            self.assertEqual(found, wanted)

        check_cases(self, 300, self.drawn, check)

    def test_texts_that_are_known_with_lines_put_before(self) -> None:
        """A place that's shown is that of its line, as it was moved; others are counted."""
        before = self.enterContext(tempfile.TemporaryDirectory())

        def check(**case: Any) -> None:
            lines, shift = [line.replace("\r", "") for line in case["lines"]], 1 + case["shift"]
            case.update(lines=lines, has_end=True)
            text = "\n".join(lines) + "\n"
            self.written(text, os.path.join(before, "a.c"))
            self.written("".join(f"% {n}\n" for n in range(shift)) + text)
            asked = list(self.tags_of({**case, "kind": "pattern"}))
            found, said = found_in(self.folder, asked, {"app": Folder(before, self.folder)})
            for one, place in found:
                line = int(one["fields"][0][1]) - 1
                wanted = (line + shift, column_in(lines[line], case["name"]))
                self.assertEqual((place.line, place.character), wanted)
            count = f"{len(asked) - len(found)} of {len(asked)} places changed since {before}"
            self.assertEqual(said, count if len(found) < len(asked) else "")

        check_cases(self, 300, self.drawn, check)

    def test_any_text_by_one_pass_for_each_tag(self) -> None:
        """Of any text, each pattern as a regular expression of its own, line by line."""

        def found_in(texts: list[str], address: str) -> list[list[int]]:
            """The lines that an address finds, and those that it does where a `$` at its end is
            only that."""
            at_end = re.search(r"(?<!\\)(\\\\)*\$$", address[1:-1]) is not None
            text = re.escape(re.sub(r"\\(.)", r"\1", address[2 : -2 if at_end else -1]))
            readings = [rf"{text}\Z", rf"{text}\$"] if at_end else [text]
            return [
                [n for n, line in enumerate(texts) if re.match(one, line.split("\r")[0])]
                for one in readings
            ]

        def check(**case: Any) -> None:
            case["kind"] = "pattern"
            asked = list(self.tags_of(case))
            today = [*case["lines"][::-1], *case["lines"][: case["shift"]]]
            self.written("\n".join(today))
            for one, (line, _) in zip(asked, self.places(*asked)):
                near = int(one["fields"][0][1]) - 1
                readings = found_in(today, one["address"])
                found: list[int] = next(filter(None, readings), [])
                if found and not any(near in reading for reading in readings):
                    self.assertEqual(line, min(found, key=lambda n: (abs(n - near), -n)))
                elif found:
                    self.assertEqual(line, near)

        check_cases(self, 300, self.drawn, check)


def tags_in(folder: str, *options: str) -> list[tags.Tag]:
    """The tags that ctags makes of a folder, as the server would have them."""
    words = ["ctags", "-R", "-f", "-", "--fields=+n", *options, "."]
    run = subprocess.run(words, cwd=folder, capture_output=True, check=True)
    found = []
    for line in run.stdout.decode(errors="replace").split("\n"):
        if line and "\ufffd" not in line and not CONTROLS.search(line):
            head, _, fields = line.rpartition(';"\t')
            name, file, address = head.split("\t", 2)
            kind, *more = fields.split("\t")
            one = tag(name.replace("\\\\", "\\"), address, file=file, kind=kind)
            found.append({**one, "fields": [field.split(":", 1) for field in more if ":" in field]})
    return found


def lines_of(path: str) -> list[str]:
    """The lines of a file."""
    with open(path, encoding="utf-8", errors="surrogateescape", newline="") as file:
        return [line.removesuffix("\r") for line in file.read().removeprefix("\ufeff").split("\n")]


def wrong_in(folder: str, *options: str) -> tuple[int, list[str]]:
    """How many tags ctags makes of a folder, and a line for each whose place is wrong: the line by
    the field `line`, the column by the text there."""
    asked, wrong = tags_in(folder, *options), []
    places = [place for _, place in found_in(folder, asked, {})[0]]
    texts: dict[str, list[str]] = {}
    for one, place in zip(asked, places):
        line = next(int(value) for name, value in one["fields"] if name == "line") - 1
        if place.name not in texts:
            texts[place.name] = lines_of(place.name)
        wanted = line, column_in(texts[place.name][line], one["name"])
        if wanted != (place.line, place.character):
            at, right = (place.line + 1, place.character + 1), (line + 1, wanted[1] + 1)
            wrong.append(f"{place.name}: {one['name']}: {at}, and right is {right}")
    return len(asked), wrong + ["a tag has no place"] * (len(asked) - len(places))


class Trees(unittest.TestCase):
    def test_the_tools_own_tree(self) -> None:
        """By each kind of address that ctags writes."""
        if shutil.which("ctags") is None:
            self.skipTest("apt-get install universal-ctags")
        for options in (
            (),
            ("--excmd=number",),
            ("--excmd=combine",),
            ("-B", "--extras=+gq"),
            ("--pattern-length-limit=20", "--extras=+f"),
        ):
            with self.subTest(options):
                count, wrong = wrong_in(os.path.join(TOP, "tools"), *options)
                self.assertGreater(count, 1000)
                self.assertEqual(wrong[:5], [])
