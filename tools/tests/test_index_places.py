"""Tests of the places that `index` writes where a server names one that is no word's."""

import io
import os
import random
import shutil
import unittest
from itertools import combinations

from codenav.index.answers import Answers, Place
from codenav.index.grouped import Grouped
from codenav.index.monikers import Monikers, Packages
from codenav.index.documents import Lines
from codenav.index.written import DumpWriter
from codenav.outcome import Notes
from codenav.texts.places import uri_of
from tests.test_index import OnFolder
from tests.test_set_service import asked_at

TYPES = {"T0": "", "T1": "", "T2": "of.", "T3": "other.", "T4": "of.", "T5": "other."}
GENERIC = {"T1": "[int]", "T3": "[string]"}


def embedding(chance: random.Random) -> tuple[str, dict[str, tuple[int, int]]]:
    """A text of Go that embeds types in several ways, and where each field's name begins there."""
    lines = ["package user", "", "import (", '\t"e.x/g/of"', '\tother "e.x/g/of"', ")", ""]
    lines += ["type T0 struct{}", "", "type T1[P any] struct{}", "", "type All struct {"]
    found = dict[str, tuple[int, int]]()
    for name in chance.sample(sorted(TYPES), len(TYPES)):
        before = "\t" + chance.choice(["", "/* Ü\U0001f600 */ "]) + chance.choice(["", "*"])
        before += TYPES[name]
        found[name] = len(lines), len(before.encode("utf-16-le")) // 2
        lines.append(f"{before}{name}{GENERIC.get(name, '')}")
    lines += ["}", "", "var V All", *(f"var Of{name} = V.{name}" for name in sorted(TYPES)), ""]
    return "\n".join(lines), found


@unittest.skipUnless(shutil.which("gopls") and shutil.which("go"), "gopls isn't installed")
class Embedded(OnFolder):
    """A field whose name is its type's leads to that, and what uses the field to the name."""

    files = {
        "go.mod": "module e.x/g\n\ngo 1.18\n",
        "of/of.go": "package of\n\n"
        + "\n".join(
            f"type {name}{'[P any]' if name in GENERIC else ''} struct{{}}"
            for name, package in TYPES.items()
            if package
        ),
    }

    def places(self, kind: str, line: int, start: int) -> list[str]:
        """The places that are answered, each as its file, its line and its columns."""
        uri = uri_of(os.path.join(self.folder, "user.go"), [])
        parameters = {"uri": uri, "line": line, "character": start}
        return sorted(
            f"{os.path.basename(one['uri'])}:{one['start']['line']}:"
            f"{one['start']['character']}-{one['end']['character']}"
            for one in asked_at(self.url, "app").query(kind, parameters, "places")
        )

    def test_fields(self) -> None:
        for seed in range(4):
            text, found = embedding(random.Random(seed))
            with open(os.path.join(self.folder, "user.go"), "w", encoding="utf-8") as file:
                file.write(text)
            status, said = self.index()
            self.assertEqual(status, 0, said)
            self.upload("app")
            lines = text.split("\n")
            for name, (line, start) in found.items():
                use = next(at for at, one in enumerate(lines) if one.startswith(f"var Of{name} "))
                column = lines[use].index(".") + 1
                field, own = (
                    f"user.go:{at}:{begin}-{begin + 2}"
                    for at, begin in ((line, start), (use, column))
                )
                declared = ":5-7" if TYPES[name] else f"user.go:{7 if name == 'T0' else 9}:5-7"
                with self.subTest(seed=seed, name=name, text=lines[line]):
                    self.assertEqual(self.places("definition", use, column), [field])
                    self.assertEqual(self.places("references", use, column), sorted([field, own]))
                    types = self.places("definition", line, start)
                    self.assertEqual([one[-len(declared) :] for one in types], [declared])
                    self.assertIn(field, self.places("references", line, start))
                    uri = uri_of(os.path.join(self.folder, "user.go"), [])
                    at = {"uri": uri, "line": use, "character": column}
                    said = str(asked_at(self.url, "app").query("hover", at, "contents"))
                    self.assertIn(f"field {name} ", said)


@unittest.skipUnless(shutil.which("clangd"), "clangd isn't installed")
class Backslash(OnFolder):
    """Files that clangd takes for others aren't asked, and nothing leads into these for them."""

    files = {
        "ok.c": '#include "back\\two.h"\n#include "other.h"\n'
        "int four(void) { return two() + three(); }\n",
        "back\\two.h": "static inline int two(void) { return 2; }\n",
        "back/two.h": "\nint lone(void);\n",
        "back\\other.c": "int none(void) { return none(); }\n",
        "back/other.c": '#include "../other.h"\nint three(void) { return three(); }\n',
        "other.h": "int three(void);\n",
    }

    def test_left_out(self) -> None:
        status, said = self.index()
        self.assertEqual(status, 1, said)
        what = "a file whose path has a backslash, which the server takes for a slash: 2, the first at "
        self.assertIn(f"left out: {what}{os.path.join(self.folder, 'back')}\\", said)
        self.assertNotIn("the server wasn't ready", said)
        self.assert_answers(
            {
                ("definition", "ok.c", 2, 24): [],
                ("definition", "ok.c", 2, 32): ["other.c:1"],
                ("definition", "back/other.c", 1, 26): ["other.c:1"],
                ("references", "other.h", 0, 4): [
                    *("ok.c:2", "other.c:1", "other.c:1", "other.h:0"),
                ],
                ("definition", "back\\other.c", 0, 24): [],
            }
        )


def crosses(one: Place, two: Place) -> bool:
    """Whether two places cross."""
    first, second = sorted((one[1:], two[1:]))
    return first[:2] < second[:2] < first[2:] < second[2:]


class Apart(unittest.TestCase):
    """Which places are written of those that a server names."""

    def test_by_chance(self) -> None:
        """Each word is, no two cross, and each that's left out crosses another."""
        for seed in range(300):
            chance = random.Random(seed)
            cuts = sorted(chance.sample(range(30), 12))
            words = {Place("u", 0, a, 0, b) for a, b in zip(cuts[::2], cuts[1::2])}
            others = set[Place]()
            for _ in range(chance.randrange(8)):
                one, two = sorted(chance.sample(range(30), 2))
                others.add(Place("u", 0, one, 0, two))
            found = Answers(words={word.at: word for word in words})
            notes = Notes()
            packages = Packages("/", {}, [])
            monikers = Monikers(packages, found, Lines([]), notes)
            writer = DumpWriter(io.BytesIO(), Grouped(found), monikers, notes)
            with self.subTest(seed=seed):
                kept = writer.apart(words | others)
                self.assertLessEqual(words, set(kept))
                self.assertEqual([pair for pair in combinations(kept, 2) if crosses(*pair)], [])
                for place in others - words - set(kept):
                    self.assertTrue(any(crosses(place, one) for one in words | others), place)
                is_whole = set(kept) == words | others
                self.assertEqual(notes.all() == (), is_whole)


class InOrder(unittest.TestCase):
    """A dump is the same in whatever order a server answers."""

    def dump(self, found: Answers, chance: random.Random) -> bytes:
        """The dump of answers that came by chance."""
        for name in "words", "leads", "hovers", "implementations":
            rows = [*getattr(found, name).items()]
            chance.shuffle(rows)
            setattr(found, name, dict(rows))
        out, notes = io.BytesIO(), Notes()
        monikers = Monikers(Packages("/own", {}, []), found, Lines([]), notes)
        writer = DumpWriter(out, Grouped(found), monikers, notes)
        writer.write("file:///own", ["file:///own/a.go", "file:///own/b.go"], "1")
        return out.getvalue()

    def test_by_chance(self) -> None:
        for seed in range(100):
            chance = random.Random(seed)
            own = [
                Place(f"file:///own/{file}.go", at, 0, at, 3) for file in "ab" for at in range(5)
            ]
            other = [Place(f"file:///{name}.go", at, 0, at, 3) for name in "xyz" for at in (1, 2)]
            found = Answers(words={word.at: word for word in own})
            for word in own:
                found.leads[word] = sorted(chance.sample(own + other, chance.randrange(1, 3)))
            for symbol in {to for places in found.leads.values() for to in places}:
                found.hovers[symbol] = f"of {symbol.line % 2}"
                found.implementations[symbol] = sorted(chance.sample(own + other, 2))
            with self.subTest(seed=seed):
                self.assertEqual(self.dump(found, chance), self.dump(found, chance))


if __name__ == "__main__":
    unittest.main()
