"""Tests of `index --state` on Python: what changed is asked again, with what was found by it, and the
dump is that of a whole run."""

import os
import random
import unittest
from importlib.util import find_spec
from typing import Mapping
from unittest import mock

from codenav.index.kept import Said
from codenav.index.python import asking
from codenav.index.python.again import asked_again
from codenav.texts.places import path_of
from tests.python_trees import Tree as PythonTree
from tests.test_index_again import Again, Tree

LOOKED = {
    "a module that hides an installed one": ("queue.py", "class Queue:\n    def get(self): pass\n"),
    "a stub": ("a.pyi", "class A:\n    def run(self): pass\n"),
    "a package in place of a module": ("b/__init__.py", "from a import A as make\n"),
    "one more package around": ("__init__.py", ""),
    "a module that's missing": ("missing.py", "here = 1\n"),
    "a folder that's missing": ("none/one.py", "here = 1\n"),
    "a fixture": ("conftest.py", "import pytest\n@pytest.fixture\ndef some(): return []\n"),
    "a module of a package that's named": ("p/named.py", "here = 1\n"),
    "another root": ("src/missing.py", "here = 2\n"),
}
"""Files that change by being there what others lead to."""


@unittest.skipUnless(find_spec("jedi"), "jedi isn't installed")
class OfPython(Again):
    files = {
        "a.py": "class A:\n    def run(self): pass\nclass B:\n    def run(self): pass\n",
        "b.py": "import a\ndef make(): return a.A()\n",
        "c.py": "import b\nmade = b.make()\n",
        "d.py": "import c\nc.made.run()\n",
        "e.py": "import queue, missing, none.one, p\nqueue.Queue().get()\nmissing.here, none.one.here\n"
        "p.named.here\ndef test_e(some): some.append\n",
        "p/__init__.py": "",
        "p/other.py": "x = y = 1\n",
    }

    def asked(self) -> list[str]:
        """The files that a call asks of that may keep answers."""
        seen = list[set[str]]()

        def look(folder: str, before: Mapping[str, Said], digests: Mapping[str, str]) -> set[str]:
            seen.append(asked_again(folder, before, digests))
            return seen[-1]

        with mock.patch.object(asking, "asked_again", look):
            self.again()
        return sorted(os.path.relpath(path_of(uri, []) or "", self.folder) for uri in seen[0])

    def test_over_files(self) -> None:
        """A file is asked again by what its answers were found by, over any number of files."""
        self.assertEqual(self.asked(), sorted(self.files))
        self.assert_answers({("definition", "d.py", 1, 7): ["a.py:1"]})
        with mock.patch.object(asking, "Team", side_effect=AssertionError):
            self.assertEqual(self.call("--state", self.state)[0], 0)
        self.put({**self.files, "b.py": "import a\ndef make(): return a.B()\n"})
        self.assertEqual(self.asked(), ["b.py", "c.py", "d.py"])
        self.assert_answers({("definition", "d.py", 1, 7): ["a.py:3"]})

    def test_many(self) -> None:
        """Of many files one that changed is asked again with those alone that need it."""
        tree: Tree = {
            f"m{n}.py": f"import m{n // 2}\ndef f{n}(): return m{n // 2}.f{n // 2}\n"
            for n in range(300)
        }
        self.put(tree)
        self.call("--state", self.state)
        tree["m20.py"] = "\n" + tree["m20.py"]
        self.put(tree)
        self.assertEqual(self.asked(), ["m20.py", "m40.py", "m41.py"])

    def test_looked_for(self) -> None:
        """A file that comes or goes differs for those that looked for it."""
        tree = dict(self.files)
        self.again()
        for title, (name, text) in LOOKED.items():
            with self.subTest(title=title):
                tree[name] = text
                self.put(tree)
                self.again()
        self.put(self.files)
        self.again()

    def test_other_files(self) -> None:
        """What isn't of the folder counts by its stamp."""
        self.put(self.files)
        path = os.path.join(self.home, "given.py")
        os.symlink(path, os.path.join(self.folder, "missing.py"))
        for text in ("here = 1\n", "\n\nhere = 1\n", "here = here = 2\n"):
            with open(path, "w", encoding="utf-8") as file:
                file.write(text)
            self.again()
        os.unlink(path)
        self.again()

    def test_edits(self) -> None:
        def first(chance: random.Random) -> Tree:
            tree: Tree = {}
            PythonTree(chance, tree).begin()
            return tree

        with mock.patch.object(self, "first", first):
            self.edit(lambda chance, tree: PythonTree(chance, tree).edit(), range(2), 4)


if __name__ == "__main__":
    unittest.main()
