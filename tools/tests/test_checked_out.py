"""Tests of which commit a folder's index is of: none, where a file that git has differs from it."""

import os
import shutil
from functools import partial
from typing import Callable

from codenav.texts.checked_out import indexed_at, still_indexed_at
from tests.repository import InRepository

NAMES = ("a.c", 'a "b\\\n.c', "-x/b.c")


class CheckedOut(InRepository):
    """A repository with a submodule that has one too, and a link."""

    def setUp(self) -> None:
        super().setUp()
        self.inner, self.outer = (os.path.join(self.home, name) for name in ("inner", "outer"))
        for top in self.inner, self.outer:
            os.mkdir(top)
            self.git("init", "-q", top=top)
            self.write("in.c", "int in(void);\n", top)
            self.commit(top)
        self.git("submodule", "--quiet", "add", self.inner, "deep", top=self.outer)
        self.commit(self.outer)
        for name in NAMES:
            self.write(name, "int one(void);\n")
        os.symlink("a.c", os.path.join(self.top, "link"))
        self.git("submodule", "--quiet", "add", self.outer, "sub")
        self.git("config", "-f", ".gitmodules", "submodule.sub.ignore", "all")
        self.git("submodule", "--quiet", "update", "--init", "--recursive")
        self.sub = os.path.join(self.top, "sub")
        self.deep = os.path.join(self.sub, "deep")
        self.head = self.commit()

    def mark(self, how: str, *names: str, top: str = "") -> None:
        """Marks files in git's index."""
        self.git("update-index", how, "--", *names, top=top)

    def relink(self) -> None:
        """Has the link lead elsewhere."""
        os.remove(os.path.join(self.top, "link"))
        os.symlink("b.c", os.path.join(self.top, "link"))

    def sparse(self) -> None:
        """Leaves out of the work tree what isn't at its top."""
        self.git("sparse-checkout", "set", "--cone")
        self.assertFalse(os.path.exists(os.path.join(self.top, NAMES[2])))

    def test_changes(self) -> None:
        """Each of what's done to a repository, by itself; its index stays as it is."""
        skip, assume = "--skip-worktree", "--assume-unchanged"
        rows: list[tuple[str, bool, list[Callable[[], object]]]] = [
            ("nothing", False, []),
            ("a file", True, [lambda: self.write("a.c", "int new(void);\n")]),
            ("staged", True, [lambda: self.write("a.c", "x\n"), lambda: self.git("add", "-A")]),
            ("taken away", True, [lambda: os.remove(os.path.join(self.top, "a.c"))]),
            ("unknown to git", False, [lambda: self.write("new.c", "x\n")]),
            ("written again", False, [lambda: self.write("a.c", "int one(void);\n")]),
            ("another commit", True, [lambda: self.git("commit", "-q", "--allow-empty", "-mx")]),
            ("sparse", False, [self.sparse]),
            ("another link", True, [self.relink]),
            ("marked, the same", False, [lambda: self.mark(skip, *NAMES, "link", "sub")]),
            ("assumed, the same", False, [lambda: self.mark(assume, *NAMES, "link", "sub")]),
            (
                "both, the same",
                False,
                [lambda: self.mark(skip, *NAMES), lambda: self.mark(assume, *NAMES)],
            ),
            ("a link that is marked", True, [lambda: self.mark(skip, "link"), self.relink]),
            (
                "sparse, and a file that's there",
                True,
                [self.sparse, lambda: self.write(NAMES[2], "x\n")],
            ),
            ("a submodule's file", True, [lambda: self.write("in.c", "x\n", self.sub)]),
            ("a deep one's file", True, [lambda: self.write("in.c", "x\n", self.deep)]),
            ("a submodule's new file", False, [lambda: self.write("new.c", "x\n", self.sub)]),
            (
                "a submodule's marked file",
                True,
                [
                    lambda: self.mark(assume, "in.c", top=self.sub),
                    lambda: self.write("in.c", "x\n", self.sub),
                ],
            ),
            (
                "a submodule's commit",
                True,
                [lambda: self.git("commit", "-q", "--allow-empty", "-mx", top=self.sub)],
            ),
            (
                "a marked submodule's commit",
                True,
                [
                    lambda: self.mark(assume, "sub"),
                    lambda: self.git("commit", "-q", "--allow-empty", "-mx", top=self.sub),
                ],
            ),
            (
                "no submodule",
                False,
                [lambda: self.git("submodule", "--quiet", "deinit", "--force", "sub")],
            ),
        ]
        for how in skip, assume:
            for name in NAMES:
                marked = partial(self.mark, how, name)
                written = partial(self.write, name, "int six(void);\n")
                rows.append((f"{how} {name}", True, [marked, written]))
        kept = f"{self.top}.kept"
        os.rename(self.top, kept)
        for what, is_change, steps in rows:
            with self.subTest(what):
                self.renew(kept)
                for step in steps:
                    step()
                index = self.index()
                line = f"{self.top} changed meanwhile, so the index is of no revision"
                found = still_indexed_at(self.top, self.head, None)
                self.assertEqual(found, ("", line) if is_change else (self.head, ""))
                head = self.git("rev-parse", "HEAD")
                is_change = is_change and head == self.head
                line = (
                    f"{self.top} has changes that aren't committed, so the index is of no revision"
                )
                self.assertEqual(
                    indexed_at(self.top, None), ("", line) if is_change else (head, "")
                )
                line = (
                    f"{self.top} has files that differ from HEAD, of which the index is said to be"
                )
                found = still_indexed_at(self.top, head, "HEAD")
                self.assertEqual(found, (head, line if is_change else ""))
                self.assertEqual(self.index(), index)

    def index(self) -> bytes:
        """What git keeps of the work tree."""
        with open(os.path.join(self.top, ".git", "index"), "rb") as file:
            return file.read()

    def renew(self, kept: str) -> None:
        """Makes the repository what it was."""
        shutil.rmtree(self.top, ignore_errors=True)
        shutil.copytree(kept, self.top, symlinks=True)
        self.git("update-index", "-q", "--refresh")
