"""Tests of the tags file of a checkout: the names of its files are names, whatever they are."""

import os
import shutil
import unittest
from unittest import mock

from codenav.faults import BadCall
from codenav.index.documents import documents_in
from codenav.index.tags_file import files_of, tagged
from codenav.outcome import Notes
from codenav.texts.places import uri_of
from tests.repository import InRepository
from tests.test_publish import script

SOURCE = "int two(void) { return 2; }\n"


@unittest.skipUnless(shutil.which("ctags"), "Debian's universal-ctags isn't there")
class Tagging(InRepository):
    def lines(self) -> list[tuple[str, str]]:
        """The name and the file of each tag, as they stand in the file."""
        path = os.path.join(self.home, "tags")
        count, left_out = tagged(self.top, files_of(self.top), path)
        with open(path, encoding="utf-8") as file:
            rows = file.read().splitlines()
        self.assertEqual((len(rows), dict(left_out)), (count, {}))
        self.assertEqual(rows, sorted(rows))
        return [(row.split("\t")[0], row.split("\t")[1]) for row in rows]

    def test_names_of_files(self) -> None:
        """With git and without it."""
        names = ["a.c", "-neg.c", "-d/x.c", "d/-x.c", "#h.c", " b.c", "--options=F/x.c"]
        for name in names:
            self.write(name, SOURCE)
        for name in "--version", "--output-format=json", "--help", "-":
            self.write(name, "")
        for is_git in True, False:
            if is_git:
                self.commit()
            else:
                shutil.rmtree(os.path.join(self.top, ".git"))
            with self.subTest(is_git=is_git):
                self.assertEqual(self.lines(), [("two", name) for name in sorted(names)])

    def test_line_feed(self) -> None:
        """A file that no tag can name is left out, and said, and no other is tagged in its place."""
        for name in ("a.c", "b\na.c"):
            self.write(name, SOURCE)
        self.commit()
        path = os.path.join(self.home, "tags")
        count, left_out = tagged(self.top, files_of(self.top), path)
        self.assertEqual((count, dict(left_out)), (1, {"T03": 1}))

    def test_options_of_the_checkout(self) -> None:
        """None are read."""
        self.write(".ctags.d/own.ctags", "--exclude=*.c\n")
        self.write("a.c", SOURCE)
        self.commit()
        self.assertEqual(self.lines(), [("two", "a.c")])

    def test_fault(self) -> None:
        """What it says last is said, and the files that it leaves are in the folder of the tags."""
        self.write("a.c", SOURCE)
        self.commit()
        programs, work = (os.path.join(self.home, name) for name in ("bin", "made"))
        for name in programs, work:
            os.mkdir(name)
        said = "echo one >&2; echo 'ctags: no room' >&2; touch $TMPDIR/tags.left; exit 1"
        script(os.path.join(programs, "ctags"), said)
        with mock.patch.dict(os.environ, {"PATH": f"{programs}:{os.environ['PATH']}"}):
            with self.assertRaisesRegex(BadCall, f"status 1 in {self.top}: ctags: no room$"):
                tagged(self.top, files_of(self.top), os.path.join(work, "tags"))
        self.assertIn("tags.left", os.listdir(work))

    def test_submodules(self) -> None:
        """Files of submodules, over any number of them, are the checkout's: tagged, and indexed also where
        git doesn't have them yet. One that isn't checked out has none."""
        inner, outer = (os.path.join(self.home, name) for name in ("inner", "outer"))
        for top in inner, outer:
            os.mkdir(top)
            self.git("init", "-q", top=top)
            self.write("in.c", SOURCE, top)
            self.commit(top)
        self.git("submodule", "--quiet", "add", inner, "deep", top=outer)
        self.commit(outer)
        self.write("a.c", SOURCE)
        for name in ("sub", "none"):
            self.git("submodule", "--quiet", "add", outer, name)
        self.git("submodule", "--quiet", "update", "--init", "--recursive")
        self.commit()
        self.git("submodule", "--quiet", "deinit", "-f", "none")
        names = ["a.c", "sub/deep/in.c", "sub/in.c"]
        self.assertEqual(self.lines(), [("two", name) for name in names])
        for name in ("new.c", "sub/new.c", "sub/deep/new.c"):
            self.write(name, SOURCE)
            names.append(name)
        found = documents_in(self.top, Notes())["C and C++"]
        wanted = {uri_of(os.path.join(self.top, name), []) for name in names}
        self.assertEqual({one.uri for one in found}, wanted)
