"""Tests of places that are mapped between an index and today's files: the texts and names of a git
revision, and what is said where there is none."""

import os
from typing import Any, Optional
from unittest import mock

from codenav.faults import BadCall, NoFile
from codenav.texts import revisions
from codenav.texts.git import top_of
from codenav.texts.places import Place, uri_of
from codenav.texts.revisions import Revision
from codenav.texts.sources import sources_of
from codenav.texts.today import IndexPlace, NotThere, Today
from tests.repository import InRepository, git_in

TEXT = "fn one() {}\nfn two() {\n    one();\n}\n"
NEW = "use x;\n\n" + TEXT.replace("    one();", "    one(); // again")


class Revisions(InRepository):
    def revision(self, name: str = "HEAD", top: str = "") -> Revision:
        """A revision of the repository, which ends with the test."""
        revision = Revision(top or self.top, name)
        self.addCleanup(revision.end)
        return revision

    def test_texts(self) -> None:
        self.write("a b/x y.txt", "one\ntwo\n")
        self.write("dos.txt", "one\r\ntwo\n")
        self.write("empty", "")
        self.write("open", "no line feed")
        self.write(".gitattributes", "*.crlf text eol=crlf\n*.up filter=up\n")
        self.write("ends.crlf", "one\r\ntwo\r\n")
        self.write("case.up", "loud\n")
        self.write("x\ny.up", "loud\n")
        self.write("end\r", "one\n")
        self.write("end", "two\n")
        self.git("config", "filter.up.clean", "tr a-z A-Z")
        self.git("config", "filter.up.smudge", "tr A-Z a-z")
        for other, body in ("latin", b"\xe9\n"), ("binary", b"\xe9\0"):
            with open(os.path.join(self.top, other), "wb") as file:
                file.write(body)
        self.commit()
        self.write("a b/x y.txt", "other\n")
        revision = self.revision()
        for name, text in (
            ("a b/x y.txt", "one\ntwo\n"),
            ("dos.txt", "one\r\ntwo\n"),
            ("empty", ""),
            ("open", "no line feed"),
            ("ends.crlf", "one\r\ntwo\r\n"),
            ("case.up", "loud\n"),
            ("x\ny.up", "loud\n"),
            ("end\r", "one\n"),
            ("end", "two\n"),
            ("latin", "\xe9\n"),
        ):
            self.assertEqual(revision.text(name), text, name)
        for name, fault in (
            ("binary", "binary: not a text in HEAD"),
            ("a b", "a b: not in HEAD"),
            ("none", "none: not in HEAD"),
            ("x\ny", "x\ny: not in HEAD"),
            ("a b\r", "a b\r: not in HEAD"),
        ):
            with self.assertRaisesRegex(BadCall, f"^{fault}$"):
                revision.text(name)
        self.assertEqual(self.git("status", "--short"), 'M "a b/x y.txt"')

    def test_names(self) -> None:
        for name in "told", "untold", "gone", "both":
            self.write(f"src/{name}.rs", TEXT.replace("one", name))
        self.commit()
        self.git("mv", "src/told.rs", "src/moved.rs")
        os.rename(os.path.join(self.top, "src/untold.rs"), os.path.join(self.top, "un told.rs"))
        os.remove(os.path.join(self.top, "src/gone.rs"))
        self.write("src/both.rs", "other\n")
        self.write("src/copy.rs", TEXT.replace("one", "both"))
        revision = self.revision()
        for old, new in (
            ("src/told.rs", "src/moved.rs"),
            ("src/untold.rs", "un told.rs"),
            ("src/both.rs", "src/both.rs"),
        ):
            self.assertEqual((revision.new_name(old), revision.old_name(new)), (new, old))
        self.assertEqual(revision.new_name("src/gone.rs"), "src/gone.rs")
        self.assertEqual(revision.old_name("src/new.rs"), "src/new.rs")
        self.assertEqual(self.git("ls-files", "--others"), "src/copy.rs\nun told.rs")

    def test_links(self) -> None:
        path = self.write("src/a.rs", TEXT)
        os.symlink("a.rs", os.path.join(self.top, "src/link.rs"))
        os.symlink(self.top, os.path.join(self.home, "other"))
        self.commit()
        revision = self.revision()
        self.assertEqual(revision.old_path(os.path.join(self.top, "src/link.rs")), path)
        through = os.path.join(self.home, "other/src/a.rs")
        self.assertEqual((revision.old_path(through), revision.new_path(through)), (through,) * 2)

    def test_revisions_that_are_none(self) -> None:
        self.write("a", "x\n")
        commit = self.commit()
        self.write("a", "y\n")
        self.commit()
        for name in "none", "HEAD:a", "-h", "", "HEAD^{tree}":
            with self.assertRaisesRegex(BadCall, f"{self.top}: git knows no revision"):
                self.revision(name)
        shallow, plain = (os.path.join(self.home, name) for name in ("shallow", "plain"))
        self.git("clone", "-q", "--depth", "1", f"file://{self.top}", shallow)
        with self.assertRaisesRegex(
            BadCall,
            f"^{shallow}: a shallow clone without {commit}: `git fetch --depth 1 origin {commit}` gets it$",
        ):
            self.revision(commit, shallow)
        with self.assertRaisesRegex(
            BadCall,
            f"^{shallow}: a shallow clone without HEAD~1: `git fetch --unshallow --tags` gets all that there is$",
        ):
            self.revision("HEAD~1", shallow)
        git_in(shallow, "fetch", "-q", "--unshallow", "--tags")
        self.revision("HEAD~1", shallow).text("a")
        os.mkdir(plain)
        self.assertEqual(top_of(plain), "")

    def test_a_partial_clone_fetches_nothing(self) -> None:
        self.write("a", "x\n")
        commit = self.commit()
        self.write("a", "y\n")
        self.commit()
        self.git("config", "uploadpack.allowFilter", "true")
        partial = os.path.join(self.home, "partial")
        self.git("clone", "-q", "--filter=blob:none", f"file://{self.top}", partial)
        self.write("x\ny", "x\n")
        later = self.commit()
        self.git("fetch", "-q", top=partial)
        for name in "a", "x\ny":
            own = commit if name == "a" else later
            fault = f"^{name}: not fetched, in a partial clone, as it was in {own}$"
            with self.assertRaisesRegex(BadCall, fault):
                self.revision(own, partial).text(name)
        with self.assertRaisesRegex(NoFile, f"^b: not in {commit}$"):
            self.revision(commit, partial).text("b")

    def test_git_that_ends(self) -> None:
        """It's started again; where there's no repository any more, that it gives no answer is
        said, and when there is one again it's asked."""
        self.write("a", "x\n")
        self.commit()
        revision, git = self.revision(), os.path.join(self.top, ".git")
        self.enterContext(mock.patch.object(revisions, "FRESH", 0.0))
        for is_there in (True, True, False, True):
            for batch in revision.names, revision.blobs:
                if batch.process is not None:
                    batch.process.kill()
                    batch.process.wait()
            if is_there:
                self.assertEqual((revision.old_name("a"), revision.text("a")), ("a", "x\n"))
                continue
            os.rename(git, f"{git}.away")
            with self.assertRaisesRegex(BadCall, f"^{self.top}: git gives no answer$"):
                revision.text("a")
            os.rename(f"{git}.away", git)

    def test_git_that_hangs(self) -> None:
        """It's ended, and not waited for again at once."""
        self.write("a", "x\n")
        self.commit()
        revision = self.revision()
        started = os.path.join(self.home, "started")
        path = self.write("git", f"#!/bin/sh\necho >>{started}\nexec sleep 60\n", self.home)
        os.chmod(path, 0o755)
        self.enterContext(mock.patch.object(revisions, "SECONDS", 2.0))
        with mock.patch.dict(os.environ, {"PATH": f"{self.home}:{os.environ['PATH']}"}):
            for _ in range(50):
                with self.assertRaisesRegex(BadCall, f"^{self.top}: git gives no answer$"):
                    revision.text("a")
            self.assertEqual(os.path.getsize(started), 1)
            with self.assertRaisesRegex(BadCall, f"^{self.top}: git gives no answer$"):
                top_of(self.top)

    def test_objects_that_git_packs_or_loses(self) -> None:
        self.write("a", "x\n")
        commit = self.commit()
        self.write("a", "y\n")
        self.commit()
        revision = self.revision(commit)
        self.assertEqual(revision.text("a"), "x\n")
        self.git("gc", "-q", "--prune=now")
        self.assertEqual(revision.text("a"), "x\n")
        self.git("checkout", "-q", "--orphan", "other")
        self.commit()
        self.git("branch", "-qD", "master")
        self.git("reflog", "expire", "--expire=now", "--all")
        self.git("gc", "-q", "--prune=now")
        revision.end()
        with self.assertRaisesRegex(BadCall, f"^{self.top}: git knows no revision {commit}$"):
            revision.text("a")

    def test_submodules_and_worktrees(self) -> None:
        inner, tree = os.path.join(self.home, "inner"), os.path.join(self.home, "tree")
        os.mkdir(inner)
        self.git("init", "-q", top=inner)
        self.write("lib.rs", "one\n", inner)
        self.commit(inner)
        self.git("submodule", "--quiet", "add", inner, "deep/sub")
        self.write("a", "x\n")
        commit = self.commit()
        sub = os.path.join(self.top, "deep/sub")
        self.write("lib.rs", "two\n", sub)
        self.commit(sub)
        self.write("a", "y\n")
        self.commit()
        self.assertEqual(self.revision(commit, sub).text("lib.rs"), "one\n")
        self.assertEqual(self.revision("HEAD", sub).text("lib.rs"), "two\n")
        self.git("worktree", "add", "-q", tree, "HEAD")
        self.assertEqual(self.revision(commit, tree).text("a"), "x\n")


class Mapped(InRepository):
    def setUp(self) -> None:
        super().setUp()
        self.path = self.write("src/a.rs", TEXT)
        self.revision = self.commit()
        self.said: list[str] = []
        self.texts: dict[str, str] = {}

    def indexed(self, *words: str, folder: Optional[str] = None) -> Today:
        """What maps the places of the project `app`."""
        sources = sources_of(list(words), folder, "app", self.top)
        for source in sources.values():
            self.addCleanup(source.end)
        return Today(sources, [], self.said.append, self.today)

    def today(self, path: str) -> str:
        """The text of a file, as an editor has it."""
        if path in self.texts:
            return self.texts[path]
        try:
            with open(path, encoding="utf-8", newline="") as file:
                return file.read()
        except OSError as fault:
            raise BadCall(f"{path}: {fault.strerror}") from None

    def place(self, line: int, start: int, end: int, project: str = "app") -> dict[str, Any]:
        """A place of the file as the index has it."""
        return {
            "project": project,
            "uri": uri_of(self.path, []),
            "start": {"line": line, "character": start},
            "end": {"line": line, "character": end},
        }

    def asked(self, indexed: Today, path: str, line: int, character: int) -> IndexPlace:
        """What is asked at a place of a file, of which it's said why it isn't mapped."""
        found = indexed.to_index("app", Place(path, line, character))
        indexed.tell(found.fault)
        return found

    def test_questions_and_places(self) -> None:
        indexed = self.indexed("HEAD")
        uri = uri_of(self.path, [])
        self.assertEqual(indexed.to_index("app", Place(self.path, 2, 4)), IndexPlace(uri, 2, 4, ""))
        self.texts[self.path] = NEW
        self.assertEqual(
            indexed.to_index("app", Place(self.path, 4, 4)), IndexPlace(uri, 2, 4, "HEAD")
        )
        with self.assertRaisesRegex(
            NotThere,
            r"src/a.rs:1: nothing in the text that was indexed is surely this word \(HEAD\)$",
        ):
            indexed.to_index("app", Place(self.path, 0, 4))
        [place] = indexed.from_index([self.place(2, 4, 7)])
        self.assertEqual((place["path"], place["start"]), (self.path, {"line": 4, "character": 4}))
        self.assertEqual(place["end"], {"line": 4, "character": 7})
        self.assertEqual(self.said, [])

    def test_what_is_left_out(self) -> None:
        indexed = self.indexed("HEAD")
        self.texts[self.path] = TEXT.replace("    one();\n", "")
        found = indexed.from_index([self.place(0, 3, 6), self.place(2, 4, 7)])
        self.assertEqual([one["start"]["line"] for one in found], [0])
        self.assertEqual(self.said, ["1 of 2 places changed since HEAD"])
        del self.texts[self.path]
        os.remove(self.path)
        self.assertEqual(indexed.from_index([self.place(0, 3, 6)]), [])
        gone = [f"{self.path}: No such file or directory", "1 of 1 places changed since HEAD"]
        self.assertEqual(self.said[1:], gone)

    def test_a_place_of_two_projects(self) -> None:
        indexed = self.indexed("HEAD")
        self.texts[self.path] = NEW
        found = indexed.from_index([self.place(2, 4, 7, "other"), self.place(2, 4, 7)])
        self.assertEqual([one["start"]["line"] for one in found], [4])

    def test_renamed_files(self) -> None:
        new = os.path.join(self.top, "src/b.rs")
        os.rename(self.path, new)
        indexed = self.indexed(self.revision)
        asked = indexed.to_index("app", Place(new, 2, 4))
        self.assertEqual((asked.uri, asked.line), (uri_of(self.path, []), 2))
        self.assertEqual([one["path"] for one in indexed.from_index([self.place(0, 3, 6)])], [new])

    def test_places_that_are_not_mapped(self) -> None:
        indexed = self.indexed("lib=HEAD")
        self.texts[self.path] = NEW
        self.assertEqual(indexed.to_index("app", Place(self.path, 2, 4)).line, 2)
        lines = [one["start"]["line"] for one in indexed.from_index([self.place(2, 4, 7, "lib")])]
        self.assertEqual((lines, self.said), ([4], []))
        indexed = self.indexed("none")
        for _ in range(2):
            self.assertEqual(self.asked(indexed, self.path, 2, 4).line, 2)
            self.assertEqual(indexed.from_index([self.place(2, 4, 7)])[0]["start"]["line"], 2)
        line = f"{self.top}: git knows no revision none; its places aren't mapped"
        self.assertEqual(self.said, [line])
        outside = self.write("plain/a.rs", TEXT, self.home)
        self.assertEqual(self.asked(self.indexed("HEAD"), outside, 2, 4).line, 2)
        line = f"{os.path.dirname(outside)}: not in a checkout of git; its places aren't mapped"
        self.assertEqual(self.said[1:], [line])
        self.assertEqual(
            self.indexed("HEAD").to_index("app", Place("urn:x", 2, 4)),
            IndexPlace("urn:x", 2, 4, ""),
        )

    def test_a_commit_that_is_fetched(self) -> None:
        """It's asked for again some time after it wasn't there."""
        self.write("src/a.rs", NEW)
        self.commit()
        shallow = os.path.join(self.home, "shallow")
        self.git("clone", "-q", "--depth", "1", f"file://{self.top}", shallow)
        path = os.path.join(shallow, "src", "a.rs")
        indexed = self.indexed(self.revision)
        with mock.patch("codenav.texts.revisions.FRESH", 0.0):
            self.assertEqual(self.asked(indexed, path, 4, 4)[1:4], (4, 4, ""))
            self.git("fetch", "-q", "--depth", "1", "origin", self.revision, top=shallow)
            self.assertEqual(self.asked(indexed, path, 4, 4)[1:4], (2, 4, self.revision))
        self.assertEqual(len(self.said), 1)

    def test_a_folder_of_indexed_texts(self) -> None:
        old = os.path.join(self.home, "old")
        self.write("src/a.rs", TEXT, old)
        self.texts[self.path] = NEW
        indexed = self.indexed(folder=old)
        self.assertEqual(indexed.to_index("app", Place(self.path, 4, 4)).line, 2)
        other = self.write("src/new.rs", TEXT)
        self.assertEqual(self.asked(indexed, other, 2, 4).line, 2)
        missing = os.path.join(old, "src/new.rs")
        line = f"{missing}: No such file or directory; its places aren't mapped"
        self.assertEqual(self.said, [line])

    def test_words(self) -> None:
        for words in ["="], ["app="], ["=HEAD"], [""]:
            with self.assertRaisesRegex(BadCall, "--revision takes REV or PROJECT=REV"):
                sources_of(words, None, "app", self.top)
        with self.assertRaisesRegex(BadCall, "a project is 1 to 64 characters"):
            sources_of(["No=HEAD"], None, "app", self.top)
        with self.assertRaisesRegex(BadCall, "^/no: not a folder$"):
            sources_of([], "/no", "app", self.top)
