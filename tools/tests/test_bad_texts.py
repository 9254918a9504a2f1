"""Texts that can't be had, over a real server: each is one plain line, and what can be answered is
answered."""

import io
import os
import shutil
import unittest
from contextlib import redirect_stderr, redirect_stdout
from typing import Callable, NamedTuple
from unittest import mock

from codenav.cli.ask import ASK
from codenav.cli.prepare import PREPARE
from codenav.cli.upload import UPLOAD
from tests.repository import InRepository, git_in
from tests.servers import TOP, OnServer

LIB, SCALE = "src/lib.rs", "src/scale.rs"
PLACES = [f"{LIB}:18:12", f"{SCALE}:4:8"]
MOVED = [f"{LIB}:20:12", f"{SCALE}:4:8"]
UNMAPPED = "; its places aren't mapped"


class Bad(NamedTuple):
    """What is wrong, what makes it so and answers the revision that is named, the question's line,
    the places and the lines that are said."""

    make: Callable[["BadTexts"], str]
    line: int
    places: list[str]
    said: list[str]


class BadTexts(OnServer, InRepository):
    """The demo crate is indexed, and committed in a checkout; in each the references of
    `fahrenheit` are asked for."""

    def setUp(self) -> None:
        OnServer.setUp(self)
        InRepository.setUp(self)
        self.enterContext(mock.patch.dict(os.environ, {"GIT_CONFIG_GLOBAL": os.devnull}))
        dump = os.path.join(self.home, "crate.lsif")
        with redirect_stdout(io.StringIO()), redirect_stderr(io.StringIO()):
            PREPARE.main([os.path.join(TOP, "demo", "crate.raw.lsif"), dump])
            self.assertEqual(UPLOAD.main([self.url, "app", dump]), 0)

    def fresh(self) -> str:
        """Makes the checkout anew; answers its commit."""
        shutil.rmtree(self.top)
        shutil.copytree(os.path.join(TOP, "demo", "crate"), self.top)
        self.git("init", "-q")
        return self.commit()

    def changed(self) -> str:
        """Adds two lines before all others of a file that is committed; answers the commit
        before."""
        commit = self.fresh()
        self.write(LIB, "// one\n// two\n" + self.read(LIB))
        return commit

    def read(self, name: str) -> str:
        """The text of a file."""
        with open(os.path.join(self.top, name), encoding="utf-8", newline="") as file:
            return file.read()

    def unknown(self) -> str:
        """A revision that git doesn't know."""
        self.fresh()
        return "nowhere"

    def shallow(self) -> str:
        """A clone that has the last commit alone."""
        commit, whole = self.fresh(), os.path.join(self.home, "whole")
        self.write("new", "x\n")
        self.commit()
        os.rename(self.top, whole)
        git_in(self.home, "clone", "-q", "--depth", "1", f"file://{whole}", self.top)
        shutil.rmtree(whole)
        return commit

    def no_checkout(self) -> str:
        """A folder that git has nothing to do with."""
        self.fresh()
        shutil.rmtree(os.path.join(self.top, ".git"))
        return "HEAD"

    def no_text(self) -> str:
        """A file that is no text today."""
        commit = self.changed()
        with open(os.path.join(self.top, SCALE), "ab") as file:
            file.write(b"// \xe9\0\n")
        return commit

    def no_text_before(self) -> str:
        """A file that was no text when it was indexed, and is one today."""
        self.changed()
        text = self.read(SCALE)
        with open(os.path.join(self.top, SCALE), "ab") as file:
            file.write(b"// \xe9\0\n")
        self.git("add", SCALE)
        self.git("commit", "-qm", "x")
        commit = self.git("rev-parse", "HEAD")
        self.write(SCALE, text)
        return commit

    def deleted(self) -> str:
        """A file that is no more."""
        commit = self.changed()
        os.remove(os.path.join(self.top, SCALE))
        return commit

    def not_there(self) -> str:
        """A file that the revision doesn't have."""
        self.fresh()
        text = self.read(SCALE)
        os.remove(os.path.join(self.top, SCALE))
        commit = self.commit()
        self.write(SCALE, text)
        self.write("src/scales.rs", "fn another() {}\n")
        return commit

    def submodule(self) -> str:
        """A submodule: the revision is one of the repository around it."""
        self.fresh()
        whole = os.path.join(self.home, "whole")
        os.rename(self.top, whole)
        os.mkdir(self.top)
        self.git("init", "-q")
        self.git("submodule", "--quiet", "add", whole, "sub")
        commit = self.commit()
        inside = os.path.join(self.top, "sub", LIB)
        with open(inside, encoding="utf-8") as file:
            text = file.read()
        self.write(f"sub/{LIB}", "// one\n// two\n" + text)
        self.commit(os.path.join(self.top, "sub"))
        self.commit()
        shutil.rmtree(whole)
        return commit

    def linked(self) -> str:
        """A link at the place of a file: it's mapped as the file that it leads to."""
        self.fresh()
        text = self.read(SCALE)
        os.rename(os.path.join(self.top, SCALE), os.path.join(self.top, "src/real.rs"))
        os.symlink("real.rs", os.path.join(self.top, SCALE))
        commit = self.commit()
        self.write("src/real.rs", "// one\n// two\n" + text)
        return commit

    def references(self, revision: str, line: int) -> tuple[int, list[str], list[str]]:
        """The status, the places and what is said of a question at a line of lib.rs; what lies
        below the checkout by its name there."""
        top = os.path.join(self.top, "sub") if os.path.isdir(f"{self.top}/sub") else self.top
        where = ["--map", f"file:///src/tr/crate={top}", "--revision", revision]
        place = [os.path.join(top, LIB), str(line), "12"]
        with redirect_stdout(io.StringIO()) as said, redirect_stderr(io.StringIO()) as warned:
            status = ASK.main([*where, self.url, "app", "references", *place])
        places = [os.path.relpath(one, top) for one in said.getvalue().splitlines()]
        lines = warned.getvalue().replace(top, "TOP").replace(os.path.relpath(top), "TOP")
        return status, places, lines.replace(revision, "REV").splitlines()

    def test_each(self) -> None:
        for bad in ROWS:
            with self.subTest(bad.make.__doc__):
                revision = bad.make(self)
                status, places, said = self.references(revision, bad.line)
                self.assertEqual(places, bad.places)
                self.assertEqual(said, [f"codenav ask: {line}" for line in bad.said])
                self.assertEqual(status, 0)


CHANGED = f"TOP/{LIB} changed since: the answer is of REV"
GONE = ["1 of 2 places changed since REV", CHANGED]
ROWS = [
    Bad(BadTexts.unknown, 18, PLACES, [f"TOP: git knows no revision REV{UNMAPPED}"]),
    Bad(
        BadTexts.shallow,
        18,
        PLACES,
        [
            f"TOP: a shallow clone without REV: `git fetch --depth 1 origin REV` gets it{UNMAPPED}",
        ],
    ),
    Bad(BadTexts.no_checkout, 18, PLACES, [f"TOP/src: not in a checkout of git{UNMAPPED}"]),
    Bad(BadTexts.no_text, 20, MOVED[:1], [f"TOP/{SCALE}: not a text", *GONE]),
    Bad(
        BadTexts.no_text_before,
        20,
        MOVED,
        [f"{SCALE}: not a text in REV{UNMAPPED}", CHANGED],
    ),
    Bad(BadTexts.deleted, 20, MOVED[:1], [f"TOP/{SCALE}: No such file or directory", *GONE]),
    Bad(BadTexts.not_there, 18, PLACES, [f"{SCALE}: not in REV{UNMAPPED}"]),
    Bad(BadTexts.submodule, 20, MOVED, [CHANGED]),
    Bad(BadTexts.linked, 18, [PLACES[0], "src/real.rs:6:8"], []),
]


if __name__ == "__main__":
    unittest.main()
