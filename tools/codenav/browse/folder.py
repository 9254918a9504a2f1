"""The files that are shown: those in a folder, but for names that begin with a dot, and nothing
elsewhere that a link in it leads to. What `.gitignore` names isn't listed."""

import os
import stat
import time
from contextlib import suppress
from dataclasses import dataclass
from functools import cached_property
from typing import Iterable, Iterator, Optional
from urllib.parse import quote

from codenav.faults import BadCall
from codenav.texts.decoded import at_once, may_be_text, text_of
from codenav.texts.git import git
from codenav.texts.places import KEPT

MOST_BYTES, HEAD = 10_000_000, 8_000
MOST_FILES, MOST_FOLDERS = 200_000, 1_000
SECONDS = 10.0
"""For so long the list of all files stands, and what is left out of a folder's."""


class Refused(Exception):
    """A request that isn't served: the status, the text that says why, and what to do: `word` is
    one to search for."""

    def __init__(self, status: int, text: str, advice: str = "", word: str = "") -> None:
        super().__init__(text)
        self.status, self.advice, self.word = status, advice, word


class Gone(Refused):
    """The same of a file that isn't there."""


@dataclass(frozen=True)
class Entry:
    """A file or a folder of a folder."""

    name: str
    is_folder: bool


class Folder:
    """A folder, by the path that it was named by and by the one without links; the links in those
    of its folders that are `projects` lead nowhere else."""

    def __init__(self, top: str, projects: Iterable[str] = ()) -> None:
        self.given, self.top = os.path.abspath(top), os.path.realpath(top)
        if not os.path.isdir(self.top):
            raise BadCall(f"{top}: not a folder")
        self.projects = frozenset(projects)
        self.listed: tuple[float, list[str], list[str]] = (-SECONDS, [], [])
        self.left_out: dict[str, tuple[float, set[str]]] = {}

    def inside(self, path: str) -> Optional[str]:
        """The path from the folder on of a file that is in it, without links; None of one that
        isn't, or has a part that begins with a dot."""
        if "\0" in path or not os.path.isabs(path):
            return None
        real = os.path.realpath(path)
        if os.path.commonpath([real, self.top]) != self.top:
            return None
        for top in (self.given, self.top):
            own = path.removeprefix(f"{top}/").partition("/")[0]
            if own in self.projects and not is_below(real, os.path.join(top, own)):
                return None
        name = os.path.relpath(real, self.top)
        return name if name == os.curdir or not has_dot(name) else None

    def may_show(self, name: str) -> bool:
        """Whether a file that is named from the folder on has a page, as far as its beginning
        says."""
        path = os.path.join(self.top, name)
        if self.inside(path) is None or not os.path.isfile(path):
            return False
        try:
            if os.path.getsize(path) > MOST_BYTES:
                return False
            with open(path, "rb", opener=at_once) as file:
                return may_be_text(file.read(HEAD))
        except OSError:
            return False

    def named(self, text: str) -> str:
        """The whole path that a name from the folder on means; raises Refused for one that leads
        out of it, and for one with a part that begins with a dot."""
        is_bad = bool(text) and (has_dot(text) or not all(text.split("/")))
        if is_bad or self.inside(os.path.join(self.top, text)) is None:
            raise Refused(403, "not a path in the folder")
        return os.path.join(self.given, text)

    def path(self, text: str) -> str:
        """The whole path of a file or a folder that is named from the folder on; raises Refused."""
        path = self.named(text)
        if not os.path.exists(path):
            raise Gone(
                404, "no such file", "It may have another name now: the key f finds files there:"
            )
        return path

    def text(self, path: str) -> str:
        """The text of a file in the folder; raises Refused."""
        found = os.stat(path)
        if not stat.S_ISREG(found.st_mode):
            raise Refused(403, "not a file")
        if found.st_size > MOST_BYTES:
            size = f"a file of {found.st_size} bytes, and {MOST_BYTES} are shown at most"
            raise Refused(403, size, "Open it in an editor.")
        try:
            return text_of(path)
        except BadCall as fault:
            is_text = not str(fault).endswith("not a text")
            raise Refused(403, str(fault) if is_text else "not a text") from None

    def entries(self, at: str) -> list[Entry]:
        """What stands in a folder, which is named with a slash behind it, folders first; no name
        that begins with a dot, no link that leads out or nowhere, and no pipe. Raises Refused."""
        if at == "/" or at and not at.endswith("/"):
            raise Refused(403, "not a path in the folder")
        self.named(at[:-1])
        try:
            with os.scandir(os.path.join(self.top, at)) as found:
                entries = [Entry(one.name, os.path.isdir(one)) for one in found if self.lists(one)]
        except OSError:
            return []
        left_out = self.ignored(at, [entry.name for entry in entries])
        kept = [entry for entry in entries if entry.name not in left_out]
        return sorted(kept, key=lambda entry: (not entry.is_folder, entry.name))

    @cached_property
    def is_left_out(self) -> bool:
        """Whether the folder itself is one that git leaves out."""
        return git(self.top, "check-ignore", "-q", os.curdir) is not None

    def ignored(self, at: str, names: list[str]) -> set[str]:
        """Which names of a folder git leaves out by `.gitignore`; that stands for some seconds."""
        since, known = self.left_out.get(at, (-SECONDS, set()))
        if time.monotonic() - since >= SECONDS:
            body = b"".join(os.fsencode(f"./{name}\0") for name in names if not self.is_left_out)
            where = os.path.join(self.top, at)
            with suppress(BadCall):
                said = git(where, "check-ignore", "-z", "--stdin", body=body)
                found = os.fsdecode(said or b"").split("\0")
                known = {name.removeprefix("./") for name in found}
            if len(self.left_out) >= MOST_FOLDERS:
                self.left_out = {}
            self.left_out[at] = time.monotonic(), known
        return known

    def lists(self, entry: os.DirEntry[str]) -> bool:
        """Whether an entry of a folder is listed."""
        if entry.name.startswith("."):
            return False
        is_shown = os.path.isdir(entry) or os.path.isfile(entry)
        return is_shown and self.inside(entry.path) is not None

    def files(self) -> list[str]:
        """The names of all files, from the folder on; links to folders aren't followed. The list
        stands for some seconds."""
        return self.all()[0]

    def checkouts(self) -> list[str]:
        """The names of the folders that are the tops of checkouts, of a submodule too."""
        return self.all()[1]

    def all(self) -> tuple[list[str], list[str]]:
        """Both lists."""
        if time.monotonic() - self.listed[0] >= SECONDS:
            names: list[str] = []
            tops: list[str] = []
            for name in self.walk(tops):
                names.append(name)
                if len(names) == MOST_FILES:
                    break
            self.listed = time.monotonic(), names, tops
        return self.listed[1:]

    def walk(self, tops: list[str]) -> Iterator[str]:
        """The names of files, folder by folder: in a checkout those that git doesn't leave out. The
        tops of checkouts are added to a list."""
        left = [""]
        while left:
            at = left.pop()
            folder = os.path.join(self.top, at)
            is_tree = os.path.lexists(os.path.join(folder, ".git"))
            tops += [at.removesuffix("/")] * is_tree
            names = in_checkout(folder) if is_tree or not at and not self.is_left_out else None
            for name in entries_of(folder) if names is None else names:
                own = at + name.removesuffix("/")
                found = kind_of(os.path.join(self.top, own))
                if found == stat.S_IFDIR:
                    left.append(f"{own}/")
                elif found is not None and not has_dot(own):
                    yield own


def kind_of(path: str) -> Optional[int]:
    """The kind of a file or a folder; None of a link to a folder, and where there is none."""
    try:
        found = os.lstat(path).st_mode
    except OSError:
        return None
    return None if stat.S_ISLNK(found) and os.path.isdir(path) else stat.S_IFMT(found)


def entries_of(folder: str) -> list[str]:
    """What stands in a folder, but for names that begin with a dot."""
    try:
        return sorted(name for name in os.listdir(folder) if not name.startswith("."))
    except OSError:
        return []


def is_below(path: str, folder: str) -> bool:
    """Whether a path is that of a folder, or lies in it, without links."""
    real = os.path.realpath(folder)
    return os.path.commonpath([os.path.realpath(path), real]) == real


def has_dot(name: str) -> bool:
    """Whether a part of a path begins with a dot."""
    return name.startswith(".") or "/." in name


def in_checkout(folder: str) -> Optional[list[str]]:
    """The names of the files of a checkout's folder that git has or doesn't leave out; None where
    it's in no checkout."""
    try:
        words = ("ls-files", "-z", "--cached", "--others", "--exclude-standard")
        said = git(folder, *words)
    except BadCall:
        return None
    if said is None:
        return None
    return list(dict.fromkeys(filter(None, os.fsdecode(said).split("\0"))))


def href(
    text: str, line: int = -1, character: int = 0, revision: str = "", page: str = "files"
) -> str:
    """The address of a page of a file or a folder that is named from the folder on, of today or of
    a revision, and there of a place."""
    query = f"?revision={quote(os.fsencode(revision), safe='')}" if revision else ""
    place = f"#L{line + 1}C{character + 1}" if line >= 0 else ""
    return f"/{page}/" + quote(os.fsencode(text), safe=KEPT) + query + place
