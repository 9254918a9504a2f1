"""Which files of a work tree have other names today than at a commit, and which folders."""

import os
import time
from collections import Counter

from codenav.texts.git import copied_index, git

FRESH = 5.0
"""Seconds for which it stands what git listed."""
WORDS = ("--no-ext-diff", "--ignore-submodules", "--find-renames", "--name-status", "-z")


class Renames:
    """The names that files had at a commit, and those of today, those that git doesn't know yet
    among them."""

    def __init__(self, top: str) -> None:
        self.top = top
        self.forget()

    def forget(self) -> None:
        """Forgets what was listed, as for another commit."""
        self.old, self.new = dict[str, str](), dict[str, str]()
        self.folders = dict[str, str]()
        self.listed = -FRESH

    def old_name(self, commit: str, name: str) -> str:
        """The name at a commit of a file of today; its own where it wasn't renamed."""
        if name not in self.old:
            self.list(commit)
        return self.old.get(name, name)

    def new_name(self, commit: str, name: str) -> str:
        """The name of today of a file of a commit; its own where it wasn't renamed, or is there."""
        if self.is_there(name):
            return name
        if not self.is_there(self.new.get(name, name)):
            self.list(commit)
        return self.new.get(name, name)

    def old_folder(self, commit: str, name: str) -> str:
        """The name at a commit of a folder of today: that below which most of its files were by
        their names in it; its own where none was."""
        self.list(commit)
        if name not in self.folders:
            counts = Counter[str]()
            for new, old in self.old.items():
                inside = new.removeprefix(name)
                if inside != new and inside[:1] == "/" and f"/{old}".endswith(inside):
                    counts[old[: len(old) - len(inside) + 1].rstrip("/")] += 1
            self.folders[name] = max(counts, key=lambda one: counts[one], default=name)
        return self.folders[name]

    def is_there(self, name: str) -> bool:
        """Whether there is a file of this name today."""
        return os.path.lexists(os.path.join(self.top, name))

    def list(self, commit: str) -> None:
        """Lists which files have other names today, not more often than every few seconds."""
        if time.monotonic() - self.listed < FRESH:
            return
        self.forget()
        fields = iter(os.fsdecode(self.changes(commit)).split("\0"))
        for status in fields:
            if status.startswith("R"):
                old, new = next(fields), next(fields)
                self.old[new], self.new[old] = old, new
            elif status:
                next(fields)
        self.listed = time.monotonic()

    def changes(self, commit: str) -> bytes:
        """What git says of the files that changed since a commit, by a copy of its index to which
        new files are added."""
        with copied_index(self.top) as variables:
            git(self.top, "add", "--intent-to-add", ".", variables=variables)
            return git(self.top, "diff", *WORDS, commit, "--", variables=variables) or b""
