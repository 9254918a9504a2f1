"""Where the texts are that were indexed: a git revision, or a folder."""

import os
from typing import Optional, Protocol

from codenav.faults import BadCall
from codenav.names import project_of
from codenav.texts.decoded import text_of


class Source(Protocol):
    """Where the texts that were indexed are; names of files are whole paths."""

    label: str

    def old_path(self, path: str) -> str:
        """The path that a file of today had."""
        return path

    def old_folder(self, folder: str, path: str) -> str:
        """The path that a folder of today had, as far as it's in the work tree of a file."""
        return folder

    def new_path(self, path: str) -> str:
        """The path that a file has today."""
        return path

    def text(self, path: str) -> str:
        """The text of a file, by the path that it had. Raises BadCall where there is none."""

    def end(self) -> None:
        """Ends what was started to read texts."""
        return None


class Folder(Source):
    """The texts that were indexed are those of a folder, of which another one has today's, by the
    same names."""

    def __init__(self, folder: str, today: str) -> None:
        self.folder, self.today = os.path.realpath(folder), os.path.realpath(today)
        self.label = folder
        if not os.path.isdir(self.folder):
            raise BadCall(f"{folder}: not a folder")

    def text(self, path: str) -> str:
        """The text of a file."""
        inside = os.path.relpath(os.path.realpath(path), self.today)
        if inside.split(os.sep)[0] == os.pardir:
            raise BadCall(f"{path}: not below {self.today}")
        return text_of(os.path.join(self.folder, inside))


def sources_of(
    revisions: list[str], indexed: Optional[str], project: str, today: str
) -> dict[str, Source]:
    """The source of each project, by the words `REV`, of the project that is asked, or
    `PROJECT=REV`, and a folder of the texts of that project."""
    sources: dict[str, Source] = {}
    if revisions:
        # here, for few calls need git
        from codenav.texts.revisions import Checkout
    for word in revisions:
        other, mark, named = word.partition("=")
        revision = named if mark else word
        if not revision or mark and not other:
            raise BadCall("--revision takes REV or PROJECT=REV, neither of them empty")
        sources[project_of(other) if mark else project] = Checkout(revision)
    if indexed is not None:
        sources[project] = Folder(indexed, today)
    return sources
