"""A set as it's put on servers, and what a publish did."""

from dataclasses import dataclass
from typing import Mapping

from codenav.sets.manifest import Head
from codenav.sets.publish.base import Base

Files = Mapping[str, str]
"""The files of a project: its dump, its tags or both."""
There = dict[str, set[str]]
"""The projects of a server, each with the parts that it has."""
CROWD = 4


@dataclass
class Report:
    """What a publish did: how many parts there are, and which of them were there before, were put
    and were removed."""

    parts: int = 0
    kept: int = 0
    new: int = 0
    removed: int = 0

    def line(self) -> str:
        """The report as it's printed."""
        return f"parts {self.parts}, kept {self.kept}, new {self.new}, removed {self.removed}"


@dataclass
class Plan:
    """A set as it's put for a base: its head, the manifest, the files of its parts and the bodies
    of its lists, by their names."""

    base: Base
    head: Head
    body: bytes
    files: dict[str, Files]
    lists: dict[str, bytes]

    def lacks(self, there: There) -> bool:
        """Whether a server hasn't all of it."""
        return any(
            not files.keys() <= there.get(own, set()) for own, files in self.files.items()
        ) or (not self.lists.keys() <= there.keys())

    def others(self, there: There) -> int:
        """How much is there that was put for its base and isn't its own."""
        own = self.head.digests()
        return sum(self.base.is_own(project) and project not in own for project in there)

    def is_crowded(self, there: There) -> bool:
        """Whether that's much more than is its own."""
        return self.others(there) > CROWD * len(self.head.digests())
