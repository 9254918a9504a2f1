"""A crate of Debian that is too large for one project, published from a checkout as a set by one
call, for the scripts that are run by hand; and where a word stands in its text, of which it has one
definition and no other meaning.

It needs Debian's rust-web-analyzer and librust-syn-dev.
"""

import os
import re
from contextlib import contextmanager
from typing import Iterator, NamedTuple

from codenav.faults import Failed
from codenav.program import Program
from codenav.sets.publish.store import Store
from codenav.texts.places import uri_of
from tests.debian_crates import ANALYZER, copied
from tests.demo_server import succeed

CRATE, NAME, WORD = "syn-1.0.107", "syn", "parse_group"
DEFINED, USED = "src/group.rs", "src/ty.rs"
LEAST_PARTS = 3


class Place(NamedTuple):
    """A place of the word: the file, the line and the column from 1, and the text of the line."""

    path: str
    line: int
    column: int
    text: str


class LargeCrate(NamedTuple):
    """The server, the checkout, and the places of the word in the order of their files."""

    url: str
    home: str
    places: list[Place]

    def first(self, path: str) -> Place:
        """The first place of the word in a file."""
        return next(place for place in self.places if place.path == path)


def places_of(home: str) -> list[Place]:
    """Where the word stands in the texts of a checkout."""
    found = []
    for folder, _, names in os.walk(home):
        for name in names:
            path = os.path.join(folder, name)
            if name.endswith(".rs"):
                with open(path, encoding="utf-8") as file:
                    lines = enumerate(file.read().split("\n"), 1)
                found += [
                    Place(os.path.relpath(path, home), line, match.start() + 1, text.strip())
                    for line, text in lines
                    for match in re.finditer(rf"\b{WORD}\b", text)
                ]
    return sorted(found)


@contextmanager
def large_crate(program: str) -> Iterator[LargeCrate]:
    """A server with the set; it ends with the context. Raises Failed where the word's places aren't
    in several parts."""
    with copied(CRATE) as home, Program(program).serve() as server:
        url = server.url
        home = os.path.realpath(home)
        succeed(["publish", "--set", "--index", f"{ANALYZER} lsif .", url, NAME, home])
        head, places = Store(url).head(NAME), places_of(home)
        if head is None or len(head.parts) < LEAST_PARTS:
            raise Failed(f"{CRATE} isn't a set of {LEAST_PARTS} parts: {head}")
        parts = {path: head.part_of(uri_of(os.path.join(home, path), [])) for path, *_ in places}
        if parts[DEFINED] == parts[USED]:
            raise Failed(f"{WORD} is defined and used in one part: {parts}")
        yield LargeCrate(url, home, places)
