"""The documents of a folder whose languages are known, and the lines of any document."""

import codecs
import os
import re
import sys
from collections import defaultdict
from typing import Iterable

from codenav.faults import BadCall
from codenav.index.answers import Place
from codenav.index.given import Document
from codenav.index.languages import language_of
from codenav.index.tags_file import files_of
from codenav.outcome import Notes
from codenav.texts.decoded import body_of, decoded, lines_in
from codenav.texts.places import path_of, uri_of, units

NAME = re.compile(r"[^\W\d]\w*")
EMBEDDED = re.compile(r"(?:\*\s*)?(?:[^\W\d]\w*\s*\.\s*)?")
"""What may be before the name of an embedded type of Go."""
INSTALLED = "node_modules"
"""A folder's name whose files are other packages', though they're in the folder."""


def is_own(path: str, folder: str) -> bool:
    """Whether a file is a folder's own, and no installed package's."""
    top = folder.rstrip("/") + "/"
    return path.startswith(top) and INSTALLED not in path[len(top) :].split("/")


def documents_in(folder: str, notes: Notes) -> dict[str, list[Document]]:
    """The documents of a folder whose languages are known, by the names of these."""
    found = defaultdict[str, list[Document]](list)
    for name in sorted(set(files_of(folder, "--cached", "--others", "--exclude-standard"))):
        path = os.path.join(folder, os.fsdecode(name))
        known = language_of(path)
        if known is None or not is_own(path, folder):
            continue
        try:
            text = decoded(body_of(path))
        except (BadCall, ValueError) as fault:
            notes.leave_out(f"a file that can't be read: {fault}", path)
            continue
        found[known[0].name].append(Document(uri_of(path, []), known[1], text))
    return dict(found)


def is_marked(path: str) -> bool:
    """Whether a file begins with UTF-8's byte order mark."""
    try:
        return body_of(path).startswith(codecs.BOM_UTF8)
    except BadCall:
        return False


class Lines:
    """The lines of documents: of those that are known, and of others by their files."""

    def __init__(self, documents: Iterable[Document]) -> None:
        self.known = {one.uri: lines_in(one.text) for one in documents}

    def of(self, uri: str) -> list[str]:
        """The lines of a document; none where it can't be read."""
        if uri not in self.known:
            try:
                self.known[uri] = lines_in(decoded(body_of(path_of(uri, []) or "")))
            except (BadCall, ValueError):
                self.known[uri] = []
        return self.known[uri]

    def text(self, place: Place) -> str:
        """The text of a place on one line, by its UTF-16 code units."""
        line = self.line(place.uri, place.line)
        if not line.isascii():
            units = line.encode("utf-16-le", "surrogatepass")[2 * place.start : 2 * place.end]
            return units.decode("utf-16-le", "replace")
        return line[place.start : place.end]

    def unmarked(self, place: Place) -> Place:
        """A place without the byte order mark of its file, where it counts that: servers do so in files
        that they read themselves."""
        if place.line != 0 or place.end_line != 0 or NAME.fullmatch(self.text(place)):
            return place
        own = place._replace(start=place.start - 1, end=place.end - 1)
        is_named = own.start >= 0 and NAME.fullmatch(self.text(own))
        return own if is_named and is_marked(path_of(place.uri, []) or "") else place

    def named(self, place: Place, name: str) -> Place:
        """The place of a name where it's said from the begin of its type on, as that of an embedded field
        of Go."""
        rest = self.text(place._replace(end=sys.maxsize)) if place.line == place.end_line else ""
        found = EMBEDDED.match(rest)
        end = found.end() if found else 0
        if not end or (own := NAME.match(rest, end)) is None or own[0] != name:
            return place
        start = place.start + units(rest[:end])
        return place._replace(start=start, end=start + units(name))

    def before(self, place: Place) -> str:
        """The text before a place on its line."""
        return self.text(place._replace(start=0, end=place.start))

    def line(self, uri: str, number: int) -> str:
        """A line of a document; an empty one where it has none."""
        lines = self.of(uri)
        return lines[number] if number < len(lines) else ""
