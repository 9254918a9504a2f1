"""What a project's index says of itself: `publish` adds to a dump a document at an address of its
own, whose hover is a record of the commit that was indexed, and to tags one that says theirs. So
each is replaced and removed with what it's of, and is never that of another one.
"""

import json
import os
import re
from itertools import count
from typing import Any, Iterator, NamedTuple, Optional

from codenav.addresses import folder_address

ADDRESS = "codenav:index"
MORE_OF, MORE_ON = "codenav:more:", "codenav:lists:"
"""How the addresses begin of documents that have more of the places of another, and of all of it."""
AT = {"uri": ADDRESS, "line": 0, "character": 0}
"""Where a project is asked for the record, by a hover."""
COMMIT = re.compile(r"[0-9a-f]{40}|[0-9a-f]{64}")
MARK_BYTES = 16
OWN_TAG = "\x02index"
"""The name of the tag, which no search for names finds by chance."""
MOST_DOCUMENTS = 100
MARKS = re.compile(ADDRESS.encode() + rb"|\\u")


class Record(NamedTuple):
    """The commit that was indexed, or nothing where there is none; the address that documents are
    below; and a mark that no other upload has."""

    revision: str
    folder: str
    mark: str


def new_record(revision: str, folder: str) -> Record:
    """A record with a fresh mark."""
    return Record(revision, folder, os.urandom(MARK_BYTES).hex())


def record_in(contents: Any) -> Optional[Record]:
    """The record that the contents of a hover are, or None."""
    try:
        found = json.loads(contents)
    except (TypeError, ValueError, RecursionError):
        return None
    values: list[Any] = [
        found.get(name) if type(found) is dict else None for name in Record._fields
    ]
    if not all(type(value) is str for value in values):
        return None
    record = Record(*values)
    return record if not record.revision or COMMIT.fullmatch(record.revision) else None


def line_of(revision: str) -> bytes:
    """The line of a tags file that says of which commit it is, if of any."""
    return b'\\x02index\t.\t1;"\tindex\trevision:%b\n' % revision.encode()


def revision_in(tags: list[dict[str, Any]]) -> Optional[str]:
    """The commit that the tags of a project are of, by those of the record's name; empty where it
    says none, and None where there is no record."""
    for tag in tags:
        found = dict(tag["fields"]).get("revision", "")
        return found if COMMIT.fullmatch(found) else ""
    return None


def elements_of(record: Record, ids: Iterator[str]) -> Iterator[dict[str, Any]]:
    """The elements that a record is in a dump: a document with one range that has a hover."""
    document, place, hover, contains, leads = (next(ids) for _ in range(5))
    start, end = ({"line": 0, "character": character} for character in (0, 1))
    vertex, edge = {"type": "vertex"}, {"type": "edge"}
    contents = json.dumps(record._asdict(), ensure_ascii=False)
    yield {"id": document, **vertex, "label": "document", "uri": ADDRESS, "languageId": "json"}
    yield {"id": place, **vertex, "label": "range", "start": start, "end": end}
    yield {"id": hover, **vertex, "label": "hoverResult", "result": {"contents": contents}}
    yield {"id": contains, **edge, "label": "contains", "outV": document, "inVs": [place]}
    yield {"id": leads, **edge, "label": "textDocument/hover", "outV": place, "inV": hover}


def common_folder(above: Optional[str], uri: str) -> str:
    """The address of the folder that both a folder, where there is one, and a document are in;
    empty where there is none."""
    folder = uri.rpartition("/")[0]
    if above is None or folder == above:
        return folder
    return os.path.commonprefix([f"{above}/", f"{folder}/"]).rpartition("/")[0]


class Prepared:
    """A dump that the server takes: how many elements it has, the address of the folder that was
    indexed, which is the one that all documents are in where it doesn't say, the addresses of its
    first documents, and the record that it has already."""

    def __init__(self, path: str) -> None:
        self.path, self.elements, self.root = path, 0, ""
        self.above: Optional[str] = None
        self.taken: set[Any] = set()
        self.documents: list[str] = []
        self.record: Optional[Record] = None
        self.is_recorded, self.is_ended = False, True
        with open(path, "rb") as dump:
            for line in dump:
                self.take(line)
        self.root, self.size = self.root or self.above or "", os.path.getsize(path)

    def take(self, line: bytes) -> None:
        """Takes the next line. Only those that may speak of a record, by a text or an escape of its
        characters, are read."""
        self.elements += 1
        self.is_ended = line.endswith(b"\n")
        is_wanted = not self.root or len(self.documents) < MOST_DOCUMENTS
        is_document = is_wanted and b'"document"' in line
        if self.elements > 1 and not is_document and not MARKS.search(line):
            return
        element = json.loads(line)
        self.taken.add(element["id"])
        if self.elements == 1:
            root = element.get("projectRoot")
            self.root = folder_address(root) if isinstance(root, str) and root else ""
        elif element["label"] == "document":
            self.is_recorded = self.is_recorded or element["uri"] == ADDRESS
            if not element["uri"].startswith((ADDRESS, MORE_OF, MORE_ON)):
                self.above = common_folder(self.above, element["uri"])
                self.documents.append(element["uri"])
        elif element["label"] == "hoverResult":
            self.record = record_in(element["result"].get("contents")) or self.record

    def add(self, record: Record) -> bool:
        """Writes a record behind the dump's elements, in the place of one that it wrote before; says
        whether it's within the limits of the server with it, and writes nothing where it isn't."""
        from codenav import limits  # here, for it takes `ask` long to load

        ids = (name for number in count(1) if (name := f"{ADDRESS} {number}") not in self.taken)
        elements = list(elements_of(record, ids))
        text = b"" if self.is_ended else b"\n"
        text += b"".join(json.dumps(one).encode() + b"\n" for one in elements)
        if limits.excesses(self.elements + len(elements), self.size + len(text), 0):
            return False
        os.truncate(self.path, self.size)
        with open(self.path, "ab") as dump:
            dump.write(text)
        return True
