"""The files of a set in a folder: its manifest, and the dumps and the tags of its parts."""

import os
import re
from contextlib import contextmanager
from functools import partial
from typing import Callable, Iterator, Sequence
from urllib.parse import quote

from codenav.addresses import serialized
from codenav.faults import BadCall, Unfit
from codenav.files import whole_file
from codenav.limits import MOST_BODY_BYTES, MOST_TAG_BYTES
from codenav.names import PARTS, shown_name
from codenav.sets.manifest import (
    ABOUT,
    DOCUMENT,
    DocumentEntry,
    Head,
    ListEntry,
    NotAManifest,
    Tag,
    content_digest,
    document_lines,
    head_lines,
    head_of,
    part_name,
    tag_of,
    tags_text,
)
from codenav.texts.places import KEPT, Maps, uri_of

MANIFEST = "manifest.tags"
MOST_LINES, LIST_LINES = 99_000, 20_000
MOST_BYTES = MOST_BODY_BYTES - (1 << 20)
"""Of a manifest or a list; a manifest that only gets another mark and version has room for it."""


def tags_in(path: str) -> list[Tag]:
    """The tags of a file that was written here; raises NotAManifest."""
    try:
        with open(path, encoding="utf-8", newline="\n") as file:
            return [tag_of(line) for line in file if not line.startswith("!_TAG_")]
    except ValueError:
        raise NotAManifest(f"{path} isn't the manifest of a set") from None


def read_head(path: str, with_old: bool = False) -> Head:
    """The head that a manifest's file has; `with_old` takes one of the format of before too. Raises
    NotAManifest."""
    about = [tag for tag in tags_in(path) if tag["name"][:1] == ABOUT]
    names = [tag["file"] for tag in about if tag["name"] == f"{ABOUT}set"]
    head = head_of(about, f"{names[0] if names else ''}{PARTS}", with_old)
    if head is None:
        raise NotAManifest(f"{path} isn't the manifest of a set")
    return head


def with_head(path: str, head: Head) -> bytes:
    """What a manifest's file has, with another head."""
    with open(path, "rb") as file:
        lines = [line.decode() for line in file if not line.startswith((b"!_TAG_", rb"\x02"))]
    return tags_text([*head_lines(head), *lines])


def read_documents(path: str, head: Head) -> list[DocumentEntry]:
    """The documents that a manifest's file has, or the files of its lists beside it; raises
    NotAManifest."""
    folder = os.path.dirname(path)
    paths = [os.path.join(folder, f"{one.project}.tags") for one in head.lists] or [path]
    return [
        DocumentEntry(tag["name"][1:], tag["file"])
        for own in paths
        for tag in tags_in(own)
        if tag["name"][:1] == DOCUMENT
    ]


def part_file(folder: str, file: str, maps: Maps) -> str:
    """The dump of the part that has the document of a file, or the one document whose address is
    `file` or ends with it; raises BadCall."""
    path = os.path.join(folder, MANIFEST)
    documents = read_documents(path, read_head(path))
    uri, end = serialized(uri_of(file, maps)), "/" + quote(os.path.normpath(file), safe=KEPT)
    own = [one for one in documents if one.uri == uri]
    near = [one for one in documents if one.uri == file or one.uri.endswith(end)]
    if len(own or near) != 1:
        raise BadCall(f"{file} is {len(near)} of the {len(documents)} documents of {folder}")
    return os.path.join(folder, f"{(own or near)[0].project}.lsif")


def files_of(folder: str, project: str) -> dict[str, str]:
    """The files of a part: its dump, its tags or both; raises BadCall where there is none."""
    paths = {part: os.path.join(folder, f"{project}.{part}") for part in ("lsif", "tags")}
    found = {part: path for part, path in paths.items() if os.path.isfile(path)}
    if not found:
        raise BadCall(f"{paths['lsif']}: no such part; split the dump again")
    return found


def put_file(path: str, body: bytes) -> None:
    """Writes a file whole."""
    with whole_file(path) as out:
        out.write(body)


def listed(documents: Sequence[DocumentEntry]) -> Iterator[tuple[str, bytes]]:
    """The tags files of lists of documents, each with the address of its first."""
    first, size, lines = "", 0, list[str]()
    for document, line in zip(documents, document_lines(documents)):
        length = len(line.encode("utf-8", "surrogatepass"))
        if lines and (len(lines) == LIST_LINES or size + length > MOST_BYTES):
            yield first, tags_text(lines)
            size, lines = 0, []
        first, size = first if lines else document.uri, size + length
        lines.append(line)
    yield first, tags_text(lines)


def manifest_of(
    head: Head, documents: Sequence[DocumentEntry], named: Callable[[str], str]
) -> tuple[Head, dict[str, bytes], bytes]:
    """A manifest: its head, the lists of documents by their projects, where they are too many for
    one file, and the manifest itself. `named` says the project of a list by its digest. Raises
    Unfit where the server doesn't take it."""
    lines = [*head_lines(head), *document_lines(documents)]
    body = tags_text(lines)
    refuse_long(body)
    if len(lines) <= MOST_LINES and len(body) <= MOST_BYTES:
        return head, {}, body
    lists, bodies = [], {}
    for first, own in listed(documents):
        digest = content_digest(own)
        lists.append(ListEntry(named(digest), first, digest))
        bodies[lists[-1].project] = own
    head = head._replace(lists=tuple(lists))
    body = tags_text(head_lines(head))
    refuse_long(body)
    if len(body) > MOST_BYTES:
        said = f"the manifest of the set {shown_name(head.name)} has {len(body)} bytes"
        raise Unfit(
            f"{said}, more than {MOST_BYTES}: its addresses are too long, or its parts too many"
        )
    return head, bodies, body


def refuse_long(body: bytes) -> None:
    """Refuses lines of tags that the server doesn't take."""
    longest = max(body.split(b"\n"), key=len)
    if len(longest) > MOST_TAG_BYTES:
        text = f"an address makes {len(longest)} bytes, which no line of tags may have"
        raise Unfit(f"{longest[4:100].decode(errors='replace')}..: {text}")


def put_manifest(folder: str, head: Head, documents: Sequence[DocumentEntry]) -> Head:
    """Writes the manifest, and before it its lists of documents."""
    made, lists, body = manifest_of(head, documents, partial(part_name, head.name))
    for project, own in lists.items():
        put_file(os.path.join(folder, f"{project}.tags"), own)
    put_file(os.path.join(folder, MANIFEST), body)
    return made


def drop_others(folder: str, name: str, projects: Sequence[str]) -> None:
    """Removes the parts of a set but for those of these projects, and what a killed call left."""
    named = set(projects)
    form = re.compile(rf"({re.escape(name)}-[0-9a-f]{{16}})\.(lsif|tags)(\.[0-9]+\.new)?")
    for file in os.listdir(folder):
        found = form.fullmatch(file)
        if found is not None and (found[1] not in named or found[3]):
            os.unlink(os.path.join(folder, file))


@contextmanager
def unchanged_at_fault(folder: str, name: str) -> Iterator[None]:
    """A folder that a set is written to, made where it isn't there. Of what fails nothing stays
    there that its manifest doesn't name."""
    is_new, path = not os.path.isdir(folder), os.path.join(folder, MANIFEST)
    os.makedirs(folder, exist_ok=True)
    try:
        yield
    except BaseException:
        drop_others(folder, name, read_head(path).projects() if os.path.exists(path) else [])
        if is_new and not os.listdir(folder):
            os.rmdir(folder)
        raise
