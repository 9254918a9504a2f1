"""The manifest of a set: which part has each document, and what is said of the set, written as a
tags file of the project `NAME-parts`.

Its names begin with a control character, so that no search for names finds them by chance:

- U+0002 and `set`: the set, with the format, the version, the revision, the folder of its documents,
  the tool that made it and a mark of its own;
- U+0002 and `part`: a part, with its elements, the address of its first document and the digest of
  its content;
- U+0002 and `surface`: a part of the set's surface, which is on other servers, as a part is said;
- U+0002 and `package`: where the set is one of several servers', a package that it imports or
  exports something of, and whether its surface has nothing of that (`apart`);
- U+0002 and `list`: where the documents are too many for one tags file, a project with some of
  them, with the address of the first and a digest;
- U+0001 and an address: a document, with the part that has it.

The file of each tag is the project that it names.
"""

import hashlib
import re
from bisect import bisect_right
from os.path import commonprefix
from typing import Any, Iterable, Mapping, NamedTuple, Optional

from codenav.faults import BadCall
from codenav.names import PART, PARTS, shown_name

FORMAT, OLD_FORMAT = "2", "1"
TOOL = "codenav-split-lsif-1"
SORTED = "!_TAG_FILE_SORTED\t1\t/0=unsorted, 1=sorted/\n"
DOCUMENT, ABOUT = "\x01", "\x02"
PACKAGE = f"{ABOUT}package"
DIGITS = 16
SURFACE = "-surface"
Tag = dict[str, Any]


class NotAManifest(BadCall):
    """What stands where a manifest should is none; the text is the one line to print."""


class PartEntry(NamedTuple):
    """A part: its project, how many elements it has, the address of its first document, and the
    digest of its content."""

    project: str
    elements: int
    first: str
    digest: str = ""


class DocumentEntry(NamedTuple):
    """A document: its address, and the project of its part."""

    uri: str
    project: str


class ListEntry(NamedTuple):
    """A project with documents of a manifest, the address of the first, and the digest of its
    content."""

    project: str
    first: str
    digest: str = ""


class Head(NamedTuple):
    """What a manifest says of its set but for the documents; parts and lists in the order of their
    documents."""

    name: str
    revision: str = ""
    folder: str = ""
    documents: int = 0
    tool: str = TOOL
    mark: str = ""
    profile: str = "1"
    parts: tuple[PartEntry, ...] = ()
    lists: tuple[ListEntry, ...] = ()
    surface: tuple[PartEntry, ...] = ()
    packages: tuple[str, ...] = ()
    version: int = 0
    apart: tuple[str, ...] = ()

    def projects(self) -> list[str]:
        """The projects of the set but for its manifest."""
        return [part.project for part in self.parts] + [one.project for one in self.lists]

    def surface_projects(self) -> list[str]:
        """The projects of the surface, which are on other servers."""
        return [part.project for part in self.surface]

    def sent_for(self) -> set[str]:
        """The packages for which the surface goes to those who have something of them."""
        return set(self.packages) - set(self.apart)

    def is_spread(self) -> bool:
        """Whether the set is on one of several servers, with its surface on the others."""
        return bool(self.surface or self.packages)

    def part_of(self, uri: str) -> str:
        """The part that has a document, if any has: parts have documents that follow each other in
        the order of their addresses."""
        ordered = [part.first.encode() for part in self.parts]
        return self.parts[max(bisect_right(ordered, uri.encode()) - 1, 0)].project

    def like(self, uri: str) -> str:
        """A document that is there, of those that parts begin with: the one whose address has most
        folders in common with another at its end."""
        own = uri.split("/")[::-1]
        firsts = (part.first for part in self.parts)
        return max(firsts, key=lambda one: len(commonprefix([own, one.split("/")[::-1]])))

    def names(self) -> dict[str, str]:
        """The projects of the parts, the lists and the surface by the digests of their contents."""
        every: list[PartEntry | ListEntry] = [*self.parts, *self.lists, *self.surface]
        return {one.digest: one.project for one in every if one.digest}

    def digests(self) -> dict[str, str]:
        """The digests of the contents by their projects."""
        return {project: digest for digest, project in self.names().items()}

    def with_names(self, names: Mapping[str, str]) -> "Head":
        """The same with other projects, by the digests of their contents."""
        parts, surface = (
            tuple(part._replace(project=names.get(part.digest, part.project)) for part in own)
            for own in (self.parts, self.surface)
        )
        return self._replace(parts=parts, surface=surface)


def is_same(one: Optional[Head], other: Optional[Head]) -> bool:
    """Whether two manifests are of the same contents of the same revision."""
    contents = [
        head._replace(mark="", version=0, lists=()).with_names(dict.fromkeys(head.names(), ""))
        for head in (one, other)
        if head is not None
    ]
    return len(contents) == 2 and contents[0] == contents[1]


def content_digest(body: bytes, profile: str = "1", tags: bytes = b"") -> str:
    """The digest of the content of a part: a dump, which is read in a profile, and tags."""
    digest = hashlib.sha256(b"" if profile == "1" else f"profile {profile}\n".encode())
    digest.update(body + tags)
    return digest.hexdigest()


def part_name(name: str, digest: str) -> str:
    """What a part of a set is called in a folder, by the digest of its content."""
    return f"{name}-{digest[:DIGITS]}"


def escaped(text: str) -> str:
    """A text as it's written in a tags file (tags(5))."""
    return re.sub(r"[\x00-\x1f\x7f\\]", lambda found: f"\\x{ord(found[0]):02x}", text)


def unescaped(text: str) -> str:
    """The text that is written so."""
    return re.sub(r"\\x([0-9a-f]{2})", lambda found: chr(int(found[1], 16)), text)


def line_of(name: str, project: str, fields: Iterable[tuple[str, str]]) -> str:
    """A line of a tags file; fields without a value are left out."""
    more = "".join(f"\t{key}:{escaped(value)}" for key, value in fields if value)
    return f'{escaped(name)}\t{project}\t1;"{more}\n'


def head_lines(head: Head) -> list[str]:
    """The lines on a set, its parts and its lists."""
    about = [
        ("format", FORMAT),
        ("version", str(head.version)),
        ("revision", head.revision),
        ("folder", head.folder),
        ("documents", str(head.documents)),
        ("tool", head.tool),
        ("mark", head.mark),
        ("profile", head.profile),
    ]
    lines = [line_of(f"{ABOUT}set", head.name, about)]
    for kind, parts in ("part", head.parts), ("surface", head.surface):
        for part in parts:
            fields = [("elements", str(part.elements)), ("first", part.first)]
            fields.append(("digest", part.digest))
            lines.append(line_of(f"{ABOUT}{kind}", part.project, fields))
    apart = {package: [("apart", "yes")] for package in head.apart}
    lines += [
        line_of(PACKAGE, head.name, [("package", package), *apart.get(package, [])])
        for package in head.packages
    ]
    lines += [
        line_of(f"{ABOUT}list", one.project, [("first", one.first), ("digest", one.digest)])
        for one in head.lists
    ]
    return lines


def document_lines(documents: Iterable[DocumentEntry]) -> list[str]:
    """The lines on documents."""
    return [line_of(f"{DOCUMENT}{one.uri}", one.project, ()) for one in documents]


def tags_text(lines: Iterable[str]) -> bytes:
    """A tags file of lines."""
    encoded = sorted(line.encode("utf-8", "surrogatepass") for line in lines)
    return SORTED.encode() + b"".join(encoded)


def fields_of(tag: Tag) -> dict[str, str]:
    """The fields of a tag."""
    return {key: value for key, value in tag["fields"]}


def mark_in(tags: Iterable[Tag]) -> Optional[str]:
    """The mark that tags of a manifest say, or None where there is no manifest."""
    marks = [fields_of(tag).get("mark", "") for tag in tags if tag["name"] == f"{ABOUT}set"]
    return marks[0] if marks else None


def is_package(tag: Tag) -> bool:
    """Whether a tag says a package of a set."""
    return bool(tag["name"] == PACKAGE)


def package_of(tag: Tag) -> str:
    """The package that a tag says; empty where keys have none."""
    return fields_of(tag).get("package", "")


def part_entries(tags: Iterable[Tag], kind: str) -> list[PartEntry]:
    """The parts of a kind, `part` or `surface`, that tags say; raises KeyError and ValueError."""
    return [
        PartEntry(tag["file"], int(own["elements"]), own.get("first", ""), own.get("digest", ""))
        for tag in tags
        if tag["name"] == f"{ABOUT}{kind}"
        for own in [fields_of(tag)]
    ]


def head_of(tags: Iterable[Tag], project: str, with_old: bool = False) -> Optional[Head]:
    """The head that tags of a project `NAME-parts` say, or None where there is no tag; `with_old`
    takes one of the format of before too. Raises NotAManifest."""
    name = project.removesuffix(PARTS)
    found = list(tags)
    if not found:
        return None
    try:
        about = [tag for tag in found if tag["name"] == f"{ABOUT}set"]
        fields = fields_of(about[0])
        parts, surface = (
            tuple(sorted(part_entries(found, kind), key=lambda part: part.first.encode()))
            for kind in ("part", "surface")
        )
        lists = [
            ListEntry(tag["file"], own["first"], own.get("digest", ""))
            for tag in found
            if tag["name"] == f"{ABOUT}list"
            for own in [fields_of(tag)]
        ]
        lists.sort(key=lambda one: one.first.encode())
        packages = sorted(map(package_of, filter(is_package, found)))
        apart = [package_of(tag) for tag in filter(is_package, found) if "apart" in fields_of(tag)]
        revision, folder, tool, mark = (
            fields.get(key, "") for key in ("revision", "folder", "tool", "mark")
        )
        count, profile = int(fields["documents"]), fields.get("profile", "1")
        version, own_format = int(fields.get("version", "0")), fields["format"]
        about_it = name, revision, folder, count, tool, mark, profile
        head = Head(
            *about_it, parts, tuple(lists), surface, tuple(packages), version, tuple(sorted(apart))
        )
    except (KeyError, IndexError, TypeError, ValueError):
        raise NotAManifest(
            f"{project} isn't the manifest of a set: somebody else wrote it"
        ) from None
    own = {match["set"] for match in map(PART.fullmatch, head.projects()) if match is not None}
    is_own = len(about) == 1 and about[0]["file"] == name and own <= {name}
    is_own = is_own and len(set(head.projects())) == len(head.projects())
    if not is_own or not own and head.projects() or own_format not in (FORMAT, OLD_FORMAT):
        raise NotAManifest(f"{project} is a manifest of another set, or of another format")
    if own_format == OLD_FORMAT and not with_old:
        text = "was made by an older version of these tools: publish it again"
        raise NotAManifest(f"the set {shown_name(name)} {text}")
    return head


def tag_of(line: str) -> Tag:
    """The tag of a line that was written here; raises ValueError."""
    name, project, *rest = line.rstrip("\n").split("\t")
    pairs = [text.partition(":") for text in rest[1:]]
    return {
        "name": unescaped(name),
        "file": project,
        "fields": [(key, unescaped(value)) for key, _, value in pairs],
    }
