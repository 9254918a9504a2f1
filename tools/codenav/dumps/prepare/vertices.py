"""Mends the members of single vertices as the server asks for them. What can't be mended isn't a
vertex of its label: it's left out."""

from dataclasses import dataclass
from typing import Any, Callable, Optional

from codenav.addresses import address_of, folder_address, is_address, spelled
from codenav.dumps.lsif.elements import Element, span_of
from codenav.dumps.lsif.json_values import is_whole
from codenav.outcome import Notes

VERSION = "0.6.0"
MOST_NUMBER = 2147483647
MOST_TEXT_BYTES = 1_048_576
KINDS = ("import", "export", "local")
NARROW = ("document", "project", "group", "workspace")
NO_EFFECT = {"document": ("contents",), "range": ("tag",)}
RESULT_MEMBERS = ("definitions", "references", "referenceResults", "declarations")


@dataclass
class Mender:
    """Mends vertices one by one, and notes it. `root` is the address that documents without a
    scheme are below."""

    notes: Notes
    strip: bool = False
    keep_unique: bool = False
    root: str = ""

    def mended(self, vertex: Element, line: int, size: int) -> Optional[Element]:
        """The vertex as it can be written, the same object where nothing changes; None where it's
        left out."""
        mend = MENDERS.get(vertex["label"])
        return vertex if mend is None else mend(self, vertex, line, size)

    def metadata(self, vertex: Element, line: int, size: int) -> Element:
        """The version is that of the server, positions count as its do, and the root is the one
        that documents are below."""
        changed = {**vertex, "projectRoot": self.root} if self.root else dict(vertex)
        if "positionEncoding" in vertex and vertex["positionEncoding"] != "utf-16":
            del changed["positionEncoding"]
        if vertex.get("version") != VERSION:
            changed["version"] = VERSION
        return vertex if changed == vertex else changed

    def document(self, vertex: Element, line: int, size: int) -> Optional[Element]:
        """A document has an address in the one spelling."""
        uri, kept = vertex.get("uri"), vertex
        if not isinstance(uri, str) or "\0" in uri or not uri:
            self.notes.leave_out("document without an address", f"line {line}")
            return None
        whole = absolute(uri, self.root)
        own = spelled(whole) if whole is not None and is_whole(whole) else ""
        if not is_address(own):
            why = (
                "has no scheme, and no root is known (--root)" if whole is None else "can't be read"
            )
            self.notes.leave_out(f"document whose address {why}", f"line {line}: {uri!r}")
            return None
        if own != uri:
            self.notes.mend("address of a document, in the one spelling", line)
            kept = {**vertex, "uri": own}
        return self.without_text(kept, "contents", line, size)

    def range(self, vertex: Element, line: int, size: int) -> Optional[Element]:
        """A range has whole numbers as its ends, of which the second isn't before the first."""
        span = span_of(vertex)
        if (
            span is None
            or not all(0 <= number <= MOST_NUMBER for number in span)
            or span[:2] > span[2:]
        ):
            self.notes.leave_out("range whose ends are none", f"line {line}")
            return None
        return self.without_text(vertex, "tag", line, size)

    def without_text(self, vertex: Element, member: str, line: int, size: int) -> Element:
        """A vertex without a member that has no effect, where the line is too long for the server,
        or where all such go."""
        if member not in vertex or not (self.strip or size > MOST_TEXT_BYTES):
            return vertex
        self.notes.mend(f"`{member}` of a {vertex['label']}, which has no effect, dropped", line)
        return {name: value for name, value in vertex.items() if name != member}

    def moniker(self, vertex: Element, line: int, size: int) -> Optional[Element]:
        """A moniker has texts, and joins projects only where it's the same in all of them."""
        if not is_text(vertex.get("scheme")) or not is_text(vertex.get("identifier")):
            self.notes.leave_out("moniker without a scheme or an identifier", f"line {line}")
            return None
        kind = vertex.get("kind", "local")
        if kind not in KINDS:
            self.notes.mend(f"moniker kind {shown(kind)}, as local", line)
            return {**vertex, "kind": "local"}
        if kind != "local" and not self.keep_unique and vertex.get("unique") in NARROW:
            self.notes.mend(
                f"moniker that is unique in its {vertex['unique']} alone, as local", line
            )
            return {**vertex, "kind": "local"}
        if not is_whole(vertex["scheme"] + vertex["identifier"]):
            return self.halved(vertex, line)
        return vertex

    def halved(self, moniker: Element, line: int) -> Element:
        """A moniker whose key has half of a character: written, it could be another's."""
        if moniker.get("kind", "local") == "local":
            return moniker
        self.notes.mend("moniker with half of a character, as local", line)
        return {**moniker, "kind": "local"}

    def package(self, vertex: Element, line: int, size: int) -> Element:
        """A package has texts as its manager and its name, and as its version, where it has one."""
        changed = dict(vertex)
        for member in ("manager", "name"):
            if not is_text(vertex.get(member)):
                changed[member] = ""
        if "version" in vertex and not is_text(vertex["version"]):
            del changed["version"]
        if changed == vertex:
            return vertex
        self.notes.mend("package without a manager, a name or a version that is a text", line)
        return changed

    def hover(self, vertex: Element, line: int, size: int) -> Optional[Element]:
        """A hover has contents of a form that the server reads; one without any is no hover."""
        result = vertex.get("result")
        contents = result.get("contents") if isinstance(result, dict) else None
        read = contents_of(contents)
        if read is None or read == []:
            self.notes.mend("hover without contents, dropped", line)
            return None
        if read == contents:
            return vertex
        self.notes.mend("hover contents of another form, as texts", line)
        return {**vertex, "result": {"contents": read}}

    def result(self, vertex: Element, line: int, size: int) -> Element:
        """A result's places are `item` edges; those within it, as in early versions, are read by
        `inline`."""
        if vertex["label"] != "referenceResult" and "result" not in vertex:
            return vertex
        members = [member for member in ("result", *RESULT_MEMBERS) if member in vertex]
        if not members:
            return vertex
        self.notes.mend("places within a result, as `item` edges", line)
        return {name: value for name, value in vertex.items() if name not in members}


MENDERS: dict[str, Callable[[Mender, Element, int, int], Optional[Element]]] = {
    "metaData": Mender.metadata,
    "document": Mender.document,
    "range": Mender.range,
    "moniker": Mender.moniker,
    "packageInformation": Mender.package,
    "hoverResult": Mender.hover,
    "definitionResult": Mender.result,
    "declarationResult": Mender.result,
    "implementationResult": Mender.result,
    "referenceResult": Mender.result,
}


def is_text(value: Any) -> bool:
    """Whether a value is a text that the server keeps."""
    return isinstance(value, str) and "\0" not in value


def shown(value: Any) -> str:
    """A value as a note has it, cut."""
    return f"`{str(value)[:40]}`"


def absolute(uri: str, root: str) -> Optional[str]:
    """The address of a document that is written as one, or as a path; None where it isn't below
    anything."""
    if is_address(uri) and uri[1:3] not in (":\\", ":/"):
        return uri
    own, above = address_of(uri), folder_address(root)
    if own is not None or not is_address(above):
        return own
    inside = uri.replace("\\", "/").replace("%", "%25")
    return f"{above.removesuffix('/')}/{inside}"


def is_path(uri: Any) -> bool:
    """Whether a document's address is a path that needs the root."""
    return is_text(uri) and uri != "" and absolute(uri, "") is None


def without_text(document: Element) -> Element:
    """A document without its text, of which it's known that it was there."""
    return {name: "" if name == "contents" else value for name, value in document.items()}


def contents_of(contents: Any) -> Any:
    """Hover contents in a form that the server reads, the same where they are in one; None where
    there are none."""
    if isinstance(contents, list):
        parts = [part_of(part) for part in contents]
        return [part for part in parts if part is not None]
    if isinstance(contents, dict) and "kind" in contents:
        if contents["kind"] in ("plaintext", "markdown") and isinstance(contents.get("value"), str):
            return contents
    return part_of(contents)


def part_of(part: Any) -> Any:
    """A part of hover contents: a text, or a text in a language; of others the text alone."""
    if isinstance(part, str):
        return part
    if not isinstance(part, dict) or not isinstance(part.get("value"), str):
        return None
    if isinstance(part.get("language"), str) and "kind" not in part:
        return part
    return part["value"]


def inline(vertex: Element) -> list[tuple[Optional[str], list[Any]]]:
    """The places that early versions write within a result: the property of the `item` edge that
    each list represents, with its members."""
    found: list[tuple[Optional[str], Any]] = []
    for member in ("result", *RESULT_MEMBERS):
        value = vertex.get(member)
        if isinstance(value, dict) and member == "result":
            found += [(name, value[name]) for name in RESULT_MEMBERS if name in value]
        elif value is not None:
            found.append((None if member == "result" else member, value))
    return [
        (
            "definitions" if name == "declarations" else name,
            value if isinstance(value, list) else [value],
        )
        for name, value in found
        if value is not None
    ]
