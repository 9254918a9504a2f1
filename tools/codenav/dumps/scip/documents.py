"""Where the documents of a SCIP index are, and their texts. A document that can't be placed or read
is left out, and noted."""

import os
import posixpath
from typing import Optional, Sequence
from urllib.parse import quote

from codenav.addresses import (
    KEPT,
    address_of,
    folder_address,
    is_address,
    is_like,
    root_of,
    spelled,
)
from codenav.dumps.scip.messages import IndexFile
from codenav.dumps.scip.scip_pb2 import Document
from codenav.faults import BadCall, NotADump
from codenav.outcome import LEFT_AS_ASKED, MENDED, Notes, unlike
from codenav.texts.columns import COUNTED, ENCODINGS, UTF_16, Columns
from codenav.texts.decoded import body_of

COUNTS_UTF_16 = ("scip-typescript", "scip-java", "scip-dotnet", "scip-python", "scip-kotlin")


class Documents:
    """The addresses of documents, and their paths."""

    def __init__(
        self, index: IndexFile, root: Optional[str], without: Sequence[str], notes: Notes
    ) -> None:
        """Finds the root; raises NotADump where the index has none and none is given."""
        self.name, self.without, self.notes = index.name, without, notes
        self.paths: dict[str, str] = {}
        self.left: set[str] = set()
        self.like: set[str] = set()
        tool = index.metadata.tool_info
        self.tool_info = {"name": tool.name, "version": tool.version}
        given = index.metadata.project_root if root is None else root
        self.root = folder_address(given) if root is None else root_of(root)
        if not is_address(self.root):
            raise NotADump(
                f"{index.name}: the index has no address of its root, but {given!r}: give --root, the folder that was indexed"
            )

    def uri_of(self, path: str, byte: int) -> str:
        """The address of a document by its path; the empty text where it's left out."""
        path = path.replace("\\", "/")
        path = posixpath.normpath(path) if path else ""
        if path in ("", ".", "..") or path.endswith("/..") or "\0" in path:
            self.notes.leave_out("document without a path", f"byte {byte}")
            return ""
        root = self.root.removesuffix("/")
        uri = address_of(path) or spelled(f"{root}/{quote(path, safe=KEPT)}")
        globs = [glob for glob in self.without if is_like(uri, self.root, glob)]
        if globs and path not in self.left:
            self.notes.add(MENDED, LEFT_AS_ASKED, path)
            self.left.add(path)
            self.like.update(globs)
        if not globs:
            self.paths.setdefault(uri, path)
        return "" if globs else uri

    def finish(self) -> None:
        """Raises NotADump where no document is like one that is to be left out."""
        for glob in self.without:
            if glob not in self.like:
                raise NotADump(unlike(self.name, glob))


class Texts:
    """The texts of documents, for those that don't count UTF-16 code units. Files that couldn't be
    read `before` are left out, and then no others."""

    def __init__(
        self,
        documents: Documents,
        source: Optional[str],
        encoding: Optional[str],
        notes: Notes,
        before: Optional[set[str]] = None,
    ) -> None:
        self.documents, self.source, self.encoding, self.notes = documents, source, encoding, notes
        self.before, self.unread, self.read = before, set[str](), 0

    def columns(self, uri: str, document: Document) -> Optional[Columns]:
        """The columns of a document; None where its text can't be read. Raises BadCall where the
        call has to say more."""
        path = self.documents.paths[uri]
        encoding: int = document.position_encoding or ENCODINGS.get(self.encoding or "", 0)
        if encoding not in ENCODINGS.values():
            tool = self.documents.tool_info["name"]
            known = (
                f" utf-16, as {tool} counts"
                if tool in COUNTS_UTF_16
                else ", which is the indexer's"
            )
            raise BadCall(f"{path} doesn't say what its characters count: give --encoding{known}")
        if encoding == UTF_16:
            return Columns(encoding, b"")
        if document.text:
            return Columns(encoding, document.text.encode())
        if self.source is None:
            raise BadCall(
                f"{path} counts {COUNTED[encoding]}, and its text isn't in the index: give --source, the folder that has it"
            )
        return self.of_file(path, encoding)

    def of_file(self, path: str, encoding: int) -> Optional[Columns]:
        """The columns of a document whose text is in a file below the folder of sources."""
        if self.before is not None and path in self.before:
            return None
        try:
            body = body_of(os.path.join(self.source or "", path))
        except BadCall as fault:
            if self.before is not None:
                raise
            reason = str(fault).rpartition(": ")[2]
            self.notes.leave_out(f"document whose file can't be read ({reason})", path)
            self.unread.add(path)
            return None
        self.read += 1
        return Columns(encoding, body)

    def finish(self) -> None:
        """Raises BadCall where no file could be read of those that were to be."""
        if self.unread and not self.read:
            raise BadCall(
                f"none of {len(self.unread)} documents can be read below {self.source}: is it the folder that was indexed?"
            )
