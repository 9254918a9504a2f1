"""The documents that an editor has open. Each is kept under what it is, a file or another address,
however the editor spells it; what's sent of it is spelled as the editor does, which would open it a
second time otherwise."""

import os
from typing import NamedTuple, Optional

from codenav.addresses import spelled
from codenav.texts.decoded import Text
from codenav.texts.places import path_of, uri_of


class Open(NamedTuple):
    """An open document: its address as the editor has it, and its text."""

    uri: str
    own: Text

    @property
    def text(self) -> str:
        """The text."""
        return self.own.text


def document_name(uri: str) -> str:
    """The path of a document's file, or the address of one that is no file."""
    return path_of(uri, []) or spelled(uri)


class OpenDocuments:
    """The documents, by their names."""

    def __init__(self) -> None:
        self.own: dict[str, Open] = {}
        self.real: dict[str, str] = {}

    def put(self, uri: str, text: str) -> None:
        """Keeps the text of a document."""
        name = document_name(uri)
        self.own[name] = Open(uri, Text(text))
        if os.path.isabs(name):
            self.real[os.path.realpath(name)] = name

    def remove(self, uri: str) -> None:
        """Forgets a document."""
        name = document_name(uri)
        if self.own.pop(name, None):
            self.real = {real: own for real, own in self.real.items() if own != name}

    def find(self, name: str) -> Optional[Open]:
        """An open document, by its name or by another path of its file."""
        found = self.own.get(name)
        if found is None and os.path.isabs(name) and self.real:
            real = self.real.get(os.path.realpath(name))
            found = self.own[real] if real is not None else None
        return found

    def paths(self) -> list[str]:
        """The paths of those that are files."""
        return list(filter(os.path.isabs, self.own))

    def uri_of(self, name: str) -> str:
        """The address of a document for the editor."""
        found = self.find(name)
        if found is not None:
            return found.uri
        return uri_of(name, []) if os.path.isabs(name) else name
