"""Documents and the files that they are, and columns in characters and in UTF-16 code units."""

import os
from contextlib import suppress
from typing import Any, Callable, NamedTuple, Optional, Sequence
from urllib.parse import quote, unquote_to_bytes

from codenav.addresses import KEPT as KEPT
from codenav.addresses import below, folder_address, spelled
from codenav.faults import BadCall
from codenav.texts.decoded import Text, read_text

Maps = list[tuple[str, str]]


def units(text: str) -> int:
    """The length of a text in UTF-16 code units."""
    return len(text.encode("utf-16-le", "surrogatepass")) // 2


def character_at(path: str, lines: Sequence[str], line: int, column: int, utf16: bool) -> int:
    """The UTF-16 code units before a column of a file's line, both from 1; with `utf16` the column
    counts such."""
    text = lines[line - 1] if 1 <= line <= len(lines) else None
    if text is None or not 1 <= column <= (units(text) if utf16 else len(text)) + 1:
        raise BadCall(f"{path} has no line {line} with a column {column}")
    return column - 1 if utf16 else units(text[: column - 1])


def cut(text: str) -> tuple[str, str]:
    """The URI and the folder of `URI=FOLDER`, where each may have a `=`: it's cut at the first one
    behind which a folder is, else at the first. Raises BadCall."""
    parts = text.split("=")
    cuts = [("=".join(parts[:at]), "=".join(parts[at:])) for at in range(1, len(parts))]
    whole = [(uri, folder) for uri, folder in cuts if uri and folder]
    if not whole:
        raise BadCall("--map takes URI=FOLDER, neither of them empty")
    return next((pair for pair in whole if os.path.isdir(pair[1])), whole[0])


def map_words(uri: str, folder: str) -> str:
    """A map as a word of a command line, which is cut in one way."""
    return f"{uri.replace('=', '%3D')}={folder}"


def maps_of(texts: list[str]) -> Maps:
    """The pairs of a URI and a folder, each written as `URI=FOLDER`. Raises BadCall."""
    maps = [(folder_address(uri), os.path.abspath(folder)) for uri, folder in map(cut, texts)]
    real = [(uri, os.path.realpath(folder)) for uri, folder in maps]
    return maps + [one for one in real if one not in maps]


def link_map(folder: str) -> Maps:
    """What a folder that is reached by a symbolic link is a map for: indexers know its files by
    their real paths. Nothing of another folder."""
    folder, real = os.path.abspath(folder), os.path.realpath(folder)
    return [] if folder == real else [(uri_of(real, []), folder)]


def is_mapped(path: str, maps: Maps) -> bool:
    """Whether a map's folder has a file."""
    return any(is_inside(os.path.relpath(os.path.abspath(path), folder)) for _, folder in maps)


def is_inside(inside: str) -> bool:
    """Whether a path that was made relative to a folder stays in it."""
    return inside.split(os.sep)[0] != os.pardir


def asked_path(path: str, maps: Maps) -> str:
    """The whole path by which a file is asked for: as it's given where a map's folder has it, else
    without symbolic links."""
    return os.path.abspath(path) if is_mapped(path, maps) else os.path.realpath(path)


def uri_of(path: str, maps: Maps) -> str:
    """The document's address, in the one spelling: that of the first map whose folder has the file,
    else the file's own."""
    path = os.path.abspath(path)
    for root, folder in maps:
        inside = os.path.relpath(path, folder)
        if is_inside(inside):
            return root.removesuffix("/") + "/" + quote(os.fsencode(inside), safe=KEPT)
    return "file://" + quote(os.fsencode(path), safe=KEPT)


def path_of(uri: str, maps: Maps) -> Optional[str]:
    """The whole path of a document's file; None where its address is no file's, or a path can't be
    that."""
    uri = spelled(uri)
    if "%00" in uri:
        return None
    for root, folder in maps:
        inside = below(root, uri)
        if inside is not None:
            return os.path.normpath(os.path.join(folder, plain(inside)))
    return plain(uri[7:]) if uri.startswith("file:///") else None


def plain(part: str) -> str:
    """A part of an address as a path."""
    return os.fsdecode(unquote_to_bytes(part))


def work_tree(path: str) -> str:
    """The top of the work tree of git that a file is in; empty where it's in none."""
    folder = os.path.dirname(os.path.realpath(path))
    while not os.path.lexists(os.path.join(folder, ".git")):
        above = os.path.dirname(folder)
        if above == folder:
            return ""
        folder = above
    return folder


def shown(path: str) -> str:
    """A path as it's printed: from the folder that the call was made in where the file lies
    there."""
    inside = os.path.relpath(path)
    return inside if is_inside(inside) else path


class Place(NamedTuple):
    """A place in a file, or in a document that is no file; the line and the character count from 0,
    the character in UTF-16 code units."""

    name: str
    line: int
    character: int

    def position(self) -> dict[str, int]:
        """The position, as the server has it."""
        return {"line": self.line, "character": self.character}


def place_of(found: dict[str, Any], maps: Maps) -> Place:
    """The start of a place that the server found."""
    return Place(
        path_of(found["uri"], maps) or found["uri"],
        found["start"]["line"],
        found["start"]["character"],
    )


def place_line(place: Place, utf16: bool, read: Callable[[str], Text] = read_text) -> str:
    """`path:line:column` of a place, from 1; with `utf16`, or where its file can't be read, in
    UTF-16 code units, else in characters. `read` reads a file."""
    column = place.character
    if not utf16:
        with suppress(OSError, BadCall, IndexError):
            column = read(place.name).characters(place.line, column)
    name = shown(place.name) if os.path.isabs(place.name) else place.name
    return f"{name}:{place.line + 1}:{column + 1}"
