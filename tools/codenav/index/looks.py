"""By what it's known that files and folders are what they were that aren't documents."""

import os
from typing import Collection, Iterable

from codenav.index.kept import Known, digest_of, digest_of_file, stamp_of
from codenav.texts.places import path_of, uri_of

CACHE = "__pycache__"
THERE = "there"
"""What is known of a folder that isn't listed."""


def folders_of(folder: str, uris: Iterable[str]) -> set[str]:
    """The addresses of the folders of documents, up to that of them all."""
    top, found = uri_of(folder, []), set[str]()
    for uri in uris:
        while uri not in found and len(uri) > len(top):
            uri = uri.rpartition("/")[0]
            found.add(uri)
    return found


def look_of(folder: str, path: str, own: Collection[str], endings: tuple[str, ...]) -> str:
    """What is known of a file, without reading it where it's out of the folder, or of a folder by the
    files with these endings and the folders in it, apart from those documents and their folders.
    """
    if not os.path.isdir(path):
        return digest_of_file(path) if path.startswith(folder.rstrip("/") + "/") else stamp_of(path)
    try:
        with os.scandir(path) as entries:
            rows = [(one.name, one.is_dir()) for one in entries if uri_of(one.path, []) not in own]
    except OSError:
        return ""
    names = [
        f"{name}/" if is_folder else name
        for name, is_folder in rows
        if (not name.startswith(".") and name != CACHE if is_folder else name.endswith(endings))
    ]
    return digest_of("\n".join(sorted(names)))


def looks_of(
    folder: str,
    uris: Iterable[str],
    documents: Collection[str],
    endings: tuple[str, ...],
    there: Collection[str] = (),
) -> dict[str, Known]:
    """What is kept of files that are no documents of a folder, and of folders; of some of these alone
    that they're there."""
    own = {*documents, *folders_of(folder, documents)}
    found = dict[str, Known]()
    for uri in uris:
        if uri not in documents:
            path = path_of(uri, []) or ""
            is_there = uri in there and os.path.isdir(path)
            found[uri] = Known(THERE if is_there else look_of(folder, path, own, endings))
    return found
