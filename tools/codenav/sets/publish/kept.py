"""The sets that publishes kept: `publish --keep FOLDER` leaves there the parts of a set, its manifest
and its surface.

A server returns no dump. So what a server lost, or what another one is to get, is put from these
folders. They are found by the manifests in them, wherever below one folder they are.
"""

import os
from typing import Iterator, NamedTuple

from codenav.faults import BadCall
from codenav.names import shown_name
from codenav.sets.files import MANIFEST, read_head
from codenav.sets.manifest import Head, NotAManifest
from codenav.sets.surface.made import surface_name


class Kept(NamedTuple):
    """A set that is kept: the folder with its manifest, and what this says."""

    folder: str
    head: Head


def fail(fault: OSError) -> None:
    """Takes a folder that can't be read as a fault."""
    raise fault


def folders_with_manifest(folder: str) -> Iterator[str]:
    """The folders of sets below one; what is in such a folder, as its surface, is no other set."""
    for own, folders, files in os.walk(folder, onerror=fail):
        folders.sort()
        if MANIFEST in files:
            folders.clear()
            yield own


def kept_sets(folder: str) -> tuple[dict[str, Kept], list[str]]:
    """The sets that are kept below a folder by their names, and a line on each that can't be
    used."""
    if not os.path.isdir(folder):
        raise BadCall(f"{folder}: not a folder")
    sets: dict[str, Kept] = {}
    faults = []
    for own in folders_with_manifest(folder):
        try:
            head = read_head(os.path.join(own, MANIFEST))
            surface_name(head.name)
        except NotAManifest:
            faults.append(f"{own}: its {MANIFEST} isn't the manifest of a set")
            continue
        except BadCall as fault:
            faults.append(f"{own}: {fault}")
            continue
        before = sets.setdefault(head.name, Kept(own, head))
        if before.folder != own:
            faults.append(
                f"{shown_name(head.name)}: kept in {before.folder} and in {own}: keep one"
            )
    return sets, faults
