"""Makes the surface of a set in a folder of its own, in parts where it's over the server's limits."""

import os
from typing import Collection, NamedTuple

from codenav.faults import BadCall
from codenav.limits import MOST_ELEMENTS, excesses
from codenav.progress import Shows
from codenav.sets.files import MANIFEST, put_file, read_head, with_head
from codenav.sets.manifest import SURFACE, PartEntry, content_digest, part_name
from codenav.sets.split.split import SplitOptions, split, uncollected
from codenav.sets.surface.surface import write_surface

MOST_NAME = 39


def surface_name(name: str) -> str:
    """The set that the surface of a set is; raises BadCall where the name is too long for it, or is
    that of a surface."""
    if name.endswith(SURFACE):
        raise BadCall(
            f"on several servers a set's name doesn't end with {SURFACE}, as {name!r} does"
        )
    if len(name) > MOST_NAME:
        raise BadCall(
            f"on several servers a set's name has at most {MOST_NAME} characters, not {name!r}"
        )
    return name + SURFACE


class SurfaceFiles(NamedTuple):
    """A surface that was made: its parts, the packages that the dump is joined by, and those of them
    of which it has nothing that's imported."""

    parts: tuple[PartEntry, ...]
    packages: tuple[str, ...]
    apart: tuple[str, ...] = ()


def made_surface(
    dump: str,
    name: str,
    profile: str,
    folder: str,
    shows: Shows,
    most: int = MOST_ELEMENTS,
    apart: Collection[str] = (),
) -> SurfaceFiles:
    """Writes the surface of a prepared dump into a folder, in parts of so many elements at most
    where it's over the limits, and removes what's left there of another one. Raises BadCall and
    NotADump."""
    os.makedirs(folder, exist_ok=True)
    whole = os.path.join(folder, "whole.lsif")
    with uncollected():
        _, surface = write_surface(dump, profile, whole, shows, apart)
    count = surface.lines.count
    parts: tuple[PartEntry, ...] = ()
    if surface.bearers and (count > most or excesses(count, surface.bytes, surface.longest)):
        options = SplitOptions(surface_name(name), profile, elements=most)
        parts = split(whole, options, folder, shows).head.parts
    elif surface.bearers:
        with open(whole, "rb") as file:
            digest = content_digest(file.read(), profile)
        project = part_name(surface_name(name), digest)
        os.replace(whole, surface_file(folder, project))
        parts = (PartEntry(project, count, "", digest),)
    named = {surface_file(folder, part.project) for part in parts}
    for own in os.listdir(folder):
        path = os.path.join(folder, own)
        if own.endswith(".lsif") and path not in named:
            os.unlink(path)
    return SurfaceFiles(parts, surface.joined_packages(), surface.apart_packages())


def surface_file(folder: str, project: str) -> str:
    """The file of a part of a surface in its folder."""
    return os.path.join(folder, f"{project}.lsif")


def keep_surface(folder: str, surface: SurfaceFiles) -> None:
    """Writes into the manifest of a set's folder what its surface is."""
    path = os.path.join(folder, MANIFEST)
    parts, packages, apart = surface
    head = read_head(path)._replace(surface=parts, packages=packages, apart=apart)
    put_file(path, with_head(path, head))
