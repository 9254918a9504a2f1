"""Where in a checkout the documents of its dump are."""

import os
from typing import Sequence

from codenav.addresses import below
from codenav.texts.places import plain


def folder_inside(folder: str, where: str, uris: Sequence[str]) -> str:
    """The folder of a checkout, from its top on, that the address which documents are below stands
    for: the top, or one that has the last names of the address, where more of the documents are
    files below it."""
    paths = [plain(inside) for inside in (below(where, uri) for uri in uris) if inside is not None]
    names = plain(where).rstrip("/").split("/")[3:]
    found = [os.curdir, *(os.path.join(*names[-count:]) for count in range(1, len(names) + 1))]

    def files_in(inside: str) -> int:
        return sum(os.path.isfile(os.path.join(folder, inside, path)) for path in paths)

    return max((one for one in found if os.path.isdir(os.path.join(folder, one))), key=files_in)
