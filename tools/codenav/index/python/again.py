"""Which files of Python are asked of again where some of a folder changed."""

from typing import Mapping

from codenav.index.kept import Said
from codenav.index.looks import folders_of
from codenav.index.python.touched import stem_of
from codenav.texts.places import path_of


def asked_again(folder: str, before: Mapping[str, Said], digests: Mapping[str, str]) -> set[str]:
    """The documents of a folder that changed or weren't answered, and those whose answers were found by
    a file that changed, or by the name of one that came or went."""
    apart = before.keys() ^ digests.keys()
    moved = apart | {
        uri for uri in before.keys() & digests.keys() if before[uri].digest != digests[uri]
    }
    apart |= folders_of(folder, before) ^ folders_of(folder, digests)
    names = {stem_of(path_of(uri, []) or "") for uri in apart}
    moved |= {uri.rpartition("/")[0] for uri in apart}
    return {
        uri
        for uri in digests
        if uri not in before
        or not before[uri].body
        or uri in moved
        or not moved.isdisjoint(before[uri].read)
        or not names.isdisjoint(before[uri].names)
    }
