"""How places in a document move with the names that it declares."""

from collections import defaultdict
from typing import Iterable, Mapping, Optional

from codenav.index.answers import At, Name, Place
from codenav.index.kept import Kept

Moved = dict[str, dict[At, At]]
"""Of documents, where their names are now."""


def moved_names(before: Mapping[At, Name], after: Mapping[At, Name]) -> Optional[dict[At, At]]:
    """Where names are now that a document declares; None where they aren't the same ones."""
    own, other = sorted(before.items()), sorted(after.items())
    plain = ([name._replace(size=(0, 0)) for _, name in rows] for rows in (own, other))
    if next(plain) != next(plain):
        return None
    return {at: to for (at, _), (to, _) in zip(own, other)}


def moved_place(place: Place, moved: Mapping[At, At]) -> Optional[Place]:
    """Where a place of a document is now whose names moved; None where that isn't known. What begins
    where the document does is the whole of it."""
    to = moved.get(place.at)
    if to is None and (place.line, place.start) == (0, 0):
        return place
    if to is None:
        first = next(iter(moved.items()), None)
        is_above = first is not None and first[0] == first[1] and place.end_line < first[0][1]
        return place if is_above else None
    if place.line != place.end_line:
        return None
    return Place(place.uri, to[1], to[2], to[1], to[2] + place.end - place.start)


def shifted_in(
    changed: Iterable[str], before: Kept, after: Kept, names: Mapping[At, Name]
) -> Moved:
    """Of documents that changed where others don't hold by it, where their names are now."""
    own = defaultdict[str, dict[At, Name]](dict)
    for at, name in names.items():
        own[at[0]][at] = name
    found, known = Moved(), before.documents
    for uri in known.keys() & changed:
        if known[uri].surface == after.documents[uri].surface:
            moved = moved_names(known[uri].names, own[uri])
            if moved is not None:
                found[uri] = moved
    return found


def shift(before: Kept, shifted: Moved) -> set[Place]:
    """Has what is known lead to where names are now; the words for which that isn't known, which lead
    nowhere."""
    lost = set[Place]()
    for uri, known in before.documents.items():
        for word, places in [] if uri in shifted else [*known.leads.items()]:
            if any(place.uri in shifted for place in places):
                now = [
                    moved_place(one, shifted[one.uri]) if one.uri in shifted else one
                    for one in places
                ]
                known.leads[word] = sorted(filter(None, now))
                if None in now:
                    del known.leads[word]
                    lost.add(word)
    return lost
