"""The keys of a set: which keys of the dump its parts can't show to others, and what a result is
called that has places in several parts.

Parts are projects, so each finds what the others have by monikers. A key that the dump imports and
exports itself, or by which it exports several results, would then give more places than the whole
dump does: others don't find it in a part.
"""

import hashlib
from base64 import urlsafe_b64encode
from typing import Iterable

from codenav.dumps.tables.graph import BY_IMPORT, HOVER, NONE, REFERENCES
from codenav.sets.split.flat import Flat

NAME_BYTES = 18
Crossing = tuple[int, int]


def bearers_and_users(
    flat: Flat,
) -> tuple[dict[int, set[tuple[int, int]]], dict[int, set[tuple[int, int]]]]:
    """By key: the marks with the first results of what others find by it, and those of the ranges
    that have it."""
    bearers: dict[int, set[tuple[int, int]]] = {}
    users: dict[int, set[tuple[int, int]]] = {}
    for firsts, mark in flat.bearers:
        bearers.setdefault(mark >> 1, set()).add((mark & 1, firsts))
    for firsts, marks in flat.meanings:
        for mark in flat.marks[marks]:
            if mark >> 1 in bearers:
                users.setdefault(mark >> 1, set()).add((mark & 1, firsts))
    return bearers, users


def is_conflicted(flat: Flat, bearers: set[tuple[int, int]], users: set[tuple[int, int]]) -> bool:
    """Whether parts that show this key to others would find more in each other than the whole dump
    answers."""
    if not users:
        return False
    every = flat.firsts
    importing = [every[firsts] for is_export, firsts in users if not is_export]
    exported = [every[firsts] for is_export, firsts in bearers if is_export]
    found = {every[firsts][REFERENCES] for _, firsts in bearers} - {NONE}
    if found and len(found | {every[firsts][REFERENCES] for _, firsts in users}) > 1:
        return True
    for request in BY_IMPORT:
        found = {firsts[request] for firsts in exported} - {NONE}
        if found and importing and len(found | {firsts[request] for firsts in importing}) > 1:
            return True
    return any(firsts[HOVER] != NONE for firsts in exported) and any(
        firsts[HOVER] == NONE for firsts in importing
    )


def conflicted(flat: Flat) -> set[int]:
    """The keys that are conflicted."""
    bearers, users = bearers_and_users(flat)
    return {
        key for key, found in bearers.items() if is_conflicted(flat, found, users.get(key, set()))
    }


def reference_keys(flat: Flat, hidden: set[int]) -> dict[int, set[int]]:
    """The keys of the dump itself by which each result of references is found."""
    found: dict[int, set[int]] = {}
    for firsts, mark in flat.bearers:
        result = flat.firsts[firsts][REFERENCES]
        if result != NONE and mark >> 1 not in hidden:
            found.setdefault(result, set()).add(mark >> 1)
    return found


def least_keys(flat: Flat, wanted: set[Crossing]) -> dict[Crossing, int]:
    """The least key of a result: of those that have it first, ranges and what others find."""
    least: dict[Crossing, int] = {}
    pairs: list[tuple[int, Iterable[int]]] = [
        (firsts, flat.marks[marks]) for firsts, marks in flat.meanings
    ]
    pairs += [(firsts, (mark,)) for firsts, mark in flat.bearers]
    for firsts, marks in pairs:
        for request, result in enumerate(flat.firsts[firsts]):
            if request == HOVER or result == NONE or not marks:
                continue
            key = min(mark >> 1 for mark in marks)
            least[request, result] = min(key, least.get((request, result), key))
    return least


def first_place(flat: Flat, result: int) -> int:
    """The first place of a result: that of its definitions, else of its references."""
    return (flat.places_of(result, 0) or flat.places_of(result, 1))[0]


def numbered(flat: Flat, results: list[int]) -> dict[int, int]:
    """A number for each result of a group, by the order of their first places, else of all; those
    that have the same places share one. Places are compared by their order alone, which stays as it
    is where lines are inserted."""
    by_place: dict[int, list[int]] = {}
    for result in results:
        by_place.setdefault(first_place(flat, result), []).append(result)
    numbers: dict[int, int] = {}
    count = 0
    for place in sorted(by_place):
        before = None
        every = (([flat.places_of(own, role) for role in (0, 1)], own) for own in by_place[place])
        for places, own in sorted(every):
            count += before not in (None, places)
            numbers[own], before = count, places
        count += 1
    return numbers


def names_of(flat: Flat, wanted: set[Crossing], set_name: str) -> dict[Crossing, str]:
    """What each result that has to be found from other parts is called.

    A name comes of the least key of the dump that the result has; several results of one key are
    told apart by their number in order of place, as are those without a key whose first place is in
    one document. So a line that is inserted changes no name.
    """
    least = least_keys(flat, wanted)
    groups: dict[tuple[int, str], list[int]] = {}
    for (request, result), key in least.items():
        if flat.has_places(result):
            groups.setdefault((request, f"key {flat.keys[key]!r}"), []).append(result)
    for request, result in wanted:
        if (request, result) not in least:
            home = flat.document_of(first_place(flat, result))
            groups.setdefault((request, f"document {flat.uris[home]}"), []).append(result)
    names: dict[Crossing, str] = {}
    for (request, group), results in groups.items():
        if not any((request, result) in wanted for result in results):
            continue
        numbers = numbered(flat, results) if len(results) > 1 else {results[0]: 0}
        for result in results:
            if (request, result) in wanted:
                text = f"{request} {group} {numbers[result]}"
                digest = hashlib.sha256(text.encode("utf-8", "surrogatepass")).digest()
                names[
                    request, result
                ] = f"{set_name}:{urlsafe_b64encode(digest[:NAME_BYTES]).decode()}"
    return names
