"""Makes the flat tables of a dump."""

from __future__ import annotations

import heapq
from array import array
from collections import Counter
from typing import Iterable, Iterator, Sequence

from codenav.addresses import serialized
from codenav.dumps.closure import reached
from codenav.dumps.overlaps import crossing
from codenav.dumps.tables.disk_arrays import Numbers, Sorted
from codenav.dumps.tables.graph import LINE, NONE, PLACE, Graph
from codenav.faults import NotADump
from codenav.sets.split.chains import Chains, key_numbers
from codenav.sets.split.flat import ROLES, Flat

MOST_LED = 4_000_000
STEPS_A_PLACE = 2


def ordered_documents(graph: Graph, without: frozenset[str]) -> tuple[list[str], list[int]]:
    """The addresses as the server knows them, in order, and which documents have them; but for
    those left out."""
    known = [serialized(uri) for uri in graph.uris]
    twice = [uri for uri, count in Counter(known).items() if count > 1]
    if twice:
        raise NotADump(f"two documents have the address {twice[0]} (L19)")
    kept = [own for own, uri in enumerate(known) if uri not in without]
    kept.sort(key=lambda own: known[own].encode())
    return [known[own] for own in kept], kept


def refuse_overlaps(flat: Flat) -> None:
    """Refuses two ranges of a document that are equal, or overlap and aren't nested (L12)."""
    for document, uri in enumerate(flat.uris):
        first, last = flat.first[document], flat.first[document + 1]
        starts = flat.start[first:last]
        for _, at in crossing(zip(starts, flat.end[first:last])):
            place = f"{uri}, {starts[at] // LINE}:{starts[at] % LINE}"
            text = f"{place}: a range that equals or overlaps another (L12)"
            raise NotADump(f"{text}; `codenav prepare` prepares a dump")


def add_places(flat: Flat, graph: Graph, found: Sorted, most: int) -> None:
    """Adds the places of results, of which each is a number: the result, the role and the rank;
    also those of results that a result leads to."""
    results = len(graph.request_of)
    flat.first_place, flat.places = slots_of(flat, found, results)
    if graph.leads:
        led = led_places(flat, graph, most)
        flat.first_place, flat.places = slots_of(flat, heapq.merge(found, led), results)


def slots_of(flat: Flat, found: Iterable[int], results: int) -> tuple[array[int], Numbers]:
    """Where the places of each result in each role begin, and the places; `found` is in order, and
    what is there twice counts once."""
    first, places = array("i"), flat.column("i")
    slot, before = 0, NONE
    for item in found:
        if item == before:
            continue
        before = item
        while slot <= item >> 32:
            first.append(len(places))
            slot += 1
        places.append(item & PLACE)
    first.extend([len(places)] * (results * ROLES + 1 - slot))
    return first, places


def led_places(flat: Flat, graph: Graph, most: int) -> Sorted:
    """The places that results have by those that they lead to over `referenceResults`.

    How many they are is limited, and how many steps lead to them; how many results were cut short
    is noted.
    """
    led = Sorted()
    room, steps = most, STEPS_A_PLACE * most
    for result in sorted(graph.leads):
        if room <= 0 or steps <= 0:
            flat.cut_short += 1
            continue
        (_, *others), is_short, gone = reached(graph.leads, [result], min(room, steps))
        steps -= gone
        items = array("q")
        for other in others:
            if len(items) > room:
                break
            for role in range(ROLES):
                slot = (result * ROLES + role) << 32
                items.extend(slot | rank for rank in flat.places_of(other, role))
        flat.cut_short += is_short or len(items) > room
        led.extend(items[:room])
        room -= len(items)
    return led


def flattened(graph: Graph, without: frozenset[str] = frozenset(), most: int = MOST_LED) -> Flat:
    """The flat tables of a dump, without the documents that are left out."""
    uris, kept = ordered_documents(graph, without)
    keys, key_of = key_numbers(graph)
    start, end, meaning, is_place = map(graph.column, "qqib")
    flat = Flat(
        uris=uris,
        written=[graph.uris[own] for own in kept],
        column=graph.column,
        start=start,
        end=end,
        meaning=meaning,
        is_place=is_place,
        hover_at=graph.hover_at,
        hover_bytes=graph.hover_bytes,
        hover_sizes=graph.hover_sizes,
        keys=keys,
    )
    chains, found = Chains(graph, flat, key_of), Sorted()
    numbers: dict[tuple[int, int], int] = {(0, 0): NONE}
    for ranges, items in graph.by_document(kept):
        found.extend(add_ranges(flat, graph, ranges, items))
        flat.meaning.extend(meanings_of(flat, chains, ranges, numbers))
    flat.bearers = chains.bearers()
    refuse_overlaps(flat)
    add_places(flat, graph, found, most)
    return flat


def add_ranges(flat: Flat, graph: Graph, ranges: Sequence[int], items: Iterable[int]) -> list[int]:
    """Adds the ranges of the next document, which are in order; answers the items of these, with
    ranks in the place of ranges."""
    first = flat.first[-1]
    flat.start.extend([graph.start[own] for own in ranges])
    flat.end.extend([graph.end[own] for own in ranges])
    flat.first.append(first + len(ranges))
    rank = {own: number for number, own in enumerate(ranges, first)}
    ranked = [item & ~PLACE | rank[item & PLACE] for item in items]
    is_place = bytearray(len(ranges))
    for item in ranked:
        is_place[(item & PLACE) - first] = 1
    flat.is_place.extend(is_place)
    return ranked


def meanings_of(
    flat: Flat, chains: Chains, ranges: Sequence[int], numbers: dict[tuple[int, int], int]
) -> Iterator[int]:
    """What each range means; meanings that are new are added."""
    for own in ranges:
        found = chains.at_range(own)
        number = numbers.get(found)
        if number is None:
            number = numbers[found] = len(flat.meanings)
            flat.meanings.append(found)
        yield number
