"""What of a dump other projects can find: the vertices that have import or export monikers, with
the results that a join leads to.

A join goes by an import to an export, and for references by either to either. So a vertex with
imports alone is found for its references.
"""

from __future__ import annotations

from array import array
from typing import Iterator, NamedTuple

from codenav.dumps.tables.graph import EDGES, HOVER, KINDS, NONE, REFERENCES, SET, Graph
from codenav.sets.split.chains import chain_from, moniker_groups

EITHER, EXPORT = 1, 2


class Bearer(NamedTuple):
    """A vertex that others find: its monikers, and its first result of each request that it's found
    for."""

    monikers: list[int]
    results: list[tuple[int, int]]


def first_results(graph: Graph) -> list[array[int]]:
    """For each request the first result of each result set along its `next` edges."""
    firsts = [array("i", bound) for bound in graph.bound]
    is_done = bytearray(len(graph.after_set))
    for first in range(len(is_done)):
        for own in reversed(chain_from(graph, first, is_done)):
            is_done[own] = 1
            take_after(firsts, own, graph.after_set[own])
    return firsts


def take_after(firsts: list[array[int]], own: int, after: int) -> None:
    """Gives a result set the first results of the one that it goes on to, where it has none
    itself."""
    for results in firsts if after != NONE else ():
        if results[own] == NONE:
            results[own] = results[after]


def kinds_of_monikers(graph: Graph) -> bytearray:
    """For each moniker whether it, or one that `attach` edges lead to, is an export (EXPORT), an
    import (EITHER), or neither."""
    kinds = bytearray(len(graph.monikers))
    for group in moniker_groups(graph):
        said = {graph.monikers[own][2] for own in group}
        kind = EXPORT if "export" in said else EITHER if "import" in said else 0
        for own in group:
            kinds[own] = kind
    return kinds


def has_places(graph: Graph) -> bytearray:
    """For each result whether it has a place, leads to other results, or is a hover."""
    found = bytearray(request == HOVER for request in graph.request_of)
    for item in graph.items:
        found[item >> 33] = 1
    for result in graph.leads:
        found[result] = 1
    return found


def line_order(graph: Graph, vertex: int) -> tuple[int, int, int]:
    """The order of a range or a result set among both, by their lines in the dump."""
    own = vertex // KINDS
    return (own, 1, 0) if vertex % KINDS == SET else (graph.sets_before[own], 0, own)


def bearers(graph: Graph) -> Iterator[Bearer]:
    """The vertices that others find, in the order of their lines: a hover that is joined is that of
    the least."""
    firsts, kinds, is_shown = first_results(graph), kinds_of_monikers(graph), has_places(graph)
    for vertex in sorted(graph.borne, key=lambda vertex: line_order(graph, vertex)):
        monikers = [own for own in dict.fromkeys(graph.borne[vertex]) if kinds[own]]
        kind = max((kinds[own] for own in monikers), default=0)
        requests = range(len(EDGES)) if kind == EXPORT else [REFERENCES] if kind else []
        found = ((request, result_of(graph, firsts, vertex, request)) for request in requests)
        results = [pair for pair in found if pair[1] != NONE and is_shown[pair[1]]]
        if results:
            yield Bearer(monikers, results)


def result_of(graph: Graph, firsts: list[array[int]], vertex: int, request: int) -> int:
    """The first result of a vertex for a request, or NONE."""
    own = vertex // KINDS
    if vertex % KINDS == SET:
        return firsts[request][own]
    bound = graph.bound_to_range.get(own)
    if bound is not None and bound[request] != NONE:
        return bound[request]
    after = graph.after_range[own]
    return NONE if after == NONE else firsts[request][after]
