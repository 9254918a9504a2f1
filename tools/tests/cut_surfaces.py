"""Surfaces that are cut to the keys that others have, for tests and for what is reckoned of large
code bases: who has none of a vertex's keys finds nothing by it."""

from typing import Callable, Iterable, Iterator

from codenav.dumps.closure import reached
from codenav.dumps.tables.graph import NONE, Graph, Key
from codenav.sets.surface.found import Bearer, bearers


def key_of(graph: Graph, moniker: int) -> Key:
    """The key of a moniker."""
    package = graph.package_of[moniker]
    of_package = None if package == NONE else graph.packages[package]
    return (*graph.monikers[moniker][:2], of_package)


def keys_of(graph: Graph, monikers: Iterable[int]) -> set[Key]:
    """The keys of monikers, and of those that they're joined to."""
    return {key_of(graph, own) for own in reached(graph.attached, monikers)[0]}


def cut_to(keys: set[Key]) -> Callable[[Graph], Iterator[Bearer]]:
    """What takes the vertices of a dump that who has these keys may find."""

    def found(graph: Graph) -> Iterator[Bearer]:
        return (own for own in bearers(graph) if keys & keys_of(graph, own.monikers))

    return found
