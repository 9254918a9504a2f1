"""What a range or a result set of a dump has along its `next` edges: its first results and its
marks."""

from __future__ import annotations

from typing import Iterator, Optional, Sequence

from codenav.dumps.closure import reached
from codenav.dumps.tables.graph import KINDS, NONE, RANGE, SET, Graph, Key
from codenav.faults import NotADump
from codenav.sets.split.flat import NO_RESULT, Firsts, Flat, Marks

MOST_STEPS = 20_000_000
MOST_MARKS = 8_000_000


def key_numbers(graph: Graph) -> tuple[list[Key], list[int]]:
    """The keys in their order, and the key of each moniker."""
    own: list[Key] = [
        (scheme, identifier, None if package == NONE else graph.packages[package])
        for (scheme, identifier, _), package in zip(graph.monikers, graph.package_of)
    ]
    keys = sorted(set(own), key=lambda key: (key[0], key[1], key[2] or ()))
    number = {key: place for place, key in enumerate(keys)}
    return keys, [number[key] for key in own]


def moniker_groups(graph: Graph) -> Iterator[list[int]]:
    """The monikers in groups of those that `attach` edges join."""
    seen = bytearray(len(graph.monikers))
    for first in range(len(seen)):
        if not seen[first]:
            group = list(reached(graph.attached, [first])[0])
            for own in group:
                seen[own] = 1
            yield group


def marks_of_monikers(graph: Graph, keys: list[int]) -> list[Marks]:
    """The marks of each moniker and of those that `attach` edges lead to from it; those that are
    joined so share them."""
    found: list[Marks] = [frozenset()] * len(graph.monikers)
    for group in moniker_groups(graph):
        marks = frozenset(
            keys[own] * 2 + (graph.monikers[own][2] == "export")
            for own in group
            if graph.monikers[own][2] != "local"
        )
        for own in group:
            found[own] = marks
    return found


def chain_from(graph: Graph, first: int, done: Sequence[object]) -> list[int]:
    """The result sets from one on along `next` edges, up to one that is done; raises NotADump at a
    cycle."""
    chain, step = list[int](), first
    while step != NONE and not done[step]:
        chain.append(step)
        if len(chain) > len(graph.after_set):
            raise NotADump("`next` edges close a cycle (L14)")
        step = graph.after_set[step]
    return chain


class Chains:
    """What a vertex has along its `next` edges."""

    def __init__(self, graph: Graph, flat: Flat, keys: list[int]) -> None:
        self.graph, self.flat = graph, flat
        self.room, self.steps = MOST_MARKS, MOST_STEPS
        flat.firsts.append(NO_RESULT)
        flat.numbers[NO_RESULT] = 0
        self.marks_numbers: dict[Marks, int] = {}
        self.joined: dict[tuple[int, int], int] = {}
        self.number_of(frozenset())
        of_moniker = [self.number_of(marks) for marks in marks_of_monikers(graph, keys)]
        self.own_marks: dict[int, int] = {
            vertex: self.together([of_moniker[moniker] for moniker in monikers])
            for vertex, monikers in graph.borne.items()
        }
        self.of_set: list[Optional[tuple[int, int]]] = [None] * len(graph.after_set)

    def with_own(
        self, vertex: int, own: Optional[Firsts], after: tuple[int, int]
    ) -> tuple[int, int]:
        """What a vertex has that has results itself, or none, and goes on to one that has this."""
        firsts, marks = after
        if own is not None:
            later = self.flat.firsts[firsts]
            firsts = self.flat.firsts_number(
                tuple(mine if mine != NONE else other for mine, other in zip(own, later))
            )
        mine = self.own_marks.get(vertex, 0)
        if not mine or mine == marks:
            return firsts, marks
        both = self.joined.get((mine, marks))
        if both is None:
            both = self.joined[mine, marks] = self.together([mine, marks])
        return firsts, both

    def number_of(self, marks: Marks) -> int:
        """The number of these marks, which are added where they're new."""
        number = self.marks_numbers.setdefault(marks, len(self.flat.marks))
        if number == len(self.flat.marks):
            self.flat.marks.append(marks)
            self.take_room(len(marks))
        return number

    def together(self, numbers: Sequence[int]) -> int:
        """The number of the marks of all."""
        several = set(numbers) - {0}
        if len(several) < 2:
            return max(several, default=0)
        every = [self.flat.marks[number] for number in several]
        self.take_room(0, sum(map(len, every)))
        return self.number_of(frozenset().union(*every))

    def take_room(self, count: int, steps: int = 0) -> None:
        """Takes room for marks, and steps to find them; raises NotADump where there are too many of
        them."""
        self.room -= count
        self.steps -= steps
        if self.room < 0 or self.steps < 0:
            raise NotADump("too many monikers along `next` and `attach` edges (S02)")

    def at_set(self, own: int) -> tuple[int, int]:
        """What a result set has; raises NotADump at a cycle."""
        known = self.of_set[own]
        if known is not None:
            return known
        chain = chain_from(self.graph, own, self.of_set)
        last = self.graph.after_set[chain[-1]]
        found = (0, 0) if last == NONE else self.of_set[last]
        assert found is not None
        for member in reversed(chain):
            bound = tuple(results[member] for results in self.graph.bound)
            found = self.with_own(
                member * KINDS + SET, None if bound == NO_RESULT else bound, found
            )
            self.of_set[member] = found
        return found

    def at_range(self, own: int) -> tuple[int, int]:
        """What a range has."""
        after = self.graph.after_range[own]
        found = (0, 0) if after == NONE else self.at_set(after)
        bound = self.graph.bound_to_range.get(own)
        code = own * KINDS + RANGE
        if bound is None and code not in self.own_marks:
            return found
        return self.with_own(code, None if bound is None else tuple(bound), found)

    def bearers(self) -> set[tuple[int, int]]:
        """What others find by a mark: the first results of each vertex that has a moniker, where
        there is one, and the mark."""
        found = set()
        for vertex, own in self.own_marks.items():
            marks = self.flat.marks[own]
            at = self.at_set if vertex % KINDS == SET else self.at_range
            firsts = at(vertex // KINDS)[0]
            if firsts:
                self.take_room(len(marks))
                found |= {(firsts, mark) for mark in marks}
        return found
