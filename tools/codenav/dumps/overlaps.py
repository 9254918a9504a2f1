"""Which ranges of a document stay: equal ones are one place, and of two that overlap and aren't
nested the smaller stays."""

from typing import Any, Callable, Iterable, Iterator, NamedTuple, Optional, Sequence

Place = tuple[int, int]


class Outcome(NamedTuple):
    """The ranges that are equal to an earlier one, with that; those that have to go; and the one
    that lies around all others, if it's so."""

    equal: dict[int, int]
    crossing: list[int]
    around: Optional[int]


def sorted_out(ranges: Sequence[int], place_of: Callable[[int], Place]) -> Outcome:
    """What becomes of the ranges of a document, of which the earlier stand first. `place_of` is a
    range's start and end, packed by `line << 31 | character`."""
    equal: dict[int, int] = {}
    first: dict[Place, int] = {}
    for own in ranges:
        kept = first.setdefault(place_of(own), own)
        if kept != own:
            equal[own] = kept
    places = sorted(first, key=lambda place: (place[0], -place[1]))
    gone = set(crossed(places)) if any(crossing(places)) else set()
    stay = [place for place in places if place not in gone]
    around = first[stay[0]] if stay and is_around(stay) else None
    return Outcome(equal, [first[place] for place in places if place in gone], around)


def is_around(places: Sequence[Place]) -> bool:
    """Whether the first place begins where the document does, goes over lines, and ends behind all
    others."""
    start, end = places[0]
    return start == 0 and end >> 31 > 0 and end == max(place[1] for place in places)


def crossing(places: Iterable[tuple[Any, Any]]) -> Iterator[tuple[int, int]]:
    """Of places in order, by their starts and the larger first, the numbers of those that are equal,
    or overlap and aren't nested: a pair for each place that must go so that none is left, which
    comes second."""
    covering: list[tuple[Any, int]] = []
    before: tuple[Any, int] = None, 0
    for number, place in enumerate(places):
        start, end = place
        while covering and covering[-1][0] <= start:
            covering.pop()
        if place == before[0]:
            yield before[1], number
            continue
        before = place, number
        if covering and covering[-1][0] < end:
            yield covering[-1][1], number
        elif start < end:
            covering.append((end, number))


def size(place: Place) -> Place:
    """How large a place is: its lines, then its characters."""
    start, end = place
    lines = (end >> 31) - (start >> 31)
    return lines, (end & 0x7FFFFFFF) - (0 if lines else start & 0x7FFFFFFF)


def crossed(places: Sequence[Place]) -> Iterator[Place]:
    """The places that go: taken from the smallest to the largest, one stays unless it crosses one
    that stays.

    For each start the furthest end of what stays is kept in a tree of greatest values, and for each
    end the least start: so it takes a logarithm of their number to see whether what stays begins
    within a place and ends behind it, or ends within it and begins before.
    """
    real = [place for place in places if place[0] < place[1]]
    bounds = {bound: at for at, bound in enumerate(sorted({b for place in real for b in place}))}
    furthest, nearest = Greatest(len(bounds)), Greatest(len(bounds))
    for place in sorted(real, key=lambda place: (size(place), place)):
        start, end = bounds[place[0]], bounds[place[1]]
        if furthest.within(start + 1, end) > end or -nearest.within(start + 1, end) < start:
            yield place
            continue
        furthest.add(start, end)
        nearest.add(end, -start)


class Greatest:
    """A table of numbers of which the greatest in a part is found in steps that grow as a
    logarithm: a segment tree."""

    def __init__(self, size: int) -> None:
        self.size = size
        self.tree = [-(1 << 62)] * (2 * size)

    def add(self, at: int, value: int) -> None:
        """Raises the number at a place to a value."""
        at += self.size
        while at and self.tree[at] < value:
            self.tree[at] = value
            at >>= 1

    def within(self, start: int, end: int) -> int:
        """The greatest number from one place to before another; far below zero where there is
        none."""
        found, low, high = -(1 << 62), start + self.size, end + self.size
        while low < high:
            if low & 1:
                found, low = max(found, self.tree[low]), low + 1
            if high & 1:
                high -= 1
                found = max(found, self.tree[high])
            low, high = low >> 1, high >> 1
        return found


def by_home(numbers: Iterable[int], home: Any) -> dict[int, list[int]]:
    """The ranges of each document."""
    found: dict[int, list[int]] = {}
    for number in numbers:
        found.setdefault(home[number], []).append(number)
    return found
