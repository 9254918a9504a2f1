"""Equal items of two lists, in order: what a patience diff pairs, and of these the pairs that could
stand elsewhere.

Patience: the equal ends are paired, then the items that stand once in each list, by their longest
rising sequence, and so on between them. Where nothing stands once, the shortest edit by Myers's
algorithm pairs the rest, or nothing does, if that takes too many steps.
"""

from bisect import bisect_left
from collections import Counter
from typing import Callable, Iterator, Optional, Sequence

Pair = tuple[int, int]
Rest = Callable[[Sequence[str], Sequence[str]], list[Pair]]

LEVELS = 60
"""How often what lies between unique items is looked at again: a level goes over all that is left
once."""


def rising(pairs: list[Pair]) -> list[Pair]:
    """The longest part of the pairs that rises in the second; the pairs rise in the first."""
    lowest: list[int] = []
    ends: list[int] = []
    before: list[int] = []
    for index, (_, second) in enumerate(pairs):
        length = bisect_left(lowest, second)
        before.append(ends[length - 1] if length else -1)
        lowest[length : length + 1] = [second]
        ends[length : length + 1] = [index]
    found: list[Pair] = []
    index = ends[-1] if ends else -1
    while index >= 0:
        found.append(pairs[index])
        index = before[index]
    return found[::-1]


def unique_pairs(old: Sequence[str], new: Sequence[str]) -> list[Pair]:
    """The longest rising sequence of the items that stand once in each list."""
    in_old, in_new = Counter(old), Counter(new)
    place = {item: at for at, item in enumerate(new) if in_new[item] == 1}
    return rising(
        [(at, place[item]) for at, item in enumerate(old) if in_old[item] == 1 and item in place]
    )


def equal_ends(old: Sequence[str], new: Sequence[str]) -> tuple[int, int]:
    """How many items are equal at the beginning, and how many of the others at the end."""
    shorter = min(len(old), len(new))
    first = last = 0
    while first < shorter and old[first] == new[first]:
        first += 1
    while last < shorter - first and old[-1 - last] == new[-1 - last]:
        last += 1
    return first, last


def patience(old: Sequence[str], new: Sequence[str], rest: Optional[Rest] = None) -> list[Pair]:
    """Pairs of equal items that rise in both lists; `rest` pairs those of a stretch in which no
    item stands once."""
    pairs: list[Pair] = []
    stretches = [(0, len(old), 0, len(new), 0)]
    while stretches:
        a, a_end, b, b_end, level = stretches.pop()
        first, last = equal_ends(old[a:a_end], new[b:b_end])
        pairs += zip(range(a, a + first), range(b, b + first))
        pairs += zip(range(a_end - last, a_end), range(b_end - last, b_end))
        a, a_end, b, b_end = a + first, a_end - last, b + first, b_end - last
        if a == a_end or b == b_end:
            continue
        found = unique_pairs(old[a:a_end], new[b:b_end]) if level < LEVELS else []
        anchors = [(a + x, b + y) for x, y in found]
        if not anchors and rest:
            pairs += [(a + x, b + y) for x, y in rest(old[a:a_end], new[b:b_end])]
        if anchors:
            pairs += anchors
            begins = [(a, b), *((x + 1, y + 1) for x, y in anchors)]
            ends = [*anchors, (a_end, b_end)]
            stretches += ((x, p, y, q, level + 1) for (x, y), (p, q) in zip(begins, ends))
    return sorted(pairs)


class ShortestEdit:
    """Myers's algorithm ("An O(ND) Difference Algorithm and Its Variations", 1986), with a limit of
    steps for a call and one for all calls."""

    def __init__(self, most: int, in_all: int) -> None:
        self.most, self.left = most, in_all

    def pairs(self, old: Sequence[str], new: Sequence[str]) -> list[Pair]:
        """The equal pairs of a shortest edit; none where it takes too many steps, of which a number
        of edits takes at least its square."""
        common = sum((Counter(old) & Counter(new)).values())
        steps = min(self.most, self.left)
        if (len(old) + len(new) - 2 * common + 1) ** 2 > steps:
            return []
        reach = {1: 0}
        trail: list[dict[int, int]] = []
        end = self.left - steps
        for edits in range(len(old) + len(new) + 1):
            self.left -= 2 * edits + 1
            if self.left < end:
                return []
            trail.append(dict(reach))
            if self.go(old, new, reach, edits):
                return back(trail, len(old), len(new))
        return []

    def go(self, old: Sequence[str], new: Sequence[str], reach: dict[int, int], edits: int) -> bool:
        """Goes as far as a number of edits leads on each diagonal; whether that's to the end."""
        for k in range(-edits, edits + 1, 2):
            start = x = reach[k + 1] if came_down(reach, k, edits) else reach[k - 1] + 1
            while x < len(old) and x - k < len(new) and old[x] == new[x - k]:
                x += 1
            reach[k] = x
            self.left -= x - start
            if x >= len(old) and x - k >= len(new):
                return True
        return False


def back(trail: list[dict[int, int]], x: int, y: int) -> list[Pair]:
    """The equal pairs on the way of a shortest edit, from its end back to the beginning."""
    pairs: list[Pair] = []
    for edits in range(len(trail) - 1, -1, -1):
        reach, k = trail[edits], x - y
        last = k + 1 if came_down(reach, k, edits) else k - 1
        to_x, to_y = (reach[last], reach[last] - last) if edits else (0, 0)
        count = min(x - to_x, y - to_y)
        pairs += [(x - step, y - step) for step in range(1, count + 1)]
        x, y = to_x, to_y
    return pairs[::-1]


def came_down(reach: dict[int, int], k: int, edits: int) -> bool:
    """Whether the way to a diagonal comes by an insertion, and not by a deletion."""
    return k == -edits or (k != edits and reach.get(k - 1, -1) < reach.get(k + 1, -1))


def runs(pairs: list[Pair]) -> Iterator[list[Pair]]:
    """The pairs, divided where either list has something between two of them."""
    run: list[Pair] = []
    for pair in pairs:
        if run and pair != (run[-1][0] + 1, run[-1][1] + 1):
            yield run
            run = []
        run.append(pair)
    if run:
        yield run


def sliding(pairs: list[Pair], old: Sequence[str], new: Sequence[str]) -> set[Pair]:
    """The pairs that an insertion or a deletion beside them could as well stand on the other side
    of, with the same result.

    Of `f(x)` that became `f(x, x)` nobody knows which `x` is the old one.
    """
    loose: set[Pair] = set()
    known = set(pairs)
    ends = [(-1, -1), *pairs, (len(old), len(new))]
    for first, last in zip(ends, ends[1:]):
        added, removed = last[1] - first[1] - 1, last[0] - first[0] - 1
        if added and not removed:
            loose |= slid(known, first, last, new, 1)
        elif removed and not added:
            loose |= slid(known, first, last, old, 0)
    return loose


def slid(known: set[Pair], first: Pair, last: Pair, items: Sequence[str], side: int) -> set[Pair]:
    """The pairs before and after a gap of one list that the gap can move over: its own items repeat
    there."""
    loose: set[Pair] = set()
    for (x, y), step, other in (first, -1, last[side] - 1), (last, 1, first[side] + 1):
        while (x, y) in known and items[(x, y)[side]] == items[other]:
            loose.add((x, y))
            x, y, other = x + step, y + step, other + step
    return loose
