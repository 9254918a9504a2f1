"""The lines that differ between two texts, with those around them."""

from typing import NamedTuple

from codenav.texts.moved.matching import ShortestEdit, patience

STEPS, ALL_STEPS = 20_000, 400_000
"""Of one stretch of changed lines, and of all those of a file."""
AROUND = 3


def same_lines(old: list[str], new: list[str]) -> list[tuple[int, int]]:
    """The lines of two texts that stayed, as pairs of their numbers, in order."""
    return patience(old, new, ShortestEdit(STEPS, ALL_STEPS).pairs)


class Change(NamedTuple):
    """A line of two texts that are compared: its numbers from 1 there, or 0 where it's not in one,
    and its text; a gap of lines that stayed has none, and the numbers behind it."""

    old: int
    new: int
    text: str
    gap: int = 0


def changes(old: list[str], new: list[str]) -> list[Change]:
    """The lines that differ, with those around them."""
    return folded(aligned(old, new), AROUND)


def aligned(old: list[str], new: list[str]) -> list[Change]:
    """The lines of both texts, those that stayed once."""
    found: list[Change] = []
    a = b = 0
    pairs = [*same_lines(old, new), (len(old), len(new))]
    for x, y in pairs:
        found += [Change(one + 1, 0, old[one]) for one in range(a, x)]
        found += [Change(0, one + 1, new[one]) for one in range(b, y)]
        if x < len(old):
            found.append(Change(x + 1, y + 1, old[x]))
        a, b = x + 1, y + 1
    return found


def folded(found: list[Change], around: int) -> list[Change]:
    """The same, with a gap in place of lines that stayed and are far from a change."""
    near = len(found) + around + 1
    distance = [near] * len(found)
    for order in range(len(found)), range(len(found) - 1, -1, -1):
        last = None
        for at in order:
            if not (found[at].old and found[at].new):
                last = at
            if last is not None:
                distance[at] = min(distance[at], abs(at - last))
    kept: list[Change] = []
    skipped = 0
    for change, far in zip(found, distance):
        if far <= around:
            if skipped:
                kept.append(Change(change.old, change.new, "", skipped))
            kept.append(change)
            skipped = 0
        else:
            skipped += 1
    if skipped:
        kept.append(Change(0, 0, "", skipped))
    return kept
