"""Lines that were copied: where most lines of a stretch stood once and stand twice now, no text
says which of the copies was there before."""

from collections import Counter
from typing import Sequence

BESIDE = 3
"""How many lines before and behind a line are looked at, of those that stand once in their text."""


def copied(keys: Sequence[str], own: Counter[str], other: Counter[str]) -> set[int]:
    """The lines around which most of what stands once in their text stands several times in the
    other one."""
    single = [at for at, key in enumerate(keys) if key and own[key] == 1]
    sums = [0]
    for at in single:
        sums.append(sums[-1] + (other[keys[at]] > 1))
    found: set[int] = set()
    passed = 0
    for at in range(len(keys)):
        first = max(0, passed - BESIDE)
        passed += passed < len(single) and single[passed] == at
        last = min(len(single), passed + BESIDE)
        if 2 * (sums[last] - sums[first]) > last - first:
            found.add(at)
    return found
