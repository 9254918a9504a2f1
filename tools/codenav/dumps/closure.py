"""What pairs lead to, in any number of steps."""

from typing import Iterable, Mapping, Sequence, TypeVar

Own = TypeVar("Own")
NO_LIMIT = 1 << 62


def reached(
    pairs: Mapping[Own, Sequence[Own]], starts: Iterable[Own], most: int = NO_LIMIT
) -> tuple[dict[Own, None], bool, int]:
    """What pairs lead to from starts, which come first; whether there may be more, for it ends
    early behind more than so many pairs; and how many it went over."""
    found = dict.fromkeys(starts)
    todo, gone = list(found), 0
    while todo and gone <= most:
        targets = pairs.get(todo.pop(), ())
        gone += len(targets)
        for own in targets:
            if own not in found:
                found[own] = None
                todo.append(own)
    return found, bool(todo), gone
